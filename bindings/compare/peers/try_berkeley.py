"""try_berkeley.py: nested transactions of Berkeley DB, on names and bytes in a B-tree.

It locks by the page. Three steps in one directory are tried twice: with their names in one page,
and with others between them, so that each has a page of its own.
"""
import os
import shutil
import subprocess

import asked

try:
    from bsddb3 import db
except ImportError:
    try:
        from berkeleydb import db
    except ImportError:
        asked.skip("bsddb3 or berkeleydb for this Python (python3-bsddb3)")

TRANSACTIONS = db.DB_INIT_TXN | db.DB_INIT_LOCK | db.DB_INIT_LOG | db.DB_INIT_MPOOL
PAGE = 512
HAS_REPORT = shutil.which("db_stat") is not None


class Transaction:
    """A step. It fails if it would have to wait."""

    def __init__(self, base, around=None):
        self.base = base
        self.transaction = base.environment.txn_begin(around, db.DB_TXN_NOWAIT)

    def begin(self):
        return Transaction(self.base, self.transaction)

    def make(self, name, data):
        try:
            self.base.files.put(name.encode(), data, txn=self.transaction)
        except (db.DBLockNotGrantedError, db.DBLockDeadlockError) as error:
            raise asked.Blocked(str(error)) from error

    def names(self):
        return names_of(self.base.files, self.transaction)

    def keep(self):
        self.transaction.commit()

    def undo(self):
        self.transaction.abort()


def names_of(files, transaction=None):
    """Returns the names of one letter. (Others fill the pages.)"""
    return [name.decode() for name in files.keys(transaction) if len(name) == 1]


class Base(asked.Peer):
    def __init__(self, top, flags=db.DB_CREATE | db.DB_RECOVER):
        super().__init__(top)
        self.environment = db.DBEnv()
        self.environment.open(os.fspath(top), TRANSACTIONS | flags)
        self.files = db.DB(self.environment)
        self.files.set_pagesize(PAGE)
        words = {"dbtype": db.DB_BTREE, "flags": db.DB_CREATE | db.DB_AUTO_COMMIT}
        self.files.open("files", **words)

    def begin(self):
        return Transaction(self)

    def names(self):
        return names_of(self.files)

    def close(self):
        self.files.close()
        self.environment.close()

    def answer_seen(self):
        return asked.seen_by_library(self, lambda: Base(self.top, 0))

    def answer_together(self):
        try:
            return asked.together(self)
        except asked.Blocked as error:
            one_page = str(error)
        (self.top / "spread").mkdir()
        spread = Base(self.top / "spread")
        for name in (f"{letter}{number}" for letter in "abc" for number in range(9)):
            spread.files.put(name.encode(), bytes(PAGE // 6))
        answer, text = asked.together(spread)
        return "partly" if answer == "yes" else "no", f"in one page {one_page}; else {text}"

    def answer_blocks(self):
        """The error does not name the step, but if the second one waits, in another process, a
        report has both."""
        one = self.begin()
        one.make("a", b"of one")
        report = []
        asked.keeps_waiting(self.wait, lambda: report.extend(self.lockers()))
        if {"HELD", "WAIT"} <= set(report):
            return "partly", "db_stat -Co has the lockers of a page that hold it and that wait"
        return asked.blocks(self)

    def wait(self):
        base = Base(self.top, 0)
        transaction = base.environment.txn_begin()
        base.files.put(b"a", b"of two", txn=transaction)

    def lockers(self):
        """Returns the words of the report about locks, with their states."""
        report = ["db_stat", "-Co", "-h", str(self.top)]
        ended = subprocess.run(report, capture_output=True, text=True) if HAS_REPORT else None
        return ended.stdout.split() if ended else []


if __name__ == "__main__":
    asked.main(Base, "Berkeley DB {}.{}.{}".format(*db.version()))
