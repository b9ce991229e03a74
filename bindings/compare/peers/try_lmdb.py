"""try_lmdb.py: nested transactions of LMDB, on names and bytes."""
import os

import asked

try:
    import lmdb
except ImportError:
    asked.skip("lmdb for this Python (python3-lmdb)")


def opened(top):
    # (it locks by the file, so each process opens it)
    return lmdb.open(os.fsencode(top), map_size=1 << 20)


class Write:
    """A step: a transaction, or one in it."""

    def __init__(self, environment, around=None):
        self.environment = environment
        self.transaction = environment.begin(parent=around, write=True)

    def begin(self):
        return Write(self.environment, self.transaction)

    def make(self, name, data):
        self.transaction.put(name.encode(), data)

    def names(self):
        return [name.decode() for name, _ in self.transaction.cursor()]

    def keep(self):
        self.transaction.commit()

    def undo(self):
        self.transaction.abort()


class Environment(asked.Peer):
    def __init__(self, top):
        super().__init__(top)
        self.environment = opened(top)

    def begin(self):
        if asked.keeps_waiting(lambda: opened(self.top).begin(write=True).abort()):
            raise asked.Blocked("to begin a second write waits, and nothing says for which one")
        return Write(self.environment)

    def names(self):
        with self.environment.begin() as transaction:
            return [name.decode() for name, _ in transaction.cursor()]

    def close(self):
        self.environment.close()

    def answer_seen(self):
        return asked.seen_by_library(self, lambda: Environment(self.top))


if __name__ == "__main__":
    asked.main(Environment, "LMDB {}.{}.{}".format(*lmdb.version()))
