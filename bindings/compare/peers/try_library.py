"""try_library.py: this project's library, by its package for Python, once make has built it."""
import sys
from pathlib import Path

sys.path.insert(0, str(Path(__file__).resolve().parents[2] / "python"))

import asked  # noqa: E402

try:
    import nuzolged
except ImportError:
    asked.skip("library (make -C bindings)")


class Step:
    def __init__(self, around, tree):
        self.tree = tree
        self.transaction = around.begin()

    def begin(self):
        return Step(self.transaction, self.tree)

    def make(self, name, data):
        try:
            self.transaction.write_bytes(name, data)
        except nuzolged.Waits as error:
            raise asked.Blocked(str(error), str(error.blockers)) from error

    def names(self):
        return sorted(self.transaction.listdir("/"))

    def keep(self):
        self.transaction.commit()

    def undo(self):
        self.transaction.abort()


class Memory(asked.Peer):
    def __init__(self, top):
        super().__init__(top)
        self.tree = nuzolged.Tree()

    def begin(self):
        return Step(self.tree, self.tree)

    def names(self):
        with self.tree.begin() as look:
            return sorted(look.listdir("/"))

    def path(self, name):
        """Where the file would be, if the system had it."""
        return self.top / name

    def close(self):
        self.tree.close()

    def answer_kept(self):
        step = self.begin()
        step.make("a", b"some")
        step.transaction.chmod("a", 0o750)
        step.transaction.symlink("a", "link")
        step.keep()
        nuzolged.copy_out(self.tree, self.top / "saved")
        return asked.modes_and_links(self.top / "saved/a", self.top / "saved/link")


if __name__ == "__main__":
    asked.main(Memory, f"nuzolged {nuzolged.__version__}")
