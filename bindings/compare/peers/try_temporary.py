"""try_temporary.py: a copy of the directory for each step, which takes its place by one rename.

The directory is a symbolic link to a folder, so that rename replaces it at one moment. A step of a
step is a copy of the copy.
"""
import os
import shutil
import tempfile
from pathlib import Path

import asked


class Copy:
    """A step: a copy of a folder."""

    def __init__(self, around):
        self.around = around
        self.folder = around.copied()

    def begin(self):
        return Copy(self)

    def copied(self):
        return copy_of(self.folder, self.around.top)

    @property
    def top(self):
        return self.around.top

    def make(self, name, data):
        (self.folder / name).write_bytes(data)

    def names(self):
        return sorted(os.listdir(self.folder))

    def take(self, folder):
        """Replaces its folder by that of a step."""
        shutil.rmtree(self.folder)
        self.folder = folder

    def keep(self):
        self.around.take(self.folder)

    def undo(self):
        shutil.rmtree(self.folder)


def copy_of(folder, top):
    copied = Path(tempfile.mkdtemp(dir=top))
    return Path(shutil.copytree(folder, copied, symlinks=True, dirs_exist_ok=True))


class Directory(asked.Peer):
    """The directory that the steps work on."""

    def __init__(self, top):
        super().__init__(top)
        if not (top / "target").exists():
            (top / "first").mkdir()
            self.take(top / "first")

    def begin(self):
        return Copy(self)

    def copied(self):
        return copy_of(self.top / "target", self.top)

    def names(self):
        return sorted(os.listdir(self.top / "target"))

    def path(self, name):
        return self.top / "target" / name

    def take(self, folder):
        os.symlink(folder, self.top / "new")
        os.rename(self.top / "new", self.top / "target")


if __name__ == "__main__":
    asked.main(Directory, f"Linux {os.uname().release}")
