"""beside.py ONE OTHER [--seed S] [--count N]: random operations in two folders.

Each operation is made in ONE and in OTHER, two empty folders, and has to have the same outcome in
both: what it returns or its error. At the end the folders have to hold the same. Each difference is
printed, and then a line that says how many operations there were; the status is 0 if none differed.
"""
from __future__ import annotations

import argparse
import ctypes
import errno
import os
import random
import stat
import sys
from typing import Any, Callable

import mounts

NAMES = ("f", "g", "h", "d", "e", "l")
MODES = (0o644, 0o755, 0o600, 0o4711, 0o2755, 0o444)
OPENED = (os.O_RDONLY, os.O_WRONLY, os.O_RDWR)
ADDED = (0, 0, os.O_CREAT, os.O_CREAT, os.O_CREAT | os.O_EXCL, os.O_TRUNC, os.O_APPEND,
         os.O_CREAT | os.O_APPEND, os.O_CREAT | os.O_TRUNC, os.O_NOFOLLOW, os.O_DIRECTORY)
NO_REPLACE = 1
# the times that are set are before this one, and those of the clock are after it
FIRST_OF_CLOCK = 10**18
LIBC = ctypes.CDLL(None, use_errno=True)


class Root:
    """One of the folders, and the files that are open in it."""

    def __init__(self, top: str):
        self.top = top
        self.open: dict[int, int] = {}

    def path(self, name: str) -> str:
        return f"{self.top}/{name}"


class Choice:
    """What an operation is made with, alike in both folders."""

    def __init__(self, source: random.Random, slots: list[int], number: int):
        self.path = self._path(source)
        self.other = self._path(source)
        self.size = source.randrange(1_000_000)
        self.slot = source.choice(slots) if slots else -1
        self.number = number

    @staticmethod
    def _path(source: random.Random) -> str:
        return "/".join(source.choice(NAMES) for _ in range(source.choice((1, 1, 2, 2, 3))))

    def bytes(self) -> bytes:
        return bytes([self.size % 251]) * (self.size % 9_000)

    def of(self, values: tuple) -> Any:
        return values[self.size // 7 % len(values)]


def told(found: os.stat_result) -> tuple:
    """The status of a file, from stat. A directory and a link have no time, and any size."""
    if stat.S_ISLNK(found.st_mode):
        return ("link",)
    shown = oct(found.st_mode), found.st_uid, found.st_gid
    if stat.S_ISDIR(found.st_mode):
        return shown
    time = found.st_mtime_ns if found.st_mtime_ns < FIRST_OF_CLOCK else "of the clock"
    return (*shown, found.st_size, found.st_nlink, time)


def seek(root: Root, choice: Choice, whence: int) -> int:
    """(Each file system has offsets of its own in a directory.)"""
    fd = root.open[choice.slot]
    return 0 if stat.S_ISDIR(os.fstat(fd).st_mode) else os.lseek(fd, choice.size % 9_000, whence)


def open_file(root: Root, choice: Choice) -> tuple:
    flags = choice.of(OPENED) | ADDED[choice.size % len(ADDED)]
    fd = os.open(root.path(choice.path), flags, choice.of(MODES))
    root.open[choice.number] = fd
    return told(os.fstat(fd))


def close_file(root: Root, choice: Choice) -> None:
    os.close(root.open.pop(choice.slot))


def write_anew(root: Root, choice: Choice) -> None:
    with open(root.path(choice.path), choice.of(("wb", "ab", "r+b", "xb")), buffering=0) as file:
        file.write(choice.bytes())


def read_whole(root: Root, choice: Choice) -> bytes:
    with open(root.path(choice.path), "rb") as file:
        return file.read()


def times(choice: Choice) -> tuple[int, int]:
    return 1, choice.size * (FIRST_OF_CLOCK // 1_000_000) + choice.number


def rename_if_absent(root: Root, choice: Choice) -> None:
    words = (-100, os.fsencode(root.path(choice.path)), -100, os.fsencode(root.path(choice.other)))
    if LIBC.renameat2(*words, NO_REPLACE) != 0:
        raise OSError(ctypes.get_errno(), "renameat2")


OPERATIONS: dict[Callable[[Root, Choice], Any], int] = {
    open_file: 5,
    write_anew: 2,
    read_whole: 2,
    rename_if_absent: 1,
    lambda root, at: os.mkdir(root.path(at.path), at.of((0o755, 0o700, 0o1777))): 3,
    lambda root, at: os.rmdir(root.path(at.path)): 2,
    lambda root, at: os.unlink(root.path(at.path)): 2,
    lambda root, at: os.rename(root.path(at.path), root.path(at.other)): 3,
    lambda root, at: os.link(root.path(at.path), root.path(at.other), follow_symlinks=False): 2,
    lambda root, at: os.symlink(at.other, root.path(at.path)): 1,
    lambda root, at: os.readlink(root.path(at.path)): 1,
    lambda root, at: os.chmod(root.path(at.path), at.of(MODES)): 1,
    lambda root, at: os.chown(root.path(at.path), at.size % 9, -1, follow_symlinks=True): 1,
    lambda root, at: os.utime(root.path(at.path), ns=times(at)): 1,
    lambda root, at: os.truncate(root.path(at.path), at.size % 12_000): 1,
    lambda root, at: sorted(os.listdir(root.path(at.path))): 1,
    lambda root, at: told(os.lstat(root.path(at.path))): 2,
    lambda root, at: told(os.stat(root.path(at.path))): 1,
}
# those of a file that is open, which may have been renamed or unlinked meanwhile
OF_OPEN_FILES: dict[Callable[[Root, Choice], Any], int] = {
    close_file: 4,
    lambda root, at: os.write(root.open[at.slot], at.bytes()): 3,
    lambda root, at: os.pwrite(root.open[at.slot], at.bytes(), at.size % 20_000): 2,
    lambda root, at: os.read(root.open[at.slot], at.size % 9_000): 2,
    lambda root, at: os.pread(root.open[at.slot], at.size % 9_000, at.size % 10_000): 2,
    lambda root, at: seek(root, at, os.SEEK_SET): 1,
    lambda root, at: seek(root, at, os.SEEK_END): 1,
    lambda root, at: os.ftruncate(root.open[at.slot], at.size % 12_000): 1,
    lambda root, at: os.utime(root.open[at.slot], ns=times(at)): 1,
    lambda root, at: os.fchmod(root.open[at.slot], at.of(MODES)): 1,
    lambda root, at: os.fsync(root.open[at.slot]): 1,
    lambda root, at: told(os.fstat(root.open[at.slot])): 2,
}


def outcome(operation: Callable[[Root, Choice], Any], root: Root, choice: Choice) -> Any:
    try:
        return operation(root, choice)
    except OSError as error:
        return errno.errorcode[error.errno or 0]


class Beside:
    """Operations in two folders."""

    def __init__(self, one: str, other: str, seed: int):
        self.roots = Root(one), Root(other)
        self.source = random.Random(seed)
        self.made = 0
        self.differing: list[str] = []

    def _one(self) -> None:
        slots = sorted(self.roots[0].open)
        of_open = slots and self.source.random() < (0.3 if len(slots) < 12 else 0.9)
        among = OF_OPEN_FILES if of_open else OPERATIONS
        operation = self.source.choices(list(among), list(among.values()))[0]
        choice = Choice(self.source, slots, self.made)
        self.made += 1
        one, other = (outcome(operation, root, choice) for root in self.roots)
        if one != other:
            line = operation.__code__.co_firstlineno
            self.differing.append(f"operation {choice.number} (line {line}) {choice.path} "
                                  f"{choice.other}: {one!r:.60} and {other!r:.60}")

    def run(self, count: int) -> None:
        for _ in range(count):
            self._one()

    def close(self) -> None:
        """Closes all files. (One that could be opened in only one folder is already reported.)"""
        for root in self.roots:
            while root.open:
                os.close(root.open.popitem()[1])

    def compare(self) -> None:
        """Whether the folders hold the same; files have the times of when each was written."""
        held = [mounts.told_of(root.top, None) for root in self.roots]
        self.differing += filter(None, [mounts.difference(*held)])


def main() -> int:
    parser = argparse.ArgumentParser(description=__doc__)
    parser.add_argument("one")
    parser.add_argument("other")
    parser.add_argument("--seed", type=int, default=1)
    parser.add_argument("--count", type=int, default=10_000)
    given = parser.parse_args()
    beside = Beside(given.one, given.other, given.seed)
    os.umask(0)
    beside.run(given.count)
    beside.compare()
    beside.close()
    beside.compare()
    print("\n".join(beside.differing[:20]))
    print(f"{beside.made} operations, {len(beside.differing)} differ")
    return bool(beside.differing)


if __name__ == "__main__":
    sys.exit(main())
