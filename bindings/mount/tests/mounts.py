"""A mounted tree, what a folder holds, and processes that are killed half way."""
from __future__ import annotations

import hashlib
import os
import shutil
import signal
import stat
import subprocess
import tempfile
import time
import unittest
from pathlib import Path
from typing import Callable, Iterable

# the command that is tried
NUZ = os.environ.get("NUZ", "nuz")
# the most seconds that a command of these tests may take
MOST_SECONDS = 100
# the seconds within which something happens that has to happen at once, on a busy machine
AT_ONCE = 10.0
# whether the tests are made as large as they are meant to be, and not as a gate has time for
IS_WHOLE = os.environ.get("WHOLE") == "1"


def run(*words: object, status: int | None = 0, **options) -> subprocess.CompletedProcess:
    """Runs a command, which has to end with a status."""
    taken = {"stdin": subprocess.DEVNULL, "capture_output": True, "text": True,
             "timeout": MOST_SECONDS, **options}
    ended = subprocess.run([str(word) for word in words], **taken)
    if status is not None and ended.returncode != status:
        told = f"{ended.stdout}{ended.stderr}"
        raise AssertionError(f"{words} ended with {ended.returncode}, not {status}: {told}")
    return ended


def nuz(*words: object, **options) -> subprocess.CompletedProcess:
    return run(NUZ, *words, **options)


def start(*words: object, **options) -> subprocess.Popen:
    """Begins a command that goes on by itself."""
    taken = {"stdin": subprocess.DEVNULL, "stdout": subprocess.DEVNULL,
             "stderr": subprocess.DEVNULL, **options}
    return subprocess.Popen([str(word) for word in words], **taken)


def wait_until(holds: Callable[[], bool], seconds: float = AT_ONCE) -> bool:
    """Whether something becomes true in time."""
    end = time.monotonic() + seconds
    while not holds():
        if time.monotonic() > end:
            return False
        time.sleep(0.001)
    return True


# ---- what a folder holds


def told_of_bytes(path: str) -> str:
    with open(path, "rb") as file:
        return hashlib.sha256(file.read()).hexdigest()


def told_of_one(path: str, told: os.stat_result, with_time: bool) -> tuple:
    """What a name stands for. (Directories and links have no times of their own.)"""
    if stat.S_ISLNK(told.st_mode):
        return "link", os.readlink(path)
    if stat.S_ISDIR(told.st_mode):
        return "directory", oct(told.st_mode), told.st_uid, told.st_gid
    shown = ("file", oct(told.st_mode), told.st_uid, told.st_gid, told.st_size, told.st_nlink,
             told_of_bytes(path))
    return (*shown, told.st_mtime_ns) if with_time else shown


def told_of(top: object, timed: str | None = "") -> dict[str, tuple]:
    """Each path below a folder, with what it stands for, and with the first name of its file.

    Times are told of files whose paths begin with a text.
    """
    held, first = {}, {}
    for here, folders, files in os.walk(str(top)):
        folders.sort()
        for name in sorted(folders + files):
            path = os.path.join(here, name)
            told = os.lstat(path)
            at = os.path.relpath(path, str(top))
            shown = told_of_one(path, told, timed is not None and at.startswith(timed))
            held[at] = (*shown, first.setdefault(told.st_ino, at))
    return held


def difference(one: dict[str, tuple], other: dict[str, tuple]) -> str:
    """The difference of two folders, or nothing."""
    paths = sorted(set(one) | set(other))
    lines = [f"{path}: {one.get(path)} and {other.get(path)}"
             for path in paths if one.get(path) != other.get(path)]
    return "\n".join(lines[:8])


# ---- processes


def children(pid: int) -> list[int]:
    """The processes that a process has begun, those below them too."""
    try:
        below = []
        for task in os.listdir(f"/proc/{pid}/task"):
            text = Path(f"/proc/{pid}/task/{task}/children").read_text()
            below += [int(word) for word in text.split()]
        return below + [each for child in below for each in children(child)]
    except (FileNotFoundError, ProcessLookupError):
        return []


def signal_all(pids: Iterable[int], number: int) -> None:
    for pid in pids:
        try:
            os.kill(pid, number)
        except ProcessLookupError:
            pass


def kill_below(pid: int) -> None:
    """Kills all that a process has begun. (They are stopped first, so that none begins others.)"""
    seen: set[int] = set()
    while set(children(pid)) - seen:
        seen |= set(children(pid))
        signal_all(seen, signal.SIGSTOP)
    signal_all(seen, signal.SIGKILL)


def is_running(pid: int) -> bool:
    """Whether a process has not ended (that nobody has waited for it yet does not count)."""
    try:
        return Path(f"/proc/{pid}/stat").read_text().rpartition(")")[2].split()[0] != "Z"
    except (FileNotFoundError, ProcessLookupError):
        return False


def ended_within(process: subprocess.Popen, seconds: float = AT_ONCE) -> bool:
    try:
        process.wait(seconds)
        return True
    except subprocess.TimeoutExpired:
        return False


# ---- a mounted tree


def is_mounted(top: Path) -> bool:
    """Whether something is mounted there. (A stat of it may fail, as long as a mount ends.)"""
    lines = Path("/proc/self/mounts").read_text().splitlines()
    return any(line.split(" ")[1] == str(top) for line in lines)


class Mount:
    """A tree that is mounted until it is closed."""

    def __init__(self, top: Path, *words: object, **options):
        self.top = top
        top.mkdir(exist_ok=True)
        nuz("mount", top, *words, **options)
        self.job = top / "job"

    def begin(self, name: str) -> Path:
        """Begins a step, and returns its folder."""
        os.mkdir(self.top / name)
        return self.top / name

    def commit(self, name: str, **options) -> subprocess.CompletedProcess:
        return nuz("commit", self.top / name, **options)

    def abort(self, name: str, **options) -> subprocess.CompletedProcess:
        return nuz("abort", self.top / name, **options)

    def undo(self, name: str, **options) -> subprocess.CompletedProcess:
        return nuz("undo", self.top / name, **options)

    def steps(self) -> str:
        return nuz("steps", self.top).stdout

    def serving(self) -> int:
        """The process that serves the mount."""
        for folder in Path("/proc").glob("[0-9]*"):
            try:
                words = (folder / "cmdline").read_bytes().split(b"\0")
            except OSError:
                continue
            if os.fsencode(self.top) in words and b"mount" in words:
                return int(folder.name)
        raise AssertionError("no process serves the mount")

    def close(self) -> None:
        if is_mounted(self.top):
            run("fusermount3", "-u", "-z", self.top, status=None)


class MountTest(unittest.TestCase):
    """A folder of the disk, and trees that are mounted for a test."""

    def setUp(self) -> None:
        self.disk = Path(tempfile.mkdtemp())
        self.addCleanup(shutil.rmtree, self.disk, ignore_errors=True)

    def mount(self, *words: object, **options) -> Mount:
        mounted = Mount(self.disk / "mount", *words, **options)
        self.addCleanup(mounted.close)
        return mounted

    def folder(self, name: str, **files: str) -> Path:
        """A folder of the disk with some files."""
        made = self.disk / name
        made.mkdir()
        for file, text in files.items():
            (made / file).write_text(text)
        return made

    def assert_same(self, one: object, other: object, timed: str | None = "") -> None:
        """Two folders have the same bytes, modes, owners, links, and times of files."""
        self.assertEqual(difference(told_of(one, timed), told_of(other, timed)), "")

    def assert_free(self, mounted: Mount) -> None:
        """Nothing is locked: a new step may list, write and remove all that is there, at once."""
        step = mounted.begin("free")
        begun = time.monotonic()
        for name in os.listdir(step):
            path = step / name
            shutil.rmtree(path) if path.is_dir() and not path.is_symlink() else path.unlink()
        self.assertEqual(os.listdir(step), [])
        self.assertLess(time.monotonic() - begun, AT_ONCE)
        mounted.abort("free")
