"""What calls of the system do in a step, as far as they are not those of any folder."""
from __future__ import annotations

import ctypes
import errno
import fcntl
import os
import random
import re
import shutil
import socket
import stat
import subprocess
import threading
import time
from pathlib import Path
from typing import Any, Callable

import mounts

NOBODY = 65534
EXCHANGE = 2
AT_FDCWD = -100
LIBC = ctypes.CDLL(None, use_errno=True)


def as_nobody(call: Callable[[], Any]) -> int:
    """The errno with which a call of nobody's fails, or 0."""
    child = os.fork()
    if child:
        return os.waitstatus_to_exitcode(os.waitpid(child, 0)[1])
    try:
        os.setgroups([])
        os.setgid(NOBODY)
        os.setuid(NOBODY)
        call()
        os._exit(0)
    except OSError as error:
        os._exit(error.errno or 255)
    finally:
        os._exit(255)


class InStepTest(mounts.MountTest):
    """A step with a file."""

    options: tuple[str, ...] = ()

    def setUp(self) -> None:
        super().setUp()
        self.mounted = self.mount("--from", self.folder("begin", file="text"), *self.options)
        self.step = self.mounted.begin("step")
        self.file = self.step / "file"

    def assert_fails(self, number: int, call: Callable[..., Any], *words: object) -> None:
        with self.assertRaises(OSError) as raised:
            call(*words)
        self.assertEqual(errno.errorcode.get(raised.exception.errno), errno.errorcode[number])

    def calls(self) -> int:
        """How many calls of the tree the step has made."""
        found = re.search(r"(?m)^step txn \d+ calls (\d+)$", self.mounted.steps())
        return int(found[1]) if found else -1


class CallsTest(InStepTest):
    def test_what_is_not_there(self) -> None:
        kinds = ("user", "security", "trusted") if os.geteuid() == 0 else ("user",)
        for name in (f"{kind}.name" for kind in kinds):
            self.assert_fails(errno.EOPNOTSUPP, os.setxattr, self.file, name, b"value")
            self.assert_fails(errno.EOPNOTSUPP, os.getxattr, self.file, name)
        self.assert_fails(errno.EPERM, os.mkfifo, self.step / "pipe")
        with socket.socket(socket.AF_UNIX) as made:
            self.assert_fails(errno.EPERM, made.bind, str(self.step / "socket"))
        if os.geteuid() == 0:
            self.assert_fails(errno.EPERM, os.mknod, self.step / "device", stat.S_IFCHR)
        self.assertEqual(os.listdir(self.step), ["file"])

    def test_exchange_is_refused(self) -> None:
        (self.step / "other").write_text("other")
        words = (AT_FDCWD, os.fsencode(self.file), AT_FDCWD, os.fsencode(self.step / "other"))
        self.assertEqual((LIBC.renameat2(*words, EXCHANGE), ctypes.get_errno()),
                         (-1, errno.EINVAL))
        self.assertEqual(self.file.read_text(), "text")

    def test_data_and_holes(self) -> None:
        with open(self.file, "rb", buffering=0) as file:
            self.assertEqual(os.lseek(file.fileno(), 1, os.SEEK_DATA), 1)
            self.assertEqual(os.lseek(file.fileno(), 1, os.SEEK_HOLE), 4)

    def test_locks_of_files(self) -> None:
        with open(self.file, "r+b") as one, open(self.file, "r+b") as other:
            fcntl.flock(one, fcntl.LOCK_EX)
            self.assert_fails(errno.EWOULDBLOCK, fcntl.flock, other, fcntl.LOCK_EX | fcntl.LOCK_NB)
            fcntl.flock(one, fcntl.LOCK_UN)
            fcntl.flock(other, fcntl.LOCK_EX | fcntl.LOCK_NB)
            fcntl.lockf(one, fcntl.LOCK_EX | fcntl.LOCK_NB)

    def test_names_of_any_bytes(self) -> None:
        step = os.fsencode(self.step)
        names = {bytes([byte]) for byte in range(1, 256)} - {b".", b"/"} | {b"n" * 255}
        for name in names:
            os.mkdir(step + b"/" + name)
        self.assertEqual(set(os.listdir(step)), names | {b"file"})
        self.assert_fails(errno.ENAMETOOLONG, os.mkdir, step + b"/" + b"n" * 256)
        os.symlink(b"t" * 4_095, step + b"/link")
        self.assertEqual(len(os.readlink(step + b"/link")), 4_095)

    def test_many_names_of_a_file(self) -> None:
        for number in range(2_000):
            os.link(self.file, self.step / str(number))
        self.assertEqual(self.file.stat().st_nlink, 2_001)
        self.mounted.commit("step")
        self.assertEqual((self.mounted.job / "1999").stat().st_nlink, 2_001)

    def test_numbers_of_files(self) -> None:
        os.link(self.file, self.step / "link")
        (self.step / "folder").mkdir()
        told = {entry.name: entry.inode() for entry in os.scandir(self.step)}
        self.assertEqual(told, {name: os.lstat(self.step / name).st_ino for name in told})
        self.assertEqual(told["file"], told["link"])
        self.assertEqual(len(set(told.values())), 2)

    def test_what_runs(self) -> None:
        shutil.copy(shutil.which("true") or "", self.step / "program")
        (self.step / "script").write_text('#!/bin/sh\nexec "$(dirname "$0")"/program\n')
        self.assert_fails(errno.EACCES, subprocess.run, [self.step / "script"])
        (self.step / "script").chmod(0o755)
        mounts.run(self.step / "script")

    def test_large_parts(self) -> None:
        data = random.Random(1).randbytes(9_000_001)
        (self.disk / "data").write_bytes(data)
        self.file.write_bytes(data)
        mounts.run("cmp", self.file, self.disk / "data")
        mounts.run("cp", self.disk / "data", self.step / "copy")
        mounts.run("cmp", self.step / "copy", self.disk / "data")
        mounts.run("dd", f"if={self.disk}/data", f"of={self.step}/parts", "bs=777")
        mounts.run("cmp", self.step / "parts", self.disk / "data")

    def test_a_call_has_a_megabyte(self) -> None:
        megabytes = 8
        # (of memory that nobody has touched the kernel writes a page at a time)
        data = random.Random(1).randbytes(megabytes << 20)
        with open(self.file, "r+b", buffering=0) as file:
            before = self.calls()
            self.assertEqual(file.write(data), len(data))
            self.assertEqual(self.calls() - before, megabytes)
        self.mounted.commit("step")
        if os.geteuid() != 0:
            return  # (only root may have the kernel read so far ahead)
        self.mounted.begin("step")
        with open(self.file, "rb", buffering=0) as file:
            before = self.calls()
            while file.read(1 << 20):
                pass
            self.assertLessEqual(self.calls() - before, megabytes + 1)

    def test_lines_that_many_append(self) -> None:
        script = 'for n in $(seq 100); do echo "$1 $n" >>"$0"; done'
        running = [mounts.start("sh", "-c", script, self.file, worker) for worker in range(5)]
        self.assertEqual([each.wait(mounts.MOST_SECONDS) for each in running], [0] * 5)
        lines = self.file.read_text().removeprefix("text").splitlines()
        self.assertEqual(sorted(lines), sorted(f"{w} {n}" for w in range(5) for n in range(1, 101)))

    def test_removed_while_listed(self) -> None:
        folder = self.step / "folder"
        folder.mkdir()
        for number in range(3_000):
            (folder / f"a rather long name, so that there are many parts {number}").touch()
        with os.scandir(folder) as entries:
            for entry in entries:
                os.unlink(entry.path)
        self.assertEqual(os.listdir(folder), [])

    def test_many_threads_in_a_step(self) -> None:
        def work(number: int) -> None:
            top = self.step / f"thread{number}"
            for part in range(60):
                (top / "sub").mkdir(parents=True)
                (top / "sub" / "file").write_text(f"{number} {part}")
                (top / "sub" / "file").rename(top / f"file{part}")
                (top / "sub").rmdir()
            done.append(number)

        done: list[int] = []
        threads = [threading.Thread(target=work, args=(number,)) for number in range(8)]
        for each in threads:
            each.start()
        for each in threads:
            each.join()
        self.assertEqual(sorted(done), list(range(8)))
        self.mounted.commit("step")
        held = [path.read_text() for path in self.mounted.job.glob("thread*/file*")]
        wanted = [f"{number} {part}" for number in range(8) for part in range(60)]
        self.assertEqual(sorted(held), sorted(wanted))

    def test_room_is_told(self) -> None:
        self.assertGreater(os.statvfs(self.step).f_bavail, 0)
        # (the C library's posix_fallocate writes a byte a block)
        self.assertGreaterEqual(os.statvfs(self.step).f_bsize, 512)
        self.assertEqual(os.statvfs(self.step).f_namemax, 255)
        mounts.run("df", self.step)
        mounts.run("sync", "-f", self.file)

    def test_greatest_size(self) -> None:
        os.truncate(self.file, 1 << 47)
        self.assertEqual(self.file.stat().st_size, 1 << 47)
        self.assert_fails(errno.EFBIG, os.truncate, self.file, (1 << 47) + 1)
        os.truncate(self.file, 2)
        self.assertEqual(self.file.read_text(), "te")


class TimesTest(InStepTest):
    """Times of files: of the last write, or as they were set."""

    LONG_AGO = 1_234_567_890_987_654_321

    def times(self, path: Path) -> int:
        return path.stat().st_mtime_ns

    def assert_now(self, path: Path) -> None:
        self.assertLess(abs(self.times(path) - time.time_ns()), 5 * 10**9)

    def test_of_the_last_write(self) -> None:
        os.utime(self.file, ns=(0, self.LONG_AGO))
        with open(self.file, "r+b", buffering=0) as file:
            self.assertEqual(self.times(self.file), self.LONG_AGO)
            file.write(b"new")
            self.assert_now(self.file)
            written = self.times(self.file)
            time.sleep(0.05)
        self.assertLess(abs(self.times(self.file) - written), 40_000_000)
        (self.step / "made").touch()
        self.assert_now(self.step / "made")

    def test_set_before_it_is_closed(self) -> None:
        """As tar and cp do it."""
        with open(self.file, "r+b", buffering=0) as file:
            file.write(b"new")
            os.utime(file.fileno(), ns=(0, self.LONG_AGO))
        self.assertEqual(self.times(self.file), self.LONG_AGO)
        with open(self.file, "rb") as file:
            file.read()
        self.file.chmod(0o600)
        self.file.rename(self.step / "other")
        self.assertEqual(self.times(self.step / "other"), self.LONG_AGO)

    def test_before_the_epoch(self) -> None:
        for told in (-1, -1_500_000_000, -(10**18)):
            os.utime(self.file, ns=(0, told))
            self.assertEqual(self.times(self.file), told)

    def test_of_a_file_without_one(self) -> None:
        """A file that is made and never written has a time all the same, which stays."""
        os.close(os.open(self.step / "made", os.O_WRONLY | os.O_CREAT))
        told = self.times(self.step / "made")
        time.sleep(0.05)
        self.mounted.commit("step")
        self.assertEqual(self.times(self.mounted.job / "made"), told)

    def test_each_that_is_set_is_written(self) -> None:
        """Also one that the file has: many touches come in one tick of the clock."""
        for options in ({}, {"ns": (0, self.LONG_AGO)}):
            with self.subTest(options=options):
                os.utime(self.file, **options)
                before = self.calls()
                for _ in range(100):
                    os.utime(self.file, **options)
                self.assertEqual(self.calls() - before, 100)

    def test_in_order_with_the_disk(self) -> None:
        """What is made of a file is not older than that, wherever the two are."""
        before = self.disk / "before"
        for number in range(100):
            # (the kernel gives a new file, which nobody has looked at, the time of a coarse clock)
            after = self.disk / f"after{number}"
            before.write_text("text")
            self.file.write_text("text")
            written = self.times(self.file)
            os.utime(self.file)
            mounts.run("sh", "-c", f"echo text >{after}")
            times = [self.times(before), written, self.times(self.file), self.times(after)]
            self.assertEqual(times, sorted(times))

    def test_of_folders_and_links_are_let_be(self) -> None:
        os.symlink("file", self.step / "link")
        os.utime(self.step / "link", ns=(0, 0), follow_symlinks=False)
        os.utime(self.step, ns=(0, 0))
        if os.geteuid() == 0:
            os.chown(self.step / "link", 12, 34, follow_symlinks=False)
        self.assertGreater(self.times(self.file), 0)


class ModesTest(InStepTest):
    """Others may use what root has mounted for them, by its modes."""

    options = ("--allow-other",)

    def setUp(self) -> None:
        if os.geteuid() != 0:
            self.skipTest("only root can be others")
        super().setUp()
        self.disk.chmod(0o755)  # (so that others get there)

    def test_by_modes(self) -> None:
        private, shared = self.step / "private", self.step / "shared"
        self.file.chmod(0o600)
        private.mkdir(mode=0o700)
        shared.mkdir()
        shared.chmod(0o1777)
        (shared / "of_root").touch()
        self.assertEqual(as_nobody(self.file.read_text), errno.EACCES)
        self.assertEqual(as_nobody(lambda: os.listdir(private)), errno.EACCES)
        self.assertEqual(as_nobody((self.step / "new").mkdir), errno.EACCES)
        self.assertEqual(as_nobody((shared / "new").touch), 0)
        self.assertEqual(as_nobody((shared / "of_root").unlink), errno.EPERM)
        self.assertEqual(as_nobody(lambda: (shared / "new").chmod(0o700)), 0)
        self.assertEqual(as_nobody(lambda: os.chown(shared / "new", 0, 0)), errno.EPERM)
        told = (shared / "new").stat()
        self.assertEqual((told.st_uid, told.st_gid), (NOBODY, NOBODY))
        self.file.chmod(0o644)
        self.assertEqual(as_nobody(self.file.read_text), 0)

    def test_only_its_owner_begins_and_ends_steps(self) -> None:
        self.assertIn(as_nobody((self.mounted.top / "a").mkdir), (errno.EACCES, errno.EPERM))
        self.assertIn(as_nobody(self.step.rmdir), (errno.EACCES, errno.EPERM))
        self.assertIn(as_nobody(lambda: (self.mounted.top / ".nuz").write_text("abort step")),
                      (errno.EACCES, errno.EPERM))
        self.assertEqual(self.file.read_text(), "text")

    def test_set_id_bits_go_when_others_write(self) -> None:
        self.file.chmod(0o6777)
        self.assertEqual(as_nobody(lambda: self.file.write_text("new")), 0)
        self.assertEqual(oct(self.file.stat().st_mode), "0o100777")

    def test_group_of_a_folder_is_inherited(self) -> None:
        shared = self.step / "shared"
        shared.mkdir()
        os.chown(shared, 0, 34)
        shared.chmod(0o2777)
        self.assertEqual(as_nobody((shared / "file").touch), 0)
        self.assertEqual(as_nobody((shared / "folder").mkdir), 0)
        self.assertEqual((shared / "file").stat().st_gid, 34)
        self.assertEqual((shared / "folder").stat().st_gid, 34)
        self.assertTrue((shared / "folder").stat().st_mode & stat.S_ISGID)

    def test_only_if_it_is_for_others(self) -> None:
        own = mounts.Mount(self.disk / "own")
        self.addCleanup(own.close)
        (own.job / "file").write_text("text")
        (own.job / "file").chmod(0o777)
        self.assertEqual(as_nobody((own.job / "file").read_text), errno.EACCES)

    def test_umask(self) -> None:
        self.addCleanup(os.umask, os.umask(0o027))
        (self.step / "folder").mkdir(mode=0o777)
        os.close(os.open(self.step / "new", os.O_CREAT | os.O_WRONLY, 0o666))
        modes = [oct((self.step / name).stat().st_mode & 0o777) for name in ("folder", "new")]
        self.assertEqual(modes, ["0o750", "0o640"])
