"""A plain user, who mounts by fusermount3."""
from __future__ import annotations

import errno
import os
import shutil
import subprocess
from pathlib import Path

import mounts

NOBODY = 65534
SEARCHED = "/usr/local/bin:/usr/bin:/bin"


def is_for_all(device: str) -> bool:
    return os.stat(device).st_mode & 0o006 == 0o006


class UserTest(mounts.MountTest):
    def setUp(self) -> None:
        if os.geteuid() != 0:
            self.skipTest("only root can be others: all tests are a plain user's")
        if not is_for_all("/dev/fuse"):
            self.skipTest("/dev/fuse is root's alone")
        super().setUp()
        self.disk.chmod(0o755)
        # (others may not get to where it was made)
        self.nuz = shutil.copy(mounts.NUZ, self.disk / "nuz")
        self.home = self.folder("home")
        source = self.folder("home/source", file="old")
        for path in (self.home, source, source / "file"):
            os.chown(path, NOBODY, NOBODY)

    def run_it(self, *words: object, **options) -> subprocess.CompletedProcess:
        """Runs a command as the user."""
        environment = {"PATH": SEARCHED, "TMPDIR": str(self.home), "HOME": str(self.home)}
        return mounts.run(*words, user=NOBODY, group=NOBODY, extra_groups=[], cwd=self.home,
                          env=environment, **options)

    def assert_is_users(self, path: Path) -> None:
        told = path.lstat()
        self.assertEqual((told.st_uid, told.st_gid), (NOBODY, NOBODY), path)

    def test_steps(self) -> None:
        self.run_it(self.nuz, "mount", "--from", "source", "top")
        self.addCleanup(mounts.run, "fusermount3", "-u", "-z", self.home / "top", status=None)
        self.run_it("sh", "-c", "mkdir top/a top/b && echo new >top/a/file && mkdir top/b/gone")
        self.run_it(self.nuz, "commit", "top/a")
        self.run_it(self.nuz, "abort", "top/b")
        self.assertRegex(self.run_it(self.nuz, "steps", "top").stdout, r"^job txn \d+ calls \d+\n$")
        self.assertEqual(self.run_it("cat", "top/job/file").stdout, "new\n")
        self.assertEqual(self.run_it("stat", "-c", "%u %g", "top/job", "top/job/file").stdout,
                         f"{NOBODY} {NOBODY}\n" * 2)
        self.run_it(self.nuz, "save", "top/job", "saved")
        self.run_it("fusermount3", "-u", "top")
        self.assertEqual(os.listdir(self.home / "saved"), ["file"])
        for path in (self.home / "saved", self.home / "saved" / "file"):
            self.assert_is_users(path)

    def test_not_for_root(self) -> None:
        """As the kernel has it."""
        self.run_it(self.nuz, "mount", "top")
        self.addCleanup(mounts.run, "fusermount3", "-u", "-z", self.home / "top", status=None)
        with self.assertRaises(OSError) as raised:
            os.listdir(self.home / "top")
        self.assertEqual(raised.exception.errno, errno.EACCES)

    def test_run(self) -> None:
        words = self.nuz, "run", "--from", "source", "--to", "source", "--replace"
        self.run_it(*words, "--", "sh", "-c", "echo new >file; exit 7", status=7)
        self.assertEqual((self.home / "source" / "file").read_text(), "old")
        self.run_it(*words, "--", "sh", "-c", f"{self.nuz} run -- sh -c 'echo new >file'")
        self.assertEqual((self.home / "source" / "file").read_text(), "new\n")
        self.assert_is_users(self.home / "source")
        self.assertEqual(os.listdir(self.home), ["source"])

    def test_at_a_prefix(self) -> None:
        if self.run_it("unshare", "--user", "--mount", "true", status=None).returncode != 0:
            self.skipTest("users may make no user namespaces")
        path = self.home / "source" / "file"
        self.run_it(self.nuz, "run", "--from", "source", "--to", "saved", "--at", "source", "--",
                    "sh", "-c", f"id -u >{path}")
        self.assertEqual(path.read_text(), "old")
        self.assertEqual((self.home / "saved" / "file").read_text(), f"{NOBODY}\n")

    def test_what_a_user_may_not(self) -> None:
        private = self.folder("private", file="of root")
        private.chmod(0o700)
        for words, why in ((["mount", "/etc"], "/etc: it can't be mounted"),
                           (["mount", "--from", private, "top"], "Permission denied")):
            with self.subTest(words=words):
                self.assertIn(why, self.run_it(self.nuz, *words, status=1).stderr)
        ended = self.run_it(self.nuz, "run", "--to", private / "saved", "--", "true", status=125)
        self.assertIn("Permission denied", ended.stderr)
        self.assertEqual(os.listdir(self.home), ["source"])

    def test_files_of_others(self) -> None:
        """They may be read as they may on the disk, and not written."""
        (self.home / "source" / "others").write_text("of root")
        script = "cat others; echo new >>others"
        ended = self.run_it(self.nuz, "run", "--from", "source", "--", "sh", "-c", script, status=2)
        self.assertEqual(ended.stdout, "of root")
        self.assertIn("Permission denied", ended.stderr)
