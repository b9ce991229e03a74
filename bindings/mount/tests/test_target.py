"""The directory that is saved to: who may replace it, and what becomes of what is there."""
from __future__ import annotations

import os
import shutil
import subprocess

import mounts
from test_run import RunTest


class OneAtATimeTest(RunTest):
    """What somebody has saved is not lost because another one saves."""

    def begin(self, *words: object) -> subprocess.Popen:
        """Begins a run that replaces the target, and waits until its command has begun."""
        told = self.disk / "told"
        running = mounts.start(mounts.NUZ, "run", "--from", self.source, "--to", self.target,
                               "--replace", "--", "sh", "-c",
                               f"touch {told}; while test -e {told}; do sleep 0.01; done",
                               env=self.environment, stderr=subprocess.PIPE, text=True)
        self.addCleanup(running.stderr.close)
        self.addCleanup(running.wait)
        self.addCleanup(told.unlink, missing_ok=True)
        self.assertTrue(mounts.wait_until(told.exists))
        return running

    def end(self, running: subprocess.Popen) -> str:
        (self.disk / "told").unlink()
        return running.communicate()[1]

    def test_target_that_is_missing_is_locked(self) -> None:
        running = self.begin()
        for words in (["--replace"], []):
            with self.subTest(words=words):
                ended = self.run_it("--to", self.target, *words, "--", "true", status=125)
                self.assertEqual(ended.stderr, f"nuz: save {self.target}: it is busy: "
                                 "another nuz is to save there\n")
        self.assertEqual((self.end(running), running.returncode), ("", 0))
        self.run_it("--to", self.target, "--replace", "--", "true")
        self.assert_nothing_left()

    def test_save_heeds_the_lock(self) -> None:
        mounted = self.mount("--from", self.source)
        running = self.begin()
        ended = mounts.nuz("save", "--replace", mounted.job, self.target, status=1)
        self.assertIn("it is busy", ended.stderr)
        self.assertFalse(self.target.exists())
        mounts.nuz("save", mounted.job, self.disk / "place")
        self.end(running)
        self.assertEqual(running.returncode, 0)
        mounts.nuz("save", "--replace", mounted.job, self.target)

    def test_lock_ends_with_its_process(self) -> None:
        running = self.begin()
        mounts.kill_below(running.pid)
        running.kill()
        self.run_it("--to", self.target, "--replace", "--", "true")

    def test_another_folder_is_not_replaced(self) -> None:
        for was_there in (False, True):
            with self.subTest(was_there=was_there):
                running = self.begin()
                if was_there:
                    self.target.rename(self.disk / "place")
                self.folder("target", other="of somebody else")
                self.assertIn("something else has got its name", self.end(running))
                self.assertEqual(running.returncode, 125)
                self.assertEqual((self.target / "other").read_text(), "of somebody else")
        self.assert_nothing_left()

    def test_no_harm_in_an_empty_folder_or_none(self) -> None:
        running = self.begin()
        self.target.mkdir()
        self.assertEqual((self.end(running), running.returncode), ("", 0))
        running = self.begin()
        self.target.rename(self.disk / "place")
        self.assertEqual((self.end(running), running.returncode), ("", 0))
        self.assert_same(self.source, self.target)

    def test_another_folder_is_not_replaced_while_it_is_copied(self) -> None:
        mounted = self.mount("--from", self.source)
        (mounted.begin("a") / "file").write_text("so that a save waits")
        for was_there in (False, True):
            with self.subTest(was_there=was_there):
                saving = mounts.start(mounts.NUZ, "save", "--replace", mounted.job, self.target,
                                      stderr=subprocess.PIPE, text=True)
                self.addCleanup(saving.stderr.close)
                self.assertTrue(mounts.wait_until(lambda: any(self.disk.glob(".target.*"))))
                if was_there:
                    self.target.rename(self.disk / "place")
                self.folder("target", other="of somebody else")
                mounted.abort("a")
                self.assertRegex(saving.communicate()[1], "not empty|busy")
                self.assertEqual(saving.returncode, 1)
                self.assertEqual((self.target / "other").read_text(), "of somebody else")
                (mounted.begin("a") / "file").write_text("so that a save waits")
        self.assertEqual([], list(self.disk.glob(".target.*")))


class OwnMountBelowTest(RunTest):
    def test_refused_at_first(self) -> None:
        told = self.disk / "told"
        for target, words in ((self.temporary, []), (self.disk, ["--replace"])):
            with self.subTest(target=target):
                ended = self.run_it("--to", target, *words, "--", "touch", told, status=125)
                self.assertEqual(ended.stderr, f"nuz: save {target}: the mount of the step would "
                                 "be in it\n")
                self.assertFalse(told.exists())
        self.assert_nothing_left()


class MountBelowTest(RunTest):
    """What is mounted in a directory keeps that from being replaced, or at least removed."""

    def setUp(self) -> None:
        super().setUp()
        if os.geteuid() != 0:
            self.skipTest("only root can mount a disk")
        (self.target / "sub").mkdir(parents=True)

    def assert_refused(self, *words: object, status: int) -> None:
        told = mounts.nuz(*words, env=self.environment, status=status).stderr
        self.assertEqual(told, f"nuz: save {self.target}: something is mounted on it or below it\n")
        self.assertFalse((self.disk / "told").exists())

    def test_refused_at_first(self) -> None:
        mounted = self.mount()
        mounts.run("mount", "-t", "tmpfs", "tmpfs", self.target / "sub")
        self.addCleanup(mounts.run, "umount", self.target / "sub")
        self.assert_refused("run", "--to", self.target, "--replace", "--", "touch",
                            self.disk / "told", status=125)
        self.assert_refused("save", "--replace", mounted.job, self.target, status=1)
        self.assertEqual(os.listdir(self.target), ["sub"])

    def test_what_is_left_is_named(self) -> None:
        ended = self.run_it("--from", self.source, "--to", self.target, "--replace", "--",
                            "mount", "-t", "tmpfs", "tmpfs", self.target / "sub")
        left = next(self.disk.glob(".target.*"))
        self.addCleanup(mounts.run, "umount", left / "sub")
        self.assertEqual(ended.stderr, f"nuz: save {self.target}: it is saved, but what was there "
                         f"before is left: {left}: Device or resource busy\n")
        self.assert_same(self.source, self.target)


class SaveToMountTest(RunTest):
    def setUp(self) -> None:
        super().setUp()
        self.mounted = self.mount("--from", self.source)

    def test_no_save_into_its_own_mount(self) -> None:
        (self.mounted.job / "sub").mkdir()
        os.symlink(self.mounted.job / "sub", self.disk / "told")
        for words in (["mount/out"], ["mount/job/sub/out"], ["--replace", "mount/job/sub"],
                      ["--replace", "mount/job"], ["told/out"]):
            with self.subTest(words=words):
                ended = mounts.nuz("save", self.mounted.job, *words, cwd=self.disk, status=1)
                self.assertIn("it is in the mount that is to be saved", ended.stderr)
        self.assertEqual(os.listdir(self.mounted.job / "sub"), [])

    def assert_ends_if_killed(self, *words: object) -> None:
        """A copy has begun that waits, and ends with its program."""
        saving = mounts.start(*words)
        # (it copies the whole tree up to there, which takes its time on a busy machine)
        self.assertTrue(mounts.wait_until(lambda: "waits" in self.saved_to.steps(), 60))
        saving.kill()
        self.assertTrue(mounts.ended_within(saving))
        self.assertTrue(mounts.wait_until(lambda: "waits" not in self.saved_to.steps()))
        self.assert_free(self.mounted)

    def test_signal_frees_a_save_to_another_mount(self) -> None:
        self.saved_to = mounts.Mount(self.disk / "place")
        self.addCleanup(self.saved_to.close)
        os.listdir(self.saved_to.begin("a"))
        self.assert_ends_if_killed(mounts.NUZ, "save", self.mounted.job, self.saved_to.job / "out")
        self.saved_to.abort("a")
        self.assertEqual(os.listdir(self.saved_to.job), [])

    def test_signal_frees_a_save_that_waits_for_itself(self) -> None:
        (self.mounted.job / "sub").mkdir()
        self.saved_to = self.mounted
        self.assert_ends_if_killed("sh", "-c", 'echo "save job $0/job/sub/out" >"$0/.nuz"',
                                   self.mounted.top)


class RootOfTreeTest(RunTest):
    """An empty tree is as private as the directory that it replaces, or a new one."""

    def saved_as(self, *words: object, umask: str = "022") -> tuple[int, int, int]:
        script = f'umask {umask}; exec "$@" -- sh -c "echo secret >file"'
        mounts.run("sh", "-c", script, "sh", mounts.NUZ, "run", "--to", self.target, *words,
                   env=self.environment)
        told = self.target.stat()
        return told.st_mode & 0o7777, told.st_uid, told.st_gid

    def test_mode_of_what_is_there(self) -> None:
        own = os.geteuid(), os.getegid()
        for mode, words in ((0o700, []), (0o2750, ["--replace"]), (0o1777, ["--replace"])):
            with self.subTest(mode=mode):
                shutil.rmtree(self.target, ignore_errors=True)
                self.target.mkdir()
                self.target.chmod(mode)
                self.assertEqual(self.saved_as(*words), (mode, *own))

    def test_owner_of_what_is_there(self) -> None:
        if os.geteuid() != 0:
            self.skipTest("only root can be others")
        self.target.mkdir(mode=0o700)
        os.chown(self.target, 12, 34)
        self.assertEqual(self.saved_as("--replace"), (0o700, 12, 34))

    def test_umask_of_what_is_new(self) -> None:
        for umask, mode in (("077", 0o700), ("002", 0o775)):
            with self.subTest(umask=umask):
                shutil.rmtree(self.target, ignore_errors=True)
                self.assertEqual(self.saved_as(umask=umask)[0], mode)

    def test_umask_of_a_mount(self) -> None:
        top = self.disk / "mount"
        self.addCleanup(mounts.run, "fusermount3", "-u", "-z", top, status=None)
        mounts.run("sh", "-c", f"umask 027; {mounts.NUZ} mount {top}")
        self.assertEqual((top / "job").stat().st_mode & 0o7777, 0o750)


class AtTest(RunTest):
    def test_what_no_step_can_replace(self) -> None:
        self.folder("place")
        os.symlink("/", self.disk / "told")
        mounted = self.mount()
        for at, words, why in (
                ("/", ["--from", self.source], "nothing can take the place of the root"),
                (self.disk / "told", ["--from", self.source], "the place of the root"),
                (self.temporary, ["--from", self.source], "the mount of the step is in this"),
                (self.disk, ["--from", self.source], "the mount of the step is in this"),
                (self.disk, ["--in", mounted.top / "a"], "the mount of the step is in this")):
            with self.subTest(at=at):
                ended = self.run_it(*words, "--at", at, "--", "touch", self.disk / "place" / "new",
                                    status=125)
                self.assertIn(why, ended.stderr)
                self.assertEqual(os.listdir(self.disk / "place"), [])
        self.assertEqual(os.listdir(self.temporary), [])
        self.assertEqual(os.listdir(mounted.top), ["job"])
