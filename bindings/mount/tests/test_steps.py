"""Steps side by side and inside each other: what waits, what is seen, and what is undone."""
from __future__ import annotations

import errno
import mmap
import os
import re
import shutil
import signal
import subprocess
import time
from pathlib import Path
from typing import Any, Callable

import mounts

# the seconds for which something that has to wait is watched
A_WHILE = 0.3


def ask(*words: object) -> subprocess.Popen:
    """Begins a command whose outcome is looked at later."""
    return mounts.start(*words, stdout=subprocess.PIPE, stderr=subprocess.PIPE, text=True)


class StepsTest(mounts.MountTest):
    mounted: mounts.Mount

    def assert_fails(self, number: int, call: Callable[..., Any], *words: object) -> None:
        with self.assertRaises(OSError) as raised:
            call(*words)
        self.assertEqual(errno.errorcode.get(raised.exception.errno), errno.errorcode[number])

    def assert_waits(self, names: str, *processes: subprocess.Popen) -> None:
        """Some steps wait, as the mount reports, and some commands do not end."""
        def all_wait() -> bool:
            told = self.mounted.steps()
            return all(re.search(rf"(?m)^{name} .* waits", told) for name in names.split())

        self.assertTrue(mounts.wait_until(all_wait), names)
        time.sleep(A_WHILE)
        self.assertEqual([each.poll() for each in processes], [None] * len(processes))

    def assert_ends(self, process: subprocess.Popen, text: str, status: int = 0) -> None:
        """A command ends at once, and has written a text."""
        out, error = process.communicate(timeout=mounts.AT_ONCE)
        self.assertEqual((out, process.returncode), (text, status), error)


class AlongsideTest(StepsTest):
    """Eight steps at once."""

    def test_in_one_folder_half_aborted(self) -> None:
        source = self.folder("source")
        for number in range(40):
            (source / f"file{number}").write_text("text" * number)
        begin = self.folder("begin")
        (begin / "usr" / "lib").mkdir(parents=True)
        mounted = self.mount("--from", begin)
        script = 'cp -a "$0" usr/lib/p$1 && for f in "$0"/*; do cp -p $f usr/lib/$1${f##*/}; done'
        running = [mounts.start(mounts.NUZ, "run", "--in", mounted.top / f"step{number}", "--",
                                "sh", "-c", f"{script} && exit $(($1 % 2))", source, number)
                   for number in range(8)]
        self.assertEqual([each.wait(mounts.MOST_SECONDS) for each in running], [0, 1] * 4)
        for number in range(0, 8, 2):
            mounts.run("cp", "-a", source, begin / "usr" / "lib" / f"p{number}")
            for file in source.iterdir():
                shutil.copy2(file, begin / "usr" / "lib" / f"{number}{file.name}")
        self.assert_same(begin, mounted.job)
        self.assert_free(mounted)

    def test_no_count_is_lost(self) -> None:
        """Steps that read and write the same files are as if they had run one after another."""
        counters = self.folder("counters", a="0", b="0", c="0")
        mounted = self.mount("--from", counters)
        program = Path(__file__).parent / "counting.py"
        running = [ask("python3", program, mounts.NUZ, mounted.top, worker, 12)
                   for worker in range(8)]
        counted = [each.communicate(timeout=mounts.MOST_SECONDS) for each in running]
        self.assertEqual([each.returncode for each in running], [0] * 8, counted)
        self.assertEqual(sum(int((mounted.job / name).read_text()) for name in "abc"),
                         sum(int(out) for out, _ in counted))
        self.assert_free(mounted)


class WaitingTest(StepsTest):
    def setUp(self) -> None:
        super().setUp()
        self.mounted = self.mount("--from", self.folder("begin", file="old", other="other"))
        self.a, self.b = self.mounted.begin("a"), self.mounted.begin("b")

    def test_waits_for_a_commit(self) -> None:
        (self.a / "file").write_text("new")
        reading = ask("cat", self.b / "file")
        self.assert_waits("b", reading)
        self.assertRegex(self.mounted.steps(), r"(?m)^b txn \d+ calls \d+ waits a$")
        self.mounted.commit("a")
        self.assert_ends(reading, "new")

    def test_waits_for_an_abort(self) -> None:
        (self.a / "file").write_text("new")
        reading = ask("cat", self.b / "file")
        self.assert_waits("b", reading)
        self.mounted.abort("a")
        self.assert_ends(reading, "old")

    def test_what_was_read_is_not_written_by_others(self) -> None:
        self.assertEqual((self.a / "file").read_text(), "old")
        writing = ask("sh", "-c", f"echo new >{self.b}/file")
        self.assert_waits("b", writing)
        self.assertEqual((self.a / "file").read_text(), "old")
        self.mounted.commit("a")
        self.assert_ends(writing, "")

    def test_what_was_absent_is_not_made_by_others(self) -> None:
        self.assertFalse((self.a / "absent").exists())
        making = ask("mkdir", self.b / "absent")
        self.assert_waits("b", making)
        self.assertFalse((self.a / "absent").exists())
        self.mounted.abort("a")
        self.assert_ends(making, "")

    def test_what_was_listed_gets_no_new_names(self) -> None:
        self.assertEqual(sorted(os.listdir(self.a)), ["file", "other"])
        making = ask("mkdir", self.b / "new")
        self.assert_waits("b", making)
        self.assertEqual(sorted(os.listdir(self.a)), ["file", "other"])
        self.mounted.commit("a")
        self.assert_ends(making, "")

    def test_cycle_is_told_at_once(self) -> None:
        (self.a / "file").write_text("of a")
        (self.b / "other").write_text("of b")
        reading = ask("cat", self.a / "other")
        self.assert_waits("a", reading)
        begun = time.monotonic()
        self.assert_fails(errno.EDEADLK, (self.b / "file").read_text)
        self.assertLess(time.monotonic() - begun, mounts.AT_ONCE)
        self.mounted.abort("b")
        self.assert_ends(reading, "other")
        self.assertEqual((self.a / "file").read_text(), "of a")

    def test_cycle_of_three(self) -> None:
        c = self.mounted.begin("c")
        for step, name in ((self.a, "x"), (self.b, "y"), (c, "z")):
            (step / name).mkdir()
        waiting = [ask("stat", self.a / "y"), ask("stat", self.b / "z")]
        self.assert_waits("a b", *waiting)
        self.assert_fails(errno.EDEADLK, os.stat, c / "x")
        self.mounted.abort("c")
        self.assert_ends(waiting[1], "", 1)
        self.mounted.commit("b")
        self.assertEqual(waiting[0].wait(mounts.AT_ONCE), 0)
        waiting[0].communicate()

    def test_many_wait_and_others_go_on(self) -> None:
        (self.a / "file").write_text("new")
        waiting = [ask("cat", self.b / "file") for _ in range(40)]
        self.assert_waits("b", *waiting)
        c = self.mounted.begin("c")
        mounts.run("sh", "-c", 'for n in 1 2 3; do echo $n >"$0"/$n; done; cat "$0"/*[123]', c,
                   timeout=mounts.AT_ONCE)
        self.mounted.commit("c")
        self.mounted.commit("a")
        for each in waiting:
            self.assert_ends(each, "new")

    def test_others_of_the_step_go_on(self) -> None:
        """A step may wait for several others at once, and work meanwhile in other folders."""
        (self.b / "folder").mkdir()
        c = self.mounted.begin("c")
        (self.a / "file").write_text("of a")
        (c / "other").write_text("of c")
        for_a, for_c = ask("cat", self.b / "file"), ask("cat", self.b / "other")
        self.assert_waits("b", for_a, for_c)
        mounts.run("sh", "-c", 'mkdir "$0"/d && echo text >"$0"/d/f && cat "$0"/d/f',
                   self.b / "folder", timeout=mounts.AT_ONCE)
        self.assertRegex(self.mounted.steps(), r"(?m)^b txn \d+ calls \d+ waits a c$")
        self.mounted.commit("c")
        self.assert_ends(for_c, "of c")
        self.assert_waits("b", for_a)
        self.mounted.abort("a")
        self.assert_ends(for_a, "old")

    def test_stopped_where_it_waits(self) -> None:
        """A tool that is stopped and goes on waits on."""
        (self.a / "file").write_text("new")
        waiting = ask("cat", self.b / "file")
        self.assert_waits("b", waiting)
        waiting.send_signal(signal.SIGSTOP)
        time.sleep(A_WHILE)
        waiting.send_signal(signal.SIGCONT)
        self.assert_waits("b", waiting)
        self.mounted.commit("a")
        self.assert_ends(waiting, "new")

    def test_children_end_where_it_waits(self) -> None:
        """A shell that is told of its children waits on."""
        if not shutil.which("bash"):
            self.skipTest("bash is not there")
        (self.a / "file").write_text("new")
        waiting = ask("bash", "-c", f"sleep 0.1 & echo more >>{self.b}/file; cat {self.b}/file")
        self.assert_waits("b", waiting)
        self.mounted.commit("a")
        self.assert_ends(waiting, "newmore\n")

    def test_interrupted_where_it_waits(self) -> None:
        """Also a program that has a handler is interrupted."""
        (self.a / "file").write_text("new")
        waiting = ask("python3", "-c", f"open('{self.b}/file')")
        self.assert_waits("b", waiting)
        waiting.send_signal(signal.SIGINT)
        self.assertTrue(mounts.ended_within(waiting))
        self.assertIn("KeyboardInterrupt", waiting.communicate()[1])
        self.assertNotIn("waits", self.mounted.steps())

    def test_killed_where_it_waits(self) -> None:
        (self.a / "file").write_text("new")
        waiting = [ask("cat", self.b / "file")]
        self.assert_waits("b", *waiting)
        # (the kernel has this one wait for the other, without the mount)
        waiting.append(ask("sh", "-c", f"echo x >>{self.b}/file"))
        self.assert_waits("b", *waiting)
        for each in waiting:
            each.kill()
            self.assertTrue(mounts.ended_within(each))
            each.communicate()
        self.assertNotIn("waits", self.mounted.steps())
        self.mounted.abort("b")
        self.mounted.commit("a")
        self.assert_free(self.mounted)

    def test_killed_at_any_time(self) -> None:
        script = 'cd "$0" && while :; do cp file new; mv new file; mkdir d; rmdir d; done'
        for number in range(10):
            running = ask("sh", "-c", script, self.a)
            time.sleep(0.03 * number)
            mounts.kill_below(running.pid)
            running.kill()
            running.communicate()
        self.mounted.abort("a")
        self.mounted.abort("b")
        self.assert_free(self.mounted)
        self.assert_same(self.disk / "begin", self.mounted.job)


class SaveTest(StepsTest):
    """A save waits for the steps that have changed what it reads, and holds up nobody."""

    def setUp(self) -> None:
        super().setUp()
        self.mounted = self.mount("--from", self.folder("begin", file="old"))
        (self.mounted.begin("a") / "late").write_text("late")
        self.saving = ask(mounts.NUZ, "save", self.mounted.job, self.disk / "saved")
        self.addCleanup(self.saving.kill)
        time.sleep(A_WHILE)
        self.assertIsNone(self.saving.poll())

    def assert_told_at_once(self, *words: object) -> None:
        """(A command that hangs is not waited for, since it may not even be killed.)"""
        asking = mounts.start(mounts.NUZ, *words)
        self.assertTrue(mounts.ended_within(asking), words)
        self.assertEqual(asking.returncode, 0)

    def test_goes_on_when_the_step_has_ended(self) -> None:
        self.assert_told_at_once("steps", self.mounted.top)
        self.assert_told_at_once("run", "--in", self.mounted.top / "b", "--", "mkdir", "folder")
        self.assert_told_at_once("commit", self.mounted.top / "a")
        self.assert_ends(self.saving, "")
        self.assert_same(self.mounted.job, self.disk / "saved")

    def test_given_up(self) -> None:
        self.saving.send_signal(signal.SIGINT)
        self.assertTrue(mounts.ended_within(self.saving))
        self.assertEqual(sorted(os.listdir(self.disk)), ["begin", "mount"])
        self.mounted.commit("a")
        self.assert_free(self.mounted)


class TimeLimitTest(StepsTest):
    def test_wait_ends(self) -> None:
        mounted = self.mount("--from", self.folder("begin", file="old"), "--wait", "0.5")
        a, b = mounted.begin("a"), mounted.begin("b")
        (a / "file").write_text("new")
        begun = time.monotonic()
        self.assert_fails(errno.EDEADLK, (b / "file").read_text)
        self.assertGreaterEqual(time.monotonic() - begun, 0.4)
        self.assertLess(time.monotonic() - begun, 0.5 + mounts.AT_ONCE)
        self.assertNotIn("waits", mounted.steps())
        mounted.commit("a")
        self.assertEqual((b / "file").read_text(), "new")


class NestingTest(StepsTest):
    def setUp(self) -> None:
        super().setUp()
        self.begin = self.folder("begin", file="old", gone="to be removed")
        self.mounted = self.mount("--from", self.begin)

    def work(self, step: Path) -> None:
        """Does something of each kind."""
        name = step.name
        (step / "file").write_text(name)
        (step / name).mkdir()
        os.link(step / "file", step / name / "link")
        (step / "file").chmod(0o600)
        os.symlink(name, step / f"to_{name}")

    def test_three_deep_committed(self) -> None:
        for name in ("a", "a.b", "a.b.c"):
            self.work(self.mounted.begin(name))
        for name in ("a.b.c", "a.b", "a"):
            self.mounted.commit(name)
        self.assertEqual((self.mounted.job / "file").read_text(), "a.b.c")
        self.assertEqual(sorted(os.listdir(self.mounted.job)),
                         ["a", "a.b", "a.b.c", "file", "gone", "to_a", "to_a.b", "to_a.b.c"])
        self.assertEqual(os.stat(self.mounted.job / "a" / "link").st_nlink, 4)

    def test_innermost_aborted(self) -> None:
        a = self.mounted.begin("a")
        self.work(a)
        held = mounts.told_of(a)
        self.work(self.mounted.begin("a.b"))
        self.work(self.mounted.begin("a.b.c"))
        self.mounted.commit("a.b.c")
        self.mounted.abort("a.b")
        self.assertEqual(mounts.difference(held, mounts.told_of(a)), "")
        self.mounted.commit("a")
        self.assertEqual(mounts.difference(held, mounts.told_of(self.mounted.job)), "")

    def test_outermost_aborted(self) -> None:
        for name in ("a", "a.b", "a.b.c"):
            self.work(self.mounted.begin(name))
        self.mounted.commit("a.b.c")
        self.mounted.abort("a")
        self.assertEqual([name for name in os.listdir(self.mounted.top) if name != ".nuz"], ["job"])
        self.assert_same(self.begin, self.mounted.job)
        self.assert_free(self.mounted)

    def test_deep(self) -> None:
        names = [".".join(["s"] * depth) for depth in range(1, 31)]
        for name in names:
            self.mounted.begin(name)
        (self.mounted.top / names[-1] / "file").write_text("deep")
        for name in reversed(names):
            self.mounted.commit(name)
        self.assertEqual((self.mounted.job / "file").read_text(), "deep")

    def test_commit_with_a_live_step(self) -> None:
        self.mounted.begin("a")
        self.mounted.begin("a.b")
        self.assertRegex(self.mounted.commit("a", status=1).stderr, "^nuz: ")
        self.mounted.commit("a.b")
        self.mounted.commit("a")

    def test_parent_sees_what_a_step_has_done(self) -> None:
        a = self.mounted.begin("a")
        names = sorted(os.listdir(a)), (a / "new").exists(), os.stat(a / "file").st_size
        self.assertEqual(names, (["file", "gone"], False, 3))
        with open(a / "file", "rb", buffering=0) as file, mmap.mmap(
                file.fileno(), 0, access=mmap.ACCESS_READ) as held:
            self.assertEqual((file.read(), held[:3]), (b"old", b"old"))
            b = self.mounted.begin("a.b")
            (b / "file").write_text("new and longer")
            (b / "new").write_text("new")
            (b / "gone").unlink()
            (b / "file").chmod(0o640)
            self.mounted.commit("a.b")
            self.assertEqual(os.pread(file.fileno(), 100, 0), b"new and longer")
            self.assertEqual(held[:3], b"new")
        self.assertEqual(oct(os.stat(a / "file").st_mode), "0o100640")
        self.assertEqual(sorted(os.listdir(a)), ["file", "new"])
        self.assertEqual((a / "new").read_text(), "new")
        self.assertFalse((a / "gone").exists())

    def test_open_file_that_a_step_removes(self) -> None:
        a = self.mounted.begin("a")
        with open(a / "file", "r+b", buffering=0) as file:
            b = self.mounted.begin("a.b")
            (b / "file").unlink()
            (b / "gone").rename(b / "file")
            self.mounted.commit("a.b")
            self.assertEqual((file.read(), os.fstat(file.fileno()).st_nlink), (b"old", 0))
            file.write(b" and on")
            self.assertEqual(os.pread(file.fileno(), 100, 0), b"old and on")
        self.assertEqual((a / "file").read_text(), "to be removed")

    def test_folder_that_a_step_moves(self) -> None:
        """A process whose current directory it is stays in it, wherever it is moved to."""
        (self.begin / "one" / "two").mkdir(parents=True)
        (self.begin / "one" / "two" / "file").write_text("text")
        (self.begin / "other" / "place").mkdir(parents=True)
        self.mounted.close()
        self.mounted = self.mount("--from", self.begin)
        folder = os.open(self.mounted.job / "one" / "two", os.O_RDONLY)
        self.addCleanup(os.close, folder)
        a = self.mounted.begin("a")
        (a / "one" / "two").rename(a / "other" / "place" / "three")
        self.mounted.commit("a")
        self.assertEqual(os.stat("file", dir_fd=folder).st_size, 4)
        self.assertEqual(os.listdir(self.mounted.job / "one"), [])
        self.assertEqual((self.mounted.job / "other/place/three/file").read_text(), "text")

    def test_job_sees_what_steps_have_done(self) -> None:
        for number in range(5):
            held = mounts.told_of(self.mounted.job)
            step = self.mounted.begin(f"step{number}")
            self.work(step)
            self.assertFalse((step / "to" / "come").exists())
            self.mounted.abort(step.name) if number % 2 else self.mounted.commit(step.name)
            found = mounts.told_of(self.mounted.job)
            self.assertEqual(found == held, bool(number % 2))
            self.assertEqual(f"to_{step.name}" in found, not number % 2)


class UndoTest(StepsTest):
    def setUp(self) -> None:
        super().setUp()
        self.begin = self.folder("begin", file="old")
        self.mounted = self.mount("--from", self.begin)
        self.step = self.mounted.begin("step")

    def test_one_after_another(self) -> None:
        held = [mounts.told_of(self.step)]
        changes: list[Callable[[], Any]] = [
            lambda: (self.step / "new").mkdir(),
            lambda: os.rename(self.step / "file", self.step / "new" / "moved"),
            lambda: os.chmod(self.step / "new" / "moved", 0o600),
            lambda: (self.step / "new" / "moved").write_text("several\n" * 30_000),
            lambda: os.symlink("new", self.step / "link"),
            lambda: os.unlink(self.step / "new" / "moved"),
        ]
        for change in changes:
            change()
            held.append(mounts.told_of(self.step))
        while len(held) > 1:
            held.pop()
            self.mounted.undo("step")
            self.assertEqual(mounts.difference(held[-1], mounts.told_of(self.step)), "")
        self.assertRegex(self.mounted.undo("step", status=1).stderr, "^nuz: ")
        self.mounted.commit("step")
        self.assert_same(self.begin, self.mounted.job)

    def test_looks_go_with_it(self) -> None:
        (self.step / "new").mkdir()
        mounts.told_of(self.step)
        self.mounted.undo("step")
        self.assert_same(self.begin, self.step)

    def test_not_while_a_step_of_it_is_live(self) -> None:
        (self.step / "new").mkdir()
        self.mounted.begin("step.below")
        self.mounted.undo("step", status=1)
        self.mounted.abort("step.below")
        self.mounted.undo("step")
        self.assert_same(self.begin, self.step)

    def test_not_while_a_file_is_open(self) -> None:
        with open(self.step / "file", "w", encoding="utf-8") as file:
            file.write("new")
            file.flush()
            self.mounted.undo("step", status=1)
        self.mounted.undo("step")
        self.assert_same(self.begin, self.step)


class NamesTest(StepsTest):
    """What is in the folder of a mount itself."""

    def setUp(self) -> None:
        super().setUp()
        self.begin = self.folder("begin", file="old")
        self.mounted = self.mount("--from", self.begin)
        self.top = self.mounted.top

    def test_names_of_steps(self) -> None:
        self.mounted.begin("a")
        for name, number in {"a": errno.EEXIST, "job": errno.EEXIST, "b.c": errno.ENOENT,
                             "a b": errno.EINVAL, ".a": errno.EINVAL, "a.": errno.EINVAL,
                             "a..b": errno.EINVAL, "a\n": errno.EINVAL}.items():
            with self.subTest(name=name):
                self.assert_fails(number, os.mkdir, self.top / name)
        self.mounted.abort("b", status=1)
        self.mounted.commit("b", status=1)
        self.mounted.abort("a")
        self.mounted.begin("a")

    def test_nothing_else_is_there(self) -> None:
        step = self.mounted.begin("a")
        self.assert_fails(errno.EPERM, (self.top / "file").write_text, "x")
        self.assert_fails(errno.EPERM, os.symlink, "x", self.top / "link")
        self.assert_fails(errno.EPERM, os.rename, step, self.top / "b")
        self.assert_fails(errno.EXDEV, os.rename, step / "file", self.mounted.job / "file")
        self.assert_fails(errno.EXDEV, os.link, step / "file", self.mounted.job / "link")
        self.assert_fails(errno.EBUSY, os.rmdir, self.mounted.job)
        self.assertEqual(sorted(os.listdir(self.top)), ["a", "job"])

    def test_rmdir_aborts(self) -> None:
        step = self.mounted.begin("a")
        (step / "file").write_text("new")
        (self.mounted.begin("a.b") / "more").mkdir()
        os.rmdir(step)
        self.assertEqual(os.listdir(self.top), ["job"])
        self.assert_same(self.begin, self.mounted.job)

    def test_what_is_open_when_a_step_ends(self) -> None:
        for end in (self.mounted.commit, self.mounted.abort):
            step = self.mounted.begin("a")
            with open(step / "file", "r+b", buffering=0) as file:
                self.assertEqual(file.read(), b"old")
                folder = os.open(step, os.O_RDONLY)
                end("a")
                self.assert_fails(errno.ESTALE, os.write, file.fileno(), b"late")
                with self.assertRaises(OSError):
                    os.mkdir("late", dir_fd=folder)
                os.close(folder)
        self.assert_same(self.begin, self.mounted.job)
        self.assert_free(self.mounted)

    def test_job_ends_and_begins_anew(self) -> None:
        (self.mounted.job / "file").write_text("one")
        self.mounted.begin("a")
        self.mounted.commit("job", status=1)
        self.mounted.abort("a")
        self.mounted.commit("job")
        (self.mounted.job / "file").write_text("two")
        (self.mounted.begin("b") / "other").mkdir()
        self.mounted.abort("job")
        self.assertEqual((self.mounted.job / "file").read_text(), "one")
        self.assertEqual(os.listdir(self.top), ["job"])

    def test_control_file(self) -> None:
        control = self.top / ".nuz"
        step = self.mounted.begin("a")
        (step / "file").write_text("new")
        mounts.run("sh", "-c", f"echo commit a >{control}")
        self.assertEqual((self.mounted.job / "file").read_text(), "new")
        self.assertRegex(control.read_text(), r"^job txn \d+ calls \d+\n$")
        mounts.run("sh", "-c", f"echo abort a >{control}", status=None)
        for request, number in {"commit b": errno.ENOENT, "undo b": errno.ENOENT,
                                "frob": errno.EINVAL}.items():
            with self.subTest(request=request):
                self.assert_fails(number, self.request, request)

    def request(self, line: str) -> None:
        fd = os.open(self.top / ".nuz", os.O_RDWR)
        try:
            os.write(fd, line.encode())
        finally:
            os.close(fd)

    def test_step_is_aborted_with_what_holds_it(self) -> None:
        self.mounted.begin("a")
        with open(self.top / ".nuz", "r+b", buffering=0) as held:
            held.write(b"hold a")
            (self.top / "a" / "file").write_text("new")
        self.assertTrue(mounts.wait_until(lambda: os.listdir(self.top) == ["job"]))
        self.assert_same(self.begin, self.mounted.job)

    def test_picture_of_who_waits(self) -> None:
        a, b = self.mounted.begin("a"), self.mounted.begin("b")
        (a / "file").write_text("new")
        reading = ask("cat", b / "file")
        self.assert_waits("b", reading)
        picture = mounts.nuz("steps", "--dot", self.top).stdout
        self.assertRegex(picture, r"(?s)^digraph .*->.*\}\n$")
        if shutil.which("dot"):
            mounts.run("dot", "-Tsvg", input=picture, stdin=None)
        self.mounted.abort("a")
        self.assert_ends(reading, "old")


class EndTest(StepsTest):
    """A mount that ends."""

    def is_gone(self, mounted: mounts.Mount, pid: int) -> bool:
        return not mounts.is_mounted(mounted.top) and not mounts.is_running(pid)

    def assert_gone(self, mounted: mounts.Mount, pid: int) -> None:
        self.assertTrue(mounts.wait_until(lambda: self.is_gone(mounted, pid)))
        self.assertEqual(os.listdir(mounted.top), [])

    def test_by_signals(self) -> None:
        for number in (signal.SIGTERM, signal.SIGINT, signal.SIGHUP):
            mounted = self.mounted = self.mount()
            (mounted.begin("a") / "file").write_text("text")
            waiting = ask("stat", mounted.begin("b") / "file")
            self.assert_waits("b", waiting)
            pid = mounted.serving()
            os.kill(pid, number)
            self.assert_gone(mounted, pid)
            self.assertEqual(waiting.wait(mounts.AT_ONCE), 1)
            waiting.communicate()

    def test_in_the_foreground(self) -> None:
        top = self.disk / "mount"
        for end in (lambda it: it.terminate(), lambda it: mounts.run("fusermount3", "-u", top),
                    lambda it: it.kill()):
            serving = mounts.start(mounts.NUZ, "mount", "--foreground", top)
            self.addCleanup(mounts.run, "fusermount3", "-u", "-z", top, status=None)
            self.addCleanup(serving.kill)
            self.assertTrue(mounts.wait_until((top / "job").exists))
            (top / "a").mkdir()
            time.sleep(A_WHILE)
            self.assertIsNone(serving.poll())
            end(serving)
            self.assertTrue(mounts.ended_within(serving))
            self.assertTrue(mounts.wait_until(lambda: not mounts.is_mounted(top)))
            self.assertIn(serving.returncode, (0, -signal.SIGKILL))
            self.assertEqual(os.listdir(top), [])

    def test_by_umount(self) -> None:
        mounted = self.mount()
        (mounted.begin("a") / "file").write_text("text")
        pid = mounted.serving()
        mounts.run("fusermount3", "-u", mounted.top)
        self.assert_gone(mounted, pid)

    def test_when_it_is_killed(self) -> None:
        mounted = self.mount()
        step = mounted.begin("a")
        os.kill(mounted.serving(), signal.SIGKILL)
        with self.assertRaises(OSError):
            (step / "file").write_text("text")
        mounts.run("fusermount3", "-u", mounted.top)
        self.assertEqual(os.listdir(mounted.top), [])
