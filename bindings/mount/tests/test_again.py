"""nuz run, if steps would wait for each other for ever: its status, and that it runs again."""
from __future__ import annotations

import os
import re
import signal
import subprocess
import time
from pathlib import Path

import mounts

# the status that reports it
TRY_AGAIN = 75
FAILED_FOR_IT = "a call has failed with EDEADLK"


class CycleTest(mounts.MountTest):
    """A run whose command reads what another step has changed, which waits for the run."""

    def setUp(self) -> None:
        super().setUp()
        self.mounted = self.mount("--from", self.folder("begin", file="old"))
        self.other = self.mounted.begin("other")
        (self.other / "file").write_text("of other")

    def start(self, name: str, *words: object, ending: str = "true") -> subprocess.Popen:
        """Begins a run that makes a name, waits until the other step waits for that, and then reads
        what the other one has changed. It writes that to standard output."""
        made = f"test -e {self.mounted.top}/{name}/of_{name}"
        waiting = mounts.start("sh", "-c", f"until {made}; do sleep 0.05; done; "
                               f"cat {self.other}/of_{name}")
        self.addCleanup(waiting.wait)
        self.addCleanup(waiting.kill)
        waits = f"{mounts.NUZ} steps {self.mounted.top} | grep -q '^other.* waits.* {name}'"
        goes_on = f"{waits} || test ! -e {self.other}"
        script = f"touch of_{name}; until {goes_on}; do sleep 0.05; done; cat file; {ending}"
        running = mounts.start(mounts.NUZ, "run", *words, "--in", self.mounted.top / name, "--",
                               "sh", "-c", script, stdout=subprocess.PIPE, stderr=subprocess.PIPE,
                               text=True)
        self.addCleanup(running.kill)
        return running

    def assert_ends(self, running: subprocess.Popen, status: int, said: str) -> str:
        """A run ends with a status, and has printed something. Returns what its command wrote."""
        out, error = running.communicate(timeout=mounts.MOST_SECONDS)
        self.assertEqual(running.returncode, status, error)
        self.assertRegex(error, said)
        return out

    def wait_for_step(self, pattern: str) -> None:
        self.assertTrue(mounts.wait_until(
            lambda: re.search(f"(?m)^{pattern}$", self.mounted.steps()) is not None), pattern)

    def assert_only_other(self) -> None:
        self.assertTrue(mounts.wait_until(
            lambda: sorted(os.listdir(self.mounted.top)) == ["job", "other"]))

    def test_step_is_aborted(self) -> None:
        """Whether or not the command minds the error."""
        for name, ending in (("a", "true"), ("b", "exit 3"), ("c", "kill -ABRT $$")):
            with self.subTest(ending=ending):
                self.assert_ends(self.start(name, ending=ending), TRY_AGAIN,
                                 f"(?m)^nuz: run .*/{name}: {FAILED_FOR_IT}.*can be run again")
                self.assert_only_other()
                self.assertFalse((self.other / f"of_{name}").exists())

    def test_runs_again_when_the_other_has_ended(self) -> None:
        for end, text in ((self.mounted.commit, "of other"), (self.mounted.abort, "old")):
            with self.subTest(text=text):
                mounted = self.mounted
                running = self.start("a", "--retries", 1)
                self.wait_for_step(r"a txn \d+ calls 0 waits other")
                time.sleep(0.3)
                self.assertIsNone(running.poll())
                end("other")
                said = f"(?m)^nuz: run .*/a: {FAILED_FOR_IT}.*the command runs again$"
                self.assertEqual(self.assert_ends(running, 0, said), text)
                mounted.abort("job")
                (mounted.begin("other") / "file").write_text("of other")

    def test_one_after_another(self) -> None:
        """Steps that the same step has blocked do not block each other again."""
        running = []
        for name, others in (("a", "other"), ("b", "other a"), ("c", "other a b")):
            running.append(self.start(name, "--retries", 1))
            self.wait_for_step(rf"{name} txn \d+ calls 0 waits {others}")
        self.mounted.commit("other")
        for each in running:
            self.assertEqual(self.assert_ends(each, 0, FAILED_FOR_IT), "of other")

    def test_told_to_end_while_it_waits(self) -> None:
        for name, number in (("a", signal.SIGINT), ("b", signal.SIGTERM)):
            with self.subTest(number=number):
                running = self.start(name, "--retries", 9)
                self.wait_for_step(rf"{name} txn \d+ calls 0 waits other")
                running.send_signal(number)
                self.assert_ends(running, 128 + number, FAILED_FOR_IT)
                self.assert_only_other()

    def test_not_while_the_step_around_is_in_the_way(self) -> None:
        """Then no step of it can go on, however often it is begun."""
        around = self.mounted.begin("b")
        (around / "held").mkdir()
        waiting = mounts.start("stat", self.other / "held")
        self.wait_for_step("other .* waits b")
        ended = mounts.nuz("run", "--retries", 100, "--in", self.mounted.top / "b.c", "--", "cat",
                           "file", status=TRY_AGAIN)
        self.assertEqual(len(re.findall(FAILED_FOR_IT, ended.stderr)), 1, ended.stderr)
        self.assertTrue(mounts.wait_until(lambda: not (self.mounted.top / "b.c").exists()))
        self.mounted.commit("b")
        self.assertEqual(waiting.wait(mounts.AT_ONCE), 0)

    def test_of_the_control_file(self) -> None:
        with open(self.mounted.top / ".nuz", "r+b", buffering=0) as control:
            control.write(b"begin a 99999")
            self.assertTrue((self.mounted.top / "a").exists())
            control.write(b"whole a")
        self.assert_only_other()


class NamesTest(mounts.MountTest):
    def test_names_that_are_used_again_at_once(self) -> None:
        """A step is never taken for one before it that had its name."""
        job = self.mount().job
        script = f"for n in $(seq 20); do {mounts.NUZ} run -- touch $0$n || exit; done"
        running = [mounts.start("sh", "-c", script, worker, cwd=job) for worker in "abcdef"]
        self.assertEqual([each.wait(mounts.MOST_SECONDS) for each in running], [0] * 6)
        self.assertEqual(len(os.listdir(job)), 120)


class TimeTest(mounts.MountTest):
    def test_no_longer_than_a_call_may_wait(self) -> None:
        mounted = self.mount("--from", self.folder("begin", file="old"), "--wait", "0.3")
        (mounted.begin("other") / "file").write_text("new")
        ended = mounts.nuz("run", "--retries", 100, "--in", mounted.top / "a", "--", "cat", "file",
                           status=TRY_AGAIN)
        self.assertEqual(len(re.findall(FAILED_FOR_IT, ended.stderr)), 1, ended.stderr)
        self.assertTrue(mounts.wait_until(lambda: not (mounted.top / "a").exists()))


class MakeTest(mounts.MountTest):
    """Rules of make that list and write one folder, side by side."""

    COUNT = 6

    def make(self, job: Path, retries: int) -> subprocess.CompletedProcess:
        """Each target has how many there were when it was made."""
        command = "n=$$(ls *.made 2>/dev/null | wc -l); sleep 0.4; echo $$n >$@"
        (job / "Makefile").write_text(
            f"all: {' '.join(f'{n}.made' for n in range(self.COUNT))}\n"
            f"%.made:\n\t@{mounts.NUZ} run --retries {retries} -- sh -c '{command}'\n")
        return mounts.run("make", "-s", "-k", f"-j{self.COUNT}", cwd=job, status=None)

    def counts(self, job: Path) -> list[int]:
        return sorted(int(path.read_text()) for path in job.glob("*.made"))

    def test_run_again(self) -> None:
        job = self.mount().job
        ended = self.make(job, 20)
        self.assertEqual(ended.returncode, 0, ended.stderr)
        self.assertIn(f"{FAILED_FOR_IT}", ended.stderr)
        # (as if they had run one after another)
        self.assertEqual(self.counts(job), list(range(self.COUNT)))

    def test_not_run_again(self) -> None:
        job = self.mount().job
        ended = self.make(job, 0)
        made = self.counts(job)
        self.assertEqual(made, list(range(len(made))))
        self.assertLess(len(made), self.COUNT)
        self.assertEqual(ended.stderr.count("Error 75"), self.COUNT - len(made), ended.stderr)
