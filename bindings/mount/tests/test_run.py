"""nuz run and nuz save: a step in a line, what it has read and written, and folders of the disk."""
from __future__ import annotations

import os
import re
import shutil
import signal
import stat
import subprocess
import tempfile
import threading
from pathlib import Path

import mounts


class RunTest(mounts.MountTest):
    def setUp(self) -> None:
        super().setUp()
        self.source = self.folder("source", file="old", gone="to be removed")
        self.target = self.disk / "target"
        # (a mount of nuz run is at a place of its own)
        self.temporary = self.folder("temporary")
        self.environment = {**os.environ, "TMPDIR": str(self.temporary)}
        self.mounts_before = self.mounts_here()

    def mounts_here(self) -> list[str]:
        lines = Path("/proc/mounts").read_text().splitlines()
        return [line for line in lines if str(self.disk) in line]

    def run_it(self, *words: object, **options) -> subprocess.CompletedProcess:
        return mounts.nuz("run", *words, env=self.environment, **options)

    def assert_nothing_left(self) -> None:
        """No mount is left, no folder, and nothing next to the target."""
        self.assertTrue(mounts.wait_until(lambda: self.mounts_here() == self.mounts_before))
        self.assertTrue(mounts.wait_until(lambda: not os.listdir(self.temporary)))
        self.assertLessEqual(set(os.listdir(self.disk)),
                             {"source", "target", "temporary", "place", "mount", "told"})


class FromToTest(RunTest):
    def test_from_and_to(self) -> None:
        script = "cp file new; rm gone; ln new link; ln -s new to; chmod 600 file"
        self.run_it("--from", self.source, "--to", self.target, "--", "sh", "-c", script)
        self.assertEqual(sorted(os.listdir(self.source)), ["file", "gone"])
        mounts.run("sh", "-c", script, cwd=self.source)
        self.assert_same(self.source, self.target, None)
        self.assertEqual((self.target / "file").stat().st_mtime_ns,
                         (self.source / "file").stat().st_mtime_ns)
        self.assert_nothing_left()

    def test_failure_saves_nothing(self) -> None:
        before = mounts.told_of(self.source)
        self.run_it("--from", self.source, "--to", self.target, "--",
                    "sh", "-c", "rm *; exit 9", status=9)
        self.assertFalse(self.target.exists())
        self.assertEqual(before, mounts.told_of(self.source))
        self.assert_nothing_left()

    def test_to_replaces_only_if_asked(self) -> None:
        self.folder("target", there="before")
        words = "--from", self.source, "--to", self.target
        self.run_it(*words, "--", "touch", "new", status=125)
        self.assertEqual(os.listdir(self.target), ["there"])
        self.run_it(*words, "--replace", "--", "touch", "new")
        self.assertEqual(sorted(os.listdir(self.target)), ["file", "gone", "new"])
        self.assert_nothing_left()

    def test_for_other_users(self) -> None:
        if os.geteuid() != 0:
            self.skipTest("only root can be others")
        (self.source / "file").chmod(0o644)
        command = "python3", "-c", "import os; os.setgroups([]); os.setgid(65534); " \
            "os.setuid(65534); print(open('file').read())"
        words = "--from", self.source, "--", *command
        self.assertIn("Permission denied", self.run_it(*words, status=1).stderr)
        self.assertEqual(self.run_it("--allow-other", *words).stdout, "old\n")
        self.assert_nothing_left()

    def test_from_alone_and_to_alone(self) -> None:
        self.run_it("--from", self.source, "--", "grep", "-q", "old", "file")
        self.run_it("--to", self.target, "--", "sh", "-c", "ls; echo new >file")
        self.assertEqual((self.target / "file").read_text(), "new\n")
        self.assert_nothing_left()

    def test_in_place(self) -> None:
        self.run_it("--from", self.source, "--to", self.source, "--replace", "--", "rm", "gone")
        self.assertEqual(os.listdir(self.source), ["file"])
        self.assert_nothing_left()

    def test_in_the_current_folder(self) -> None:
        self.run_it("--from", ".", "--to", ".", "--replace", "--", "rm", "gone", cwd=self.source)
        self.assertEqual(os.listdir(self.source), ["file"])
        self.assert_nothing_left()

    def test_one_replaces_at_a_time(self) -> None:
        words = "--from", self.source, "--to", self.source, "--replace", "--"
        told = self.disk / "told"
        script = f"touch {told}; while test -e {told}; do sleep 0.01; done; touch one"
        running = mounts.start(mounts.NUZ, "run", *words, "sh", "-c", script, env=self.environment)
        self.assertTrue(mounts.wait_until(told.exists))
        self.assertIn("busy", self.run_it(*words, "touch", "two", status=125).stderr)
        told.unlink()
        self.assertEqual(running.wait(), 0)
        self.run_it(*words, "touch", "two")
        self.assertEqual(sorted(os.listdir(self.source)), ["file", "gone", "one", "two"])

    def test_at_a_prefix(self) -> None:
        place = self.folder("place", real="of the disk")
        script = f"cd / && test ! -e {place}/real && echo new >{place}/new && rm {place}/gone"
        self.run_it("--from", self.source, "--to", self.target, "--at", place, "--",
                    "sh", "-c", script)
        self.assertEqual(sorted(os.listdir(self.target)), ["file", "new"])
        self.assertEqual(os.listdir(place), ["real"])
        self.assert_nothing_left()

    def test_in_the_folder_that_it_replaces(self) -> None:
        """The whole story of an installation with an absolute prefix."""
        script = f"echo new >{self.source}/file && exit "
        words = "--from", self.source, "--to", self.source, "--replace", "--at", self.source, "--"
        self.run_it(*words, "sh", "-c", script + "3", status=3)
        self.assertEqual((self.source / "file").read_text(), "old")
        self.run_it(*words, "sh", "-c", script + "0")
        self.assertEqual((self.source / "file").read_text(), "new\n")
        self.assert_nothing_left()


class StatusTest(RunTest):
    def test_statuses(self) -> None:
        begun = "--from", self.source, "--to", self.target, "--"
        (self.source / "text").write_text("no program")
        for status, words in {7: ["sh", "-c", "exit 7"], 137: ["sh", "-c", "kill -9 $$"],
                              143: ["sh", "-c", "kill $$"], 127: ["no-such-command"],
                              126: ["./text"]}.items():
            with self.subTest(status=status):
                self.run_it(*begun, *words, status=status)
                self.assertFalse(self.target.exists())
        self.assert_nothing_left()

    def test_own_failures(self) -> None:
        mounted = self.mount()
        mounted.begin("a")
        for words in (["--in", mounted.top / "a"], ["--in", mounted.top / "b.c"],
                      ["--in", self.disk / "nothing" / "a"], ["--from", self.disk / "nothing"],
                      ["--from", self.source, "--at", self.disk / "nothing"],
                      ["--from", self.source, "--to", self.disk / "nothing" / "target"]):
            with self.subTest(words=words):
                ended = self.run_it(*words, "--", "true", status=125)
                self.assertRegex(ended.stderr, "^nuz: ")
        self.assertEqual(sorted(os.listdir(mounted.top)), ["a", "job"])

    def test_wrong_words(self) -> None:
        for words, why in (
                ([], "a command is missing"), (["frob"], "there is no such command: frob"),
                (["mount"], "mount: an argument is missing"),
                (["commit"], "commit: an argument is missing"),
                (["save", "a"], "save: an argument is missing"),
                (["undo", "a", "b"], "undo: unexpected argument: b"),
                (["mount", "--frob", "a"], "mount: there is no such option, .*: --frob"),
                (["commit", "--from", "a", "b"], "commit: there is no such option"),
                (["mount", "a", "--wait"], "mount: an argument is missing after --wait"),
                (["mount", "a", "--wait", "abc"], "mount: not a number of seconds: abc")):
            with self.subTest(words=words):
                self.assertRegex(mounts.nuz(*words, status=2).stderr, f"^nuz: {why}")
        for words, why in (
                (["--"], "an argument is missing"),
                (["--replace", "--", "true"], "--replace needs --to"),
                (["--wait", "abc", "--", "true"], "not a number of seconds: abc"),
                (["--wait", "1", "--", "true"], "--wait, .* need a mount of its own"),
                (["--allow-other", "--", "true"], ".* --allow-other need a mount of its own"),
                (["--retries", "-1", "--", "true"], "not a number: -1"),
                (["--retries", "2x", "--", "true"], "not a number: 2x"),
                (["--in", "a", "--to", "b", "--", "true"], "--in is for an existing mount"),
                (["--target", "a", "--", "true"], "--target needs --depfile")):
            with self.subTest(words=words):
                self.assertRegex(self.run_it(*words, status=125).stderr, f"^nuz: run: {why}")

    def test_help(self) -> None:
        self.assertRegex(mounts.nuz("--version").stdout, r"^nuz \d+\.\d+\.\d+\n$")
        told = mounts.nuz("--help").stdout
        self.assertEqual([mounts.nuz(word).stdout for word in ("-h", "help")], [told] * 2)
        self.assertEqual(mounts.nuz("save", "-h").stdout, mounts.nuz("save", "--help").stdout)
        for word in ("mount", "run", "commit", "abort", "undo", "steps", "save"):
            with self.subTest(word=word):
                help_of = mounts.nuz(word, "--help").stdout
                options = re.findall(r"--[a-z-]+", re.split(r"\n(?=[A-Z])", help_of)[0])
                self.assertIn(re.split(r"\n(?=[A-Z])", help_of)[0], told)
                for option in options:
                    self.assertRegex(help_of, f"(?m)^  (--wait, )?{option}[ ,]")

    def test_places_that_nothing_is_mounted_on(self) -> None:
        mounted = self.mount()
        os.mkfifo(self.source / "pipe")
        for words, why in (
                ([self.source / "file"], "Not a directory"),
                ([mounted.top], "a nuz mount is already there"),
                (["--from", self.source, self.disk / "told"], "source/pipe: pipes, sockets"),
                (["--from", self.disk / "nothing", self.disk / "told"], "No such file")):
            with self.subTest(words=words):
                self.assertIn(why, mounts.nuz("mount", *words, status=1).stderr)
                self.assertFalse((self.disk / "told").exists())
        self.assertEqual(len(self.mounts_here()), len(self.mounts_before) + 1)

    def test_what_is_sure_to_fail_fails_first(self) -> None:
        (self.folder("place") / "file").write_text("there before")
        self.mount()
        self.mounts_before = self.mounts_here()
        os.symlink(self.source, self.disk / "told")
        for words, why in (
                (["--to", "place"], "save place: it is not empty, and only --replace replaces it"),
                (["--to", "nothing/target"], "save nothing/target: No such file or directory"),
                (["--to", "told", "--replace"], "save told: Not a directory"),
                (["--to", "told"], "save told: Not a directory"),
                (["--to", "place/file"], "save place/file: Not a directory"),
                (["--to", ""], "save : No such file or directory"),
                (["--to", "mount", "--replace"],
                 "save mount: something is mounted on it or below it"),
                (["--to", "/", "--replace"], "save /: it can't be replaced"),
                (["--depfile", "place"], "depfile place: Is a directory"),
                (["--depfile", "nothing/f"], "depfile nothing/f: No such file or directory"),
                (["--depfile", ""], "depfile : No such file or directory"),
                (["--to", "new", "--depfile", "new"], "depfile new: Is a directory"),
                (["--to", "new", "--manifest", "new/"], "manifest new/: Is a directory"),
                (["--to", "new", "--manifest", "/dev/fd/3"],
                 "manifest /dev/fd/3: Bad file descriptor"),
                (["--manifest", "place/file/f"], "manifest place/file/f: Not a directory")):
            with self.subTest(words=words):
                ended = self.run_it("--from", self.source, *words, "--", "sh", "-c",
                                    f"touch {self.target}", cwd=self.disk, status=125)
                self.assertEqual(ended.stderr, f"nuz: {why}\n")
                self.assertFalse(self.target.exists())
        self.assert_nothing_left()

    def test_paths_that_are_of_no_mount(self) -> None:
        for path in ("/", "", "/x", self.source, self.source / "file"):
            for words in (["commit", path], ["abort", path], ["undo", path],
                          ["save", path, self.target]):
                with self.subTest(words=words):
                    self.assertIn("not DIR/NAME", mounts.nuz(*words, status=1).stderr)
        mounted = self.mount()
        for path, why in (("/", "not DIR/STEP"), (self.source, "not DIR/STEP"),
                          (mounted.job, "a transaction has that name")):
            with self.subTest(path=path):
                self.assertIn(why, self.run_it("--in", path, "--", "true", status=125).stderr)

    def test_streams_are_the_commands_own(self) -> None:
        ended = self.run_it("--from", self.source, "--", "sh", "-c", "cat; echo wrong >&2",
                            input="text", stdin=None)
        self.assertEqual((ended.stdout, ended.stderr), ("text", "wrong\n"))

    def test_reasons(self) -> None:
        mounted = self.mount()
        with open(mounted.begin("a") / "file", "w"):
            self.assertIn("a file is open", mounted.undo("a", status=1).stderr)
        mounted.undo("a")
        ended = self.run_it("--from", self.source, "--", "no-such-command", status=127)
        self.assertEqual(ended.stderr, "nuz: run no-such-command: there is no such command\n")

    def test_streams_that_are_closed(self) -> None:
        """As the programs have them that others begin at night."""
        for closed in ("<&- >&-", "<&- >&- 2>&-", "2>&-"):
            with self.subTest(closed=closed):
                shutil.rmtree(self.target, ignore_errors=True)
                script = f'"$@" {closed}'
                mounts.run("sh", "-c", script, "sh", mounts.NUZ, "run", "--to", self.target, "--",
                           "sh", "-c", "echo new >new", env=self.environment)
                self.assertEqual((self.target / "new").read_text(), "new\n")
        top = self.disk / "mount"
        self.addCleanup(mounts.run, "fusermount3", "-u", top)
        mounts.run("sh", "-c", '"$@" <&- >&- 2>&-', "sh", mounts.NUZ, "mount", top)
        self.assertEqual(os.listdir(top), ["job"])

    def test_signals_end_a_command_that_is_stopped(self) -> None:
        running = self.begin("sleep", "100")
        below = mounts.children(running.pid)
        mounts.signal_all(below, signal.SIGSTOP)
        running.send_signal(signal.SIGTERM)
        # (the mount of the run is stopped too, and not by the signal)
        mounts.signal_all(below[:1], signal.SIGCONT)
        self.assertTrue(mounts.ended_within(running))

    def is_killed_while_it_loads(self) -> bool:
        """Kills a run, which leaves nothing. Returns whether that was before it had mounted."""
        running = mounts.start(mounts.NUZ, "run", "--from", self.source, "--", "true",
                               env=self.environment)
        self.assertTrue(mounts.wait_until(
            lambda: bool(mounts.children(running.pid)) or running.poll() is not None))
        below = mounts.children(running.pid)
        mounts.signal_all(below, signal.SIGSTOP)
        is_loading = bool(below) and self.mounts_here() == self.mounts_before
        running.kill()
        running.wait()
        mounts.signal_all(below, signal.SIGCONT)
        self.assert_nothing_left()
        return is_loading

    def test_killed_while_it_loads(self) -> None:
        (self.source / "large").write_bytes(bytes(64 << 20))
        # (a run that is killed too late has to be tried again)
        self.assertTrue(any(self.is_killed_while_it_loads() for _ in range(5)))

    def test_signals_go_to_the_command(self) -> None:
        for number in (signal.SIGTERM, signal.SIGHUP, signal.SIGINT):
            with self.subTest(number=number):
                running = self.begin("sleep", "100")
                running.send_signal(number)
                self.assertTrue(mounts.ended_within(running))
                self.assertEqual(running.returncode, 128 + number)
                self.assertFalse(self.target.exists())
                self.assert_nothing_left()

    def begin(self, *words: object) -> subprocess.Popen:
        """Begins a run, and waits until the command has begun. (It has no child of its own then,
        which could be stopped in its place.)"""
        told = self.disk / "told"
        told.unlink(missing_ok=True)
        running = mounts.start(mounts.NUZ, "run", "--from", self.source, "--to", self.target, "--",
                               "sh", "-c", f': >{told}; exec "$@"', "sh", *words,
                               env=self.environment)
        self.addCleanup(running.kill)
        self.assertTrue(mounts.wait_until(told.exists, 10))
        return running

    def test_killed_at_its_beginning(self) -> None:
        mounted = self.mount()
        for number, sent in enumerate([signal.SIGKILL, signal.SIGTERM] * 15):
            step = mounted.top / f"a{number}"
            running = mounts.start(mounts.NUZ, "run", "--in", step, "--", "sleep", "100")
            while not step.exists() and running.poll() is None:
                pass  # (so that it is killed as soon as it has begun the step)
            running.send_signal(sent)
            self.assertTrue(mounts.ended_within(running))
        self.assertTrue(mounts.wait_until(lambda: os.listdir(mounted.top) == ["job"]),
                        os.listdir(mounted.top))

    def test_killed(self) -> None:
        mounted = self.mount("--from", self.source)
        running = mounts.start(mounts.NUZ, "run", "--in", mounted.top / "a", "--",
                               "sh", "-c", "echo new >file; exec sleep 100")
        step = mounted.top / "a"
        self.assertTrue(mounts.wait_until(
            lambda: step.exists() and (step / "file").stat().st_size == 4, 10))
        below = mounts.children(running.pid)
        running.kill()
        running.wait()
        self.assertTrue(mounts.wait_until(lambda: os.listdir(mounted.top) == ["job"], 10))
        mounts.signal_all(below, signal.SIGKILL)
        self.assert_same(self.source, mounted.job)
        self.assert_free(mounted)


class StepOfMountTest(RunTest):
    def setUp(self) -> None:
        super().setUp()
        (self.source / "folder").mkdir()
        self.mounted = self.mount("--from", self.source)

    def test_top_and_name_of_the_step(self) -> None:
        step = self.mounted.top / "a"
        ended = self.run_it("--in", step, "--", "sh", "-c", 'pwd; echo "$NUZ_STEP"')
        self.assertEqual(ended.stdout.split(), [str(step)] * 2)

    def test_step_of_the_current_folder(self) -> None:
        script = 'pwd; echo "$NUZ_STEP"; echo new >new'
        here = self.mounted.job / "folder"
        ended = self.run_it("--", "sh", "-c", script, cwd=here)
        step = self.mounted.top / "run1"
        self.assertEqual(ended.stdout.split(), [str(step / "folder"), str(step)])
        self.run_it("--", "sh", "-c", "rm new; exit 1", cwd=here, status=1)
        self.assertEqual((here / "new").read_text(), "new\n")

    def test_step_in_a_step(self) -> None:
        script = f'{mounts.NUZ} run -- sh -c "rm file; exit 1" || {mounts.NUZ} run -- rm gone'
        self.run_it("--in", self.mounted.top / "a", "--", "sh", "-c", script)
        self.assertEqual(sorted(os.listdir(self.mounted.job)), ["file", "folder"])

    def test_outside_of_a_mount(self) -> None:
        self.assertRegex(self.run_it("--", "true", cwd=self.disk, status=125).stderr, "^nuz: ")


class SaveTest(RunTest):
    def setUp(self) -> None:
        super().setUp()
        (self.source / "sub").mkdir(mode=0o750)
        (self.source / "sub" / "run").write_text("x")
        (self.source / "sub" / "run").chmod(0o4711)
        os.link(self.source / "sub" / "run", self.source / "link")
        os.symlink("sub/run", self.source / "to")
        os.utime(self.source / "file", ns=(0, 1_234_567_890_987_654_321))
        if os.geteuid() == 0:
            os.chown(self.source / "gone", 12, 34)
            os.chown(self.source / "to", 12, 34, follow_symlinks=False)
        self.mounted = self.mount("--from", self.source)

    def test_whole_folder(self) -> None:
        self.assert_same(self.source, self.mounted.job)
        self.target.mkdir()
        for words in ([], ["--replace"]):
            mounts.nuz("save", *words, self.mounted.job, self.target)
            self.assert_same(self.source, self.target)
        self.assert_nothing_left_beside()

    def assert_nothing_left_beside(self) -> None:
        self.assertEqual(sorted(os.listdir(self.disk)), ["mount", "source", "target", "temporary"])

    def test_replaces_only_if_asked(self) -> None:
        self.folder("target", there="before")
        ended = mounts.nuz("save", self.mounted.job, self.target, status=1)
        self.assertRegex(ended.stderr, "^nuz: ")
        self.assertEqual(os.listdir(self.target), ["there"])
        mounts.nuz("save", "--replace", self.mounted.job, self.target)
        self.assert_same(self.source, self.target)
        self.assert_nothing_left_beside()

    def test_no_path_is_no_folder(self) -> None:
        ended = mounts.nuz("save", "--replace", self.mounted.job, "", cwd=self.target.parent,
                           status=1)
        self.assertEqual(ended.stderr, "nuz: save : No such file or directory\n")
        self.assertEqual(sorted(os.listdir(self.disk)), ["mount", "source", "temporary"])

    def test_of_a_step(self) -> None:
        (self.mounted.begin("a") / "file").unlink()
        mounts.nuz("save", self.mounted.top / "a", self.target)
        self.assertEqual(sorted(os.listdir(self.target)), ["gone", "link", "sub", "to"])

    def test_fails_whole(self) -> None:
        mounts.nuz("save", self.mounted.top / "none", self.target, status=1)
        self.assertFalse(self.target.exists())
        mounts.nuz("save", self.mounted.job, self.disk / "nothing" / "target", status=1)
        (self.disk / "told").write_text("a file")
        mounts.nuz("save", "--replace", self.mounted.job, self.disk / "told", status=1)
        self.assertEqual((self.disk / "told").read_text(), "a file")

    def test_never_a_moment_without_the_folder(self) -> None:
        mounts.nuz("save", self.mounted.job, self.target)
        missing: list[OSError] = []
        ended = threading.Event()

        def look() -> None:
            while not ended.is_set():
                try:
                    os.stat(self.target / "sub" / "run")
                except OSError as error:
                    missing.append(error)

        looking = threading.Thread(target=look)
        looking.start()
        for _ in range(15):
            mounts.nuz("save", "--replace", self.mounted.job, self.target)
        ended.set()
        looking.join()
        # (what is opened in the old folder while that is removed may be gone, but its name never)
        self.assertEqual([error for error in missing if not self.target.is_dir()], [])


def rules_of(depfile: Path) -> dict[str, set[str]]:
    """What a depfile says, as make reads it."""
    told = mounts.run("make", "-pnrR", "-f", depfile, status=None).stdout
    # (make prints each file with its dependencies)
    found = re.findall(r"(?m)^([^#\s:][^:=\n]*):(?!=) *(.*)$", told.split("# Files", 1)[-1])
    return {name: set(words.split()) for name, words in found if words and name[0] != "."}


def touch_later(path: Path, other: Path) -> None:
    """Gives a file a later time than another one has. (The clock may not have ticked since.)"""
    later = other.stat().st_mtime_ns + 1
    os.utime(path, ns=(later, later))


class ReadAndWrittenTest(RunTest):
    """What a step has read and written is what its command has."""

    def setUp(self) -> None:
        super().setUp()
        if not shutil.which("gcc"):
            self.skipTest("gcc is not there")
        (self.source / "include").mkdir()
        (self.source / "src").mkdir()
        (self.source / "include" / "used.h").write_text('#include "more.h"\n')
        (self.source / "include" / "more.h").write_text("enum { more = 1 };\n")
        (self.source / "include" / "unused.h").write_text("enum { unused = 1 };\n")
        (self.source / "src" / "main.c").write_text(
            "#include <used.h>\nint main(void) { return more - 1; }\n")
        self.told = self.disk / "told"

    def compile(self, *words: object, **options) -> None:
        """Compiles in a step, from and to folders that are named as they are seen from here."""
        self.run_it("--from", "source", "--to", "target", *words, "--", "gcc", "-Inone",
                    "-Iinclude", "-c", "src/main.c", "-o", "main.o", cwd=self.disk, **options)

    def test_depfile_has_what_gcc_read(self) -> None:
        self.compile("--depfile", self.told)
        read = {"src/main.c", "include/used.h", "include/more.h"}
        mounts.run("gcc", "-Iinclude", "-MM", "-MF", self.disk / "place", "src/main.c",
                   cwd=self.source)
        self.assertEqual(rules_of(self.disk / "place"), {"main.o": read})
        self.assertEqual(rules_of(self.told),
                         {"target/main.o": {f"source/{name}" for name in read}})

    def test_make_reads_it(self) -> None:
        self.compile("--depfile", self.told)
        (self.disk / "rules").write_text(f"include {self.told}\ntarget/main.o:\n\ttouch $@\n")
        make = "make", "-q", "-f", "rules", "target/main.o"
        mounts.run(*make, cwd=self.disk)
        touch_later(self.source / "include" / "unused.h", self.target / "main.o")
        mounts.run(*make, cwd=self.disk)
        touch_later(self.source / "include" / "more.h", self.target / "main.o")
        mounts.run(*make, cwd=self.disk, status=1)

    def test_ninja_reads_it(self) -> None:
        if not shutil.which("ninja"):
            self.skipTest("ninja is not there")
        command = f"{mounts.NUZ} run --from source --to target --replace --depfile deps" \
            " -- gcc -Iinclude -c src/main.c -o main.o"
        (self.disk / "build.ninja").write_text(
            f"rule cc\n command = {command}\n depfile = deps\nbuild target/main.o: cc\n")
        ninja = "ninja", "-C", self.disk
        mounts.run(*ninja)
        self.assertIn("no work", mounts.run(*ninja).stdout)
        touch_later(self.source / "include" / "unused.h", self.target / "main.o")
        self.assertIn("no work", mounts.run(*ninja).stdout)
        touch_later(self.source / "include" / "more.h", self.target / "main.o")
        self.assertNotIn("no work", mounts.run(*ninja).stdout)

    def test_manifest_has_absent_names_too(self) -> None:
        self.compile("--manifest", self.told)
        lines = [line.split(" ") for line in self.told.read_text().splitlines()]
        told = {path: (set(how.split(",")), kind) for path, how, kind in lines}
        for path, how, kind in (
                ("/main.o", "written", "file"), ("/src/main.c", "read", "file"),
                ("/include/used.h", "read", "file"), ("/include/more.h", "read", "file"),
                ("/none", "absent", "none"), ("/include", "read", "dir")):
            with self.subTest(path=path):
                self.assertIn(path, told)
                self.assertIn(how, told[path][0])
                self.assertEqual(told[path][1], kind)
        self.assertNotIn("written", told["/src/main.c"][0])
        self.assertFalse(set(told) & {"/include/unused.h", "/file", "/gone"})

    def test_only_of_what_is_committed(self) -> None:
        self.run_it("--from", self.source, "--depfile", self.told, "--manifest", self.told, "--",
                    "sh", "-c", "cat file; exit 1", status=1)
        self.assertFalse(self.told.exists())

    def test_nothing_to_tell(self) -> None:
        self.run_it("--from", self.source, "--to", self.target, "--depfile", self.told,
                    "--manifest", self.disk / "place", "--", "true")
        self.assertEqual(self.told.read_text(), "")
        self.assertNotIn("txn", (self.disk / "place").read_text())

    def test_strange_names(self) -> None:
        name = "a b#c$d%e\\f"
        (self.source / name).write_text("text")
        self.run_it("--from", "source", "--depfile", self.told, "--", "cp", name, "copy",
                    cwd=self.disk)
        rule = "\t@printf '%s\\n' '$^'\n"
        (self.disk / "rules").write_text(f"include {self.told}\nsource/copy:\n{rule}")
        ended = mounts.run("make", "-s", "-B", "-f", "rules", "source/copy", cwd=self.disk)
        self.assertEqual(ended.stdout, f"source/{name}\n")

    def test_names_that_no_depfile_can_have(self) -> None:
        (self.source / "a*b").write_text("text")
        words = "--from", self.source, "--to", self.target, "--depfile", self.told, "--"
        for command in (["cp", "a*b", "copy"], ["cp", "file", "a*b"]):
            with self.subTest(command=command):
                self.assertRegex(self.run_it(*words, *command, status=125).stderr,
                                 f"(?m)^nuz: depfile {self.told}: .*/a[*]b$")
                self.assertFalse(self.target.exists() or self.told.exists())
        self.assertRegex(self.run_it("--target", "a=b", *words, "true", status=125).stderr,
                         "(?m)^nuz: .* a=b$")

    def test_file_that_gets_the_time_that_it_has(self) -> None:
        """It is written all the same: so is one that is touched twice in a tick of the clock."""
        os.utime(self.source / "file", ns=(0, 10**9))
        self.run_it("--from", "source", "--depfile", self.told, "--manifest", self.disk / "place",
                    "--", "touch", "-d", "@1", "file", cwd=self.disk)
        self.assertEqual(self.told.read_text(), "source/file:\n")
        self.assertIn("/file read,written file", (self.disk / "place").read_text())

    def test_files_in_the_folder_that_is_saved(self) -> None:
        for number in range(2):
            with self.subTest(number=number):
                self.run_it("--from", "source", "--to", "target", "--replace", "--depfile",
                            "target/deps", "--manifest", "target/used", "--", "touch", "made",
                            cwd=self.disk)
                self.assertEqual((self.target / "deps").read_text(), "target/made:\n")
                self.assertIn("/made read,written file", (self.target / "used").read_text())

    def test_files_in_the_current_folder_that_is_saved(self) -> None:
        self.folder("target", file="old")
        os.symlink(".", self.disk / "place")
        for here, name, target in (("target", "deps", self.target),
                                   ("target", "deps", self.disk / "place" / "target"),
                                   ("target/sub", "deps", ".."),
                                   ("target/sub", "../deps", self.target)):
            with self.subTest(here=here, name=name, target=target):
                (self.disk / here).mkdir(exist_ok=True)
                (self.disk / here / name).unlink(missing_ok=True)
                self.run_it("--from", self.target, "--to", target, "--replace", "--depfile", name,
                            "--", "touch", "made", cwd=self.disk / here)
                self.assertIn("/made:", (self.disk / here / name).read_text())

    def test_depfile_in_a_folder_that_was_listed(self) -> None:
        job = self.mount("--from", self.source).job
        self.run_it("--depfile", "deps", "--", "sh", "-c", "ls >names", cwd=job)
        self.assertTrue((job / "deps").read_text().startswith("names:"))

    def test_file_is_whole_or_as_it_was(self) -> None:
        """What is saved stays, and its status says so."""
        if os.geteuid() != 0:
            self.skipTest("only root can mount a disk that is full")
        full = self.folder("place")
        mounts.run("mount", "-t", "tmpfs", "-o", "size=16k", "tmpfs", full)
        self.addCleanup(mounts.run, "umount", full)
        (full / "deps").write_text("before")
        with self.assertRaises(OSError), open(full / "large", "wb", buffering=0) as large:
            while True:
                large.write(bytes(4_096))
        ended = self.run_it("--from", self.source, "--to", self.target, "--depfile", full / "deps",
                            "--manifest", self.told, "--", "touch", "new", status=74)
        self.assertRegex(ended.stderr, "deps: No space left(?s:.*)is committed, and saved, even so")
        self.assertEqual((full / "deps").read_text(), "before")
        self.assertEqual(sorted(os.listdir(full)), ["deps", "large"])
        self.assertTrue((self.target / "new").exists())
        self.assertIn("/new read,written file", self.told.read_text())

    def test_what_a_file_is_stays(self) -> None:
        (self.disk / "place").write_text("before")
        (self.disk / "place").chmod(0o600)
        os.symlink("place", self.told)
        words = "--from", self.source, "--target", "it", "--depfile"
        self.run_it(*words, self.told, "--", "true")
        self.assertEqual(os.readlink(self.told), "place")
        self.assertEqual((self.disk / "place").read_text(), "it:\n")
        self.assertEqual((self.disk / "place").stat().st_mode & 0o777, 0o600)
        self.assertEqual(self.run_it(*words, "/dev/stdout", "--", "true").stdout, "it:\n")
        self.run_it(*words, "/dev/full", "--", "true", status=74)

    def test_streams_go_on(self) -> None:
        """A stream that is a file keeps what was written to it."""
        for name, number, other in (("/dev/stdout", 1, "stdout"), ("/dev/fd/2", 2, "stderr")):
            with self.subTest(name=name), open(self.told, "w+", encoding="utf-8") as file:
                file.write("before\n")
                file.flush()
                self.run_it("--from", self.source, "--target", "it", "--depfile", name, "--", "sh",
                            "-c", f"echo command >&{number}", capture_output=False,
                            **{other: file})
                file.seek(0)
                self.assertEqual(file.read(), "before\ncommand\nit:\n")
        self.assertEqual(self.run_it("--from", self.source, "--depfile", "/dev/fd/9", "--", "true",
                                     status=125).stderr,
                         "nuz: depfile /dev/fd/9: Bad file descriptor\n")

    def test_nobody_reads_a_pipe(self) -> None:
        read, write = os.pipe()
        os.close(read)
        with open(write, "wb") as pipe:
            self.run_it("--from", self.source, "--to", self.target, "--manifest", "/dev/stdout",
                        "--", "touch", "new", capture_output=False, stdout=pipe,
                        stderr=subprocess.DEVNULL, status=74)
        self.assertTrue((self.target / "new").exists())
        self.assert_nothing_left()

    def test_target(self) -> None:
        self.run_it("--from", "source", "--depfile", self.told, "--target", "a b", "--",
                    "sh", "-c", "cat file; echo one >one; echo two >two", cwd=self.disk)
        self.assertEqual(self.told.read_text(), "a\\ b: \\\n  source/file\n")

    def step(self, here: Path, *command: object, where: tuple = ()) -> dict[str, set[str]]:
        """What the depfile of a command says, run in a step from a folder."""
        self.run_it(*where, "--depfile", self.told, "--", *command, cwd=here)
        return rules_of(self.told)

    def test_relative_to_the_current_folder(self) -> None:
        """As a rule of make writes them: where nuz run is, or else absolute."""
        job = self.mount("--from", self.source).job
        headers = "include/used.h", "include/more.h"
        self.assertEqual(self.step(job / "src", "gcc", "-I../include", "-c", "main.c"),
                         {"main.o": {"main.c", *(f"{job}/{name}" for name in headers)}})
        compile_it = "gcc", "-Iinclude", "-c", "src/main.c"
        self.assertEqual(self.step(job, *compile_it), {"main.o": {"src/main.c", *headers}})
        self.folder("place")
        for top, where in (("mount/job", ()), ("place", ("--at", self.disk / "place"))):
            with self.subTest(top=top):
                told = self.step(self.disk, "sh", "-c", 'cd "${NUZ_AT:-.}" && exec "$@"', "sh",
                                 *compile_it, where=("--in", job.parent / "a", *where))
                self.assertEqual(told, {f"{top}/main.o": {f"{top}/{name}" for name in
                                                     ("src/main.c", *headers)}})

    def test_make_builds_again_what_has_changed(self) -> None:
        """A pattern rule as it is written without steps."""
        rule = f"%.o: %.c\n\t@{mounts.NUZ} run --depfile $*.d -- " \
            "gcc -I../include -c $< -o $@\n-include main.d\n"
        (self.source / "src" / "Makefile").write_text(rule)
        job = self.mount("--from", self.source).job
        mounts.run("make", "main.o", cwd=job / "src")
        make = "make", "-q", "main.o"
        mounts.run(*make, cwd=job / "src")
        touch_later(job / "include" / "unused.h", job / "src" / "main.o")
        mounts.run(*make, cwd=job / "src")
        touch_later(job / "include" / "more.h", job / "src" / "main.o")
        mounts.run(*make, cwd=job / "src", status=1)
