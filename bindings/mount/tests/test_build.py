"""A build of programs of this repository, in steps."""
from __future__ import annotations

import os
import shutil
from pathlib import Path

import mounts

PROGRAMS_OF_C = Path(__file__).resolve().parents[2] / "c"
# the folder with the library, for which make has built it
LIBRARY = Path(mounts.NUZ).resolve().parent
MAKEFILE = f"""
CFLAGS = -std=c11 -O1 -Wall -Wextra
PROGRAMS = example job copy play
all: $(PROGRAMS)
$(PROGRAMS): %: %.o nuzolged_copy.o
\t$(CC) $^ {LIBRARY}/libnuzolged.a -o $@
%.o: %.c nuzolged.h nuzolged_copy.h
\t$(CC) $(CFLAGS) -I. -c $< -o $@
"""


class BuildTest(mounts.MountTest):
    def setUp(self) -> None:
        super().setUp()
        for command in ("make", "cc"):
            if not shutil.which(command):
                self.skipTest(f"{command} is not there")
        if not (LIBRARY / "libnuzolged.a").exists():
            self.skipTest("libnuzolged.a is not beside nuz")
        self.source = self.disk / "source"
        shutil.copytree(PROGRAMS_OF_C, self.source)
        (self.source / "Makefile").write_text(MAKEFILE)
        self.mounted = self.mount("--from", self.source)

    def in_step(self, name: str, *words: object, **options):
        return mounts.nuz("run", "--in", self.mounted.top / name, "--", *words, **options)

    def test_twice(self) -> None:
        self.in_step("first", "make", "-s", "-j4")
        self.in_step("second", "make", "-q")
        self.assertIn("Nothing to be done", self.in_step("third", "make").stdout)
        mounts.nuz("save", self.mounted.job, self.disk / "saved")
        mounts.run("make", "-q", "-C", self.disk / "saved")
        ended = mounts.run("./example", cwd=self.disk / "saved")
        self.assertEqual(ended.stdout, (PROGRAMS_OF_C / "example.out").read_text())

    def test_only_what_is_older_is_made(self) -> None:
        self.in_step("first", "make", "-s", "-j4")
        self.in_step("changed", "sh", "-c", "echo >>job.c")
        made = self.in_step("second", "make").stdout
        self.assertIn("job.c", made)
        self.assertNotIn("copy.c", made)
        self.in_step("third", "make", "-q")

    def test_failing_step_leaves_nothing(self) -> None:
        script = "echo '#error broken' >>play.c; make -s -k -j4"
        self.in_step("broken", "sh", "-c", script, status=2)
        self.assert_same(self.source, self.mounted.job)
        self.assert_free(self.mounted)

    def test_finished_neighbour_stays(self) -> None:
        """(Neither lists the folder to which both add names, so they do not wait.)"""
        failing = mounts.start(mounts.NUZ, "run", "--in", self.mounted.top / "failing", "--", "sh",
                               "-c", "cc -I. -c job.c -o broken.o && cc broken.o no.o -o broken")
        self.in_step("finished", "sh", "-c", "cc -I. -c example.c -o finished.o")
        self.assertEqual(failing.wait(mounts.MOST_SECONDS), 1)
        self.assertEqual(set(os.listdir(self.mounted.job)) - set(os.listdir(self.source)),
                         {"finished.o"})

    def test_steps_side_by_side(self) -> None:
        """Each program of its own, by make itself: parallel steps of a build."""
        rules = "%.o: %.c nuzolged.h nuzolged_copy.h\n\t" \
            f"cd $(TOP) && {mounts.NUZ} run -- $(CC) -I. -c $< -o $@\n"
        (self.disk / "rules").write_text(rules)
        parts = ["example.o", "job.o", "copy.o", "play.o", "nuzolged_copy.o"]
        mounts.run("make", "-s", "-j4", "-f", self.disk / "rules", f"TOP={self.mounted.job}",
                   *parts, cwd=self.source)
        self.assertLessEqual(set(parts), set(os.listdir(self.mounted.job)))
        self.assertFalse(set(parts) & set(os.listdir(self.source)))
        self.in_step("rest", "make", "-s")
        self.in_step("again", "make", "-q")
