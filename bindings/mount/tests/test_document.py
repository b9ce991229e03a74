"""What docs/MOUNT.md shows, as it is typed there, and the manual page."""
from __future__ import annotations

import os
import re
import shutil
import unittest
from pathlib import Path

import mounts

DOCUMENT = Path(__file__).resolve().parents[3] / "docs" / "MOUNT.md"
PAGE = Path(__file__).resolve().parents[1] / "nuz.1"
COMMANDS = "mount", "run", "commit", "abort", "undo", "steps", "save"
# comes after what each command prints
MARK = "---- end of a command"


def commands(text: str) -> list[tuple[str, str]]:
    """The commands that are typed in a document, with what each prints."""
    typed = "".join(re.findall(r"(?ms)^```console\n(.*?)^```$", text))
    parts = re.split(r"(?m)^\$ ", typed)[1:]
    found = [re.findall(r"(?s)\A(.*?\n(?:> .*?\n)*)(.*)", part)[0] for part in parts]
    return [(re.sub(r"(?m)^> ", "", command), printed) for command, printed in found]


class DocumentTest(mounts.MountTest):
    def test_what_is_typed_prints_what_is_shown(self) -> None:
        os.symlink(os.path.realpath(mounts.NUZ), self.disk / "nuz")
        here = self.folder("here")
        shown = commands(DOCUMENT.read_text(encoding="utf-8"))
        # (the status of a command is asked for by the next one)
        script = "".join(f"{command}status=$?; echo '{MARK}'; (exit $status)\n"
                         for command, _ in shown)
        try:
            told = mounts.run("bash", "-c", script, cwd=here, text=True, stderr=-2,
                              capture_output=False, stdout=-1,
                              env={**os.environ, "PATH": f"{self.disk}:{os.environ['PATH']}"},
                              status=None).stdout
        finally:
            mounts.run("fusermount3", "-u", "-z", here / "work", status=None)
        printed = told.split(f"{MARK}\n")
        for (command, text), found in zip(shown, printed):
            with self.subTest(command=command):
                self.assertEqual(found, text)
        self.assertEqual(len(printed), len(shown) + 1)


class ManualTest(unittest.TestCase):
    def test_page_is_well_formed(self) -> None:
        if not shutil.which("groff"):
            self.skipTest("groff is not there")
        ended = mounts.run("groff", "-ww", "-b", "-man", "-Tutf8", "-z", PAGE)
        self.assertEqual(ended.stdout + ended.stderr, "")

    def test_page_and_help_and_document_have_the_same_options(self) -> None:
        page = PAGE.read_text(encoding="utf-8").replace("\\-", "-")
        helps = "".join(mounts.nuz(command, "--help").stdout for command in COMMANDS)
        document = DOCUMENT.read_text(encoding="utf-8").partition("\n## Commands\n")[2]
        found = [set(re.findall(r"--[a-z]+(?:-[a-z]+)*", text))
                 for text in (page, helps, document)]
        self.assertEqual(found[0] - {"--help", "--version"}, found[1])
        self.assertEqual(found[0], found[2])
        described = re.findall(r"(?m)^\.TP\n\.BI? +(--[a-z-]+)", page)
        self.assertEqual(sorted(described), sorted(found[0]))

    def test_page_has_all_commands(self) -> None:
        page = PAGE.read_text(encoding="utf-8")
        for command in COMMANDS:
            with self.subTest(command=command):
                self.assertIn(f"\\fBnuz {command}\\fR", page)
                self.assertIn(f"\n.TP\n.B nuz {command}\n", page)
