"""What a transaction has touched."""
import os

from nuzolged import Touched
from test_tree import TreeTest


class WhatWasTouched(TreeTest):
    def setUp(self):
        super().setUp()
        self.job.makedirs("/d/e")
        self.job.write_bytes("/d/f", b"bytes")
        self.job.write_bytes("/d/g h", b"more")
        self.job.commit()
        self.job = self.tree.begin()

    def touched(self):
        """Each path with how it was touched, in short."""
        short = {}
        for path, how in self.job.touched().items():
            words = [word for word in ("read", "listed", "written") if getattr(how, word)]
            short[path] = " ".join(words)
        return short

    def test_nothing(self):
        self.assertEqual(self.job.touched(), {})

    def test_reads(self):
        self.job.read_bytes("/d/f")
        self.assertFalse(self.job.exists("/d/none/x"))
        self.assertEqual(self.job.listdir("/d/e"), [])
        self.assertEqual(
            self.touched(),
            {"/d": "read", "/d/e": "read listed", "/d/f": "read", "/d/none": "read"},
        )
        told = self.job.touched()
        self.assertEqual(told["/d/none"], Touched(read=True, absent=True))
        self.assertEqual([told[path].kind for path in ("/d", "/d/f", "/d/none")],
                         ["dir", "file", "none"])

    def test_writes(self):
        self.job.write_bytes("/d/g h", b"other")
        self.job.mkdir("/new")
        self.job.unlink("/d/f")
        touched = self.touched()
        for path in ("/d/g h", "/new", "/d/f"):
            self.assertIn("written", touched[path])
        self.assertNotIn("written", touched["/d"])

    def test_steps(self):
        with self.job.begin() as step:
            step.stat("/d/f")
            self.assertEqual(self.job.touched(), {})
        self.assertEqual(self.touched(), {"/d": "read", "/d/f": "read"})
        step = self.job.begin()
        step.mkdir("/gone")
        step.abort()
        self.assertEqual(self.touched(), {"/d": "read", "/d/f": "read"})

    def test_deep(self):
        path = ""
        for _ in range(1500):
            path += "/d"
            self.job.makedirs(path, exist_ok=True)
        self.assertEqual(max(map(len, self.job.touched())), len(path))

    def test_ended(self):
        self.job.mkdir("/a")
        self.job.commit()
        self.assertEqual(self.job.touched(), {})

    def test_manifest(self):
        self.job.stat("/d/f")
        self.job.symlink("f", "/d/l n")
        self.job.listdir("/d")
        self.assertFalse(self.job.exists("/none"))
        self.assertEqual(
            self.job.manifest(),
            "/d read,listed dir\n/d/f read file\n/d/l%20n written link\n/none absent none\n",
        )
        with self.tree.begin() as job:
            self.assertEqual(job.manifest(), "")

    def test_long_manifest(self):
        names = [f"/{number:0200}" for number in range(500)]
        for name in names:
            self.assertFalse(self.job.exists(name))
        lines = self.job.manifest().splitlines()
        self.assertEqual(lines, [f"{name} absent none" for name in names])

    def test_depfile(self):
        self.job.read_bytes("/d/g h")
        self.job.listdir("/d")
        self.job.write_bytes("/out", b"made")
        self.assertEqual(self.job.depfile("a.o"), "a.o: \\\n  /d \\\n  /d/g\\ h\n")
        self.assertEqual(self.job.depfile(top="/t"), "/t/out: \\\n  /t/d \\\n  /t/d/g\\ h\n")
        self.job.symlink("/none", "/l")
        self.assertIn("/l /out: ", self.job.depfile())

    def test_name_of_any_bytes(self):
        self.job.write_bytes(b"/\xff", b"made")
        self.assertEqual(self.job.depfile(), os.fsdecode(b"/\xff:\n"))

    def test_name_without_a_form(self):
        for target in ("a\nb", "a=b", ""):
            with self.assertRaisesRegex(ValueError, "make or Ninja"):
                self.job.depfile(target)
        with self.assertRaisesRegex(ValueError, "null byte"):
            self.job.depfile("a\0b")
        self.tree.close()
        with self.assertRaisesRegex(ValueError, "closed"):
            self.job.depfile("a")
