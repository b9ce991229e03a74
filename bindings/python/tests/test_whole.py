"""Work that takes several calls: whole files and trees, paths, and what is built on them."""
import errno
import gc
import importlib.util
import os
import shutil
import subprocess
import sys
import tempfile
import unittest
import warnings
from pathlib import PurePosixPath

from nuzolged import Tree


class WholeTest(unittest.TestCase):
    def setUp(self):
        self.tree = Tree()
        self.addCleanup(self.tree.close)
        self.job = self.tree.begin()
        for name in ("a/b/one", "a/two", "c/.hidden", "three"):
            self.job.makedirs("/" + os.path.dirname(name), exist_ok=True)
            self.job.write_text("/" + name, name)


class Trees(WholeTest):
    def test_kinds(self):
        job = self.job
        self.assertTrue(job.isdir("/a") and job.isfile("/three"))
        for path in ("/none", "/three/none"):
            self.assertFalse(job.isdir(path) or job.isfile(path) or job.exists(path))

    def test_walk(self):
        walked = [("/", ["a", "c"], ["three"]), ("/a", ["b"], ["two"]), ("/a/b", [], ["one"])]
        walked.append(("/c", [], [".hidden"]))
        self.assertEqual(list(self.job.walk()), walked)
        last = [folder for folder, _, _ in self.job.walk(topdown=False)]
        self.assertEqual(last, ["/a/b", "/a", "/c", "/"])
        for _, folders, _ in self.job.walk():
            folders[:] = [name for name in folders if name != "a"]
        self.assertEqual(folders, [])

    def test_glob(self):
        for pattern, found in {
            "/*": ["/a", "/c", "/three"],
            "*e": ["three"],
            "/a/*/o?e": ["/a/b/one"],
            "/a/two": ["/a/two"],
            "/a/none": [],
            "/three/*": [],
            "/c/*": [],
            "/c/.h*": ["/c/.hidden"],
            "/**/t*": ["/a/two", "/three"],
            "/a/**": ["/a", "/a/b", "/a/b/one", "/a/two"],
        }.items():
            self.assertEqual(self.job.glob(pattern), found, pattern)

    def test_rmtree(self):
        self.job.rmtree("/a")
        self.assertEqual(self.job.listdir(), ["c", "three"])
        with self.assertRaises(NotADirectoryError):
            self.job.rmtree("/three")

    def test_copies(self):
        job = self.job
        job.link("/a/two", "/a/b/two")
        job.copytree("/a", "/d/e")
        self.assertEqual(job.read_text("/d/e/b/one"), "a/b/one")
        self.assertEqual(job.stat("/d/e/two").links, 2)
        self.assertEqual(job.stat("/d/e/two"), job.stat("/d/e/b/two"))
        with self.assertRaises(FileExistsError):
            job.copytree("/a", "/d/e")
        job.copytree("/c", "/d", dirs_exist_ok=True)
        self.assertEqual(job.listdir("/d"), [".hidden", "e"])
        for below in ("/a", "/a/f", "/a/../a/f"):
            with self.assertRaises(OSError) as error:
                job.copytree("/a", below)
            self.assertEqual(error.exception.errno, errno.EINVAL)
        job.copytree("/a", "/ab")
        job.copyfile("/three", "/four")
        self.assertEqual(job.read_text("/four"), "three")
        with self.assertRaises(shutil.SameFileError):
            job.copyfile("/three", "three")

    def test_moves(self):
        self.assertEqual(self.job.move("/three", "/a"), "/a/three")
        self.assertEqual(self.job.move("/a/b/", "/e"), "/e")
        self.assertEqual(self.job.listdir("/e"), ["one"])
        self.job.write_bytes("/three", b"")
        with self.assertRaises(FileExistsError):
            self.job.move("/three", "/a")

    def test_names_of_os(self):
        self.job.replace("/three", "/a/two")
        self.job.remove("/a/two")
        self.assertEqual(self.job.listdir("/a"), ["b"])
        told = self.job.stat("/c/.hidden")
        self.assertEqual((told.st_size, told.st_nlink, told.st_ino), (9, 1, told.number))
        self.assertEqual((told.st_mode, self.job.stat("/").st_mode), (0o100644, 0o040755))


class Paths(WholeTest):
    def test_parts(self):
        path = self.job.path("/a") / "b" / "one.txt"
        self.assertEqual((path.name, path.stem, path.suffix), ("one.txt", "one", ".txt"))
        self.assertEqual((str(path.parent), os.fspath(path)), ("/a/b", "/a/b/one.txt"))
        self.assertEqual(path.with_name("two"), self.job.path("/a/b/two"))
        self.assertEqual(str(path.with_suffix("")), "/a/b/one")
        self.assertEqual(path.relative_to("/a"), PurePosixPath("b/one.txt"))
        self.assertEqual([str(above) for above in path.parents], ["/a/b", "/a", "/"])
        self.assertTrue(path.match("*.txt") and path.parts[1:] == ("a", "b", "one.txt"))
        self.assertLess(path.parent, path)
        self.assertEqual((path.suffixes, str(path.with_stem("two"))), ([".txt"], "/a/b/two.txt"))
        self.assertTrue(path.is_absolute() and path.is_relative_to("/a") and path.as_posix())
        self.assertEqual(len({path, self.job.path("/a/b/one.txt")}), 1)

    def test_calls(self):
        top = self.job.path()
        self.assertEqual([str(path) for path in top.iterdir()], ["/a", "/c", "/three"])
        self.assertEqual([str(path) for path in (top / "a").rglob("o*")], ["/a/b/one"])
        new = top / "x" / "y"
        new.mkdir(parents=True)
        new.mkdir(parents=True, exist_ok=True)
        file = new / "f"
        file.touch()
        self.assertEqual(file.write_text("täxt"), 4)
        self.assertEqual((file.read_text(), file.read_bytes()[:2]), ("täxt", b"t\xc3"))
        self.assertTrue(file.is_file() and new.is_dir() and file.exists())
        moved = file.rename(top / "g")
        (top / "h").hardlink_to(moved)
        self.assertTrue(moved.samefile("/h"))
        with moved.open("a") as end:
            end.write("!")
        self.assertEqual(moved.stat().st_size, 6)
        moved.unlink()
        moved.unlink(missing_ok=True)
        self.assertRaises(FileNotFoundError, moved.unlink)
        self.assertRaises(FileExistsError, (top / "h").touch, exist_ok=False)
        new.rmdir()

    def test_paths_are_given_to_calls(self):
        self.assertEqual(self.job.listdir(self.job.path("/a")), ["b", "two"])
        entry = self.job.scandir("/c")[0]
        self.assertEqual(self.job.read_text(entry), "c/.hidden")


@unittest.skipUnless(importlib.util.find_spec("fsspec"), "fsspec is not installed")
class Fsspec(WholeTest):
    def test_steps(self):
        from nuzolged.fsspec import NuzolgedFileSystem

        fs = NuzolgedFileSystem(self.job, skip_instance_cache=True)
        with fs.transaction:
            fs.makedirs("/x/y")
            fs.pipe("/x/y/f", b"hello")
        with self.assertRaises(KeyError), fs.transaction:
            fs.rm("/x", recursive=True)
            fs.mkdir("/z")
            raise KeyError
        self.assertEqual(fs.find("/x"), ["/x/y/f"])
        self.assertEqual((fs.cat("nuzolged://x/y/f"), fs.du("/x")), (b"hello", 5))
        fs.copy("/x", "/v", recursive=True)
        fs.mv("/v", "/w")
        self.assertEqual([top for top, _, _ in fs.walk("/w")], ["/w", "/w/y"])
        with fs.open("/t", "w") as file:
            file.write("text")
        self.job.utime("/t", (0, 7))
        told = fs.info("/t")
        self.assertEqual((told["size"], told["mode"], told["mtime"]), (4, 0o100644, 7))
        self.assertEqual((told["uid"], told["gid"]), (0, 0))
        self.assertFalse(fs.exists("/z"))

    def test_files(self):
        from nuzolged.fsspec import NuzolgedFileSystem

        fs = NuzolgedFileSystem(self.job, skip_instance_cache=True)
        fs.pipe("/f", b"some bytes")
        self.assertEqual((fs.head("/f", 4), fs.tail("/f", 5)), (b"some", b"bytes"))
        self.assertEqual(fs.read_block("/f", 2, 100), b"me bytes")
        self.assertIsNone(fs.modified("/f"))
        self.job.utime("/f", (0, 7))
        self.assertEqual(fs.modified("/f").timestamp(), 7)
        fs.touch("/f", truncate=False)
        self.assertGreater(fs.modified("/f").timestamp(), 1e9)
        self.assertEqual(fs.size("/f"), 10)
        fs.touch("/f")
        fs.touch("/g", truncate=False)
        self.assertEqual((fs.size("/f"), fs.size("/g")), (0, 0))

    def test_step_that_can_not_be_committed_is_aborted(self):
        from nuzolged.fsspec import NuzolgedFileSystem

        fs = NuzolgedFileSystem(self.job, skip_instance_cache=True)
        with self.assertRaisesRegex(ValueError, "open file"), fs.transaction:
            file = fs.open("/left", "wb")
        self.assertIs(fs.at, self.job)
        self.assertFalse(fs.exists("/left"))
        file.close()

    def test_tree_of_its_own(self):
        from nuzolged.fsspec import NuzolgedFileSystem

        with warnings.catch_warnings(record=True) as told:
            warnings.simplefilter("always")
            fs = NuzolgedFileSystem(skip_instance_cache=True)
            file = fs.open("/f", "wb")
            del fs
            file.write(b"bytes")
            file.close()
            del file
            gc.collect()
        self.assertEqual(told, [])

    def test_links(self):
        from nuzolged.fsspec import NuzolgedFileSystem

        fs = NuzolgedFileSystem(self.job, skip_instance_cache=True)
        fs.makedirs("/x")
        for path, target in {"to_a": "../a", "to_three": "../three", "loop": "loop"}.items():
            self.job.symlink(target, f"/x/{path}")
        told = fs.info("/x/to_a")
        self.assertEqual((told["type"], told["islink"], told["destination"]), ("link", True, "../a"))
        self.assertTrue(fs.isdir("/x/to_a") and fs.isfile("/x/to_three"))
        self.assertFalse(fs.exists("/x/loop") or fs.islink("/three"))
        self.assertTrue(fs.islink("/x/loop"))
        self.assertEqual(fs.cat("/x/to_three"), b"three")
        self.assertEqual(fs.ls("/x/to_a", detail=False), ["/x/to_a/b", "/x/to_a/two"])
        self.assertEqual(fs.find("/x"), ["/x/loop", "/x/to_a", "/x/to_three"])
        fs.copy("/x", "/v", recursive=True)
        self.assertEqual(self.job.readlink("/v/to_a"), "../a")
        fs.rm("/x", recursive=True)
        fs.rm("/v/to_three")
        self.assertEqual(self.job.listdir("/v"), ["loop", "to_a"])
        self.assertEqual(self.job.listdir("/a"), ["b", "two"])
        self.assertEqual(self.job.read_text("/three"), "three")


@unittest.skipUnless(importlib.util.find_spec("pytest"), "pytest is not installed")
class Pytest(unittest.TestCase):
    def test_each_test_begins_anew(self):
        with tempfile.TemporaryDirectory() as folder:
            os.mkdir(f"{folder}/seed")
            open(f"{folder}/seed/seeded", "w").close()
            with open(f"{folder}/test_two.py", "w") as file:
                for name in ("one", "other"):
                    file.write(f"def test_{name}(nuzolged_step):\n")
                    file.write("    assert nuzolged_step.listdir() == ['seeded']\n")
                    file.write("    nuzolged_step.mkdir('/a')\n")
                    file.write("    nuzolged_step.commit()\n")
            options = ("-q", "-p", "nuzolged.pytest_plugin", "-p", "no:cacheprovider")
            with open(f"{folder}/pytest.ini", "w") as file:
                file.write("[pytest]\nnuzolged_seed = seed\n")
            command = [sys.executable, "-m", "pytest", *options, folder]
            ran = subprocess.run(command, capture_output=True, text=True)
        self.assertIn("2 passed", ran.stdout, ran.stderr)


if __name__ == "__main__":
    unittest.main()
