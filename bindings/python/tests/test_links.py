"""Symbolic links: what leads through them, and what is about them."""
import errno
import glob
import os
import shutil
import stat
import tempfile
import threading
import unittest

from nuzolged import Info, Tree, Waits

#: Links by their paths, with their targets; none leads out of the directory that they are in.
LINKS = {
    "to_d": "d",
    "to_f": "d/f",
    "to_none": "none",
    "to_to_d": "to_d/",
    "loop": "loop",
    "d/up": "../d/./f",
    "d/e/above": "../..",
}

PATHS = (
    *("", "d", "d/", "d/f", "d/f/", "d/f/x", "to_d", "to_d/", "to_d/f", "to_d/../to_d/f", "to_f"),
    *("to_f/", "to_f/x", "to_none", "to_none/", "to_none/x", "to_to_d", "to_to_d/f", "to_to_d/up"),
    *("loop", "loop/", "loop/x", "d/up", "d/e/above", "d/e/above/to_f", "d/e/above/d/e", "none"),
)


def came_of(call, *args, **options):
    """The result of a call, or the error."""
    try:
        return call(*args, **options)
    except OSError as error:
        return type(error), error.errno


def kind(info):
    return stat.S_IFMT(info.st_mode)


class LinksTest(unittest.TestCase):
    """A test that begins with the same links in a tree and on the disk."""

    def setUp(self):
        folder = tempfile.TemporaryDirectory()
        self.addCleanup(folder.cleanup)
        self.top = os.path.realpath(folder.name)
        os.makedirs(f"{self.top}/d/e")
        with open(f"{self.top}/d/f", "w") as file:
            file.write("four")
        self.tree = Tree()
        self.addCleanup(self.tree.close)
        self.job = self.tree.begin()
        self.job.makedirs("/d/e")
        self.job.write_text("/d/f", "four")
        for path, target in LINKS.items():
            os.symlink(target, f"{self.top}/{path}")
            self.job.symlink(target, f"/{path}")

    def assert_alike(self, here, there, paths=PATHS):
        """The same comes of both calls on each of the paths."""
        for path in paths:
            with self.subTest(path):
                self.assertEqual(came_of(here, f"/{path}"), came_of(there, f"{self.top}/{path}"))


class Looks(LinksTest):
    def test_kinds(self):
        self.assert_alike(lambda p: kind(self.job.stat(p)), lambda p: kind(os.stat(p)))
        self.assert_alike(lambda p: kind(self.job.lstat(p)), lambda p: kind(os.lstat(p)))
        self.assert_alike(
            lambda p: kind(self.job.stat(p, follow_symlinks=False)), lambda p: kind(os.lstat(p))
        )

    def test_questions(self):
        for name in ("exists", "lexists", "isdir", "isfile", "islink"):
            self.assert_alike(getattr(self.job, name), getattr(os.path, name))

    def test_targets(self):
        self.assert_alike(self.job.readlink, os.readlink)
        self.assertEqual(self.job.readlink(b"/to_f"), b"d/f")
        told = self.job.lstat("/to_f")
        self.assertEqual(told, Info("link", told.number, links=1, size=3, mode=0o777))
        self.assertEqual((told.is_dir(), told.is_file(), told.is_symlink()), (False, False, True))

    def test_names(self):
        self.assert_alike(self.job.listdir, lambda path: sorted(os.listdir(path)))
        here, there = self.job.scandir("/"), os.scandir(self.top)
        with there:
            self.assertEqual([self.told(entry) for entry in here], sorted(map(self.told, there)))

    def told(self, entry):
        """What an entry says of itself. (A link to itself is an error in os.)"""
        kinds = entry.is_symlink(), entry.is_dir(follow_symlinks=False)
        if entry.name != "loop":
            kinds += entry.is_dir(), entry.is_file(), entry.is_file(follow_symlinks=False)
        return entry.name, kinds, kind(entry.stat(follow_symlinks=False))

    def test_names_of_what_leads_nowhere(self):
        entries = {entry.name: entry for entry in self.job.scandir("/")}
        for name in ("loop", "to_none"):
            self.assertFalse(entries[name].is_dir() or entries[name].is_file())
        with self.assertRaises(FileNotFoundError):
            entries["to_none"].stat()
        self.assertEqual(repr(entries["loop"]), "<Entry 'loop' of a symbolic link>")

    def test_target_that_no_name_can_be(self):
        os.symlink("x" * 300, f"{self.top}/long")
        self.job.symlink("x" * 300, "/long")
        for name in ("exists", "lexists", "isdir", "isfile", "islink"):
            self.assert_alike(getattr(self.job, name), getattr(os.path, name), ["long"])
        self.assertIn("long", [name for _, _, names in self.job.walk("/") for name in names])
        self.assertEqual(self.job.glob("/long/*"), [])

    def test_contents(self):
        def contents(path):
            with open(path) as file:
                return file.read()

        self.assert_alike(self.job.read_text, contents)

    def test_real_paths(self):
        def there(path):
            return os.path.realpath(path).replace(self.top, "", 1) or "/"

        paths = [path for path in PATHS if "loop" not in path]
        self.assert_alike(self.job.realpath, there, paths)
        with self.assertRaises(OSError) as error:
            self.job.realpath("/loop/x")
        self.assertEqual(error.exception.errno, errno.ELOOP)
        self.assertEqual(error.exception.filename, "/loop/x")
        self.job.symlink("/to_d", "/d/whole")
        self.assertEqual(self.job.realpath("d/whole/whole/e"), "/d/e")

    def test_forty_are_followed(self):
        before = "/"
        for number in range(1, 42):
            self.job.symlink(before, f"/{number}")
            before = f"/{number}"
        self.assertTrue(self.job.isdir("/40"))
        self.assertEqual(self.job.realpath("/40"), "/")
        for call in (self.job.stat, self.job.listdir, self.job.read_bytes, self.job.realpath):
            self.assertEqual(came_of(call, "/41"), (OSError, errno.ELOOP))
        self.assertFalse(self.job.exists("/41"))
        self.assertTrue(self.job.islink("/41"))


class Changes(LinksTest):
    def test_symlink(self):
        for target, path, came in (
            ("x", "/to_none", (FileExistsError, errno.EEXIST)),
            ("x", "/d", (FileExistsError, errno.EEXIST)),
            ("x", "/none/x", (FileNotFoundError, errno.ENOENT)),
            ("x", "/new/", (FileNotFoundError, errno.ENOENT)),
            ("", "/new", (FileNotFoundError, errno.ENOENT)),
            ("x" * 4096, "/new", (OSError, errno.ENAMETOOLONG)),
            ("x" * 4095, "/new", None),
        ):
            self.assertEqual(came_of(self.job.symlink, target, path), came)
        self.assertEqual(self.job.readlink("/new"), "x" * 4095)
        with self.assertRaises(FileExistsError) as exists:
            self.job.symlink("x", "/new")
        self.assertEqual((exists.exception.filename, exists.exception.filename2), ("x", "/new"))
        with self.assertRaisesRegex(ValueError, "null byte"):
            self.job.symlink("a\0b", "/other")

    def test_open(self):
        for mode in ("r", "x", "a", "w"):
            self.assert_alike(
                lambda p, mode=mode: self.job.open(p, mode).close(),
                lambda p, mode=mode: open(p, mode).close(),
                ("to_f", "to_none", "loop", "to_d", "to_none/x"),
            )
        self.assertTrue(self.job.isfile("/none") and os.path.isfile(f"{self.top}/none"))
        self.assertEqual(self.job.read_bytes("/d/f"), b"")

    def test_those_that_do_not_follow(self):
        job = self.job
        self.assertEqual(came_of(job.mkdir, "/to_none"), (FileExistsError, errno.EEXIST))
        job.mkdir("/to_d", exist_ok=True)
        for path in ("/to_none", "/to_f", "/loop"):
            came = came_of(job.mkdir, path, exist_ok=True)
            self.assertEqual(came, (FileExistsError, errno.EEXIST))
        self.assertEqual(came_of(job.rmdir, "/to_d"), (NotADirectoryError, errno.ENOTDIR))
        job.link("/to_f", "/d/hard")
        self.assertEqual((job.readlink("/d/hard"), job.lstat("/to_f").links), ("d/f", 2))
        job.rename("/to_f", "/to_d")
        self.assertEqual(job.readlink("/to_d"), "d/f")
        job.unlink("/to_d")
        self.assertEqual((job.lstat("/d/hard").links, job.read_text("/d/f")), (1, "four"))
        job.truncate("/d/up", 2)
        self.assertEqual(job.read_text("/d/f"), "fo")

    def test_step_takes_its_links_with_it(self):
        with self.assertRaises(KeyError), self.job.begin() as step:
            step.symlink("x", "/new")
            step.unlink("/to_d")
            raise KeyError
        self.assertEqual((self.job.readlink("/to_d"), self.job.islink("/new")), ("d", False))

    def test_target_that_others_change_waits(self):
        self.job.commit()
        with Tree(timeout=60) as tree:
            with tree.begin() as job:
                job.symlink("one", "/link")
            first, second = tree.begin(), tree.begin()
            first.unlink("/link")
            first.symlink("two", "/link")
            for name in ("readlink", "stat", "lstat", "listdir"):
                with self.assertRaises(Waits):
                    getattr(second.within(0), name)("/link")
            read = []
            thread = threading.Thread(target=lambda: read.append(second.readlink("/link")))
            thread.start()
            first.commit()
            thread.join()
            self.assertEqual(read, ["two"])
            second.abort()


class Whole(LinksTest):
    def walked(self, told, top):
        return sorted(
            (os.path.relpath(folder, top), sorted(folders), sorted(files))
            for folder, folders, files in told
        )

    def test_walk(self):
        os.unlink(f"{self.top}/d/e/above")
        self.job.unlink("/d/e/above")
        for topdown in (True, False):
            for follow in (False, True):
                here = self.job.walk("/", topdown, follow)
                there = os.walk(self.top, topdown, None, follow)
                self.assertEqual(self.walked(here, "/"), self.walked(there, self.top))

    def test_glob(self):
        patterns = ("*", "*/f", "to_d/*", "to_none", "loop", "to_to_d/[ef]", "to_none/*", "d/*/*")
        for pattern in patterns:
            there = [path.replace(self.top, "", 1) for path in glob.glob(f"{self.top}/{pattern}")]
            self.assertEqual(self.job.glob(f"/{pattern}"), sorted(there), pattern)
        found = ["/d", "/d/e", "/d/e/above", "/d/f", "/d/up", "/loop", "/to_d", "/to_f"]
        self.assertEqual(self.job.glob("/**"), ["/", *found, "/to_none", "/to_to_d"])

    def test_rmtree_leaves_what_links_lead_to(self):
        self.job.makedirs("/x/y")
        for path, target in {"d": "../d", "y/f": "../../d/f", "y/none": "none"}.items():
            self.job.symlink(target, f"/x/{path}")
        for path in ("/to_d", "/to_none", "/to_f"):
            self.assertEqual(came_of(self.job.rmtree, path), (NotADirectoryError, errno.ENOTDIR))
        self.job.rmtree("/x")
        self.assertFalse(self.job.lexists("/x"))
        self.assertEqual(self.job.listdir("/d"), ["e", "f", "up"])

    def test_copytree_keeps_links(self):
        self.job.link("/loop", "/d/loop")
        self.job.copytree("/d", "/new/d")
        shutil.copytree(f"{self.top}/d", f"{self.top}/new/d", symlinks=True)
        for path in ("e/above", "up"):
            there = os.readlink(f"{self.top}/new/d/{path}")
            self.assertEqual(self.job.readlink(f"/new/d/{path}"), there)
        self.assertEqual(self.job.readlink("/new/d/loop"), "loop")
        self.assertEqual(self.job.lstat("/new/d/loop").links, 1)

    def test_copytree_below_itself_through_a_link(self):
        for below in ("/to_d/x", "/to_to_d/e/x", "/d/e/above/d/x", "/to_d"):
            self.assertEqual(came_of(self.job.copytree, "/d", below), (OSError, errno.EINVAL))
        self.assertEqual(self.job.listdir("/d"), ["e", "f", "up"])

    def test_copytree_replaces_links(self):
        self.job.makedirs("/new/e")
        self.job.symlink("/kept", "/new/f")
        self.job.symlink("/kept", "/new/up")
        self.job.write_text("/kept", "kept")
        self.job.copytree("/d", "/new", dirs_exist_ok=True)
        self.assertEqual(self.job.read_text("/kept"), "kept")
        self.assertEqual(self.job.readlink("/new/up"), LINKS["d/up"])
        self.assertTrue(self.job.lstat("/new/f").is_file())

    def test_copyfile(self):
        self.job.copyfile("/to_f", "/copy")
        self.job.copyfile("/to_f", "/link", follow_symlinks=False)
        self.assertTrue(self.job.lstat("/copy").is_file())
        self.assertEqual(self.job.readlink("/link"), "d/f")
        with self.assertRaises(shutil.SameFileError):
            self.job.copyfile("/d/f", "/to_f")
        self.job.copyfile("/d/f", "/to_none")
        self.assertEqual(self.job.read_text("/none"), "four")

    def test_move(self):
        self.assertEqual(self.job.move("/to_f", "/to_d"), "/to_d/to_f")
        self.assertEqual(self.job.readlink("/d/to_f"), "d/f")
        self.job.symlink("x", "/d/to_none")
        with self.assertRaises(FileExistsError):
            self.job.move("/to_none", "/d")

    def test_makedirs(self):
        self.job.makedirs("/to_to_d/x/y")
        self.assertTrue(self.job.isdir("/d/x/y"))
        self.job.makedirs("/to_d", exist_ok=True)
        for path in ("/to_none", "/loop"):
            came = came_of(self.job.makedirs, path, exist_ok=True)
            self.assertEqual(came, came_of(os.makedirs, f"{self.top}{path}", exist_ok=True), path)
        with self.assertRaises(FileExistsError) as exists:
            self.job.makedirs("/to_none/x", exist_ok=True)
        self.assertEqual(exists.exception.filename, "/to_none")

    def test_paths(self):
        top = self.job.path()
        link = top / "to_f"
        self.assertTrue(link.is_symlink() and link.is_file() and not link.is_dir())
        self.assertEqual(link.readlink(), self.job.path("d/f"))
        self.assertEqual((top / "to_to_d" / "up").resolve(), top / "d" / "f")
        self.assertTrue(link.lstat().is_symlink() and link.stat(follow_symlinks=False).is_symlink())
        self.assertTrue(link.samefile("/d/f"))
        (top / "new").symlink_to("nothing")
        self.assertFalse((top / "new").exists())
        self.assertTrue((top / "new").exists(follow_symlinks=False))
        (top / "new").touch()
        self.assertTrue((top / "nothing").is_file())


if __name__ == "__main__":
    unittest.main()
