"""Modes, owners and times: those of `os` and `shutil`, in the tree."""
import errno
import os
import stat
import tempfile
import threading
import time
import unittest

from nuzolged import Info, Tree, Waits


class AttributesTest(unittest.TestCase):
    """A test that begins with a directory, a file, and links to both and to nothing."""

    def setUp(self):
        self.tree = Tree()
        self.addCleanup(self.tree.close)
        self.job = self.tree.begin()
        self.job.mkdir("/d")
        self.job.write_bytes("/d/f", b"four")
        for path, target in {"/to_d": "d", "/to_f": "d/f", "/to_none": "none"}.items():
            self.job.symlink(target, path)

    def assert_error(self, number, call, *args, **options):
        with self.assertRaises(OSError) as error:
            call(*args, **options)
        self.assertEqual(error.exception.errno, number)

    def modes(self, *paths):
        return [oct(self.job.stat(path).mode) for path in paths]

    def time(self, path):
        return self.job.stat(path).time_ns


class Modes(AttributesTest):
    def test_those_of_what_is_new(self):
        told = self.job.stat("/d")
        self.assertEqual(told, Info("dir", told.number, 1, 0, mode=0o755))
        told = self.job.stat("/d/f")
        self.assertEqual(told, Info("file", told.number, 1, 4, mode=0o644))
        self.assertEqual(told.st_mode, stat.S_IFREG | 0o644)
        self.assertEqual((told.st_uid, told.st_gid, told.st_mtime), (0, 0, None))
        link = self.job.lstat("/to_f")
        self.assertEqual((link.st_mode, link.owner, link.group), (stat.S_IFLNK | 0o777, 0, 0))
        self.assertEqual(self.job.stat("/").st_mode, stat.S_IFDIR | 0o755)

    def test_mode_is_set(self):
        for path in ("/d", "/d/f", "/"):
            self.job.chmod(path, 0o7421)
        self.assertEqual(self.modes("/d", "/d/f", "/", "/to_f"), ["0o7421"] * 4)
        self.job.chmod("/to_f", 0)
        self.job.chmod(b"/to_d/", 0o1777)
        self.assertEqual(self.modes("/d/f", "/d"), ["0o0", "0o1777"])
        self.assertEqual(self.job.lstat("/to_f").mode, 0o777)
        self.assertEqual(self.job.scandir("/d")[0].stat().mode, 0)

    def test_mode_of_stat_is_one(self):
        self.job.chmod("/d/f", self.job.stat("/d/f").st_mode | 0o111)
        self.job.chmod("/d", self.job.stat("/d").st_mode & ~0o022)
        self.job.mkdir("/new", self.job.stat("/d/f").st_mode)
        self.assertEqual(self.modes("/d/f", "/d", "/new"), ["0o755", "0o755", "0o755"])

    def test_modes_that_are_none(self):
        for mode in (0o200000, 0o1000755, 1 << 31):
            self.assert_error(errno.EINVAL, self.job.chmod, "/d", mode)
            self.assert_error(errno.EINVAL, self.job.mkdir, "/new", mode)
            self.assert_error(errno.EINVAL, self.job.open, "/new", "w", permissions=mode)
        for mode in (-1, 1 << 32):
            self.assertRaises(OverflowError, self.job.chmod, "/d", mode)
        for mode in (True, "0755", None):
            self.assertRaises(TypeError, self.job.chmod, "/d", mode)
        self.assertRaises(TypeError, self.job.mkdir, "/d", True)
        self.assertRaises(TypeError, self.job.makedirs, "/d", True)
        self.assertEqual(self.job.listdir(), ["d", "to_d", "to_f", "to_none"])

    def test_paths_that_lead_nowhere(self):
        for call in (self.job.chmod, self.job.lchown, self.job.chown, self.job.utime):
            args = {self.job.chmod: (0,), self.job.utime: ()}.get(call, (0, 0))
            with self.assertRaises(FileNotFoundError) as missing:
                call("/none", *args)
            self.assertEqual(missing.exception.filename, "/none")
            self.assert_error(errno.ENOTDIR, call, "/d/f/", *args)
        self.assert_error(errno.ENOENT, self.job.chmod, "/to_none", 0)

    def test_directories_are_made_with_a_mode(self):
        self.job.mkdir("/a", 0o700)
        self.job.mkdir("/b", mode=0o2775)
        self.job.makedirs("/c/d", 0o711)
        self.job.mkdir("/a", 0o777, exist_ok=True)
        self.job.makedirs("/c", 0o777, exist_ok=True)
        told = self.modes("/a", "/b", "/c", "/c/d")
        self.assertEqual(told, ["0o700", "0o2775", "0o755", "0o711"])

    def test_files_are_made_with_a_mode(self):
        with self.job.open("/a", "w", permissions=0o600) as file:
            file.write("text")
        for mode in ("w", "ab", "r+"):
            self.job.open("/a", mode, permissions=0o777).close()
        self.job.open("/b", "xb", 0, permissions=0o4711).close()
        self.assertEqual(self.modes("/a", "/b"), ["0o600", "0o4711"])

    def test_open_files(self):
        with self.job.open("/d/f", "w") as text, self.job.open("/d/f", "rb", 0) as raw:
            self.job.fchmod(text, 0o600)
            self.assertEqual(raw.stat().mode, 0o600)
            self.job.fchown(raw, 5, 6)
            with self.job.begin() as step:
                step.fchmod(raw, 0o711)
                step.abort()
        told = self.job.stat("/d/f")
        self.assertEqual((told.mode, told.owner, told.group), (0o600, 5, 6))
        self.assertRaisesRegex(ValueError, "closed file", self.job.fchmod, raw, 0)
        with tempfile.TemporaryFile() as other:
            for file in (other, 3, "/d/f"):
                self.assertRaisesRegex(TypeError, "no open file", self.job.fchmod, file, 0)
        with Tree() as tree, tree.begin() as job, job.open("/f", "w") as file:
            self.assertRaisesRegex(ValueError, "another tree", self.job.fchmod, file, 0)

    def test_paths(self):
        path = self.job.path("/new")
        path.mkdir(0o700)
        (path / "a" / "b").mkdir(mode=0o711, parents=True)
        (path / "f").touch(0o600)
        (path / "f").touch(0o777)
        with (path / "g").open("w", permissions=0o400) as file:
            file.write("text")
        (path / "a").chmod(0o1777)
        told = self.modes("/new", "/new/a", "/new/a/b", "/new/f", "/new/g")
        self.assertEqual(told, ["0o700", "0o1777", "0o711", "0o600", "0o400"])
        self.assertRaises(TypeError, path.mkdir, True)
        self.assertEqual(path.stat().st_mode, stat.S_IFDIR | 0o700)


class Owners(AttributesTest):
    def owners(self, path):
        told = self.job.stat(path)
        return told.st_uid, told.st_gid

    def test_owner_is_set(self):
        self.job.chown("/d/f", 1, 2)
        self.job.chown("/to_d", 3, 4)
        self.job.chown("/", 4294967294, 0)
        told = [self.owners(path) for path in ("/d/f", "/d", "/")]
        self.assertEqual(told, [(1, 2), (3, 4), (4294967294, 0)])

    def test_owner_stays(self):
        self.job.chown("/d", 1, 2)
        self.job.chown("/d", -1, 3)
        self.job.chown("/d", 4, -1)
        self.job.chown("/d", -1, -1)
        self.assertEqual(self.owners("/d"), (4, 3))
        self.job.chmod("/d/f", 0o6755)
        self.job.chown("/d/f", 1, 1)
        self.assertEqual(self.modes("/d/f"), ["0o6755"])

    def test_owners_that_are_none(self):
        for number in (-2, 4294967295, 1 << 32):
            self.assertRaises(OverflowError, self.job.chown, "/d", number, 0)
            self.assertRaises(OverflowError, self.job.chown, "/d", 0, number)
        self.assertEqual(self.owners("/d"), (0, 0))

    def test_links(self):
        self.assert_error(errno.EINVAL, self.job.lchown, "/to_f", 1, -1)
        self.assert_error(errno.EINVAL, self.job.chown, "/to_f", 0, 1, follow_symlinks=False)
        for owner, group in ((0, 0), (-1, -1), (0, -1)):
            self.job.lchown("/to_f", owner, group)
        self.job.lchown("/d/f", 1, 2)
        self.job.lchown("/to_d/", 3, 4)
        self.assertEqual((self.owners("/to_f"), self.owners("/d")), ((1, 2), (3, 4)))


class Times(AttributesTest):
    def test_time_is_set(self):
        self.job.utime("/d/f", ns=(5, 1_234_567_890_000_000_001))
        told = self.job.stat("/to_f")
        self.assertEqual(told.st_mtime_ns, 1_234_567_890_000_000_001)
        self.assertEqual(told.st_mtime, 1_234_567_890.000000001)
        self.job.utime("/to_f", (0, 7))
        self.assertEqual(self.time("/d/f"), 7_000_000_000)
        begun = time.time_ns()
        self.job.utime("/d/f")
        self.assertTrue(begun <= self.time("/d/f") <= time.time_ns())

    def test_times_are_those_of_os(self):
        with tempfile.NamedTemporaryFile() as file:
            for seconds in (0, 1, 1.5, 1e9 + 0.1, -1, -0.25, -1.5, 4e9 + 0.7, -1e-9, 1 - 1e-12):
                os.utime(file.name, (0, seconds))
                self.job.utime("/d/f", (0, seconds))
                self.assertEqual(self.time("/d/f"), os.stat(file.name).st_mtime_ns, seconds)
            for ns in (0, 999_999_999, 10**9, -1, -(10**9), 123_456_789_012_345_678):
                os.utime(file.name, ns=(0, ns))
                self.job.utime("/d/f", ns=(0, ns))
                self.assertEqual(self.time("/d/f"), os.stat(file.name).st_mtime_ns, ns)

    def test_greatest_times(self):
        for seconds in (-(1 << 63), (1 << 63) - 1):
            ns = seconds * 10**9 + 999_999_999
            self.job.utime("/d/f", ns=(0, ns))
            self.assertEqual(self.time("/d/f"), ns)
        self.assertRaises(OverflowError, self.job.utime, "/d/f", ns=(0, 10**9 << 63))
        self.assertRaises(OverflowError, self.job.utime, "/d/f", (0, 1 << 63))

    def test_times_that_are_none(self):
        self.assertRaises(ValueError, self.job.utime, "/d/f", (0, 0), ns=(0, 0))
        self.assertRaises(ValueError, self.job.utime, "/d/f", (0, float("nan")))
        self.assertRaises(OverflowError, self.job.utime, "/d/f", (0, float("inf")))
        self.assertRaises((TypeError, ValueError), self.job.utime, "/d/f", (0,))
        self.assertRaises(TypeError, self.job.utime, "/d/f", 3)
        self.assertIsNone(self.time("/d/f"))

    def test_directories_and_links_have_none(self):
        for path in ("/d", "/", "/to_d"):
            self.assert_error(errno.EINVAL, self.job.utime, path, ns=(0, 0))
        for path in ("/to_f", "/to_none"):
            self.assert_error(errno.EINVAL, self.job.utime, path, ns=(0, 0), follow_symlinks=False)
        self.job.utime("/d/f", ns=(0, 3), follow_symlinks=False)
        self.assertEqual((self.time("/to_f"), self.job.lstat("/to_f").time_ns), (3, None))

    def test_what_changes_the_bytes_takes_it_away(self):
        def append(job):
            with job.open("/d/f", "ab") as file:
                file.write(b"x")

        self.job.utime("/d/f", ns=(0, 9))
        for change in (
            append,
            lambda job: job.truncate("/d/f", 4),
            lambda job: job.write_bytes("/d/f", b"other"),
            lambda job: job.open("/d/f", "w").close(),
        ):
            with self.job.begin() as step:
                change(step)
                self.assertIsNone(step.stat("/d/f").time_ns)
                step.abort()
            self.assertEqual(self.time("/d/f"), 9)

    def test_what_leaves_the_bytes_keeps_it(self):
        self.job.utime("/d/f", ns=(0, 9))
        self.job.chmod("/d/f", 0o600)
        self.job.chown("/d/f", 1, 1)
        self.job.read_bytes("/d/f")
        self.job.open("/d/f", "ab").close()
        self.job.link("/d/f", "/g")
        self.job.rename("/d/f", "/h")
        self.job.path("/h").touch()
        self.assertEqual((self.time("/g"), self.time("/h")), (9, 9))

    def test_open_files(self):
        with self.job.open("/d/f", "w") as file:
            file.write("buffered")
            self.job.futime(file, ns=(0, 3))
            self.assertEqual(self.job.read_text("/d/f"), "buffered")
        self.assertEqual(self.time("/d/f"), 3)
        with self.job.open("/d/f", "r+b") as file:
            file.write(b"B")
            self.job.futime(file, (0, 4))
            file.write(b"U")
        self.assertIsNone(self.time("/d/f"))
        with self.job.open("/d/f", "rb") as file:
            self.job.futime(file, (0, 5))
        self.assertEqual(self.time("/d/f"), 5_000_000_000)


class Steps(AttributesTest):
    def test_step_takes_back_what_it_set(self):
        self.job.chmod("/d/f", 0o600)
        self.job.chown("/d", 1, 2)
        self.job.utime("/d/f", ns=(0, 3))
        before = self.job.stat("/d"), self.job.stat("/d/f")
        with self.assertRaises(KeyError), self.job.begin() as step:
            step.chmod("/d/f", 0o644)
            step.chmod("/d", 0)
            step.chown("/d", 0, 0)
            step.utime("/d/f", ns=(0, 4))
            step.unlink("/d/f")
            step.rmdir("/d")
            step.mkdir("/d", 0o1777)
            raise KeyError
        self.assertEqual((self.job.stat("/d"), self.job.stat("/d/f")), before)

    def test_new_name_has_no_attributes_of_the_old_one(self):
        self.job.mkdir("/e", 0o700)
        self.job.chown("/e", 1, 1)
        self.job.mkdir("/g", 0o711)
        self.job.rename("/g", "/e")
        self.assertEqual(self.modes("/e"), ["0o711"])
        self.job.rmdir("/e")
        self.job.mkdir("/e")
        told = self.job.stat("/e")
        self.assertEqual((told.mode, told.owner, told.group), (0o755, 0, 0))

    def test_others_wait(self):
        self.job.commit()
        with Tree(timeout=60) as tree:
            with tree.begin() as job:
                job.mkdir("/d")
                job.write_bytes("/f", b"")
            first, second = tree.begin(), tree.begin()
            first.chmod("/f", 0o600)
            first.chown("/d", 1, 1)
            for path in ("/f", "/d"):
                self.assertRaises(Waits, second.within(0).stat, path)
                self.assertRaises(Waits, second.within(0).chmod, path, 0)
            second.listdir("/d")
            self.assertEqual(second.within(0).read_bytes("/f"), b"")
            with second.open("/f") as file:
                self.assertEqual(file.read(), "")
            found = []
            thread = threading.Thread(target=lambda: found.append(second.stat("/f").mode))
            thread.start()
            first.commit()
            thread.join()
            self.assertEqual(found, [0o600])
            second.abort()

    def test_report_tells_of_them(self):
        self.job.commit()
        with Tree() as tree, tree.begin() as job:
            job.mkdir("/a", 0o700)
            job.write_bytes("/f", b"")
            job.chown("/f", 1, 2)
            job.utime("/f", ns=(0, -1))
            report = tree.request("tree").splitlines()
        self.assertIn("attributes 2 0700 0 0", report)
        self.assertIn("attributes 3 0644 1 2", report)
        self.assertIn("time 3 -1 999999999", report)


class Copies(AttributesTest):
    """Those of `shutil`."""

    def setUp(self):
        super().setUp()
        self.job.chmod("/d/f", 0o4711)
        self.job.chown("/d/f", 1, 2)
        self.job.utime("/d/f", ns=(0, 3))

    def told(self, path):
        told = self.job.stat(path)
        return oct(told.mode), told.owner, told.group, told.time_ns

    def test_copyfile(self):
        self.job.copyfile("/d/f", "/new")
        self.job.open("/old", "w", permissions=0o600).close()
        self.job.utime("/old", ns=(0, 8))
        self.job.copyfile("/d/f", "/old")
        self.assertEqual(self.told("/new"), ("0o644", 0, 0, None))
        self.assertEqual(self.told("/old"), ("0o600", 0, 0, None))

    def test_copy(self):
        self.assertEqual(self.job.copy("/d/f", "/new"), "/new")
        self.assertEqual(self.told("/new"), ("0o4711", 0, 0, None))
        self.assertEqual(self.job.copy("/new", "/to_d"), "/to_d/new")
        self.assertEqual(self.job.copy("/d/f", "/to_none", follow_symlinks=False), "/to_none")
        self.assertEqual(self.told("/none"), ("0o4711", 0, 0, None))
        self.assertEqual(self.job.listdir("/d"), ["f", "new"])

    def test_copy2(self):
        self.assertEqual(self.job.copy2("/to_f", "/new"), "/new")
        self.assertEqual(self.told("/new"), ("0o4711", 0, 0, 3))
        self.job.write_bytes("/timeless", b"bytes")
        self.assertEqual(self.job.copy2("/timeless", "/new"), "/new")
        self.assertEqual(self.told("/new"), ("0o644", 0, 0, None))
        self.job.copy2("/to_f", "/link", follow_symlinks=False)
        self.assertEqual(self.job.readlink("/link"), "d/f")

    def test_copytree(self):
        self.job.makedirs("/d/e", 0o700)
        self.job.chmod("/d", 0o1777)
        self.job.link("/d/f", "/d/e/g")
        self.job.copytree("/d", "/new")
        self.assertEqual(self.modes("/new", "/new/e"), ["0o1777", "0o700"])
        self.assertEqual(self.told("/new/f"), ("0o4711", 0, 0, 3))
        self.assertEqual(self.job.stat("/new/e/g"), self.job.stat("/new/f"))
        self.job.makedirs("/there/e")
        self.job.copytree("/d", "/there", dirs_exist_ok=True)
        self.assertEqual(self.modes("/there", "/there/e"), ["0o1777", "0o700"])

    def test_move_keeps_all(self):
        self.job.move("/d/f", "/new")
        self.assertEqual(self.told("/new"), ("0o4711", 1, 2, 3))


if __name__ == "__main__":
    unittest.main()
