"""Copies from and to directories of the disk."""
import contextlib
import errno
import os
import socket
import stat
import tempfile
import threading
import time
import traceback
import unittest
from pathlib import Path

from nuzolged import Deadlock, Limits, Tree, Waits, copy_in, copy_out


IS_ROOT = os.geteuid() == 0


def as_nobody(run):
    """Runs something in a process of nobody's, or of the tests' own user unless that is root: its
    exit status is 0 if it ended well."""
    child = os.fork()
    if child:
        return os.waitpid(child, 0)[1]
    try:
        if IS_ROOT:
            os.setgroups([])
            os.setgid(65534)
            os.setuid(65534)
        run()
        os._exit(0)
    except BaseException:
        traceback.print_exc()
    finally:
        os._exit(1)


def let_owner_in(top):
    """Lets its owner work in a directory, and in those below it."""
    os.chmod(top, 0o700)
    for entry in os.scandir(top):
        if entry.is_dir(follow_symlinks=False):
            let_owner_in(entry.path)


def make_socket(path):
    with contextlib.closing(socket.socket(socket.AF_UNIX)) as made:
        made.bind(str(path))


class DiskTest(unittest.TestCase):
    def setUp(self):
        folder = tempfile.TemporaryDirectory()
        self.addCleanup(folder.cleanup)
        self.disk = Path(folder.name)
        self.tree = Tree()
        self.addCleanup(self.tree.close)
        self.job = self.tree.begin()

    def make(self):
        """A directory of the disk: a file with two names, an empty one, and an empty directory."""
        source = self.disk / "source"
        (source / "a" / "b").mkdir(parents=True)
        (source / "empty").mkdir()
        (source / "a" / "one").write_bytes(b"\0\xff\n")
        (source / "a" / "b" / "two").write_bytes(b"")
        os.link(source / "a" / "one", source / "three")
        return source

    def mode(self, path):
        return stat.S_IMODE(path.stat().st_mode)

    def test_copies_are_alike(self):
        source, target = self.make(), self.disk / "target"
        copy_in(self.job, source, "/in")
        self.assertEqual(self.job.listdir("/in"), ["a", "empty", "three"])
        self.assertEqual(self.job.stat("/in/three"), self.job.stat("/in/a/one"))
        self.assertEqual(self.job.stat("/in/three").links, 2)
        copy_out(self.job, target, "/in/", sync=True)
        found = {path.relative_to(target): path for path in target.rglob("*")}
        self.assertEqual(set(found), {path.relative_to(source) for path in source.rglob("*")})
        self.assertEqual(found[Path("a/one")].read_bytes(), b"\0\xff\n")
        self.assertTrue(os.path.samefile(found[Path("a/one")], found[Path("three")]))

    def test_modes_are_kept_in_the_tree(self):
        source, target = self.make(), self.disk / "target"
        os.chmod(source / "a" / "one", 0o4755)
        os.chmod(source / "a" / "b" / "two", 0o600)
        os.chmod(source / "a" / "b", 0o500)
        os.chmod(source, 0o751)
        copy_in(self.job, source)
        self.job.rename("/a/b", "/b")
        self.job.write_bytes("/a/one", b"other bytes")
        self.job.write_bytes("/new", b"")
        copy_out(self.job, target)
        told = [self.mode(target / name) for name in ("", "a/one", "b", "b/two", "new")]
        self.assertEqual(list(map(oct, told)), ["0o751", "0o755", "0o500", "0o600", "0o644"])

    def test_what_was_made_in_the_tree_has_the_modes_of_the_tree(self):
        self.job.makedirs("/etc", mode=0o700)
        self.job.mkdir("/lib")
        with self.job.open("/etc/shadow", "x", permissions=0o600) as file:
            file.write("secret")
        copy_out(self.job, self.disk / "target")
        paths = [self.disk / "target" / name for name in ("", "etc", "lib", "etc/shadow")]
        self.assertEqual([self.mode(path) for path in paths], [0o755, 0o700, 0o755, 0o600])

    def test_mode_of_what_was_there_stays(self):
        one, two = self.disk / "one", self.disk / "two"
        for folder, mode in ((one, 0o700), (two, 0o755)):
            (folder / "etc").mkdir(parents=True)
            os.chmod(folder / "etc", mode)
            os.chmod(folder, mode)
            copy_in(self.job, folder)
        self.assertEqual([self.job.stat(path).mode for path in ("/etc", "/")], [0o700, 0o700])

    def test_root_that_is_in_use_keeps_its_mode(self):
        source = self.make()
        os.chmod(source, 0o700)
        self.job.mkdir("/mine")
        copy_in(self.job, source)
        self.assertEqual(self.job.stat("/").mode, 0o755)
        with Tree() as tree, tree.begin() as job:
            job.chmod("/", 0o711)
            copy_in(job, source)
            self.assertEqual(job.stat("/").mode, 0o711)
        with Tree() as tree, tree.begin() as job:
            job.mkdir("/in")
            copy_in(job, source, "/in")
            copy_in(job, source, "/made")
            told = [job.stat(path).mode for path in ("/", "/in", "/made")]
            self.assertEqual(told, [0o755, 0o755, 0o700])

    def test_bits_by_which_a_file_runs_as_another_are_asked_for(self):
        source = self.make()
        paths = ("a/one", "a/b/two", "empty")
        for path, mode in zip(paths, (0o4755, 0o2711, 0o3775)):
            os.chmod(source / path, mode)
        for number, (into, out) in enumerate(((True, True), (True, False), (False, True))):
            target = self.disk / str(number)
            with Tree() as tree, tree.begin() as job:
                copy_in(job, source, set_id=into)
                copy_out(job, target, set_id=out)
            whole = [0o4755, 0o2711, 0o3775] if into and out else [0o755, 0o711, 0o1775]
            self.assertEqual([self.mode(target / path) for path in paths], whole)

    def test_times_are_kept(self):
        source, target = self.make(), self.disk / "target"
        os.utime(source / "a" / "one", ns=(0, 1_234_567_890_987_654_321))
        os.utime(source / "a" / "b" / "two", ns=(0, -1_500_000_000))
        copy_in(self.job, source)
        self.assertEqual(self.job.stat("/three").st_mtime_ns, 1_234_567_890_987_654_321)
        self.assertIsNone(self.job.stat("/a").st_mtime_ns)
        self.job.rename("/a/b", "/b")
        copy_out(self.job, target, sync=True)
        told = [os.stat(target / path).st_mtime_ns for path in ("a/one", "three", "b/two")]
        self.assertEqual(told, [1_234_567_890_987_654_321] * 2 + [-1_500_000_000])

    def test_files_without_a_time_have_that_of_the_copy(self):
        for name in "abcd":
            self.job.write_bytes(f"/{name}", b"bytes")
        self.job.utime("/a", ns=(0, 7))
        self.job.utime("/b", ns=(0, 8))
        self.job.write_bytes("/b", b"other bytes")
        begun = time.time_ns()
        copy_out(self.job, self.disk / "target")
        times = [os.stat(self.disk / "target" / name).st_mtime_ns for name in "abcd"]
        self.assertEqual((times[0], len(set(times[1:]))), (7, 1))
        self.assertTrue(begun <= times[1] <= time.time_ns())

    @unittest.skipUnless(IS_ROOT, "nobody but root sets owners")
    def test_owners_are_kept_by_root(self):
        source, target = self.make(), self.disk / "target"
        for path, owner in {"": (1, 2), "a": (3, 4), "a/one": (5, 6), "empty": (0, 7)}.items():
            os.chown(source / path, *owner)
        os.chmod(source / "a/one", 0o4755)
        copy_in(self.job, source, set_id=True)
        told = self.job.stat("/three")
        self.assertEqual((told.st_uid, told.st_gid, told.mode), (5, 6, 0o4755))
        copy_out(self.job, target, set_id=True)
        for path in ("", "a", "a/one", "a/b", "empty"):
            here, there = os.stat(target / path), os.stat(source / path)
            self.assertEqual((here.st_uid, here.st_gid), (there.st_uid, there.st_gid), path)
        self.assertEqual(self.mode(target / "three"), 0o4755)

    def test_copy_in_keeps_what_is_there(self):
        source = self.make()
        self.job.mkdir("/a")
        self.job.write_bytes("/three", b"mine")
        with self.assertRaises(FileExistsError) as exists, self.job.begin() as step:
            copy_in(step, source)
        self.assertEqual(exists.exception.filename, "/three")
        self.assertEqual(self.job.listdir("/a"), [])
        self.assertEqual(self.job.read_bytes("/three"), b"mine")

    def test_copy_in_of_what_no_tree_has(self):
        source = self.make()
        for make in (make_socket, os.mkfifo):
            make(source / "a" / "other")
            with self.assertRaises(OSError) as error, self.job.begin() as step:
                copy_in(step, source)
            self.assertEqual(error.exception.errno, errno.ENOTSUP)
            self.assertEqual(error.exception.filename, str(source / "a" / "other"))
            os.unlink(source / "a" / "other")

    def make_links(self):
        """The same with links: to a file, to directories, out of it, to nothing, to itself, and one
        with two names."""
        source = self.make()
        secret = self.disk / "secret"
        secret.mkdir()
        (secret / "file").write_bytes(b"secret")
        for path, target in {
            "one": "a/one",
            "a/up": "..",
            "out": str(secret),
            "a/to_nothing": "none/such",
            "loop": "loop",
            "bytes": b"\xff/\n",
            "empty/two": "../a/b/two",
        }.items():
            os.symlink(target, source / path)
        os.link(source / "one", source / "a" / "other_one", follow_symlinks=False)
        return source

    def links_of(self, folder):
        """The links below a directory of the disk, with their targets."""
        found = {}
        for above, folders, files in os.walk(os.fsencode(folder)):
            for path in (os.path.join(above, name) for name in folders + files):
                if os.path.islink(path):
                    found[os.path.relpath(path, os.fsencode(folder))] = os.readlink(path)
        return found

    def test_links_are_copied_as_they_are(self):
        source, target = self.make_links(), self.disk / "target"
        copy_in(self.job, source)
        self.assertEqual(self.job.readlink("/one"), "a/one")
        self.assertEqual(self.job.readlink(b"/bytes"), b"\xff/\n")
        self.assertEqual(self.job.lstat("/a/other_one"), self.job.lstat("/one"))
        self.assertEqual(self.job.lstat("/one").links, 2)
        self.assertEqual(self.job.read_bytes("/one"), b"\0\xff\n")
        self.assertFalse(self.job.exists("/out"))
        copy_out(self.job, target, sync=True)
        self.assertEqual(len(self.links_of(target)), 8)
        self.assertEqual(self.links_of(target), self.links_of(source))
        self.assertEqual(os.lstat(target / "one").st_ino, os.lstat(target / "a/other_one").st_ino)
        self.assertEqual(os.listdir(self.disk / "secret"), ["file"])

    def test_links_in_a_directory_that_nobody_writes(self):
        source, target = self.make_links(), self.disk / "target"
        os.chmod(source / "empty", 0o500)
        copy_in(self.job, source)
        copy_out(self.job, target)
        self.assertEqual(self.mode(target / "empty"), 0o500)
        self.assertEqual(self.links_of(target), self.links_of(source))
        for folder in (source, target):
            os.chmod(folder / "empty", 0o700)

    def test_nothing_is_written_through_a_link(self):
        """A name is a link in the tree, and was a directory of the disk."""
        victim, target = self.disk / "victim", self.disk / "target"
        victim.mkdir(mode=0o755)
        (victim / "file").write_bytes(b"mine")
        (target / "etc").mkdir(parents=True)
        self.job.symlink(victim, "/etc")
        self.job.symlink(victim / "file", "/aaa")
        self.job.symlink("etc/made", "/zzz")
        self.job.mkdir("/b")
        self.job.symlink("../etc", "/b/etc")
        self.job.write_bytes("/b/file", b"of the tree")
        copy_out(self.job, target, replace=True)
        self.assertEqual(os.readlink(target / "etc"), str(victim))
        self.assertEqual(os.listdir(victim), ["file"])
        self.assertEqual((victim / "file").read_bytes(), b"mine")
        self.assertEqual(self.mode(victim), 0o755)
        self.assertEqual((target / "b" / "file").read_bytes(), b"of the tree")

    def test_copy_in_beside_links_of_the_tree(self):
        source = self.disk / "source"
        (source / "lib").mkdir(parents=True)
        (source / "lib" / "one").write_bytes(b"one")
        self.job.makedirs("/usr/lib")
        self.job.symlink("usr/lib", "/lib")
        copy_in(self.job, source)
        self.assertEqual(self.job.read_bytes("/usr/lib/one"), b"one")
        self.assertEqual(self.job.readlink("/lib"), "usr/lib")
        for name in ("two", "three"):
            os.symlink("one", source / "lib" / name)
        self.job.symlink("elsewhere", "/usr/lib/two")
        self.job.unlink("/usr/lib/one")
        with self.assertRaises(FileExistsError) as exists, self.job.begin() as step:
            copy_in(step, source)
        self.assertEqual(exists.exception.filename, "/lib/two")
        self.assertEqual(self.job.listdir("/lib"), ["two"])
        (source / "lib" / "two").unlink()
        (source / "lib" / "two").write_bytes(b"two")
        with self.assertRaises(FileExistsError), self.job.begin() as step:
            copy_in(step, source)
        self.assertEqual(self.job.readlink("/lib/two"), "elsewhere")

    def test_copy_in_of_a_file_that_is_too_large(self):
        source = self.make()
        with Tree(limits=Limits(file_size=2)) as tree, self.assertRaises(OSError) as error:
            with tree.begin() as job:
                copy_in(job, source)
        self.assertEqual(error.exception.errno, errno.EFBIG)
        self.assertEqual(error.exception.filename, str(source / "a" / "one"))

    def test_links_that_come_and_go_are_not_followed(self):
        source, secret, stop = self.disk / "source", self.disk / "secret", threading.Event()
        source.mkdir()
        (source / "a").write_bytes(b"mine")
        secret.write_bytes(b"secret")

        def swap():
            while not stop.is_set():
                (self.disk / "file").write_bytes(b"mine")
                os.rename(self.disk / "file", source / "a")
                os.symlink(secret, self.disk / "link")
                os.rename(self.disk / "link", source / "a")

        thread = threading.Thread(target=swap)
        thread.start()
        try:
            end = time.monotonic() + 1
            while time.monotonic() < end:
                self.assertNotEqual(self.copy_of_a(source), b"secret")
        finally:
            stop.set()
            thread.join()

    def copy_of_a(self, source):
        """What is in the copy, or None if that is a link."""
        with Tree() as tree, tree.begin() as job:
            copy_in(job, source)
            return None if job.islink("/a") else job.read_bytes("/a")

    def test_copy_out_is_whole_or_nothing(self):
        self.job.mkdir("/a")
        self.job.write_bytes("/b", b"bytes")
        copy_out(self.job, self.disk / "target")
        with self.assertRaises(OSError):
            copy_out(self.job, self.disk / "target")
        with self.assertRaises(FileNotFoundError):
            copy_out(self.job, self.disk / "other", "/nothing")
        self.assertEqual(os.listdir(self.disk), ["target"])
        self.assertEqual(sorted(os.listdir(self.disk / "target")), ["a", "b"])

    def test_copy_out_replaces_at_once(self):
        target = self.disk / "target"
        self.job.write_bytes("/new", b"bytes")
        self.job.commit()
        copy_out(self.tree, target, replace=True)
        (target / "old").write_bytes(b"")
        copy_out(self.tree, target, replace=True, sync=True)
        self.assertEqual((os.listdir(self.disk), os.listdir(target)), (["target"], ["new"]))
        os.symlink(target, self.disk / "link")
        with self.assertRaises(NotADirectoryError):
            copy_out(self.tree, self.disk / "link", replace=True)
        self.tree.checkpoint()


    def test_path_with_a_null_byte(self):
        for copy in (lambda: copy_in(self.job, "a\0b"), lambda: copy_out(self.job, b"a\0b")):
            with self.assertRaises(ValueError):
                copy()
        with self.assertRaises(ValueError):
            copy_in(self.job, self.disk, "/a\0b")

    def test_copy_that_waits(self):
        source, other = self.make(), self.tree.begin()
        other.mkdir("/a")
        with self.assertRaises(Waits) as waits:
            copy_in(self.job, source)
        self.assertEqual(waits.exception.blockers, [other.number])
        self.assertEqual(waits.exception.filename, "/")
        with self.assertRaises(Waits):
            copy_out(self.job, self.disk / "target")
        self.assertEqual(os.listdir(self.disk), ["source"])
        with self.tree.begin(timeout=20) as patient:
            self.job.abort()
            threading.Timer(0.1, other.abort).start()
            copy_in(patient, source)
            self.assertEqual(patient.read_bytes("/a/one"), b"\0\xff\n")

    def test_copy_that_would_wait_for_ever(self):
        with Tree(timeout=20) as tree:
            one, other = tree.begin(), tree.begin()
            one.mkdir("/mine")
            other.mkdir("/a")
            with self.assertRaises(Deadlock):
                copy = threading.Thread(target=self.suppressed, args=(other,))
                copy.start()
                while "edge " not in tree.request("waits"):
                    time.sleep(0.01)
                copy_in(one, self.make())
            one.abort()
            copy.join()

    def suppressed(self, transaction):
        with contextlib.suppress(OSError):
            copy_in(transaction, self.disk, "/mine")

    def test_tree_is_closed_amid_a_copy(self):
        source = self.make()
        ask, count = self.job._ask, iter(range(5))

        def asked(*args, **named):
            if next(count, None) is None:
                self.tree.close()
            return ask(*args, **named)

        self.job._ask = asked
        with self.assertRaises(ValueError):
            copy_in(self.job, source)

    def test_interrupt_comes_through(self):
        def interrupted(*_, **__):
            raise KeyboardInterrupt

        self.job._ask = interrupted
        with self.assertRaises(KeyboardInterrupt):
            copy_out(self.job, self.disk / "target")
        self.assertEqual(os.listdir(self.disk), [])


class NobodyTest(unittest.TestCase):
    """Copies by a process that modes keep from things."""

    def setUp(self):
        folder = tempfile.TemporaryDirectory()
        self.addCleanup(folder.cleanup)
        self.disk = Path(folder.name)
        os.chmod(self.disk, 0o777)
        self.addCleanup(let_owner_in, self.disk)

    def assert_nobody(self, run):
        self.assertEqual(as_nobody(run), 0)

    def make(self):
        """Directories that nobody may write in, or read, with files and links in them, and one to a
        directory beside."""
        for folder in ("source/shut/below", "source/open", "beside"):
            (self.disk / folder).mkdir(parents=True)
        for file in ("source/shut/file", "source/shut/below/file", "beside/file"):
            (self.disk / file).write_bytes(b"bytes")
            os.utime(self.disk / file, ns=(0, 1_000_000_007))
        os.symlink(self.disk / "beside", self.disk / "source/shut/link")
        os.symlink("shut/file", self.disk / "source/link")
        for path, mode in {
            "beside/file": 0o400,
            "beside": 0o500,
            "source/shut/below/file": 0o400,
            "source/shut/file": 0o600,
            "source/shut/below": 0o500,
            "source/shut": 0o555,
            "source": 0o511,
        }.items():
            os.chmod(self.disk / path, mode)

    def told(self, top):
        """The mode and the time of each file, the mode of each directory, the target of a link."""
        found = {"": stat.S_IMODE(os.stat(top).st_mode)}
        for above, folders, files in os.walk(top):
            for path in (os.path.join(above, name) for name in folders + files):
                found[os.path.relpath(path, top)] = self.told_of(path)
        return found

    def told_of(self, path):
        if os.path.islink(path):
            return os.readlink(path)
        status = os.stat(path)
        is_file = stat.S_ISREG(status.st_mode)
        return stat.S_IMODE(status.st_mode), status.st_mtime_ns if is_file else None

    def copy(self, target, **options):
        with Tree() as tree, tree.begin() as job:
            copy_in(job, self.disk / "source")
            copy_out(job, self.disk / target, **options)

    def test_directories_that_nobody_writes(self):
        def run():
            self.make()
            self.copy("target")
            assert self.told(self.disk / "target") == self.told(self.disk / "source")
            assert len(self.told(self.disk / "target")) == 8
            for _ in range(2):
                self.copy("target", replace=True, sync=True)
            assert self.told(self.disk / "target") == self.told(self.disk / "source")
            assert self.told_of(self.disk / "beside") == (0o500, None)
            assert sorted(os.listdir(self.disk)) == ["beside", "source", "target"]

        self.assert_nobody(run)

    def test_umask_that_shuts_the_owner_out(self):
        def run():
            self.make()
            for number, umask in enumerate((0o100, 0o200, 0o300, 0o400, 0o777)):
                os.umask(umask)
                self.copy(str(number))
                os.umask(0)
                target = self.disk / str(number)
                assert self.told(target) == self.told(self.disk / "source"), oct(umask)

        self.assert_nobody(run)

    @unittest.skipUnless(IS_ROOT, "what is another's is made by root")
    def test_what_is_anothers(self):
        """A tree of root's, which everybody may read, is copied by nobody, whose own it is then."""
        self.make()
        for path in ("source/shut/below", "source/shut", "source"):
            os.chmod(self.disk / path, 0o755)
        for path in ("source/shut/below/file", "source/shut/file"):
            os.chown(self.disk / path, 1, 2)
            os.chmod(self.disk / path, 0o4754)

        def run():
            with Tree() as tree, tree.begin() as job:
                copy_in(job, self.disk / "source", set_id=True)
                told = job.stat("/shut/file")
                assert (told.owner, told.group, told.mode) == (1, 2, 0o4754)
                copy_out(job, self.disk / "target", set_id=True)
            assert {os.lstat(path).st_uid for path in (self.disk / "target").rglob("*")} == {65534}
            assert self.told_of(self.disk / "target/shut/file") == (0o754, 1_000_000_007)

        self.assert_nobody(run)


if __name__ == "__main__":
    unittest.main()
