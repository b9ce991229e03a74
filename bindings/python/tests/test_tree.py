"""Trees, transactions and their calls on paths."""
import copy
import errno
import gc
import os
import pickle
import subprocess
import sys
import unittest
from pathlib import Path

from nuzolged import Deadlock, Error, Info, Limits, Refused, Tree, Waits
from nuzolged._errors import error_of


class TreeTest(unittest.TestCase):
    """A test that begins with a tree and a job."""

    def setUp(self):
        self.tree = Tree()
        self.addCleanup(self.tree.close)
        self.job = self.tree.begin()

    def names(self):
        """The names after all that has committed."""
        with self.tree.begin() as reader:
            return reader.listdir()


class Transactions(TreeTest):
    def test_context_commits(self):
        with self.job as job:
            job.mkdir("/a")
        self.assertEqual(self.names(), ["a"])

    def test_context_aborts_at_an_exception(self):
        with self.assertRaises(KeyError), self.job as job:
            job.mkdir("/a")
            raise KeyError
        self.assertEqual(self.names(), [])

    def test_step_fails_alone(self):
        with self.job as job:
            with job.begin() as step:
                step.mkdir("/kept")
            with self.assertRaises(FileNotFoundError), job.begin() as step:
                step.mkdir("/gone")
                step.rmdir("/nothing")
        self.assertEqual(self.names(), ["kept"])

    def test_context_may_have_ended_before(self):
        with self.job as job:
            job.mkdir("/a")
            self.assertEqual(job.abort(), 1)
        with self.tree.begin() as job:
            job.commit()
        self.assertEqual(self.names(), [])

    def test_context_of_a_step_ends_with_what_is_around_it(self):
        with self.assertRaises(KeyError), self.job.begin():
            self.job.abort()
            raise KeyError

    def test_context_that_cannot_commit_aborts(self):
        with self.assertRaises(Refused) as refused, self.job as job:
            step = job.begin()
            step.mkdir("/a")
        self.assertEqual(refused.exception.name, "ChildLive")
        self.assertEqual(self.names(), [])

    def test_refusals(self):
        with self.assertRaises(Refused) as refused:
            self.job.cancel_wait()
        self.assertEqual(refused.exception.name, "NoAsk")
        self.assertEqual(str(refused.exception), "the transaction waits for no call (NoAsk)")
        self.assertIsInstance(refused.exception, Error)

    def test_no_undo_but_of_steps(self):
        self.assertFalse(hasattr(self.job, "undo"))
        with self.assertRaises(KeyError), self.job.begin() as step:
            step.write_bytes("/a", b"bytes")
            raise KeyError
        self.assertEqual(self.job.listdir(), [])

    def test_reprs(self):
        self.assertEqual(repr(self.tree), "<Tree, open>")
        self.assertEqual(repr(self.job), "<Transaction 1, live>")
        self.job.abort()
        self.tree.close()
        self.assertEqual(repr(self.tree), "<Tree, closed>")
        self.assertEqual(repr(self.job), "<Transaction 1, ended>")

    def test_checkpoint(self):
        with self.assertRaises(Refused) as refused:
            self.tree.checkpoint()
        self.assertEqual(refused.exception.name, "Live")
        self.job.commit()
        self.tree.checkpoint()
        with self.assertRaises(Refused) as refused:
            self.job.commit()
        self.assertEqual(refused.exception.name, "NoTxn")


class TreeLimits(unittest.TestCase):
    def begun(self, **limits):
        """A tree with limits, and a job."""
        tree = Tree(limits=Limits(**limits))
        self.job = tree.begin()
        self.addCleanup(tree.close)
        return tree, self.job

    def assert_refused(self, name, request, *args):
        with self.assertRaises(Refused) as refused:
            request(*args)
        self.assertEqual(refused.exception.name, name)

    def assert_error(self, number, request, *args):
        with self.assertRaises(OSError) as error:
            request(*args)
        self.assertEqual(error.exception.errno, number)

    def depth_of(self, job):
        """How deep the steps of a job may be, and the refusal of one more."""
        steps = [job]
        with self.assertRaises(Refused) as refused:
            while True:
                steps.append(steps[-1].begin())
        job.abort()
        return len(steps), refused.exception.name

    def test_depth(self):
        self.assertEqual(self.depth_of(self.begun(depth=64)[1]), (64, "Deep"))
        self.assertEqual(self.depth_of(self.begun(depth=1)[1]), (1, "Deep"))
        self.assertEqual(self.depth_of(self.begun()[1]), (4096, "Deep"))

    def test_transactions(self):
        tree, job = self.begun(transactions=2)
        job.begin().commit()
        self.assert_refused("Full", job.begin)
        self.assert_refused("Full", tree.begin)
        job.commit()
        tree.checkpoint()
        with tree.begin(), tree.begin():
            self.assert_refused("Full", tree.begin)

    def test_calls(self):
        tree, job = self.begun(calls=2)
        for _ in range(2):
            with job:
                job.mkdir("/a")
                job.rmdir("/a")
                self.assert_refused("Full", job.listdir)
            tree.checkpoint()
            self.job = job = tree.begin()

    def test_file_that_no_call_is_left_to_close(self):
        tree, job = self.begun(calls=1)
        file = job.open("/f", "wb", 0)
        self.assert_refused("Full", file.close)
        with self.assertRaisesRegex(ValueError, "open file"):
            job.commit()
        job.abort()
        file.close()
        self.assertEqual(tree.request("tree"), "tree 1\ndir 1\n")

    def test_file_size(self):
        tree, job = self.begun(file_size=10)
        job.write_bytes("/f", b"ten bytes.")
        self.assert_error(errno.EFBIG, job.write_bytes, "/g", b"eleven byte")
        self.assert_error(errno.EFBIG, job.truncate, "/f", 11)
        with job.open("/g", "ab", 0) as file:
            self.assertEqual(file.truncate(9), 9)
            self.assertEqual(file.write(b"xyz"), 1)
        job.commit()
        tree.checkpoint()
        with tree.begin() as job:
            self.assert_error(errno.EFBIG, job.write_bytes, "/f", b"eleven byte")

    def test_links(self):
        _, job = self.begun(links=2)
        job.write_bytes("/f", b"")
        job.link("/f", "/g")
        self.assert_error(errno.EMLINK, job.link, "/f", "/h")

    def test_greatest(self):
        _, job = self.begun()
        job.write_bytes("/f", b"")
        job.truncate("/f", 1 << 32)
        self.assertEqual(job.stat("/f").size, 1 << 32)
        self.assert_error(errno.EFBIG, job.truncate, "/f", (1 << 47) + 1)
        for number in range(1500):
            job.link("/f", f"/{number}")
        self.assertEqual(job.stat("/f").links, 1501)

    def test_limits_that_are_none(self):
        for limits in (
            {"file_size": (1 << 47) + 1},
            {"links": (1 << 32) + 1},
            {"depth": 4097},
            {"transactions": (1 << 62) + 1},
            {"calls": 1 << 64},
            {"calls": -1},
        ):
            with self.assertRaisesRegex(ValueError, f"{next(iter(limits))} is not one of 0 to"):
                Limits(**limits)

    def test_limits_of_moss(self):
        with Tree(moss=True, limits=Limits(depth=2)) as tree:
            self.assertEqual(self.depth_of(tree.begin()), (2, "Deep"))


class Paths(TreeTest):
    def test_directories(self):
        self.job.mkdir("/b")
        self.job.write_bytes("/a", b"four")
        a, b = self.job.scandir()
        self.assertEqual((a.name, a.path, a.is_dir(), a.is_file()), ("a", "/a", False, True))
        self.assertEqual((b.name, b.path, b.is_dir(), b.is_file()), ("b", "/b", True, False))
        self.assertEqual(a.stat().st_size, 4)
        info = Info("dir", number=2, links=1, size=0, mode=0o755)
        self.assertEqual(self.job.stat("/b"), info)
        self.job.rmdir("/b")
        self.assertEqual(self.job.listdir("/"), ["a"])

    def test_files(self):
        self.job.write_bytes("/f", b"four")
        self.job.link("/f", "/g")
        self.assertEqual(self.job.stat("/g"), Info("file", number=2, links=2, size=4))
        self.job.rename("/g", "/h")
        self.job.unlink("/f")
        self.job.truncate("/h", 2)
        self.assertEqual(self.job.read_bytes("/h"), b"fo")
        self.assertTrue(self.job.exists("/h"))
        self.assertFalse(self.job.exists("/g") or self.job.exists("/h/i"))

    def test_directories_above(self):
        self.job.makedirs("/a/b/c")
        self.job.makedirs("a/b/d/")
        self.job.makedirs(Path("/a"), exist_ok=True)
        with self.assertRaises(FileExistsError):
            self.job.makedirs("/a/b")
        self.assertEqual(self.job.listdir("/a/b"), ["c", "d"])
        self.job.write_bytes("/a/f", b"")
        with self.assertRaises(FileExistsError):
            self.job.makedirs("/a/f", exist_ok=True)
        self.job.mkdir("/a", exist_ok=True)

    def test_paths_are_of_any_kind(self):
        self.job.mkdir(b"/\xff")
        self.job.mkdir(Path("/é"))
        self.assertEqual(self.job.listdir(), ["é", "\udcff"])
        self.assertEqual(self.job.listdir(b"/"), ["é".encode(), b"\xff"])
        self.assertEqual(self.job.scandir(b"/")[1].path, b"/\xff")
        self.assertTrue(self.job.exists("/\udcff") and self.job.exists(b"/\xc3\xa9"))

    def test_errors_have_their_filenames(self):
        self.job.mkdir("/a")
        with self.assertRaises(FileExistsError) as exists:
            self.job.mkdir("/a")
        self.assertEqual(str(exists.exception), "[Errno 17] File exists: '/a'")
        with self.assertRaises(FileNotFoundError) as missing:
            self.job.rename("/b", "/c")
        self.assertEqual((missing.exception.filename, missing.exception.filename2), ("/b", "/c"))
        with self.assertRaises(NotADirectoryError):
            self.job.write_bytes("/f", b"")
            self.job.stat("/f/g")
        with self.assertRaises(OSError) as full:
            self.job.rmdir("/")
        self.assertEqual(full.exception.errno, errno.EBUSY)

    def test_sizes_that_are_none(self):
        self.job.write_bytes("/f", b"bytes")
        with self.job.open("/f", "rb", 0) as file:
            for size in (1.0, "1", None):
                with self.assertRaises(TypeError):
                    self.job.truncate("/f", size)
                with self.assertRaises(TypeError):
                    file.seek(size)

    def test_refusal_of_a_later_library(self):
        error = error_of(1099)
        self.assertEqual((type(error), error.name), (Refused, "1099"))
        self.assertEqual(str(error), "the library refuses it (1099)")

    def test_exceptions_go_between_processes(self):
        for error in (Waits([3, 4], "/a"), Deadlock([3], [2, 3], "/a", "/b"), Refused("Live")):
            told = (str(error), vars(error), getattr(error, "filename", None))
            for other in (pickle.loads(pickle.dumps(error)), copy.copy(error)):
                self.assertIs(type(other), type(error))
                self.assertEqual((str(other), vars(other), getattr(other, "filename", None)), told)
        error = Waits([3])  # of a copy, which knows the path later
        error.filename = "/a"
        self.assertEqual(str(pickle.loads(pickle.dumps(error))), str(error))

    def test_null_bytes(self):
        with self.assertRaisesRegex(ValueError, "null byte"):
            self.job.mkdir("/a\0b")


class Trees(unittest.TestCase):
    def test_trees_that_are_none(self):
        told = []
        self.addCleanup(setattr, sys, "unraisablehook", sys.unraisablehook)
        sys.unraisablehook = lambda what: told.append(str(what.exc_value))
        with self.assertRaises(TypeError):
            Tree(True)
        gc.collect()
        self.assertEqual(told, [])

    def test_library_that_is_missing_is_told(self):
        place = {**os.environ, "NUZOLGED_LIBRARY": "/none/libnuzolged.so.1"}
        command = [sys.executable, "-c", "import nuzolged"]
        ran = subprocess.run(command, env=place, capture_output=True, text=True)
        self.assertRegex(ran.stderr, "ImportError: there is no .*NUZOLGED_LIBRARY")

    def test_abort_by_number(self):
        with Tree() as tree:
            job = tree.begin()
            job.mkdir("/a")
            self.assertEqual(tree.abort(job.number), 1)
            with self.assertRaises(Refused) as refused:
                job.listdir()
            self.assertEqual(refused.exception.name, "Ended")
            with self.assertWarnsRegex(ResourceWarning, "Transaction 1"):
                del job
            for number in (-1, (1 << 64) + 1):
                with self.assertRaises(Refused) as refused:
                    tree.abort(number)
                self.assertEqual(refused.exception.name, "NoTxn")

    def test_closed_tree(self):
        with Tree() as tree:
            job = tree.begin()
        tree.close()
        for request in (tree.begin, job.listdir, lambda: tree.request("tree")):
            with self.assertRaisesRegex(ValueError, "closed"):
                request()

    def test_request(self):
        with Tree() as tree:
            self.assertEqual(tree.request("begin"), "txn 1\n")
            self.assertEqual(tree.request("1 rmdir /a%20b"), "2 ENOENT\n")
            self.assertEqual(tree.request("commit 9"), "refused NoTxn\n")
            self.assertEqual(tree.request("# nothing"), "")
            with self.assertRaisesRegex(ValueError, "invalid line"):
                tree.request("bigin")

    def test_long_reply(self):
        with Tree() as tree, tree.begin() as job:
            for number in range(40):
                job.mkdir(f"/{number}")
            report = tree.request("tree").splitlines()
            self.assertEqual((len(report), report[0]), (82, "tree 81"))


if __name__ == "__main__":
    unittest.main()
