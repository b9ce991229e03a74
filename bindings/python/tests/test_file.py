"""Open files: the classes of `io`."""
import errno
import gc
import io
import os
import unittest
from unittest import mock

from nuzolged import Limits, RawFile, Tree, Waits
from nuzolged._library import MEMORY, Answer


class FileTest(unittest.TestCase):
    """A test that begins with a tree and a job."""

    def setUp(self):
        self.tree = Tree()
        self.addCleanup(self.tree.close)
        self.job = self.tree.begin()


class Modes(FileTest):
    def test_classes(self):
        self.job.write_bytes("/f", b"")
        for mode, buffering, kind in (
            ("r", -1, io.TextIOWrapper),
            ("rb", -1, io.BufferedReader),
            ("wb", -1, io.BufferedWriter),
            ("r+b", -1, io.BufferedRandom),
            ("rb", 0, RawFile),
        ):
            with self.job.open("/f", mode, buffering) as file:
                self.assertIs(type(file), kind)

    def test_modes_are_those_of_open(self):
        with self.assertRaises(FileNotFoundError):
            self.job.open("/f")
        with self.job.open("/f", "w") as file:
            file.write("one")
        with self.job.open("/f", "a") as file:
            self.assertEqual(file.tell(), 3)
            file.write(" two")
        with self.job.open("/f", "r+") as file:
            file.write("O")
        self.assertEqual(self.job.read_bytes("/f"), b"One two")
        with self.assertRaises(FileExistsError) as exists:
            self.job.open("/f", "x")
        self.assertEqual(exists.exception.filename, "/f")
        with self.job.open("/f", "w+") as file:
            self.assertEqual(file.read(), "")

    def test_invalid_modes(self):
        for mode in ("", "rw", "q", "rr", "tb", "+", "rbt"):
            with self.assertRaisesRegex(ValueError, "invalid mode"):
                self.job.open("/f", mode)
        with self.assertRaises(ValueError):
            self.job.open("/f", "rb", encoding="utf-8")
        with self.assertRaises(ValueError):
            self.job.open("/f", "w", 0)

    def test_access_is_kept(self):
        with self.job.open("/f", "wb") as file, self.assertRaises(io.UnsupportedOperation):
            file.read()
        with self.job.open("/f", "rb") as file, self.assertRaises(io.UnsupportedOperation):
            file.write(b"x")
        with self.job.open("/f", "rb", 0) as file:
            for request in (lambda: file.write(b"x"), file.truncate, lambda: file.pwrite(b"x", 0)):
                self.assertRaises(io.UnsupportedOperation, request)
        with self.job.open("/f", "wb", 0) as file:
            self.assertRaises(io.UnsupportedOperation, file.readinto, bytearray(1))
            self.assertRaises(io.UnsupportedOperation, file.pread, 1, 0)
            self.assertRaises(io.UnsupportedOperation, file.read)

    def test_modes_are_told(self):
        for mode, raw in (("w", "wb"), ("r+", "rb+"), ("ab", "ab"), ("xb+", "xb+")):
            with self.job.open("/g" if mode[0] == "x" else "/f", mode) as file:
                self.assertEqual(file.mode, mode if "b" not in mode else raw)


class Contents(FileTest):
    def test_text(self):
        with self.job.open("/log", "w+") as log:
            log.writelines(f"líne {number}\n" for number in (1, 2))
            log.seek(0)
            self.assertEqual(log.readlines(), ["líne 1\n", "líne 2\n"])
        with self.job.open("/log", encoding="latin-1", newline="") as log:
            self.assertEqual(log.readline(), "lÃ\xadne 1\n")

    def test_bytes(self):
        with self.job.open("/f", "w+b") as file:
            file.write(b"two words")
            file.seek(-5, io.SEEK_END)
            self.assertEqual(file.read(), b"words")
            file.truncate(3)
            file.seek(0)
            self.assertEqual(file.read(), b"two")
            self.assertEqual(file.raw.stat().size, 3)

    def test_unbuffered(self):
        with self.job.open("/f", "w+b", 0) as file:
            self.assertEqual(file.write(memoryview(b"bytes")), 5)
            self.assertEqual(file.seek(1), 1)
            buffer = bytearray(b"......")
            self.assertEqual(file.readinto(buffer), 4)
            self.assertEqual(bytes(buffer), b"ytes..")
            self.assertEqual(file.readinto(bytearray()), 0)
            self.assertEqual(file.read(), b"")

    def test_offsets(self):
        with self.job.open("/f", "w+b", 0) as file:
            self.assertEqual(file.pwrite(b"bytes", 2), 5)
            self.assertEqual(file.pread(9, 1), b"\0bytes")
            self.assertEqual(file.tell(), 0)
            self.assertEqual(file.readall(), b"\0\0bytes")

    def test_arguments_that_are_none(self):
        with self.job.open("/f", "wb", 0) as file:
            with self.assertRaises(TypeError):
                file.write(3)
            with self.assertRaises(TypeError):
                file.write("text")
            with self.assertRaisesRegex(ValueError, "invalid whence: 3"):
                file.seek(0, 3)
            for request in (file.seek, file.truncate):
                with self.assertRaises(OverflowError):
                    request(1 << 63)
        with self.assertRaises(OverflowError):
            self.job.truncate("/f", 1 << 63)
        self.assertEqual(self.job.read_bytes("/f"), b"")

    def test_large_file(self):
        most = bytes(range(256)) * 4096
        with Tree(limits=Limits(file_size=len(most))) as tree, tree.begin() as job:
            job.write_bytes("/f", most)
            self.assertEqual(job.read_bytes("/f"), most)
            with self.assertRaises(OSError) as full:
                job.write_bytes("/g", most + b"x")
            self.assertEqual((full.exception.errno, full.exception.filename), (errno.EFBIG, "/g"))
            with job.open("/h", "wb", 0) as file:
                self.assertEqual(file.write(most + most), len(most))
            self.assertEqual(job.read_bytes("/h"), most)

    def test_small_files_take_three_calls(self):
        def stamp():
            return int(self.tree.request(f"{self.job.number} stat /").split()[0])

        begun = stamp()
        self.job.write_bytes("/f", b"bytes")
        self.job.read_bytes("/f")
        self.assertEqual(stamp() - begun, 1 + 3 + 3)

    def test_file_of_more_than_a_request_writes(self):
        data = os.urandom(1 << 20) * 65
        self.job.write_bytes("/f", data)
        with self.job.open("/f", "r+b") as file:
            self.assertEqual(file.seek(0, io.SEEK_END), len(data))
            file.write(data)
        self.assertEqual(self.job.stat("/f").size, 2 * len(data))
        with self.job.open("/f", "rb") as file:
            file.seek(len(data) - 4)
            self.assertEqual(file.read(8), data[-4:] + data[:4])


class WantOfMemory(FileTest):
    """There is none for a function of the library while it is in `refused`."""

    def refused(self, *functions):
        def none(*_):
            return Answer(MEMORY)

        return mock.patch.multiple(
            self.tree.session._library, **{name: none for name in functions}
        )

    def test_file_that_could_not_be_closed_is_closed_by_commit(self):
        with self.refused("nuz_write", "nuz_close"):
            with self.assertRaises(MemoryError):
                self.job.write_bytes("/f", b"bytes")
            gc.collect()
            with self.assertRaises(MemoryError):
                self.job.commit()
        self.assertIn("fd", self.tree.request("tree"))
        self.job.commit()
        self.assertEqual(self.tree.request("tree"), "tree 3\ndir 1\nedge 1 f 2\nfile 2 0\n")

    def test_open_file_is_closed_again(self):
        file = self.job.open("/f", "wb", 0)
        with self.refused("nuz_close"), self.assertRaises(MemoryError):
            file.close()
        self.assertFalse(file.closed)
        with self.assertRaisesRegex(ValueError, "open file: '/f'"):
            self.job.commit()
        file.close()
        self.job.commit()


class Lives(FileTest):
    def test_closed_file(self):
        file = self.job.open("/f", "wb", 0)
        file.close()
        file.close()
        self.assertTrue(file.closed)
        with self.assertRaisesRegex(ValueError, "closed file"):
            file.write(b"x")
        self.job.commit()
        self.assertEqual(self.tree.request("tree"), "tree 3\ndir 1\nedge 1 f 2\nfile 2 0\n")

    def test_commit_with_an_open_file(self):
        file = self.job.open("/f", "w")
        file.write("not yet written")
        with self.assertRaisesRegex(ValueError, "open file: '/f'"):
            self.job.commit()
        file.close()
        self.job.commit()
        with self.tree.begin() as reader:
            self.assertEqual(reader.read_bytes("/f"), b"not yet written")

    def test_file_of_an_aborted_transaction(self):
        file = self.job.open("/f", "wb", 0)
        self.job.abort()
        file.close()
        self.assertEqual(self.tree.request("tree"), "tree 1\ndir 1\n")

    def test_file_of_a_step_that_was_aborted_around_it(self):
        file = self.job.begin().open("/f", "wb", 0)  # which has the step
        self.job.abort()
        file.close()

    def test_file_of_a_closed_tree(self):
        file = self.job.open("/f", "wb", 0)
        self.tree.close()
        file.close()

    def test_file_that_waits(self):
        self.job.write_bytes("/f", b"old")
        self.job.commit()
        with self.tree.begin() as writer, self.tree.begin() as reader:
            with reader.open("/f", "rb") as old:
                writer.write_bytes("/f", b"new")
                with self.assertRaises(Waits) as waits:
                    old.read()
                self.assertEqual(waits.exception.blockers, [writer.number])
                self.assertEqual(waits.exception.filename, "/f")
                writer.commit()
                self.assertEqual(old.read(), b"new")

    def test_forgotten_file_is_closed_by_commit(self):
        self.job.write_bytes("/f", b"bytes")
        self.job.commit()
        with self.tree.begin() as reader, self.tree.begin() as other:
            file = reader.open("/f", "rb", 0)
            other.link("/f", "/g")
            with self.assertRaises(Waits):
                file.close()
            del file
            with self.assertRaises(Waits):
                reader.commit()
            other.commit()
        self.assertNotIn("fd", self.tree.request("tree"))

    def test_close_that_waits(self):
        self.job.write_bytes("/f", b"bytes")
        self.job.commit()
        with self.tree.begin() as reader, self.tree.begin() as other:
            file = reader.open("/f", "rb")
            other.link("/f", "/g")
            with self.assertRaises(Waits):
                file.close()
            with self.assertRaisesRegex(ValueError, "open file"):
                reader.commit()
            other.commit()
            file.close()
        self.assertNotIn("fd", self.tree.request("tree"))


if __name__ == "__main__":
    unittest.main()
