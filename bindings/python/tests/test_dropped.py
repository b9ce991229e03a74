"""Files and transactions that nobody has any more, and forks."""
import gc
import os
import random
import signal
import subprocess
import sys
import threading
import time
import unittest
import warnings

from nuzolged import Refused, Tree, Waits


class Cycle:
    """Something that only the garbage collector finds."""

    def __init__(self, held):
        self.held, self.me = held, self


class Dropped(unittest.TestCase):
    def setUp(self):
        self.tree = Tree()
        self.addCleanup(self.tree.close)
        self.addCleanup(gc.set_threshold, *gc.get_threshold())
        self.job = self.tree.begin()

    def descriptors(self):
        return [line for line in self.tree.request("tree").splitlines() if line[:2] == "fd"]

    def amid(self, count, request, leave):
        """The answers of requests between whose parts the collector finds what was left."""
        random_ = random.Random(1)
        for _ in range(count):
            gc.disable()
            for _ in range(3):
                Cycle(leave())
            gc.set_threshold(gc.get_count()[0] + random_.randrange(1, 14))
            gc.enable()
            yield request()
            gc.set_threshold(0)

    def test_replies_amid_files_that_are_dropped(self):
        self.job.write_bytes("/conf", b"x")
        line = f"{self.job.number} list /conf"
        replies = self.amid(
            500, lambda: self.tree.request(line), lambda: self.job.open("/conf", "rb", 0)
        )
        self.assertEqual({reply.split(" ", 1)[1] for reply in replies}, {"ENOTDIR\n"})

    def test_lists_amid_files_that_are_dropped(self):
        names = [f"n{number:02}" for number in range(40)]
        for name in names:
            self.job.makedirs(f"/d/{name}")

        def leave():
            file = self.job.open("/f", "ab")
            file.write(b"x")
            return file

        for listed in self.amid(200, lambda: self.job.listdir("/d"), leave):
            self.assertEqual(listed, names)
        gc.collect()
        self.assertEqual(self.job.stat("/f").size, 600)
        self.assertEqual(self.descriptors(), [])

    def test_blockers_amid_files_that_are_dropped(self):
        self.job.write_bytes("/conf", b"x")
        self.job.commit()
        job, others = self.tree.begin(), [self.tree.begin() for _ in range(8)]
        for other in others:
            other.stat("/conf")
        waiting = self.tree.begin()
        self.job = (job, waiting, *others)

        def blockers():
            with self.assertRaises(Waits) as waits:
                waiting.truncate("/conf", 0)
            return waits.exception.blockers

        wanted = [job.number, *(other.number for other in others)]
        job.stat("/conf")
        for told in self.amid(200, blockers, lambda: job.open("/conf", "rb", 0)):
            self.assertEqual(told, wanted)

    def test_buffered_bytes_of_a_dropped_file_are_written(self):
        self.job.write_bytes("/f", b"0123456789")
        file = self.job.open("/f", "r+b")
        self.assertEqual(file.read(2), b"01")
        file.write(b"xy")
        del file
        self.assertEqual(self.job.read_bytes("/f"), b"01xy456789")
        self.assertEqual(self.descriptors(), [])

    def test_what_the_collector_finds_is_written(self):
        for mode in ("w", "a", "r+", "x", "wb", "r+b"):
            self.job.write_text(f"/{mode}", "0123")
            if mode == "x":
                self.job.unlink("/x")
            file = self.job.open(f"/{mode}", mode)
            file.write(b"text" if "b" in mode else "text")
            Cycle(file)
            del file
        buffer = self.job.open("/h", "w").detach()
        buffer.write(b"buffer")
        del buffer
        gc.collect()
        for mode in ("w", "r+", "x", "wb", "r+b"):
            self.assertEqual(self.job.read_text(f"/{mode}"), "text", mode)
        self.assertEqual(self.job.read_text("/a"), "0123text")
        self.assertEqual(self.job.read_bytes("/h"), b"buffer")
        self.assertEqual(self.descriptors(), [])

    def test_dropped_file_that_has_to_wait_is_written_by_commit(self):
        self.job.write_bytes("/f", b"old")
        self.job.commit()
        with self.tree.begin(timeout=60) as writer:
            reader, begun = self.tree.begin(), time.monotonic()
            file = writer.open("/f", "r+b")
            reader.read_bytes("/f")
            file.write(b"new")
            del file
            self.assertLess(time.monotonic() - begun, 30, "nothing waits where it is dropped")
            self.assertEqual(self.tree.request("waits"), "edges 0\nranks\n")
            self.assertEqual(reader.read_bytes("/f"), b"old")
            reader.commit()
        with self.tree.begin() as reader:
            self.assertEqual(reader.read_bytes("/f"), b"new")
        self.assertEqual(self.descriptors(), [])

    def test_dropped_transaction_is_aborted(self):
        self.job.mkdir("/a")
        with self.assertWarnsRegex(ResourceWarning, "Transaction 1"):
            self.job = None
        self.assertEqual(self.tree.request("tree"), "tree 1\ndir 1\n")
        self.tree.checkpoint()

    def test_step_of_a_thread_that_dies_is_aborted(self):
        def work():
            step = self.job.begin()
            step.mkdir("/a")
            raise SystemExit

        with self.assertWarns(ResourceWarning):
            thread = threading.Thread(target=work)
            thread.start()
            thread.join()
            gc.collect()
        self.assertEqual(self.job.listdir(), [])
        self.job.commit()

    def test_step_has_what_is_around_it(self):
        step = self.tree.begin().begin()
        gc.collect()
        step.mkdir("/a")
        step.commit()
        with self.assertWarns(ResourceWarning):
            del step

    # (before, Python itself may leave the lock of a `with` taken)
    @unittest.skipIf(sys.version_info < (3, 10), "interrupts come between with and lock")
    def test_interrupts_leave_nothing_live(self):
        def interrupt(*_):
            raise KeyboardInterrupt

        self.job.abort()
        before = signal.signal(signal.SIGALRM, interrupt)
        self.addCleanup(signal.signal, signal.SIGALRM, before)
        random_ = random.Random(1)
        with warnings.catch_warnings():
            warnings.simplefilter("ignore", ResourceWarning)
            for _ in range(1500):
                self.interrupted(random_.uniform(1e-6, 60e-6))
            gc.collect()
        self.tree.checkpoint()
        self.assertEqual(self.descriptors(), [])

    def interrupted(self, seconds):
        """A job in which an interrupt comes so many seconds from now."""
        try:
            signal.setitimer(signal.ITIMER_REAL, seconds)
            with self.tree.begin() as job:
                job.exists("/a")
                job.exists("/b")
            time.sleep(80e-6)
        except KeyboardInterrupt:
            pass
        finally:
            try:
                signal.setitimer(signal.ITIMER_REAL, 0)
            except KeyboardInterrupt:
                pass


#: Trees with live transactions and open files, which the garbage collector finds all together, the
#: trees first.
GARBAGE = """
import gc
from nuzolged import Tree

class Cycle:
    pass

for number in range(50):
    cycle = Cycle()
    cycle.me, cycle.tree = cycle, Tree()
    cycle.job = cycle.tree.begin()
    cycle.file = cycle.job.open("/f", "w")
    cycle.file.write("bytes")
del cycle
gc.collect()
"""


class Trees(unittest.TestCase):
    def test_tree_that_is_found_before_what_it_has(self):
        # (memory that is freed is filled, so that none of it is used)
        place = {**os.environ, "MALLOC_PERTURB_": "165"}
        ran = subprocess.run([sys.executable, "-c", GARBAGE], env=place, capture_output=True)
        self.assertEqual((ran.returncode, ran.stderr), (0, b""))


class Neighbours(unittest.TestCase):
    """Two trees, each used by a thread that drops files of the other."""

    def setUp(self):
        self.addCleanup(gc.set_threshold, *gc.get_threshold())
        gc.set_threshold(20)
        self.jobs = []
        for tree in Tree(), Tree():
            self.addCleanup(tree.close)
            self.jobs.append(tree.begin())
            for number in range(50):
                self.jobs[-1].mkdir(f"/{number:02}")

    def work(self, mine, other):
        """Lists names, amid which files of the other tree are dropped."""
        end = time.monotonic() + 0.5
        while time.monotonic() < end:
            file = other.open("/f", "ab")
            file.write(b"x")
            Cycle(file)
            del file
            listed = mine.listdir()
            self.ends.append(listed[:50] == [f"{number:02}" for number in range(50)])

    def test_none_waits_for_the_other(self):
        self.ends = []
        threads = [
            threading.Thread(target=self.work, args=jobs, daemon=True)
            for jobs in (self.jobs, self.jobs[::-1])
        ]
        for thread in threads:
            thread.start()
        for thread in threads:
            thread.join(60)
            self.assertFalse(thread.is_alive())
        self.assertTrue(self.ends and all(self.ends))
        gc.collect()
        for job in self.jobs:
            self.assertNotIn("fd", job.tree.request("tree"))


class Forks(unittest.TestCase):
    def test_child_of_a_program_with_threads_goes_on(self):
        tree, stop = Tree(), threading.Event()
        self.addCleanup(tree.close)

        def spin():
            with tree.begin() as job:
                for number in range(300):
                    job.mkdir(f"/{number}")
                while not stop.is_set():
                    job.listdir()

        thread = threading.Thread(target=spin)
        thread.start()
        try:
            ends = [self.end_of_child(tree) for _ in range(10)]
        finally:
            stop.set()
            thread.join()
        self.assertEqual(ends, [0] * 10)

    def end_of_child(self, tree):
        with warnings.catch_warnings():
            warnings.simplefilter("ignore", DeprecationWarning)
            child = os.fork()
        if child:
            return os.waitpid(child, 0)[1]
        signal.alarm(10)
        try:
            tree.begin().abort()
            os._exit(0)
        finally:
            os._exit(1)


if __name__ == "__main__":
    unittest.main()
