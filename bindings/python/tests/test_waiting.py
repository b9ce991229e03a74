"""Calls that wait for other transactions."""
import errno
import math
import threading
import time
import unittest

from nuzolged import Deadlock, Error, Tree, Waits


class WaitingTest(unittest.TestCase):
    """A test with a tree, in which /f is."""

    def shared(self, timeout):
        tree = Tree(timeout=timeout)
        self.addCleanup(tree.close)
        with tree.begin() as job:
            job.write_bytes("/f", b"0" * 100)
        return tree

    def beside(self, work):
        """Runs work in a thread of its own, and returns what waits for its end."""
        results = []

        def run():
            try:
                results.append(work())
            except Exception as error:
                results.append(error)

        thread = threading.Thread(target=run)
        thread.start()

        def end():
            thread.join(60)
            return results[0]

        return end

    def wait_for(self, tree, report):
        """Waits until the report on who waits is this one."""
        begun = time.monotonic()
        while tree.request("waits") != report:
            self.assertLess(time.monotonic() - begun, 60, tree.request("waits"))
            time.sleep(0.001)


class AtOnce(WaitingTest):
    def test_blockers_are_told(self):
        tree = self.shared(0)
        first, second, third = tree.begin(), tree.begin(), tree.begin()
        first.mkdir("/a")
        second.mkdir("/b")
        with self.assertRaises(Waits) as waits:
            third.listdir("/")
        error = waits.exception
        self.assertIsInstance(error, Error)
        self.assertNotIsInstance(error, BlockingIOError)
        self.assertEqual(error.blockers, [first.number, second.number])
        self.assertEqual((error.errno, error.filename), (errno.EAGAIN, "/"))
        third.cancel_wait()
        first.commit()
        second.abort()
        self.assertEqual(third.listdir("/"), ["a", "f"])
        third.commit()

    def test_moss(self):
        with Tree(moss=True) as tree:
            job = tree.begin()
            job.mkdir("/a")
            step = job.begin()
            with self.assertRaises(Waits) as waits:
                step.stat("/a")
            self.assertEqual(waits.exception.blockers, [job.number])

    def test_buffers_keep_what_waits(self):
        writes = {
            "r+b": (
                lambda file: (file.write(b"x" * 10), file.flush()),
                lambda file: file.write(b"x" * 20000),
                lambda file: (file.write(b"a" * 10), file.write(b"x" * 20000)),
                lambda file: (file.write(b"a" * 8000), file.write(b"b" * 8000)),
            ),
            "r+": (
                lambda file: (file.write("x" * 10), file.flush()),
                lambda file: [file.write(f"line {n}\n") for n in range(3000)],
            ),
        }
        for mode, ways in writes.items():
            for way in ways:
                self.assert_kept(mode, way)

    def assert_kept(self, mode, write):
        tree = self.shared(0)
        job, other = tree.begin(), tree.begin()
        file = job.open("/f", mode)
        other.write_bytes("/f", b"z")
        with self.assertRaises(Waits) as waits:
            write(file)
        self.assertEqual((waits.exception.blockers, waits.exception.filename), ([3], "/f"))
        other.abort()
        file.close()
        job.abort()


class ForATime(WaitingTest):
    def test_call_waits_until_the_other_has_ended(self):
        tree = self.shared(60)
        first, second = tree.begin(), tree.begin()
        first.mkdir("/a")
        end = self.beside(second.listdir)
        self.wait_for(tree, "edges 1\nedge 3 2 lock\nranks 2:0 3:1\n")
        first.commit()
        self.assertEqual(end(), ["a", "f"])
        second.commit()

    def test_call_goes_on_when_nobody_has_the_other(self):
        tree = self.shared(60)
        first, second = tree.begin(), tree.begin()
        first.mkdir("/a")
        end = self.beside(second.listdir)
        self.wait_for(tree, "edges 1\nedge 3 2 lock\nranks 2:0 3:1\n")
        with self.assertWarns(ResourceWarning):
            del first
        self.assertEqual(end(), ["f"])
        second.commit()

    def assert_gives_up(self, tree, request, timeout):
        begun = time.monotonic()
        with self.assertRaises(Waits):
            request()
        self.assertGreaterEqual(time.monotonic() - begun, timeout)
        self.assertNotIn("lock", tree.request("waits"))

    def test_limits_of_tree_transaction_and_call(self):
        tree = self.shared(0.02)
        first, second, third = tree.begin(), tree.begin(), tree.begin(timeout=0.05)
        first.mkdir("/a")
        step = third.begin()
        self.assert_gives_up(tree, lambda: second.stat("/a"), 0.02)
        self.assert_gives_up(tree, lambda: third.stat("/a"), 0.05)
        self.assert_gives_up(tree, lambda: step.stat("/a"), 0.05)
        self.assert_gives_up(tree, lambda: second.within(0.04).stat("/a"), 0.04)
        self.assert_gives_up(tree, lambda: second.within(0).stat("/a"), 0)
        first.commit()
        self.assertTrue(second.stat("/a").is_dir())
        for transaction in (second, step, third):
            transaction.abort()

    def test_limits_that_are_none(self):
        tree = self.shared(1)
        with tree.begin() as job:
            for limit in (-1, -1.0, math.nan):
                for refused in (
                    lambda: Tree(timeout=limit),
                    lambda: tree.begin(timeout=limit),
                    lambda: job.begin(timeout=limit),
                    lambda: job.within(limit),
                ):
                    with self.assertRaisesRegex(ValueError, "timeout"):
                        refused()

    def test_limits_that_nobody_lives_to_see(self):
        for limit in (math.inf, 1e30):
            tree = self.shared(limit)
            first, second = tree.begin(), tree.begin()
            first.mkdir("/a")
            end = self.beside(lambda: second.mkdir("/a"))
            self.wait_for(tree, "edges 1\nedge 3 2 lock\nranks 2:0 3:1\n")
            first.abort()
            self.assertIsNone(end())
            second.commit()

    def test_deadlock_is_told_at_once(self):
        tree = self.shared(60)
        first, second = tree.begin(), tree.begin()
        first.mkdir("/a")
        second.mkdir("/b")
        end = self.beside(lambda: first.stat("/b").is_dir())
        self.wait_for(tree, "edges 1\nedge 2 3 lock\nranks 2:1 3:0\n")
        begun = time.monotonic()
        with self.assertRaises(Deadlock) as told:
            second.stat("/a")
        self.assertLess(time.monotonic() - begun, 30)
        self.assertEqual((told.exception.cycle, told.exception.blockers), ([3, 2], [2]))
        self.assertEqual(tree.request("waits"), "edges 1\nedge 2 3 lock\nranks 2:1 3:0\n")
        second.abort()
        self.assertIsInstance(end(), FileNotFoundError)
        first.commit()

    def with_a_deadlock(self):
        """A tree in which transactions 2 and 3 wait for each other for ever, by lines that nobody
        cancels. (A call of a transaction is forgotten when it is told of a deadlock.)"""
        tree = self.shared(60)
        for line in ("begin", "begin", "2 mkdir /2", "3 mkdir /3", "2 list /3", "3 list /2"):
            tree.request(line)
        return tree

    def test_deadlock_is_told_beside_another_one(self):
        tree = self.with_a_deadlock()
        first, second = tree.begin(), tree.begin()
        first.mkdir("/a")
        second.mkdir("/b")
        end = self.beside(lambda: first.stat("/b").is_dir())
        edges = "edge 2 3 lock\nedge 3 2 lock\nedge 4 5 lock\n"
        self.wait_for(tree, f"edges 3\n{edges}cycle 2 3\n")
        begun = time.monotonic()
        with self.assertRaises(Deadlock) as told:
            second.stat("/a")
        self.assertLess(time.monotonic() - begun, 30)
        self.assertEqual((told.exception.cycle, told.exception.blockers), ([5, 4], [4]))
        second.commit()
        self.assertIs(end(), True)
        first.commit()

    def test_who_waits_behind_a_deadlock_is_told_of_none(self):
        tree = self.with_a_deadlock()
        third, fourth = tree.begin(timeout=0.05), tree.begin()
        with self.assertRaises(Waits) as told:
            third.stat("/2")
        self.assertNotIsInstance(told.exception, Deadlock)
        end = self.beside(lambda: fourth.stat("/2"))
        edges = "edge 2 3 lock\nedge 3 2 lock\nedge 5 2 lock\n"
        self.wait_for(tree, f"edges 3\n{edges}cycle 2 3\n")
        tree.abort(2)
        self.assertIsInstance(end(), FileNotFoundError)
        third.abort()
        fourth.abort()

    def test_job_and_step_alone_are_a_deadlock_under_moss(self):
        with Tree(moss=True, timeout=None) as tree:
            job = tree.begin()
            job.mkdir("/a")
            step = job.begin()
            with self.assertRaises(Deadlock) as told:
                step.stat("/a")
            self.assertEqual(told.exception.cycle, [2, 1])

    def test_waiting_ends_with_the_tree(self):
        tree = self.shared(None)
        first, second = tree.begin(), tree.begin()
        first.mkdir("/a")
        end = self.beside(second.listdir)
        self.wait_for(tree, "edges 1\nedge 3 2 lock\nranks 2:0 3:1\n")
        tree.close()
        self.assertEqual(str(end()), "the tree is closed")

    def test_counters_are_right_in_threads(self):
        tree, done = self.shared(20), []
        with tree.begin() as job:
            for name in "ab":
                job.write_bytes(f"/{name}", b"0")

        def add(job, path):
            with job.begin() as step:
                step.write_text(path, str(int(step.read_text(path)) + 1))

        def work(paths):
            for _ in range(20):
                try:
                    with tree.begin() as job:
                        for path in paths:
                            add(job, path)
                    done.append(1)
                except Deadlock:
                    pass

        begun = time.monotonic()
        ends = [self.beside(lambda paths=paths: work(paths)) for paths in ("ab", "ba") * 3]
        self.assertEqual([end() for end in ends], [None] * 6)
        self.assertLess(time.monotonic() - begun, 15)
        with tree.begin() as job:
            self.assertEqual([int(job.read_text(name)) for name in "ab"], [len(done)] * 2)
        tree.checkpoint()


if __name__ == "__main__":
    unittest.main()
