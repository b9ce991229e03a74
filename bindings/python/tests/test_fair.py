"""Calls that wait in turn."""
import os
import signal
import time
import unittest
import warnings

from test_waiting import WaitingTest

from nuzolged import Deadlock, Tree, Waits


class FairTest(WaitingTest):
    def with_a_writer(self, **options):
        """A tree, a reader that has listed /d, a writer, and another reader."""
        tree = Tree(**options)
        self.addCleanup(tree.close)
        with tree.begin() as job:
            job.mkdir("/d")
        jobs = tree.begin(), tree.begin(), tree.begin()
        self.assertEqual(jobs[0].listdir("/d"), [])
        return tree, *jobs

    def makes(self, tree, job, path):
        """Has a transaction make a directory in a thread, which waits, and returns what waits for
        its end."""
        end = self.beside(lambda: job.mkdir(path))
        begun = time.monotonic()
        while f"edge {job.number} " not in tree.request("waits"):
            self.assertLess(time.monotonic() - begun, 60)
            time.sleep(0.001)
        return end

    def assert_held(self, job, blockers):
        with self.assertRaises(Waits) as waits:
            job.within(0).listdir("/d")
        self.assertNotIsInstance(waits.exception, Deadlock)
        self.assertEqual(waits.exception.blockers, blockers)

    def test_writer_is_not_passed(self):
        tree, first, writer, second = self.with_a_writer(timeout=60)
        written = self.makes(tree, writer, "/d/w")
        self.assert_held(second, [writer.number])
        listed = self.beside(lambda: second.listdir("/d"))
        first.commit()
        self.assertIsNone(written())
        writer.commit()
        self.assertEqual(listed(), ["w"])
        second.commit()

    def test_writer_is_passed_without_turns(self):
        tree, first, writer, second = self.with_a_writer(timeout=60, fair=False)
        written = self.makes(tree, writer, "/d/w")
        self.assertEqual(second.within(0).listdir("/d"), [])
        first.commit()
        second.commit()
        self.assertIsNone(written())
        writer.commit()

    def test_tree_that_never_waits_has_turns_on_demand(self):
        for fair in (None, False, True):
            tree, first, writer, second = self.with_a_writer(fair=fair)
            with self.assertRaises(Waits):
                writer.mkdir("/d/w")
            if fair:
                self.assert_held(second, [writer.number])
                writer.cancel_wait()
            self.assertEqual(second.listdir("/d"), [])
            for job in (first, writer, second):
                job.abort()

    def test_turn_of_one_that_gives_up_is_gone(self):
        tree, first, writer, second = self.with_a_writer(timeout=60)
        end = self.makes(tree, writer.within(0.5), "/d/w")
        begun = time.monotonic()
        self.assertEqual(second.listdir("/d"), [])
        self.assertLess(time.monotonic() - begun, 30)
        self.assertIsInstance(end(), Waits)
        for job in (first, writer, second):
            job.abort()

    def test_ring_through_a_turn_is_no_deadlock(self):
        tree, first, second, third = self.with_a_writer(timeout=60)
        first.abort()
        first = tree.begin()
        first.mkdir("/t")
        second.mkdir("/d/v")
        listed = self.beside(lambda: third.listdir("/d"))
        self.wait_for(tree, "edges 1\nedge 4 3 lock\nranks 3:0 4:1\n")
        with self.assertRaises(Waits) as waits:
            first.within(0).mkdir("/d/x")
        self.assertEqual(waits.exception.blockers, [third.number])

        def make():
            first.mkdir("/d/x")
            first.commit()

        made = self.beside(make)
        self.assertTrue(second.stat("/t").is_dir())
        second.commit()
        self.assertIsNone(made())
        self.assertEqual(listed(), ["v", "x"])
        third.commit()

    def test_child_waits_behind_nobody(self):
        tree, first, writer, second = self.with_a_writer(timeout=60)
        end = self.makes(tree, writer, "/d/w")
        with warnings.catch_warnings():
            warnings.simplefilter("ignore", DeprecationWarning)
            child = os.fork()
        if not child:
            signal.alarm(30)
            try:
                os._exit(second.listdir("/d") != [])
            finally:
                os._exit(2)
        self.assertEqual(os.waitpid(child, 0)[1], 0)
        first.abort()
        self.assertIsNone(end())
        writer.abort()
        second.abort()

    def test_each_thread_comes_to_its_end(self):
        tree = self.shared(60)

        def add():
            with tree.begin() as job:
                size = job.stat("/f").st_size
                job.truncate("/f", size + 1)

        def work():
            done = 0
            while done < 25:
                try:
                    add()
                    done += 1
                except Deadlock:
                    pass

        begun = time.monotonic()
        ends = [self.beside(work) for _ in range(8)]
        self.assertEqual([end() for end in ends], [None] * 8)
        self.assertLess(time.monotonic() - begun, 60)
        with tree.begin() as job:
            self.assertEqual(job.stat("/f").st_size, 100 + 8 * 25)


if __name__ == "__main__":
    unittest.main()
