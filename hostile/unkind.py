"""The library unkind.c: it is compiled here, and programs are run with it."""
import collections
import os
import queue
import struct
import subprocess
import tempfile

import playing

SOURCE = os.path.join(os.path.dirname(os.path.abspath(__file__)), "unkind.c")

# struct counts of unkind.c, without its notes, and with all of them.
COUNTS = struct.Struct("9Q")
NOTE = struct.Struct("2Q")
MOST_NOTES = 65536

Counts = collections.namedtuple(
    "Counts",
    "allocations refused reads writes threads threads_started threads_begun threads_ended notes",
)


class Unkind:
    """A program that is run with the library. As many runs as one likes may go on side by side."""

    def __init__(self, program, lanes):
        self.program = program
        self.folder = tempfile.TemporaryDirectory()
        self.library = os.path.join(self.folder.name, "unkind.so")
        compiler = os.environ.get("CC", "cc")
        flags = ["-O2", "-shared", "-fPIC", "-o", self.library]
        subprocess.run([compiler, *flags, SOURCE, "-ldl", "-lpthread"], check=True)
        self.free = queue.Queue()
        for lane in range(lanes):
            self.free.put(self.counts_file(lane))

    def counts_file(self, lane):
        path = os.path.join(self.folder.name, f"counts{lane}")
        with open(path, "wb") as file:
            file.truncate(COUNTS.size + MOST_NOTES * NOTE.size)
        return path

    def run(self, words, script=b"", **settings):
        """Runs the program with settings (allocation=3, say): the run, and what was counted."""
        counts = self.free.get()
        try:
            ran = playing.run([self.program, *words], script, self.environment(counts, settings))
            return ran, read_counts(counts)
        finally:
            self.free.put(counts)

    def environment(self, counts, settings):
        environment = dict(os.environ, LD_PRELOAD=self.library, UNKIND_COUNTS=counts)
        for name, value in settings.items():
            environment["UNKIND_" + name.upper()] = str(value)
        return environment


def read_counts(path):
    """What was counted; notes are the numbers of allocations before each write."""
    with open(path, "rb") as file:
        counts = Counts(*COUNTS.unpack(file.read(COUNTS.size)))
        notes = list(NOTE.iter_unpack(file.read(NOTE.size * min(counts.notes, MOST_NOTES))))
    return counts._replace(notes=[allocations for is_write, allocations in notes if is_write])
