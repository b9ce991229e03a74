"""Saves that are refused memory: what was begun is removed, even if there is none left."""
import os
import re
import tempfile

import refusals

# Directories in one another, an empty one, a file of two names, one of more than one piece, and
# symbolic links: to a directory, of two names, and to nothing. Modes, by which nobody but the
# superuser may take away what was begun, owners and times.
ROWS = [
    b"dir 1",
    b"dir 2",
    b"dir 3",
    b"dir 4",
    b"edge 1 a 2",
    b"edge 1 empty 4",
    b"edge 1 file 5",
    b"edge 2 b 3",
    b"edge 2 large 6",
    b"edge 3 again 5",
    b"edge 1 0 7",
    b"edge 3 up 7",
    b"edge 2 none 8",
    b"file 5 7 a%20name",
    b"file 6 100000 " + b"x" * 100_000,
    b"link 7 a",
    b"link 8 /no%20where",
    b"attributes 1 0555 0 0",
    b"attributes 2 0500 1000 1000",
    b"attributes 3 0000 0 0",
    b"attributes 5 0400 0 1",
    b"time 5 1 2",
    b"time 6 4294967296 0",
]
REPORT = b"tree %d\n" % len(ROWS) + b"".join(row + b"\n" for row in ROWS)


def tests():
    return refusals.tests("save is", save_refused)


def save_refused(bench, **settings):
    """The directory is whole, or nothing is left."""
    with tempfile.TemporaryDirectory() as work:
        out = os.path.join(work, "out")
        ran, counts = bench.unkind.run(["save", out], REPORT, **settings)
        return fault_of_run(ran, work), counts


def fault_of_run(ran, work):
    left = os.listdir(work)
    if ran.status == 0:
        return None if left == ["out"] else f"status 0, and there is {left}"
    # (a sentence that explains the fault may come before it)
    if ran.status != 1 or not re.search(rb"^fault: ", ran.errors, re.M):
        return f"status {ran.status}, {ran.errors!r}"
    return f"{left} is left" if left else None
