"""A POSIX file tree in memory, under nested transactions.

    with Tree() as tree:
        with tree.begin() as job:
            with job.begin() as step:       # a step: committed at the end, aborted at an exception
                step.mkdir("/out")
                with step.open("/out/log", "w") as log:
                    log.write("all of it")
            job.listdir("/out")
        copy_out(tree, "/tmp/result")       # a directory of the disk

A call that fails raises the OSError of its errno, like FileNotFoundError, with the filename.
`Waits`, an OSError, lists the transactions that a call waits for; to ask again, make the call
again, or give the tree a `timeout`. `Deadlock`, which is a `Waits`, means that transactions wait
for each other. `Refused` says why a request can't be made now. `Waits` and `Refused` are `Error`s.
Lack of memory is a MemoryError. A path with a null byte, a closed tree or a closed file is a
ValueError.

Absolute and relative paths are the same here: the working directory is always the root. A symbolic
link with a relative target leads on from its own directory.
"""
from ._disk import copy_in, copy_out
from ._errors import AnyPath, Deadlock, Error, Refused, Waits
from ._file import RawFile
from ._limits import Limits
from ._path import Path
from ._told import Entry, Info
from ._touched import Touched
from ._transaction import Transaction, Within
from ._tree import Tree

__version__ = "0.1.0"

__all__ = [
    "AnyPath",
    "Deadlock",
    "Entry",
    "Error",
    "Info",
    "Limits",
    "Path",
    "RawFile",
    "Refused",
    "Touched",
    "Transaction",
    "Tree",
    "Waits",
    "Within",
    "copy_in",
    "copy_out",
]
