"""The functions of nuzolged.h and of the C files on top of it. Their headers describe arguments and
answers."""
from __future__ import annotations

import ctypes
import itertools
import operator
import os
import struct
from ctypes import POINTER, c_bool, c_char_p, c_int64, c_size_t, c_uint32, c_uint64, c_void_p
from pathlib import Path
from typing import Callable, Iterator, NamedTuple

#: The file of the library.
_NAME = "libnuzolged.so.1"

DIR, FILE, LINK = 1, 2, 3
READ_ONLY, WRITE_ONLY, READ_WRITE = 0, 1, 2
CREATE, EXCL, TRUNC, APPEND = 0o100, 0o200, 0o1000, 0o2000
RELAXED, MOSS, FAIR = 0, 1, 2

#: The mode that means that none is given.
DEFAULT_MODE = (1 << 32) - 1

#: The owner or group that leaves the old one.
STAYS = (1 << 32) - 1

#: The most bytes that a request writes: it makes a copy of them.
MOST_WRITTEN = 1 << 26

MEMORY = 1001
FULL = 1007
WAITS = 1100
BAD = 1201

#: The code that this package returns, in place of the library, if a tree is closed.
CLOSED = 1200

#: The refusals 1001 and on, by the names that a script has for them (docs/SCRIPT.md).
REFUSALS = {
    "Memory": "there is not enough memory",
    "NoTxn": "there is no such transaction",
    "Ended": "the transaction has ended",
    "ChildLive": "the transaction has a live step",
    "NothingToUndo": "there is no call to undo",
    "SubSince": "a step has committed since the last call",
    "Full": "the limit on transactions or calls is reached",
    "Deep": "the transaction is at the greatest depth",
    "Live": "a transaction is live",
    "NoAsk": "the transaction waits for no call",
}


def name_of(code: int) -> str:
    """Returns the name of a refusal, or its code if only a later library knows it."""
    names = dict(enumerate(REFUSALS, MEMORY))
    return names.get(code, str(code))


class Limits(ctypes.Structure):
    """`nuz_limits`: the limits of a tree."""

    _fields_ = [
        ("file_size", c_uint64),
        ("links", c_uint64),
        ("depth", c_uint64),
        ("transactions", c_uint64),
        ("calls", c_uint64),
        ("reserved", c_uint64 * 3),
    ]


class Numbers(NamedTuple):
    """The numbers of an answer: the members of `nuz_answer`, each in its place, up to the length of
    a reply."""

    code: int
    kind: int = 0
    stamp: int = 0
    number: int = 0
    links: int = 0
    size: int = 0
    mode: int = 0
    owner: int = 0
    group: int = 0
    has_time: bool = False
    seconds: int = 0
    nanoseconds: int = 0
    reply: int = 0


class Answer(Numbers):
    """The outcome of a request, with the parts that were requested with it."""

    #: The transactions for which a call waits.
    blockers: list[int] = []
    #: If it would wait for ever, the transactions that wait for each other.
    cycle: list[int] = []
    #: The names of a list, each with its kind.
    names: list[tuple[bytes, int]] = []
    #: The reply to a line.
    text: bytes = b""


#: The type of a C function that makes a request of a copy, of a tree.
_COPY_REQUEST = ctypes.CFUNCTYPE(c_uint32, c_void_p, c_void_p)

#: The size of `nuz_answer` in bytes, and the layout of its members.
_ANSWER_SIZE = 192
_ANSWER = struct.Struct("@IIQQQQIII?qIQ")


_BYTES = (c_char_p, c_size_t)
_BUFFER = (c_void_p, c_size_t)
_NUMBERS = (c_void_p, c_size_t)
_OWNERS = (c_uint32, c_uint32)
_TIME = (c_int64, c_uint32)

#: The arguments of each function between the tree and the answer, which it fills in.
_FUNCTIONS: dict[str, tuple[type, ...]] = {
    "nuz_begin": (),
    "nuz_begin_sub": (c_uint64,),
    "nuz_commit": (c_uint64,),
    "nuz_abort": (c_uint64,),
    "nuz_cancel": (c_uint64,),
    "nuz_checkpoint": (),
    "nuz_mkdir": (c_uint64, *_BYTES, c_uint32),
    "nuz_rmdir": (c_uint64, *_BYTES),
    "nuz_list_all": (c_uint64, *_BYTES, *_BUFFER),
    "nuz_stat": (c_uint64, *_BYTES),
    "nuz_lstat": (c_uint64, *_BYTES),
    "nuz_symlink": (c_uint64, *_BYTES, *_BYTES),
    "nuz_readlink": (c_uint64, *_BYTES, *_BUFFER),
    "nuz_unlink": (c_uint64, *_BYTES),
    "nuz_truncate": (c_uint64, *_BYTES, c_int64),
    "nuz_link": (c_uint64, *_BYTES, *_BYTES),
    "nuz_rename": (c_uint64, *_BYTES, *_BYTES),
    "nuz_open": (c_uint64, *_BYTES, c_uint32, c_uint32),
    "nuz_close": (c_uint64, c_uint64),
    "nuz_fstat": (c_uint64, c_uint64),
    "nuz_ftruncate": (c_uint64, c_uint64, c_int64),
    "nuz_lseek": (c_uint64, c_uint64, c_int64, c_uint32),
    "nuz_read": (c_uint64, c_uint64, *_BUFFER),
    "nuz_pread": (c_uint64, c_uint64, *_BUFFER, c_int64),
    "nuz_write": (c_uint64, c_uint64, *_BYTES),
    "nuz_pwrite": (c_uint64, c_uint64, *_BYTES, c_int64),
    "nuz_chmod": (c_uint64, *_BYTES, c_uint32),
    "nuz_fchmod": (c_uint64, c_uint64, c_uint32),
    "nuz_chown": (c_uint64, *_BYTES, *_OWNERS),
    "nuz_lchown": (c_uint64, *_BYTES, *_OWNERS),
    "nuz_fchown": (c_uint64, c_uint64, *_OWNERS),
    "nuz_utime": (c_uint64, *_BYTES, *_TIME),
    "nuz_lutime": (c_uint64, *_BYTES, *_TIME),
    "nuz_futime": (c_uint64, c_uint64, *_TIME),
    "nuz_cycle_of": (c_uint64, *_NUMBERS),
    "nuz_blocker": (c_size_t,),
    "nuz_bytes": _BUFFER,
    "nuz_manifest": (c_uint64, *_BUFFER),
    "nuz_depfile": (c_uint64, c_char_p, c_char_p, *_BUFFER),
    "nuz_request": (*_BYTES, *_BUFFER),
    "nuz_reply": _BUFFER,
}


def signed(number: int) -> int:
    """Returns an offset or a size, which must have at most 64 bits: ctypes would cut it to them."""
    number = operator.index(number)
    if not -(1 << 63) <= number < 1 << 63:
        raise OverflowError(f"an offset or a size of more than 64 bits: {number}")
    return number


def _places() -> Iterator[str]:
    """The places where the library may be: the file that NUZOLGED_LIBRARY names; this package, as
    in a wheel; the folder into which `make` builds it; the lib folder of the place where this
    package was installed; and else the places where the system looks for libraries."""
    named = os.environ.get("NUZOLGED_LIBRARY")
    if named:
        yield named
        return
    here = Path(__file__).resolve().parent
    for folder in (here, here.parents[1] / "out", here.parents[3] / "lib"):
        place = folder / _NAME
        if place.is_file():
            yield str(place)
    yield _NAME


def _opened() -> ctypes.CDLL:
    place = next(_places())
    try:
        return ctypes.CDLL(place)
    except OSError as error:
        hint = "build it by make -C bindings, or name the file in NUZOLGED_LIBRARY"
        raise ImportError(f"there is no {_NAME}: {error}; {hint}") from error


def _load() -> ctypes.CDLL:
    library = _opened()
    for name, takes in _FUNCTIONS.items():
        function = getattr(library, name)
        function.argtypes = [c_void_p, *takes, c_void_p]
        function.restype = c_uint32
    library.nuz_tree_open_with.argtypes = [POINTER(c_void_p), c_uint32, POINTER(Limits)]
    library.nuz_tree_open_with.restype = c_uint32
    library.nuz_tree_seed.argtypes = [c_void_p, c_uint64]
    library.nuz_tree_seed.restype = None
    library.nuz_tree_fair.argtypes = [c_void_p, c_bool]
    library.nuz_tree_fair.restype = None
    library.nuz_tree_close.argtypes = [c_void_p]
    library.nuz_tree_close.restype = None
    return library


library = _load()


class OpenTree:
    """The functions of the library for a tree."""

    def __init__(self, tree: int) -> None:
        self._tree = tree

    def __getattr__(self, name: str) -> Callable[..., Answer]:
        function = self.__dict__[name] = _bound(getattr(library, name), self._tree)
        return function

    def copy_request(self, _: int, make: int, request: int) -> Answer:
        """Makes a request of a copy, by a C function: the answer's number is the code, unless the
        request is blocked."""
        code = _COPY_REQUEST(make)(self._tree, request)
        if code != WAITS:
            return Answer(0, number=code)
        indexes = itertools.count()
        return Answer(WAITS, number=next(at for at in indexes if self.nuz_blocker(at).code))


class ClosedTree:
    """The functions of the library for a closed tree."""

    def __getattr__(self, _: str) -> Callable[..., Answer]:
        return lambda *_: Answer(CLOSED)


def _bound(function: Callable[..., int], tree: int) -> Callable[..., Answer]:
    """Returns a function for a tree, which returns the answer that it fills in. (Each function has
    room of its own for the answer, so that a finalizer's request through another one leaves it.)"""
    room = ctypes.create_string_buffer(_ANSWER_SIZE)
    at = ctypes.addressof(room)
    unpack, make = _ANSWER.unpack_from, tuple.__new__

    def ask(*args: object) -> Answer:
        function(tree, *args, at)
        return make(Answer, unpack(room))

    return ask
