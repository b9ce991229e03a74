"""The reasons why a request was not carried out."""
from __future__ import annotations

import errno
import os
from typing import Sequence, Union

from . import _library

#: A path: names are bytes, and a string is encoded as `os.fsencode` does it.
AnyPath = Union[str, bytes, "os.PathLike[str]", "os.PathLike[bytes]"]


class Error(Exception):
    """A request was not carried out, for another reason than an errno: `Waits` or `Refused`."""


class Waits(OSError, Error):
    """The call waits for the transactions `blockers`. To ask again, make the call again.

    Its errno is EAGAIN. It is not a BlockingIOError, because the buffers of `io` would take that
    for their own and replace it.
    """

    blockers: list[int]

    def __init__(self, blockers: list[int], *paths: AnyPath) -> None:
        super().__init__(errno.EAGAIN, self._text(blockers), *_named(paths))
        self.blockers = blockers
        self._made_of: tuple[object, ...] = (blockers, *paths)

    def __reduce__(self) -> tuple[object, ...]:
        return type(self), self._made_of, {**vars(self), "filename": self.filename}

    @staticmethod
    def _text(numbers: list[int]) -> str:
        return "The call waits for transactions " + ", ".join(map(str, numbers))


class Deadlock(Waits):
    """The call would wait forever: each of the transactions `cycle` waits for the next one, and the
    last waits for the first, which made the call. The call is cancelled. Abort that transaction, or
    let it do something else; the others then continue."""

    cycle: list[int]

    def __init__(self, blockers: list[int], cycle: list[int], *paths: AnyPath) -> None:
        super().__init__(blockers, *paths)
        self.strerror = "A cycle of transactions wait for each other: " + ", ".join(map(str, cycle))
        self.cycle = cycle
        self._made_of = (blockers, cycle, *paths)


class Refused(RuntimeError, Error):
    """The request is refused, for the reason `name`, and nothing has changed."""

    name: str

    def __init__(self, name: str) -> None:
        reason = _library.REFUSALS.get(name, "the library refuses it")
        super().__init__(f"{reason} ({name})")
        self.name = name

    def __reduce__(self) -> tuple[object, ...]:
        return type(self), (self.name,)


def _named(paths: Sequence[AnyPath]) -> tuple[object, ...]:
    """Paths as arguments of an OSError: between two comes one that only Windows uses."""
    return (paths[0], None, *paths[1:]) if len(paths) == 2 else tuple(paths)


def disk_path(disk: AnyPath) -> bytes:
    """A path of the disk, which C ends at a null byte."""
    path = os.fsencode(disk)
    if b"\0" in path:
        raise ValueError("embedded null byte")
    return path


def os_error(code: int, *paths: AnyPath) -> OSError:
    """The exception of an errno, about these paths."""
    return OSError(code, os.strerror(code), *_named(paths))


def error_of(code: int, *paths: AnyPath) -> Exception:
    """The exception of a code that is neither 0 nor that of a call that waits."""
    if code == _library.MEMORY:
        return MemoryError()
    if code == _library.CLOSED:
        return ValueError("the tree is closed")
    if code == _library.BAD:
        return ValueError("embedded null byte" if paths else "invalid argument")
    if code > _library.MEMORY:
        return Refused(_library.name_of(code))
    return os_error(code, *paths)
