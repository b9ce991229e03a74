"""Modes, owners and times, as the library takes them."""
from __future__ import annotations

import math
import time
from typing import Optional, Union

from . import _library

#: The mode of a directory for which none is given: there is no umask.
DIRECTORY_MODE = 0o755

#: The bits of a mode of `os.stat` besides the permissions: the kind.
_KIND = 0o170000

_NANOSECONDS = 1_000_000_000

#: A time of access, which no tree keeps, and one of modification.
Times = Optional[tuple[Union[int, float], Union[int, float]]]
Nanoseconds = Optional[tuple[int, int]]


def mode_of(mode: int) -> int:
    """A mode, without the kind that `st_mode` also has: so `stat(..).st_mode | 0o111` is one."""
    if isinstance(mode, bool):
        raise TypeError("a mode is a number, and exist_ok or parents a keyword")
    return _unsigned(mode & ~_KIND)


def owner_of(number: int) -> int:
    """An owner or a group; -1 means the present one."""
    if number == -1:
        return _library.STAYS
    if number == _library.STAYS:
        raise OverflowError(f"an owner or a group that none can be: {number}")
    return _unsigned(number)


def time_of(times: Times, ns: Nanoseconds) -> tuple[int, int]:
    """A time of modification in seconds and nanoseconds, as `os.utime` takes it. Without one, it is
    now."""
    if times is not None and ns is not None:
        raise ValueError("either times or ns is given, and not both")
    if ns is not None:
        _, modified = ns
        return _split(modified)
    if times is None:
        return _split(time.time_ns())
    _, told = times
    whole = math.trunc(told)
    return _split(whole * _NANOSECONDS + math.floor((told - whole) * _NANOSECONDS))


def _split(ns: int) -> tuple[int, int]:
    seconds, rest = divmod(ns, _NANOSECONDS)
    return _library.signed(seconds), rest


def _unsigned(number: int) -> int:
    """A number of 32 bits: ctypes would cut it to them."""
    if not 0 <= number < 1 << 32:
        raise OverflowError(f"a mode or an owner of more than 32 bits: {number}")
    return number
