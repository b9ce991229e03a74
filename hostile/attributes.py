"""Modes, owners and times by the operating system, and their form in replies."""
import ctypes
import os
import stat

import calls

# The mode of what is made without one; a link has this one always.
MODES = {"dir": 0o755, "file": 0o644, "link": 0o777}

# The arguments of utimensat: paths are from the root, a last link is not followed, a time stays.
FROM_ROOT = -100
OF_LINK = 0x100
TIME_STAYS = (1 << 30) - 2

SET_ID = stat.S_ISUID | stat.S_ISGID

# (it is loaded before a process has another root)
LIBC = ctypes.CDLL(None, use_errno=True)


class Time(ctypes.Structure):
    """A time as the system takes it: struct timespec."""

    _fields_ = [("seconds", ctypes.c_longlong), ("nanoseconds", ctypes.c_long)]


def set_time(seconds, nanoseconds, path, flags=0):
    """Sets only the time of the bytes; os.utime takes no nanoseconds of a second or more."""
    times = (Time * 2)(Time(0, TIME_STAYS), Time(seconds, nanoseconds))
    check(LIBC.utimensat(FROM_ROOT, path, times, flags))


def set_open_time(seconds, nanoseconds, descriptor):
    times = (Time * 2)(Time(0, TIME_STAYS), Time(seconds, nanoseconds))
    check(LIBC.futimens(descriptor, times))


def check(status):
    if status != 0:
        raise OSError(ctypes.get_errno(), "the time is not set")


def has_privileges():
    """Whether the process may make every call, no matter who owns what."""
    path = "/of another"
    os.close(os.open(path, os.O_CREAT | os.O_WRONLY, 0))
    os.chown(path, calls.LAST_OWNER, calls.LAST_OWNER)
    os.chmod(path, SET_ID)
    os.close(os.open(path, os.O_RDWR))
    mode = mode_of(os.stat(path))
    os.unlink(path)
    return mode == SET_ID


def mode_of(info):
    return stat.S_IMODE(info.st_mode)


def mode_asked(mode, kind):
    """A mode as the system takes it, of a word in octal digits that may be left out."""
    return MODES[kind] if mode is None else int(mode, 8)


def owner_asked(owner):
    return -1 if owner == calls.STAYS else owner


def told(info):
    """The mode, owner and group as in replies."""
    return f"{mode_of(info):04o} {info.st_uid} {info.st_gid}"


def are_default(kind, info):
    return (mode_of(info), info.st_uid, info.st_gid) == (MODES[kind], 0, 0)


def tail(kind, info):
    """The end of a stat's reply, after the size: nothing for a link, which keeps none."""
    is_left = kind == "link" or are_default(kind, info)
    return "" if is_left else f" attributes {told(info)}"


def time(info):
    """The time of the bytes, as in replies."""
    return "{} {}".format(*divmod(info.st_mtime_ns, 10**9))
