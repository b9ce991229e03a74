"""The paths that a transaction has touched, by the functions of nuzolged_touched.h."""
from __future__ import annotations

import ctypes
import os
from dataclasses import dataclass
from typing import Optional
from urllib.parse import unquote_to_bytes

from ._errors import AnyPath, disk_path
from ._session import Session

#: How many bytes a text is asked for with at first.
_ROOM = 1 << 16


@dataclass
class Touched:
    """How a transaction has touched a path."""

    #: Whether it has looked up what the path leads to, even in vain, or has read the bytes, the
    #: target or the mode and owners there.
    read: bool = False
    #: Whether it has listed the directory there.
    listed: bool = False
    #: Whether it has made, changed, renamed or removed what is there.
    written: bool = False
    #: Whether it has looked up the path in vain, and has not removed anything there.
    absent: bool = False
    #: The kind of what is there now: "dir", "file", "link" or "none".
    kind: str = "none"

    @classmethod
    def of(cls, how: str, kind: str) -> Touched:
        """The meaning of a line of a manifest."""
        words = how.split(",")
        is_absent = "absent" in words
        is_read = is_absent or "read" in words
        return cls(is_read, "listed" in words, "written" in words, is_absent, kind)


def touched(session: Session, number: int) -> dict[str, Touched]:
    """The paths that a transaction has touched."""
    lines = (line.split(" ") for line in manifest(session, number).splitlines())
    return {os.fsdecode(unquote_to_bytes(path)): Touched.of(how, kind) for path, how, kind in lines}


def manifest(session: Session, number: int) -> str:
    """The same as a text."""
    return _text(session, "nuz_manifest", number).decode("ascii")


def depfile(session: Session, number: int, target: Optional[AnyPath], top: AnyPath) -> str:
    """The same in the form that make and Ninja read."""
    targets = None if target is None else disk_path(target)
    try:
        return os.fsdecode(_text(session, "nuz_depfile", number, targets, disk_path(top)))
    except ValueError as error:
        if not session.is_open:
            raise
        raise ValueError("make or Ninja would take a name for another one") from error


def _text(session: Session, function: str, *args: object, room: int = _ROOM) -> bytes:
    text = ctypes.create_string_buffer(room)
    size = session.ask((function, (*args, text, room))).size
    return text.raw[:size] if size <= room else _text(session, function, *args, room=size)
