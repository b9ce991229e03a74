"""The status of files, directories and symbolic links."""
from __future__ import annotations

import os
import stat
from typing import TYPE_CHECKING, Generic, NamedTuple, Optional, TypeVar

from ._library import DIR, FILE, LINK, Answer

if TYPE_CHECKING:
    from ._calls import Calls

Name = TypeVar("Name", str, bytes)

#: The names of kinds, which `Touched` uses too.
_KINDS = {DIR: "dir", FILE: "file", LINK: "link"}

#: The bits of `st_mode` for a kind.
_FORMATS = {"dir": stat.S_IFDIR, "file": stat.S_IFREG, "link": stat.S_IFLNK}

#: The text for the kind of a name, except for a file.
_OF_KIND = {DIR: " of a directory", LINK: " of a symbolic link"}

#: Makes a named tuple from its members. With keywords it would take twice as long.
_made = tuple.__new__


class Info(NamedTuple):
    """The status of a file, directory or symbolic link.

    It has the fields of `os.stat_result` that a tree has: no `st_dev`, and no time except that of a
    file's bytes. `is_dir`, `is_file` and `is_symlink` are methods, as those of `pathlib.Path`
    and `os.DirEntry` are.
    """

    #: "dir", "file" or "link". Only `lstat` returns a link.
    kind: str
    #: Its number in the tree, which no other has or has had.
    number: int
    #: How many names a file or symbolic link has. A directory has one link.
    links: int
    #: How many bytes a file has, or the target of a symbolic link.
    size: int
    #: Its permissions, at most 0o7777: those of a symbolic link are 0o777.
    mode: int = 0o644
    owner: int = 0
    group: int = 0
    #: The time of a file's bytes, in nanoseconds since the Epoch, if one was set for them; none of
    #: a directory or a symbolic link.
    time_ns: Optional[int] = None

    def is_dir(self) -> bool:
        """Whether it is a directory."""
        return self.kind == "dir"

    def is_file(self) -> bool:
        """Whether it is a file."""
        return self.kind == "file"

    def is_symlink(self) -> bool:
        """Whether it is a symbolic link."""
        return self.kind == "link"

    @property
    def st_mode(self) -> int:
        """The kind and the permissions."""
        return _FORMATS[self.kind] | self.mode

    @property
    def st_ino(self) -> int:
        return self.number

    @property
    def st_nlink(self) -> int:
        return self.links

    @property
    def st_size(self) -> int:
        return self.size

    @property
    def st_uid(self) -> int:
        return self.owner

    @property
    def st_gid(self) -> int:
        return self.group

    @property
    def st_mtime(self) -> float | None:
        """The time in seconds, or None if there is none."""
        return None if self.time_ns is None else self.time_ns / 1e9

    @property
    def st_mtime_ns(self) -> int | None:
        """The time in nanoseconds, or None if there is none."""
        return self.time_ns


def info_of(answer: Answer) -> Info:
    """Returns the status in an answer."""
    _, kind, _, number, links, size, mode, owner, group, has_time, seconds, rest, _ = answer
    time_ns = seconds * 1_000_000_000 + rest if has_time else None
    return _made(Info, (_KINDS[kind], number, links, size, mode, owner, group, time_ns))


class Entry(Generic[Name]):
    """A name of a directory, as `os.DirEntry` is one: `name`, `path`, and what it leads to."""

    __slots__ = ("name", "path", "_calls", "_kind")

    def __init__(self, calls: Calls, folder: Name, name: Name, kind: int) -> None:
        self.name: Name = name
        self.path: Name = os.path.join(folder, name)
        self._calls = calls
        self._kind = kind

    def __repr__(self) -> str:
        return f"<Entry {self.name!r}{_OF_KIND.get(self._kind, '')}>"

    def __fspath__(self) -> Name:
        return self.path

    def is_dir(self, *, follow_symlinks: bool = True) -> bool:
        """Whether it was a directory when the names were listed, or, if symbolic links are
        followed, a symbolic link that leads to one now."""
        if self.is_symlink() and follow_symlinks:
            return self._calls.isdir(self.path)
        return self._kind == DIR

    def is_file(self, *, follow_symlinks: bool = True) -> bool:
        """Whether it was a file when the names were listed, or, if symbolic links are followed, a
        symbolic link that leads to one now."""
        if self.is_symlink() and follow_symlinks:
            return self._calls.isfile(self.path)
        return self._kind == FILE

    def is_symlink(self) -> bool:
        """Whether it was a symbolic link when the names were listed."""
        return self._kind == LINK

    def stat(self, *, follow_symlinks: bool = True) -> Info:
        """Returns the status of what it leads to now. Raises what `Transaction.stat` raises."""
        return self._calls.stat(self.path, follow_symlinks=follow_symlinks)
