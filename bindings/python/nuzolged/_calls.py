"""The calls on paths."""
from __future__ import annotations

import ctypes
import errno
import os
import sys
from typing import IO, TYPE_CHECKING, Any, BinaryIO, TextIO, overload

from . import _file, _library
from ._attributes import DIRECTORY_MODE, Nanoseconds, Times, mode_of, owner_of, time_of
from ._errors import AnyPath
from ._library import Answer
from ._session import NAMES_ROOM, Parts, Session
from ._told import Entry, Info, info_of

if TYPE_CHECKING:
    from ._modes import BinaryMode, TextMode
    from ._transaction import Transaction


#: How the system encodes names.
_ENCODING, _ERRORS = sys.getfilesystemencoding(), sys.getfilesystemencodeerrors()

#: The longest target of a symbolic link.
_LONGEST_TARGET = 4095

#: The errnos of a path that leads to nothing.
_LEADS_NOWHERE = (errno.ENOENT, errno.ENOTDIR, errno.ELOOP, errno.ENAMETOOLONG)


def encoded(path: AnyPath) -> bytes:
    """A path in bytes, as `os.fsencode` gives it, which takes twice as long."""
    return path.encode(_ENCODING, _ERRORS) if type(path) is str else os.fsencode(path)


class Calls:
    """The calls of a transaction. A call that fails raises the OSError of its errno with the
    filename. A blocked call raises `Waits`, and `Refused` means that the transaction has ended. A
    path with a null byte is a ValueError."""

    #: The number of the transaction that makes the calls, and its tree.
    number: int
    session: Session
    #: How many seconds a blocked call waits for others to end; with None, without a limit.
    timeout: float | None

    @property
    def transaction(self) -> Transaction:
        """The transaction that makes the calls."""
        raise NotImplementedError

    def _ask(
        self,
        function: str,
        *args: object,
        paths: tuple[AnyPath, ...] = (),
        parts: Parts = None,
    ) -> Answer:
        """Makes a request."""
        return self.session.ask((function, (self.number, *args)), paths, self.timeout, parts)

    def mkdir(self, path: AnyPath, mode: int = DIRECTORY_MODE, *, exist_ok: bool = False) -> None:
        """Makes a directory.

        Args:
            path: Its path. The directory above it must exist.
            mode: Its mode, at most 0o7777: there is no umask. The kind that `st_mode` also has is
                ignored.
            exist_ok: Whether it may exist already; then its mode stays.

        Raises:
            FileExistsError: The path leads to something; with `exist_ok`, to a file.
            FileNotFoundError: A directory above it is missing.
            OSError: EINVAL if the mode is above 0o7777.
        """
        bits = mode_of(mode)
        try:
            given = _library.DEFAULT_MODE if bits == DIRECTORY_MODE else bits
            self._on("nuz_mkdir", path, given)
        except FileExistsError:
            if not exist_ok or not self.isdir(path):
                raise

    def rmdir(self, path: AnyPath) -> None:
        """Removes an empty directory.

        Raises:
            OSError: ENOTEMPTY if it is not empty, EBUSY if it is the root.
            NotADirectoryError: The path leads to a file.
        """
        self._on("nuz_rmdir", path)

    @overload
    def scandir(self, path: bytes | os.PathLike[bytes]) -> list[Entry[bytes]]: ...

    @overload
    def scandir(self, path: str | os.PathLike[str] = "/") -> list[Entry[str]]: ...

    @overload
    def scandir(self, path: AnyPath) -> list[Entry[str]] | list[Entry[bytes]]: ...

    def scandir(self, path: AnyPath = "/") -> list[Entry[str]] | list[Entry[bytes]]:
        """Returns the names of a directory in the order of their bytes, each with what it leads to.
        They are bytes if the path is. All of them are of one moment."""
        names = self._names(path)
        folder = os.fspath(path)
        if isinstance(folder, bytes):
            return [Entry(self, folder, name, kind) for name, kind in names]
        return [Entry(self, folder, os.fsdecode(name), kind) for name, kind in names]

    @overload
    def listdir(self, path: bytes | os.PathLike[bytes]) -> list[bytes]: ...

    @overload
    def listdir(self, path: str | os.PathLike[str] = "/") -> list[str]: ...

    @overload
    def listdir(self, path: AnyPath) -> list[str] | list[bytes]: ...

    def listdir(self, path: AnyPath = "/") -> list[str] | list[bytes]:
        """Returns the names of a directory, in the order of their bytes. They are bytes if the path
        is."""
        names = [name for name, _ in self._names(path)]
        if isinstance(os.fspath(path), bytes):
            return names
        return [os.fsdecode(name) for name in names]

    def _names(self, path: AnyPath) -> list[tuple[bytes, int]]:
        """The names of a directory, each with its kind."""
        room = ctypes.create_string_buffer(NAMES_ROOM)
        take = self.transaction.session.take_names
        listed = self._on(
            "nuz_list_all", path, room, NAMES_ROOM, parts=lambda answer: take(answer, room)
        )
        return listed.names

    def stat(self, path: AnyPath, *, follow_symlinks: bool = True) -> Info:
        """Returns what a path leads to.

        Args:
            path: The path.
            follow_symlinks: Whether a last symbolic link is followed.

        Raises:
            FileNotFoundError: It leads to nothing.
            NotADirectoryError: It continues after a file.
            OSError: ELOOP if it leads through more than 40 symbolic links.
        """
        raw = encoded(path)
        request = "nuz_stat" if follow_symlinks else "nuz_lstat", (self.number, raw, len(raw))
        return info_of(self.session.ask(request, (path,), self.timeout))

    def lstat(self, path: AnyPath) -> Info:
        """Does the same as `stat`, but does not follow a last symbolic link."""
        return self.stat(path, follow_symlinks=False)

    def isdir(self, path: AnyPath) -> bool:
        """Returns whether a path leads to a directory."""
        found = self._found(path)
        return found is not None and found.is_dir()

    def isfile(self, path: AnyPath) -> bool:
        """Returns whether a path leads to a file."""
        found = self._found(path)
        return found is not None and found.is_file()

    def _found(self, path: AnyPath, follow_symlinks: bool = True) -> Info | None:
        """What a path leads to, if it leads to anything."""
        try:
            return self.stat(path, follow_symlinks=follow_symlinks)
        except OSError as error:
            if error.errno not in _LEADS_NOWHERE:
                raise
            return None

    def symlink(self, target: AnyPath, path: AnyPath) -> None:
        """Makes a symbolic link.

        Args:
            target: Its target. It stays as given, and need not lead to anything. A relative one
                begins in the directory of the link.
            path: Its path.

        Raises:
            FileExistsError: The path leads to something, or is a symbolic link.
            FileNotFoundError: A directory above it is missing, or the target is empty.
            OSError: ENAMETOOLONG if the target has more than 4,095 bytes.
        """
        self._on_both("nuz_symlink", target, path)

    @overload
    def readlink(self, path: bytes | os.PathLike[bytes]) -> bytes: ...

    @overload
    def readlink(self, path: str | os.PathLike[str]) -> str: ...

    @overload
    def readlink(self, path: AnyPath) -> str | bytes: ...

    def readlink(self, path: AnyPath) -> str | bytes:
        """Returns the target of a symbolic link. It is bytes if the path is.

        Raises:
            OSError: EINVAL if it is no symbolic link.
        """
        room = ctypes.create_string_buffer(_LONGEST_TARGET)
        size = self._on("nuz_readlink", path, room, _LONGEST_TARGET).number
        target = room.raw[:size]
        return target if isinstance(os.fspath(path), bytes) else os.fsdecode(target)

    def unlink(self, path: AnyPath) -> None:
        """Removes a name of a file or symbolic link. A file lives while it has another, or is open.

        Raises:
            PermissionError: The path leads to a directory.
        """
        self._on("nuz_unlink", path)

    def chmod(self, path: AnyPath, mode: int) -> None:
        """Sets the mode of a file or directory. A last symbolic link is followed: the mode of a
        link is always 0o777. In the tree a mode forbids nothing.

        Args:
            path: Its path.
            mode: At most 0o7777; the kind that `st_mode` also has is ignored.

        Raises:
            OSError: EINVAL if the mode is above 0o7777.
        """
        self._on("nuz_chmod", path, mode_of(mode))

    def fchmod(self, file: Any, mode: int) -> None:
        """Sets the mode of an open file, as `chmod` does."""
        _file.below(file)._ask_by(self, "nuz_fchmod", mode_of(mode))

    def chown(
        self, path: AnyPath, uid: int, gid: int, *, follow_symlinks: bool = True
    ) -> None:
        """Sets the owner and the group of a file or directory. The mode stays, even the bits by
        which a file runs as its owner or group.

        Args:
            path: Its path.
            uid: The owner; with -1 it stays.
            gid: The group; with -1 it stays.
            follow_symlinks: Whether a last symbolic link is followed.

        Raises:
            OSError: EINVAL if a symbolic link that is not followed would get another owner or
                group: they are 0.
            OverflowError: The owner or the group is no number below 2^32 - 1, and not -1.
        """
        function = "nuz_chown" if follow_symlinks else "nuz_lchown"
        self._on(function, path, owner_of(uid), owner_of(gid))

    def lchown(self, path: AnyPath, uid: int, gid: int) -> None:
        """Does the same as `chown`, but does not follow a last symbolic link."""
        self.chown(path, uid, gid, follow_symlinks=False)

    def fchown(self, file: Any, uid: int, gid: int) -> None:
        """Sets the owner and the group of an open file, as `chown` does."""
        _file.below(file)._ask_by(self, "nuz_fchown", owner_of(uid), owner_of(gid))

    def utime(
        self,
        path: AnyPath,
        times: Times = None,
        *,
        ns: Nanoseconds = None,
        follow_symlinks: bool = True,
    ) -> None:
        """Sets the time of a file's bytes. A later call that writes to the file, or sets its
        length, removes the time, even if the bytes stay the same. A tree reads no clock: if nobody
        gave a file a time, it has none.

        Args:
            path: Its path.
            times: The time of access, which is not kept, and that of the bytes, in seconds.
            ns: The same in nanoseconds. If neither is given, the time is that of this call.
            follow_symlinks: Whether a last symbolic link is followed.

        Raises:
            OSError: EINVAL if it is a directory, or a symbolic link that is not followed: they have
                no time.
        """
        function = "nuz_utime" if follow_symlinks else "nuz_lutime"
        self._on(function, path, *time_of(times, ns))

    def futime(self, file: Any, times: Times = None, *, ns: Nanoseconds = None) -> None:
        """Sets the time of an open file's bytes, as `utime` does. Its buffer is written first; a
        later write removes the time."""
        _file.below(file)._ask_by(self, "nuz_futime", *time_of(times, ns))

    def truncate(self, path: AnyPath, size: int) -> None:
        """Cuts a file to `size` bytes, or adds zeros up to them. A last symbolic link is followed.

        Raises:
            OSError: EINVAL if the size is below 0, EFBIG if it is above the limit.
            IsADirectoryError: The path leads to a directory.
        """
        self._on("nuz_truncate", path, _library.signed(size))

    def link(self, old: AnyPath, new: AnyPath) -> None:
        """Gives a file or symbolic link another name, besides those that it has.

        Raises:
            FileExistsError: The new path leads to something.
            PermissionError: The old path leads to a directory.
            OSError: EMLINK if the file has as many names as it may.
        """
        self._on_both("nuz_link", old, new)

    def rename(self, old: AnyPath, new: AnyPath) -> None:
        """Gives a file, a symbolic link or a directory a new name, and replaces what had that name.

        Raises:
            OSError: ENOTEMPTY if the new path leads to a directory that is not empty, EINVAL if it
                is below the old one.
            IsADirectoryError: A file would take the place of a directory.
        """
        self._on_both("nuz_rename", old, new)

    @overload
    def open(
        self,
        path: AnyPath,
        mode: TextMode = "r",
        buffering: int = -1,
        encoding: str | None = None,
        errors: str | None = None,
        newline: str | None = None,
        *,
        permissions: int | None = None,
    ) -> TextIO: ...

    @overload
    def open(
        self,
        path: AnyPath,
        mode: BinaryMode,
        buffering: int = -1,
        *,
        permissions: int | None = None,
    ) -> BinaryIO: ...

    @overload
    def open(
        self,
        path: AnyPath,
        mode: str,
        buffering: int = -1,
        encoding: str | None = None,
        errors: str | None = None,
        newline: str | None = None,
        *,
        permissions: int | None = None,
    ) -> IO[Any]: ...

    def open(
        self,
        path: AnyPath,
        mode: str = "r",
        buffering: int = -1,
        encoding: str | None = None,
        errors: str | None = None,
        newline: str | None = None,
        *,
        permissions: int | None = None,
    ) -> IO[Any]:
        """Opens a file, as Python's `open` does, with the classes of `io`.

        The file is only in the tree: it has no `fileno`, so no other process can have it, as by
        `subprocess`, and no `mmap`.

        Args:
            path: Its path.
            mode: As of Python's `open`.
            buffering: 0 for no buffer, 1 for lines of text, more for so many bytes.
            encoding: For a text; UTF-8 if none is given.
            errors: For a text, as of Python's `open`.
            newline: For a text, as of Python's `open`.
            permissions: Those of a file that is made (`mode` of `os.open`): 0o644 if none are
                given. There is no umask. An existing file keeps its own.

        Raises:
            FileNotFoundError, FileExistsError, IsADirectoryError: As of Python's `open`.
            OSError: EINVAL if the permissions are above 0o7777.
            ValueError: The mode is not valid.
        """
        text = (encoding, errors, newline)
        return _file.opened(self, path, mode, buffering, text, permissions)

    def _on(
        self, function: str, path: AnyPath, *args: object, parts: Parts = None
    ) -> Answer:
        raw = encoded(path)
        request = function, (self.number, raw, len(raw), *args)
        return self.session.ask(request, (path,), self.timeout, parts)

    def _on_both(self, function: str, old: AnyPath, new: AnyPath) -> Answer:
        a, b = encoded(old), encoded(new)
        return self._ask(function, a, len(a), b, len(b), paths=(old, new))
