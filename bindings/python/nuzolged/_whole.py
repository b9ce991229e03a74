"""Functions that make several calls. If one of these fails, the calls before it are not undone: to
have all or nothing, use a step."""
from __future__ import annotations

import errno
import fnmatch
import os
import posixpath
import shutil
from typing import Iterator

from . import _file
from ._attributes import DIRECTORY_MODE
from ._calls import Calls
from ._errors import AnyPath, os_error
from ._path import Path
from ._told import Entry, Info

#: The most symbolic links through which one path leads.
_MOST_FOLLOWED = 40

#: The characters by which a part of a pattern matches other names.
_MAGIC = frozenset("*?[")


class Whole(Calls):
    """Calls on whole files and trees."""

    def path(self, path: AnyPath = "/") -> Path:
        """Returns a path with the methods of `pathlib.Path`, whose calls this transaction makes."""
        return Path(self, os.fsdecode(path))

    def exists(self, path: AnyPath) -> bool:
        """Returns whether a path leads to anything."""
        return self._found(path) is not None

    def lexists(self, path: AnyPath) -> bool:
        """Returns whether a path leads to anything, even if that is a link to nothing."""
        return self._found(path, follow_symlinks=False) is not None

    def islink(self, path: AnyPath) -> bool:
        """Returns whether a path leads to a symbolic link."""
        found = self._found(path, follow_symlinks=False)
        return found is not None and found.is_symlink()

    def realpath(self, path: AnyPath) -> str:
        """Returns the path from the root to what a path leads to, without symbolic links, `.` and
        `..`, as `os.path.realpath` does. Missing parts stay as they are.

        Raises:
            OSError: ELOOP if it leads through more than 40 symbolic links.
        """
        real, left, followed = "/", os.fsdecode(path).split("/")[::-1], 0
        while left:
            name = left.pop()
            here = posixpath.normpath(posixpath.join(real, name))
            target = self._target(here) if name not in ("", ".", "..") else None
            if target is None:
                real = here
                continue
            followed += 1
            if followed > _MOST_FOLLOWED:
                raise os_error(errno.ELOOP, path)
            real = "/" if target.startswith("/") else real
            left += target.split("/")[::-1]
        return real

    def _target(self, path: str) -> str | None:
        """The target of a path that is a symbolic link."""
        return self.readlink(path) if self.islink(path) else None

    def makedirs(
        self, path: AnyPath, mode: int = DIRECTORY_MODE, exist_ok: bool = False
    ) -> None:
        """Makes a directory and those above it, if they are missing.

        Args:
            path: Its path.
            mode: Its mode; those above it have that of a new directory.
            exist_ok: Whether it may exist already, as those above it may.

        Raises:
            FileExistsError: It is there already; with `exist_ok`, it is a file.
        """
        whole = os.fsdecode(path).rstrip("/")
        above = posixpath.dirname(whole)
        if above.strip("/") and not self.exists(above):
            self.makedirs(above, exist_ok=True)
        self.mkdir(path, mode, exist_ok=exist_ok)

    def read_bytes(self, path: AnyPath) -> bytes:
        """Returns all bytes of a file."""
        with self._raw(path, "rb") as file:
            return file.read_whole()

    def read_text(self, path: AnyPath, encoding: str = "utf-8", errors: str = "strict") -> str:
        """Returns all of a file, as text."""
        with self.open(path, "r", -1, encoding, errors) as file:
            return file.read()

    def write_bytes(self, path: AnyPath, data: bytes) -> None:
        """Makes a file with these bytes, or replaces the bytes of an existing one."""
        view = memoryview(data)
        with self._raw(path, "wb") as file:
            file.write_all(view)

    def write_text(
        self, path: AnyPath, text: str, encoding: str = "utf-8", errors: str = "strict"
    ) -> None:
        """Makes a file with a text, or replaces the bytes of an existing one."""
        self.write_bytes(path, text.encode(encoding, errors))

    def _raw(self, path: AnyPath, mode: str, permissions: int | None = None) -> _file.RawFile:
        return _file.RawFile(self, path, mode, permissions)

    def remove(self, path: AnyPath) -> None:
        """Does the same as `unlink`."""
        self.unlink(path)

    def replace(self, old: AnyPath, new: AnyPath) -> None:
        """Does the same as `rename`, which replaces what has the new name."""
        self.rename(old, new)

    def walk(
        self, top: AnyPath = "/", topdown: bool = True, followlinks: bool = False
    ) -> Iterator[tuple[str, list[str], list[str]]]:
        """Yields the directories at and below `top`, as `os.walk` does: the path of each, the names
        of directories in it, and those of files. With `topdown`, a name that you remove from the
        second list is passed over.

        A symbolic link to a directory is among the names of directories. The walk enters it only
        with `followlinks`, and then enters one that leads back up again and again.

        Raises:
            OSError: A directory can not be listed, for example if there is none at `top`; `os.walk`
                passes over that.
        """
        here = os.fsdecode(top)
        folders: list[str] = []
        files: list[str] = []
        passed_over: set[str] = set()
        for entry in self.scandir(here):
            (folders if entry.is_dir() else files).append(entry.name)
            if entry.is_symlink() and not followlinks:
                passed_over.add(entry.name)
        if topdown:
            yield here, folders, files
        for name in folders:
            if name not in passed_over:
                yield from self.walk(os.path.join(here, name), topdown, followlinks)
        if not topdown:
            yield here, folders, files

    def glob(self, pattern: AnyPath) -> list[str]:
        """Returns the paths that match a pattern, in order, as `glob.glob` does. `**` is any number
        of directories, none of them through a symbolic link. A name that begins with a dot matches
        only a pattern that begins with a dot."""
        parts = [part for part in os.fsdecode(pattern).split("/") if part]
        top = "/" if os.fsdecode(pattern).startswith("/") else ""
        return sorted(set(self._fitting(top, parts)))

    def _fitting(self, folder: str, parts: list[str]) -> Iterator[str]:
        """The paths below a folder that fit the parts of a pattern."""
        if not parts:
            yield folder
        elif parts[0] == "**":
            yield from self._fitting_at_any_depth(folder, parts)
        elif not _MAGIC & set(parts[0]):
            path = os.path.join(folder, parts[0])
            if self.isdir(path) if parts[1:] else self.lexists(path):
                yield from self._fitting(path, parts[1:])
        else:
            for entry in self.scandir(folder or "/"):
                if _fits(entry.name, parts[0]) and (not parts[1:] or entry.is_dir()):
                    yield from self._fitting(os.path.join(folder, entry.name), parts[1:])

    def _fitting_at_any_depth(self, folder: str, parts: list[str]) -> Iterator[str]:
        yield from self._fitting(folder, parts[1:])
        for entry in self.scandir(folder or "/"):
            path = os.path.join(folder, entry.name)
            if entry.is_dir(follow_symlinks=False) and _fits(entry.name, "*"):
                yield from self._fitting_at_any_depth(path, parts)
            elif not parts[1:] and _fits(entry.name, "*"):
                yield path

    def rmtree(self, path: AnyPath) -> None:
        """Removes a directory with everything below it. Symbolic links are removed, but not what
        they lead to.

        Raises:
            NotADirectoryError: The path leads to a file, or is a symbolic link.
        """
        if self.islink(path):
            raise os_error(errno.ENOTDIR, path)
        for entry in self.scandir(path):
            if entry.is_dir(follow_symlinks=False):
                self.rmtree(entry.path)
            else:
                self.unlink(entry.path)
        self.rmdir(path)

    def copyfile(self, old: AnyPath, new: AnyPath, *, follow_symlinks: bool = True) -> None:
        """Gives a file, which is made if it is missing, the bytes of another. A new file has mode
        0o644, and an existing one keeps its own.

        Args:
            old: The file.
            new: The path of the copy. A symbolic link there is followed.
            follow_symlinks: Whether to copy the bytes of what a symbolic link leads to; otherwise
                such a link is made.

        Raises:
            shutil.SameFileError: Both paths lead to the same file.
        """
        if not follow_symlinks and self.islink(old):
            self.symlink(self.readlink(old), new)
            return
        found = self._found(new)
        if found and found.number == self.stat(old).number:
            raise shutil.SameFileError(f"{old!r} and {new!r} are the same file")
        with self._raw(old, "rb") as source, self._raw(new, "wb") as target:
            for piece in source.pieces():
                target.write_all(piece)

    def copy(self, old: AnyPath, new: AnyPath, *, follow_symlinks: bool = True) -> str:
        """Copies a file with its mode, into `new` if that is a directory, and returns the path of
        the copy. Otherwise it is like `copyfile`."""
        return self._copy(old, new, follow_symlinks, with_time=False)

    def copy2(self, old: AnyPath, new: AnyPath, *, follow_symlinks: bool = True) -> str:
        """Does the same, and also copies the time, if there is one."""
        return self._copy(old, new, follow_symlinks, with_time=True)

    def _copy(self, old: AnyPath, new: AnyPath, follow_symlinks: bool, with_time: bool) -> str:
        target = os.fsdecode(new)
        if self.isdir(target):
            target = os.path.join(target, posixpath.basename(os.fsdecode(old)))
        if not follow_symlinks and self.islink(old):
            self.copyfile(old, target, follow_symlinks=False)
        else:
            self._copied(old, target, with_time)
        return target

    def _copied(self, old: AnyPath, new: str, with_time: bool) -> None:
        """Copies a file with its mode, and with its time, if it has one and that is asked for."""
        told = self.stat(old)
        self.copyfile(old, new)
        self.chmod(new, told.mode)
        if with_time and told.time_ns is not None:
            self.utime(new, ns=(told.time_ns, told.time_ns))

    def copytree(self, old: AnyPath, new: AnyPath, dirs_exist_ok: bool = False) -> None:
        """Copies a directory with everything below it, as `copy2` copies each file. Files with
        several names below it keep them, and symbolic links stay symbolic links, with the same
        targets.

        Args:
            old: The directory.
            new: The path of the copy.
            dirs_exist_ok: Whether directories may exist already; files and symbolic links are
                then replaced.

        Raises:
            OSError: EINVAL if the copy would be below the directory.
            FileExistsError: The copy exists already.
        """
        source, target = os.fsdecode(old), os.fsdecode(new)
        if _below(self.realpath(target)).startswith(_below(self.realpath(source))):
            raise os_error(errno.EINVAL, old, new)
        self._copy_folder(source, target, dirs_exist_ok, {})

    def _copy_folder(self, old: str, new: str, exist_ok: bool, names: dict[int, str]) -> None:
        entries = self.scandir(old)
        self.makedirs(new, exist_ok=exist_ok)
        self.chmod(new, self.stat(old).mode)
        for entry in entries:
            to = os.path.join(new, entry.name)
            if entry.is_dir(follow_symlinks=False):
                self._copy_folder(entry.path, to, exist_ok, names)
            else:
                self._copy_or_link(entry, to, names)

    def _copy_or_link(self, entry: Entry[str], new: str, names: dict[int, str]) -> None:
        """Copies a file or symbolic link, or makes a further name of the copy."""
        if entry.is_symlink() or self.islink(new):
            self._make_room(new)
        first = names.setdefault(entry.stat(follow_symlinks=False).number, new)
        if first != new:
            self.link(first, new)
        elif entry.is_symlink():
            self.symlink(self.readlink(entry.path), new)
        else:
            self._copied(entry.path, new, with_time=True)

    def _make_room(self, path: str) -> None:
        """Removes a file or symbolic link, if there is one."""
        if self.lexists(path):
            self.unlink(path)

    def move(self, old: AnyPath, new: AnyPath) -> str:
        """Moves a file or a directory, into `new` if that is a directory, and returns its new
        path."""
        target = os.fsdecode(new)
        if self.isdir(target):
            target = os.path.join(target, posixpath.basename(os.fsdecode(old).rstrip("/")))
            if self.lexists(target):
                raise os_error(errno.EEXIST, target)
        self.rename(old, target)
        return target


def _below(folder: str) -> str:
    """What the paths at and below a folder begin with, if a slash follows each."""
    return folder.rstrip("/") + "/"


def _fits(name: str, pattern: str) -> bool:
    return fnmatch.fnmatchcase(name, pattern) and (pattern[0] == "." or name[0] != ".")
