"""fsspec: a file system over a transaction. `with fs.transaction:` is a step. If an exception
leaves it, the step undoes everything, even `mkdir`, `mv` and `rm`.

    fs = fsspec.filesystem("nuzolged", transaction=job)
    fsspec.open("nuzolged:///out/log", "wb", transaction=job)

Without a transaction, each file system has a new tree of its own.
"""
from __future__ import annotations

import datetime
import io
import os
import posixpath
from typing import Any

from fsspec import AbstractFileSystem  # type: ignore[import]
from fsspec.transaction import Transaction as FsspecTransaction  # type: ignore[import]

from ._told import Info
from ._transaction import Transaction
from ._tree import Tree


class Step(FsspecTransaction):  # type: ignore[misc]
    """fsspec's transaction, as a step."""

    def start(self) -> None:
        self.fs.begin_step()

    def complete(self, commit: bool = True) -> None:
        self.fs.end_step(commit)


class Own(Transaction):
    """The transaction of a file system that was given none. Nobody is expected to commit it."""

    def _warn(self) -> None:
        pass


class Reader(io.BufferedReader):
    """A file that is read, and has its size, by which fsspec finds the end."""

    @property
    def size(self) -> int:
        here = self.tell()
        end = self.seek(0, os.SEEK_END)
        self.seek(here)
        return end


class NuzolgedFileSystem(AbstractFileSystem):  # type: ignore[misc]
    """The file system of a transaction; of a transaction of a new tree, if none is given."""

    protocol = "nuzolged"
    root_marker = "/"
    cachable = False
    transaction_type = Step

    def __init__(self, transaction: Transaction | None = None, **options: Any) -> None:
        super().__init__(**options)
        self._steps = [transaction or Own(Tree(), None, 0)]

    @property
    def at(self) -> Transaction:
        """The innermost transaction, which makes the calls."""
        return self._steps[-1]

    @property
    def transaction(self) -> FsspecTransaction:
        return Step(self)

    def start_transaction(self) -> FsspecTransaction:
        step = Step(self)
        step.start()
        return step

    def end_transaction(self) -> None:
        self.end_step(True)

    def begin_step(self) -> None:
        self._steps.append(self.at.begin())

    def end_step(self, commit: bool) -> None:
        step = self._steps.pop()
        if not commit:
            step.abort()
            return
        with step:  # which is aborted if it can't be committed
            pass

    @classmethod
    def _strip_protocol(cls, path: Any) -> Any:
        if isinstance(path, list):
            return [cls._strip_protocol(each) for each in path]
        name = os.fspath(path)
        prefix = f"{cls.protocol}://"
        return "/" + (name[len(prefix) :] if name.startswith(prefix) else name).strip("/")

    @staticmethod
    def _told(path: str, info: Info) -> dict[str, Any]:
        kind, is_link = "directory" if info.is_dir() else info.kind, info.is_symlink()
        told = {"name": path, "size": info.size, "type": kind, "islink": is_link}
        told |= {"ino": info.number, "nlink": info.links, "mode": info.st_mode}
        return {**told, "uid": info.owner, "gid": info.group, "mtime": info.st_mtime}

    def info(self, path: str, **_: Any) -> dict[str, Any]:
        """Returns the status of a path. A last symbolic link is not followed, so that `walk`, `rm`
        and `copy` never leave a directory through one."""
        path = self._strip_protocol(path)
        told = self._told(path, self.at.lstat(path))
        return {**told, "destination": self.at.readlink(path)} if told["islink"] else told

    def exists(self, path: str, **_: Any) -> bool:
        return self.at.exists(self._strip_protocol(path))

    def isdir(self, path: str) -> bool:
        return self.at.isdir(self._strip_protocol(path))

    def isfile(self, path: str) -> bool:
        return self.at.isfile(self._strip_protocol(path))

    def islink(self, path: str) -> bool:
        return self.at.islink(self._strip_protocol(path))

    def ls(self, path: str, detail: bool = True, **_: Any) -> list[Any]:
        path = self._strip_protocol(path)
        info = self.info(path)
        if not self.at.isdir(path):
            return [info] if detail else [path]
        names = [posixpath.join(path, name) for name in self.at.listdir(path)]
        return [self.info(name) for name in names] if detail else names

    def mkdir(self, path: str, create_parents: bool = True, **_: Any) -> None:
        path = self._strip_protocol(path)
        if create_parents:
            self.at.makedirs(path)
        else:
            self.at.mkdir(path)

    def makedirs(self, path: str, exist_ok: bool = False) -> None:
        self.at.makedirs(self._strip_protocol(path), exist_ok=exist_ok)

    def rmdir(self, path: str) -> None:
        self.at.rmdir(self._strip_protocol(path))

    def _rm(self, path: str) -> None:
        path = self._strip_protocol(path)
        if self.at.lstat(path).is_dir():
            self.at.rmdir(path)
        else:
            self.at.unlink(path)

    def mv(self, path1: str, path2: str, **_: Any) -> None:
        self.at.rename(self._strip_protocol(path1), self._strip_protocol(path2))

    def cp_file(self, path1: str, path2: str, **_: Any) -> None:
        old, new = self._strip_protocol(path1), self._strip_protocol(path2)
        if self.at.lstat(old).is_dir():
            self.at.makedirs(new, exist_ok=True)
        else:
            self.at.copyfile(old, new, follow_symlinks=False)

    def touch(self, path: str, truncate: bool = True, **_: Any) -> None:
        """Makes an empty file. An existing one is emptied, or else gets the present time."""
        path = self._strip_protocol(path)
        if not truncate and self.at.exists(path):
            self.at.utime(path)
        else:
            self.at.write_bytes(path, b"")

    def modified(self, path: str) -> datetime.datetime | None:
        """The time of a file's bytes, if it has one."""
        time = self.at.stat(self._strip_protocol(path)).st_mtime
        utc = datetime.timezone.utc
        return None if time is None else datetime.datetime.fromtimestamp(time, utc)

    def _open(self, path: str, mode: str = "rb", **_: Any) -> Any:
        path = self._strip_protocol(path)
        if mode == "rb":
            raw: Any = self.at.open(path, "rb", 0)
            return Reader(raw)
        return self.at.open(path, mode)
