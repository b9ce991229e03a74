"""Paths with the methods of `pathlib`."""
from __future__ import annotations

import os
from pathlib import PurePosixPath
from typing import IO, TYPE_CHECKING, Any, Iterator, Union

from ._attributes import DIRECTORY_MODE
from ._errors import AnyPath
from ._told import Info

if TYPE_CHECKING:
    from ._whole import Whole

Part = Union[str, "os.PathLike[str]"]


class Path:
    """A path of a tree, by which a transaction makes calls: `transaction.path("/a") / "b"`.

    Its names come from `pathlib.PurePosixPath`, and its calls from the transaction.
    """

    __slots__ = ("_calls", "_pure")

    def __init__(self, calls: Whole, *parts: Part) -> None:
        self._calls = calls
        self._pure = PurePosixPath(*parts)

    def _with(self, pure: PurePosixPath) -> Path:
        return Path(self._calls, pure)

    def __fspath__(self) -> str:
        return str(self._pure)

    def __str__(self) -> str:
        return str(self._pure)

    def __repr__(self) -> str:
        return f"<Path {str(self._pure)!r} of {self._calls!r}>"

    def __eq__(self, other: object) -> bool:
        if not isinstance(other, Path):
            return NotImplemented
        return self._key() == other._key()

    def __hash__(self) -> int:
        return hash(self._key())

    def __lt__(self, other: Path) -> bool:
        return self._pure < other._pure

    def _key(self) -> tuple[int, PurePosixPath]:
        return id(self._calls.transaction), self._pure

    def __truediv__(self, part: Part) -> Path:
        return self._with(self._pure / part)

    def joinpath(self, *parts: Part) -> Path:
        return self._with(self._pure.joinpath(*parts))

    @property
    def name(self) -> str:
        return self._pure.name

    @property
    def stem(self) -> str:
        return self._pure.stem

    @property
    def suffix(self) -> str:
        return self._pure.suffix

    @property
    def suffixes(self) -> list[str]:
        return self._pure.suffixes

    @property
    def parts(self) -> tuple[str, ...]:
        return self._pure.parts

    @property
    def parent(self) -> Path:
        return self._with(self._pure.parent)

    @property
    def parents(self) -> list[Path]:
        return [self._with(pure) for pure in self._pure.parents]

    def with_name(self, name: str) -> Path:
        return self._with(self._pure.with_name(name))

    def with_stem(self, stem: str) -> Path:
        return self._with(self._pure.with_stem(stem))

    def with_suffix(self, suffix: str) -> Path:
        return self._with(self._pure.with_suffix(suffix))

    def relative_to(self, other: Part) -> PurePosixPath:
        return self._pure.relative_to(other)

    def is_relative_to(self, other: Part) -> bool:
        return self._pure.is_relative_to(other)

    def is_absolute(self) -> bool:
        return self._pure.is_absolute()

    def as_posix(self) -> str:
        return self._pure.as_posix()

    def match(self, pattern: str) -> bool:
        return self._pure.match(pattern)

    def stat(self, *, follow_symlinks: bool = True) -> Info:
        return self._calls.stat(self, follow_symlinks=follow_symlinks)

    def lstat(self) -> Info:
        return self._calls.lstat(self)

    def exists(self, *, follow_symlinks: bool = True) -> bool:
        return self._calls.exists(self) if follow_symlinks else self._calls.lexists(self)

    def is_dir(self) -> bool:
        return self._calls.isdir(self)

    def is_file(self) -> bool:
        return self._calls.isfile(self)

    def is_symlink(self) -> bool:
        return self._calls.islink(self)

    def readlink(self) -> Path:
        """Returns the target of a symbolic link, as a path."""
        return self._with(PurePosixPath(self._calls.readlink(str(self._pure))))

    def resolve(self) -> Path:
        """The same as `Transaction.realpath`."""
        return self._with(PurePosixPath(self._calls.realpath(self)))

    def samefile(self, other: AnyPath) -> bool:
        return self.stat().number == self._calls.stat(other).number

    def iterdir(self) -> Iterator[Path]:
        """Returns the paths in a directory, in the order of the bytes of their names."""
        return (self / name for name in self._calls.listdir(str(self._pure)))

    def glob(self, pattern: str) -> list[Path]:
        """Returns the paths below it that match a pattern, in order, as `Transaction.glob` does."""
        found = self._calls.glob(str(self._pure / pattern))
        return [self._with(PurePosixPath(path)) for path in found]

    def rglob(self, pattern: str) -> list[Path]:
        return self.glob(f"**/{pattern}")

    def mkdir(
        self, mode: int = DIRECTORY_MODE, parents: bool = False, exist_ok: bool = False
    ) -> None:
        make = self._calls.makedirs if parents else self._calls.mkdir
        make(self, mode, exist_ok=exist_ok)

    def touch(self, mode: int = 0o644, exist_ok: bool = True) -> None:
        """Makes an empty file, if it is missing. An existing file keeps its time."""
        self.open("ab" if exist_ok else "xb", 0, permissions=mode).close()

    def chmod(self, mode: int) -> None:
        self._calls.chmod(self, mode)

    def rmdir(self) -> None:
        self._calls.rmdir(self)

    def unlink(self, missing_ok: bool = False) -> None:
        try:
            self._calls.unlink(self)
        except FileNotFoundError:
            if not missing_ok:
                raise

    def rename(self, target: AnyPath) -> Path:
        """Gives it another name, replaces what had that name, and returns the new path."""
        self._calls.rename(self, target)
        return self._with(PurePosixPath(os.fsdecode(target)))

    def replace(self, target: AnyPath) -> Path:
        return self.rename(target)

    def symlink_to(self, target: AnyPath) -> None:
        """Makes it a symbolic link that leads to `target`."""
        self._calls.symlink(target, self)

    def hardlink_to(self, target: AnyPath) -> None:
        """Makes it another name of the file `target`."""
        self._calls.link(target, self)

    def open(
        self,
        mode: str = "r",
        buffering: int = -1,
        encoding: str | None = None,
        errors: str | None = None,
        newline: str | None = None,
        *,
        permissions: int | None = None,
    ) -> IO[Any]:
        text = (encoding, errors, newline)
        return self._calls.open(self, mode, buffering, *text, permissions=permissions)

    def read_bytes(self) -> bytes:
        return self._calls.read_bytes(self)

    def read_text(self, encoding: str = "utf-8", errors: str = "strict") -> str:
        return self._calls.read_text(self, encoding, errors)

    def write_bytes(self, data: bytes) -> int:
        self._calls.write_bytes(self, data)
        return len(data)

    def write_text(self, text: str, encoding: str = "utf-8", errors: str = "strict") -> int:
        self._calls.write_text(self, text, encoding, errors)
        return len(text)
