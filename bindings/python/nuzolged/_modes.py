"""The modes of `open`."""
from __future__ import annotations

import functools
from typing import Literal, NamedTuple

from . import _library

TextMode = Literal[
    "r", "w", "a", "x", "r+", "w+", "a+", "x+", "rt", "wt", "at", "xt", "r+t", "w+t", "a+t", "x+t"
]
BinaryMode = Literal["rb", "wb", "ab", "xb", "r+b", "w+b", "a+b", "x+b", "rb+", "wb+", "ab+", "xb+"]


class Mode(NamedTuple):
    """The meaning of a mode of `open`."""

    is_text: bool
    reads: bool
    writes: bool
    creates: bool
    is_new: bool
    cuts: bool
    appends: bool

    @classmethod
    @functools.lru_cache(maxsize=64)
    def of(cls, mode: str) -> Mode:
        """The meaning of a mode, as of Python's `open`."""
        letters = set(mode)
        kind = letters & set("rwax")
        is_plain = len(letters) == len(mode) and letters <= set("rwax+bt")
        if not is_plain or len(kind) != 1 or letters >= set("bt"):
            raise ValueError(f"invalid mode: {mode!r}")
        plus = "+" in letters
        return cls(
            is_text="b" not in letters,
            reads="r" in kind or plus,
            writes="r" not in kind or plus,
            creates="r" not in kind,
            is_new="x" in kind,
            cuts="w" in kind,
            appends="a" in kind,
        )

    @property
    def flags(self) -> int:
        """The flags as the library takes them."""
        flags = self._access
        flags |= _library.CREATE if self.creates else 0
        flags |= _library.EXCL if self.is_new else 0
        flags |= _library.TRUNC if self.cuts else 0
        return flags | (_library.APPEND if self.appends else 0)

    @property
    def _access(self) -> int:
        if self.reads and self.writes:
            return _library.READ_WRITE
        return _library.WRITE_ONLY if self.writes else _library.READ_ONLY

    @property
    def raw_name(self) -> str:
        """The mode as the `mode` of a file without a buffer."""
        kind = "x" if self.is_new else "a" if self.appends else "w" if self.cuts else "r"
        return kind + "b" + ("+" if self.reads and self.writes else "")
