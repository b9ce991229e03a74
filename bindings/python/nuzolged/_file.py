"""Open files, by the classes of `io`."""
from __future__ import annotations

import ctypes
import io
import os
import weakref
from typing import IO, TYPE_CHECKING, Any, Iterator, Optional

from . import _library
from ._attributes import mode_of
from ._errors import AnyPath, Refused
from ._library import Answer
from ._modes import Mode
from ._told import Info, info_of

if TYPE_CHECKING:
    from ._calls import Calls


#: A file of fewer bytes is read whole by one call.
_SMALL = 1 << 14


class RawFile(io.RawIOBase):
    """An open file of a transaction, with no buffer."""

    #: None until it is open.
    _fd: int | None = None

    def __init__(
        self, calls: Calls, path: AnyPath, mode: str, permissions: int | None = None
    ) -> None:
        self.name = path
        self._asked = Mode.of(mode)
        self.mode = self._asked.raw_name
        self._calls = calls
        self._transaction = calls.transaction
        #: Whether nobody has it any more: then nothing waits.
        self._is_dropped = False
        given = _library.DEFAULT_MODE if permissions is None else mode_of(permissions)
        calls._on("nuz_open", path, self._asked.flags, given, parts=self._take_descriptor)

    def _take_descriptor(self, answer: Answer) -> None:
        if answer.code == 0:
            self._fd = answer.number
            self._transaction._files[self._fd] = weakref.ref(self)

    def __repr__(self) -> str:
        state = "closed" if self.closed else f"mode={self.mode!r}"
        return f"<RawFile name={self.name!r} {state} of {self._transaction!r}>"

    def _ask(self, function: str, *args: object) -> Answer:
        return self._ask_by(self._calls, function, *args)

    def _ask_by(self, calls: Calls, function: str, *args: object) -> Answer:
        """Makes a request about it, in the name of a transaction of its tree."""
        if self.closed:
            raise ValueError("I/O operation on closed file")
        if calls.transaction.session is not self._transaction.session:
            raise ValueError("a file of another tree")
        return calls._ask(function, self._fd, *args, paths=(self.name,))

    def _has_to(self, can: bool, what: str) -> None:
        if not can:
            raise io.UnsupportedOperation(what)

    def readable(self) -> bool:
        return self._asked.reads

    def writable(self) -> bool:
        return self._asked.writes

    def seekable(self) -> bool:
        return True

    def readinto(self, buffer: Any) -> int:
        self._has_to(self._asked.reads, "read")
        return self._read_to(buffer, "nuz_read")

    def _read_to(self, buffer: Any, function: str, *at: int) -> int:
        view = memoryview(buffer).cast("B")
        if not view:
            return 0
        room = (ctypes.c_char * len(view)).from_buffer(view)
        return self._ask(function, room, len(view), *at).number

    def readall(self) -> bytes:
        """Returns all bytes from the offset to the end, as many as there are now."""
        self._has_to(self._asked.reads, "read")
        here = self.tell()
        left = max(self.seek(0, os.SEEK_END) - here, 0)
        self.seek(here)
        data = bytearray(left)
        count = self.readinto(data)
        return bytes(data[:count])

    def read_whole(self) -> bytes:
        """Returns all bytes from the beginning to the end. A small file takes one call."""
        first = self.pread(_SMALL, 0)
        if len(first) < _SMALL:
            return first
        self.seek(0)
        return self.readall()

    def pieces(self) -> Iterator[bytes]:
        """Yields all bytes from the beginning to the end, in pieces that fit in memory."""
        left = self.seek(0, os.SEEK_END)
        self.seek(0)
        while left > 0:
            piece = self.read(min(left, _library.MOST_WRITTEN)) or b""
            left = left - len(piece) if piece else 0
            yield piece

    def pread(self, size: int, offset: int) -> bytes:
        """Returns up to `size` bytes at an offset. The offset of the file stays."""
        self._has_to(self._asked.reads, "read")
        data = bytearray(size)
        return bytes(data[: self._read_to(data, "nuz_pread", _library.signed(offset))])

    def write(self, data: Any) -> int:
        self._has_to(self._asked.writes, "write")
        raw = memoryview(data).cast("B")[: _library.MOST_WRITTEN].tobytes()
        if self._is_dropped and not self.closed:
            self._transaction._late.put("nuz_write", *self._named(raw, len(raw)))
            return len(raw)
        return self._ask("nuz_write", raw, len(raw)).number

    def write_all(self, data: Any) -> None:
        """Writes all of it, or raises the error of the rest."""
        left = memoryview(data).cast("B")
        while left:
            left = left[self.write(left) :]

    def pwrite(self, data: Any, offset: int) -> int:
        """Writes at an offset as many bytes as have room, and returns how many. The offset of the
        file stays."""
        self._has_to(self._asked.writes, "write")
        raw = memoryview(data).cast("B")[: _library.MOST_WRITTEN].tobytes()
        return self._ask("nuz_pwrite", raw, len(raw), _library.signed(offset)).number

    def seek(self, offset: int, whence: int = os.SEEK_SET) -> int:
        if whence not in (os.SEEK_SET, os.SEEK_CUR, os.SEEK_END):
            raise ValueError(f"invalid whence: {whence}")
        if self._is_dropped and not self.closed:
            self._transaction._late.put("nuz_lseek", *self._named(offset, whence))
            return 0
        return self._ask("nuz_lseek", _library.signed(offset), whence).number

    def truncate(self, size: int | None = None) -> int:
        self._has_to(self._asked.writes, "truncate")
        size = self.tell() if size is None else size
        self._ask("nuz_ftruncate", _library.signed(size))
        return size

    def stat(self) -> Info:
        """Returns what `stat` reports about the file."""
        return info_of(self._ask("nuz_fstat"))

    def close(self) -> None:
        """Closes the file. If that is blocked, or lacks memory, the file is still open, and may be
        closed again. A file that nobody has any more does not wait: its last writes and its close
        are made before its transaction commits."""
        if self.closed:
            return
        if self._fd is None:
            pass
        elif self._is_dropped or getattr(self, "_finalizing", False):
            self._leave(self._fd)
            if not self._is_dropped:
                return  # it may have a buffer that comes after it, with bytes to write
        else:
            self._close_now()
            self._forget(self._fd)
        super().close()

    def _leave(self, fd: int) -> None:
        """Leaves it to be closed later."""
        if self._forget(fd):
            self._transaction._late.put_close(*self._named())

    def _forget(self, fd: int) -> bool:
        """Removes the file from its transaction, and returns whether it was there."""
        return self._transaction._files.pop(fd, None) is not None

    def _close_now(self) -> None:
        """Closes the file. If its transaction, or one around it, has ended, or the tree is closed,
        the file is closed already."""
        try:
            self._ask("nuz_close")
        except Refused as refused:
            if refused.name not in ("NoTxn", "Ended"):
                raise
        except ValueError:
            if self._transaction.session.is_open:
                raise

    def _named(self, *args: object) -> tuple[object, ...]:
        return (self._transaction.number, self._fd, *args)

    def _dealloc_warn(self, source: object) -> None:
        """A buffer that nobody has any more calls this before it writes its bytes."""
        self._is_dropped = True


#: The encoding, the errors and the newline of a text.
Text = tuple[Optional[str], Optional[str], Optional[str]]


def below(file: Any) -> RawFile:
    """Returns the file below a buffer or a text, whose bytes are written to it first.

    Raises:
        TypeError: It is not an open file of a transaction.
    """
    if hasattr(file, "flush"):
        file.flush()
    for name in ("buffer", "raw"):
        file = getattr(file, name, file)
    if not isinstance(file, RawFile):
        raise TypeError(f"no open file of a transaction: {file!r}")
    return file


def opened(
    calls: Calls, path: AnyPath, mode: str, buffering: int, text: Text, permissions: int | None
) -> IO[Any]:
    """Opens a file, as `open` of a transaction does."""
    asked = Mode.of(mode)
    if not asked.is_text and any(part is not None for part in text):
        raise ValueError("binary mode takes no encoding, errors or newline")
    if asked.is_text and buffering == 0:
        raise ValueError("can't have unbuffered text I/O")
    raw: Any = RawFile(calls, path, mode, permissions)
    try:
        if asked.appends:
            raw.seek(0, os.SEEK_END)
        file: IO[Any] = raw if buffering == 0 else _wrapped(raw, mode, buffering, text)
        return file
    except BaseException:
        raw.close()
        raise


class _UnderText(io.BufferedIOBase):
    """A buffer below a text. The garbage collector may find the buffer before the text, which has
    more to write: so the buffer writes then, and the text closes it."""

    raw: Any

    def close(self) -> None:
        if getattr(self, "_finalizing", False) and not self.raw._is_dropped:
            self.raw._is_dropped = True
            self.flush()
        else:
            super().close()


class _ReaderUnderText(_UnderText, io.BufferedReader):  # type: ignore[misc]
    pass


class _WriterUnderText(_UnderText, io.BufferedWriter):  # type: ignore[misc]
    pass


class _RandomUnderText(_UnderText, io.BufferedRandom):  # type: ignore[misc]
    pass


def _wrapped(raw: Any, name: str, buffering: int, text: Text) -> Any:
    """A file with a buffer, and with an encoding if it is of text."""
    mode = Mode.of(name)
    size = buffering if buffering > 1 else io.DEFAULT_BUFFER_SIZE
    if not mode.is_text:
        kind = io.BufferedWriter if mode.writes else io.BufferedReader
        return (io.BufferedRandom if mode.reads and mode.writes else kind)(raw, size)
    below = _WriterUnderText if mode.writes else _ReaderUnderText
    buffered: Any = (_RandomUnderText if mode.reads and mode.writes else below)(raw, size)
    encoding, errors, newline = text
    wrapped: Any = io.TextIOWrapper(
        buffered, encoding or "utf-8", errors, newline, line_buffering=buffering == 1
    )
    wrapped.mode = name
    return wrapped
