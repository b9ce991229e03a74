"""Copies from and to directories of the disk, by the functions of nuzolged_copy.h.

A copy has directories, files with their bytes, symbolic links with their targets, and the modes,
owners and times that a tree holds. Names of one file or link stay such. The owner and the time of a
symbolic link, and the time of a directory, are not copied.
"""
from __future__ import annotations

import contextlib
import ctypes
import errno
import os
from typing import Callable, Union

from . import _library
from ._errors import AnyPath, Waits, disk_path, error_of
from ._transaction import Transaction
from ._tree import Tree

SET_ID, REPLACE, SYNC = 1, 2, 4

#: The type of the function around each request of a copy. Its arguments are a context, the function
#: that makes the request, and the request.
_Around = ctypes.CFUNCTYPE(ctypes.c_uint32, ctypes.c_void_p, ctypes.c_void_p, ctypes.c_void_p)

#: How many bytes of a path a failure has room for.
_ROOM = 4096

#: The code of a copy that an exception has ended.
_RAISED = 9999


class _Options(ctypes.Structure):
    """`nuz_copy_options`: how a copy is made."""

    _fields_ = [("flags", ctypes.c_uint32), ("around", _Around), ("context", ctypes.c_void_p)]


class _Failure(ctypes.Structure):
    """`nuz_copy_failure`: why a copy has failed."""

    code: int
    on_disk: bool
    disk: bytes
    path: bytes
    _fields_ = [
        ("code", ctypes.c_uint32),
        ("on_disk", ctypes.c_bool),
        ("waits_for", ctypes.c_uint64),
        ("disk", ctypes.c_char * _ROOM),
        ("path", ctypes.c_char * _ROOM),
    ]


def _declared(name: str, *takes: type) -> Callable[..., int]:
    function = getattr(_library.library, name)
    behind = (ctypes.POINTER(_Options), ctypes.POINTER(_Failure))
    function.argtypes = [ctypes.c_void_p, ctypes.c_uint64, *takes, *behind]
    function.restype = ctypes.c_uint32
    return function  # type: ignore[no-any-return]


_copy_in = _declared("nuz_copy_in", ctypes.c_char_p, ctypes.c_char_p, ctypes.c_size_t)
_copy_out = _declared("nuz_copy_out", ctypes.c_char_p, ctypes.c_size_t, ctypes.c_char_p)


def copy_in(
    transaction: Transaction, disk: AnyPath, path: AnyPath = "/", *, set_id: bool = False
) -> None:
    """Copies everything below a directory of the disk to a directory of the tree, with its modes,
    owners and times. Two names of a file stay names of one file, if both are copied. Symbolic links
    are copied with their targets as they are, and not followed below `disk`.

    Existing directories of the tree keep their modes and owners, even if a symbolic link of the
    tree leads to them. However, the root of an empty tree gets those of `disk`, unless it has been
    given others. An existing file or link is a FileExistsError: make the copy in a step, which
    undoes what has been copied before that. Whatever changes on the disk meanwhile is copied as it
    is before the change, or as it is after it.

    Args:
        transaction: The transaction that makes the calls.
        disk: The directory of the disk.
        path: The directory of the tree. It is made if it is missing.
        set_id: Whether to copy the bits of a mode by which a file runs as its owner or group.

    Raises:
        FileExistsError: A file exists already. The filename is its path in the tree.
        OSError: ENOTSUP if something is no file, directory or symbolic link, EFBIG if a file is
            larger than the tree allows, or an error of the disk. The filename is that of the disk.
    """
    _Copy(transaction).make(
        _copy_in, disk_path(disk), *_tree_path(path), flags=SET_ID if set_id else 0
    )


def copy_out(
    source: Union[Tree, Transaction],
    disk: AnyPath,
    path: AnyPath = "/",
    *,
    set_id: bool = False,
    replace: bool = False,
    sync: bool = False,
) -> None:
    """Copies everything below a directory of the tree to a directory of the disk, with its modes,
    owners and times. It copies all of it or nothing, even if this process dies, since the directory
    gets its name at the end.

    Symbolic links are made with their targets as they are: nothing is written through one, wherever
    it leads. If root makes the copy, owners are those of the tree, as far as the system lets it set
    them; otherwise everything belongs to this process. Files without a time in the tree get the
    time of the copy, all the same one.

    Args:
        source: The tree, with what has committed, or a transaction. Data in the buffers of its
            open files is not there yet: so commit first, and copy from the tree.
        disk: The directory of the disk. It is missing or empty, unless it is replaced.
        path: The directory of the tree.
        set_id: Whether to copy the bits of a mode by which a file runs as its owner or group. A
            file that gets another owner or group than it has in the tree never has these bits.
        replace: Whether to replace an existing directory, all at once if the file system can, and
            remove it.
        sync: Whether all of it is on the disk before it gets its name, so that it is whole or not
            there at all even if the power fails.

    Raises:
        OSError: An error of the disk, such as ENOTEMPTY if the directory exists.
    """
    flags = (SET_ID if set_id else 0) | (REPLACE if replace else 0) | (SYNC if sync else 0)
    place = os.path.abspath(disk_path(disk))
    with contextlib.ExitStack() as stack:
        transaction = stack.enter_context(source.begin()) if isinstance(source, Tree) else source
        _Copy(transaction).make(_copy_out, *_tree_path(path), place, flags=flags)


def _tree_path(path: AnyPath) -> tuple[bytes, int]:
    raw = os.fsencode(path)
    return raw, len(raw)


class _Copy:
    """A copy, each request of which is made as its transaction makes its own."""

    def __init__(self, transaction: Transaction) -> None:
        self._transaction = transaction
        #: The exception of a request.
        self._raised: BaseException | None = None

    def make(self, function: Callable[..., int], *args: object, flags: int) -> None:
        """Makes the copy, and raises its error."""
        failure = _Failure()
        options = _Options(flags, _Around(self._around), None)
        transaction = self._transaction
        code = function(None, transaction.number, *args, options, failure)
        if self._raised is not None:
            if isinstance(self._raised, Waits):
                self._raised.filename = os.fsdecode(failure.path)
            raise self._raised
        if code:
            is_of_disk = failure.on_disk or code == errno.EFBIG
            raise error_of(code, os.fsdecode(failure.disk if is_of_disk else failure.path))

    def _around(self, _: int | None, make: int, request: int) -> int:
        """Makes one request, and returns its code. (No exception goes through C.)"""
        try:
            return self._transaction._ask("copy_request", make, request).number
        except BaseException as error:
            self._raised = error
            return _RAISED
