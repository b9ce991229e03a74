"""Transactions."""
from __future__ import annotations

import contextlib
import warnings
import weakref
from types import TracebackType
from typing import TYPE_CHECKING

from ._errors import AnyPath, Refused
from ._library import Answer
from ._session import Late, Request, time_limit
from ._touched import Touched, depfile, manifest, touched
from ._whole import Whole

if TYPE_CHECKING:
    from ._file import RawFile
    from ._tree import Tree

#: A time limit that is not given: that of what is around it. (No other number is this object.)
SAME = float("nan")


class Transaction(Whole):
    """A transaction: of a tree, or, as a step, of the transaction around it.

    As a context it is committed at the end, and aborted at an exception. Otherwise it is live until
    `commit` or `abort`, or until nobody has it any more: then it is aborted, with a
    ResourceWarning. To undo a part of what it does, do that part in a step, and abort the step.
    """

    #: 0 until it has begun.
    number: int = 0

    def __init__(self, tree: Tree, around: Transaction | None, timeout: float | None) -> None:
        self.tree = tree
        self.timeout = time_limit(timeout)
        self._around = around
        self._has_ended = False
        self._late: Late = Late(tree.session)
        #: Its open descriptors, and whose each is.
        self._files: dict[int, weakref.ref[RawFile]] = {}
        self.session = tree.session
        begun: Request = ("nuz_begin_sub", (around.number,)) if around else ("nuz_begin", ())
        self.session.ask(begun, parts=self._take_number)

    def _take_number(self, answer: Answer) -> None:
        if answer.code == 0:
            self.number = answer.number
            self.session.hold(self, answer.number)

    def __repr__(self) -> str:
        state = "ended" if self.is_over else "live"
        return f"<Transaction {self.number}, {state}>"

    def __enter__(self) -> Transaction:
        return self

    def __exit__(
        self,
        kind: type[BaseException] | None,
        error: BaseException | None,
        trace: TracebackType | None,
    ) -> None:
        try:
            if kind is None and not self._has_ended:
                self.commit()
        finally:
            if not self._has_ended:
                with contextlib.suppress(Refused):  # one around it has been aborted
                    self.abort()

    def __del__(self) -> None:
        if self.number and not self.is_over:
            self._late.put("nuz_abort", self.number)
            self._warn()

    def _warn(self) -> None:
        """Warns that nobody has it any more, while it is live."""
        warnings.warn(f"neither committed nor aborted: {self!r}", ResourceWarning, source=self)

    @property
    def transaction(self) -> Transaction:
        return self

    @property
    def is_over(self) -> bool:
        """Whether it, or one around it, has committed or is aborted, or the tree is closed."""
        around: Transaction | None = self
        while around is not None and not around._has_ended:
            around = around._around
        return around is not None or not self.session.is_open

    def begin(self, *, timeout: float | None = SAME) -> Transaction:
        """Begins a step: a transaction inside this one. A commit is refused while a step is live.

        Args:
            timeout: How many seconds its calls wait for others to end; with None, without a limit.
                By default, they wait as those of this transaction do.

        Raises:
            Refused: The transaction has ended, or is too deep, or too many have begun.
        """
        return Transaction(self.tree, self, self.timeout if timeout is SAME else timeout)

    def within(self, timeout: float | None) -> Within:
        """Returns its calls with another time limit: `job.within(0.5).mkdir("/a")`."""
        return Within(self, timeout)

    def commit(self) -> None:
        """Commits: hands what it did to the transaction around it, or to the tree. First it writes
        and closes the files that nobody has any more, if something is left to do there.

        Raises:
            ValueError: One of its files is open, so the data in its buffer would be lost.
            Refused: A step of it is live, or it has ended.
            Waits: The close of a file that nobody has any more is blocked. Commit again.
        """
        for held in list(self._files.values()):
            file = held()
            if file is not None:
                raise ValueError(f"commit with an open file: {file.name!r}")
        self._late.finish(self.timeout)
        self.session.end(("nuz_commit", (self.number,)))
        self._end()

    def abort(self) -> int:
        """Undoes all that it and its steps have done, and returns how many calls that were.

        Raises:
            Refused: It has ended.
        """
        count = self.session.end(("nuz_abort", (self.number,))).number
        self._end()
        return count

    def _end(self) -> None:
        self._has_ended = True
        self.session.let_go(self.number)

    def touched(self) -> dict[str, Touched]:
        """Returns each path that it has looked up (even in vain), read, listed or written so far,
        in the order of their bytes. The paths come from its locks, and include those of committed
        steps. A name that has been renamed or removed since is listed where it was, if its
        directory still exists. This takes time and memory for the whole tree."""
        return touched(self.session, self.number)

    def manifest(self) -> str:
        """Returns what it has touched as a text: a line `PATH HOW KIND` for each path, in the order
        of their bytes. PATH is percent-coded. HOW has the words read or absent, listed and written
        that apply, with a comma between two. KIND is dir, file, link or none."""
        return manifest(self.session, self.number)

    def depfile(self, target: AnyPath | None = None, top: AnyPath = "") -> str:
        """Returns what it has touched in the form that make and Ninja read: a target with what it
        depends on. It depends on each file that the transaction has read and each directory that it
        has listed, if these still exist and the transaction has not written them. Symbolic links
        and names looked up in vain are left out: a manifest has them. A name that is not in the
        system's encoding comes as `os.fsdecode` gives it, so write the text by `os.fsencode`.

        Args:
            target: The target; without one, each file and symbolic link that it has written.
            top: A prefix of each path of the tree, such as the directory that was copied in.

        Raises:
            ValueError: A name has no form that both make and Ninja read, like one with a line feed.
        """
        return depfile(self.session, self.number, target, top)

    def cancel_wait(self) -> None:
        """Forgets the call that it waits for, so no report lists it.

        Raises:
            Refused: It waits for no call, or has ended.
        """
        self.session.end(("nuz_cancel", (self.number,)))


class Within(Whole):
    """The calls of a transaction, with a time limit of their own."""

    def __init__(self, transaction: Transaction, timeout: float | None) -> None:
        self._transaction = transaction
        self.number = transaction.number
        self.session = transaction.session
        self.timeout = time_limit(timeout)

    def __repr__(self) -> str:
        return f"<{self._transaction!r} within {self.timeout} seconds>"

    @property
    def transaction(self) -> Transaction:
        return self._transaction
