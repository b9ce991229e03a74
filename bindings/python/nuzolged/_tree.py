"""Trees."""
from __future__ import annotations

import os

from . import _library, _limits
from ._errors import Refused, error_of
from ._limits import Limits
from ._session import NO_REPLY, Session, time_limit
from ._transaction import SAME, Transaction


class Tree:
    """A tree, which has only the root at first. As a context it is closed at the end.

    Threads may share it: one request is made at a time. A fork waits until no request is being
    made, and the child has a copy.

    Args:
        moss: Whether a call also waits for a transaction around it that holds a conflicting lock
            for a call of its own.
        limits: Its limits, which checkpoints do not change. By default each limit is the greatest,
            and only lack of memory ends a job.
        timeout: How many seconds a call waits for transactions of other threads to end; with None,
            without a limit. Then it is cancelled. A call that would wait forever raises `Deadlock`
            at once. With 0 it does not wait, unless its transaction has another timeout: `Waits` is
            raised at once, and the call is kept, so that reports list it, until the transaction
            makes another, or cancels it by `cancel_wait`.
        fair: Whether calls wait in turn: a call that no lock blocks also waits for each older
            waiting call that conflicts with it, so one reader after another can't pass a writer. It
            never waits in turn for a transaction above or below its own, or for one that waits for
            its own: so this closes no deadlock. While more than 32 calls wait, a call may pass older
            ones. By default calls wait in turn if the timeout is not 0. With 0 a call that is kept
            also keeps its turn.
    """

    def __init__(
        self,
        *,
        moss: bool = False,
        limits: Limits = Limits(),
        timeout: float | None = 0,
        fair: bool | None = None,
    ) -> None:
        options = _library.MOSS if moss else _library.RELAXED
        if fair or (fair is None and timeout != 0):
            options |= _library.FAIR
        self.timeout = time_limit(timeout)
        self.session = Session(options, _limits.for_library(limits), keeps_waits=timeout == 0)

    def __repr__(self) -> str:
        return f"<Tree, {'open' if self.session.is_open else 'closed'}>"

    def __enter__(self) -> Tree:
        return self

    def __exit__(self, *_: object) -> None:
        self.close()

    def close(self) -> None:
        """Frees the tree, with all transactions. It stays closed: every request to it then raises a
        ValueError."""
        self.session.close()

    def begin(self, *, timeout: float | None = SAME) -> Transaction:
        """Begins a transaction.

        Args:
            timeout: How many seconds its calls wait for others to end; with None, without a limit.
                By default, the timeout of the tree.

        Raises:
            Refused: The limit on transactions since the last checkpoint is reached.
        """
        return Transaction(self, None, self.timeout if timeout is SAME else timeout)

    def abort(self, number: int) -> int:
        """Aborts the transaction of this number, which may be another's, and returns how many calls
        were undone.

        Raises:
            Refused: There is no such transaction, or it has ended.
        """
        if not 0 <= number < 1 << 64:  # ctypes would cut it
            raise Refused("NoTxn")
        return self.session.end(("nuz_abort", (number,))).number

    def checkpoint(self) -> None:
        """Makes the present tree the beginning, and forgets the transactions. Transactions and
        calls are counted from here on. This takes no memory.

        Raises:
            Refused: A transaction is live.
        """
        self.session.ask(("nuz_checkpoint", ()))

    def request(self, line: str) -> str:
        """Carries out one line of a script without waiting, and returns the text of the reply. The
        line may also be a report, such as `tree`, `locks` or `waits`. A call that has to wait is
        kept until a line drops it, and others may wait for its turn.

        Raises:
            ValueError: It is not a line of a script without names, `put` and `get`.
        """
        answer = self.session.line_of_user(os.fsencode(line))
        if answer.code == _library.BAD:
            raise ValueError("invalid line")
        if answer.code in NO_REPLY:
            raise error_of(answer.code)
        return answer.text.decode("ascii")
