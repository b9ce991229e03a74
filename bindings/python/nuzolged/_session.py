"""A tree of the library, one request at a time, each with the parts of its answer.

The library keeps the last answer, and names, blockers and replies are parts of it. Therefore no
other request may come between a request and its parts. Other threads wait for the lock. The garbage
collector may run a finalizer anywhere, so the requests of finalizers are put off until later.
"""
from __future__ import annotations

import collections
import ctypes
import os
import secrets
import threading
import time
import weakref
from typing import Any, Callable, Optional

from ._errors import AnyPath, Deadlock, Waits, error_of
from ._library import BAD, CLOSED, FAIR, FULL, MEMORY, WAITS
from ._library import Answer, ClosedTree, Limits, OpenTree, library

#: How many bytes of names a list is asked for with, and how many of the reply to a line.
NAMES_ROOM = 4096
_REPLY_ROOM = 256

#: For how many seconds a thread sleeps at most before its call is made again: so many, or so many
#: for each call that waits if that is more.
_MOST_PAUSE = 0.05
_PAUSE_EACH = 0.005

#: With how many waiting calls they wait in turn. A turn takes time for each pair of them.
_MOST_TURNS = 32

#: How many members of a cycle are asked for.
_CYCLE_ROOM = 16

#: The codes of requests that may succeed when they are made again.
_MAY_COME = (WAITS, MEMORY, FULL)

#: The codes that are no reply to a line.
NO_REPLY = (MEMORY, CLOSED, BAD)

Request = tuple[str, tuple[object, ...]]
Parts = Optional[Callable[[Answer], None]]


class Session:
    """A tree of the library, which threads share."""

    _at: int | None = None

    #: Answers in place of the library once the tree is closed.
    _closed: Any = ClosedTree()

    def __init__(self, options: int, limits: Limits, keeps_waits: bool) -> None:
        handle = ctypes.c_void_p()
        #: Whether a blocked call with no time to wait stays the transaction's pending call.
        self._keeps_waits = keeps_waits
        #: Whether calls are to wait in turn, and how many wait.
        self._is_fair = bool(options & FAIR)
        self._waiting = 0
        self._renew_lock()
        #: Whether the thread with the lock is between a request and its parts. (If an interrupt
        #: comes too soon, it stays set although no thread has the lock.)
        self._is_amid = False
        self._late: collections.deque[Late] = collections.deque()
        #: The live transactions that somebody had when they began, by their numbers.
        self._held: dict[int, Held] = {}
        #: Those that nobody has any more. (No interrupt can come when one is added.)
        self._dropped: collections.deque[weakref.ref[object]] = collections.deque()
        #: The greatest number of a transaction that anybody knows of.
        self.newest = 0
        code = library.nuz_tree_open_with(ctypes.byref(handle), options, ctypes.byref(limits))
        if code:
            raise error_of(code)
        #: The tree, if it is open, and the functions that are asked with it.
        self._at = handle.value
        self._library: Any = OpenTree(self._at or 0)
        library.nuz_tree_seed(self._at, secrets.randbits(64))
        _register(self)

    def _renew_lock(self) -> None:
        self.lock = threading.RLock()
        self._ended = threading.Condition(self.lock)

    def __del__(self) -> None:
        """Frees the tree. (Finalizers of its transactions and files may come after it.)"""
        at, self._at, self._library = self._at, None, self._closed
        library.nuz_tree_close(at)

    @property
    def is_open(self) -> bool:
        return self._at is not None

    def close(self) -> None:
        """Frees the tree, which wakes those that wait."""
        with self.lock:
            at, self._at, self._library = self._at, None, self._closed
            library.nuz_tree_close(at)
            self._ended.notify_all()

    def ask(
        self,
        request: Request,
        paths: tuple[AnyPath, ...] = (),
        timeout: float | None = 0,
        parts: Parts = None,
    ) -> Answer:
        """Makes a request, and raises its error, with these paths. A blocked request is made again
        whenever a transaction has ended or waits no longer, and every 50 milliseconds (5 for each
        waiting call if more than ten wait), for so many seconds."""
        if timeout == 0 and self._keeps_waits:
            answer = self._once(request, parts)
        else:
            answer = self._wait(request, parts, timeout)
        if _elsewhere:
            _make_late_elsewhere()
        if not answer.code:
            return answer
        if answer.code != WAITS:
            raise error_of(answer.code, *paths)
        if answer.cycle:
            raise Deadlock(answer.blockers, answer.cycle, *paths)
        raise Waits(answer.blockers, *paths)

    def end(self, request: Request) -> Answer:
        """Makes a request by which transactions may end, and wakes the threads that wait."""
        try:
            return self.ask(request)
        finally:
            self._wake()

    def _wake(self) -> None:
        with self.lock:
            self._ended.notify_all()

    def _once(self, request: Request, parts: Parts) -> Answer:
        """Makes a request, and takes the parts of its answer."""
        function, args = request
        if self._is_amid and self._is_mine():
            raise RuntimeError("a request of a finalizer or signal handler amid another one")
        with self.lock:
            if self._late or self._dropped:
                self._make_late(True)
            try:
                self._is_amid = True
                answer: Answer = getattr(self._library, function)(*args)
                if answer.code == WAITS:
                    answer.blockers = self._blockers(answer)
                if parts:
                    parts(answer)
            except BaseException:
                self._abort_unknown()
                raise
            finally:
                self._is_amid = False
                if self._late:
                    self._make_late(True)
        return answer

    def _is_mine(self) -> bool:
        """Whether this thread has the lock."""
        return bool(self.lock._is_owned())  # type: ignore[attr-defined]

    def hold(self, transaction: object, number: int) -> None:
        """Takes note of a transaction, which is aborted when nobody has it any more."""
        self._held[number] = Held(number, transaction, self._dropped.append)
        self.newest = number

    def let_go(self, number: int) -> None:
        """Forgets a transaction that has ended."""
        self._held.pop(number, None)

    def _abort_unknown(self) -> None:
        """Aborts the transaction that the last request began, if an interrupt has lost its
        number."""
        words = self._text().split()
        if words[:1] == [b"txn"] and int(words[1]) > self.newest:
            self.newest = int(words[1])
            self._library.nuz_abort(self.newest)

    def _wait(self, request: Request, parts: Parts, timeout: float | None) -> Answer:
        """Makes a request, and makes it again while it is blocked, until the time is over or it
        would wait for ever. Then it is cancelled, so that no report shows it as waiting, and no
        other request waits for its turn."""
        with self.lock:
            answer = self._once(request, parts)
            if answer.code == WAITS:
                self._count(1)
                try:
                    answer = self._wait_on(answer, request, parts, timeout)
                finally:
                    self._cancel(request[1][0])
                    self._count(-1)
            return answer

    def _count(self, change: int) -> None:
        """Counts a call that begins to wait, or waits no longer. Calls wait in turn if they are to,
        and not too many wait."""
        self._waiting += change
        if self._is_fair and self.is_open:
            library.nuz_tree_fair(self._at, self._waiting <= _MOST_TURNS)

    def _wait_on(
        self, answer: Answer, request: Request, parts: Parts, timeout: float | None
    ) -> Answer:
        """Makes a blocked request again, until the time is over or it would wait for ever."""
        end = _end_of(timeout)
        while answer.code == WAITS:
            pause = max(_MOST_PAUSE, _PAUSE_EACH * self._waiting)
            left = pause if end is None else end - time.monotonic()
            answer.cycle = self._cycle(request[1][0]) if timeout != 0 else []
            if answer.cycle or left <= 0:
                break
            self._ended.wait(min(left, pause))
            answer = self._once(request, parts)
        return answer

    def _cancel(self, number: object) -> None:
        """Cancels the request that a transaction waits for, if there is one. Others may wait for
        its turn."""
        if not self._library.nuz_cancel(number).code:
            self._ended.notify_all()

    def _cycle(self, number: object, room: int = _CYCLE_ROOM) -> list[int]:
        """The transactions of a cycle of waits that begins with this one; none if it is part of
        none, or if there is no memory to find out."""
        txns = (ctypes.c_uint64 * room)()
        count: int = self._library.nuz_cycle_of(number, txns, room).number
        return txns[:count] if count <= room else self._cycle(number, count)

    def line(self, words: bytes) -> Answer:
        """Carries out a line of a script."""
        room = ctypes.create_string_buffer(_REPLY_ROOM)
        request = ("nuz_request", (words, len(words), room, _REPLY_ROOM))
        return self._once(request, lambda answer: self._take_reply(answer, room))

    def line_of_user(self, words: bytes) -> Answer:
        """Carries out a line by which transactions may end."""
        try:
            return self.line(words)
        finally:
            self._wake()

    def _blockers(self, answer: Answer) -> list[int]:
        """The transactions for which a call waits."""
        return [self._library.nuz_blocker(index).number for index in range(answer.number)]

    def take_names(self, answer: Answer, room: ctypes.Array[ctypes.c_char]) -> None:
        """Takes the names of a list, each with its kind."""
        if answer.code:
            return
        if answer.size > len(room):
            room = ctypes.create_string_buffer(answer.size)
            self._library.nuz_bytes(room, answer.size)
        # A null byte follows each name, even the last one.
        told = ctypes.string_at(room, answer.size).split(b"\0")
        answer.names = [(each[1:], each[0]) for each in told[:-1]]

    def _take_reply(self, answer: Answer, room: ctypes.Array[ctypes.c_char]) -> None:
        """Takes the reply to a line."""
        if answer.code in NO_REPLY:
            return
        is_whole = answer.reply <= len(room)
        answer.text = room.raw[: answer.reply] if is_whole else self._text()
        words = answer.text.split()
        if words[:1] == [b"txn"]:
            self.newest = int(words[1])

    def _text(self, room: int = 256) -> bytes:
        text = ctypes.create_string_buffer(room)
        told = self._library.nuz_reply(text, room)
        if told.code == MEMORY:
            raise MemoryError
        return text.raw[: told.size] if told.size <= room else self._text(told.size)

    def put_off(self, late: Late, may_be_now: bool) -> None:
        """Makes the requests of a finalizer: at once, or before the next request if the finalizer
        ran amid one."""
        self._late.append(late)
        if not may_be_now or (self._is_amid and self._is_mine()):
            return
        if any(session._is_mine() for session in _all_sessions()):
            # (a thread that has a lock must not wait for another)
            _elsewhere.append(self)
        else:
            self.make_late()

    def make_late(self) -> None:
        """Makes the requests that were put off, except those that close files."""
        with self.lock:
            self._make_late(False)

    def _make_late(self, closes: bool) -> None:
        left = []
        try:
            self._is_amid = True
            while self._late:
                late = self._late.popleft()
                if late.make(closes):
                    left.append(late)
            while self._dropped:
                self._abort_dropped(self._dropped.popleft())
        finally:
            self._is_amid = False
            self._late.extend(left)
            self._ended.notify_all()

    def _abort_dropped(self, held: weakref.ref[object]) -> None:
        """Aborts a transaction that nobody has, if an interrupt kept it from that."""
        if isinstance(held, Held) and held.number in self._held:
            del self._held[held.number]
            self.try_once(("nuz_abort", (held.number,)))

    def try_once(self, request: Request) -> bool:
        """Makes a request whose answer nobody needs. Returns False if it may succeed when it is
        made again."""
        function, args = request
        with self.lock:
            code: int = getattr(self._library, function)(*args).code
            if code == WAITS:
                self._library.nuz_cancel(args[0])
        return code not in _MAY_COME

    def renew_after_fork(self) -> None:
        """In the child there is only this thread: no other holds the lock or waits."""
        self._renew_lock()
        self._waiting = 0
        for number in [] if self._keeps_waits else list(self._held):
            self._library.nuz_cancel(number)


class Held(weakref.ref):  # type: ignore[type-arg]
    """Somebody's transaction, with its number."""

    __slots__ = ("number",)

    def __new__(cls, number: int, *args: object) -> Held:
        return super().__new__(cls, *args)  # type: ignore[arg-type]

    def __init__(self, number: int, *args: object) -> None:
        super().__init__(*args)
        self.number = number


class Late:
    """The requests of finalizers for a transaction, in their order. A blocked one stays, and the
    transaction makes it before it commits.

    The garbage collector may find a file before its buffer, which has bytes to write. Therefore
    files are closed after all writes, and not before the next request.
    """

    def __init__(self, session: Session) -> None:
        self._session = session
        self._requests: collections.deque[Request] = collections.deque()
        self._closes: collections.deque[Request] = collections.deque()
        self._is_finishing = False

    def put(self, function: str, *args: object) -> None:
        self._requests.append((function, args))
        self._session.put_off(self, True)

    def put_close(self, *args: object) -> None:
        self._closes.append(("nuz_close", args))
        self._session.put_off(self, False)

    def make(self, closes: bool) -> bool:
        """Makes each at most once, up to the first that is blocked. Returns whether files are left
        that this call may not close."""
        while not self._is_finishing:
            left = self._requests or (self._closes if closes else None)
            if not left or not self._session.try_once(left[0]):
                break
            left.popleft()
        return bool(self._closes) and not closes

    def finish(self, timeout: float | None) -> None:
        """Makes all of them, and raises the error of the first that fails."""
        self._is_finishing = True
        try:
            while left := self._requests or self._closes:
                self._finish_one(left, timeout)
        finally:
            self._is_finishing = False

    def _finish_one(self, left: collections.deque[Request], timeout: float | None) -> None:
        try:
            self._session.ask(left[0], timeout=timeout)
        except OSError as error:
            if not isinstance(error, Waits):
                left.popleft()
            raise
        left.popleft()


def time_limit(timeout: float | None) -> float | None:
    """Returns a time limit, which must be None or a number from 0 on."""
    if timeout is not None and not timeout >= 0:
        raise ValueError(f"a timeout must be None or a number from 0 on: {timeout}")
    return timeout


def _end_of(timeout: float | None) -> float | None:
    """Returns when a time limit that begins now is over."""
    return None if timeout is None else time.monotonic() + timeout


#: The trees of this process, and the lock that is held only while they are looked up.
_sessions: weakref.WeakSet[Session] = weakref.WeakSet()
_registry = threading.RLock()

#: The trees with requests that were put off because a thread had the lock of another tree.
_elsewhere: collections.deque[Session] = collections.deque()

#: The trees whose locks a fork holds.
_locked: list[Session] = []


def _register(session: Session) -> None:
    with _registry:
        _sessions.add(session)


def _all_sessions() -> list[Session]:
    with _registry:
        return list(_sessions)


def _make_late_elsewhere() -> None:
    """Makes the requests that were put off, once this thread has no lock."""
    while _elsewhere and not any(session._is_mine() for session in _all_sessions()):
        _elsewhere.popleft().make_late()


def _before_fork() -> None:
    """A fork waits until no thread makes a request."""
    _locked[:] = _all_sessions()
    for session in _locked:
        session.lock.acquire()


def _in_parent() -> None:
    while _locked:
        _locked.pop().lock.release()


def _in_child() -> None:
    global _registry
    _registry = threading.RLock()
    while _locked:
        _locked.pop().renew_after_fork()


os.register_at_fork(
    before=_before_fork, after_in_parent=_in_parent, after_in_child=_in_child
)
