"""asked.py: the questions that each peer is asked, by the same code.

A peer has `begin()`, which returns a step, `names()`, `path(name)`, `pids()` and `close()`. A step
has `begin()`, `make(name, data)`, `names()`, `keep()` and `undo()`, and `folder` if it works in a
directory. A peer that has to answer a question in its own way has a method `answer_QUESTION`. An
answer is 'yes', 'partly' or 'no', and what was seen.
"""
from __future__ import annotations

import os
import signal
import stat
import subprocess
import sys
import tempfile
import time
from pathlib import Path
from typing import Any, Callable

#: The words that the name of a call that undoes would have.
WORDS_OF_UNDOING = ("abort", "commit", "rollback", "savepoint", "snapshot", "transaction", "undo")
#: How long a step may take that blocks nobody.
SECONDS = 2.0

Answer = tuple[str, str]


class Blocked(Exception):
    """A step could not go on, or not be kept. `who` names its blocker, if the peer does."""

    def __init__(self, text: str, who: str = "") -> None:
        super().__init__(text)
        self.who = who


class Missing(Exception):
    """The peer has no call for this."""


class Peer:
    """The part that the peers have in common."""

    def __init__(self, top: Path) -> None:
        self.top = top

    def begin(self) -> Any:
        raise Missing

    def path(self, name: str) -> Path:
        """Returns the path of a file that is kept, for other processes."""
        raise Missing

    def pids(self) -> list[int]:
        """Returns the processes that keep the files."""
        return [os.getpid()]

    def close(self) -> None:
        """Ends the use of the peer."""


def without_calls(names: list[str]) -> Missing:
    """Returns the error that no public name of a peer is of a call that undoes."""
    found = [name for name in names if any(word in name.lower() for word in WORDS_OF_UNDOING)]
    return Missing(f"none of its {len(names)} public names begins or undoes" if not found
                   else f"only {', '.join(found)}")


def verdict(holds: bool, seen: str) -> Answer:
    return ("yes" if holds else "no"), seen


# ---- the questions


def nested(peer: Any) -> Answer:
    """Two steps in a step end, the first one kept and the second one undone. Is only the second
    one's file gone, and all when the outer step is undone?"""
    outer = peer.begin()
    outer.make("a", b"outer")
    good = outer.begin()
    good.make("b", b"kept")
    good.keep()
    bad = outer.begin()
    bad.make("c", b"undone")
    bad.undo()
    first = outer.names()
    outer.undo()
    last = peer.names()
    seen = f"after the inner steps {first}, after the outer one {last}"
    return verdict((first, last) == (["a", "b"], []), seen)


def together(peer: Any) -> Answer:
    """Three steps make a file each in one directory, at once. If the second one is undone, are the
    files of the others there?"""
    steps = {}
    for name in "abc":
        steps[name] = peer.begin()
        steps[name].make(name, b"mine")
    steps["b"].undo()
    steps["a"].keep()
    steps["c"].keep()
    left = peer.names()
    return verdict(left == ["a", "c"], f"left: {left}")


def blocks(peer: Any) -> Answer:
    """Two steps write one file. Is the second one told which step blocks it?"""
    try:
        one, two = peer.begin(), peer.begin()
        one.make("a", b"of one")
        two.make("a", b"of two")
        one.keep()
        two.keep()
    except Blocked as error:
        return verdict(bool(error.who), str(error))
    return "no", "both were kept, and the first one's bytes are lost without a word"


def seen(peer: Any) -> Answer:
    """Does another program read a kept file by its path?"""
    step = peer.begin()
    step.make("a", b"read me")
    step.keep()
    read = subprocess.run(["cat", peer.path("a")], capture_output=True)
    return verdict(read.stdout == b"read me", f"cat prints {read.stdout!r}")


def seen_by_library(peer: Any, again: Callable[[], Any]) -> Answer:
    """In place of `seen`: does another process see it, if it opens the peer again?"""
    step = peer.begin()
    step.make("a", b"read me")
    step.keep()
    reader, writer = os.pipe()
    if os.fork() == 0:
        os.write(writer, " ".join(again().names()).encode())
        os._exit(0)
    os.close(writer)
    with os.fdopen(reader) as told:
        names = told.read()
    return ("partly" if names == "a" else "no"), f"another process sees {names!r} by the library"


def killed(peer: Any) -> Answer:
    """If the processes are killed in the middle of a step, is what was kept there, and nothing of
    the step?"""
    top, kind = peer.top / "killed", type(peer)
    top.mkdir()
    reader, writer = os.pipe()
    child = os.fork()
    if child == 0:
        work_until_killed(kind, top, writer)
    os.close(writer)
    with os.fdopen(reader) as told:
        for pid in map(int, told.readline().split()):
            os.kill(pid, signal.SIGKILL)
    os.waitpid(child, 0)
    again = kind(top)
    left = again.names()
    again.close()
    return verdict(left == ["a"], f"opened anew: {left}")


def work_until_killed(kind: Callable[[Path], Any], top: Path, writer: int) -> None:
    """Keeps one step, begins another, tells the processes to kill, and waits to be killed."""
    peer = kind(top)
    first = peer.begin()
    first.make("a", b"kept")
    first.keep()
    second = peer.begin()
    second.make("b", b"half")
    os.write(writer, (" ".join(map(str, peer.pids())) + "\n").encode())
    while True:
        time.sleep(1)


def kept(peer: Any) -> Answer:
    """Are a mode and a symbolic link there after a step is kept?"""
    step = peer.begin()
    step.make("a", b"some")
    if not hasattr(step, "folder"):
        raise Missing("it keeps bytes under a key, and no files")
    (step.folder / "a").chmod(0o750)
    (step.folder / "link").symlink_to("a")
    step.keep()
    return modes_and_links(peer.path("a"), peer.path("link"))


def modes_and_links(file: Path, link: Path) -> Answer:
    mode = oct(stat.S_IMODE(file.stat().st_mode))
    is_link = link.is_symlink() and os.readlink(link) == "a"
    answer = "yes" if is_link and mode == "0o750" else "partly" if is_link else "no"
    return answer, f"0o750 is {mode}, a link is {'kept' if is_link else 'not'}"


def mounts(peer: Any) -> Answer:
    """Is a file system mounted for a step?"""
    step = peer.begin()
    step.make("a", b"some")
    count = len(mounted(str(peer.top)))
    step.undo()
    return verdict(count > 0, f"{count} mounts")


def mounted(top: str) -> list[str]:
    """Returns the mounts among the temporary files that are on a folder, below it or around it."""
    lines = Path("/proc/self/mounts").read_text().splitlines()
    places = [line.split()[1] for line in lines]
    ours = [place for place in places if place.startswith(f"{tempfile.gettempdir()}/")]
    return [place for place in ours if f"{place}/".startswith(top) or f"{top}/".startswith(place)]


QUESTIONS = (nested, together, blocks, seen, killed, kept, mounts)


# ---- asking


def ask(kind: Callable[[Path], Any], question: Callable[[Any], Answer], top: Path) -> Answer:
    """Asks one question of a new peer in a folder of its own."""
    own = top / question.__name__
    own.mkdir()
    peer = kind(own)
    try:
        return getattr(peer, f"answer_{question.__name__}", lambda: question(peer))()
    except Blocked as error:
        return "no", str(error)
    except Missing as error:
        return "no", str(error) or "there is no call for it"
    finally:
        peer.close()


def main(kind: Callable[[Path], Any], version: str, top: str | None = None) -> None:
    """Asks all questions of a kind of peer, in a temporary folder, and prints the answers."""
    print(f"version: {version}", flush=True)
    with tempfile.TemporaryDirectory(dir=top, ignore_cleanup_errors=True) as folder:
        for question in QUESTIONS:
            answer, text = ask(kind, question, Path(folder))
            print(f"{question.__name__}: {answer}: {text}", flush=True)


def first_line(*command: str) -> str:
    """Returns the first line that a command prints, which has its version."""
    return subprocess.run(command, capture_output=True, text=True).stdout.partition("\n")[0]


def skip(what: str) -> None:
    """Ends the program of a peer that is not there."""
    print(f"skipped: there is no {what}")
    sys.exit(2)


def keeps_waiting(action: Callable[[], object], meanwhile: Callable[[], object] = list) -> bool:
    """Returns whether an action in a process of its own does not end in time. If so, something is
    done meanwhile, and then the process is killed."""
    child = os.fork()
    if child == 0:
        action()
        os._exit(0)
    end = time.monotonic() + SECONDS
    while os.waitpid(child, os.WNOHANG) == (0, 0):
        if time.monotonic() > end:
            meanwhile()
            os.kill(child, signal.SIGKILL)
            os.waitpid(child, 0)
            return True
        time.sleep(0.01)
    return False
