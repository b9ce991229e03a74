"""compare.py: how long the same 20,000 calls take from C, Rust and Python, by this library and by
others.

    make -C bindings && python3 bindings/compare/compare.py [ROUNDS]

A round is ten calls: a directory and a file in it are made, the file is written, closed, asked for
its size, opened, read and closed, renamed, and the names of the directory are listed. There are
2,000 rounds, and nothing is removed, so that the tree grows. The library makes them in one
transaction, with no buffer between; the system in memory (/dev/shm) and in the folder for temporary
files; pyfakefs by its os; and LMDB and SQLite, which know no files, in one transaction on paths and
bytes: fewer calls that do less. Peers that are not installed are left out.

Each is taken five times, in turns with the others, each time in a process of its own, and the
shortest time of the processor is told, that of the system's part too; at the end that of one stat
of the library from Python.
"""
from __future__ import annotations

import itertools
import os
import subprocess
import sys
import tempfile
import time
from pathlib import Path
from typing import Any, Callable, Iterator, NamedTuple

CALLS_OF_A_ROUND = 10
TIMES = 5
DATA = b"some bytes of a file" * 5

HERE = Path(__file__).resolve().parent
OUT = HERE.parent / "out"

#: The folder in which the system keeps files in memory.
IN_MEMORY = Path("/dev/shm")


# ---- the ways from Python


def rounds_of_os(os_module: Any, top: str, rounds: int) -> None:
    """The calls, by a module that is or is like os."""
    for number in range(rounds):
        folder = f"{top}/{number}"
        os_module.mkdir(folder)
        fd = os_module.open(f"{folder}/file", os.O_WRONLY | os.O_CREAT | os.O_EXCL)
        os_module.write(fd, DATA)
        os_module.close(fd)
        assert os_module.stat(f"{folder}/file").st_size == len(DATA)
        fd = os_module.open(f"{folder}/file", os.O_RDONLY)
        assert os_module.read(fd, 4096) == DATA
        os_module.close(fd)
        os_module.rename(f"{folder}/file", f"{folder}/name")
        assert os_module.listdir(folder) == ["name"]


def rounds_of_tree(job: Any, rounds: int) -> None:
    """The same calls, in a transaction."""
    for number in range(rounds):
        folder = f"/{number}"
        job.mkdir(folder)
        file = job.open(f"{folder}/file", "xb", 0)
        file.write(DATA)
        file.close()
        assert job.stat(f"{folder}/file").size == len(DATA)
        file = job.open(f"{folder}/file", "rb", 0)
        assert file.read(4096) == DATA
        file.close()
        job.rename(f"{folder}/file", f"{folder}/name")
        assert job.listdir(folder) == ["name"]


def rounds_of_sqlite(base: Any, rounds: int) -> None:
    """What a table of paths and bytes does instead."""
    base.execute("CREATE TABLE file (path TEXT PRIMARY KEY, data BLOB) WITHOUT ROWID")
    read = "SELECT data FROM file WHERE path = ?"
    for number in range(rounds):
        folder = f"/{number}"
        base.execute("INSERT INTO file VALUES (?, ?)", (folder, b""))
        base.execute("INSERT INTO file VALUES (?, ?)", (f"{folder}/file", b""))
        base.execute("UPDATE file SET data = ? WHERE path = ?", (DATA, f"{folder}/file"))
        assert len(base.execute(read, (f"{folder}/file",)).fetchone()[0]) == len(DATA)
        assert base.execute(read, (f"{folder}/file",)).fetchone()[0] == DATA
        names = (f"{folder}/name", f"{folder}/file")
        base.execute("UPDATE file SET path = ? WHERE path = ?", names)
        listed = base.execute(
            "SELECT path FROM file WHERE path > ? AND path < ?", (f"{folder}/", f"{folder}0")
        )
        assert listed.fetchall() == [(f"{folder}/name",)]


def rounds_of_lmdb(change: Any, rounds: int) -> None:
    """The same with keys that are paths."""
    for number in range(rounds):
        folder = b"/%d" % number
        file, name = folder + b"/file", folder + b"/name"
        assert change.put(folder, b"", overwrite=False)
        assert change.put(file, b"", overwrite=False)
        change.put(file, DATA)
        assert len(change.get(file)) == len(DATA)
        assert change.get(file) == DATA
        change.put(name, change.get(file))
        assert change.delete(file)
        assert names_below(change, folder + b"/") == [name]


def names_below(change: Any, front: bytes) -> list[bytes]:
    """The keys that begin so."""
    with change.cursor() as cursor:
        cursor.set_range(front)
        keys = cursor.iternext(keys=True, values=False)
        return list(itertools.takewhile(lambda key: key.startswith(front), keys))


def by_library(rounds: int, _: str) -> None:
    from nuzolged import Tree

    with Tree() as tree, tree.begin() as job:
        rounds_of_tree(job, rounds)


def by_pyfakefs(rounds: int, _: str) -> None:
    from pyfakefs import fake_filesystem

    rounds_of_os(fake_filesystem.FakeOsModule(fake_filesystem.FakeFilesystem()), "", rounds)


def by_sqlite(rounds: int, _: str) -> None:
    import sqlite3

    with sqlite3.connect(":memory:") as base:
        rounds_of_sqlite(base, rounds)


def by_lmdb(rounds: int, top: str) -> None:
    import lmdb  # type: ignore[import]

    with lmdb.open(top, map_size=1 << 30, sync=False) as base, base.begin(write=True) as change:
        rounds_of_lmdb(change, rounds)


def by_system(rounds: int, top: str) -> None:
    rounds_of_os(os, top, rounds)


def by_stats(rounds: int, _: str) -> None:
    """As many stats of the library as there are calls."""
    from nuzolged import Tree

    with Tree() as tree, tree.begin() as job:
        job.write_bytes("/file", DATA)
        for _ in range(rounds * CALLS_OF_A_ROUND):
            job.stat("/file")


WAYS_OF_PYTHON: dict[str, Callable[[int, str], None]] = {
    "library": by_library,
    "lmdb": by_lmdb,
    "pyfakefs": by_pyfakefs,
    "sqlite": by_sqlite,
    "stats": by_stats,
    "system": by_system,
}


def take(way: str, rounds: int, top: str) -> None:
    """Tells the time that one way takes in this process, or ends it with status 2 if there is no
    such way."""
    if way not in WAYS_OF_PYTHON:
        sys.exit(2)
    try:
        WAYS_OF_PYTHON[way](0, top)  # (imports what it needs)
    except ImportError:
        sys.exit(2)
    begun = time.process_time()
    WAYS_OF_PYTHON[way](rounds, top)
    print(f"{time.process_time() - begun:.6f}")


# ---- all of them


class Way(NamedTuple):
    """A way to make the calls."""

    row: str
    column: str
    command: list[str]
    #: The folder in which it has one of its own, if it needs one.
    above: Path | None = None


def command_of_c(folder: str) -> list[str] | None:
    """Compiles the ways from C."""
    words = ["-std=c11", "-O2", "-w", f"-I{HERE.parent / 'c'}", str(HERE / "rounds.c")]
    words += [str(OUT / "libnuzolged.a"), "-o", f"{folder}/rounds"]
    compiler = os.environ.get("CC", "cc")
    for define, header, library in (
        ("-DWITH_LMDB", "lmdb.h", "-llmdb"),
        ("-DWITH_SQLITE", "sqlite3.h", "-lsqlite3"),
    ):
        looks = [compiler, "-E", "-include", header, "-x", "c", "/dev/null"]
        if subprocess.run(looks, capture_output=True).returncode == 0:
            words += [define, library]
    return [f"{folder}/rounds"] if is_built(compiler, *words) else None


def command_of_rust(folder: str) -> list[str] | None:
    """Compiles the ways from Rust."""
    words = ["build", "--release", "--offline", "-q", "--target-dir", folder]
    os.environ["NUZOLGED_LIB_DIR"] = str(OUT)
    is_there = is_built("cargo", *words, "--manifest-path", str(HERE / "Cargo.toml"))
    return [f"{folder}/release/rounds"] if is_there else None


def is_built(*command: str) -> bool:
    try:
        subprocess.run(command, check=True)
        return True
    except (OSError, subprocess.CalledProcessError) as error:
        print(f"left out: {error}", file=sys.stderr)
        return False


def ways(folder: str) -> Iterator[Way]:
    """All ways, those from C and Rust by programs that are made in a folder."""
    commands = {
        "C": command_of_c(folder),
        "Rust": command_of_rust(folder),
        "Python": [sys.executable, str(Path(__file__).resolve()), "--way"],
    }
    memory = IN_MEMORY if IN_MEMORY.is_dir() else Path(tempfile.gettempdir())
    for row, way, above in (
        ("this library", "library", None),
        ("this library, for threads", "shared", None),
        ("the system, in memory", "system", memory),
        ("the system, on the disk", "system", Path(tempfile.gettempdir())),
        ("LMDB, in memory", "lmdb", memory),
        ("SQLite, in memory", "sqlite", None),
        ("pyfakefs", "pyfakefs", None),
        ("a stat by this library", "stats", None),
    ):
        for column, command in commands.items():
            if command:
                yield Way(row, column, [*command, way], above)


def taken(way: Way, rounds: int) -> float | None:
    """How many microseconds a call takes one way, if that is there."""
    with tempfile.TemporaryDirectory(dir=way.above) as top:
        ran = subprocess.run([*way.command, str(rounds), top], capture_output=True, text=True)
    if ran.returncode == 2:
        return None
    if ran.returncode != 0:
        sys.exit(f"{way.row} from {way.column}: {ran.stderr}")
    return float(ran.stdout) / (rounds * CALLS_OF_A_ROUND) * 1e6


def main(rounds: int) -> None:
    os.environ["PYTHONPATH"] = str(HERE.parent / "python")
    least: dict[tuple[str, str], float] = {}
    with tempfile.TemporaryDirectory() as folder:
        all_ways = list(ways(folder))
        for _ in range(TIMES):
            for way in all_ways:
                time_of_call = taken(way, rounds)
                if time_of_call is not None:
                    key = way.row, way.column
                    least[key] = min(least.get(key, time_of_call), time_of_call)
    print(f"{'microseconds a call':28}{'C':>8}{'Rust':>8}{'Python':>8}")
    for row in dict.fromkeys(row for row, _ in least):
        cells = (least.get((row, column)) for column in ("C", "Rust", "Python"))
        print(f"{row:28}" + "".join(" " * 8 if cell is None else f"{cell:8.2f}" for cell in cells))


if __name__ == "__main__":
    if sys.argv[1:2] == ["--way"]:
        take(sys.argv[2], int(sys.argv[3]), sys.argv[4])
    else:
        main(int(sys.argv[1]) if len(sys.argv) > 1 else 2000)
