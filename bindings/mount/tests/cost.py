"""cost.py [ROUNDS]: what tools cost in a step, compared with a file system in memory.

    NUZ=bindings/out/nuz python3 bindings/mount/tests/cost.py

The tools are tar, which unpacks 2,000 files, gcc, which compiles 20 files by make, and find, which
looks at all that tar has unpacked. Each runs three times, or ROUNDS times, in a folder of /dev/shm
and in a step of a mount of its own, and the least processor time is told: of the tool, and with it
that of the process that serves the mount. After it come how many calls of the tree were made and,
if strace is there, how many requests of the kernel were answered (in a run of its own).
"""
from __future__ import annotations

import os
import re
import resource
import shutil
import subprocess
import sys
import tempfile
from pathlib import Path

import mounts

FILES = 2_000
PARTS = 20


def given_to_tar(top: Path) -> list[object]:
    source = top / "source"
    for number in range(FILES):
        path = source / f"d{number // 50}" / f"file{number}"
        path.parent.mkdir(parents=True, exist_ok=True)
        path.write_bytes(b"x" * (number * 37 % 20_000))
    mounts.run("tar", "-C", source, "-cf", top / "archive.tar", ".")
    return ["tar", "-xf", top / "archive.tar"]


def given_to_make(top: Path) -> list[object]:
    source = top / "parts"
    source.mkdir()
    lines = "#include <stdio.h>\n#include <stdlib.h>\n#include <string.h>\n"
    for number in range(PARTS):
        (source / f"part{number}.c").write_text(
            f"{lines}int part{number}(void) {{ return printf(\"%d\", {number}); }}\n")
    objects = " ".join(f"part{number}.o" for number in range(PARTS))
    (source / "Makefile").write_text(f"all.o: {objects}\n\tld -r $^ -o $@\n%.o: %.c\n\tcc -c $<\n")
    return ["sh", "-c", f"cp {source}/* . && make -s"]


def seconds_of_process(pid: int) -> float:
    """How long all threads of a process have been on a processor."""
    tasks = Path(f"/proc/{pid}/task").iterdir()
    return sum(int((task / "schedstat").read_text().split()[0]) for task in tasks) / 1e9


def seconds_of(words: list[object], folder: Path) -> float:
    """The processor time of a command, and of all that it begins."""
    before = resource.getrusage(resource.RUSAGE_CHILDREN)
    mounts.run(*words, cwd=folder)
    after = resource.getrusage(resource.RUSAGE_CHILDREN)
    return after.ru_utime + after.ru_stime - before.ru_utime - before.ru_stime


def in_memory(words: list[object]) -> float:
    with tempfile.TemporaryDirectory(dir="/dev/shm") as folder:
        return seconds_of(words, Path(folder))


class InStep:
    """A run in a step: processor time, calls of the tree and requests of the kernel."""

    def __init__(self, words: list[object], top: Path, traced: bool = False):
        mounted = mounts.Mount(Path(tempfile.mkdtemp(dir=top)))
        step = mounted.begin("step")
        pid = mounted.serving()
        trace = self.trace(pid, top / "trace") if traced else None
        before = seconds_of_process(pid)
        self.seconds = seconds_of(words, step)
        self.seconds += seconds_of_process(pid) - before
        found = re.search(r"(?m)^step txn \d+ calls (\d+)", mounted.steps())
        self.calls = int(found.group(1)) if found else 0
        mounted.close()
        self.requests = self.counted(trace, top / "trace") if trace else 0

    @staticmethod
    def trace(pid: int, file: Path) -> subprocess.Popen:
        tracing = mounts.start("strace", "-f", "-qq", "-o", file, "-p", pid, "-e", "writev,write")
        status = Path(f"/proc/{pid}/status")
        mounts.wait_until(lambda: "TracerPid:\t0\n" not in status.read_text())
        return tracing

    @staticmethod
    def counted(tracing: subprocess.Popen, file: Path) -> int:
        tracing.wait(mounts.MOST_SECONDS)
        return sum("write" in line for line in file.read_text(errors="replace").splitlines())


def tell(name: str, words: list[object], top: Path, rounds: int) -> None:
    disk = min(in_memory(words) for _ in range(rounds))
    runs = [InStep(words, top) for _ in range(rounds)]
    least = min(run.seconds for run in runs)
    requests = InStep(words, top, True).requests if shutil.which("strace") else 0
    print(f"{name}: in memory {disk:.2f} s, in a step {least:.2f} s, {least / disk:.1f} times; "
          f"{runs[0].calls} calls of the tree, {requests or 'unknown'} requests of the kernel")


def main() -> None:
    rounds = int(sys.argv[1]) if sys.argv[1:] else 3
    with tempfile.TemporaryDirectory() as folder:
        top = Path(folder)
        unpack = given_to_tar(top)
        tell("tar x of 2,000 files", unpack, top, rounds)
        tell("gcc with make, 20 files", given_to_make(top), top, rounds)
        both = f"{' '.join(map(str, unpack))}; find . -type f -size +9k"
        tell("tar x, and find", ["sh", "-c", both], top, rounds)


if __name__ == "__main__":
    main()
