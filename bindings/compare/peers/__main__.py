"""peers: tries this project and other ways to undo work on files, and prints what it saw.

    /usr/bin/python3 bindings/compare/peers [--help] [PEER..]

There is a program for each peer here. asked.py has the questions. The row of a peer that is not
installed is skipped, and the program says what is missing. On Debian the packages are git,
btrfs-progs, db-util, golang-go, golang-github-spf13-afero-dev, default-jdk-headless,
libjimfs-java, nodejs and node-memfs; and python3-lmdb, python3-bsddb3 and python3-pyfakefs, which
are for /usr/bin/python3. This project's rows need `make -C bindings all mount`.

Run it as root: then each program is tried as nobody too, which shows whether it needs root. Only
root can try btrfs. No machine is crashed. Files that a peer keeps only in the memory of a process
are gone with the process, so pyfakefs, memfs, jimfs and afero are not killed.

An answer is 'yes', 'partly' or 'no', and what was seen. The answers are compared with the table in
docs/COMPARED.md, whose rows of ZFS and DaisyNFS are from documentation. The last line is 'N as the
table has it, M not, K not tried'. A program that fails counts as one of the M. The status is 0 if
M is 0.
"""
from __future__ import annotations

import contextlib
import os
import re
import stat
import subprocess
import sys
import tempfile
from pathlib import Path

HERE = Path(__file__).resolve().parent
TABLE = HERE.parents[2] / "docs" / "COMPARED.md"
#: The columns of the table that are tried, in its order.
COLUMNS = ("nested", "together", "blocks", "alone", "seen", "killed", "kept")
#: The most seconds that a program may take.
MOST_SECONDS = 600

PYTHON_PEERS = {
    "Temporary directory, `rename`": "try_temporary.py",
    "overlayfs": "try_overlayfs.py",
    "btrfs snapshots": "try_btrfs.py",
    "git worktree": "try_worktree.py",
    "LMDB": "try_lmdb.py",
    "SQLite savepoints": "try_sqlite.py",
    "Berkeley DB": "try_berkeley.py",
    "pyfakefs": "try_pyfakefs.py",
    "**Nuzolged, library**": "try_library.py",
    "**Nuzolged, `nuz`**": "try_nuz.py",
}
JARS = "/usr/share/java/jimfs.jar:/usr/share/java/guava.jar"

Answers = dict[str, tuple[str, str]]


def commands(folder: Path) -> dict[str, list[str]]:
    """Returns the command of each peer."""
    every = {name: [sys.executable, str(HERE / file)] for name, file in PYTHON_PEERS.items()}
    every["memfs"] = ["env", "NODE_PATH=/usr/share/nodejs", "node", str(HERE / "try_memfs.js")]
    every["jimfs"] = ["java", "-cp", JARS, str(HERE / "TryJimfs.java")]
    every["afero"] = [str(folder / "try_afero")]
    return every


def build_afero(folder: Path) -> None:
    """Builds the program in Go, if Go and the package are there."""
    places = {"GOPATH": "/usr/share/gocode", "GOCACHE": f"{folder}/cache"}
    words = ["go", "build", "-o", str(folder / "try_afero"), str(HERE / "try_afero.go")]
    try:
        environment = {**os.environ, "GO111MODULE": "off", **places}
        subprocess.run(words, env=environment, capture_output=True)
    except FileNotFoundError:
        print("there is no go")


def can_be_nobody(folder: Path) -> bool:
    """Returns whether programs can be run as nobody, in a mount namespace. Makes a /dev/fuse that
    anybody may open, as udev does."""
    if os.geteuid() != 0 or subprocess.run(["unshare", "-m", "true"]).returncode != 0:
        return False
    with contextlib.suppress(PermissionError):
        os.mknod(folder / "fuse", stat.S_IFCHR, os.makedev(10, 229))
        os.chmod(folder / "fuse", 0o666)
    return True


def as_nobody(command: list[str], folder: Path) -> list[str]:
    """Returns a command by which nobody runs this one."""
    inside = '! [ -e "$0" ] || mount --bind "$0" /dev/fuse; ' \
        'exec setpriv --reuid nobody --regid nogroup --clear-groups "$@"'
    return ["unshare", "-m", "sh", "-c", inside, str(folder / "fuse"), *command]


def answers(command: list[str]) -> Answers:
    """Runs the program of a peer, and returns its answers, or only why it is skipped."""
    try:
        ended = subprocess.run(
            command, capture_output=True, text=True, cwd="/", timeout=MOST_SECONDS
        )
    except FileNotFoundError:
        return {"skipped": ("no", f"there is no {Path(command[0]).name}")}
    except subprocess.TimeoutExpired:
        return {"failed": ("no", f"it takes more than {MOST_SECONDS} s")}
    told = re.findall(r"^(\w+): (.*?)(?:: (.*))?$", ended.stdout, re.M)
    if ended.returncode not in (0, 2):
        return {"failed": ("no", f"{ended.stderr.strip().splitlines()[-1:]}")}
    return {question: (answer, text) for question, answer, text in told}


def alone(own: Answers, by_nobody: Answers) -> tuple[str, str]:
    """Returns whether the peer needs neither root nor a mount."""
    needs = ["a mount"] if own["mounts"][0] == "yes" else []
    if any(by_nobody.get(question, ("",))[0] != own[question][0] for question in own):
        needs.insert(0, "root")
    return ("no" if needs else "yes"), f"needs {needs}" if needs else "nobody may do all of it"


def tried(command: list[str], folder: Path | None) -> Answers:
    """Returns the answers of a peer, with the one that root and nobody give together if there is a
    folder for what nobody needs."""
    own = answers(command)
    if "mounts" in own and folder:
        own["alone"] = alone(own, answers(as_nobody(command, folder)))
    return own


def show(name: str, own: Answers) -> None:
    print(name)
    for question in ("failed", "skipped", "version", *COLUMNS):
        if question in own:
            print(f"  {question:9} {': '.join(filter(None, own[question]))}", flush=True)


def rows() -> dict[str, list[str]]:
    """Returns the rows of the table, by the names of the peers."""
    text = TABLE.read_text() if TABLE.exists() else ""
    lines = [line.strip("| ").split(" | ") for line in text.splitlines() if line.startswith("| ")]
    return {cells[0]: cells[1:] for cells in lines}


def wrong_cells(name: str, own: Answers, cells: list[str]) -> tuple[int, int]:
    """Prints each cell of a row that is not as it was seen. Returns how many are, and are not."""
    pairs = [(question, cell) for question, cell in zip(COLUMNS, cells) if question in own]
    wrong = [(question, cell) for question, cell in pairs
             if re.split(r"\W", cell)[0] != own[question][0]]
    for question, cell in wrong:
        print(f"{name}, {question}: the table has '{cell}', seen {own[question][0]}")
    return len(pairs) - len(wrong), len(wrong)


def main(only: list[str]) -> int:
    table, same, other, skipped = rows(), 0, 0, 0
    with tempfile.TemporaryDirectory() as place:
        folder = Path(place)
        folder.chmod(0o755)
        build_afero(folder)
        for_nobody = folder if can_be_nobody(folder) else None
        for name, command in commands(folder).items():
            if only and not any(word.lower() in name.lower() for word in only):
                continue
            own = tried(command, for_nobody)
            show(name, own)
            good, bad = wrong_cells(name, own, table[name])
            same, other = same + good, other + bad + ("failed" in own)
            skipped += len(COLUMNS) - good - bad
    print(f"{same} as the table has it, {other} not, {skipped} not tried")
    return int(other > 0)


if __name__ == "__main__":
    if "--help" in sys.argv[1:]:
        print(__doc__.strip())
        sys.exit(0)
    os.environ["PYTHONDONTWRITEBYTECODE"] = "1"
    sys.exit(main(sys.argv[1:]))
