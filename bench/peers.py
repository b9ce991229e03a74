"""The peers, compiled into a folder."""
import collections
import os
import subprocess

SOURCES = os.path.join(os.path.dirname(os.path.abspath(__file__)), "peers")
FLAGS = ["-std=c11", "-O2", "-Wall", "-Wextra"]
COMMON = ["play.c", "text.c", "paths.c"]

# A peer by its name: what it is made of, and what it is linked with.
PEERS = {
    "plain": ["plain.c", "calls.c", "tree.c", *COMMON],
    "undo": ["undo.c", "calls.c", "tree.c", *COMMON],
    "lmdb": ["lmdb.c", "store.c", *COMMON, "-llmdb"],
}

# A player: a name for the table, and the command that runs it.
Player = collections.namedtuple("Player", "name words")


def compiled(folder, name, parts):
    """The program of that name, compiled into the folder."""
    program = os.path.join(folder, name)
    inputs = [part if part.startswith("-") else os.path.join(SOURCES, part) for part in parts]
    subprocess.run([compiler(), *FLAGS, "-o", program, *inputs], check=True)
    return program


def compiler():
    return os.environ.get("CC", "cc")


def has_lmdb():
    """Whether there is an LMDB to compile with."""
    words = [compiler(), "-x", "c", "-", "-llmdb", "-o", os.devnull]
    test = b"#include <lmdb.h>\nint main(void) { return mdb_version(0, 0, 0) == 0; }\n"
    return subprocess.run(words, input=test, stderr=subprocess.DEVNULL).returncode == 0


def all_peers(folder):
    """The peers that are available; the others are reported."""
    names = list(PEERS)
    if not has_lmdb():
        print("bench: lmdb skipped: there is no lmdb.h (Debian: liblmdb-dev)")
        names.remove("lmdb")
    return [Player(name, [compiled(folder, name, PEERS[name])]) for name in names]
