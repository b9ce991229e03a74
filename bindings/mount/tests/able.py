"""able.py: its status is 0 if a file system may be mounted by FUSE."""
from __future__ import annotations

import os
import socket
import subprocess
import sys
import tempfile


def can_mount(folder: str) -> bool:
    """Whether fusermount3 mounts a file system, which nobody serves. (It sends a descriptor.)"""
    here, there = socket.socketpair()
    with here, there:
        words = ["fusermount3", "--", folder]
        environment = {**os.environ, "_FUSE_COMMFD": str(there.fileno())}
        mounted = subprocess.run(words, env=environment, pass_fds=[there.fileno()],
                                 capture_output=True)
        if mounted.returncode == 0:
            subprocess.run(["fusermount3", "-u", "-z", folder], check=True)
        return mounted.returncode == 0


def main() -> int:
    folder = tempfile.mkdtemp()
    try:
        return not can_mount(folder)
    finally:
        os.rmdir(folder)


if __name__ == "__main__":
    sys.exit(main())
