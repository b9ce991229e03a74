"""try_nuz.py: this project's mount, by the command nuz, once make has built it."""
import os
import shutil
import subprocess
import time
from pathlib import Path

import asked

NUZ = Path(__file__).resolve().parents[2] / "out" / "nuz"


def nuz(*words):
    return subprocess.run([NUZ, *map(str, words)], check=True, capture_output=True, text=True)


class Step:
    """A step: a directory of the mount."""

    def __init__(self, mount, name):
        self.mount = mount
        self.name = name
        self.folder = mount.place / name
        self.count = 0
        self.folder.mkdir()

    def begin(self):
        self.count += 1
        return Step(self.mount, f"{self.name}.{self.count}")

    def make(self, name, data):
        """Writes by another process, which is killed if it has to wait."""
        told = []
        ask = lambda: told.append(nuz("steps", self.mount.place).stdout)  # noqa: E731
        if asked.keeps_waiting(lambda: (self.folder / name).write_bytes(data), ask):
            line = [line for line in told[0].splitlines() if " waits " in line][0]
            raise asked.Blocked(f"the writer waits, and nuz steps has '{line}'", line)

    def names(self):
        return sorted(os.listdir(self.folder))

    def keep(self):
        nuz("commit", self.folder)

    def undo(self):
        nuz("abort", self.folder)


class Mount(asked.Peer):
    def __init__(self, top):
        super().__init__(top)
        self.place = top / f"mount{len(list(top.iterdir()))}"
        self.count = 0
        self.server = subprocess.Popen([NUZ, "mount", "--foreground", self.place])
        while not (self.place / "job").is_dir():
            if self.server.poll() is not None:
                asked.skip("right to mount")
            time.sleep(0.01)

    def begin(self):
        self.count += 1
        return Step(self, f"step{self.count}")

    def names(self):
        return sorted(os.listdir(self.place / "job"))

    def path(self, name):
        return self.place / "job" / name

    def pids(self):
        return [self.server.pid, os.getpid()]

    def close(self):
        for place in self.top.glob("**/mount*"):
            subprocess.run(["fusermount3", "-u", "-z", place], stderr=subprocess.DEVNULL)
        self.server.wait()


if __name__ == "__main__":
    if not NUZ.exists():
        asked.skip("nuz (make -C bindings mount)")
    if not shutil.which("fusermount3") or not os.access("/dev/fuse", os.R_OK | os.W_OK):
        asked.skip("FUSE for this user")
    asked.main(Mount, asked.first_line(NUZ, "--version"))
