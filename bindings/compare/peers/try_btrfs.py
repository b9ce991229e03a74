"""try_btrfs.py: as try_temporary.py, with a snapshot of btrfs in place of a copy.

It needs root, mkfs.btrfs and a loop device: it makes a file system in a file, and mounts it in a
mount namespace of its own. Then it goes on as nobody, since a user may take snapshots.
"""
import os
import shutil
import subprocess
import sys
import tempfile
from pathlib import Path

import asked
import try_temporary

MEGABYTES = 256


def btrfs(*words):
    subprocess.run(["btrfs", "subvolume", *map(str, words)], check=True, stdout=subprocess.DEVNULL)


def snapshot_of(folder, top):
    taken = Path(tempfile.mkdtemp(dir=top)) / "snapshot"
    btrfs("snapshot", folder, taken)
    return taken


class Snapshot(try_temporary.Copy):
    def begin(self):
        return Snapshot(self)

    def copied(self):
        return snapshot_of(self.folder, self.top)


class Volume(try_temporary.Directory):
    def __init__(self, top):
        asked.Peer.__init__(self, top)
        if not (top / "target").exists():
            btrfs("create", top / "first")
            self.take(top / "first")

    def begin(self):
        return Snapshot(self)

    def copied(self):
        return snapshot_of(os.path.realpath(self.top / "target"), self.top)


def mount(folder):
    """Makes a file system, mounts it, and gives it to nobody, who goes on."""
    image = f"{folder}/image"
    with open(image, "wb") as file:
        file.truncate(MEGABYTES << 20)
    subprocess.run(["mkfs.btrfs", "-q", image], check=True, stdout=subprocess.DEVNULL)
    os.mkdir(f"{folder}/mount")
    if subprocess.run(["mount", "-o", "loop", image, f"{folder}/mount"]).returncode != 0:
        asked.skip("loop device, or no right to mount it")
    os.chown(f"{folder}/mount", 65534, 65534)
    os.chmod(folder, 0o755)
    return f"{folder}/mount"


def main(folder):
    top = mount(folder)
    child = os.fork()
    if child == 0:
        os.setgroups([])
        os.setgid(65534)
        os.setuid(65534)
        asked.main(Volume, asked.first_line("btrfs", "version"), top)
        sys.stdout.flush()
        os._exit(0)
    os.waitpid(child, 0)
    subprocess.run(["umount", top], check=True)


if __name__ == "__main__":
    if os.geteuid() != 0 or not shutil.which("mkfs.btrfs"):
        asked.skip("mkfs.btrfs, or this is not root")
    if sys.argv[1:] != ["inside"]:
        os.execvp("unshare", ["unshare", "-m", sys.executable, sys.argv[0], "inside"])
    with tempfile.TemporaryDirectory() as own:
        main(own)
