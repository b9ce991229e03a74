"""try_overlayfs.py: a mount of the kernel's overlayfs for each step, with its own upper layer.

To keep a step is to put its layers on the stack of lower layers, for the mounts that come. It
works in a mount namespace of its own, and in a user namespace too if it is not run as root.
"""
import os
import shutil
import subprocess
import sys
import tempfile
from pathlib import Path

import asked


def mount(layers, place, upper=None):
    """Mounts layers, the topmost first, on a new folder."""
    options = "userxattr,lowerdir=" + ":".join(map(str, layers))
    if upper:
        work = Path(tempfile.mkdtemp(dir=upper.parent, prefix="work"))
        options += f",upperdir={upper},workdir={work}"
    place.mkdir()
    subprocess.run(["mount", "-t", "overlay", "-o", options, "overlay", place], check=True)


def unmount(place):
    subprocess.run(["umount", place], check=True)


class Layer:
    """A step: an upper layer over those of its kept steps, and over the layers around it."""

    def __init__(self, around):
        self.around = around
        self.top = around.top
        self.kept = []
        self.below = around.layers()
        self.mount()

    def mount(self):
        """Mounts it with an upper layer that is empty."""
        self.upper = Path(tempfile.mkdtemp(dir=self.top, prefix="upper"))
        self.folder = self.upper.with_name(f"step-{self.upper.name}")
        mount([*self.kept, *self.below], self.folder, self.upper)

    def begin(self):
        return Layer(self)

    def own(self):
        return [self.upper, *self.kept]

    def layers(self):
        return [*self.own(), *self.below]

    def make(self, name, data):
        (self.folder / name).write_bytes(data)

    def names(self):
        return sorted(os.listdir(self.folder))

    def take(self, layers):
        """Puts the layers of a step in it on its own."""
        unmount(self.folder)
        self.kept = [*layers, *self.own()]
        self.mount()

    def keep(self):
        unmount(self.folder)
        self.around.take(self.own())

    def undo(self):
        unmount(self.folder)
        for layer in self.own():
            shutil.rmtree(layer)


class Stack(asked.Peer):
    """The lower layers, which are folders on the disk."""

    def __init__(self, top):
        super().__init__(top)
        for number in range(2):
            (top / f"kept-{number:04}").mkdir(exist_ok=True)

    def begin(self):
        return Layer(self)

    def layers(self):
        return sorted(self.top.glob("kept-*"), reverse=True)

    def take(self, layers):
        for layer in reversed(layers):
            layer.rename(self.top / f"kept-{len(self.layers()):04}")

    def view(self):
        """Mounts all that is kept, and returns the place."""
        place = Path(tempfile.mkdtemp(dir=self.top)) / "view"
        mount(self.layers(), place)
        return place

    def names(self):
        return sorted(os.listdir(self.view()))

    def path(self, name):
        return self.view() / name


if __name__ == "__main__":
    if sys.argv[1:] != ["inside"]:
        spaces = "-m" if os.geteuid() == 0 else "-Urm"
        if subprocess.run(["unshare", spaces, "true"]).returncode != 0:
            asked.skip("right to make a mount namespace")
        os.execvp("unshare", ["unshare", spaces, sys.executable, sys.argv[0], "inside"])
    asked.main(Stack, f"Linux {os.uname().release}")
