"""install: installs packages, each a folder of files, into a folder.

    install.py FOLDER PACKAGE..

A package is installed as a whole or not at all: if one of its files exists already, or can't be
read, nothing of it is left, and the others stay. At the end, a folder with everything that was
installed replaces the old one, all at once. If that fails, or the power fails meanwhile, the folder
is as it was. Modes, times, files with several names and symbolic links are kept, and owners if root
installs. If there is anything else, like a pipe, nothing of that package, or of the folder, is
installed. The status is 0 if each package was installed, and otherwise 1.
"""
from __future__ import annotations

import os
import sys

from nuzolged import Transaction, Tree, copy_in, copy_out


def install(job: Transaction, package: str) -> bool:
    """Installs a package in a step of its own, and returns whether that went well."""
    name = os.path.basename(os.path.normpath(package))
    try:
        with job.begin() as step:
            copy_in(step, package)
    except OSError as error:
        print(f"{name}: not installed: {error}")
        return False
    print(f"{name}: installed")
    return True


def install_all(folder: str, packages: list[str]) -> bool:
    """Installs packages into a folder, and returns whether all went well."""
    with Tree() as tree:
        with tree.begin() as job:
            copy_in(job, folder)
            installed = [install(job, package) for package in packages]
        if any(installed):
            copy_out(tree, folder, replace=True, sync=True)
    return all(installed)


def main(folder: str, packages: list[str]) -> bool:
    """Does the same, and prints a line if the folder can't be read or replaced."""
    try:
        return install_all(os.path.normpath(folder), packages)
    except OSError as error:
        print(f"{folder} is as it was: {error}")
        return False


if __name__ == "__main__":
    if len(sys.argv) < 3:
        sys.exit("usage: install.py FOLDER PACKAGE..")
    sys.exit(0 if main(sys.argv[1], sys.argv[2:]) else 1)
