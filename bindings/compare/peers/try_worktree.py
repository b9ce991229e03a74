"""try_worktree.py: a branch and a worktree of git for each step, which is merged to be kept."""
import os
import shutil
import subprocess

import asked

PEOPLE = [f"GIT_{who}_{what}" for who in ("AUTHOR", "COMMITTER") for what in ("NAME", "EMAIL")]
ENVIRONMENT = {**os.environ, **dict.fromkeys(PEOPLE, "nobody"), "HOME": "/nonexistent"}


def git(folder, *words, status=0):
    words = ["git", "-C", str(folder), *map(str, words)]
    ended = subprocess.run(words, env=ENVIRONMENT, capture_output=True, text=True)
    if status == 0 and ended.returncode != 0:
        raise RuntimeError(f"{words}: {ended.stdout}{ended.stderr}")
    return ended


def commit(folder):
    """Commits all that a folder holds."""
    git(folder, "add", "--all")
    git(folder, "commit", "--quiet", "--allow-empty", "--message", "work")


class Branch:
    """A step: a branch of what is around it, in a worktree."""

    def __init__(self, around):
        commit(around.folder)
        self.around = around
        self.top = around.top
        self.name = f"step-{len(list(self.top.glob('step-*')))}"
        self.folder = self.top / self.name
        git(around.folder, "worktree", "add", "-b", self.name, self.folder)

    def begin(self):
        return Branch(self)

    def make(self, name, data):
        (self.folder / name).write_bytes(data)

    def names(self):
        return names_of(self.folder)

    def keep(self):
        commit(self.folder)
        merged = git(self.around.folder, "merge", "--quiet", "--no-edit", self.name, status=None)
        if merged.returncode != 0:
            said = [line for line in merged.stdout.splitlines() if "CONFLICT" in line]
            raise asked.Blocked(f"at the merge: {said}")

    def undo(self):
        git(self.around.folder, "worktree", "remove", "--force", self.folder)
        git(self.around.folder, "branch", "-D", self.name)


def names_of(folder):
    return sorted(set(os.listdir(folder)) - {".git"})


class Repository(asked.Peer):
    def __init__(self, top):
        super().__init__(top)
        self.folder = top / "target"
        if not self.folder.exists():
            self.folder.mkdir()
            git(self.folder, "init", "--quiet")

    def begin(self):
        return Branch(self)

    def names(self):
        return names_of(self.folder)

    def path(self, name):
        return self.folder / name


if __name__ == "__main__":
    if not shutil.which("git"):
        asked.skip("git")
    asked.main(Repository, asked.first_line("git", "version"))
