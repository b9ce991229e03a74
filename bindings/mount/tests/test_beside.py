"""Random operations in a step, compared with the same ones on the disk."""
from __future__ import annotations

import os
import shutil
import tempfile
from pathlib import Path

import mounts
from beside import Beside

SEED = int(os.environ.get("SEED", "1"))
COUNT = 50_000 if mounts.IS_WHOLE else 10_000
ROUNDS = 60 if mounts.IS_WHOLE else 12


def folder_of_memory() -> str | None:
    return "/dev/shm" if os.access("/dev/shm", os.W_OK) else None


class BesideTest(mounts.MountTest):
    def setUp(self) -> None:
        super().setUp()
        self.memory = Path(tempfile.mkdtemp(dir=folder_of_memory()))
        self.addCleanup(shutil.rmtree, self.memory, ignore_errors=True)
        self.addCleanup(os.umask, os.umask(0))

    def assert_alike(self, one: Path, other: Path, seed: int, count: int) -> None:
        """A number of operations has the same outcome in both folders, and leaves the same."""
        beside = Beside(str(one), str(other), seed)
        try:
            beside.run(count)
            beside.compare()
        finally:
            beside.close()
        beside.compare()
        self.assertEqual("\n".join(beside.differing[:20]), "", f"with seed {seed}")

    def assert_all_alike(self, mounted: mounts.Mount, count: int) -> None:
        step = mounted.begin("step")
        self.assert_alike(step, self.memory, SEED, count)
        mounted.commit("step")
        # (of the job the kernel knows nothing yet, so this is what the tree holds)
        self.assert_same(self.memory, mounted.job, None)

    def test_in_a_step(self) -> None:
        mounted = self.mount()
        self.assert_all_alike(mounted, COUNT)
        self.assert_free(mounted)

    def test_by_the_rule_of_moss(self) -> None:
        self.assert_all_alike(self.mount("--moss"), COUNT // 5)

    def test_without_the_cache_of_the_kernel(self) -> None:
        mounted = self.mount("--no-cache")
        self.assert_all_alike(mounted, COUNT // 2)
        self.assert_free(mounted)

    def test_in_the_job(self) -> None:
        mounted = self.mount()
        self.assert_alike(mounted.job, self.memory, SEED + 1, COUNT // 5)
        mounted.commit("job")
        self.assert_same(self.memory, mounted.begin("step"), None)

    def test_steps_in_a_step(self) -> None:
        # (what the kernel keeps of a step has to be what its steps have left in it)
        mounted = self.mount()
        step, below = mounted.begin("step"), self.memory / "step"
        below.mkdir()
        for number in range(ROUNDS):
            self.assert_alike(step, below, SEED + number, 100)
            self.in_a_step(mounted, below, number)
            self.assert_same(below, step, None)
        mounted.commit("step")
        self.assert_same(below, mounted.job, None)

    def in_a_step(self, mounted: mounts.Mount, below: Path, number: int) -> None:
        """Makes operations in a step of the step, of which every second one is aborted."""
        name, beside = f"step.{number}", self.memory / "beside"
        mounts.run("cp", "-a", below, beside)
        self.assert_alike(mounted.begin(name), beside, 1_000 * SEED + number, 200)
        if number % 2:
            mounted.abort(name)
            shutil.rmtree(beside)
        else:
            mounted.commit(name)
            shutil.rmtree(below)
            beside.rename(below)
