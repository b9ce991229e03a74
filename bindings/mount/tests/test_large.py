"""Many files, and more bytes than there is memory for."""
from __future__ import annotations

import errno
import os
import random
import resource
import time
from pathlib import Path

import mounts

FILES = 100_000 if mounts.IS_WHOLE else 10_000
IN_A_FOLDER = 1_000
MEGABYTE = 1 << 20


class LargeTest(mounts.MountTest):
    def make(self, top: Path) -> None:
        for number in range(FILES):
            folder = top / str(number // IN_A_FOLDER)
            if number % IN_A_FOLDER == 0:
                folder.mkdir()
            fd = os.open(folder / str(number), os.O_WRONLY | os.O_CREAT | os.O_EXCL, 0o644)
            os.write(fd, b"%d" % number)
            os.close(fd)

    def test_many_files(self) -> None:
        mounted = self.mount()
        begun = time.monotonic()
        self.make(mounted.begin("step"))
        mounted.commit("step")
        made = time.monotonic()
        found = [(file.name, file.stat().st_size) for file in mounted.job.glob("*/*")]
        self.assertEqual(sorted(found), sorted((str(n), len(str(n))) for n in range(FILES)))
        print(f"{FILES} files: made in {made - begun:.1f} s, seen in {time.monotonic() - made:.1f}")
        step = mounted.begin("gone")
        mounts.run("rm", "-rf", *step.iterdir())
        self.assertEqual(os.listdir(step), [])
        mounted.abort("gone")
        self.assertEqual(len(os.listdir(mounted.job)), FILES // IN_A_FOLDER)

    def test_more_than_memory(self) -> None:
        most = 300 * MEGABYTE
        limit = resource.RLIMIT_AS, (most, most)
        mounted = self.mount(preexec_fn=lambda: resource.setrlimit(*limit))
        data = random.Random(1).randbytes(4 * MEGABYTE)
        (mounted.begin("kept") / "file").write_bytes(data)
        mounted.commit("kept")
        step = mounted.begin("large")
        with self.assertRaises(OSError) as raised:
            for number in range(most // len(data)):
                (step / str(number)).write_bytes(data)
        self.assertEqual(raised.exception.errno, errno.ENOMEM)
        mounted.abort("large")
        (mounted.begin("more") / "other").write_bytes(data)
        mounted.commit("more")
        self.assertEqual([(mounted.job / name).read_bytes() == data for name in ("file", "other")],
                         [True, True])
