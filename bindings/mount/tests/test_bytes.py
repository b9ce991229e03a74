"""Random reads and writes of one file, by calls and through memory, and a file with holes."""
from __future__ import annotations

import mmap
import os
import random
import resource
import shutil
from pathlib import Path

import mounts

SEED = int(os.environ.get("SEED", "1"))
COUNT = 30_000 if mounts.IS_WHOLE else 4_000
LARGEST = 300_000
GIGABYTE = 1 << 30


class File:
    """A file that is open twice, and the bytes that it has to have."""

    def __init__(self, path: Path, source: random.Random):
        self.path = path
        self.source = source
        self.bytes = bytearray()
        self.open()

    def open(self) -> None:
        self.fds = [os.open(self.path, os.O_RDWR | os.O_CREAT, 0o644) for _ in range(2)]

    def close(self) -> None:
        os.close(self.fds[0])
        os.close(self.fds[1])

    @property
    def fd(self) -> int:
        return self.source.choice(self.fds)

    def part(self) -> tuple[int, int]:
        """Some offset, and how many bytes from there."""
        start = self.source.randrange(LARGEST)
        return start, min(self.source.choice((7, 4_096, 70_000)), LARGEST - start)

    def resize(self, size: int) -> None:
        self.bytes = self.bytes[:size] + bytes(max(0, size - len(self.bytes)))

    def put(self, start: int, data: bytes) -> None:
        if data:
            self.resize(max(len(self.bytes), start + len(data)))
        self.bytes[start:start + len(data)] = data

    # ---- the operations, each of which returns whether it found what it had to

    def write(self) -> bool:
        start, size = self.part()
        data = self.source.randbytes(size)
        self.put(start, data)
        return os.pwrite(self.fd, data, start) == size

    def append(self) -> bool:
        data = self.source.randbytes(self.source.randrange(500))
        with open(self.path, "ab", buffering=0) as file:
            file.write(data)
        self.put(len(self.bytes), data)
        return True

    def read(self) -> bool:
        start, size = self.part()
        return os.pread(self.fd, size, start) == self.bytes[start:start + size]

    def cut(self) -> bool:
        size = self.source.randrange(LARGEST)
        os.truncate(self.fd if size % 2 else self.path, size)
        self.resize(size)
        return os.fstat(self.fd).st_size == size

    def reserve(self) -> bool:
        start, size = self.source.randrange(LARGEST), self.source.randrange(1, 5_000)
        os.posix_fallocate(self.fd, start, size)
        self.resize(max(len(self.bytes), start + size))
        return os.stat(self.path).st_size == len(self.bytes)

    def copy(self) -> bool:
        """Copies a part to another place, as far as the system does."""
        start, size = self.part()
        to = self.source.randrange(LARGEST)
        if abs(to - start) < size:
            return True
        done = os.copy_file_range(self.fd, self.fd, size, start, to)
        self.put(to, bytes(self.bytes[start:start + done]))
        return done == min(size, max(0, len(self.bytes) - start)) or done < size

    def reopen(self) -> bool:
        self.close()
        self.open()
        return self.path.read_bytes() == self.bytes

    def read_memory(self) -> bool:
        if not self.bytes:
            return True
        with mmap.mmap(self.fd, len(self.bytes), access=mmap.ACCESS_READ) as held:
            start, size = self.part()
            return held[start:start + size] == self.bytes[start:start + size]

    def write_memory(self) -> bool:
        if not self.bytes:
            return True
        with mmap.mmap(self.fd, len(self.bytes)) as held:
            start = self.source.randrange(len(self.bytes))
            data = self.source.randbytes(min(9_000, len(self.bytes) - start))
            held[start:start + len(data)] = data
            self.put(start, data)
            if start % 2:
                held.flush()
        return True


OPERATIONS = {File.write: 6, File.append: 1, File.read: 6, File.cut: 2, File.reserve: 1,
              File.copy: 1, File.reopen: 1, File.read_memory: 3, File.write_memory: 3}


class BytesTest(mounts.MountTest):
    def test_random_parts(self) -> None:
        mounted = self.mount()
        step = mounted.begin("step")
        held = self.assert_parts(step / "file")
        mounted.commit("step")
        self.assertEqual((mounted.job / "file").read_bytes(), held)

    def assert_parts(self, path: Path) -> bytes:
        """Makes operations, and returns the bytes that the file has to have then."""
        source = random.Random(SEED)
        file = File(path, source)
        for number in range(COUNT):
            operation = source.choices(list(OPERATIONS), list(OPERATIONS.values()))[0]
            where = f"{operation.__name__}, operation {number} with seed {SEED}"
            self.assertTrue(operation(file), where)
        file.close()
        self.assertEqual(path.read_bytes(), file.bytes)
        return bytes(file.bytes)

    def test_written_by_memory_alone(self) -> None:
        """What a program has written so is there when it has ended, and is committed then."""
        if not shutil.which("cc"):
            self.skipTest("cc is not there")
        program = self.disk / "mapped"
        mounts.run("cc", "-O1", Path(__file__).parent / "mapped.c", "-o", program)
        mounted = self.mount()
        step = mounted.begin("step")
        for how, status in {"unmap": 0, "sync": 0, "exit": 0, "kill": -9}.items():
            mounts.run(program, step / how, how, how, status=status)
        mounted.commit("step")
        for how in ("unmap", "sync", "exit", "kill"):
            with self.subTest(how=how):
                held = bytearray(3 * 4_096 + 100)
                held[4_094:4_094 + len(how)] = held[12_338:12_338 + len(how)] = how.encode()
                self.assertEqual((mounted.job / how).read_bytes(), held)

    def test_no_memory_for_what_is_written_by_memory(self) -> None:
        """What the program could not see has failed: so the step can't be committed."""
        mounted = self.mount()
        serving = mounted.serving()
        taken = int(Path(f"/proc/{serving}/statm").read_text().split()[0]) * mmap.PAGESIZE
        # (all pages are read first: one that can't be read ends the program, and is no secret)
        script = "import mmap, os; file = open('file', 'w+b'); file.truncate(64 << 20); " \
            "memory = mmap.mmap(file.fileno(), 0); memory[::4096]; " \
            "memory[:] = os.urandom(64 << 20); memory.close()"
        write = "python3", "-c", script
        before = resource.prlimit(serving, resource.RLIMIT_AS, (taken + (32 << 20), -1))
        ended = mounts.nuz("run", "--in", mounted.top / "a", "--", *write, status=125)
        left = os.listdir(mounted.job)
        mounts.run(*write, cwd=mounted.job)
        resource.prlimit(serving, resource.RLIMIT_AS, before)
        self.assertIn("by a memory map is not all there", ended.stderr)
        self.assertEqual(left, [])
        ended = mounts.nuz("save", mounted.job, self.disk / "saved")
        self.assertIn("it is saved, but not all that a program has written", ended.stderr)

    def test_three_gigabytes_with_holes(self) -> None:
        mounted = self.mount()
        step = mounted.begin("step")
        places = {0: b"first", GIGABYTE + 5: b"second", 3 * GIGABYTE - 5: b"third"}
        with open(step / "file", "w+b", buffering=0) as file:
            for start, data in places.items():
                self.assertEqual(os.pwrite(file.fileno(), data, start), len(data))
        mounted.commit("step")
        with open(mounted.job / "file", "rb", buffering=0) as file:
            self.assertEqual(os.fstat(file.fileno()).st_size, 3 * GIGABYTE)
            for start, data in places.items():
                self.assertEqual(os.pread(file.fileno(), len(data), start), data)
            self.assertEqual(os.pread(file.fileno(), 4_096, 2 * GIGABYTE), bytes(4_096))
