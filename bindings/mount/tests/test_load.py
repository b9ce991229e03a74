"""nuz mount --from: what of a folder a tree does not hold is told."""
from __future__ import annotations

import os
import struct
import subprocess
from pathlib import Path

import mounts

# an ACL by which a user may read what the mode keeps from him: of the owner, that user, the group,
# the mask and all others (linux/posix_acl_xattr.h)
ACL = struct.pack("<I", 2) + b"".join(struct.pack("<HHI", *each) for each in (
    (0x01, 6, 0xFFFFFFFF), (0x02, 4, 12), (0x04, 0, 0xFFFFFFFF), (0x10, 4, 0xFFFFFFFF),
    (0x20, 0, 0xFFFFFFFF)))
# CAP_NET_BIND_SERVICE, permitted and effective (linux/capability.h)
CAPABILITY = struct.pack("<IIIII", 0x02000001, 1 << 10, 0, 0, 0)


class LeftOutTest(mounts.MountTest):
    def setUp(self) -> None:
        super().setUp()
        self.source = self.folder("source", file="text", other="text")
        (self.source / "sub").mkdir()
        os.symlink("file", self.source / "link")

    def set_attribute(self, path: Path, name: str, value: bytes) -> None:
        try:
            os.setxattr(path, name, value)
        except OSError as error:
            self.skipTest(f"{name} can not be set here: {error.strerror}")

    def load(self) -> subprocess.CompletedProcess:
        return mounts.nuz("run", "--from", "source", "--", "cat", "file", "sub/file",
                          cwd=self.disk, status=None)

    def assert_told(self, *lines: str) -> None:
        (self.source / "sub" / "file").write_text(" below")
        ended = self.load()
        self.assertEqual(ended.stdout, "text below")
        self.assertEqual(ended.stderr, "".join(f"nuz: load source: {line}\n" for line in lines))

    def test_nothing(self) -> None:
        (self.source / "sub" / "empty").touch()
        self.assert_told()

    def test_holes(self) -> None:
        os.truncate(self.source / "other", 1 << 20)
        with open(self.source / "sub" / "image", "wb") as file:
            file.seek(1 << 20)
            file.write(b"end")
        (self.source / "zeros").write_bytes(bytes(1 << 20))
        if (self.source / "other").stat().st_blocks >= 2048:
            self.skipTest("there are no holes here")
        self.assert_told("holes become zeros (files: 2; the first: source/"
                         f"{self.first('other', 'sub/image')})")

    def first(self, *paths: str) -> str:
        """Which of some paths is told first: one of the first ones in the order of the disk."""
        told = self.load().stderr
        found = [path for path in paths if f"the first: source/{path})" in told]
        self.assertEqual(len(found), 1, told)
        return found[0]

    def test_extended_attributes(self) -> None:
        for name in ("user.one", "user.other"):
            self.set_attribute(self.source / "sub", name, b"value")
        self.assert_told("extended attributes are left out (files: 1; the first: source/sub)")

    def test_acls(self) -> None:
        self.set_attribute(self.source / "file", "system.posix_acl_access", ACL)
        self.assert_told("ACLs are left out (files: 1; the first: source/file)")

    def test_file_capabilities(self) -> None:
        self.set_attribute(self.source / "file", "security.capability", CAPABILITY)
        self.assert_told("file capabilities are left out (files: 1; the first: source/file)")

    def test_each_kind_once(self) -> None:
        self.set_attribute(self.source / "file", "user.name", b"value")
        self.set_attribute(self.source / "file", "system.posix_acl_access", ACL)
        self.assert_told("extended attributes are left out (files: 1; the first: source/file)",
                         "ACLs are left out (files: 1; the first: source/file)")

    def test_of_a_mount(self) -> None:
        """It is reported before the mount goes into the background."""
        self.set_attribute(self.source / "file", "user.name", b"value")
        top = self.disk / "mount"
        ended = mounts.nuz("mount", "--from", self.source, top)
        self.addCleanup(mounts.run, "fusermount3", "-u", "-z", top)
        self.assertIn("extended attributes are left out (files: 1", ended.stderr)
