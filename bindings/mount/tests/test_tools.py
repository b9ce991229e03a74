"""Tools that know of no transaction, each committed, aborted and killed half way.

A tool has to make in a step what it makes in a folder of the disk.
"""
from __future__ import annotations

import compileall
import os
import shutil
import zipfile
from pathlib import Path

import mounts

FILES = 240


def fill(top: Path, count: int = FILES) -> Path:
    """Makes a folder with files of all sizes, modes, links and times."""
    for number in range(count):
        path = top / f"d{number % 7}" / f"e{number % 5}" / f"f{number:03}"
        path.parent.mkdir(parents=True, exist_ok=True)
        path.write_bytes(bytes([number % 256]) * (number * number % 40_000))
        path.chmod((0o644, 0o755, 0o600, 0o4711)[number % 4])
        os.utime(path, ns=(0, 1_234_567_890_123_456_789 + number))
    os.link(top / "d1" / "e1" / "f001", top / "another_name")
    os.symlink("d1/e1/f001", top / "link")
    os.symlink("nothing", top / "d0" / "leads_nowhere")
    return top


class Tool:
    """A tool, what it is given, and how it is called for a folder that has been there before."""

    needs: tuple[str, ...] = ()
    is_for_root = False
    # how the paths begin of the files whose times the tool sets
    timed: str | None = ""

    def __init__(self, given: Path):
        self.given = given
        given.mkdir()

    def prepare(self) -> None:
        """Makes what the tool is given."""

    def before(self, target: Path) -> None:
        """Makes what is in the folder before."""
        (target / "kept").mkdir(parents=True)
        (target / "kept" / "file").write_text("as it was")

    def words(self, target: Path) -> list[object]:
        """The command."""
        raise NotImplementedError

    def is_half_done(self, target: Path) -> bool:
        """Whether the tool has begun and not ended."""
        raise NotImplementedError


class Tar(Tool):
    needs = ("tar",)

    def prepare(self) -> None:
        mounts.run("tar", "-C", fill(self.given / "source"), "-cf", self.given / "archive.tar", ".")

    def words(self, target: Path) -> list[object]:
        return ["tar", "-C", target, "-xpf", self.given / "archive.tar"]

    def is_half_done(self, target: Path) -> bool:
        return len(list(target.glob("d*/e*/f*"))) > FILES // 10


class Copy(Tool):
    needs = ("cp",)

    def prepare(self) -> None:
        fill(self.given / "source")

    def words(self, target: Path) -> list[object]:
        return ["cp", "-a", f"{self.given}/source/.", target]

    def is_half_done(self, target: Path) -> bool:
        return len(list(target.glob("d*/e*/f*"))) > FILES // 10


class Install(Tool):
    """make install, by a Makefile in which install is called for each file."""

    needs = ("make", "install")
    timed = None

    def prepare(self) -> None:
        fill(self.given / "source", 60)
        rules = ["install:", "\tinstall -d $(DESTDIR)/usr/lib $(DESTDIR)/usr/share/many"]
        files = sorted(self.given.glob("*/d*/e*/f*"))
        rules += [f"\tinstall -m {mode} {file.relative_to(self.given)} $(DESTDIR)/usr/share/many"
                  for mode, file in zip((644, 755, 600) * 20, files)]
        rules += ["\tln -sf many/f001 $(DESTDIR)/usr/share/link",
                  "\tinstall -m 644 Makefile $(DESTDIR)/kept/file"]
        (self.given / "Makefile").write_text("\n".join(rules) + "\n")

    def words(self, target: Path) -> list[object]:
        return ["make", "-s", "-C", self.given, "install", f"DESTDIR={target}"]

    def is_half_done(self, target: Path) -> bool:
        return len(list(target.glob("usr/share/many/*"))) > 5


class Build(Tool):
    """gcc with make, in the folder itself."""

    needs = ("gcc", "make")
    timed = None

    def before(self, target: Path) -> None:
        super().before(target)
        parts = [f"part{number}" for number in range(6)]
        for part in parts:
            text = f'#include "all.h"\nint {part}(void) {{ return 1; }}\n'
            (target / f"{part}.c").write_text(text)
        (target / "all.h").write_text("".join(f"int {part}(void);\n" for part in parts))
        (target / "main.c").write_text('#include "all.h"\nint main(void) { return part0() - 1; }\n')
        objects = " ".join(f"{part}.o" for part in [*parts, "main"])
        (target / "Makefile").write_text(
            f"program: {objects}\n\tgcc $^ -o $@\n%.o: %.c all.h\n\tgcc -c $< -o $@\n")

    def words(self, target: Path) -> list[object]:
        return ["make", "-s", "-j2", "-C", target]

    def is_half_done(self, target: Path) -> bool:
        return bool(list(target.glob("*.o")))


class Dpkg(Tool):
    """dpkg --unpack of a package that is made on the spot, with a database of its own."""

    needs = ("dpkg", "dpkg-deb")
    is_for_root = True
    timed = "usr"

    def prepare(self) -> None:
        source = fill(self.given / "source" / "usr" / "share" / "many").parents[2]
        (source / "DEBIAN").mkdir()
        (source / "DEBIAN" / "control").write_text(
            "Package: many\nVersion: 1\nArchitecture: all\nMaintainer: nobody <nobody@example>\n"
            "Description: many files\n")
        mounts.run("dpkg-deb", "--root-owner-group", "-Znone", "--build", source,
                   self.given / "many.deb")

    def before(self, target: Path) -> None:
        super().before(target)
        database = target / "var" / "lib" / "dpkg"
        for folder in ("info", "updates", "triggers"):
            (database / folder).mkdir(parents=True)
        (database / "status").touch()

    def words(self, target: Path) -> list[object]:
        return ["dpkg", f"--root={target}", "--log=/dev/null", "--force-bad-path",
                "--force-unsafe-io", "--unpack", self.given / "many.deb"]

    def is_half_done(self, target: Path) -> bool:
        return len(list(target.glob("usr/share/many/d*/e*/f*"))) > FILES // 10


class Compile(Tool):
    """python3 -m compileall, which writes each file under another name and renames it."""

    needs = ("python3",)
    timed = None

    def before(self, target: Path) -> None:
        super().before(target)
        here = Path(compileall.__file__).parent
        for module in sorted(here.glob("[a-d]*.py"))[:30]:
            shutil.copy2(module, target)

    def words(self, target: Path) -> list[object]:
        return ["python3", "-m", "compileall", "-q", "-s", target, "-p", "lib", target]

    def is_half_done(self, target: Path) -> bool:
        return bool(list(target.glob("__pycache__/*.pyc")))


class Pip(Tool):
    """pip install of a wheel that is made on the spot."""

    needs = ("python3", "pip3")
    timed = None

    def prepare(self) -> None:
        self.wheel = self.given / "many-1-py3-none-any.whl"
        told = "many-1.dist-info"
        with zipfile.ZipFile(self.wheel, "w") as packed:
            for number in range(FILES):
                packed.writestr(f"many/part{number}.py", f"number = {number}\n")
            packed.writestr(f"{told}/METADATA", "Metadata-Version: 2.1\nName: many\nVersion: 1\n")
            packed.writestr(f"{told}/WHEEL",
                            "Wheel-Version: 1.0\nRoot-Is-Purelib: true\nTag: py3-none-any\n")
            packed.writestr(f"{told}/RECORD", "")

    def words(self, target: Path) -> list[object]:
        return ["python3", "-m", "pip", "install", "-q", "--no-index", "--no-deps", "--no-compile",
                "--disable-pip-version-check", "--root-user-action=ignore",
                "--target", target / "site", self.wheel]

    def is_half_done(self, target: Path) -> bool:
        return len(list(target.glob("site/many/*"))) > FILES // 10


class ToolTest(mounts.MountTest):
    """The tests of each tool."""

    kind: type[Tool]

    def setUp(self) -> None:
        super().setUp()
        if not all(shutil.which(each) for each in self.kind.needs):
            self.skipTest(f"one of {self.kind.needs} is not there")
        if self.kind.is_for_root and os.geteuid() != 0:
            self.skipTest(f"{self.kind.needs[0]} is for root")
        self.tool = self.kind(self.disk / "given")
        self.tool.prepare()
        self.before = self.folder("before")
        self.tool.before(self.before)
        self.mounted = self.mount("--from", self.before)
        self.step = self.mounted.top / "step"

    def after(self) -> Path:
        """What the tool makes on the disk."""
        target = self.disk / "after"
        mounts.run("cp", "-a", self.before, target)
        mounts.run(*self.tool.words(target))
        return target

    def run_in_step(self, *more: object, **options) -> None:
        mounts.nuz("run", "--in", self.step, "--", *more, *self.tool.words(self.step), **options)

    def assert_as_before(self) -> None:
        self.assertFalse(self.step.exists())
        self.assert_same(self.before, self.mounted.job)
        self.assert_free(self.mounted)

    def is_half_done(self) -> bool:
        try:
            return self.step.exists() and self.tool.is_half_done(self.step)
        except FileNotFoundError:
            return False  # (something was renamed while it was looked at)

    def kill_half_way(self) -> bool:
        """Kills the tool; whether that was half way."""
        running = mounts.start(mounts.NUZ, "run", "--in", self.step, "--",
                               *self.tool.words(self.step))
        begun = mounts.wait_until(lambda: running.poll() is not None or self.is_half_done(), 30)
        mounts.kill_below(running.pid)
        self.assertTrue(begun and mounts.ended_within(running))
        return running.returncode != 0

    def test_committed(self) -> None:
        after = self.after()
        self.run_in_step()
        self.assertFalse(self.step.exists())
        self.assert_same(after, self.mounted.job, self.tool.timed)
        mounts.nuz("save", self.mounted.job, self.disk / "saved")
        self.assert_same(self.mounted.job, self.disk / "saved")
        self.assert_free(self.mounted)

    def test_aborted(self) -> None:
        self.run_in_step("sh", "-c", '"$@" && exit 7', "sh", status=7)
        self.assert_as_before()

    def test_killed_half_way(self) -> None:
        # (a tool that ends before it is killed has to be tried again)
        for _ in range(5):
            if self.kill_half_way():
                break
            self.mounted.close()
            self.mounted = self.mount("--from", self.before)
        else:
            self.fail("the tool was never killed half way")
        self.assert_as_before()


class TarTest(ToolTest):
    kind = Tar


class CopyTest(ToolTest):
    kind = Copy


class InstallTest(ToolTest):
    kind = Install


class BuildTest(ToolTest):
    kind = Build


class DpkgTest(ToolTest):
    kind = Dpkg


class CompileTest(ToolTest):
    kind = Compile


class PipTest(ToolTest):
    kind = Pip


del ToolTest  # (it has no tool)
