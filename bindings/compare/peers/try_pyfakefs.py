"""try_pyfakefs.py: the files in memory of pyfakefs, by its own os module."""
import os
import stat

import asked

try:
    import pyfakefs
    from pyfakefs import fake_filesystem
except ImportError:
    asked.skip("pyfakefs for this Python (python3-pyfakefs)")


class Fake(asked.Peer):
    def __init__(self, top):
        super().__init__(top)
        self.files = fake_filesystem.FakeFilesystem()
        self.os = fake_filesystem.FakeOsModule(self.files)

    def begin(self):
        raise asked.without_calls(
            [name for name in dir(self.files) + dir(self.os) if not name.startswith("_")]
        )

    def answer_seen(self):
        name = f"{self.top}/a"
        self.files.create_file(name, contents="read me")
        return asked.verdict(os.path.exists(name), "the system has no such file")

    def answer_killed(self):
        return "no", "it is in the memory of the process, and gone with it"

    def answer_kept(self):
        self.files.create_file("/a", contents="some")
        self.os.chmod("/a", 0o750)
        self.os.symlink("a", "/link")
        mode = oct(stat.S_IMODE(self.os.stat("/a").st_mode))
        is_kept = (mode, self.os.readlink("/link")) == ("0o750", "a")
        return asked.verdict(is_kept, f"0o750 is {mode}, a link is kept")

    def answer_mounts(self):
        return "no", "nothing of it is in the system"


if __name__ == "__main__":
    asked.main(Fake, f"pyfakefs {pyfakefs.__version__}")
