"""Lines that carry files of the disk: put and get, with files of any bytes, names and kinds, disks
that fail, other transactions, and refused memory."""
import ctypes
import os
import random
import shutil
import socket
import stat
import subprocess
import tempfile

import playing
import refusals
import scripts

IS_ROOT = os.geteuid() == 0
LARGEST = 1_048_576
OTHER = 1000
DROP_CAPABILITY, READ_ALL, SEARCH_ALL = 24, 1, 2
REPORTS = b"tree\nlocks\nattributes\nwaits\n"


def tests():
    return refusals.tests("put and get are", transfers_refused)


# ---- refused memory


def transfers_refused(bench, **settings):
    """A transfer is answered and made, or refused and leaves nothing."""
    with tempfile.TemporaryDirectory() as work:
        put(f"{work}/in", b"two words")
        lines = b"begin\n1 put /f @%s\n1 get /f @%s\ntree\n"
        script = lines % (coded(f"{work}/in"), coded(f"{work}/out"))
        ran, counts = bench.unkind.run(["play"], script, **settings)
        return fault_of_run(ran, work), counts


def fault_of_run(ran, work):
    left = sorted(os.listdir(work))
    if left not in (["in"], ["in", "out"]):
        return f"{left} is left"
    is_there = "out" in left
    if is_there and contents(f"{work}/out") != b"two words":
        return "half a file is left"
    whole = b"txn 1\n5 ok\n8 ok\ntree 3\ndir 1\nedge 1 f 2\nfile 2 9 two%20words\n"
    if ran.status != 0:
        is_cut = scripts.is_cut_at_reply(ran.text, whole)
        is_told = ran.status == 1 and ran.errors.endswith(b"fault: Memory\n")
        return None if is_cut and is_told else f"status {ran.status}, {ran.errors!r}"
    replies = scripts.replies_of(ran.text)
    if ran.text == whole or replies[3:] == [b"refused Memory\n"]:
        return None if is_there else "there is no file"
    refused = (b"refused Memory\n", b"refused File\n")
    if len(replies) != 4 or is_there:
        return f"{ran.text!r}, and there is {left}"
    if replies[0] in refused:
        is_right = replies[1:] == [b"refused NoTxn\n"] * 2 + [b"tree 1\ndir 1\n"]
    elif replies[1] in refused:
        is_right = replies[2].endswith(b" ENOENT\n") and replies[3] == b"tree 1\ndir 1\n"
    else:
        is_right = replies[2] in refused and replies[3] == whole[whole.index(b"tree"):]
    return None if is_right else f"{ran.text!r}"


# ---- files on a real disk


def put(path, data=b""):
    with open(path, "wb") as file:
        file.write(data)


def contents(path):
    with open(path, "rb") as file:
        return file.read()


def coded(name):
    """Returns the name of a file as a script has it."""
    plain = b"abcdefghijklmnopqrstuvwxyz0123456789/._-"
    return b"".join(b"%c" % byte if byte in plain else b"%%%02X" % byte for byte in os.fsencode(name))


def told_of(path):
    """Returns all that a write could change of what is at a path."""
    told = os.lstat(path)
    data = contents(path) if stat.S_ISREG(told.st_mode) else None
    return told.st_ino, told.st_mode, told.st_nlink, told.st_size, told.st_ctime_ns, data


class Disk:
    """A folder, and runs of scripts in it."""

    def __init__(self, round_of, program, folder):
        self.check, self.run, self.program = round_of.check, round_of.Ran, program
        self.folder = folder
        os.mkdir(folder)

    def at(self, name):
        return os.path.join(os.fsencode(self.folder), os.fsencode(name))

    def play(self, lines, *words, limits=None, program=None):
        """Plays a script in the folder. No run of one takes long, even at a FIFO."""
        words = ["60", program or self.program, "play", *words]

        def here():
            os.chdir(self.folder)
            if limits is not None:
                limits()

        return self.run("timeout", words, lines, here)

    def is_clean(self):
        """Whether nothing that was begun is left."""
        return not [name for name in os.listdir(self.folder) if name.startswith(".save.part")]

    def refuses(self, name, line, told, **how):
        """Checks that a transfer is refused and leaves nothing, and that a sentence says why."""
        line = b"1 " + line + b"\n"
        ran = self.play(b"begin\n" + REPORTS + line + REPORTS, **how)
        replies = scripts.replies_of(ran.out)
        is_refused = ran.status == 0 and replies[5:6] == [b"refused File\n"] and self.is_clean()
        self.check(name, is_refused, ran.out)
        self.check(f"{name}: nothing has changed", replies[1:5] == replies[6:10], ran.out)
        self.check(f"{name}: why", ran.err == b"ft: " + told + b"\n", ran.err)
        ran = self.play(b"begin\n" + line + b"1 mkdir /a\n", "--strict", **how)
        fault = b"fault: Strict 2: " + line[:-1][:200] + b" = refused File"
        is_ended = ran.status == 3 and ran.out == b"txn 1\nrefused File\n"
        self.check(f"{name}: a strict run", is_ended and ran.err.splitlines()[1:] == [fault], ran.err)
        ran = self.play(b"begin\ntry " + line + b"1 mkdir /a\n", "--strict", **how)
        is_tried = ran.status == 0 and ran.out.splitlines()[1] == b"refused File"
        self.check(f"{name}: tried", is_tried and ran.out.count(b"\n") == 3, ran.out)


def any_bytes(disk):
    """Bytes of any kind and number go into the tree and out of it again."""
    chance = random.Random(1)
    files = [b"", b"\0", b"\n", b"%", b" ", bytes(range(256)) * 3, b"\xff" * 100_000]
    files += [chance.randbytes(chance.randrange(200_000)) for _ in range(10)]
    files += [chance.randbytes(LARGEST)]
    for data in files:
        put(disk.at("in"), data)
        ran = disk.play(b"begin\n1 put /f @in\n1 stat /f\n1 get /f @out\ncommit 1\n")
        replies = b"txn 1\n5 ok\n6 ok file 2 1 %d\n9 ok\nok\n" % len(data)
        check = disk.check
        check("bytes are carried", ran.status == 0 and ran.out == replies and not ran.err, ran.out)
        check("and are the same", contents(disk.at("out")) == data and disk.is_clean())
    ran = disk.play(b"begin\n1 put /f @in\n1 put /f @out\n1 put /f @in\ntree\n")
    check("a file is put again", b"13 ok\ntree 3\n" in ran.out, ran.out[:100])


def large_files(disk):
    """A file that is larger than is allowed is not cut short: nothing of it is left."""
    data = random.Random(2).randbytes(3 << 20)
    put(disk.at("large"), data)
    put(disk.at("small"), b"small")
    before = b"begin\n1 put /f @small\n1 chmod 600 /f\n1 utime 5 6 /f\n1 stat /f\n"
    lines = before + REPORTS + b"1 put /f @large\n1 put /g @large\n" + REPORTS
    ran = disk.play(lines)
    replies = scripts.replies_of(ran.out)
    check = disk.check
    check("too large a file is EFBIG", replies[9:11] == [b"10 EFBIG\n", b"12 EFBIG\n"], ran.out[-300:])
    check("and leaves what was there", replies[5:9] == replies[11:], ran.out[-300:])
    ran = disk.play(lines, "--strict")
    is_ended = ran.status == 3 and ran.out.endswith(b"refused Live\n")
    check("(a strict run reports no tree meanwhile)", is_ended, ran.err)
    ran = disk.play(before + b"1 put /f @large\n1 mkdir /d\n", "--strict")
    fault = b"fault: Strict 6: 1 put /f @large = 10 EFBIG\n"
    check("a strict run ends there", ran.status == 3 and ran.err == fault, ran.err)
    for flag in ("4M", "3M", "none"):
        ran = disk.play(b"begin\n1 put /f @large\n1 get /f @out\n", "--largest-file", flag)
        check("a greater limit has room for it", ran.out == b"txn 1\n5 ok\n8 ok\n", ran.out)
        check("and gives it back", contents(disk.at("out")) == data)
    ran = disk.play(b"begin\n1 put /f @large\n", "--largest-file", "3145727")
    check("one byte too many", ran.out == b"txn 1\n3 EFBIG\n", ran.out)
    with open(disk.at("hole"), "wb") as file:
        file.truncate(1 << 36)
    ran = disk.play(b"begin\n1 put /f @hole\n")
    check("a file that is larger than the memory", ran.out == b"txn 1\n3 EFBIG\n", ran.out)


def any_names(disk):
    """Names are coded as paths are; one that is no text is refused."""
    names = ["a b", "a%b", "%41", "a\nb", "\r", "\t", "@x", "-", "--help", "'", "\u0416", "n" * 255]
    names += [".save.part0", ".save.part1", "as", "put", "\x01\x7f", "\U0010ffff"]
    os.mkdir(disk.at("d"))
    for name in names:
        data = name.encode()
        put(disk.at(name), data)
        word = coded(name)
        ran = disk.play(b"begin\n1 put /f @%s\n1 get /f @d/%s\n" % (word, word))
        disk.check(f"the name {name!r}", ran.out == b"txn 1\n5 ok\n8 ok\n" and not ran.err, ran.err)
        disk.check("is that of the file", contents(disk.at(f"d/{name}")) == data)
    left = sorted(os.listdir(disk.at("d")))
    disk.check("and no other is there", left == sorted(map(os.fsencode, names)), left)
    for name in names:
        os.unlink(disk.at(name))
    put(disk.at("d/f"), b"in it")
    whole = coded(disk.at("d/f"))
    lines = b"begin\n1 put /f @d/../d//./f\n1 get /f @./d/g\n1 get /f @%s\n" % whole
    ran = disk.play(lines)
    is_there = contents(disk.at("d/g")) == b"in it"
    disk.check("paths", ran.out == b"txn 1\n5 ok\n8 ok\n11 ok\n" and is_there, ran.err)
    put(disk.at(b"\xff"), b"x")
    words = {b"%ff": b"%FF", b"\xff": b"%FF", b"%c3%28": b"%C3(", b"%ED%A0%80": b"%ED%A0%80"}
    for word, told in words.items():
        told = b"cannot read '%s': its name is not UTF-8 text" % told
        disk.refuses("a name that is no text", b"put /f @" + word, told)
    for word in (b"n" * 256, b"d/" * 2048 + b"f"):
        disk.refuses("a long name", b"put /f @" + word, b"cannot read '%s': invalid filename" % word)


# Why a put can't read what has this name.
READS = {
    "none": b"entity not found", "d": b"it is a directory", "fifo": b"it is a FIFO",
    "to fifo": b"it is a FIFO", "to nothing": b"entity not found",
    "ring": b"filesystem loop or indirection limit (e.g. symlink loop)",
    "socket": b"it is a socket", "/dev/null": b"it is a device", "/dev/zero": b"it is a device",
    "d/": b"it is a directory", "f/": b"not a directory", "f/g": b"not a directory",
    ".": b"it is a directory", b"\xff": b"its name is not UTF-8 text",
    "n" * 256: b"invalid filename",
}

# Why a get can't write it.
WRITES = {
    "d": b"it is a directory", "fifo": b"it is a FIFO", "to f": b"it is a symbolic link",
    "to nothing": b"it is a symbolic link", "socket": b"it is a socket",
    "/dev/null": b"it is a device", "none/f": b"entity not found", "none/": b"entity not found",
    "f/g": b"not a directory", ".": b"it is a directory", b"\xff": b"its name is not UTF-8 text",
    "n" * 256: b"invalid filename",
}


def make_special(folder):
    """Puts into a folder that has a file `f` what is no regular file: a directory, a FIFO, a socket,
    and symbolic links (to a FIFO, to nothing, in a ring, to `f`)."""
    os.mkdir(f"{folder}/d")
    os.mkfifo(f"{folder}/fifo")
    leads_to = {"to fifo": "fifo", "to nothing": "nowhere", "ring": "ring", "to f": "f"}
    for name, target in leads_to.items():
        os.symlink(target, f"{folder}/{name}")
    # (its path may be too long for a socket)
    here = os.open(folder, os.O_RDONLY)
    with socket.socket(socket.AF_UNIX) as server:
        server.bind(f"/proc/self/fd/{here}/socket")
    os.close(here)


def special_files(disk):
    """Only a regular file is read or replaced, and no FIFO is waited for."""
    put(disk.at("f"), b"f")
    make_special(disk.folder)
    for name, why in READS.items():
        word = coded(name)
        told = b"cannot read '%s': %s" % (word, why)
        disk.refuses(f"a read of {name!r}", b"put /f @" + word, told)
    ran = disk.play(b"begin\n1 put /f @to%20f\n1 get /f @new\n")
    is_read = ran.out == b"txn 1\n5 ok\n8 ok\n" and contents(disk.at("new")) == b"f"
    disk.check("a symbolic link to a file is read", is_read, ran.err)
    for name, why in WRITES.items():
        word = coded(name)
        path = disk.at(name) if os.path.lexists(disk.at(name)) else disk.at("f")
        before = told_of(path)
        lines = b"begin\n1 put /f @f\n" + REPORTS + b"1 get /f @%s\n" % word + REPORTS
        ran = disk.play(lines)
        replies = scripts.replies_of(ran.out)
        is_refused = replies[6:7] == [b"refused File\n"] and told_of(path) == before
        told = b"ft: cannot write '%s': %s\n" % (word, why)
        disk.check(f"a write to {name!r}", is_refused and ran.err == told, ran.err)
        is_same = replies[2:6] == replies[7:] and disk.is_clean()
        disk.check(f"a write to {name!r}: nothing has changed", is_same, ran.out)
    is_alone = not os.path.lexists(disk.at("none")) and not os.path.lexists(disk.at("nowhere"))
    disk.check("and nothing else is made", is_alone)


def replaced_files(disk):
    """A file is replaced whole, with its permissions; its other names keep the old bytes."""
    put(disk.at("new"), b"new")
    lines = b"begin\n1 put /f @new\n1 get /f @%s\n"
    for umask in (0o022, 0o077, 0):
        ran = disk.play(lines % b"made", limits=lambda mask=umask: os.umask(mask))
        mode = stat.S_IMODE(os.lstat(disk.at("made")).st_mode)
        is_made = ran.out == b"txn 1\n5 ok\n8 ok\n" and mode == 0o666 & ~umask
        disk.check("a new file has the mode that the umask leaves", is_made, oct(mode))
        os.unlink(disk.at("made"))
    for mode in (0o644, 0o600, 0o444, 0o000, 0o777, 0o6755, 0o1666):
        put(disk.at("old"), b"old bytes")
        os.link(disk.at("old"), disk.at("other name"))
        os.chmod(disk.at("old"), mode)
        ran = disk.play(lines % b"old", limits=lambda: os.umask(0o077))
        told, other = os.lstat(disk.at("old")), os.lstat(disk.at("other name"))
        is_made = ran.out == b"txn 1\n5 ok\n8 ok\n" and told.st_ino != other.st_ino
        disk.check(f"a file of mode {mode:o} is replaced", is_made and told.st_nlink == 1, ran.err)
        is_kept = stat.S_IMODE(told.st_mode) == mode & 0o777
        disk.check("its permissions stay", is_kept, oct(told.st_mode))
        for name, data in (("old", b"new"), ("other name", b"old bytes")):
            os.chmod(disk.at(name), 0o600)
            disk.check(f"the bytes of {name}", contents(disk.at(name)) == data)
            os.unlink(disk.at(name))
    ran = disk.play(lines % b".save.part0")
    is_made = ran.out.endswith(b"8 ok\n") and contents(disk.at(".save.part0")) == b"new"
    disk.check("a file may have the name by which files are begun", is_made, ran.err)
    os.unlink(disk.at(".save.part0"))
    for number in range(3):
        os.mkdir(disk.at(f".save.part{number}"))
    ran = disk.play(lines % b"made")
    names = sorted(name for name in os.listdir(disk.folder) if name.startswith(".save"))
    is_made = ran.out.endswith(b"8 ok\n") and names == [".save.part0", ".save.part1", ".save.part2"]
    disk.check("names that are taken are left", is_made and contents(disk.at("made")) == b"new", names)


def no_rights(disk):
    """Files and folders that may not be read, or written, are refused and stay."""
    put(disk.at("shut"), b"secret")
    os.chmod(disk.at("shut"), 0)
    os.mkdir(disk.at("closed"))
    put(disk.at("closed/f"), b"old")
    put(disk.at("f"), b"f")
    os.chmod(disk.at("closed"), 0o555)

    def without_rights():
        for capability in (READ_ALL, SEARCH_ALL):
            if IS_ROOT and ctypes.CDLL(None).prctl(DROP_CAPABILITY, capability, 0, 0, 0) != 0:
                os._exit(99)

    told = b"cannot read 'shut': permission denied"
    disk.refuses("a file that may not be read", b"put /f @shut", told, limits=without_rights)
    for name in (b"f", b"g"):
        before = told_of(disk.at("closed/f"))
        lines = b"begin\n1 put /f @f\n" + REPORTS + b"1 get /f @closed/%s\n" % name + REPORTS
        ran = disk.play(lines, limits=without_rights)
        replies = scripts.replies_of(ran.out)
        is_same = replies[2:6] == replies[7:] and told_of(disk.at("closed/f")) == before
        is_told = ran.err == b"ft: cannot write 'closed/%s': permission denied\n" % name
        disk.check("a folder that may not be written", is_same and is_told, ran.err)
        disk.check("has what it had", os.listdir(disk.at("closed")) == [b"f"])
    os.chmod(disk.at("closed"), 0o755)
    if not IS_ROOT:
        return
    for folder in (os.path.dirname(disk.folder), disk.folder):
        os.chmod(folder, 0o755)
    program = shutil.copy(disk.program, f"{disk.folder}/program")
    os.chmod(program, 0o755)

    def as_other():
        os.setgroups([])
        os.setgid(OTHER)
        os.setuid(OTHER)

    lines = b"begin\n1 put /f @shut\n1 put /f @f\n1 get /f @new\n"
    ran = disk.play(lines, limits=as_other, program=program)
    is_refused = ran.out == b"txn 1\nrefused File\n5 ok\nrefused File\n" and disk.is_clean()
    disk.check("the rights are those of whoever plays it", is_refused, ran.out)


def no_room(disk):
    """A disk on which there is no room leaves the file as it was."""
    put(disk.at("large"), b"x" * 300_000)
    put(disk.at("old"), b"old")

    def fails(name, why, limits=None):
        before = told_of(disk.at(name)) if os.path.lexists(disk.at(name)) else None
        word = coded(name)
        lines = b"begin\n1 put /f @large\n" + REPORTS + b"1 get /f @%s\n" % word + REPORTS
        ran = disk.play(lines, limits=limits)
        replies = scripts.replies_of(ran.out)
        is_told = ran.err == b"ft: cannot write '%s': %s\n" % (word, why)
        is_refused = replies[6:7] == [b"refused File\n"] and replies[2:6] == replies[7:]
        disk.check("no room for a file", is_told and is_refused, ran.err)
        after = told_of(disk.at(name)) if os.path.lexists(disk.at(name)) else None
        disk.check("it is as it was", after == before and disk.is_clean())

    for name in ("old", "new"):
        fails(name, b"file too large", playing.short_files(100_000))
    os.mkdir(disk.at("small"))
    words = ["mount", "-t", "tmpfs", "-o", "size=64k", "tmpfs", disk.at("small")]
    if subprocess.run(words, capture_output=True).returncode != 0:
        print("round: no small disk can be mounted, so none is tried")
        return
    try:
        put(disk.at("small/old"), b"old")
        for name in ("small/old", "small/new"):
            fails(name, b"no storage space")
            names = sorted(os.listdir(disk.at("small")))
            disk.check("and nothing else is there", names == [b"old"], names)
    finally:
        subprocess.run(["umount", disk.at("small")], check=True)


def killed_gets(disk):
    """A run that is killed while it writes a file leaves that as it was, and the next one writes it."""
    data = random.Random(3).randbytes(1 << 23)
    put(disk.at("large"), data)
    lines = b"begin\n1 put /f @large\n1 get /f @out\n"
    words = ["play", "--largest-file", "none"]
    for old in (None, b"old"):
        if old is not None:
            put(disk.at("out"), old)
        streams = {"stdin": subprocess.PIPE, "stdout": subprocess.DEVNULL}
        with subprocess.Popen([disk.program, *words], cwd=disk.folder, **streams) as run:
            run.stdin.write(lines)
            run.stdin.close()
            while disk.is_clean() and run.poll() is None:
                pass
            run.kill()
        left = contents(disk.at("out")) if os.path.lexists(disk.at("out")) else None
        disk.check("a get that is killed leaves what was there", left in (old, data))
        ran = disk.play(lines, *words[1:])
        is_made = ran.out == b"txn 1\n5 ok\n8 ok\n" and contents(disk.at("out")) == data
        disk.check("and the next one writes the file", is_made, ran.err)
        for name in os.listdir(disk.folder):
            if name != "large":
                os.unlink(disk.at(name))


def rolled_back(disk):
    """An abort leaves no trace of a file that was put. A file of the disk stays as it was written."""
    put(disk.at("in"), b"in")
    check = disk.check
    begin = b"begin as job\njob mkdir 0700 /d\njob put /d/old @in\ncommit job\nbegin as job\n"
    middle = b"job put /d/old @large\njob put /d/new @in\njob get /d/new @out\nsub job as step\n"
    middle += b"step put /d/deep @in\nstep put /d/old @in\ncommit step\nabort job\n"
    put(disk.at("large"), b"large" * 1000)
    ran = disk.play(begin + REPORTS + middle + REPORTS)
    replies = scripts.replies_of(ran.out)
    check("an abort after puts", replies[-5] == b"ok\n", ran.out)
    check("leaves no trace", replies[5:9] == replies[-4:], ran.out)
    check("a file of the disk stays", contents(disk.at("out")) == b"in")
    for end in (b"abort step\n", b"abort job\n"):
        lines = b"begin as job\n" + REPORTS + b"sub job as step\nstep put /f @in\n" + end + REPORTS
        replies = scripts.replies_of(disk.play(lines).out)
        check("an abort of the step", replies[6:8] == [b"5 ok\n", b"ok\n"], replies)
        check("leaves nothing of it", replies[1:5] == replies[8:], replies)
    ran = disk.play(begin + b"job put /d/new @in\nundo job\njob mkdir /e\nundo job\nundo job\n")
    wanted = [b"refused SubSince\n", b"11 ok\n", b"undone 11\n", b"refused SubSince\n"]
    check("a put is not undone by itself", scripts.replies_of(ran.out)[-4:] == wanted, ran.out)


def failing_puts(disk):
    """A put that fails at a call leaves the tree, the locks and the waits as they were."""
    put(disk.at("in"), b"in")
    begin = b"begin\n1 mkdir 0700 /d\n1 put /f @in\n1 chmod 600 /f\n1 utime 5 6 /f\n1 symlink me /me\n"
    begin += b"1 symlink none /way\ncommit 1\nbegin as job\n"
    errors = {
        b"/no/f": b"ENOENT", b"/d": b"EISDIR", b"/f/g": b"ENOTDIR", b"/me": b"ELOOP", b"": b"ENOENT",
        b"/": b"EISDIR", b"/f/": b"ENOTDIR", b"/new/": b"ENOENT", b"/" + b"n" * 256: b"ENAMETOOLONG",
    }
    for path, errno in errors.items():
        for line in (b"job put %s @in\n" % path, b"job get %s @out\n" % path):
            ran = disk.play(begin + REPORTS + line + REPORTS)
            replies = scripts.replies_of(ran.out)
            reply = replies[13:14] or [b""]
            disk.check(f"{line} fails", reply[0].endswith(errno + b"\n"), replies[8:])
            is_same = replies[9:13] == replies[14:] and not os.path.lexists(disk.at("out"))
            disk.check(f"{line} leaves nothing", is_same, replies[8:])
    ran = disk.play(begin + b"job put /way @in\njob lstat /none\njob get /way @out\n")
    is_followed = b" ok file " in ran.out and contents(disk.at("out")) == b"in"
    disk.check("links of the tree are followed", is_followed, ran.out)


def waiting(disk):
    """A transfer that would wait is answered so, and leaves nothing that waits."""
    put(disk.at("in"), b"in")
    check = disk.check
    begin = b"begin as one\none put /f @in\nbegin as two\n"
    for line in (b"two put /f @in\n", b"two get /f @out\n"):
        lines = begin + REPORTS + line + REPORTS + b"retry two\ncommit one\n" + line + b"commit two\n"
        replies = scripts.replies_of(disk.play(lines).out)
        check(f"{line} waits", replies[7:8] == [b"waits 1\n"], replies)
        check(f"{line} leaves nothing", replies[3:7] == replies[8:12], replies)
        check(f"{line} is no retry", replies[12] == b"refused NoAsk\n", replies)
        check(f"{line} is given again", replies[14].endswith(b" ok\n"), replies)
    check("a file that was waited for", contents(disk.at("out")) == b"in")
    lines = b"begin\n1 put /f @in\ncommit 1\nbegin as one\nbegin as two\none get /f @out\n"
    lines += b"two get /f @out\ntwo put /f @in\none put /f @in\ncommit one\ntwo put /f @in\n"
    replies = [reply.split()[-2:] for reply in scripts.replies_of(disk.play(lines).out)[5:]]
    is_so = [reply[0] == b"waits" for reply in replies] == [False, False, True, True, False, False]
    check("readers do not wait for each other, and a writer does", is_so, replies)
    lines = b"begin as job\njob mkdir /d\njob put /d/f @in\nsub job as step\nstep mkdir /e\ncommit step\n"
    ran = disk.play(lines + b"job put /e/f @in\n", "--moss")
    is_so = ran.out.splitlines()[2] == b"waits 1" and ran.out.endswith(b" ok\n")
    check("under --moss it waits for what the job itself holds", is_so, ran.out)


def scripts_first(disk):
    """A script that is played first carries files too, and ends at a transfer that is not made."""
    put(disk.at("in"), b"in")
    put(disk.at("first.ft"), b"begin\n1 put /f @in\n1 get /f @out\ncommit 1\n")
    ran = disk.play(b"begin\n4 stat /f\n", "--after", "first.ft")
    is_played = ran.out == b"txn 4\n9 ok file 2 1 2\n" and contents(disk.at("out")) == b"in"
    disk.check("a script that is played first carries files", is_played, ran.out)
    lines = {b"put /f @none": b"ft: cannot read 'none': ", b"put /no/f @in": b"ft: first.ft:3: "}
    for line, told in lines.items():
        put(disk.at("first.ft"), b"begin\n1 mkdir /d\n1 %s\ncommit 1\n" % line)
        ran = disk.play(b"begin\n", "--after", "first.ft")
        is_ended = ran.faults(b"fault: Script 3") and not ran.out
        disk.check("and ends at one that is not made", is_ended and ran.err.startswith(told), ran.err)


def all_of(round_of, program, work):
    parts = [any_bytes, large_files, any_names, special_files, replaced_files, no_rights, no_room]
    for part in (*parts, killed_gets, rolled_back, failing_puts, waiting, scripts_first):
        disk = Disk(round_of, program, f"{work}/{part.__name__}")
        part(disk)
        shutil.rmtree(disk.folder)
