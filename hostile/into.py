"""Saves into an existing directory: exactly what differs is made, and nothing else."""
import os
import shutil
import stat
import subprocess

import playing

IS_ROOT = os.geteuid() == 0


def snapshot(top):
    """Returns all that a save could change below a directory, even by making it again."""
    held = {}
    for here, folders, names in os.walk(os.fsencode(top)):
        for path in [here, *[os.path.join(here, name) for name in folders + names]]:
            told = os.lstat(path)
            what = (told.st_ino, told.st_mode, told.st_uid, told.st_gid, told.st_nlink)
            data = None
            if stat.S_ISREG(told.st_mode):
                with open(path, "rb") as file:
                    data = file.read()
            elif stat.S_ISLNK(told.st_mode):
                data = os.readlink(path)
            held[path[len(os.fsencode(top)):]] = (*what, told.st_mtime_ns, told.st_ctime_ns, data)
    return held


def inode(path):
    return os.lstat(path).st_ino


def replies_of(round_of, program, source):
    """Returns the report of a tree that holds what a directory holds."""
    script = round_of.Ran(program, ["load", source]).out
    return round_of.Ran(program, ["play"], script + b"tree\n").out


def make_new(round_of, top):
    """Makes the directory whose tree is saved."""
    os.makedirs(f"{top}/a/deep")
    os.makedirs(f"{top}/mode", mode=0o750)
    round_of.put(f"{top}/a/same", b"same")
    round_of.put(f"{top}/a/two words", b"new")
    round_of.put(f"{top}/bytes", b"abd")
    round_of.put(f"{top}/long", bytes(range(256)) * 1000)
    round_of.put(f"{top}/mode/x", b"#!/bin/sh\n")
    os.chmod(f"{top}/mode/x", 0o755)
    round_of.put(f"{top}/one", b"of two names")
    os.link(f"{top}/one", f"{top}/other")
    round_of.put(f"{top}/time", b"t")
    os.utime(f"{top}/time", ns=(0, 1_234_567_890_123_456_789))
    os.symlink("a", f"{top}/link")
    os.symlink("nowhere", f"{top}/same link")
    for path in ("a/same", "a/two words", "bytes", "long", "mode/x", "one"):
        os.utime(f"{top}/{path}", ns=(0, 7_000_000_000))


def make_old(round_of, new, top):
    """Makes a directory that differs from it in each way, with names that the tree does not have."""
    subprocess.run(["cp", "-a", new, top], check=True)
    os.remove(f"{top}/a/two words")
    round_of.put(f"{top}/bytes", b"abc")
    os.utime(f"{top}/bytes", ns=(0, 7_000_000_000))
    with open(f"{top}/long", "ab") as file:
        file.write(b"more")
    os.chmod(f"{top}/mode", 0o700)
    os.remove(f"{top}/other")
    round_of.put(f"{top}/other", b"of two names")
    os.utime(f"{top}/other", ns=(0, 7_000_000_000))
    os.utime(f"{top}/time", ns=(0, 5))
    os.remove(f"{top}/link")
    os.symlink("mode", f"{top}/link")
    os.makedirs(f"{top}/gone/below")
    round_of.put(f"{top}/gone/below/it", b"old")
    round_of.put(f"{top}/.save.part0", b"half")


CHANGES = (
    b"add file /a/two%20words\nchange file /bytes\nchange file /long\nchange dir /mode\n"
    b"change link /other\nchange file /time\nchange symlink /link\n"
)
REMOVALS = b"remove file /gone/below/it\nremove dir /gone/below\nremove dir /gone\nremove file /.save.part0\n"
LEFT = b"left /.save.part0\n"


def just_what_differs(round_of, program, work, replies):
    new, old = f"{work}/into new", f"{work}/into old"
    before = snapshot(old)
    dry = round_of.Ran(program, ["save", "--into", "--dry-run", old], replies)
    check = round_of.check
    check("a dry run lists what differs", dry.status == 0 and dry.out == CHANGES + LEFT, dry.out)
    check("and changes nothing", snapshot(old) == before)
    dry = round_of.Ran(program, ["save", "--into", "--remove", "--dry-run", old], replies)
    check("and what would be removed", dry.out == CHANGES + REMOVALS, dry.out)
    check("which stays", snapshot(old) == before)
    same, gone = inode(f"{old}/a/same"), snapshot(f"{old}/gone")
    ran = round_of.Ran(program, ["save", "--into", old], replies)
    check("what differs is made", ran.status == 0 and not ran.err, ran.err)
    check("and listed", ran.out == CHANGES + LEFT, ran.out)
    check("what is the same is not made anew", inode(f"{old}/a/same") == same)
    check("what the tree does not have stays", snapshot(f"{old}/gone") == gone)
    check("also what was left", os.path.isfile(f"{old}/.save.part0"))
    ran = round_of.Ran(program, ["save", "--into", "--remove", old], replies)
    check("then only that is removed", ran.status == 0 and ran.out == REMOVALS, ran.out)
    is_same = round_of.tree_of(old) == round_of.tree_of(new)
    check("and the directory is the tree", is_same and round_of.kept.kept_of(old) == round_of.kept.kept_of(new))
    before = snapshot(old)
    for words in ([], ["--remove"], ["--sync"]):
        ran = round_of.Ran(program, ["save", "--into", *words, old], replies)
        check("a second save finds nothing", ran.status == 0 and not ran.out, ran.out)
        check("and does nothing", snapshot(old) == before)


def into_nothing(round_of, program, work, replies):
    """Fills an empty directory, through a symbolic link to it."""
    new, out, link = f"{work}/into new", f"{work}/into empty", f"{work}/into link"
    os.mkdir(out)
    os.symlink("into empty", link)
    ran = round_of.Ran(program, ["save", "--into", "--sync", f"{link}/"], replies)
    round_of.check("an empty directory is filled", ran.status == 0, ran.err)
    is_same = round_of.tree_of(out) == round_of.tree_of(new)
    is_kept = round_of.kept.kept_of(out) == round_of.kept.kept_of(new)
    round_of.check("with the tree", is_same and is_kept and os.path.islink(link))
    shutil.rmtree(out)
    ran = round_of.Ran(program, ["save", "--into", out], replies)
    round_of.check("one that is not there is not made", ran.faults(b"fault: Read", b"entity not found"), ran.err)
    round_of.put(out)
    ran = round_of.Ran(program, ["save", "--into", out], replies)
    round_of.check("a file is none", ran.status == 1 and not ran.out, ran.err)
    ran = round_of.Ran(program, ["save", "--into", "--dry-run", ""], replies)
    round_of.check("nor is no name", ran.faults(b"fault: Read", b"entity not found") and not ran.out, ran.err)


def names_of_parts(round_of, program, work, replies):
    """Tries a tree that has a file of the name by which files are begun, and two more."""
    new, out = f"{work}/into parts", f"{work}/into whole"
    os.makedirs(f"{new}/a")
    os.mkdir(out)
    for name in (".save.part0", ".save.part2", "a/.save.part0", "last"):
        round_of.put(f"{new}/{name}", name.encode())
    os.symlink("last", f"{new}/.save.part1")
    ran = round_of.Ran(program, ["save", "--into", out], replies_of(round_of, program, new))
    round_of.check("names of begun files are names", ran.status == 0 and not ran.err, ran.err)
    is_same = round_of.tree_of(out) == round_of.tree_of(new)
    round_of.check("and each has its bytes", is_same and round_of.kept.kept_of(out) == round_of.kept.kept_of(new))
    round_of.check("none of which was left", b"left" not in ran.out, ran.out)


def replaced_and_synced(round_of, program, work, replies):
    """Puts a file and a link in place of directories whose contents go, and waits for the disk."""
    out = f"{work}/into synced"
    subprocess.run(["cp", "-a", f"{work}/into new", out], check=True)
    for name in ("bytes", "link", "gone"):
        if name != "gone":
            os.remove(f"{out}/{name}")
        os.makedirs(f"{out}/{name}/below")
        round_of.put(f"{out}/{name}/below/it", b"old")
    ran = round_of.Ran(program, ["save", "--into", "--remove", "--sync", out], replies)
    is_same = round_of.tree_of(out) == round_of.tree_of(f"{work}/into new")
    round_of.check("what was removed is not waited for", ran.status == 0 and is_same, ran.err)


def other_kinds(round_of, program, work, replies):
    """Tries that something of another kind is replaced only with --remove."""
    out, outside = f"{work}/into kinds", f"{work}/into outside"
    ways = {
        "a": lambda path: os.symlink(outside, path),
        "bytes": lambda path: os.makedirs(f"{path}/in it"),
        "link": lambda path: round_of.put(path, b"a file"),
        "other": lambda path: os.mkfifo(path),
    }
    for name, make in ways.items():
        shutil.rmtree(out, ignore_errors=True)
        shutil.rmtree(outside, ignore_errors=True)
        os.mkdir(outside)
        round_of.put(f"{outside}/same", b"outside")
        subprocess.run(["cp", "-a", f"{work}/into new", out], check=True)
        path = f"{out}/{name}"
        shutil.rmtree(path) if os.path.isdir(path) and not os.path.islink(path) else os.remove(path)
        make(path)
        before, around = snapshot(out), snapshot(outside)
        ran = round_of.Ran(program, ["save", "--into", out], replies)
        round_of.check("another kind is in the way", ran.faults(b"fault: Exists /" + name.encode()), ran.err)
        round_of.check("and stays", snapshot(out) == before and not ran.out)
        ran = round_of.Ran(program, ["save", "--into", "--remove", out], replies)
        is_same = round_of.tree_of(out) == round_of.tree_of(f"{work}/into new")
        round_of.check("unless it may be removed", ran.status == 0 and is_same, ran.err)
        round_of.check("nothing outside is touched", snapshot(outside) == around)


def failing(round_of, program, work, replies):
    """Tries a disk that takes no file as large, and a list that can't be written."""
    out = f"{work}/into failing"
    subprocess.run(["cp", "-a", f"{work}/into new", out], check=True)
    round_of.put(f"{out}/long", b"old")
    old = inode(f"{out}/long")
    limits = playing.short_files(100_000)
    ran = round_of.Ran(program, ["save", "--into", out], replies, limits)
    check = round_of.check
    check("a file that can't be written", ran.status == 1 and ran.err.startswith(b"fault: Write /long\n"), ran.err)
    check("is the old one still", inode(f"{out}/long") == old and ".save.part0" not in os.listdir(out))
    before = snapshot(out)
    with open("/dev/full", "wb") as full:
        words = [program, "save", "--into", out]
        done = subprocess.run(words, input=replies, stdout=full, stderr=subprocess.PIPE)
    check("without a list nothing is done", done.returncode == 1 and snapshot(out) == before, done.stderr)
    for words in (["--remove"], ["--dry-run"]):
        ran = round_of.Ran(program, ["save", *words, f"{work}/into none"], replies)
        is_refused = ran.status == 2 and not os.path.lexists(f"{work}/into none")
        check("flags that need --into", is_refused, ran.err)


def owners(round_of, program, work, replies):
    """Tries that owners are compared only if they are set."""
    if not IS_ROOT:
        return
    out = f"{work}/into owners"
    subprocess.run(["cp", "-a", f"{work}/into new", out], check=True)
    os.chown(f"{out}/bytes", 1000, 1000)
    ran = round_of.Ran(program, ["save", "--into", "--no-owners", out], replies)
    round_of.check("another owner is none where owners are not given", not ran.out, ran.out)
    ran = round_of.Ran(program, ["save", "--into", out], replies)
    told = os.lstat(f"{out}/bytes")
    round_of.check("and else a change", ran.out == b"change file /bytes\n" and told.st_uid == 0, ran.out)


def all_of(round_of, program, work):
    make_new(round_of, f"{work}/into new")
    make_old(round_of, f"{work}/into new", f"{work}/into old")
    replies = replies_of(round_of, program, f"{work}/into new")
    just_what_differs(round_of, program, work, replies)
    into_nothing(round_of, program, work, replies)
    other_kinds(round_of, program, work, replies)
    failing(round_of, program, work, replies)
    owners(round_of, program, work, replies)
    names_of_parts(round_of, program, work, replies)
    replaced_and_synced(round_of, program, work, replies)
