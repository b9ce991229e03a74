"""Plans that carry files of the disk: put and get, with files of any bytes, names, kinds and sizes,
disks that fail, runs that are killed, jobs that end in any way, and refused memory.

The rules are those of docs/SCRIPT.md for plans. What a put reads and what a get writes follows the
rules for scripts, which transfers.py tries.
"""
import contextlib
import os
import random
import re
import shutil
import stat
import subprocess
import tempfile
import time
import urllib.parse

import playing
import refusals
import scripts
import transfers

# How many plans by chance are run.
TIMES = 100

# As many bytes as a read may request.
MOST = 18_446_744_073_709_551_615

# Each byte as replies have it.
SPELT = [b"%c" % byte if 32 < byte < 127 and byte != 37 else b"%%%02X" % byte for byte in range(256)]

put, contents, coded = transfers.put, transfers.contents, transfers.coded

# A job that puts the file `in` and gets it as `out`.
BOTH = b"job a\nput /f @in\nget /f @out\ncommit\n"

PATHS = ("/a", "/b", "/a/x", "/%61/y", "/a%20b", "/none/f", "")
CALLS = ("mkdir {}", "rmdir {}", "stat {}", "list {}", "unlink {}", "chmod 0600 {}")


def tests():
    return [
        ("plans carry any bytes", any_bytes),
        ("plans carry files of any names", any_names),
        ("plans carry large files", large_files),
        ("plans carry no files that are too large", too_large_files),
        ("put and get stand for their steps", same_steps),
        ("files of a plan are read first and written last", in_order),
        ("a script that is played first writes its files first", after_script),
        ("the plan of a tool leaves its list", built_tool),
        ("jobs that do not commit write no files", ended_jobs),
        ("jobs that begin again write their files", contended_jobs),
        ("what a plan puts has to be a file", special_reads),
        ("what a plan gets goes to a file", special_writes),
        ("a strict plan that fails writes files", unmet_writes),
        ("files of a plan need rights", no_rights),
        ("a get replaces a file whole", replaced_files),
        ("a get finds no room", no_room),
        ("a get is killed", killed_gets),
        ("no file is written without an outcome", no_outcome),
        *refusals.tests("plans with files are", files_refused),
        ("plans with files are refused threads", refused_threads),
    ]


class Folder:
    """A folder with files, in which plans are run."""

    def __init__(self, bench, path):
        self.program, self.path = bench.program, path

    def at(self, name):
        return os.path.join(os.fsencode(self.path), os.fsencode(name))

    def run(self, plan, *words, front=(), **how):
        """Runs the jobs of a plan. No run takes long, even at a FIFO."""
        put(self.at("jobs.plan"), plan)
        words = [*front, how.pop("program", self.program), "jobs", *words, "jobs.plan"]
        streams = {"stdin": subprocess.DEVNULL, "stdout": subprocess.PIPE, "stderr": subprocess.PIPE}
        how = {**streams, "timeout": playing.MOST_SECONDS, **how}
        ended = subprocess.run(words, cwd=self.path, **how)
        return playing.Run(ended.returncode, ended.stdout, ended.stderr)

    def names(self):
        """What is in the folder, without the plan."""
        return set(os.listdir(self.path)) - {"jobs.plan"}

    def holds(self, name, data):
        """Whether there is a file with these bytes."""
        return os.path.lexists(self.at(name)) and contents(self.at(name)) == data


@contextlib.contextmanager
def folder_of(bench, **files):
    """A folder with these files, which is removed in the end."""
    with tempfile.TemporaryDirectory() as path:
        folder = Folder(bench, path)
        for name, data in files.items():
            put(folder.at(name), data)
        yield folder


def told_bytes(data):
    """The number of some bytes, and the bytes, if there are any."""
    return b"%d" % len(data) + told_data(data)


def told_data(data):
    """Bytes as replies have them, after a space, if there are any."""
    return b" " * bool(data) + b"".join(map(SPELT.__getitem__, data))


def outcome_of(data):
    """What is printed if the file has these bytes, which a job puts and gets."""
    lines = [
        b"job a 1 committed",
        b"history 7",
        b"call 2 1 open wct /f = ok 2",
        b"call 3 1 ftruncate 2 %d = ok" % len(data),
        b"call 4 1 write 2%s = ok %d" % (told_data(data), len(data)),
        b"call 5 1 close 2 = ok",
        b"call 6 1 open r /f = ok 6",
        b"call 7 1 read 6 %d = ok %s" % (MOST, told_bytes(data)),
        b"call 8 1 close 6 = ok",
        b"tree 3",
        b"dir 1",
        b"edge 1 f 2",
        b"file 2 " + told_bytes(data),
    ]
    return b"".join(line + b"\n" for line in lines)


def shown(ran):
    """A run, as it is shown if something is wrong."""
    return f"status {ran.status}, {playing.shown(ran.text)}, {ran.errors[-300:]!r}"


# ---- what is carried


def any_bytes(bench):
    """Bytes of any kind and number go into the tree and out of it again."""
    chance = random.Random(1)
    files = [b"", b"\0", b"\n", b"\r", b"%", b" ", b"#", b"@", bytes(range(256)) * 3]
    files += [b"\nabort\n", b"\r\n" * 1000, b"\xff" * 100_000]
    files += [chance.randbytes(chance.randrange(200_000)) for _ in range(10)]
    files += [chance.randbytes(transfers.LARGEST)]
    for data in files:
        with folder_of(bench, **{"in": data, "out": b"old"}) as folder:
            ran = folder.run(BOTH)
            if (ran.status, ran.errors, ran.text) != (0, b"", outcome_of(data)):
                return f"{data[:30]}: {shown(ran)}"
            if not folder.holds("out", data) or folder.names() != {"in", "out"}:
                return f"{data[:30]}: {folder.names()}"
    return None


def any_names(bench):
    """Names are coded as paths are."""
    names = ["a b", "a%b", "%41", "a\nb", "\r", "\t", "@x", "-", "--help", "'", "#", "\u0416"]
    names += ["n" * 255, ".save.part0", "as", "put", "\x01\x7f", "\U0010ffff"]
    with folder_of(bench, **{name: name.encode() for name in names}) as folder:
        os.mkdir(folder.at("d"))
        lines = [b"put /f @%s\nget /f @d/%s\n" % ((coded(name),) * 2) for name in names]
        lines += [b"put /f @d/../a%20b\nget /f @d//./last\n"]
        lines += [b"put /f @%s\n" % coded(folder.at("as"))]
        ran = folder.run(b"job a\n" + b"".join(lines) + b"commit\n")
        if ran.status != 0 or ran.errors:
            return shown(ran)
        wanted = {**{name: name.encode() for name in names}, "last": b"a b"}
        found = {name: contents(folder.at(f"d/{name}")) for name in os.listdir(f"{folder.path}/d")}
        is_last = ran.text.endswith(b"\nfile 2 2 as\n")
    return None if found == wanted and is_last else f"{found.keys() ^ wanted.keys()}: {shown(ran)}"


def large_files(bench):
    """With room for it a large file is carried whole. Its size does not count for that of the plan."""
    data = random.Random(2).randbytes(10 << 20)
    with folder_of(bench, **{"in": data}) as folder:
        ran = folder.run(BOTH, "--largest-file", "10M")
        if ran != playing.Run(0, outcome_of(data), b""):
            return shown(ran)
        return None if folder.holds("out", data) else "the file has other bytes"


def too_large_files(bench):
    """Without room for one of its files in the tree, a plan is not run, strict or not."""
    why = b"ft: cannot read 'in': it has more bytes than --largest-file allows\nfault: Read\n"
    with folder_of(bench, **{"in": b"two words"}) as folder:
        for plan, words in (
            (b"strict\n" + BOTH, ("--largest-file", "8")),
            (BOTH, ("--largest-file", "8")),
            (b"strict\njob a\ntry put /f @in\ncommit\n", ("--largest-file", "8")),
            (BOTH, ()),
        ):
            if not words:
                os.truncate(folder.at("in"), 1 << 36)
            ran = folder.run(plan, *words)
            if ran != playing.Run(1, b"", why) or folder.names() != {"in"}:
                return shown(ran)
    return None


# ---- the steps for which they stand


def same_steps(bench):
    """Plans with put and get, and with the steps in their place: one thread makes the same of both.
    The files are what the reads of jobs that have committed were answered."""
    for seed in range(TIMES):
        chance = random.Random(seed)
        files = {f"in{number}": chance.randbytes(chance.randrange(300)) for number in range(3)}
        with folder_of(bench, **files) as folder:
            short, long, gets = two_plans(chance, files)
            plain = folder.run(long, "--threads", "1")
            ran = folder.run(short, "--threads", "1")
            if ran != plain or ran.errors or ran.status not in (0, 3):
                return f"seed {seed}: {short}: {shown(ran)}, {shown(plain)}"
            wanted = {**files, **files_told(ran.text, gets)}
            if {name: contents(folder.at(name)) for name in folder.names()} != wanted:
                return f"seed {seed}: {short}: {folder.names()}"
    return None


def two_plans(chance, files):
    """A plan with put and get, the same with their steps, and the files of the gets of each job."""
    is_strict = chance.random() < 0.5
    end = chance.choice((b"\n", b"\r\n"))
    short, long, gets = [b"strict"] * is_strict, [b"strict"] * is_strict, []
    for job in range(chance.randint(1, 3)):
        head, last = b"job j%d" % job, chance.choice((b"commit",) * 5 + (b"abort",))
        lines = some_lines(chance, job, is_strict, files)
        short += [head, *[line for line, _, _ in lines], last]
        long += [head, *[step for _, steps, _ in lines for step in steps], last]
        gets.append([name for _, _, name in lines if name])
    return end.join(short) + end, b"\n".join(long) + b"\n", gets


def some_lines(chance, job, is_strict, files):
    """Lines by chance. For each: its steps, and the file of the disk that it gets, or nothing."""
    lines, names = [], []
    for number in range(chance.randint(1, 9)):
        path, file = chance.choice(PATHS).encode(), chance.choice(sorted(files))
        what, name = chance.choice(("call", "open", "put", "put", "get", "get", "use")), None
        if what == "put":
            line, steps = b"put %s @%s" % (path, file.encode()), steps_of_put(path, files[file])
        elif what == "get":
            name = f"out{job}_{number}"
            line, steps = b"get %s @%s" % (path, name.encode()), steps_of_get(path)
        elif what == "use" and names:
            line = chance.choice((b"read @%s 9", b"fstat @%s", b"close @%s")) % chance.choice(names)
            steps = [line]
        else:
            call = "open rwc {} as put" if what == "open" else chance.choice(CALLS)
            line, what = call.format(path.decode()).encode(), "put" if what == "open" else what
            steps = [line]
        names += [what.encode()] * (what in ("put", "get"))
        front = b"try " * (is_strict and chance.random() < 0.8)
        lines.append((front + line, [front + step for step in steps], name))
    return lines


def steps_of_put(path, data):
    opened = b"open wct %s as put" % path
    return [opened, b"ftruncate @put %d" % len(data), b"write @put" + told_data(data), b"close @put"]


def steps_of_get(path):
    return [b"open r %s as get" % path, b"read @get %d" % MOST, b"close @get"]


def files_told(text, gets):
    """The files of the gets of jobs that have committed, from the reads in what is printed."""
    lines, files = text.decode().splitlines(), {}
    for line, names in zip(lines, gets):
        _, _, txn, end = line.split(" ", 3)
        reads = [re.fullmatch(rf"call \d+ {txn} read \d+ {MOST} = (.*)", told) for told in lines]
        replies = [found[1].split() for found in reads if found]
        if end == "committed":
            told = zip(names, replies) if len(names) == len(replies) else []
            files.update({name: bytes_of(reply) for name, reply in told if reply[0] == "ok"})
    return files


def bytes_of(reply):
    """The bytes in a reply 'ok N DATA', which has no DATA if there are none."""
    return urllib.parse.unquote_to_bytes(" ".join(reply[2:]))


# ---- when they are carried


def in_order(bench):
    """All files are read before any is written, and the last line that has a file writes it last. A
    get has the bytes that it has read, whatever comes after it."""
    with folder_of(bench, first=b"one", other=b"two") as folder:
        ran = folder.run(
            b"job a\nput /f @first\nget /f @both\nget /f @early\nget /f @other\n"
            b"put /f @other\nget /f @both\nget /f @first\nunlink /f\ncommit\n"
        )
        wanted = {"first": b"two", "other": b"one", "both": b"two", "early": b"one"}
        found = {name: contents(folder.at(name)) for name in folder.names()}
        is_told = ran.text.endswith(b" unlink /f = ok\ntree 1\ndir 1\n")
        if (ran.status, ran.errors) != (0, b"") or found != wanted or not is_told:
            return f"{found}: {shown(ran)}"
        ran = folder.run(b"job a\nput /f @first\nget /f @new\nput /g @new\ncommit\n")
        told = b"ft: cannot read 'new': entity not found\nfault: Read\n"
        if ran != playing.Run(1, b"", told) or folder.names() != set(wanted):
            return shown(ran)
    return None


def after_script(bench):
    """A script is played before the files of a plan are read, which may be those that it writes."""
    with folder_of(bench, **{"in": b"one", "out": b"old"}) as folder:
        put(folder.at("first.ft"), b"begin\n1 put /f @in\n1 get /f @out\ncommit 1\n")
        plan = b"job a\nput /g @out\nget /g @in\nget /f @new\ncommit\n"
        ran = folder.run(plan, "--after", "first.ft")
        is_put = b"\ncall 11 4 write 9 one = ok 3\n" in ran.text
        wanted = {"in": b"one", "out": b"one", "new": b"one"}
        found = {name: contents(folder.at(name)) for name in folder.names() - {"first.ft"}}
        is_right = (ran.status, ran.errors, found) == (0, b"", wanted) and is_put
        return None if is_right else f"{found}: {shown(ran)}"


def built_tool(bench):
    """A plan among the cases, which takes two files and leaves one."""
    name = "cases/plan_builds_a_tool"
    case = os.path.join(os.path.dirname(scripts.FOLDER), name)
    with folder_of(bench) as folder:
        os.mkdir(folder.at("cases"))
        for end in (".data", "_page.data"):
            shutil.copy(case + end, folder.at(name + end))
        ran = folder.run(contents(case + ".plan"))
        if ran != playing.Run(0, contents(case + ".out"), b""):
            return shown(ran)
        is_made = folder.holds(name + ".made", b"bin/hello\nman/hello\n")
        return None if is_made and folder.names() == {"cases"} else "its list is missing"


def ended_jobs(bench):
    """Jobs by chance in one another, in threads. Each puts a file of its own and gets it, before its
    subjobs or after them. A file is written if its job and all jobs around it have committed."""
    for seed in range(TIMES):
        chance = random.Random(seed)
        jobs = some_jobs(chance)
        files = {f"{name}_in": name.encode() for name, _, _ in jobs}
        with folder_of(bench, **files) as folder:
            plan = plan_of(chance, jobs)
            ran = folder.run(plan, "--threads", chance.choice(("1", "2", "64")))
            if (ran.status, ran.errors) != (0, b""):
                return f"seed {seed}: {plan}: {shown(ran)}"
            ends = dict(re.findall(rb"^job (\S+) \d+ (.*)$", ran.text, re.MULTILINE))
            if ends != {name.encode(): b"committed" if good else b"aborted" for name, _, good in jobs}:
                return f"seed {seed}: {plan}: {shown(ran)}"
            kept = {f"{name}_out": name.encode() for name in whole(jobs)}
            if {name: contents(folder.at(name)) for name in folder.names()} != {**files, **kept}:
                return f"seed {seed}: {plan}: {folder.names()}"
    return None


def some_jobs(chance):
    """Up to eight jobs. For each: its name, that of the job around it, and whether it commits."""
    jobs = []
    for number in range(chance.randint(1, 8)):
        parent = chance.choice(jobs)[0] if jobs and chance.random() < 0.7 else None
        jobs.append((f"j{number}", parent, chance.random() < 0.7))
    return jobs


def plan_of(chance, jobs):
    lines = []
    parents = {parent for _, parent, _ in jobs}
    for name, parent, good in jobs:
        steps = [f"put /{name} @{name}_in", f"get /{name} @{name}_out"]
        if name in parents:
            steps.insert(chance.randint(0, 2), "subs")
        lines += [f"job {name} {parent or ''}".strip(), *steps, "commit" if good else "abort"]
    return "\n".join(lines).encode() + b"\n"


def whole(jobs):
    """The names of the jobs that commit in jobs that do so too."""
    names = set()
    for name, parent, good in jobs:
        if good and (parent is None or parent in names):
            names.add(name)
    return names


def contended_jobs(bench):
    """Each job lists the directory in which all make something, so some begin again. Each file is
    that of the try that has committed."""
    names = [f"j{number}" for number in range(6)]
    job = "job {0}\nlist /\nput /{0} @{0}_in\nget /{0} @{0}_out\nlist /\ncommit\n"
    plan = "strict\n" + "".join(job.format(name) for name in names)
    files = {f"{name}_in": name.encode() * 1000 for name in names}
    for _ in range(10):
        with folder_of(bench, **files) as folder:
            ran = folder.run(plan.encode(), "--retries", "100")
            if (ran.status, ran.errors) != (0, b""):
                return shown(ran)
            if not all(folder.holds(f"{name}_out", name.encode() * 1000) for name in names):
                return f"{folder.names()}: {shown(ran)}"
    return None


# ---- files that can't be read or written


def special_reads(bench):
    """Only a regular file is put. If one can't be read, nothing runs and nothing is written."""
    with folder_of(bench, f=b"f") as folder:
        transfers.make_special(folder.path)
        put(folder.at(b"\xff"))
        before = folder.names()
        for name, why in transfers.READS.items():
            lines = b"mkdir /d\nget /d @new\nput /f @f\nput /g @%s\nput /h @none\n" % coded(name)
            told = b"ft: cannot read '%s': %s\nfault: Read\n" % (coded(name), why)
            for front in (b"", b"strict\n"):
                ran = folder.run(front + b"job a\n" + lines + b"commit\n")
                if ran != playing.Run(1, b"", told) or folder.names() != before:
                    return f"{name!r}: {shown(ran)}"
        told = b"ft: cannot read 'none': entity not found\nfault: Read\n"
        for plan in (b"strict\njob a\ntry put /f @none\ncommit\n", b"put /f @none\nno plan\n"):
            ran = folder.run(plan)
            if ran != playing.Run(1, b"", told):
                return f"{plan}: {shown(ran)}"
        ran = folder.run(b"job a\nput /f @to%20f\nget /f @out\ncommit\n")
        if (ran.status, ran.text) != (0, outcome_of(b"f")) or not folder.holds("out", b"f"):
            return f"a symbolic link to a file: {shown(ran)}"
    return None


def special_writes(bench):
    """Only a regular file is replaced. The other files of the plan are written all the same."""
    plan = b"job a\nput /f @f\nget /f @first\nget /f @%s\nget /f @last\ncommit\n"
    with folder_of(bench, f=b"f") as folder:
        transfers.make_special(folder.path)
        for name, why in transfers.WRITES.items():
            before, told_before = folder.names(), told_at(folder, name)
            ran = folder.run(plan % coded(name))
            fault = b"fault: Write" + told_data(os.fsencode(name))
            told = b"ft: cannot write '%s': %s\n%s\n" % (coded(name), why, fault)
            is_told = ran.text.startswith(b"job a 1 committed\nhistory 13\n")
            if (ran.status, ran.errors, is_told) != (1, told, True):
                return f"{name!r}: {shown(ran)}"
            if told_at(folder, name) != told_before:
                return f"{name!r}: it has changed"
            if folder.names() != before | {"first", "last"} or not folder.holds("f", b"f"):
                return f"{name!r}: {folder.names() ^ before}"
            for other in ("first", "last"):
                if not folder.holds(other, b"f"):
                    return f"{name!r}: {other} has other bytes"
                os.unlink(folder.at(other))
    return None


def unmet_writes(bench):
    """A strict plan with a job that fails has status 3, and status 1 if a file can't be written. The
    files of the other jobs are written."""
    plan = b"strict\njob a\nput /f @in\nget /f @%s\nget /f @out\nget /f @%s\ncommit\n"
    plan += b"job b\nafter a\nget /f @other\nstat /none\ncommit\n"
    told = b"ft: cannot write '%s': it is a directory\nfault: Write %s\n"
    with folder_of(bench, **{"in": b"in"}) as folder:
        os.mkdir(folder.at("d"))
        for names in ((b"d", b"."), (b"one", b"two")):
            bad = [name for name in names if name in (b"d", b".")]
            ran = folder.run(plan % names)
            wanted = (1 if bad else 3, b"".join(told % (name, name) for name in bad))
            is_failed = ran.text.startswith(b"job a 1 committed\njob b 2 failed 4\nhistory 17\n")
            if (ran.status, ran.errors) != wanted or not is_failed:
                return shown(ran)
            if not folder.holds("out", b"in") or "other" in folder.names():
                return f"{folder.names()}"
            os.unlink(folder.at("out"))
        return None if folder.names() == {"in", "d", "one", "two"} else f"{folder.names()}"


def told_at(folder, name):
    """All that a write could change of what is at a path in the folder, or nothing."""
    at = folder.at(name)
    return transfers.told_of(at) if name not in ("", ".") and os.path.lexists(at) else None


def as_other(folder):
    """How the superuser runs a copy of the program as somebody else, who may read the folder."""
    program = shutil.copy(folder.program, f"{folder.path}/program")
    put(folder.at("jobs.plan"))
    for path in (folder.path, program, folder.at("f"), folder.at("jobs.plan")):
        os.chmod(path, 0o755)
    other = {"user": transfers.OTHER, "group": transfers.OTHER, "extra_groups": []}
    return {"program": program, **other}


def no_rights(bench):
    """Files that may not be read, and folders that may not be written, for whoever runs the plan."""
    with folder_of(bench, shut=b"secret", f=b"f") as folder:
        os.mkdir(folder.at("closed"))
        put(folder.at("closed/f"), b"old")
        os.chmod(folder.at("shut"), 0)
        os.chmod(folder.at("closed"), 0o555)
        how = as_other(folder) if transfers.IS_ROOT else {}
        ran = folder.run(b"job a\nput /f @shut\ncommit\n", **how)
        if ran != playing.Run(1, b"", b"ft: cannot read 'shut': permission denied\nfault: Read\n"):
            return shown(ran)
        for name in (b"f", b"g"):
            before = transfers.told_of(folder.at("closed/f"))
            ran = folder.run(b"job a\nput /f @f\nget /f @closed/%s\ncommit\n" % name, **how)
            told = b"ft: cannot write 'closed/%s': permission denied\nfault: Write closed/%s\n"
            is_same = transfers.told_of(folder.at("closed/f")) == before
            is_told = ran.status == 1 and ran.errors == told % (name, name)
            if not is_told or not is_same or os.listdir(folder.at("closed")) != [b"f"]:
                return shown(ran)
        os.chmod(folder.at("closed"), 0o755)
    return None


def replaced_files(bench):
    """A file is replaced whole, with its permissions; its other names keep the old bytes."""
    with folder_of(bench, **{"in": b"new"}) as folder:
        for umask in (0o022, 0o077, 0):
            ran = folder.run(BOTH, umask=umask)
            mode = stat.S_IMODE(os.lstat(folder.at("out")).st_mode)
            if (ran.status, mode) != (0, 0o666 & ~umask) or not folder.holds("out", b"new"):
                return f"umask {umask:o}, mode {mode:o}: {shown(ran)}"
            os.unlink(folder.at("out"))
        for mode in (0o644, 0o600, 0o444, 0o000, 0o777, 0o6755, 0o1666):
            put(folder.at("out"), b"old bytes")
            os.link(folder.at("out"), folder.at("other name"))
            os.chmod(folder.at("out"), mode)
            ran = folder.run(BOTH, umask=0o077)
            told, other = os.lstat(folder.at("out")), os.lstat(folder.at("other name"))
            is_made = ran.status == 0 and told.st_ino != other.st_ino and told.st_nlink == 1
            if not is_made or stat.S_IMODE(told.st_mode) != mode & 0o777:
                return f"mode {mode:o}, then {told.st_mode:o}: {shown(ran)}"
            for name, data in (("out", b"new"), ("other name", b"old bytes")):
                os.chmod(folder.at(name), 0o600)
                if not folder.holds(name, data):
                    return f"mode {mode:o}: {name} has other bytes"
                os.unlink(folder.at(name))
    return None


def no_room(bench):
    """A disk on which there is no room leaves the file as it was, and others are written."""
    lines = b"job a\nput /f @large\nget /f @%s\nput /f @small\nget /f @last\ncommit\n"
    limit = ["bash", "-c", "trap '' XFSZ; ulimit -f 100; exec \"$@\"", "bash"]
    with folder_of(bench, large=b"x" * 300_000, small=b"small", old=b"old") as folder:
        for name in ("old", "new"):
            why = b"file too large"
            fault = fault_of_room(folder, name, why, lines % coded(name), front=limit)
            if fault is not None:
                return fault
        os.mkdir(folder.at("disk"))
        words = ["mount", "-t", "tmpfs", "-o", "size=64k", "tmpfs", folder.at("disk")]
        if subprocess.run(words, capture_output=True).returncode != 0:
            print("hostile: no small disk can be mounted, so none is tried")
            return None
        try:
            put(folder.at("disk/old"), b"old")
            for name in ("disk/old", "disk/new"):
                fault = fault_of_room(folder, name, b"no storage space", lines % coded(name))
                if fault is not None or os.listdir(folder.at("disk")) != [b"old"]:
                    return fault or f"{os.listdir(folder.at('disk'))} is left"
        finally:
            subprocess.run(["umount", folder.at("disk")], check=True)
    return None


def fault_of_room(folder, name, why, plan, **how):
    """Runs a plan that has no room for a file. Why it breaks a rule, or nothing."""
    before, names = told_at(folder, name), folder.names()
    ran = folder.run(plan, **how)
    told = b"ft: cannot write '%s': %s\nfault: Write %s\n" % (coded(name), why, coded(name))
    if ran.status != 1 or ran.errors != told or not ran.text.endswith(b"file 2 5 small\n"):
        return f"{name}: {shown(ran)}"
    if told_at(folder, name) != before or folder.names() != names | {"last"}:
        return f"{name}: {folder.names() ^ names}"
    if not folder.holds("last", b"small"):
        return f"{name}: the last file is missing"
    os.unlink(folder.at("last"))
    return None


def killed_gets(bench):
    """A run that is killed while it writes a file leaves that as it was, and the next one writes it."""
    data = random.Random(3).randbytes(1 << 23)
    for old in (None, b"old"):
        with folder_of(bench, **{"in": data}) as folder:
            if old is not None:
                put(folder.at("out"), old)
            put(folder.at("jobs.plan"), BOTH)
            words = [bench.program, "jobs", "--largest-file", "none", "jobs.plan"]
            with subprocess.Popen(words, cwd=folder.path, stdout=subprocess.DEVNULL) as run:
                while not is_begun(folder) and run.poll() is None:
                    time.sleep(0.0002)
                run.kill()
            left = contents(folder.at("out")) if os.path.lexists(folder.at("out")) else None
            if left not in (old, data):
                return f"{len(left or b'')} bytes are left"
            ran = folder.run(BOTH, "--largest-file", "none")
            if ran.status != 0 or not folder.holds("out", data):
                return shown(ran)
    return None


def is_begun(folder):
    return any(name.startswith(".save.part") for name in folder.names())


def no_outcome(bench):
    """If the outcome can't be written, no file is. The same holds for a file that has no plan."""
    with folder_of(bench, **{"in": b"in"}) as folder:
        with open("/dev/full", "wb") as full:
            ran = folder.run(BOTH, stdout=full)
        if (ran.status, ran.errors) != (1, b"fault: Write\n") or folder.names() != {"in"}:
            return shown(ran)
        ran = folder.run(BOTH + b"mkdir /d\n")
        told = b"ft: jobs.plan:5: a step comes after 'commit' or 'abort'\nfault: BadPlan\n"
        if ran != playing.Run(1, b"", told) or folder.names() != {"in"}:
            return shown(ran)
    return None


# ---- refused memory, and threads


def files_refused(bench, **settings):
    """The file is carried, or the job is refused and nothing is left of it, or the run ends with a
    fault. The file is whole, or there is none."""
    ran, counts, left = run_refused(bench, **settings)
    return fault_of_refused(ran, left), counts


def run_refused(bench, **settings):
    """Runs a plan that puts a file and gets it: the run, what was counted, and the files then."""
    with folder_of(bench, **{"in": b"two words"}) as folder:
        names = (coded(folder.at("in")), coded(folder.at("out")))
        put(folder.at("jobs.plan"), b"job a\nput /f @%s\nget /f @%s\ncommit\n" % names)
        words = ["jobs", os.path.join(folder.path, "jobs.plan")]
        ran, counts = bench.unkind.run(words, **settings)
        return ran, counts, {name: contents(folder.at(name)) for name in folder.names()}


def fault_of_refused(ran, left):
    wanted = {"in": b"two words", "out": b"two words"}
    is_there = left == wanted
    if not is_there and left != {"in": b"two words"}:
        return f"{left} is left"
    is_whole = ran.text == outcome_of(b"two words")
    refused = rb"job a (1|-) refused Memory\nhistory \d\n(call [^\n]*\n)*tree 1\ndir 1\n"
    if ran.status == 0 and not ran.errors:
        is_right = is_there if is_whole else not is_there and re.fullmatch(refused, ran.text)
        return None if is_right else f"{ran}, and there is {sorted(left)}"
    fault = b"".join(ran.errors.splitlines(keepends=True)[-1:])
    if is_whole:
        is_told = fault == b"fault: Memory\n" or re.fullmatch(rb"fault: Write \S+/out\n", fault)
    else:
        faults = (b"fault: Memory\n", b"fault: Read\n", b"fault: Thread\n")
        is_told = fault in faults and ran.text == b""
    is_right = ran.status == 1 and is_told and not is_there
    return None if is_right else f"{ran}, and there is {sorted(left)}"


def refused_threads(bench):
    """A thread that can't start ends the run, and no file is written."""
    ran, _, left = run_refused(bench, thread=1)
    is_right = playing.fault_of_end(ran, b"", "Thread") is None and "out" not in left
    return None if is_right else f"{ran}, and there is {sorted(left)}"
