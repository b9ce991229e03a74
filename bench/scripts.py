"""The eight scripts of the bench, each of about as many lines as requested.

A script is the same in each run, and a longer one begins as the shorter one does, except `many`.
Each request comes with the beginning of its reply: the numbers of transactions, calls and
descriptors are known beforehand. Each call is granted, and fails only if that is meant.

Nothing that was undone is looked at again, except by a call that is there to see it gone: so a
tree that undoes nothing answers all other lines alike.
"""
import random

# How many lines a script has for one of the others, if it has fewer.
SHARES = {"smalltx": 0.4, "rw": 0.2}

WORDS = "a tree of files in memory that answers calls inside nested transactions".split()


class Script:
    """Requests, and the beginning of the reply to each."""

    def __init__(self, name):
        self.chance = random.Random(name)
        self.requests = []
        self.replies = []
        self.after_taking_back = set()  # the lines whose replies show what was undone
        self.transactions = 0
        self.stamp = 1
        self.stamps = {}  # of the calls of each transaction that can be undone

    def __len__(self):
        return len(self.requests)

    def say(self, request, reply):
        self.requests.append(request)
        self.replies.append(reply)

    def save(self, file):
        """Writes the requests into a file."""
        with open(file, "w", encoding="ascii") as lines:
            lines.writelines(f"{request}\n" for request in self.requests)

    def begin(self, parent=None):
        self.transactions += 1
        self.stamps[self.transactions] = []
        self.say("begin" if parent is None else f"sub {parent}", f"txn {self.transactions}")
        return self.transactions

    def commit(self, transaction):
        self.say(f"commit {transaction}", "ok")

    def abort(self, transaction):
        self.say(f"abort {transaction}", "ok")

    def undo(self, transaction):
        self.after_taking_back.add(len(self))
        self.say(f"undo {transaction}", f"undone {self.stamps[transaction].pop()}")

    def ask(self, transaction, call, error=None):
        """Makes a call, and returns its stamp, which is the descriptor of an `open`."""
        self.stamp += 1
        self.stamps[transaction].append(self.stamp)
        self.say(f"{transaction} {call}", f"{self.stamp} {error or 'ok'}")
        return self.stamp

    def see_gone(self, transaction, path):
        """Looks for what was undone."""
        self.after_taking_back.add(len(self))
        self.ask(transaction, f"stat {path}", "ENOENT")

    def write_file(self, transaction, path, words):
        """Makes a file with so many words in it."""
        file = self.ask(transaction, f"open wcx {path}")
        self.ask(transaction, f"write {file} {self.text(words)}")
        self.ask(transaction, f"close {file}")

    def text(self, words):
        """So many words, percent-coded as data are."""
        return "%20".join(self.chance.choices(WORDS, k=words))

    def one_of(self, items):
        return self.chance.choice(items)


def build(script, count):
    """A build: jobs of eight steps, each a subtransaction that compiles a source.

    A step looks for headers, reads the source, writes an object apart and renames it into place.
    One in eight fails before that: it vanishes, and is made once more.
    """
    job = script.begin()
    for path in ("/src", "/out", "/tmp"):
        script.ask(job, f"mkdir {path}")
    for number in range(20):
        script.write_file(job, f"/src/{number}.c", 300)
    script.commit(job)
    while len(script) < count:
        job = script.begin()
        script.ask(job, f"mkdir /out/{job}")
        for number in range(8):
            compile_one(script, job, f"/out/{job}/{number}.o")
        script.ask(job, f"list /out/{job}")
        script.commit(job)


def compile_one(script, job, path):
    """A step of a build, until it does not fail."""
    is_done = False
    while not is_done:
        step = script.begin(job)
        is_done = script.chance.random() < 7 / 8
        source = f"/src/{script.chance.randrange(20)}.c"
        script.ask(step, f"stat {source}")
        script.ask(step, f"stat /src/{step}.h", "ENOENT")
        file = script.ask(step, f"open r {source}")
        script.ask(step, f"read {file} 4096")
        script.ask(step, f"close {file}")
        script.write_file(step, f"/tmp/{step}", 300)
        if is_done:
            script.ask(step, f"rename /tmp/{step} {path}")
            script.commit(step)
        else:
            script.abort(step)
            script.see_gone(job, f"/tmp/{step}")


def install(script, count):
    """An installation: packages of ten files, each file a subtransaction.

    A file is written under another name and renamed into place. One package in eight fails at its
    end, and vanishes with the steps in it that had ended.
    """
    job = script.begin()
    for path in ("/usr", "/usr/share", "/var"):
        script.ask(job, f"mkdir {path}")
    script.commit(job)
    while len(script) < count:
        package = script.begin()
        folder = f"/usr/share/{package}"
        script.ask(package, f"mkdir {folder}")
        for number in range(10):
            install_one(script, package, f"{folder}/{number}")
        script.ask(package, f"list {folder}")
        script.write_file(package, f"/var/{package}.list", 20)
        if script.chance.random() < 7 / 8:
            script.commit(package)
        else:
            script.abort(package)
            job = script.begin()
            script.see_gone(job, folder)
            script.commit(job)


def install_one(script, package, path):
    """A file of a package."""
    step = script.begin(package)
    script.write_file(step, f"{path}.new", 350)
    script.ask(step, f"rename {path}.new {path}")
    script.ask(step, f"stat {path}")
    script.commit(step)


def wide(script, count):
    """One directory with many names, of directories and of files.

    They are made, looked at, renamed and removed here and there.
    """
    job = script.begin()
    names = ["/wide/first"]
    script.ask(job, "mkdir /wide")
    script.ask(job, "mkdir /wide/first")
    script.commit(job)
    while len(script) < count:
        job = script.begin()
        for _ in range(8):
            change_names(script, job, names)
        script.commit(job)


def change_names(script, job, names):
    """Makes two names in the directory, looks at two and renames one; some are removed."""
    directory, file, other = (f"/wide/{script.stamp}{kind}" for kind in ("d", "f", "g"))
    script.ask(job, f"mkdir {directory}")
    descriptor = script.ask(job, f"open wcx {file}")
    script.ask(job, f"close {descriptor}")
    names.append(directory)
    script.ask(job, f"stat {script.one_of(names)}")
    script.ask(job, f"stat {script.one_of(names)}")
    at = script.chance.randrange(len(names))
    script.ask(job, f"rename {names[at]} {other}")
    names[at] = other
    if script.chance.random() < 1 / 4:
        script.ask(job, f"rmdir {names.pop()}")
    if script.chance.random() < 1 / 2:
        script.ask(job, f"unlink {file}")


def deep(script, count):
    """Calls at the end of a path of fifty names, made and removed there."""
    job = script.begin()
    path = ""
    for level in range(50):
        path += f"/in{level:02}"
        script.ask(job, f"mkdir {path}")
    script.commit(job)
    while len(script) < count:
        job = script.begin()
        for _ in range(5):
            script.ask(job, f"stat {path}")
            script.ask(job, f"mkdir {path}/made")
            script.ask(job, f"stat {path}/made")
            script.ask(job, f"stat {path}/missing", "ENOENT")
            file = script.ask(job, f"open rwcx {path}/made/file")
            script.ask(job, f"close {file}")
            script.ask(job, f"list {path}/made")
            script.ask(job, f"unlink {path}/made/file")
            script.ask(job, f"rmdir {path}/made")
        script.commit(job)


def many(script, count):
    """Many live transactions, side by side.

    Each job has fifty steps, each in a directory of its own, and all steps of all jobs are live at
    once: each takes its turn. One in ten is aborted in the end.
    """
    jobs = [script.begin() for _ in range(max(1, count // 510))]
    for job in jobs:
        script.ask(job, f"mkdir /{job}")
    steps = [(script.begin(job), job) for job in jobs for _ in range(50)]
    paths = [f"/{job}/{step}" for step, job in steps]
    for (step, _), path in zip(steps, paths):
        script.ask(step, f"mkdir {path}")
    files = [script.ask(step, f"open rwcx {path}/f") for (step, _), path in zip(steps, paths)]
    for (step, _), file in zip(steps, files):
        script.ask(step, f"write {file} {script.text(8)}")
    for (step, _), file in zip(steps, files):
        script.ask(step, f"pread {file} 0 64")
    for (step, _), file in zip(steps, files):
        script.ask(step, f"close {file}")
    for (step, _), path in zip(steps, paths):
        script.ask(step, f"rename {path}/f {path}/g")
    for (step, _), path in zip(steps, paths):
        script.ask(step, f"stat {path}/g")
    for (step, _), path in zip(steps, paths):
        script.ask(step, f"list {path}")
    gone = end_steps(script, steps, paths)
    for job, path in gone:
        script.see_gone(job, path)
    for job in jobs:
        script.commit(job)


def end_steps(script, steps, paths):
    """Commits most steps and aborts some; returns these, as jobs and paths."""
    gone = []
    for (step, job), path in zip(steps, paths):
        if script.chance.random() < 9 / 10:
            script.commit(step)
        else:
            script.abort(step)
            gone.append((job, path))
    return gone


def undo(script, count):
    """Calls that are undone one by one: a third of all lines is an undo."""
    job = script.begin()
    script.ask(job, "mkdir /undo")
    script.commit(job)
    while len(script) < count:
        job = script.begin()
        path = f"/undo/{job}"
        script.ask(job, f"mkdir {path}")
        file = script.ask(job, f"open rwcx {path}/f")
        script.ask(job, f"write {file} {script.text(20)}")
        for number in range(3):
            try_and_undo(script, job, f"{path}/{number}", file)
        script.ask(job, f"close {file}")
        script.commit(job)


def try_and_undo(script, job, path, file):
    """Five calls that are all undone, the last one first, and one that is not."""
    script.ask(job, f"mkdir {path}.d")
    script.ask(job, f"pwrite {file} 200 {script.text(10)}")
    made = script.ask(job, f"open wcx {path}.f")
    script.ask(job, f"write {made} {script.text(10)}")
    script.ask(job, f"rename {path}.f {path}.d/f")
    for _ in range(5):
        script.undo(job)
    script.see_gone(job, f"{path}.d/f")
    script.ask(job, f"mkdir {path}.e")


def smalltx(script, count):
    """A transaction for each two calls, one after another, over a directory of a hundred names."""
    job = script.begin()
    script.ask(job, "mkdir /small")
    for number in range(100):
        script.ask(job, f"mkdir /small/{number}")
    script.commit(job)
    while len(script) < count:
        job = script.begin()
        path = f"/small/{script.chance.randrange(100)}"
        script.ask(job, f"stat {path}")
        script.ask(job, f"mkdir {path}/{job}")
        script.commit(job)


def rw(script, count):
    """Bytes written to files of 60 KB and read from them, four and eight kilobytes at once."""
    job = script.begin()
    for number in range(16):
        script.write_file(job, f"/{number}", 10_000)
    script.commit(job)
    while len(script) < count:
        job = script.begin()
        file = script.ask(job, f"open rw /{script.chance.randrange(16)}")
        for _ in range(4):
            script.ask(job, f"pwrite {file} {script.chance.randrange(50_000)} {script.text(700)}")
            script.ask(job, f"pread {file} {script.chance.randrange(50_000)} 8192")
            script.ask(job, f"write {file} {script.text(700)}")
            script.ask(job, f"read {file} 8192")
        script.ask(job, f"close {file}")
        script.commit(job)


ALL = {one.__name__: one for one in (build, install, wide, deep, many, undo, smalltx, rw)}


def script_of(name, count):
    """A script by its name, of about so many lines, or of its share of them."""
    script = Script(name)
    ALL[name](script, int(count * SHARES.get(name, 1)))
    return script
