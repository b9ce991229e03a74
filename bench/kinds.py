"""The memory that a call of each kind takes, from scripts with few and with many of them."""
import collections
import os

import answers
import measuring
import scripts

# How many calls the two scripts have. The one number is the other by a power of two: what grows by
# doubling is then as full in both.
FEW, MANY = 256, 4096
FEW_LARGE, MANY_LARGE = 2, 32

LARGE = 1_048_576
PIECE = 4096

# How many calls there are, and how the n-th of them is made: a function of the script, the
# transaction, the files and n.
Kind = collections.namedtuple("Kind", "name counts make")

# Descriptors of a file of 100 bytes, of one that grows, and of one of 1 MiB.
Files = collections.namedtuple("Files", "small growing large")


def call(name, words, error=None, counts=(FEW, MANY)):
    """A kind of call whose words are a function of the files and of n."""
    return Kind(name, counts, lambda script, job, *of: script.ask(job, words(*of), error))


TEXT = 100 * "x"
KINDS = [
    Kind("no call", (FEW, MANY), lambda *_: None),
    Kind("`sub`, `commit`", (FEW, MANY), lambda script, job, *_: script.commit(script.begin(job))),
    call("`mkdir`, all in one directory", lambda files, n: f"mkdir /d/{n}"),
    call("`stat` of one directory", lambda files, n: "stat /d"),
    call("`stat` that fails, of one name", lambda files, n: "stat /d/none", "ENOENT"),
    call("`stat` that fails, of many names", lambda files, n: f"stat /d/{n}", "ENOENT"),
    call("`write` of 100 bytes at the end", lambda files, n: f"write {files.growing} {TEXT}"),
    call("`pwrite` of 100 bytes over others", lambda files, n: f"pwrite {files.small} 0 {TEXT}"),
    call("`pread` of 100 bytes", lambda files, n: f"pread {files.small} 0 100"),
    call("`fchmod` of one file", lambda files, n: f"fchmod {files.small} {600 + n % 2}"),
    call("`futime` of one file", lambda files, n: f"futime {files.small} {n} 0"),
    call(
        "`pread` of 1 MiB",
        lambda files, n: f"pread {files.large} 0 {LARGE}",
        counts=(FEW_LARGE, MANY_LARGE),
    ),
]


def beginning(script):
    """What all scripts begin with, in small steps, so that they take little while they are made."""
    job = script.begin()
    script.ask(job, "mkdir /d")
    files = Files(*(script.ask(job, f"open rwc /{name}") for name in Files._fields))
    script.ask(job, f"write {files.small} {TEXT}")
    script.commit(job)
    for _ in range(LARGE // PIECE):
        job = script.begin()
        script.ask(job, f"write {files.large} {PIECE * 'x'}")
        script.commit(job)
    return files


def in_one(kind, count):
    """So many calls in one transaction, live to the end."""
    script = scripts.Script(kind.name)
    files = beginning(script)
    job = script.begin()
    for number in range(count):
        kind.make(script, job, files, number)
    return script


def in_many(kind, count):
    """So many calls, each in a transaction of its own."""
    script = scripts.Script(kind.name)
    files = beginning(script)
    for number in range(count):
        job = script.begin()
        kind.make(script, job, files, number)
        script.commit(job)
    return script


def bytes_a_call(player, kind, way, file):
    """By how much the greatest heap grows with each call."""
    peaks = []
    for count in kind.counts:
        script = way(kind, count)
        script.save(file)
        peaks.append(measuring.heap(player.words, file))
        if count == kind.counts[0]:
            check(player, script, file)
    few, many = kind.counts
    return (peaks[1] - peaks[0]) / (many - few)


def check(player, script, file):
    """Raises ValueError if a script is not answered as it must be."""
    fault = answers.fault_of(script, measuring.replies(player.words, file), takes_back=True)
    if fault is not None:
        raise ValueError(f"{player.name}: {fault}")


WAYS = {"in one live transaction": in_one, "each in one of its own": in_many}


def rows(players, folder):
    """The table: for each kind of call the bytes that one takes, by each player."""
    cases = [(way, player) for way in WAYS for player in players]
    yield ["bytes a call", *(f"{way}: {player.name}" for way, player in cases)]
    file = os.path.join(folder, "kind")
    for kind in KINDS:
        taken = (bytes_a_call(player, kind, WAYS[way], file) for way, player in cases)
        yield [kind.name, *(f"{max(each, 0):,.0f}" for each in taken)]
