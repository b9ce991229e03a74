"""Long lines, the most transactions and calls, and scripts that must be linear."""
import re
import shutil

import playing
import scripts

MOST_TRANSACTIONS = 100_000
MOST_CALLS = 1_000_000
GREATEST_DEPTH = 4_096

# How many times as many instructions a script of four times the size may take. One that grows with
# the square takes sixteen times as many.
MOST_GROWTH = 5

# The command that counts the instructions of a program, and prints them to standard error.
COUNTER = ["valgrind", "--tool=callgrind", "--callgrind-out-file=/dev/null"]


def tests():
    return [
        ("longest comment", longest_comment),
        ("longest request", longest_request),
        ("transactions are full until a checkpoint", transactions_are_full_until_a_checkpoint),
        ("full of live transactions", full_of_live_transactions),
        ("transactions as deep as may be", transactions_as_deep_as_may_be),
    ]


def lasting_tests():
    """What takes long."""
    return [("full of calls", full_of_calls)]


def tests_of_growth():
    """The count, if there is a tool that counts."""
    if shutil.which(COUNTER[0]) is None:
        print(f"hostile: growth skipped: there is no {COUNTER[0]}")
        return []
    return [
        ("deep paths are linear", deep_paths_are_linear),
        ("crowds are linear", crowds_are_linear),
    ]


def transactions_as_deep_as_may_be(bench):
    """So many transactions in one another are listed, and end from the innermost on or at once."""
    numbers = range(1, GREATEST_DEPTH + 1)
    begun = b"begin\n" + b"".join(b"sub %d\n" % number for number in numbers)
    told = b"".join(b"txn %d\n" % number for number in numbers) + b"refused Deep\n"
    commits = b"".join(b"commit %d\n" % number for number in reversed(numbers))
    words = [bench.program, "play", "--deepest", "none"]
    for ends, wanted in ((commits, b"ok\n" * GREATEST_DEPTH), (b"abort 1\n", b"ok\n")):
        fault = playing.fault_of(playing.run(words, begun + ends), told + wanted)
        if fault is not None:
            return fault
    return None


def longest_comment(bench):
    """A comment of as many bytes as a line may have gets no reply; one more is too long."""
    for ending in (b"", b"\r"):
        for end_of_script in (b"", b"\n", b"\nbegin\n"):
            fault = fault_of_comment(bench, ending, end_of_script)
            if fault is not None:
                return f"{ending!r}, then {end_of_script!r}: {fault}"
    return None


def fault_of_comment(bench, ending, end_of_script):
    comment = b"#" * (scripts.LONGEST_LINE - len(ending)) + ending
    behind = b"txn 2\n" if end_of_script.endswith(b"begin\n") else b""
    fits = playing.run([bench.program, "play"], b"begin\n" + comment + end_of_script)
    longer = playing.run([bench.program, "play"], b"begin\n#" + comment + end_of_script)
    fault = playing.fault_of(fits, b"txn 1\n" + behind)
    return fault or playing.fault_of_end(longer, b"txn 1\n", "TooLong")


def longest_request(bench):
    """The same of a line with a request: the bytes that have room in a file are written."""
    opened = b"begin\n1 open wc /f\n"
    request = b"1 write 2 "
    request += b"x" * (scripts.LONGEST_LINE - len(request))
    answered = b"txn 1\n2 ok 2\n"
    fits = playing.run([bench.program, "play"], opened + request)
    longer = playing.run([bench.program, "play"], opened + request + b"x\n1 stat /f\n")
    fault = playing.fault_of(fits, answered + b"3 ok 1048576\n")
    return fault or playing.fault_of_end(longer, answered, "TooLong")


class Expected:
    """A script, and the expected output."""

    def __init__(self):
        self.requests = []
        self.replies = []

    def say(self, request, reply):
        self.requests.append(request.encode())
        self.replies.append(reply.encode() + b"\n")

    def fault(self, bench):
        """Why the program does not play it so, or nothing."""
        ran = playing.run([bench.program, "play"], scripts.script_of(self.requests))
        if ran.status != 0:
            return f"status {ran.status}, {ran.errors!r}"
        return scripts.first_difference(scripts.replies_of(ran.text), self.replies)


def transactions_are_full_until_a_checkpoint(bench):
    """All transactions that there may be, and as many again after a checkpoint: numbers go on."""
    script = Expected()
    for first in (1, MOST_TRANSACTIONS + 1):
        last = first + MOST_TRANSACTIONS - 1
        for txn in range(first, last + 1):
            script.say("begin", f"txn {txn}")
            script.say(f"abort {txn}", "ok")
        script.say("begin", "refused Full")
        script.say(f"sub {last}", "refused Ended")
        script.say(f"sub {last + 1}", "refused NoTxn")
        script.say("checkpoint", "ok")
        script.say(f"commit {last}", "refused NoTxn")
    script.say("begin", f"txn {2 * MOST_TRANSACTIONS + 1}")
    return script.fault(bench)


def full_of_live_transactions(bench):
    """All transactions that there may be, live at once; the end of one makes no room."""
    script = Expected()
    for txn in range(1, MOST_TRANSACTIONS + 1):
        script.say("begin", f"txn {txn}")
    script.say("begin", "refused Full")
    script.say("sub 1", "refused Full")
    script.say(f"sub {MOST_TRANSACTIONS + 1}", "refused NoTxn")
    script.say("commit 1", "ok")
    script.say("begin", "refused Full")
    return script.fault(bench)


def full_of_calls(bench):
    """All calls that there may be, of which an undo gives none back; a checkpoint does."""
    script = Expected()
    script.say("begin", "txn 1")
    for stamp in range(2, MOST_CALLS + 2):
        script.say("1 stat /", f"{stamp} ok dir 1 1 0")
    script.say("1 stat /", "refused Full")
    script.say("retry 1", "refused NoAsk")
    script.say("2 stat /", "refused NoTxn")
    script.say("undo 1", f"undone {MOST_CALLS + 1}")
    script.say("1 stat /", "refused Full")
    script.say("begin", "txn 2")
    script.say("2 stat /", "refused Full")
    script.say("abort 1", "ok")
    script.say("commit 2", "ok")
    script.say("checkpoint", "ok")
    script.say("begin", "txn 3")
    script.say("3 stat /", f"{MOST_CALLS + 2} ok dir 1 1 0")
    return script.fault(bench)


def deep_paths_are_linear(bench):
    """Calls on a path of four times as many names take four times as much, its making apart."""
    return fault_of_growth(bench, "names", [500, 2000], stats_of_deep_path, deep_path)


def deep_path(depth):
    """Makes /d and in it /d/d and so on, from the last one up."""
    requests = [b"begin", b"1 mkdir /d"]
    for _ in range(depth - 1):
        requests += [b"1 mkdir /e", b"1 rename /d /e/d", b"1 rename /e /d"]
    return requests


def stats_of_deep_path(depth):
    return deep_path(depth) + [b"1 stat " + b"/d" * depth] * 400


def crowds_are_linear(bench):
    """Four times as many transactions that each look at one directory take four times as much."""
    return fault_of_growth(bench, "transactions", [10_000, 40_000], stats_of_crowd, crowd)


def crowd(size):
    """So many live transactions."""
    return [b"begin", b"1 mkdir /d", b"commit 1"] + [b"begin"] * size


def stats_of_crowd(size):
    return crowd(size) + [b"%d stat /d" % number for number in range(2, size + 2)]


def fault_of_growth(bench, what, sizes, whole, part):
    """Why what a script takes, less what a part of it takes, grows too fast, or nothing."""
    taken = [instructions(bench, whole(size)) - instructions(bench, part(size)) for size in sizes]
    growth = taken[1] / taken[0]
    if growth > MOST_GROWTH:
        few, many = (f"{size} {what}: {count:,}" for size, count in zip(sizes, taken))
        return f"instructions for {few}; for {many}: {growth:.1f} times as many"
    return None


def instructions(bench, requests):
    """How many instructions a script takes. They are the same in each run, which times are not."""
    words = [*COUNTER, bench.program, "play"]
    ran = playing.run(words, scripts.script_of(requests))
    counted = re.search(rb"Collected : (\d+)", ran.errors)
    if ran.status != 0 or counted is None:
        raise ValueError(f"status {ran.status}, {ran.errors!r}")
    return int(counted[1])
