"""Jobs in threads: each allocation refused, and each thread."""
import os
import tempfile

import playing
import refusals
import scripts

# Two jobs side by side, and two inside the first: each makes a directory and looks at it.
PLAN = b"""job a
mkdir /a
stat /a
subs
commit
job a1 a
mkdir /a/p
stat /a/p
commit
job a2 a
mkdir /a/q
stat /a/q
commit
job b
mkdir /b
stat /b
commit
"""

# The files that each job makes, and the job around it.
MADE = {"a": "/a", "a1": "/a/p", "a2": "/a/q", "b": "/b"}
AROUND = {"a1": "a", "a2": "a"}

# How often the plan is run as it is.
TIMES = 20

# How many milliseconds a thread waits at first, if it is seen whether the program waits for it.
DELAY = 300


def tests():
    return [
        ("jobs run side by side", run_side_by_side),
        *refusals.tests("jobs are", run_refused),
        ("jobs are refused threads", refused_threads),
        ("jobs are refused threads from some time on", refused_threads_for_good),
    ]


class Plan:
    """The plan in a file of its own."""

    def __init__(self, bench):
        self.bench = bench
        self.file = tempfile.NamedTemporaryFile(suffix=".plan")
        self.file.write(PLAN)
        self.file.flush()

    def run(self, **settings):
        return self.bench.unkind.run(["jobs", self.file.name], **settings)


def run_side_by_side(bench):
    """All commit, whichever comes first, each in a thread of its own."""
    plan = Plan(bench)
    for _ in range(TIMES):
        ran, counts = plan.run()
        fault = fault_of_text(ran)
        if counts.threads != len(MADE):
            fault = f"{counts.threads} threads"
        if ran.text.count(b" committed\n") != len(MADE):
            fault = f"not all have committed: {ran}"
        if fault is not None:
            return fault
    return None


def run_refused(bench, **settings):
    """The run ends well, or for lack of memory or of a thread."""
    ran, counts = Plan(bench).run(**settings)
    return fault_of_run(ran), counts


def fault_of_run(ran):
    if ran.status == 0:
        return fault_of_text(ran)
    is_want = ran.errors in (b"fault: Memory\n", b"fault: Thread\n")
    return None if ran.status == 1 and ran.text == b"" and is_want else f"{ran}"


def refused_threads(bench):
    return fault_of_threads_refused(bench, {})


def refused_threads_for_good(bench):
    return fault_of_threads_refused(bench, {"thread_on": 1})


def fault_of_threads_refused(bench, settings):
    """Each thread is refused: the run ends for lack of it, after those that were started."""
    plan = Plan(bench)
    for number in range(1, len(MADE) + 1):
        ran, counts = plan.run(thread=number, thread_delay=DELAY, **settings)
        fault = playing.fault_of_end(ran, b"", "Thread")
        if counts.threads_ended != counts.threads_started:
            fault = f"{counts.threads_started} were started, {counts.threads_ended} have ended"
        if fault is not None:
            return f"thread {number}: {fault}"
    ran, _ = plan.run(thread=len(MADE) + 1, **settings)
    return fault_of_text(ran)


def fault_of_text(ran):
    """Why a text is not the outcome of jobs that commit, are refused or not started, or nothing."""
    lines = ran.text.decode().splitlines()
    ends = {}
    for line in lines[: len(MADE)]:
        _, job, _, end = line.split(" ", 3)
        ends[job] = end
    if list(ends) != list(MADE):
        return f"{ran}"
    for job, end in ends.items():
        if end not in ("committed", "refused Memory", "notstarted"):
            return f"job {job} ended as {end}"
    called = [line for line in lines if line.startswith("call ")]
    if lines[len(MADE)] != f"history {len(called)}":
        return f"{len(called)} calls: {ran}"
    history = dict(map(call_of, called))
    tree = lines[len(MADE) + 1 + len(called) :]
    return scripts.first_difference(tree, tree_of(stands(ends), history))


def call_of(line):
    """Of a line 'call S T mkdir PATH = ok': the call, and S."""
    words = line.split()
    return f"{words[3]} {words[4]}", int(words[1])


def stands(ends):
    """The jobs whose work stays: those that have committed, and the one around them too."""
    return [job for job in ends if ends[job] == ends[AROUND.get(job, job)] == "committed"]


def tree_of(jobs, history):
    """The report on the tree that these jobs leave, from the stamps of what they have made."""
    numbers = {"/": 1}
    for job in jobs:
        numbers[MADE[job]] = history["mkdir " + MADE[job]]
    rows = [f"dir {number}" for number in sorted(numbers.values())]
    made = [path for path in numbers if path != "/"]
    for path in sorted(made, key=lambda path: (numbers[os.path.dirname(path)], path)):
        above = numbers[os.path.dirname(path)]
        rows.append(f"edge {above} {os.path.basename(path)} {numbers[path]}")
    return [f"tree {len(rows)}"] + rows
