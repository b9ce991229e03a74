"""Strict plans: jobs by chance, and whether what the program writes keeps the rules for them.

The rules (docs/SCRIPT.md, Strict plans) are written here a second time. Threads may come in any
order, so no outcome is expected: each is judged by itself.
"""
import collections
import random
import re
import tempfile

import playing

# How many plans are run.
TIMES = 100

# The steps of a job that blocks others: it lists the directory in which all make something, looks
# for a while, and then makes something there. So in most runs some wait for each other.
IN_THE_WAY = "list /\n" + "try stat /{0}\n" * 60 + "mkdir /{0}\nlist /\ncommit\n"

# Six such jobs, two of them in a job that holds no lock itself.
HEADS = ("job a", "job b", "job d", "job e", "job c1 c", "job c2 c")
JOBS = [head + "\n" + IN_THE_WAY.format(head.split()[1]) for head in HEADS]
CONTENDED = "strict\njob c\nsubs\ncommit\n" + "".join(JOBS)

# How often that plan is run.
TIMES_CONTENDED = 20

PATHS = ("/a", "/b", "/a/x", "/a/y", "/b/x")
CALLS = ("mkdir {}", "rmdir {}", "stat {}", "list {}", "open wc {}", "unlink {}")

Job = collections.namedtuple("Job", "name parent is_must after steps")
Call = collections.namedtuple("Call", "stamp words reply")
Told = collections.namedtuple("Told", "txn end calls")


NOT_OPENED = "'@' needs the number or the name of an earlier step 'open' of the job"

NO_STEP = "not a step: no call has this name and these words"
NO_FILE = "'put' and 'get' need just a path, and '@' with the name of a file of the disk"
NO_FILE += " (%20 is a space)"
TOO_LONG = "it has more than 8,388,608 bytes"

# The most bytes that the file of a plan has.
LONGEST = 8_388_608

# Files that are no plans. For each: the line that is wrong, or None, and what is said of it.
MISTAKES = [
    ("", None, "it has no job"),
    ("# nothing\n", None, "it has no job"),
    ("mkdir /a\n", 1, "a step comes before the first job"),
    ("job\n", 1, "a name is missing after 'job'"),
    ("job A\ncommit\n", 1, "a name is 1 to 32 of a to z, 0 to 9, '_' and '-'"),
    ("job a\ncommit\njob a\ncommit\n", 3, "another job has this name"),
    ("job a b\ncommit\n", 1, "the job around it is not on an earlier line"),
    ("job a b c\n", 1, "a job has at most two names: its own, and the job around it"),
    ("strict\njob must a b c\n", 2, "there are words after the two names"),
    ("strict\nafter a\n", 2, "'after' comes before the first job"),
    ("# a\njob a\n\nmkdir /a\njob b\n", 2, "the job does not end with 'commit' or 'abort'"),
    ("job a\nmkdir /a\n", 1, "the job does not end with 'commit' or 'abort'"),
    ("job a\ncommit\nmkdir /b\n", 3, "a step comes after 'commit' or 'abort'"),
    ("job a\ncommit now\n", 2, "'subs', 'commit' and 'abort' are lines of their own"),
    ("job a\nsubs\nsubs\n", 3, "the job has a step 'subs' already"),
    ("job a\nsubs\ncommit\n", 2, "'subs' is a step of a job without subjobs"),
    ("job a\ncommit\njob b a\ncommit\n", 1, "the job has subjobs and no step 'subs'"),
    ("job a\nmakedir /a\n", 2, NO_STEP),
    ("job a\nopen q /a\n", 2, NO_STEP),
    ("job a\nmkdir /a\nclose @1\n", 3, NOT_OPENED),
    ("job a\nclose @2\nopen wc /a\n", 2, NOT_OPENED),
    ("job a\nclose @x\n", 2, NOT_OPENED),
    ("job a\nopen wc /a as x\ncommit\njob b\nclose @x\n", 5, NOT_OPENED),
    ("job a\nopen wc /a as x\nclose @X\n", 3, NOT_OPENED),
    ("job a\nwrite @x b\nopen wc /a as x\n", 2, NOT_OPENED),
    ("job a\nopen wc /a as 1x\n", 2, NO_STEP),
    ("job a\nopen q /a as x\n", 2, NO_STEP),
    ("job a\nmkdir /a as x\n", 2, NO_STEP),
    ("job a\nopen wc /a as x\nwrite @x b as c\n", 3, NO_STEP),
    ("strict\njob a\ntry\n", 3, "only a call may come after 'try'"),
    ("job a\nput\n", 2, NO_FILE),
    ("job a\nput /f\n", 2, NO_FILE),
    ("job a\nput /f g\n", 2, NO_FILE),
    ("job a\nget @g\n", 2, NO_FILE),
    ("job a\nget  /f @g\n", 2, NO_FILE),
    ("job a\nget /f @g \n", 2, NO_FILE),
    ("job a\nget /f @g more\n", 2, NO_FILE),
    ("job a\nget /f @g as x\n", 2, NO_FILE),
    ("job a\nget /f @%00\n", 2, NO_FILE),
    ("job a\nget /%00 @g\n", 2, NO_FILE),
    ("strict\njob a\ntry get /f\n", 3, NO_FILE),
    ("strict\njob a\ntry try get /f @g\n", 3, NO_STEP),
    ("job a\nGet /f @g\n", 2, NO_STEP),
    ("get /f @g\njob a\ncommit\n", 1, "a step comes before the first job"),
    ("job a\ntry get /f @g\ncommit\n", 2, "'try' is for strict plans"),
    ("job a\ncommit\nget /f @g\n", 3, "a step comes after 'commit' or 'abort'"),
    ("job a\nget /f @g\nget /f @h\nmakedir /a\n", 4, NO_STEP),
    ("job a\nget /f @g\r\n\n# get /f @g\nmakedir /a\n", 5, NO_STEP),
    ("job a\nget /f @g\ncommit\njob b\nget /f @g\n", 4, "the job does not end with 'commit' or 'abort'"),
    ("job a\nget /f @g\nsubs\nget /f @g\ncommit\n", 3, "'subs' is a step of a job without subjobs"),
    ("strict\njob a\nget /f @g\nafter b\n", 4, "'after' comes once, right after the line of its job"),
    ("job a\nget /f @g\nread @put 9\n", 3, NOT_OPENED),
    ("job a\nread @get 9\nget /f @g\n", 2, NOT_OPENED),
    ("job a\nget /f @g\nread @2 9\n", 3, NOT_OPENED),
    ("job a\nget /f @g\nread @1 9\nread @4 9\n", 4, NOT_OPENED),
    ("job a\nget /f @g\ncommit\njob b\nread @get 9\n", 5, NOT_OPENED),
    ("#" * LONGEST, None, "it has no job"),
    ("#" * (LONGEST + 1), None, TOO_LONG),
]


def tests():
    mistakes = [("a line that is wrong is named", named_lines), ("so is any", any_lines)]
    plans = [
        ("strict plans keep their rules", strict_plans),
        ("a contended plan loses no job", contended_plan),
        ("names of steps mean their numbers", named_steps),
        ("numbers may make a plan longer than its file may be", longest_plan),
    ]
    return [*plans, *mistakes]


def named_lines(bench):
    for text, line, why in MISTAKES:
        ran, name = run_text(bench, text)
        place = name if line is None else f"{name}:{line}"
        if (ran.status, ran.errors) != (1, f"ft: {place}: {why}\nfault: BadPlan\n".encode()):
            return f"{text[:99]!r}: {ran}"
    return None


def any_lines(bench):
    """Plans from which a line is taken, or to which one is given twice, or two change places."""
    for seed in range(TIMES):
        chance = random.Random(seed)
        text = changed(chance, text_of(some_jobs(chance)))
        ran, name = run_text(bench, text)
        told = re.escape(f"ft: {name}") + r"(:(\d+))?: [^\n]+\nfault: BadPlan\n"
        found = re.fullmatch(told, ran.errors.decode())
        is_in = found and (not found[2] or 1 <= int(found[2]) <= text.count("\n"))
        is_plan = ran.status in (0, 3) and not ran.errors
        if not is_plan and not (ran.status == 1 and is_in):
            return f"seed {seed}: {text!r}: {ran}"
    return None


def named_steps(bench):
    """Plans whose steps have names, and the same with numbers: one thread makes the same of both."""
    for seed in range(TIMES):
        texts = two_texts(random.Random(seed))
        numbers, names = (run_text(bench, text, ("--threads", "1"))[0] for text in texts)
        if (names.status, names.text, names.errors) != (0, numbers.text, b"") or numbers.status:
            return f"seed {seed}: {texts}: {numbers}, {names}"
    return None


def longest_plan(bench):
    """A file of as many bytes as it may have. Six times a number of two digits takes the place of a
    name of one letter, and five bytes that give the name are left out: so the plan has one byte more."""
    text = "job a\n" + "stat /\n" * 9 + "open wc /f as f\n" + "fstat @f\n" * 6 + "commit\n"
    ran, _ = run_text(bench, text + "#" * (LONGEST - len(text)))
    if ran.status != 0 or ran.errors or b"\ncall 17 1 fstat 11 = ok file 11 1 0\n" not in ran.text:
        return f"{ran}"
    return None


def two_texts(chance):
    """Some jobs by chance, with the numbers of their steps and with names in place of them."""
    numbers, names = [], []
    for job in range(chance.randint(1, 3)):
        heads = [f"job j{job}", *["# no step"] * chance.randint(0, 1)]
        steps = two_steps(chance)
        numbers += [*heads, *[number for number, _ in steps], "commit"]
        names += [*heads, *[name for _, name in steps], "", "commit"]
    return "\n".join(numbers) + "\n", "\n".join(names) + "\n"


def two_steps(chance):
    """Steps that open files, or use what was opened: each with a number, and with a name."""
    steps, opened = [], {}
    while len(steps) < 12:
        name, path = chance.choice("abc"), chance.choice(PATHS)
        if name in opened and chance.random() < 0.7:
            call = chance.choice(("read @{} 9", "write @{} x", "fstat @{}"))
            steps.append((call.format(opened[name]), call.format(name)))
        else:
            steps.append((f"open rwc {path}", f"open rwc {path} as {name}"))
            opened[name] = len(steps)
    return steps


def run_text(bench, text, words=()):
    """Runs the jobs of a text. Returns what came of it, and the name of the file."""
    with tempfile.NamedTemporaryFile(suffix=".plan") as file:
        file.write(text.encode())
        file.flush()
        return playing.run([bench.program, "jobs", *words, file.name]), file.name


def changed(chance, text):
    lines = text.splitlines(keepends=True)
    one, other = chance.randrange(len(lines)), chance.randrange(len(lines))
    change = chance.choice("taken given moved".split())
    if change == "taken":
        del lines[one]
    elif change == "given":
        lines.insert(other, lines[one])
    else:
        lines[one], lines[other] = lines[other], lines[one]
    return "".join(lines)


def strict_plans(bench):
    for seed in range(TIMES):
        chance = random.Random(seed)
        jobs = some_jobs(chance)
        fault = fault_of_plan(bench, jobs, flags(chance))
        if fault is not None:
            return f"seed {seed}: {fault}"
    return None


def fault_of_plan(bench, jobs, words):
    """Runs a plan of these jobs. Why it breaks a rule, or nothing."""
    with tempfile.NamedTemporaryFile(suffix=".plan") as file:
        file.write(text_of(jobs).encode())
        file.flush()
        ran = playing.run([bench.program, "jobs", *words, file.name])
    if ran.status not in (0, 3) or ran.errors:
        return f"{ran}"
    if has_many_tries(ran.text.decode(), int(words[words.index("--retries") + 1])):
        return f"{ran}"
    told = told_by(jobs, ran.text.decode())
    if ran.status != (0 if all(map(is_met, told.values())) else 3):
        return f"{ran}"
    faults = ((job.name, fault_of_job(job, jobs, told)) for job in jobs)
    return next((f"{name} {why}: {ran}" for name, why in faults if why is not None), None)


def contended_plan(bench, times=TIMES_CONTENDED, words=("--retries", "100")):
    """All jobs commit, however often some of them are begun again."""
    for _ in range(times):
        ran, _ = run_text(bench, CONTENDED, words)
        ends = re.findall(r"^job \S+ \S+ (.*)$", ran.text.decode(), re.MULTILINE)
        if ran.status != 0 or ran.errors or ends != ["committed"] * (1 + len(JOBS)):
            return f"{ran}"
    return None


def has_many_tries(text, most):
    """Whether a job was begun again more often than it may be."""
    tries = collections.Counter(re.findall(r"^try (\S+) \d+ deadlock$", text, re.MULTILINE))
    return any(count > most for count in tries.values())


# ---- plans by chance


def flags(chance):
    rule = ["--moss"] if chance.random() < 0.3 else []
    often = ["--turns", chance.choice("125"), "--retries", chance.choice("012")]
    return rule + often + ["--threads", chance.choice(("1", "2", "64"))]


def some_jobs(chance):
    """Up to eight jobs, whose subjobs and order are by chance."""
    heads = []
    for number in range(chance.randint(1, 8)):
        name = f"j{number}"
        parent = chance.choice(heads)[0] if heads and chance.random() < 0.6 else None
        beside = [head[0] for head in heads if head[1] == parent]
        after = chance.sample(beside, min(len(beside), chance.choice((0, 0, 1, 2))))
        heads.append((name, parent, parent is not None and chance.random() < 0.4, after))
    parents = {head[1] for head in heads}
    return [Job(*head, some_steps(chance, head[0] in parents)) for head in heads]


def some_steps(chance, has_subjobs):
    """Calls, most of them tried, and the steps that a job must have."""
    calls = [chance.choice(CALLS).format(chance.choice(PATHS)) for _ in range(chance.randint(0, 4))]
    steps = ["try " + call if chance.random() < 0.7 else call for call in calls]
    if has_subjobs:
        steps.insert(chance.randint(0, len(steps)), "subs")
    return steps + ["commit" if chance.random() < 0.9 else "abort"]


def text_of(jobs):
    lines = ["strict"]
    for job in jobs:
        names = [job.name] + ([job.parent] if job.parent else [])
        lines.append(" ".join(["job"] + ["must"] * job.is_must + names))
        lines += [" ".join(["after"] + job.after)] * bool(job.after) + job.steps
    return "\n".join(lines) + "\n"


# ---- what became of the jobs


def told_by(jobs, text):
    """For each job the program's report."""
    lines = text.splitlines()
    calls = collections.defaultdict(list)
    for line in lines[len(jobs) + 1 :]:
        found = re.fullmatch(r"call (\d+) (\d+) (.*) = (.*)", line)
        if found:
            calls[found[2]].append(Call(int(found[1]), found[3], found[4]))
    told = {}
    for job, line in zip(jobs, lines):
        txn, end = line.removeprefix(f"job {job.name} ").split(" ", 1)
        told[job.name] = Told(txn, end, calls[txn])
    return told


def is_met(told):
    """Whether a job was ended by its last step."""
    return told.end in ("committed", "aborted")


def is_failed(call):
    return re.fullmatch("E[A-Z]+", call.reply) is not None


def may_not_fail(step):
    return not step.startswith("try ")


def made(steps):
    """Those of some steps that are calls."""
    return [step for step in steps if step not in ("subs", "commit", "abort")]


def fault_of_job(job, jobs, told):
    """Which rule a job breaks, or nothing."""
    mine = told[job.name]
    if mine.end == "notstarted":
        return None if may_be_unstarted(job, jobs, told) and not mine.calls else "was not started"
    if not all(is_before(told[name], mine) for name in job.after):
        return "started early"
    pairs = zip(made(job.steps), mine.calls)
    failed = [may_not_fail(step) and is_failed(call) for step, call in pairs]
    if any(failed[:-1]):
        return "went on behind a call that failed"
    musts = [other for other in jobs if other.is_must and other.parent == job.name]
    is_spared = all(is_met(told[other.name]) for other in musts)
    if is_met(mine):
        is_whole = len(mine.calls) == len(made(job.steps)) and not any(failed)
        return None if is_whole and is_spared else "ended in spite of a failure"
    return fault_of_failure(job, mine, any(failed), is_spared)


def fault_of_failure(job, mine, has_failed, is_spared):
    """Why a job can't have failed as reported, or nothing."""
    if mine.end == "deadlock":
        is_right = not has_failed and len(mine.calls) < len(made(job.steps))
        return None if is_right else "was in no deadlock"
    before = job.steps[: int(mine.end.removeprefix("failed ")) - 1]
    step = job.steps[len(before)]
    if step == "subs":
        is_right = not is_spared and not has_failed and len(mine.calls) == len(made(before))
    else:
        is_right = len(mine.calls) == len(made(before)) + has_failed
        is_right &= step not in ("commit", "abort") and (is_spared or "subs" not in before)
    return None if is_right else "failed elsewhere"


def is_before(other, mine):
    """Whether a job that has committed did so before another one made a call."""
    stamps = [call.stamp for call in other.calls[-1:] + mine.calls[:1]]
    return other.end == "committed" and stamps == sorted(stamps)


def may_be_unstarted(job, jobs, told):
    """Whether its parent did not reach its subjobs, or one before it has not committed."""
    if any(told[name].end != "committed" for name in job.after):
        return True
    around = next((other for other in jobs if other.name == job.parent), None)
    if around is None:
        return False
    end = told[around.name].end
    if end.startswith("failed "):
        return "subs" not in around.steps[: int(end.removeprefix("failed "))]
    return end in ("notstarted", "deadlock")
