"""Scripts that are cut, and reads and writes that fail, give little, or are interrupted."""
import playing
import scripts

# The scripts for reads and writes: files, locks and transactions of every kind of reply.
TRIED = ["files_are_written_and_read", "locks_held_and_retained", "deadlock_is_reported"]


def tests():
    named = []
    for case in scripts.all_cases():
        test = lambda bench, case=case: fault_of_cuts(bench, case)
        named.append((f"script is cut: {case.name}", test))
    for case in map(scripts.case_named, TRIED):
        for trial in (read_fails, write_fails, one_byte_at_a_time, reads_are_interrupted):
            name = f"{trial.__name__.replace('_', ' ')}: {case.name}"
            named.append((name, lambda bench, trial=trial, case=case: trial(bench, case)))
    named.append(("help can't be written", help_is_not_written))
    named.append(("a fault's line can't be written", fault_is_not_written))
    named.append(("the outcome of jobs can't be written", outcome_is_not_written))
    return named


def lasting_tests():
    """What takes long."""
    return [("reads are interrupted for ever", interrupted_for_ever)]


def help_is_not_written(bench):
    """A help text that can't be written ends as a reply does."""
    for words in (["--help"], ["play", "--help"]):
        ran, _ = bench.unkind.run(words, write=1, write_how="fail")
        fault = playing.fault_of_end(ran, b"", "Write")
        if fault is not None:
            return f"{words}: {fault}"
    return None


def fault_is_not_written(bench):
    """The line of a fault, of which only the first bytes can be written: nothing else changes."""
    words, script = [bench.program, "play"], b"begin\n#" + b"x" * scripts.LONGEST_LINE
    whole = playing.run(words, script)
    fault = playing.fault_of_end(whole, b"txn 1\n", "TooLong")
    for most in range(len(whole.errors)):
        cut = playing.run_with_short_errors(words, script, most)
        if cut != whole._replace(errors=whole.errors[:most]):
            fault = fault or f"of {most} bytes: {cut}"
    return fault


def fault_of_cuts(bench, case):
    """The script up to each byte: its whole lines are answered, and what is left of the next."""
    for end in bench.part(range(len(case.script) + 1)):
        fault = fault_of_cut(bench, case, end)
        if fault is not None:
            return f"cut after byte {end}: {fault}"
    return None


def fault_of_cut(bench, case, end):
    """What is left of a line is answered as a line of its own."""
    whole, left = split_behind_lines(case.script[:end])
    before = text_before(case, whole)
    words = [bench.program, "play", *case.words]
    ran = playing.run(words, case.script[:end])
    if ran.status != 0:
        return f"status {ran.status}, {ran.errors!r}"
    if not ran.text.startswith(before):
        return f"expected {playing.shown(before)} first, got {playing.shown(ran.text)}"
    last = ran.text[len(before) :]
    if scripts.has_reply(left) != (last != b"") or (last and not scripts.is_one_reply(last)):
        return f"{left!r} was answered {playing.shown(last)}"
    return playing.fault_of(playing.run(words, whole + left + b"\n"), ran.text)


def split_behind_lines(script):
    """A script's whole lines, and what is left after them."""
    end = script.rfind(b"\n") + 1
    return script[:end], script[end:]


def text_before(case, script):
    """The right text of a beginning of the case's script that ends with a line."""
    return b"".join(case.replies()[: len(scripts.requests_of(script))])


def read_fails(bench, case):
    """A read that fails at each byte: the lines before it are answered, and no more."""
    for number in range(1, len(case.script) + 2):
        how = {"read": number, "read_how": "fail", "read_bytes": 1}
        ran, _ = bench.unkind.run(["play"], case.script, **how)
        whole, _ = split_behind_lines(case.script[: number - 1])
        fault = playing.fault_of_end(ran, text_before(case, whole), "Read")
        if fault is not None:
            return f"read {number}: {fault}"
    return None


def write_fails(bench, case):
    """A write at each byte of the replies fails in some way."""
    return fault_of_writes(bench, ["play"], case.script, case.text)


def outcome_is_not_written(bench):
    """A write at each byte of the outcome of jobs fails in some way."""
    plan, text = scripts.plan_named("jobs_program_text")
    return fault_of_writes(bench, ["jobs", plan], b"", text)


def fault_of_writes(bench, words, script, text):
    """A write at each byte of a text that fails, is interrupted or takes nothing ends the run."""
    for number in range(1, len(text) + 1):
        how = ("fail", "interrupt", "nothing")[number % 3]
        ran, _ = bench.unkind.run(words, script, write=number, write_how=how, write_bytes=1)
        fault = playing.fault_of_end(ran, text[: number - 1], "Write")
        if fault is not None:
            return f"write {number}, {how}: {fault}"
    return None


def one_byte_at_a_time(bench, case):
    """Reads that give, and writes that take, one byte each change nothing."""
    ran, counts = bench.unkind.run(["play"], case.script, read_bytes=1, write_bytes=1)
    if (counts.reads, counts.writes) != (len(case.script) + 1, len(case.text)):
        return f"{counts.reads} reads and {counts.writes} writes"
    return playing.fault_of(ran, case.text)


def reads_are_interrupted(bench, case):
    """Reads of which each second one is interrupted change nothing."""
    ran, counts = bench.unkind.run(["play"], case.script, read_bytes=1, read_every=2)
    if counts.reads != 2 * len(case.script) + 1:
        return f"{counts.reads} reads"
    return playing.fault_of(ran, case.text)


def interrupted_for_ever(bench):
    """If each read after a line is interrupted, the reads are used up."""
    script = b"begin\n"
    how = {"read": len(script) + 1, "read_on": 1, "read_how": "interrupt", "read_bytes": 1}
    ran, _ = bench.unkind.run(["play"], script, **how)
    return playing.fault_of_end(ran, b"txn 1\n", "Turns")
