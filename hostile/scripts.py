"""Scripts and what is written for them, line by line and reply by reply."""
import glob
import os
import re

FOLDER = os.path.join(os.path.dirname(os.path.dirname(os.path.abspath(__file__))), "cases")

# The most bytes of a line: docs/SCRIPT.md, "Lines and words".
LONGEST_LINE = 8_388_608

REPORTS = [b"tree", b"locks", b"attributes", b"waits"]

# The first line of each reply that there is: docs/SCRIPT.md, "Requests" and "Replies".
REPLY = re.compile(
    rb"(txn \d+|ok|undone \d+|waits( \d+)+|bad line|refused [A-Za-z]+"
    rb"|(tree|locks|attributes|edges) \d+|\d+ ok( \d+( \S+)*)?"
    rb"|\d+ ok (file|dir|link) \d+ \d+ \d+( attributes [0-7]{4} \d+ \d+)?( time -?\d+ \d+)?"
    rb"|\d+ E[A-Z]+)\n"
)

# How many lines a reply has after its first one, which has their number N.
LINES_BEHIND = {b"tree": 0, b"locks": 0, b"attributes": 0, b"edges": 1}


class Case:
    """A script among the case files, the words for the program, and the text that is right."""

    def __init__(self, path):
        self.name = os.path.basename(path)[: -len(".ft")]
        self.script = contents(path)
        self.text = contents(path[: -len(".ft")] + ".out")
        args = path[: -len(".ft")] + ".args"
        self.words = contents(args).decode().split() if os.path.exists(args) else []

    def is_of_one_piece(self):
        """It ends at a line that fails, or its first line says what all others need."""
        return "--strict" in self.words or self.script.startswith(b"# needs")

    def requests(self):
        return requests_of(self.script)

    def replies(self):
        return replies_of(self.text)


def contents(path):
    with open(path, "rb") as file:
        return file.read()


def all_cases():
    """All scripts but those of which each line does not stand for itself."""
    cases = [Case(path) for path in sorted(glob.glob(os.path.join(FOLDER, "*.ft")))]
    return [case for case in cases if not case.is_of_one_piece()]


def case_named(name):
    return Case(os.path.join(FOLDER, name + ".ft"))


def plan_named(name):
    """The file of a plan among the case files, and the text that is right."""
    plan = os.path.join(FOLDER, name + ".plan")
    return plan, contents(plan[: -len(".plan")] + ".out")


def script_of(requests):
    """The script that makes these requests."""
    return b"".join(request + b"\n" for request in requests)


def has_reply(line):
    """Whether a line gets a reply: one that is empty or a comment does not."""
    bare = line[:-1] if line.endswith(b"\r") else line
    return bare != b"" and not bare.startswith(b"#")


def requests_of(script):
    """The lines of a script that get a reply."""
    return [line for line in script.split(b"\n") if has_reply(line)]


def replies_of(text):
    """A text reply by reply, each with its line feeds; what breaks off is left as it is."""
    replies = []
    lines = text.splitlines(keepends=True)
    at = 0
    while at < len(lines):
        count = lines_of_reply(lines[at])
        replies.append(b"".join(lines[at : at + count]))
        at += count
    return replies


def lines_of_reply(first):
    """How many lines the reply has that begins with this one."""
    words = first.split()
    if len(words) != 2 or words[0] not in LINES_BEHIND or not words[1].isdigit():
        return 1
    return 1 + int(words[1]) + LINES_BEHIND[words[0]]


def is_one_reply(text):
    """Whether a text is one whole reply."""
    if len(replies_of(text)) != 1 or not REPLY.match(text):
        return False
    return len(text.splitlines()) == lines_of_reply(text.splitlines()[0])


def is_cut_at_reply(text, whole):
    """Whether a text is the beginning of the whole one, and breaks off after a reply of it."""
    ends = {0}
    for reply in replies_of(whole):
        ends.add(max(ends) + len(reply))
    return whole.startswith(text) and len(text) in ends


def first_difference(got, wanted):
    """The first difference of two lists, in words, or nothing."""
    for number, (one, other) in enumerate(zip(got, wanted), 1):
        if one != other:
            return f"reply {number}: expected {other!r}, got {one!r}"
    if len(got) != len(wanted):
        return f"expected {len(wanted)} replies, got {len(got)}"
    return None
