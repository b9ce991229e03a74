"""Refused memory: each case script with each of its allocations refused.

The program either ends with 'fault: Memory' after a beginning of the right text, or it refuses
one request for lack of memory and answers the others as if that one had not been made, or it does
without. A read gives one line, so that the reply to it is written before the next one is read, and
the allocations between two writes are those of a line.
"""
import playing
import scripts

REFUSED = b"refused Memory\n"

# So many allocations more than it makes by itself a request is tried with after reports, which
# may leave less room.
MORE = 3

# A text begins with room for so many bytes, and has twice as many whenever it is full.
TEXT_ROOM = 8

# Requests that take no memory except for their text.
TAKES_NONE = (b"commit ", b"abort ", b"undo ", b"drop ")

# A line that is longer may take memory for its words, with numbers in place of names.
SHORT_LINE = 64

# A line that is never granted: it is made in a transaction that does not exist. The name that it
# gives is not known after it.
UNNAMING = b"retry 0 as "


def tests():
    named = []
    for case in scripts.all_cases():
        test = lambda bench, case=case: Refusals(bench, case).fault()
        named.append((f"memory is refused: {case.name}", test))
    return named


class Refusals:
    """The runs of one case with allocations refused."""

    def __init__(self, bench, case):
        self.bench = bench
        self.case = case
        self.requests = case.requests()
        self.replies = case.replies()
        self.texts_without = {}

    def fault(self):
        """Why the case fails, or nothing."""
        ran, counts = self.play(self.case.script)
        fault = playing.fault_of(ran, self.case.text)
        if fault is None and counts.writes != len(self.replies):
            fault = f"{counts.writes} writes for {len(self.replies)} replies"
        if fault is not None:
            return fault
        return (
            self.fault_of_counts()
            or self.fault_of_each(counts)
            or self.fault_of_each_refused([0] + counts.notes)
        )

    def play(self, script, **settings):
        words = ["play", *self.case.words]
        return self.bench.unkind.run(words, script, read_line=1, **settings)

    def played(self, requests, **settings):
        return self.play(scripts.script_of(requests), **settings)

    def fault_of_counts(self):
        """Requests that take no memory make no allocation, except for a reply and a longer line."""
        _, counts = self.played(self.requests)
        for at, request in list(enumerate(self.requests))[1:]:
            made = counts.notes[at] - counts.notes[at - 1]
            is_longest = len(request) > max(map(len, self.requests[:at]))
            if request.startswith(TAKES_NONE) and len(request) < SHORT_LINE:
                if made > made_for_text(self.replies[at]) + is_longest:
                    return f"{request!r} makes {made} allocations"
        return None

    def fault_of_each(self, counts):
        """Each allocation of the script, one at a time."""
        for number in self.bench.part(range(1, counts.allocations + 1)):
            ran, refused = self.play(self.case.script, allocation=number)
            fault = self.fault_of_refusal(ran)
            if refused.refused != 1:
                fault = f"{refused.refused} allocations were refused"
            if fault is not None:
                return f"allocation {number}: {fault}"
        return None

    def fault_of_refusal(self, ran):
        if ran.text == self.case.text and ran.status == 0:
            return None
        if ran.status != 0:
            return fault_of_broken_off(ran, self.case.text)
        replies = scripts.replies_of(ran.text)
        if replies.count(REFUSED) != 1 or len(replies) != len(self.replies):
            return f"neither right nor one request refused: {playing.shown(ran.text)}"
        at = replies.index(REFUSED)
        if self.requests[at].startswith(TAKES_NONE):
            return f"{self.requests[at]!r} was refused"
        if b"".join(replies[:at] + replies[at + 1 :]) != self.text_without(at):
            return f"without {self.requests[at]!r} the others are answered otherwise"
        return None

    def text_without(self, at):
        """What is written for the script without one request."""
        if at not in self.texts_without:
            replies = self.replies_instead(at, self.requests[at + 1 :])
            self.texts_without[at] = b"".join(replies)
        return self.texts_without[at]

    def replies_instead(self, at, behind):
        """The replies to the requests before one that is refused, and to those behind.

        If that one gives a name, the name is not known behind it.
        """
        unnaming = unnaming_of(self.requests[at])
        ran, _ = self.played(self.requests[:at] + unnaming + behind)
        replies = scripts.replies_of(ran.text)
        return replies[:at] + replies[at + len(unnaming) :]

    def fault_of_each_refused(self, ends):
        """Each request, with each allocation between the reply before it and its own refused."""
        places = []
        for at, request in enumerate(self.requests):
            if not request.startswith(TAKES_NONE):
                made = ends[at + 1] - ends[at]
                places += [(at, number) for number in range(1, made + MORE + 1)]
        for at, number in self.bench.part(places):
            fault = self.fault_of_again(at, number) or self.fault_of_abort(at, number)
            if fault is not None:
                return f"{self.requests[at]!r}, allocation {number}: {fault}"
        return None

    def fault_of_again(self, at, number):
        """Reports right before and after a refusal are the same; made again it is answered."""
        request = self.requests[at]
        looked = scripts.REPORTS + [request] + scripts.REPORTS
        requests = self.requests[:at] + looked + [request] + self.requests[at + 1 :]
        place = at + len(scripts.REPORTS)
        ran, _ = self.played(requests, allocation=number, behind_writes=place)
        replies = scripts.replies_of(ran.text)
        if replies[place : place + 1] != [REFUSED]:
            return fault_of_no_refusal(ran, replies, place, self.replies[at])
        before = replies[at : at + len(scripts.REPORTS)]
        behind = replies[place + 1 : at + len(looked)]
        if before != behind:
            return f"reports before and behind differ: {before}, {behind}"
        others = replies[:at] + replies[at + len(looked) :]
        return scripts.first_difference(others, self.replies)

    def fault_of_abort(self, at, number):
        """An abort of the asker right after a refusal leaves what it does without that one."""
        asker = asker_of(self.requests[at])
        if asker is None:
            return None
        behind = [b"abort " + asker] + scripts.REPORTS + self.requests[at + 1 :]
        requests = self.requests[:at] + [self.requests[at]] + behind
        ran, _ = self.played(requests, allocation=number, behind_writes=at)
        replies = scripts.replies_of(ran.text)
        if replies[at : at + 1] != [REFUSED]:
            return fault_of_no_refusal(ran, replies, at, self.replies[at])
        if replies[at + 1] != b"ok\n":
            return f"the abort behind it: {replies[at + 1]!r}"
        wanted = self.replies_instead(at, behind)
        return scripts.first_difference(replies[:at] + replies[at + 1 :], wanted)


def made_for_text(reply):
    """How many allocations the text of a reply takes."""
    count, room = 1, TEXT_ROOM
    while room < len(reply):
        count, room = count + 1, 2 * room
    return count


def fault_of_broken_off(ran, whole):
    """Why a run that has ended early has not ended as lack of memory ends it, or nothing."""
    if (ran.status, ran.errors) != (1, b"fault: Memory\n"):
        return f"status {ran.status}, {ran.errors!r}"
    if not scripts.is_cut_at_reply(ran.text, whole):
        return f"no beginning of the right text that ends with a reply: {playing.shown(ran.text)}"
    return None


def fault_of_no_refusal(ran, replies, at, right):
    """Why a run whose request was to be refused, and was not, is not as it may be, or nothing.

    It must end for lack of memory before the reply to that, or to give the right one.
    """
    if ran.status != 0:
        is_so = (ran.status, ran.errors, len(replies)) == (1, b"fault: Memory\n", at)
        return None if is_so else f"status {ran.status}, {ran.errors!r}, {playing.shown(ran.text)}"
    return None if replies[at] == right else f"expected {right!r}, got {replies[at]!r}"


def unnaming_of(request):
    """A line after which the name that a request gives is not known, if it gives one."""
    _, is_given, name = request.rstrip(b"\r").rpartition(b" as ")
    return [UNNAMING + name] if is_given else []


def asker_of(request):
    """The transaction that a request is made in, by its number or its name, or nothing."""
    words = request.rstrip(b"\r").split(b" ")
    if len(words) < 2 or words[0] == b"begin":
        return None
    return words[1] if words[0] in (b"sub", b"retry") else words[0]
