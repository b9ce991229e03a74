"""Transactions as seen from outside: which ones are live, and which calls are standing."""

MOST_DEPTH = 64


class Transaction:
    """A transaction: the one around it, what has become of it, and its standing calls."""

    def __init__(self, number, parent):
        self.number = number
        self.parent = parent
        self.depth = 1 if parent is None else parent.depth + 1
        self.state = "live"
        self.stamps = []
        self.pending = None
        self.child_committed_after = None

    def chain(self):
        """The transaction and those around it."""
        return [self] + (self.parent.chain() if self.parent else [])

    def is_gone(self):
        """Whether what it has done is taken away: it is aborted, or one around it."""
        return any(one.state == "aborted" for one in self.chain())


class Transactions:
    """All transactions since the last checkpoint, and all standing calls."""

    def __init__(self):
        self.last = 0
        self.known = {}
        self.standing = {}

    def live(self):
        return [one for one in self.known.values() if one.state == "live"]

    def live_children(self, of):
        return [one for one in self.live() if one.parent is of]

    def refusal(self, request, number):
        """The name of the refusal of a request for a transaction, or nothing."""
        if number not in self.known:
            return "NoTxn"
        one = self.known[number]
        if one.state != "live":
            return "Ended"
        if request == "sub" and one.depth == MOST_DEPTH:
            return "Deep"
        if request in ("commit", "undo") and self.live_children(one):
            return "ChildLive"
        if request in ("retry", "drop") and one.pending is None:
            return "NoAsk"
        return self.refusal_of_undo(one) if request == "undo" else None

    def refusal_of_undo(self, one):
        """A call is undone only if no child has committed since."""
        if one.child_committed_after is None:
            return None if one.stamps else "NothingToUndo"
        is_later = one.stamps and one.stamps[-1] > one.child_committed_after
        return None if is_later else "SubSince"

    def begin(self, parent=None):
        self.last += 1
        self.known[self.last] = Transaction(self.last, self.known.get(parent))
        return self.last

    def grant(self, number, stamp, call, reply):
        one = self.known[number]
        one.stamps.append(stamp)
        one.pending = None
        self.standing[stamp] = (one, call, reply)

    def wait(self, number, call):
        self.known[number].pending = call

    def drop(self, number):
        self.known[number].pending = None

    def undo(self, number):
        """Undoes the last of the transaction's calls, and returns its stamp."""
        stamp = self.known[number].stamps.pop()
        del self.standing[stamp]
        return stamp

    def commit(self, number, last_stamp):
        one = self.known[number]
        one.state = "committed"
        one.pending = None
        if one.parent:
            one.parent.child_committed_after = last_stamp

    def abort(self, number):
        aborted = self.known[number]
        for one in self.live():
            if aborted in one.chain():
                one.state = "aborted"
                one.pending = None
        for stamp, (one, _, _) in list(self.standing.items()):
            if one.is_gone():
                del self.standing[stamp]

    def checkpoint(self):
        self.known = {}
