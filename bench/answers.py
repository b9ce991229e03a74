"""Whether a script was answered as it must be.

A player that undoes nothing is excused from the lines that show what was undone.
"""


def fault_of(script, replies, takes_back):
    """The first reply that does not begin as the script expects, in words, or nothing."""
    if len(replies) != len(script):
        return f"{len(replies)} replies to {len(script)} lines"
    for at in lines_held_to(script, takes_back):
        wanted = script.replies[at]
        if replies[at] != wanted and not replies[at].startswith(wanted + " "):
            return in_words(script, at, replies[at], wanted)
    return None


def difference(script, replies, wanted, takes_back):
    """The first reply that is not the one that is wanted, in words, or nothing."""
    for at in lines_held_to(script, takes_back):
        if replies[at] != wanted[at]:
            return in_words(script, at, replies[at], wanted[at])
    return None


def lines_held_to(script, takes_back):
    let_off = set() if takes_back else script.after_taking_back
    return (at for at in range(len(script)) if at not in let_off)


def in_words(script, at, reply, wanted):
    told = f"line {at + 1}, {script.requests[at][:80]!r}"
    return f"{told}: expected {wanted[:80]!r}, got {reply[:80]!r}"
