"""Runs of which each allocation is refused in turn, or each and all after it."""
import functools
import sys


def tests(name, tried):
    """Two tests of what `tried` runs. It gets the bench and settings for unkind.c, and returns why
    the run fails, or nothing, and what was counted."""
    return [
        (f"{name} refused memory", functools.partial(fault_of_refusals, tried, {})),
        (
            f"{name} refused memory from some time on",
            functools.partial(fault_of_refusals, tried, {"allocation_on": 1}),
        ),
    ]


def fault_of_refusals(tried, settings, bench):
    """Why a run with an allocation refused fails, or nothing. The last one that is tried is one that
    the run does not make."""
    for number in bench.part(range(1, sys.maxsize)):
        fault, counts = tried(bench, allocation=number, **settings)
        if fault is not None:
            return f"allocation {number}: {fault}"
        if counts.refused == 0:
            break
    return None
