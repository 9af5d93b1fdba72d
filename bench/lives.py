"""Measures messages a second and peak memory, of N numbers with every command on a version, and of 2 N.

    bench/run lives [N]      (default 50000; needs the built program)

They are disputed, cancelled, ported and given back: 15 messages a number, two versions. Each response is checked. The best of three runs each.
"""
from itertools import repeat

from lib.measure import compare, counts
from lib.messages import on_version, opened, question, registered, routed, shown, shows
from lib.numbers import Port

OLD, NEW = "AAAA", "BBBB"
LRN = "2025440000"

# what a life's answers show before and after that of which version is in force
BEFORE = shown("pending", "pending", "conflict", "pending", "cancel-pending", "canceled",
               "pending", "pending", "sending", "sending", "active")
AFTER = shown("sending", "sending", "old")


def opening():
    """Two carriers, a routing number, and a hundred codes."""
    codes = [opened(f"202{200 + code}", OLD) for code in range(100)]
    return [registered(OLD), registered(NEW), routed(NEW, LRN), *codes]


def life(place):
    """A port that is disputed and cancelled, one that is made and given back: versions 2 n + 1 and 2 n + 2."""
    tn = f"202{200 + place % 100}{place // 100:04}"
    disputed, ported = (Port(tn, OLD, NEW, LRN, 2 * place + turn) for turn in (1, 2))
    yield from disputed.sent(1000)[:2]
    yield on_version(OLD, "Conflict", disputed.version)
    yield on_version(OLD, "RemoveFromConflict", disputed.version)
    yield on_version(OLD, "Cancel", disputed.version)
    yield on_version(NEW, "NewSP-CancellationAcknowledge", disputed.version)
    yield from ported.whole([OLD, NEW])
    yield question(OLD, f"/numbers/{tn}")
    yield on_version(NEW, "Disconnect", ported.version)
    yield from ported.acknowledged([OLD, NEW], attempt=2)


def rows(count):
    """Each message, and what its answer has to show."""
    yield from zip(opening(), repeat("{"))
    for place in range(count):
        yield from zip(life(place), [*BEFORE, f'"in_force":{2 * place + 2},"open":null', *AFTER])


def main(words):
    compare(*counts(words, 50_000), 2, "lives", rows, shows)
