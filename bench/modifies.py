"""Measures messages a second and peak memory, of N ported numbers that are modified under changing windows, and of 4 N.

    bench/run modifies [N]      (default 5000; needs the built program)

They come in rounds, at most as many as there can be sets of windows. Each round replaces the windows, ports its numbers
and modifies their routings. Then the clock moves to the end of the broadcasts' window, and the versions are read and
queried. Of the modifies every carrier acknowledges a third, some carriers a third in time and the others later, and
nobody a third. Each response is compared byte for byte with what the rules say. The best of three runs each.
"""
from lib.measure import compare, counts
from lib.messages import acknowledgement, answer, message, question, said, text_of
from lib.numbers import CARRIERS, lrn_of, port, providers_told

CODES = 200
MOST_ROUNDS = 900
MINUTES = {
    "cancellation_final": 60, "cancellation_initial": 60, "conflict_expiration": 1000, "conflict_resolution": 120,
    "conflict_restriction": 30, "final_concurrence": 60, "initial_concurrence": 60, "pending_retention": 500,
}


def other_lrn_of(carrier):
    return f"{lrn_of(carrier)[:-1]}1"


def opening():
    yield from providers_told(lrn_of, other_lrn_of)
    for code in range(CODES):
        opened = {"code": f"202{200 + code}", "spid": CARRIERS[code % 10]}
        yield said("NPAC", "/codes", opened, opened)


class Number:
    """The number at a place, ported at a minute as the next version, and how many acknowledge its modify in time."""

    def __init__(self, place, minute):
        self.port, self.minute = port(place, CODES), minute
        self.id, self.other_lrn = self.port.version, other_lrn_of(self.port.new)
        self.version = {
            "attempt": 0, "cic": None, "due": minute, "id": self.id, "lrn": self.port.lrn, "new": self.port.new,
            "old": self.port.old, "phase": "initial", "release": None, "since": minute, "status": "pending",
            "subject": self.port.tn,
        }
        self.in_time = (10, 4, 0)[place % 3]

    def told(self, asked, **changes):
        """A message, and its answer: the version with what the message changes."""
        self.version |= changes
        return asked, answer(text_of(self.version))

    def acknowledged(self, attempt, carriers, **last):
        for carrier in carriers:
            asked = acknowledgement(carrier, self.id, attempt)
            yield self.told(asked, **last if carrier == CARRIERS[-1] else {})

    def ported(self):
        yield self.told(self.port.new_create(self.minute))
        yield self.told(self.port.old_create(self.minute), phase=None)
        yield self.told(self.port.activation(), attempt=1, status="sending")
        yield from self.acknowledged(1, CARRIERS, status="active")

    def modified(self):
        body = text_of({"id": self.id, "lrn": self.other_lrn})
        asked = message(self.port.new, "/subscriptionVersionModify", body)
        yield self.told(asked, attempt=2, status="sending")
        yield from self.acknowledged(2, CARRIERS[: self.in_time], status="active", lrn=self.other_lrn)

    def closed(self, minute):
        """What the end of the window has made of it, and the later acknowledgements."""
        if self.in_time == 0:
            self.version |= {"status": "active", "since": minute}
        elif self.in_time < len(CARRIERS):
            self.version |= {"status": "partial-failure", "since": minute, "lrn": self.other_lrn}
        yield self.told(question(self.port.old, f"/versions/{self.id}"))
        if 0 < self.in_time:
            yield from self.acknowledged(2, CARRIERS[self.in_time :], status="active")
        uri = f"tel:+1{self.port.tn}"
        yield said(self.port.old, "/query", {"uri": uri}, {"uri": f"{uri};npdi;rn=+1{self.version['lrn']}"})


def rows(count):
    """Each message, and its answer."""
    yield from opening()
    size = 1 + (count - 1) // MOST_ROUNDS
    minute = 0
    for place, first in enumerate(range(0, count, size)):
        broadcast = 10 + place % 7
        yield said("NPAC", "/windows", MINUTES | {"broadcast": broadcast}, {"now": minute, "set": place + 2})
        numbers = [Number(at, minute) for at in range(first, min(first + size, count))]
        for number in numbers:
            yield from number.ported()
            yield from number.modified()
        minute += broadcast
        yield said("NPAC", "/clock", {"minute": minute}, {"now": minute})
        for number in numbers:
            yield from number.closed(minute)


def main(words):
    compare(*counts(words, 5_000), 4, "numbers", rows)
