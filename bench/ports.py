"""Measures messages a second and peak memory, of N ports among ten carriers, and of 2 N.

    bench/run ports [N]      (default 20000; needs the built program)

Both creates, the activation and ten acknowledgements each. The best of five runs, which discard their output; the
responses of another run are checked.
"""
from itertools import repeat

from lib.measure import best, compare, counts
from lib.messages import shown, shows
from lib.numbers import CARRIERS, opening, port
from lib.program import command_line, run

# what the answers to a port's messages show
SHOWN = shown("pending", "pending", *["sending"] * len(CARRIERS), "active")


def rows(count):
    """Each message, and what its answer has to show."""
    yield from zip(opening(), repeat("{"))
    for place in range(count):
        yield from zip(port(place).whole(), SHOWN)


def best_of_five(stream, answers):
    run(command_line("feed"), stream, answers)
    return best(5, lambda: run(command_line("feed"), stream), key=lambda taken: taken.wall)


def main(words):
    compare(*counts(words, 20_000), 2, "ports", rows, shows, best_of_five)
