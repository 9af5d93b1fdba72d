"""Measures the time of a message and the peak memory, of N to 100 N versions, and of 2 to 100 carriers.

    bench/run growth [N]      (default 10000; needs the built program)

N, 10 N and 100 N ports among ten carriers, acknowledged by all; then N among two, and among ten with ninety more that acknowledge. Each
response is checked. Processor time; the best of three runs each.

The fewer the carriers, the more of the messages are commands, which cost more than acknowledgements. So it also prints what a port costs
without acknowledgements and what each of these costs, by the runs with two carriers and with a hundred, and how far the run with ten is
from that.
"""
from itertools import repeat

from lib.measure import counts, over_streams
from lib.messages import registered, shown, shows
from lib.numbers import CARRIERS, TWO, opening, opening_of_two, port, port_of_two
from lib.report import print_head, print_row

OTHERS = [f"Z{number:03}" for number in range(90)]


def lives(openings, port_at, carriers, count):
    """Each message, and what its response shows: so many ports, acknowledged by these carriers."""
    yield from zip(openings, repeat("{"))
    told = shown("pending", "pending", *["sending"] * len(carriers), "active")
    for place in range(count):
        yield from zip(port_at(place).whole(carriers), told)


def among_two(count):
    return lives(opening_of_two(count), port_of_two, TWO, count)


def among_ten(count):
    return lives(opening(), port, CARRIERS, count)


def among_hundred(count):
    return lives([*opening(), *map(registered, OTHERS)], port, CARRIERS + OTHERS, count)


def print_kinds(ports):
    """What the commands of a port cost and what each acknowledgement does, of the microseconds of a port by its carriers."""
    each = (ports[100] - ports[2]) / 98
    commands = ports[2] - 2 * each
    share = ports[10] / (commands + 10 * each)
    print(f"\nThe commands of a port: {commands:.2f} microseconds. An acknowledgement: {each:.2f}.", end=" ")
    print(f"A port among ten: {share:.2f} times the sum.")


def main(words):
    (least,) = counts(words, 10_000)
    print_head("Ports", "Carriers", "Messages", "Microseconds of processor time a message", "Its share of the first", "MiB")
    first, ports = None, {}
    for carriers, rows, many in (10, among_ten, (least, 10 * least, 100 * least)), (2, among_two, (least,)), (100, among_hundred, (least,)):
        for count, taken, messages in over_streams(many, rows, shows):
            each = 1e6 * taken.processor / messages
            first = first or each
            ports.setdefault(carriers, 1e6 * taken.processor / count)
            print_row(f"{count:,}", carriers, f"{messages:,}", f"{each:.2f}", f"{each / first:.2f}", f"{taken.peak:.1f}")
    print_kinds(ports)
