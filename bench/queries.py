"""Measures queries a second, M of them, among a thousand, ten thousand and a hundred thousand ported numbers.

    bench/run queries [M]      (default 300000; needs the built program)

Processor time after the ports are answered. The best of three runs each.
"""
from lib.measure import best, counts, folder
from lib.messages import count_of
from lib.numbers import ROUTED, ported, query
from lib.program import Fed
from lib.report import of_processor

PORTS = (1_000, 10_000, 100_000)


def querying_time(ports, many, answers):
    """Feeds the ports, and then times the queries, each of which is answered with a routing number."""
    with Fed(answers) as fed:
        fed.say(ported(ports))
        taken = fed.feed(query(turn, ports) for turn in range(many))
    assert count_of(answers, ROUTED) == many, (count_of(answers, ROUTED), many)
    return taken


def main(words):
    (many,) = counts(words, 300_000)
    times = []
    with folder() as held:
        for ports in PORTS:
            times.append(best(3, lambda: querying_time(ports, many, held / "answers")))
            print(f"{ports} ported numbers: {of_processor(many, 'queries', times[-1])}")
    print(f"the slowest has {min(times) / max(times):.2f} of the speed of the fastest")
