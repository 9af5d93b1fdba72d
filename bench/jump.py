"""Measures firings a second, if the windows of N versions, and of 2 N, end in one jump of the clock.

    bench/run jump [N]      (default 100000; needs the built program)

The versions have one create each. A carrier that registers after the jump settles them all. Processor time of that
registration; the best of three runs each.
"""
from lib.measure import best, counts, folder
from lib.messages import clock, count_of, question, registered
from lib.numbers import next_door, opening
from lib.program import Fed
from lib.report import of_processor, print_growth

# the concurrence windows of the examples: 60 and 60 minutes
ENDED = 120


def settling_time(many, answers):
    """Each version has to be canceled in the minute in which its windows ended."""
    with Fed(answers) as fed:
        fed.feed(opening())
        fed.feed(next_door(place).old_create(due=300) for place in range(many))
        fed.feed([clock(10 * ENDED)])
        taken = fed.feed([registered("ZZZZ")])
        fed.feed(question("NPAC", f"/versions/{version}") for version in range(1, many + 1))
    canceled = f'"since":{ENDED},"status":"canceled"'.encode()
    assert count_of(answers, canceled) == many and count_of(answers, b'{"error"') == 0
    return taken


def main(words):
    (count,) = counts(words, 100_000)
    times = []
    with folder() as held:
        for many in (count, 2 * count):
            times.append(best(3, lambda: settling_time(many, held / "answers")))
            print(f"{many} versions: {of_processor(many, 'firings', times[-1])}")
    print_growth("time for twice as many", times)
