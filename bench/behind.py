"""Measures refusals a second of an acknowledgement that is out of order, with N other downloads pending, and 100 N.

    bench/run behind [N]      (default 1000; needs the built program)

For one carrier of ten, a delete and then a create of one number are pending, and N downloads of other numbers. It
acknowledges the create again and again, which is refused. Processor time; the best of three runs each.
"""
from lib.measure import best, counts, folder
from lib.messages import acknowledgement, clock, count_of, on_version
from lib.numbers import CARRIERS, opening, port
from lib.program import Fed
from lib.report import of_processor, print_growth

CALLER = CARRIERS[3]
TRIES = 20_000
# the broadcast window of the examples
CLOSED = 15


def sent_later(place, version):
    """A port up to its activation, in the minute in which the first window has ended."""
    return port(place)._replace(version=version).sent(CLOSED)


def twice():
    """The first number is ported, disconnected, and ported again: of it a delete and a create wait for the caller."""
    first = port(0)
    yield from first.whole()
    yield on_version(first.new, "Disconnect", 1)
    yield from first.acknowledged([carrier for carrier in CARRIERS if carrier != CALLER], attempt=2)
    yield clock(CLOSED)
    yield from sent_later(0, 2)


def refusing_time(count, answers):
    with Fed(answers) as fed:
        fed.feed(opening())
        fed.feed(twice())
        fed.feed(text for place in range(1, count + 1) for text in sent_later(place, place + 2))
        taken = fed.feed([acknowledgement(CALLER, 2)] * TRIES)
    assert count_of(answers, b'{"error"') == count_of(answers, b'{"error":"out_of_order"') == TRIES
    return taken


def main(words):
    (least,) = counts(words, 1_000)
    times = []
    with folder() as held:
        for count in (least, 100 * least):
            times.append(best(3, lambda: refusing_time(count, held / "answers")))
            print(f"behind {count} downloads of other numbers: {of_processor(TRIES, 'refusals', times[-1])}")
    print_growth("time for each, behind a hundred times as many", times)
