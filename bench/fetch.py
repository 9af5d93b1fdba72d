"""Measures acknowledgements a second and peak memory, of a queue of N downloads, and of one of 10 N.

    bench/run fetch [N [file]]      (default 10000; needs the built program)

One carrier of ten fetches a hundred downloads at a time and acknowledges them, to the end. Processor time, fetches
included. In memory the best of three runs each; with the word `file` the register is in a file, and each runs once.
"""
import re

from lib.measure import counts, folder
from lib.numbers import CARRIERS, opening, port, to_the_end
from lib.program import Fed, high_water
from lib.report import of_processor, print_growth

CALLER = CARRIERS[3]


def check(answers, count):
    """Each fetch has the ids that are next, and the last has none."""
    text = answers.read_bytes()
    bodies = re.findall(rb'\{"downloads":\[(.*?)\]\}', text)
    ids = [int(number) for body in bodies for number in re.findall(rb'"id":(\d+)', body)]
    assert ids == list(range(1, count + 1)) and bodies[-1] == b"", (len(ids), bodies[-1][:200])
    assert text.count(b'{"error"') == 0, text[-400:]


def fetching(count, answers, words):
    """The seconds that all fetches and acknowledgements take, and the peak memory."""
    with Fed(answers, *words) as fed:
        fed.feed(opening())
        fed.feed(text for place in range(count) for text in port(place).sent())
        taken = fed.feed(to_the_end(CALLER, count))
        memory = high_water(fed.process)
    check(answers, count)
    return taken, memory


def main(words):
    in_file = words[1:] == ["file"]
    (least,) = counts(words[:1] if in_file else words, 10_000)
    times = []
    with folder(within=".") as held:
        for count in (least, 10 * least):
            kept = ["--db", held / f"{count}.db"] if in_file else []
            runs = [fetching(count, held / "answers", kept) for _ in range(1 if in_file else 3)]
            taken = min(runs)[0]
            times.append(taken / count)
            rate = of_processor(count, "acknowledgements", taken)
            print(f"{count} downloads: {rate}, {runs[0][1]:.0f} MiB at most")
    print_growth("time for each, with ten times as many", times)
