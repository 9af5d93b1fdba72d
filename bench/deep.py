"""Measures messages a second and peak memory, of N/2 and N open broadcasts, with a stack of 1 MiB.

    bench/run deep [N]      (default 100000, at most 1000000; needs the built program)

N activations that nobody acknowledges. One more carrier registers, becomes a recipient of N open broadcasts in one
commit, and acknowledges each. Each response is checked. One run each.
"""
import resource
from itertools import repeat

from lib.measure import counts, over_streams
from lib.messages import acknowledgement, registered, shown, shows
from lib.numbers import opening, port
from lib.program import command_line, run
from lib.report import of_processor, print_growth

STACK = 1024 * 1024
NEWCOMER = "ZZZZ"
SENT = shown("pending", "pending", "sending")


def rows(count):
    """Each message, and what its answer has to show."""
    yield from zip(opening(), repeat("{"))
    for place in range(count):
        yield from zip(port(place).sent(), SENT)
    yield registered(NEWCOMER), f'{{"rows":[],"spid":"{NEWCOMER}"}}'
    for version in range(1, count + 1):
        yield acknowledgement(NEWCOMER, version), SENT[-1]


def under_small_stack(stream, answers):
    def limit():
        resource.setrlimit(resource.RLIMIT_STACK, (STACK, STACK))

    return run(command_line("feed"), stream, answers, preexec_fn=limit)


def main(words):
    (count,) = counts(words, 100_000)
    times = []
    for versions, taken, messages in over_streams((count // 2, count), rows, shows, under_small_stack):
        times.append(taken.processor)
        print(f"{versions} open broadcasts, {messages} messages, a stack of {STACK // 1024} KiB: "
              f"{of_processor(messages, 'messages', taken.processor)}, peak {taken.peak:.1f} MiB", flush=True)
    print_growth("time for twice as many", times)
