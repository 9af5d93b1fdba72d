"""What a measure is made of: its words, its folder, its best run, and streams whose answers are known."""
import sys
import tempfile
import time
from contextlib import contextmanager
from pathlib import Path

from lib.messages import check, is_told, write
from lib.program import command_line, run
from lib.report import print_growth, speeds


def counts(words, *left_out):
    """The counts that the words say, and what holds for those that are left out."""
    if len(words) > len(left_out) or not all(map(str.isdigit, words)):
        sys.exit(f"at most {len(left_out)} counts are wanted, and not: {' '.join(words)}")
    return [*map(int, words), *left_out[len(words):]]


@contextmanager
def folder(within=None):
    """A folder for the time of a measure."""
    with tempfile.TemporaryDirectory(dir=within) as name:
        yield Path(name)


def best(rounds, work, key=None):
    """The least of what a work tells in so many rounds."""
    return min((work() for _ in range(rounds)), key=key)


def timed(work):
    """Seconds on the clock of a work."""
    begun = time.monotonic()
    work()
    return time.monotonic() - begun


def best_of_three(stream, answers):
    return best(3, lambda: run(command_line("feed"), stream, answers))


def over_streams(many, rows_of, is_so=is_told, work=best_of_three):
    """Works over the stream of each of so many things, looks at its answers, and yields how many there are, what the
    work took, and its messages."""
    with folder() as held:
        stream, answers = held / "stream", held / "answers"
        for count in many:
            messages = write(stream, (asked for asked, _ in rows_of(count)))
            taken = work(stream, answers)
            check(answers, rows_of(count), is_so)
            yield count, taken, messages


def compare(least, more, what, *how):
    """Prints what so many things take and so many times more of them, and how the times compare: as wholes where it is
    twice as many, else by the message."""
    times = []
    for count, taken, messages in over_streams((least, more * least), *how):
        print(f"{count} {what}, {messages} messages: {speeds(messages, 'messages', taken)}", flush=True)
        times.append(taken.processor if more == 2 else taken.processor / messages)
    print_growth("time for twice as many" if more == 2 else f"time for each, with {more} times as many", times)
