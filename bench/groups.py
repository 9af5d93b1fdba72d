"""Measures messages fed to a file beside another program that also commits once for all that has arrived.

    bench/run groups FOLDER [N [M]]      (default 2000 and 20000; needs the built program, valgrind, and in FOLDER
                                          `ordinary`, the other program, which has the same command line)

Each program gets N ports, M queries of their numbers, and M messages nine in ten of which are queries; the two run in
turns, three times each. Prints the other's wall time as a share of ours, the best of each, and our instructions a
message, which are counted over a twentieth of the messages.
"""
import os
import re
import shutil
import subprocess
from itertools import islice
from pathlib import Path

from lib.measure import counts, folder
from lib.numbers import opening, port, query
from lib.program import PROGRAM, command_line, run
from lib.report import print_head, print_row
from lib.streams import mix

ROUNDS = 3
# a count takes some thirty times as long as a run
PART = 20
COUNTING = ["valgrind", "--tool=callgrind", "--callgrind-out-file=/dev/null"]
GROUPING = {**os.environ, "PEER_GROUP": "1"}


def ports(first, last):
    """The messages of some ports."""
    return [text for place in range(first, last) for text in port(place).whole()]


def behind(stream, count):
    """What a stream says behind so many messages."""
    return list(islice(stream, count, None))


def workloads(numbers, many):
    """The name of each, the messages that make its file, and its own."""
    begun = list(opening())
    made = begun + ports(0, numbers)
    yield "ports", begun, ports(0, numbers)
    yield "queries", made, [query(turn, numbers) for turn in range(many)]
    # of ten messages nine are queries, and half of the commands make a port, of 13 messages, the others a conflict of 4
    yield "nine queries in ten", made, behind(mix(numbers, max(1, many // 85)), len(made))


def over_copy(made, program):
    """The command line over a new copy of a file and its log."""
    copy = made.with_name("copy.db")
    for end in ("", "-wal"):
        Path(f"{copy}{end}").unlink(missing_ok=True)
        if Path(f"{made}{end}").exists():
            shutil.copy(f"{made}{end}", f"{copy}{end}")
    return command_line("feed", "--db", copy, program=program)


def seconds(made, program, texts, answers):
    """What it takes to feed messages to a copy of a file."""
    return run(over_copy(made, program), "".join(texts).encode(), answers=answers, env=GROUPING).wall


def counted(made, texts):
    """The instructions of a run over a copy of a file."""
    words = COUNTING + over_copy(made, PROGRAM)
    ran = subprocess.run(words, input="".join(texts).encode(), capture_output=True, check=True)
    return int(re.search(rb"refs:\s+([\d,]+)", ran.stderr)[1].replace(b",", b""))


def instructions(made, texts):
    """The instructions of a message: what a part of the messages takes, less what its first quarter takes."""
    part = texts[:len(texts) // PART]
    few = part[:len(part) // 4]
    return (counted(made, part) - counted(made, few)) // (len(part) - len(few))


def made_by(program, file, texts):
    """A file that a program made."""
    run(command_line("feed", "--db", file, program=program), "".join(texts).encode(), env=GROUPING)
    return file


def main(words):
    other, (numbers, many) = Path(words[0]).absolute() / "ordinary", counts(words[1:], 2_000, 20_000)
    print_head("Messages", "Ours, a second", "The other's", "Its share of ours", "Instructions of ours", "Answers")
    with folder(within=".") as held:
        for name, begun, texts in workloads(numbers, many):
            programs = [PROGRAM, other]
            files = [made_by(program, held / f"{place}.db", begun) for place, program in enumerate(programs)]
            answers = [held / "ours", held / "others"]
            taken = [[], []]
            for _ in range(ROUNDS):
                for place, program in enumerate(programs):
                    taken[place].append(seconds(files[place], program, texts, answers[place]))
            ours, theirs = map(min, taken)
            same = "the same" if answers[0].read_bytes() == answers[1].read_bytes() else "DIFFERENT"
            rates = [f"{len(texts) / wall:,.0f}" for wall in (ours, theirs)]
            print_row(name, *rates, f"{theirs / ours:.2f}", f"{instructions(files[0], texts):,}", same)
            for file in held.iterdir():
                file.unlink()
