"""Measures the instructions of the program and of another for a message, over a part of the streams of `beside`, and how many
lines of code each fetches for it that are not in the first cache.

    bench/run instructions FOLDER [DIVISOR]      (default 100; needs the built program, valgrind, and in FOLDER
                                                  `ordinary`, the other program, which has the same command line)

Counts of instructions are equal in each run, whatever else the machine does. Those of lines are of a cache of 32 KiB in lines of
64 bytes, eight to a set, as most processors have it; they vary by a hundredth, with where the program is loaded.
"""
import re
import subprocess
from pathlib import Path

from lib.measure import counts, folder
from lib.messages import write
from lib.program import PROGRAM, command_line
from lib.report import print_head, print_row
from lib.streams import streams

COUNTING = ["valgrind", "--tool=cachegrind", "--cachegrind-out-file=/dev/null", "--cache-sim=yes", "--I1=32768,8,64"]


def told(what, said):
    """A count that valgrind tells."""
    return int(re.search(rb"I1? +" + what + rb":\s+([\d,]+)", said)[1].replace(b",", b""))


def counted(program, stream):
    """The instructions that a program takes for a stream, the lines of code that it fetches anew, and its answers."""
    words = COUNTING + command_line("feed", program=program)
    with open(stream, "rb") as messages:
        ran = subprocess.run(words, stdin=messages, capture_output=True, check=True)
    return told(b"refs", ran.stderr), told(b"misses", ran.stderr), ran.stdout


def main(words):
    other, (divisor,) = Path(words[0]).absolute() / "ordinary", counts(words[1:], 100)
    print_head("Stream", "Messages", "Ours, a message", "The other's", "Its share of ours", "Lines", "The other's", "Answers")
    with folder() as held:
        for name, texts in streams(divisor):
            count = write(held / "stream", texts)
            ours, lines, answers = counted(PROGRAM, held / "stream")
            theirs, their_lines, others = counted(other, held / "stream")
            same = "the same" if answers == others else "DIFFERENT"
            print_row(name, f"{count:,}", f"{ours // count:,}", f"{theirs // count:,}", f"{theirs / ours:.2f}",
                      lines // count, their_lines // count, same)
