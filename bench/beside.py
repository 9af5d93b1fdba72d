"""Measures processor time and peak memory beside another program, over streams of every kind.

    bench/run beside FOLDER [DIVISOR]      (default 1; needs the built program, and in FOLDER `compare` and `ordinary`,
                                            the other program, which has the same command line)

The two run in turns, fifteen times each, over streams divided by DIVISOR. The answers go to memory, where /dev/shm is a folder,
so that no disk is measured. For each stream it prints the other's processor time, the least of its runs, as a share of ours, and
our peak memory as a multiple of the other's.
"""
import os
import re
import subprocess
from pathlib import Path

from lib.measure import counts, folder
from lib.messages import write
from lib.program import PROGRAM, WINDOWS
from lib.report import print_head, print_row
from lib.streams import streams

ROUNDS = 15
IN_MEMORY = "/dev/shm"


def compared(programs, stream):
    """The shares that `compare` prints, and its own words."""
    words = [programs / "compare", PROGRAM, programs / "ordinary", stream, WINDOWS, str(ROUNDS)]
    environment = os.environ | ({"TMPDIR": IN_MEMORY} if os.path.isdir(IN_MEMORY) else {})
    told = subprocess.run(words, stdout=subprocess.PIPE, env=environment, text=True, check=False).stdout.splitlines()
    shares = re.match(r"speed (\S+), memory (\S+), answers (.*)", told[-1])
    seconds = [re.search(r": (\S+) s, (\S+) MiB", line) for line in told[:2]]
    return [*shares.groups(), *(found.group(1) for found in seconds), *(found.group(2) for found in seconds)]


def main(words):
    programs, (divisor,) = Path(words[0]).absolute(), counts(words[1:], 1)
    print_head("Stream", "Speed", "Memory", "Seconds, ours and the other's", "MiB", "Answers")
    with folder() as held:
        for name, texts in streams(divisor):
            write(held / "stream", texts)
            speed, memory, same, ours, other, our_mib, other_mib = compared(programs, held / "stream")
            print_row(name, speed, memory, f"{ours}, {other}", f"{our_mib}, {other_mib}", same)
