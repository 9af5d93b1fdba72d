"""Compares the responses to a very long stream with another program's, and measures processor time and peak memory of both.

    bench/run long FOLDER [N [M]]      (default 1000000 and 90; needs the built program, and in FOLDER `ordinary`, the
                                        other program, which has the same command line)

N ports, at most a million, among ten carriers, each acknowledged by these and by M more. Nothing is kept: both programs are
fed through pipes, and their responses are compared as they come. Each has to be a success.
"""
import os
import queue
import subprocess
import sys
import threading
from functools import cache
from pathlib import Path

from lib.measure import counts
from lib.messages import acknowledgement, registered
from lib.numbers import CARRIERS, opening, port
from lib.program import PROGRAM, command_line
from lib.report import print_head, print_row

PART = 1 << 20
SUCCESS = b"HTTP/1.1 200 OK"
# Ports that are written at once.
AT_ONCE = 100


@cache
def acknowledgements(carriers, digits):
    """The acknowledgements of a version whose id has so many digits, with a place for the id in each."""
    least = 10 ** (digits - 1)
    texts = (acknowledgement(carrier, least) for carrier in carriers)
    return "".join(text.replace(f'"id":{least}', '"id":%d') for text in texts)


def lived(place, carriers):
    """All messages of the port at a place, as one text."""
    it = port(place)
    own = acknowledgements(carriers, len(str(it.version))) % ((it.version,) * len(carriers))
    return "".join(it.sent()) + own


def feed(processes, count, carriers):
    """Writes the stream to both programs, and ends their input."""
    first = [*opening(), *map(registered, carriers[len(CARRIERS):])]
    for process in processes:
        process.stdin.write("".join(first).encode())
    for begin in range(0, count, AT_ONCE):
        text = "".join(lived(place, carriers) for place in range(begin, min(begin + AT_ONCE, count))).encode()
        for process in processes:
            process.stdin.write(text)
    for process in processes:
        process.stdin.close()


def parts_of(process):
    """A queue to which a thread moves what a process writes, in equal parts, so that neither program waits for the other. An empty part is the end."""
    parts = queue.SimpleQueue()

    def move():
        while part := process.stdout.read(PART):
            parts.put(part)
        parts.put(b"")

    threading.Thread(target=move, daemon=True).start()
    return parts


def successes(processes):
    """Compares what both programs write. Returns how many successes there are, or stops at the first difference."""
    queues = [parts_of(process) for process in processes]
    seen, rest, place = 0, b"", 0
    while True:
        ours, theirs = (parts.get() for parts in queues)
        if ours != theirs:
            sys.exit(f"the responses differ within {PART} bytes of byte {place}")
        if not ours:
            return seen
        place += len(ours)
        text = rest + ours
        seen += text.count(SUCCESS)
        rest = text[1 - len(SUCCESS):]


def usage(process):
    """A process's seconds of the processor and its peak memory in MiB, at its end."""
    _, status, used = os.wait4(process.pid, 0)
    process.returncode = status
    return used.ru_utime + used.ru_stime, used.ru_maxrss / 1024


def main(words):
    other, (count, more) = Path(words[0]).absolute() / "ordinary", counts(words[1:], 1_000_000, 90)
    carriers = (*CARRIERS, *(f"Z{number:03}" for number in range(more)))
    pipes = {"stdin": subprocess.PIPE, "stdout": subprocess.PIPE, "bufsize": PART}
    processes = [subprocess.Popen(command_line("feed", program=program), **pipes) for program in (PROGRAM, other)]
    feeder = threading.Thread(target=feed, args=(processes, count, carriers), daemon=True)
    feeder.start()
    seen = successes(processes)
    feeder.join()
    (ours, our_peak), (theirs, their_peak) = map(usage, processes)
    print_head("Ports", "Carriers", "Messages", "Successes", "Seconds, ours and the other's", "MiB", "Responses")
    messages = 120 + more + count * (3 + len(carriers))
    print_row(f"{count:,}", len(carriers), f"{messages:,}", f"{seen:,}", f"{ours:.1f}, {theirs:.1f}", f"{our_peak:.1f}, {their_peak:.1f}", "the same")
