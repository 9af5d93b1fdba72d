"""Measures what the gate costs while it proves everything from nothing, and compares with the last measurement.

    bench/run gate [--write] [WORDS ..]      (default the command rt ci; needs a clean clone, and rt ci --anew if the toolchain keeps what passed)

Of each crate it counts the proof, that of the tests, the must-fail edits and whatever else it starts, by looking at /proc twice a second.
The critical path begins with the part that ended last. Before each part it has the one that this part waited for longest. The floor is
the longest such chain by processor time: with one job for each part, no number of processors ends the proofs sooner.
It names each part that takes more than bench/gate.csv says, by a quarter and 20 s. With --write it renews that file.
"""
import csv
import functools
import math
import os
import subprocess
import sys
import time
from dataclasses import dataclass
from pathlib import Path

from lib.processes import busy, look
from lib.report import print_head, print_row
from wrong_bodies import read_crates

RECORD = Path("bench/gate.csv")
TITLES = ("crate", "part", "seconds")
GROWTH, LEAST_GROWTH = 1.25, 20


@dataclass
class Part:
    """A part of a crate: its processor time, and when it began and ended, all in seconds."""
    seconds: float = 0.0
    begun: float = math.inf
    ended: float = 0.0


def measured(words):
    """Runs the gate. Returns its status, each crate's parts, its time, and the processor time of all work meanwhile, and of the host."""
    began, before, seen, parts = time.monotonic(), busy(), {}, {}
    gate = subprocess.Popen(words, stdin=subprocess.DEVNULL)
    while gate.poll() is None:
        look(gate.pid, seen, time.monotonic() - began)
        time.sleep(0.5)
    wall, spent = time.monotonic() - began, [now - then for now, then in zip(busy(), before)]
    for process in seen.values():
        part = parts.setdefault((process.crate(), process.part()), Part())
        part.seconds += process.seconds
        part.begun, part.ended = min(part.begun, process.begun), max(part.ended, process.ended)
    return gate.returncode, parts, wall, spent


def minutes(*seconds):
    return [f"{it / 60:.1f}" for it in seconds]


def print_parts(parts, wall, spent):
    print_head("Crate", "Part", "Processor minutes", "From", "To")
    for (crate, name), part in sorted(parts.items(), key=lambda it: -it[1].seconds):
        if part.seconds >= LEAST_GROWTH / 4:
            print_row(f"`{crate}`", name, *minutes(part.seconds, part.begun, part.ended))
    ours, (whole, taken) = sum(part.seconds for part in parts.values()), spent
    print(f"\n{ours / 60:.1f} processor minutes in {wall / 60:.1f} minutes on {os.cpu_count()} processors;"
          f" other work had {max(whole - ours, 0) / 60:.1f} processor minutes of them meanwhile\n"
          f"the host took {100 * taken / (whole + taken):.0f} % of the time for which there was work: without that, the same work takes as much less\n")


# ---- chains of parts

def parts_before(crates, crate, name):
    """Returns the parts that a part waits for."""
    return [(crate, "proof"), (crate, "tests")] if name == "edits" else [(below, "proof") for below in crates[crate]]


def critical_path(parts, crates):
    """Returns the part that ended last, after the one that it waited for longest, and so on down."""
    path = [max(parts, key=lambda it: parts[it].ended)]
    while before := [it for it in parts_before(crates, *path[0]) if it in parts]:
        path.insert(0, max(before, key=lambda it: parts[it].ended))
    return path


def longest_chain(parts, crates):
    """Returns the processor time of the longest chain, and its parts."""
    @functools.cache
    def chain_to(it):
        seconds, chain = max((chain_to(before) for before in parts_before(crates, *it) if before in parts), default=(0.0, ()))
        return seconds + parts[it].seconds, (*chain, it)
    return max(map(chain_to, parts))


def print_chains(parts, crates):
    ended, waited = 0.0, 0.0
    print_head("Critical path", "Part", "Waited", "From", "To", "Minutes")
    for crate, name in critical_path(parts, crates):
        part = parts[crate, name]
        wait = max(part.begun - ended, 0.0)
        print_row(f"`{crate}`", name, *minutes(wait, part.begun, part.ended, part.ended - part.begun))
        ended, waited = part.ended, waited + wait
    seconds, chain = longest_chain(parts, crates)
    names = ", ".join(crate if name == "proof" else f"{name} of {crate}" for crate, name in chain)
    print(f"\nthe critical path takes {ended / 60:.1f} minutes, {waited / 60:.1f} of which its parts waited for a processor")
    print(f"the floor is {seconds / 60:.1f} processor minutes: {names}\n")


# ---- the last measurement

def print_growth_since(parts):
    """Names the parts that grew since the last measurement."""
    if not RECORD.is_file():
        print(f"{RECORD} is not there, so nothing is compared")
        return
    with open(RECORD, encoding="ascii") as file:
        last = {(row["crate"], row["part"]): float(row["seconds"]) for row in csv.DictReader(file)}
    grown = [(crate, name, last.get((crate, name), 0.0), part.seconds) for (crate, name), part in sorted(parts.items())]
    grown = [it for it in grown if it[3] > max(GROWTH * it[2], it[2] + LEAST_GROWTH)]
    for crate, name, before, now in grown:
        print(f"{crate}, {name}: {now:,.0f} s, and {before:,.0f} s by {RECORD}")
    ours, before = sum(part.seconds for part in parts.values()), sum(last.get(it, 0.0) for it in parts)
    print(f"{len(grown)} parts grew by more than a quarter and {LEAST_GROWTH} s; these {len(parts)} parts take {ours / 60:.1f} processor"
          f" minutes, and {before / 60:.1f} by {RECORD}")


def write(parts):
    with open(RECORD, "w", encoding="ascii", newline="") as file:
        rows = csv.writer(file, lineterminator="\n")
        rows.writerow(TITLES)
        rows.writerows((*it, round(part.seconds)) for it, part in sorted(parts.items()) if part.seconds >= 0.5)


def main(words):
    is_written, crates = words[:1] == ["--write"], read_crates()
    status, parts, wall, spent = measured(words[is_written:] or ["rt", "ci"])
    print_parts(parts, wall, spent)
    chained = {it: part for it, part in parts.items() if it[0] in crates and it[1] != "else"}
    if chained:
        print_chains(chained, crates)
    print_growth_since(parts)
    kept = [crate for crate in crates if (crate, "proof") not in parts]
    if kept:
        print(f"not proved in this run: {', '.join(kept)}")
    if is_written and (status or kept):
        sys.exit(f"{RECORD} is as it was, since not everything was proved in this run")
    if is_written:
        write(parts)
    sys.exit(status)
