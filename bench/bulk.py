"""Measures rows a second and peak memory, of files of N commands and of 2 N, of refused files, and of exports.

    bench/run bulk [N [M [PROGRAM]]]      (default 400000 and 1000000; needs the built program)

Half of the rows are creates by new providers, half by old ones; the export has M subjects. With PROGRAM, another one
with the same command line, it prints the other's processor time as a share of ours, our peak memory as a multiple of
its own, and whether the two write the same. The best of three runs each, in turns.
"""
import hashlib
import os
import shutil
import subprocess
import time

from lib.measure import counts, folder
from lib.messages import write
from lib.numbers import opening_of_two, port_of_two, ported_of_two
from lib.program import PROGRAM, Run, command_line, high_water, processor_time, run, watched
from lib.report import of_processor, on_clock, print_growth, speeds

ROUNDS = 3
HEADER = "caller,action,subject,old,new,due,lrn,cic,flag\n"


def rows(count):
    """Both creates of each number, one behind the other."""
    yield HEADER
    for place in range(count // 2):
        it = port_of_two(place)
        yield f"{it.new},subscriptionVersionNewSP-Create,{it.tn},{it.old},{it.new},0,{it.lrn},,\n"
        yield f"{it.old},subscriptionVersionOldSP-Create,{it.tn},{it.old},{it.new},0,,,yes\n"


def refused_rows(count):
    yield HEADER
    for _ in range(count):
        yield f"CCCC,subscriptionVersionActivate,{port_of_two(0).tn},,,,,,\n"


def told(path):
    """How many lines there are behind the header, how many of them are no `ok`, and the sum of all."""
    digest, lines, other = hashlib.sha256(), -1, -1
    with open(path, "rb") as stream:
        for line in stream:
            digest.update(line)
            lines += 1
            other += b",ok," not in line
    return lines, other, digest.hexdigest()


def in_turns(programs, work, out):
    """The best run of each program, what it is told beside, and what it wrote."""
    runs, sums = {program: [] for program in programs}, {}
    for program in ROUNDS * programs:
        runs[program].append(work(program))
        sums[program] = told(out)
    return [(*min(runs[program], key=lambda it: it[0]), *sums[program]) for program in programs]


def beside(found):
    """The other program's processor time as a share of ours, ours of its memory, and whether they wrote the same."""
    if len(found) < 2:
        return ""
    (ours, *_, sum_of_ours), (other, *_, sum_of_other) = found
    same = "the same" if sum_of_ours == sum_of_other else "DIFFERENT"
    speed, memory = other.processor / ours.processor, ours.peak / other.peak
    return f"; beside the other: speed {speed:.2f}, memory {memory:.2f}, written {same}"


def carried_out(programs, opened, texts, wanted, held):
    """A file of commands in turns, over the codes of so many numbers: what it took, and how that stands beside."""
    feed, path, out = held / "codes.http", held / "rows.csv", held / "out"
    write(feed, opening_of_two(opened))
    write(path, texts)
    found = in_turns(programs, lambda it: (run(command_line("bulk", "--feed", feed, program=it), path, out), None), out)
    taken, _, *lines, _ = found[0]
    assert lines == wanted, lines
    return taken, beside(found)


def files(programs, count, held):
    times = []
    for many in (count, 2 * count):
        taken, shares = carried_out(programs, count, rows(many), [many, 0], held)
        times.append(taken.processor)
        print(f"{many} rows: {speeds(many, 'rows', taken)}{shares}", flush=True)
    print_growth("time for twice as many", times)


def room(programs, count, held):
    """The room of a file that changes nothing: every row is refused."""
    for many in (count, 10 * count):
        taken, shares = carried_out(programs, 1, refused_rows(many), [many, many], held)
        rate = of_processor(many, "rows", taken.processor)
        print(f"{many} refused rows: {rate}, peak {taken.peak:.1f} MiB{shares}", flush=True)


def exported(program, feed, held):
    """What an export takes, and the peak memory before it. The feed goes through a pipe, and the export begins as the
    pipe takes its end: a feed takes many times as long as the export, so that a difference of two runs would tell
    little."""
    pipe = held / "feed.pipe"
    os.mkfifo(pipe)
    with open(held / "out", "wb") as out:
        words = command_line("export", "--feed", pipe, program=program)
        process = subprocess.Popen(words, stdin=subprocess.DEVNULL, stdout=out)
    with open(feed, "rb") as source, open(pipe, "wb") as sink:
        shutil.copyfileobj(source, sink, 1 << 16)
        sink.flush()
        fed, begun, before = processor_time(process), time.monotonic(), high_water(process)
    pipe.unlink()
    processor, peak = watched(process, before)
    return Run(processor - fed, time.monotonic() - begun, peak), before


def exports(programs, count, held):
    feed = held / "force.http"
    write(feed, ported_of_two(count))
    found = in_turns(programs, lambda program: exported(program, feed, held), held / "out")
    taken, before, lines, *_ = found[0]
    assert lines == count, found
    rates = f"{of_processor(count, 'rows', taken.processor)}, {on_clock(count, 'rows', taken.wall)}"
    memory = f"peak {taken.peak:.1f} MiB, {before:.1f} MiB before"
    print(f"export of {count} subjects: {rates}, {memory}{beside(found)}", flush=True)


def main(words):
    count, force = counts(words[:2], 400_000, 1_000_000)
    programs = [PROGRAM, *map(os.path.abspath, words[2:])]
    with folder() as held:
        files(programs, count, held)
        room(programs, count // 4, held)
        exports(programs, force, held)
