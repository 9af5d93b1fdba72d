"""Compares how fast two builds of the program serve, in turns in one run.

    bench/run serve-before BEFORE [SECONDS [FOLDER]]      (default 2; BEFORE is an earlier program; in memory, or over new files in
                                                           FOLDER; needs the built program and wrk)

In each of five rounds both answer queries for so many seconds: of wrk on one connection that it keeps, of a client that
sends twenty at a time, and of one with a connection for each. Then wrk asks the present program on 16 and 128
connections. The median of the rounds counts, and the longest wait of all.
"""
import statistics
import subprocess
import tempfile
import time

from lib.measure import folder
from lib.program import PROGRAM, serving
from clients import BODY
from serve import FED, on_kept, on_short

ROUNDS = 5

WRK = f"""
wrk.method = "POST"
wrk.body = '{BODY}'
wrk.headers["x-spid"] = "AAAA"
function done(summary, latency, requests)
  local errors = summary.errors
  local others = errors.connect + errors.read + errors.write + errors.status + errors.timeout
  io.stderr:write(string.format("%d %d %d %d", summary.requests, summary.duration, others, latency.max))
end
"""


def by_wrk(port, connections, seconds):
    """The messages a second of wrk's connections, and the longest wait in milliseconds."""
    with tempfile.NamedTemporaryFile("w", suffix=".lua") as script:
        script.write(WRK)
        script.flush()
        words = ["wrk", "-t1", f"-c{connections}", f"-d{seconds}s", "-s", script.name, f"http://127.0.0.1:{port}/query"]
        said = subprocess.run(words, capture_output=True, text=True, check=True).stderr
    count, duration, others, longest = map(int, said.split())
    assert not others, said
    return 1e6 * count / duration, longest / 1000


def repeated(work, many, seconds):
    """The messages a second of a work that sends so many, again and again."""
    begun, count = time.monotonic(), 0
    while time.monotonic() < begun + seconds:
        work(many)
        count += many
    return count / (time.monotonic() - begun)


def rate(program, within, work):
    """What a work measures of a program that serves."""
    with folder(within) as held:
        words = ("--db", str(held / "register.db")) if within else ()
        with serving(*FED, *words, program=program) as (_, port):
            return work(port)


def main(words):
    before, seconds = words[0], int(words[1]) if len(words) > 1 else 2
    within = words[2] if len(words) > 2 else None
    works = {
        "one kept": lambda port: by_wrk(port, 1, seconds)[0],
        "twenty at a time": lambda port: repeated(lambda many: on_kept(port, many, 1, 20), 2000, seconds),
        "a connection for each": lambda port: repeated(lambda many: on_short(port, many), 100, seconds),
    }
    kept = 0
    for name, work in works.items():
        pairs = [[rate(program, within, work) for program in (before, PROGRAM)] for _ in range(ROUNDS)]
        old, new = map(statistics.median, zip(*pairs))
        share = statistics.median(now / then for then, now in pairs)
        kept = kept or old
        print(f"{name}: {old:,.0f} messages a second before, {new:,.0f} now, {share:.2f} times", flush=True)
    for connections in (16, 128):
        found = [rate(PROGRAM, within, lambda port: by_wrk(port, connections, seconds)) for _ in range(ROUNDS)]
        new, longest = statistics.median(it for it, _ in found), max(it for _, it in found)
        share = new / kept
        print(f"{connections} kept: {new:,.0f} messages a second now, {share:.2f} times one kept before, longest wait {longest:.1f} ms", flush=True)
