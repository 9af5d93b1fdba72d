"""Measures how long a service over a file pauses to settle N windows that have ended.

    bench/run pauses [N]      (default 20000; needs the built program)

The versions have one create each, in the first minutes of 1970. The service that then starts has the machine's minute,
and settles them as it answers the first fetch: in one group of commits, and then, over such a file, without groups.
Wall time of that fetch, of a query that another connection asks meanwhile, and of the fetch after it.
"""
import socket
import threading
import time

from lib.measure import counts, folder
from lib.messages import question
from lib.numbers import next_door, opening, query
from lib.program import command_line, processor_time, rested, run, serving

# the concurrence windows of the examples: 60 and 60 minutes
DUE = 300
FETCH = question("AAAA", "/downloads/100")


def asked(at, text):
    """Seconds until the first bytes of an answer arrive on a connection of its own."""
    with socket.create_connection(("127.0.0.1", at)) as connection:
        begun = time.monotonic()
        connection.sendall(text.encode())
        assert connection.recv(65_536).startswith(b"HTTP/1.1 200 OK\r\n")
        return time.monotonic() - begun


def pauses(file, count, group):
    """Seconds of the first fetch, of a query beside it, and of the next fetch."""
    with serving("--db", str(file), "--group", str(group)) as (process, at):
        before, waited = rested(process), []
        beside = threading.Thread(target=lambda: waited.append(asked(at, query(1, count))))
        begun = time.monotonic()
        with socket.create_connection(("127.0.0.1", at)) as connection:
            connection.sendall(FETCH.encode())
            time.sleep(0.01)
            beside.start()
            assert connection.recv(65_536).startswith(b"HTTP/1.1 200 OK\r\n")
            first = time.monotonic() - begun
        beside.join()
        again = asked(at, FETCH)
        return first, processor_time(process) - before, waited[0], again


def main(words):
    (count,) = counts(words, 20_000)
    for group in (256, 1):
        with folder(within=".") as held:
            made = [*opening(), *(next_door(place).old_create(DUE) for place in range(count))]
            run(command_line("feed", "--db", held / "db"), "".join(made).encode())
            first, spent, beside, again = pauses(held / "db", count, group)
        print(f"{count:,} ended windows, groups of {group}: the first fetch {first:.2f} s, {spent:.2f} s of processor "
              f"time, a query beside it {beside:.2f} s, the next fetch {again:.4f} s", flush=True)
