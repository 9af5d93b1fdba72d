#!/usr/bin/env python3
"""Tests the stories over real sockets, on several connections at once of the built program.

    tests/sockets.py      (needs gcc; build first: cd crates/npacd && rt run -- --help)

A story's messages go in turn over three kept connections; what it sends as bytes, or ends, has a connection of its own. Each response
is compared to the byte. Meanwhile another client asks for other numbers, which must change no response. `serve` offers no `/clock`:
where a story moves the clock, the program's time of day moves (tests/set_clock.c). Stories with files of commands are left out. The
gate runs it after `rt ci`, which leaves the program that it has proved and run.
"""
import os
import re
import socket
import subprocess
import sys
import tempfile
import threading
from itertools import groupby
from pathlib import Path

TOP = Path(__file__).resolve().parent.parent
sys.path[:0] = [str(TOP / "bench"), str(TOP / "tests")]
from lib.clients import connected, received
from lib.messages import answer, message
from lib.program import PROGRAM, serving
from stories import STORIES, End, encoded, ended, names_of_all, rows_of

KEPT = 3
# What a client asks meanwhile, of a number whose code no story opens.
ASKED = message("NPAC", "/query", '{"uri":"tel:+19899989999"}').encode()
ANSWERED = answer('{"uri":"tel:+19899989999"}').encode()


def minute_in(row):
    """The minute to which a message moves the clock, if it does, or to which it would move it back."""
    moves = re.match(r'POST /clock .*\r\n\r\n\{"minute":(\d+)\}$', row.asked, re.DOTALL)
    return moves[1] if moves and re.match(r'HTTP/1\.1 200 |.*"clock_back"', row.answers[0], re.DOTALL) else None


def is_of_the_clock(row):
    return row.asked.split(" ")[1:2] == ["/clock"]


def is_plain(row):
    """Whether a row is one message, after which its connection stays open."""
    head, _, body = row.asked.partition("\r\n\r\n")
    length = re.search(r"\ncontent-length: (\d+)$", head)
    is_whole = len(encoded(body)) == (int(length[1]) if length else 0)
    return is_whole and re.match(r"(GET|POST) /\S* HTTP/1.1\r\nx-spid: \w+(\r\ncontent-length: \d+)?$", head)


def connections_of(name):
    """The rows of each connection of a story, and how it ends."""
    rows = ended(rows_of(name, names_of_all(), True))
    parts = [list(part) for is_end, part in groupby(rows, lambda row: isinstance(row, End)) if not is_end]
    return list(zip(parts, [row.how for row in rows if isinstance(row, End)]))


class Player:
    """A story over a running program."""

    def __init__(self, port, minute):
        self.port, self.minute, self.turn = port, minute, 0
        self.kept = [connected(port) for _ in range(KEPT)]

    def is_answered(self, client, row, ends_input=False):
        """Whether a row is answered as it has to be on this connection, whose input may end with it."""
        if is_of_the_clock(row):
            # the time of day moves, back too, which the program ignores; another refused move moves nothing
            if (minute := minute_in(row)) is not None:
                self.minute.write_text(minute, "ascii")
            return True
        client.sendall(encoded(row.asked))
        if ends_input:
            client.shutdown(socket.SHUT_WR)
        wanted = encoded("".join(row.answers))
        return received(client, len(wanted)) == wanted

    def plays(self, rows, how):
        """The first row of a connection that is answered otherwise, if there is one."""
        if how == "input" and all(len(row.answers) == 1 and is_plain(row) for row in rows):
            for row in rows:
                self.turn += 1
                if not self.is_answered(self.kept[self.turn % KEPT], row):
                    return row.where
            return None
        with connected(self.port) as client:
            for row in rows:
                if not self.is_answered(client, row, row is rows[-1] and how != "closed"):
                    return row.where
            return None if received(client, 1) == b"" else rows[-1].where

    def first_wrong(self, connections):
        return next((wrong for rows, how in connections if (wrong := self.plays(rows, how))), None)


class Beside:
    """A client that asks all the while, until it is left."""

    def __init__(self, port):
        self.port, self.is_over, self.wrong = port, False, 0
        self.thread = threading.Thread(target=self.ask)

    def ask(self):
        with connected(self.port) as client:
            while not self.is_over:
                client.sendall(ASKED)
                self.wrong += received(client, len(ANSWERED)) != ANSWERED

    def __enter__(self):
        self.thread.start()
        return self

    def __exit__(self, *_):
        self.is_over = True
        self.thread.join()


def first_wrong(connections, minute, environment):
    """What is answered otherwise first, if anything is."""
    minute.write_text("0", "ascii")
    with serving(environment=environment) as (_, port):
        with Beside(port) as beside:
            wrong = Player(port, minute).first_wrong(connections)
        return wrong or ("the client beside it" if beside.wrong else None)


def main():
    if not os.path.isfile(PROGRAM):
        sys.exit(f"{PROGRAM} is not there: build it first")
    wrong, count = [], 0
    with tempfile.TemporaryDirectory() as held:
        library, minute = str(Path(held, "clock.so")), Path(held, "minute")
        subprocess.run(["gcc", "-shared", "-fPIC", "-o", library, TOP / "tests/set_clock.c"], check=True)
        loaded = {**os.environ, "LD_PRELOAD": library, "MINUTE_IN": str(minute)}
        for path in sorted(STORIES.glob("*.story")):
            connections = connections_of(path.stem)
            if any(row.is_file for rows, _ in connections for row in rows):
                continue
            found = first_wrong(connections, minute, loaded)
            wrong += [f"{path.stem}: {found}"] if found else []
            count += 1
    print(*wrong, f"stories over sockets: {count - len(wrong)} as expected, {len(wrong)} others", sep="\n")
    sys.exit(1 if wrong else 0)


if __name__ == "__main__":
    main()
