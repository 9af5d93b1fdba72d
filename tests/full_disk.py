#!/usr/bin/env python3
"""Tests the built program while its disk is full, in the middle of groups of commits.

    tests/full_disk.py      (needs gcc; build first: cd crates/npacd && rt run -- --help)

A library in front of the program (tests/full_disk.c) lets the log of the database run out of room, at several places of a group. There is
room again later, or after one failed write or a few. Messages come at once by `feed --db`, and from 16 clients by `serve --db`. Each opens
a code or creates a version, so each makes one row of its own. The program is stopped, and stock SQLite reads a copy of its files: the row
of each message that was answered is there, and no row of a message that was answered with `storage`. After a restart those are sent again,
as are those without an answer, and are answered as if nothing had happened. If one write failed, the group is executed again, and no
message is refused. No clause of the program knows what a disk does, so this is where that is tested. The gate runs it after `rt ci`, which
leaves the program that it has proved and run.
"""
import itertools
import os
import shutil
import socket
import sqlite3
import subprocess
import sys
import tempfile
import threading
import time
from pathlib import Path
from typing import NamedTuple

TOP = Path(__file__).resolve().parent.parent
sys.path.insert(0, str(TOP / "bench"))
from lib.messages import answer, opened
from lib.numbers import CARRIERS, opening, port
from lib.program import PROGRAM, command_line, serving

CLIENTS = 16
DUE = 2**31 - 1

# How many messages are fed at once, and how many clients send at most.
MANY = 120
LAST = 12_000

# After this many seconds a response counts as forgotten.
PATIENCE = 30

# How many bytes the log may still take when the disk is full, and how many calls fail before there is room again.
ROOMS = (0, 1, 4000, 12_000, 20_000, 40_000)
FAILURES = (1, 7, 1_000_000)

STORAGE = b'HTTP/1.1 503 Service Unavailable\r\ncontent-type: application/json\r\ncontent-length: 31\r\n\r\n{"error":"storage","number":29}'

# Codes have six digits, and numbers ten.
ROWS = "SELECT code, spid FROM code WHERE code > 303000 UNION ALL SELECT subject, old FROM version2"


class Change(NamedTuple):
    """A message, the key of the row that it makes, and the carrier there."""
    message: bytes
    key: int
    carrier: str

    def is_done(self, heard):
        """Whether a response says that the row was made."""
        if self.key < 1_000_000:
            return heard == answer(f'{{"code":"{self.key}","spid":"{self.carrier}"}}').encode()
        return heard.startswith(b"HTTP/1.1 200 OK\r\n") and f'"subject":"{self.key}"'.encode() in heard


def change(place):
    if place % 2:
        it = port(place)
        return Change(it.old_create(DUE).encode(), int(it.tn), it.old)
    npa, line = divmod(place // 2, 800)
    code, carrier = (303 + npa) * 1000 + 200 + line, CARRIERS[place % 10]
    return Change(opened(code, carrier).encode(), code, carrier)


def heard(stream):
    """The next response, or nothing if the stream ends before its end."""
    head, length = b"", 0
    while not head.endswith(b"\r\n\r\n"):
        line = stream.readline()
        if not line:
            return b""
        if line.startswith(b"content-length:"):
            length = int(line.split(b":")[1])
        head += line
    body = stream.read(length)
    return head + body if len(body) == length else b""


class Disk:
    """The files of a register, on a disk that may be full."""

    def __init__(self, held, begun):
        self.file, self.full, self.library = held / "register.db", held / "full", held / "full_disk.so"
        for end in ("", "-wal"):
            Path(f"{self.file}{end}").unlink(missing_ok=True)
            if Path(f"{begun}{end}").exists():
                shutil.copy(f"{begun}{end}", f"{self.file}{end}")
        self.environment = {**os.environ, "LD_PRELOAD": str(self.library), "ROOM_AT": str(self.full)}

    def fill(self, room, failures):
        """Leaves so many bytes of room to the log, until so many calls have failed."""
        text = self.full.with_suffix(".text")
        text.write_text(f"{room} {failures}", "ascii")
        text.rename(self.full)

    def empty(self):
        self.full.unlink()

    def rows(self):
        """The rows of a copy of the files, if stock SQLite finds it whole."""
        copy = self.file.with_name("copy.db")
        for end in ("", "-wal", "-shm"):
            Path(f"{copy}{end}").unlink(missing_ok=True)
        for end in ("", "-wal"):
            if Path(f"{self.file}{end}").exists():
                shutil.copy(f"{self.file}{end}", f"{copy}{end}")
        connection = sqlite3.connect(copy)
        try:
            assert connection.execute("PRAGMA integrity_check").fetchall() == [("ok",)]
            return dict(connection.execute(ROWS))
        finally:
            connection.close()


def feed_whole(file, messages):
    """The responses to messages that are fed to their end, with room."""
    line = command_line("feed", "--db", str(file))
    ran = subprocess.run(line, input=b"".join(messages), capture_output=True, timeout=PATIENCE, check=True)
    responses = []
    with tempfile.TemporaryFile() as held:
        held.write(ran.stdout)
        held.seek(0)
        while response := heard(held):
            responses.append(response)
    return responses


def judged(disk, responses):
    """Whether the rows are those that were answered, and the others can be sent again; and how many were refused with `storage`.
    `responses` has each change with its response, or nothing."""
    done = {it.key: it.carrier for it, response in responses if it.is_done(response)}
    refused = [it for it, response in responses if response == STORAGE]
    unheard = [it for it, response in responses if not response]
    rows = disk.rows()
    allowed = done | {it.key: it.carrier for it in unheard}
    found = [
        len(done) + len(refused) + len(unheard) == len(responses),
        done.items() <= rows.items() <= allowed.items(),
    ]
    again = refused + [it for it in unheard if it.key not in rows]
    heard_again = feed_whole(disk.file, [it.message for it in again])
    found += [len(heard_again) == len(again), all(it.is_done(response) for it, response in zip(again, heard_again))]
    found.append(disk.rows() == {it.key: it.carrier for it, _ in responses})
    return found, len(refused)


def said_at_once(process, changes):
    """What is answered to changes that are fed at once."""
    try:
        process.stdin.write(b"".join(it.message for it in changes))
        process.stdin.flush()
    except OSError:
        pass
    return [(it, heard(process.stdout)) for it in changes]


def fed(disk, room, failures):
    """Messages at once, then as many on a full disk, then as many with room again."""
    line = command_line("feed", "--db", str(disk.file))
    parts = [[change(place) for place in range(turn * MANY, (turn + 1) * MANY)] for turn in range(3)]
    with subprocess.Popen(line, stdin=subprocess.PIPE, stdout=subprocess.PIPE, env=disk.environment) as process:
        responses = said_at_once(process, parts[0])
        disk.fill(room, failures)
        responses += said_at_once(process, parts[1])
        disk.empty()
        responses += said_at_once(process, parts[2])
        process.stdin.close()
        process.wait(PATIENCE)
    return responses


def send(at, places, ends, responses):
    """A client that sends changes one by one, until the service ends or it is stopped."""
    with socket.create_connection(("127.0.0.1", at), PATIENCE) as client:
        client.setsockopt(socket.IPPROTO_TCP, socket.TCP_NODELAY, 1)
        stream = client.makefile("rb")
        for place in places:
            it, response = change(place), b""
            try:
                client.sendall(it.message)
                response = heard(stream)
            except OSError:
                pass
            responses.append((it, response))
            if ends.is_set() or not response:
                return


def waits(clients, is_reached):
    """Waits for this, or for the last client."""
    begun = time.monotonic()
    while not is_reached() and any(client.is_alive() for client in clients):
        assert time.monotonic() - begun < PATIENCE, "a client waits"
        time.sleep(0.001)


def served(disk, room, failures):
    """Many clients with room, then on a full disk, then with room again."""
    ends, responses = threading.Event(), []
    with serving("--db", str(disk.file), environment=disk.environment) as (process, at):
        clients = [threading.Thread(target=send, args=(at, range(turn, LAST, CLIENTS), ends, responses)) for turn in range(CLIENTS)]
        for client in clients:
            client.start()
        waits(clients, lambda: len(responses) > MANY)
        disk.fill(room, failures)
        before = len(responses)
        waits(clients, lambda: any(response == STORAGE for _, response in responses[before:]) or len(responses) > before + 10 * MANY)
        disk.empty()
        before = len(responses)
        waits(clients, lambda: len(responses) > before + MANY)
        ends.set()
        for client in clients:
            client.join()
        process.kill()
        process.wait()
    return responses


def main():
    if not os.path.isfile(PROGRAM):
        sys.exit(f"{PROGRAM} is not there: build it first")
    wrong, count = [], 0
    with tempfile.TemporaryDirectory() as name:
        held = Path(name)
        begun = held / "begun.db"
        subprocess.run(["gcc", "-shared", "-fPIC", "-o", held / "full_disk.so", TOP / "tests/full_disk.c"], check=True)
        feed_whole(begun, [message.encode() for message in opening()])
        for work in (fed, served):
            refusals = []
            for room, failures in itertools.product(ROOMS, FAILURES):
                disk = Disk(held, begun)
                found, refused = judged(disk, work(disk, room, failures))
                refusals.append(refused)
                if work is fed and failures == 1:
                    found.append(refused == 0)
                count += len(found)
                wrong += [f"{work.__name__}, {room} bytes, {failures} failures, {place}" for place, well in enumerate(found) if not well]
            count += 1
            wrong += [] if any(refusals) else [f"{work.__name__}: no message met the full disk"]
    print(*wrong, f"a full disk: {count - len(wrong)} rows as expected, {len(wrong)} others", sep="\n")
    sys.exit(1 if wrong else 0)


if __name__ == "__main__":
    main()
