#!/usr/bin/env python3
"""Tests copies of a register's file that the built program makes beside the service, with stock SQLite.

    tests/backup.py [N]      (default 10 copies; build first: cd crates/npacd && rt run -- --help)

Four kept connections create versions while the copies are made, so that the log is moved into the file now and then. After twenty copies
another file and service take their place, since a file that grows makes each copy slower. Each copy has every
version that was answered before copying began. A copy that is killed leaves no file in its place; when the service is killed, a copy
has what was answered. An export of a copy, with --snapshot, writes beside the service what an export of the file wrote before. No clause
of the program knows what a file has, so this is where that is tested. The gate runs it after `rt ci`, which leaves the program that it
has proved and run.
"""
import re
import shutil
import socket
import sqlite3
import subprocess
import sys
import tempfile
import threading
import time
from pathlib import Path

TOP = Path(__file__).resolve().parent.parent
sys.path.insert(0, str(TOP / "bench"))
from lib.numbers import next_door, ported
from lib.program import PROGRAM, command_line, run, serving

PORT = TOP / "examples/first-port.http"
CLIENTS = 4
# how many numbers are in force before the clients begin
PORTED = 20
# how many copies are made of one file
TURNS = 20
DUE = 2**31 - 1


def heard(stream):
    """The next response: its first line and its body, empty if the stream ends before its end."""
    status, length = stream.readline(), 0
    while (line := stream.readline()) != b"\r\n":
        if not line:
            return b"", b""
        if line.startswith(b"content-length:"):
            length = int(line.split(b":")[1])
    body = stream.read(length)
    return (status, body) if len(body) == length else (b"", b"")


class Client(threading.Thread):
    """A kept connection that creates versions until it is told to stop, or the service ends."""

    def __init__(self, at, place):
        super().__init__()
        self.socket = socket.create_connection(("127.0.0.1", at))
        self.socket.setsockopt(socket.IPPROTO_TCP, socket.TCP_NODELAY, 1)
        self.place, self.answered, self.stops, self.refused = place, [], False, []

    def run(self):
        stream = self.socket.makefile("rb")
        try:
            while not self.stops:
                self.socket.sendall(next_door(self.place).old_create(DUE).encode())
                status, body = heard(stream)
                if not status:
                    return
                found = re.search(rb'"id":(\d+)', body)
                if status == b"HTTP/1.1 200 OK\r\n" and found:
                    self.answered.append(int(found[1]))
                else:
                    self.refused.append(status)
                self.place += CLIENTS
        except OSError:
            return


def backup(file, copy):
    """The status of a backup, and what it says on standard error."""
    ran = subprocess.run([PROGRAM, "backup", "--db", file, "--to", copy], capture_output=True, check=False)
    return ran.returncode, ran.stderr.decode()


def ids_in(copy):
    """The versions of a copy, which stock SQLite finds whole, or `None`."""
    with tempfile.TemporaryDirectory(dir=copy.parent) as held:
        stock = shutil.copy(copy, held)
        database = sqlite3.connect(stock)
        whole = database.execute("PRAGMA integrity_check").fetchall() == [("ok",)]
        ids = {row for row, in database.execute("SELECT id FROM version2")}
        database.close()
    return ids if whole else None


def is_whole(copy, answered):
    """Whether a copy has these versions, needs no log, and is opened by the program."""
    ids = ids_in(copy)
    opened = subprocess.run([PROGRAM, "windows", "--db", copy], stdout=subprocess.DEVNULL, check=False)
    return ids is not None and answered <= ids and not Path(f"{copy}.part").exists() and opened.returncode == 0


def copied(file, copy, clients):
    """Whether a copy that is made now is whole."""
    answered = {version for client in clients for version in client.answered[:]}
    ended = backup(file, copy)
    return ended == (0, "") and is_whole(copy, answered)


def killed(file, copy, clients, seconds):
    """Whether a copy that is killed is not there, or is whole."""
    answered = {version for client in clients for version in client.answered[:]}
    with subprocess.Popen([PROGRAM, "backup", "--db", file, "--to", copy]) as process:
        time.sleep(seconds)
        process.kill()
    return not copy.exists() or is_whole(copy, answered)


def snapshot_killed(file, seconds):
    """Kills an export of a copy. Its folder may be left."""
    with subprocess.Popen(command_line("export", "--db", file, "--snapshot"), stdout=subprocess.DEVNULL) as process:
        time.sleep(seconds)
        process.kill()


def salts(file):
    """What the log begins with, which changes whenever it begins anew after it was moved into the file."""
    try:
        with open(f"{file}-wal", "rb") as log:
            return log.read(32)
    except FileNotFoundError:
        return b""


def beside_a_service(held, turns):
    """What holds of copies, every fifth of them killed, and of one after the service is killed."""
    file, found, logs = held / "register.db", {}, set()
    run(command_line("feed", "--db", file), "".join(ported(PORTED)).encode())
    exported = read("export", file)
    found[f"exported {turns[0]}"] = (exported[0], len(exported[1].splitlines()), exported[2]) == (0, PORTED + 1, "")
    with serving("--db", str(file)) as (process, at):
        clients = [Client(at, PORTED + place) for place in range(CLIENTS)]
        for client in clients:
            client.start()
        for turn in turns:
            time.sleep(0.05)
            logs.add(salts(file))
            copy = held / f"{turn}.db"
            if turn % 5 == 4:
                found[f"killed {turn}"] = killed(file, copy, clients, 0.002 * (turn % 25))
                copy.unlink(missing_ok=True)
                snapshot_killed(file, 0.002 * (turn % 25))
            else:
                found[f"copy {turn}"] = copied(file, copy, clients)
                found[f"snapshot {turn}"] = read("export", file, "--snapshot") == exported
                found[f"again {turn}"] = backup(file, copy) == (3, "npacd: write\n")
                copy.unlink()
        process.kill()
        process.wait()
        for client in clients:
            client.stops = True
            client.join()
        found[f"after the end {turns[0]}"] = copied(file, held / "end.db", clients)
        found[f"answered {turns[0]}"] = not any(client.refused for client in clients) and all(client.answered for client in clients)
    found[f"only killed snapshots are left {turns[0]}"] = len(list(held.glob("register.db.snapshot-*"))) <= len(turns) // 5
    return found, sum(len(client.answered) for client in clients), len(logs)


def beside_services(count):
    """What holds of all copies that are made beside services."""
    found, created, logs = {}, 0, 0
    for first in range(0, count, TURNS):
        with tempfile.TemporaryDirectory() as held:
            holds, answered, seen = beside_a_service(Path(held), range(first, min(first + TURNS, count)))
        found, created, logs = found | holds, created + answered, logs + seen
    print(f"{created} versions were created meanwhile, {logs} logs were seen")
    return found


def read(name, file, *more, text=""):
    """How an export or an audit of a file ends, and what it writes."""
    words = command_line(name, "--db", str(file), *more)
    ran = subprocess.run(words, input=text, capture_output=True, text=True, check=False)
    return ran.returncode, ran.stdout, ran.stderr


def read_twice(name, file, *more, text=""):
    """What an export or an audit reads beside a service from a copy, then from the file, and if it wants no copy."""
    with serving("--db", str(file)):
        beside = read(name, file, "--snapshot", *more, text=text)
        refused = read(name, file, *more, text=text)
    return beside, read(name, file, *more, text=text), refused


def snapshots(held):
    """What holds of exports and audits that read a copy beside a service."""
    file, found = held / "ported.db", {}
    run(command_line("feed", "--db", file), PORT.read_bytes())
    exported = read("export", file)[1]
    copy = "".join(exported.splitlines(keepends=True)[:1])
    for name, more, text in (("export", (), ""), ("audit", ("--spid", "AAAA"), copy), ("audit", ("--spid", "AAAA"), "subject\n")):
        beside, alone, refused = read_twice(name, file, *more, text=text)
        found[f"{name} of a copy"] = beside == alone and refused == (3, "", "npacd: storage\n")
    found["something is in force"] = len(exported.splitlines()) > 1
    fed = read("export", file, "--snapshot", "--feed", str(PORT))
    found["only the copy is fed"] = fed[0] == 0 and read("export", file)[1] == exported
    found["no file"] = read("export", held / "nothing.db", "--snapshot") == (3, "", "npacd: storage\n")
    found["no database"] = read("export", held / "broken.db", "--snapshot") == (3, "", "npacd: storage\n")
    words = subprocess.run(command_line("export", "--snapshot"), capture_output=True, text=True, check=False)
    found["no --db"] = (words.returncode, words.stderr) == (2, "error: --snapshot stands without --db\n")
    found["no snapshot is left"] = not list(held.glob("ported.db.snapshot-*")) and not (held / "nothing.db").exists()
    taken = held / "ported.db.snapshot-1"
    taken.mkdir()
    (taken / "register.db").write_text("another's", encoding="utf-8")
    found["a folder of another stays"] = read("export", file, "--snapshot") == (0, exported, "")
    found["and what it has"] = [(path, path.read_text(encoding="utf-8")) for path in held.glob("ported.db.snapshot-*/*")] == [
        (taken / "register.db", "another's")]
    return found


def at_rest(held):
    """What holds of files that nobody uses."""
    nothing, broken = held / "nothing.db", held / "broken.db"
    broken.write_bytes(b"no database" * 1000)
    refused = [backup(nothing, held / "a.db"), backup(broken, held / "b.db")]
    left = [path.name for path in (held / "a.db", held / "b.db", held / "a.db.part", held / "b.db.part") if path.exists()]
    return {"refused": refused == [(3, "npacd: storage\n")] * 2, "nothing is left": not left}


def main(words):
    count = int(words[0]) if words else 10
    with tempfile.TemporaryDirectory() as name:
        found = beside_services(count) | at_rest(Path(name)) | snapshots(Path(name))
    wrong = [what for what, holds in found.items() if not holds]
    print(f"backups: {len(found) - len(wrong)} hold{''.join(f', NOT {what}' for what in wrong)}")
    return 1 if wrong else 0


if __name__ == "__main__":
    sys.exit(main(sys.argv[1:]))
