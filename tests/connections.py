#!/usr/bin/env python3
"""Tests many connections at once of the built program, over real sockets.

    tests/connections.py      (needs gcc; build first: cd crates/npacd && rt run -- --help)

Each response is compared to the byte. The clients are this script's: kept ones, one that sends a byte at a time, one that never reads,
ones that vanish, end their input or send garbage, and more than there are places. A sync that fails shuts the store. No clause of the program knows what a socket gives
or takes, so this is where that is tested. The gate runs it after `rt ci`, which leaves the program that it has proved and run.
"""
import os
import resource
import select
import socket
import struct
import subprocess
import sys
import tempfile
import threading
import time
from pathlib import Path

TOP = Path(__file__).resolve().parent.parent
sys.path.insert(0, str(TOP / "bench"))
from lib.clients import PATIENCE, connected, log_lines, received, received_to_end, responses_to
from lib.messages import answer, message, opened
from lib.program import PROGRAM, command_line, processor_time, served, serving

FED = ("--feed", str(TOP / "examples/first-port.http"))
ASKED = message("AAAA", "/query", '{"uri":"tel:+12025331234"}').encode()
ANSWERED = answer('{"uri":"tel:+12025331234;npdi;rn=+12025440000"}').encode()
CLOSING = ASKED.replace(b"\r\n\r\n", b"\r\nconnection: close\r\n\r\n")
BAD_HEAD = b'{"error":"bad_head","number":45}'

# The longest that a quick client may wait, in seconds, on a machine that does other things too.
WAIT = 1


def is_answered(client):
    client.sendall(ASKED)
    return received(client, len(ANSWERED)) == ANSWERED


def longest_wait(client, many):
    """The longest of so many waits, or more than any if a response is another."""
    longest = 0
    for _ in range(many):
        begun = time.monotonic()
        if not is_answered(client):
            return PATIENCE
        longest = max(longest, time.monotonic() - begun)
    return longest


def is_closed_within(client, seconds):
    """Whether the other side ends the connection, by an end or a reset."""
    client.settimeout(seconds)
    try:
        return received_to_end(client) is not None
    except TimeoutError:
        return False
    except OSError:
        return True


def together(*works):
    """What works return that are done at once."""
    results = [None] * len(works)

    def done(place, work):
        results[place] = work()

    threads = [threading.Thread(target=done, args=pair) for pair in enumerate(works)]
    for thread in threads:
        thread.start()
    for thread in threads:
        thread.join()
    return results


def drip(port):
    """A client that sends a byte now and then: whether it is closed before its message is whole."""
    with connected(port) as client:
        for byte in ASKED:
            try:
                client.sendall(bytes([byte]))
            except OSError:
                return True
            if select.select([client], [], [], 0.1)[0]:
                return is_closed_within(client, 1)
    return False


def never_read(port):
    """A client that sends and never reads: whether it is closed."""
    with connected(port) as client:
        client.settimeout(PATIENCE)
        try:
            while True:
                client.sendall(ASKED * 1000)
        except TimeoutError:
            return False
        except OSError:
            return True


def kept(port, many):
    with connected(port) as client:
        return longest_wait(client, many) < WAIT


def beside_bad_clients():
    limits = ("--message-limit", "2", "--sending-limit", "2")
    with served(5, *FED, *limits) as port:
        quick = [lambda: kept(port, 5000)] * 3
        return together(*quick, lambda: drip(port), lambda: never_read(port))


def more_than_places():
    """Kept clients take all places and fall silent, and a thousand others wait for one."""
    soft, hard = resource.getrlimit(resource.RLIMIT_NOFILE)
    resource.setrlimit(resource.RLIMIT_NOFILE, (min(hard, 4096), hard))
    with served(1128, *FED) as port:
        clients = [connected(port) for _ in range(128)]
        are_kept = [is_answered(client) for client in clients]
        others = [connected(port) for _ in range(1000)]
        for client in others:
            client.sendall(CLOSING)
        are_answered = [received_to_end(client) == ANSWERED for client in others]
        for client in clients + others:
            client.close()
    resource.setrlimit(resource.RLIMIT_NOFILE, (soft, hard))
    return [*are_kept, *are_answered]


def vanish(port):
    """A client that resets its connection within a message."""
    client = connected(port)
    client.sendall(ASKED[:20])
    client.setsockopt(socket.SOL_SOCKET, socket.SO_LINGER, struct.pack("ii", 1, 0))
    client.close()
    return True


def all_ends():
    """All ways for a connection to end. No reset overtakes a response, whatever follows the last message."""
    rest = b"x" * 300_000
    with served(81, *FED) as port:
        found = [vanish(port) for _ in range(20)]
        with connected(port) as client:
            for _ in range(20):
                found += [
                    responses_to(port, CLOSING + rest, False) == ANSWERED,
                    responses_to(port, b"GARBAGE\r\n\r\n" + rest, False).endswith(BAD_HEAD),
                    responses_to(port, ASKED * 3, True) == ANSWERED * 3,
                    is_answered(client),
                ]
    return found


def large_beside_small():
    """A message of a megabyte in pieces, beside quick ones."""
    body = b" " * (1 << 20)
    head = f"POST /query HTTP/1.1\r\nx-spid: AAAA\r\ncontent-length: {len(body)}\r\n\r\n".encode()

    def large(port):
        with connected(port) as client:
            for place in range(0, len(body), 4096):
                client.sendall((b"" if place else head) + body[place:place + 4096])
            return received(client, 12) == b"HTTP/1.1 400"

    with served(2, *FED) as port:
        return together(lambda: large(port), lambda: kept(port, 2000))


def silent():
    """A silent connection is closed after its limit, and no earlier."""
    with served(1, *FED, "--idle-limit", "2") as port, connected(port) as client:
        begun = time.monotonic()
        return [is_answered(client), received_to_end(client) == b"", 1.5 < time.monotonic() - begun < 5]


def few_descriptors():
    """Clients beyond the descriptors wait, and the program does not spin meanwhile."""
    with serving(*FED) as (process, port):
        taken = len(os.listdir(f"/proc/{process.pid}/fd"))
        resource.prlimit(process.pid, resource.RLIMIT_NOFILE, (taken + 4, taken + 4))
        clients = [connected(port) for _ in range(4)]
        found = [is_answered(client) for client in clients]
        waiting = connected(port)
        waiting.sendall(CLOSING)
        for client in clients[1:]:
            client.close()
        found.append(received_to_end(waiting) == ANSWERED)
        clients += [connected(port) for _ in range(6)]
        time.sleep(0.5)
        before = processor_time(process)
        time.sleep(1)
        found.append(processor_time(process) - before < 0.3)
        for client in clients:
            client.close()
    return found


def before_the_first():
    """The port is open at one address only, and nobody is served if the line for it cannot be written."""
    with served(1, *FED) as port:
        with socket.socket() as elsewhere:
            found = [elsewhere.connect_ex(("127.0.0.2", port)) != 0]
        with connected(port) as client:
            found.append(is_answered(client))
    line = command_line("serve", "--port", str(port), "--connections", "1")
    with open("/dev/full", "wb") as full:
        ended = subprocess.run(line, stdout=full, stderr=subprocess.PIPE, timeout=PATIENCE, check=False)
    return [*found, (ended.returncode, ended.stderr) == (3, b"npacd: write\n")]


def logged():
    """A line for each connection: who called, how many messages and refusals there were, and how it ended."""
    with tempfile.TemporaryDirectory() as held:
        log = Path(held, "log")
        log.write_bytes(b"before\n")
        with served(4, *FED, "--idle-limit", "1", "--log", str(log)) as port:
            with connected(port) as client:
                found = [is_answered(client), is_answered(client)]
                of_many = b"".join(ASKED.replace(b"AAAA", spid) for spid in (b"NPAC", b"ZZZ1", b"ZZZ2", b"ZZZ1", b"ZZZ3", b"ZZZ4"))
                found += [responses_to(port, CLOSING, False) == ANSWERED, responses_to(port, b"GARBAGE\r\n\r\n", False).endswith(BAD_HEAD)]
                found.append(responses_to(port, of_many, True).startswith(ANSWERED))
                found.append(received_to_end(client) == b"")
        lines = log_lines(log.read_text("ascii"))
    return [*found, lines == [
        "before",
        "connection=2 spids=AAAA messages=1 refusals=0 end=closed",
        "connection=3 spids=- messages=1 refusals=1 end=refused",
        "connection=4 spids=NPAC,ZZZ1,ZZZ2,ZZZ3,+ messages=6 refusals=5 end=ended",
        "connection=1 spids=AAAA messages=2 refusals=0 end=idle",
    ]]


def shut_store():
    """A sync that fails shuts the store: the client learns it, what others got stands, and the program ends with 3 and `storage`."""
    with tempfile.TemporaryDirectory() as held:
        library, fails, file = (str(Path(held, name)) for name in ("sync.so", "fails", "register.db"))
        subprocess.run(["gcc", "-shared", "-fPIC", "-o", library, TOP / "tests/failing_sync.c"], check=True)
        loaded = {**os.environ, "LD_PRELOAD": library, "SYNC_FAILS_AT": fails}
        with serving(*FED, "--db", file, "--log", "-", environment=loaded) as (process, port):
            with connected(port) as quiet, connected(port) as client:
                found = [is_answered(quiet), is_answered(client)]
                Path(fails).touch()
                client.sendall(opened("202534", "AAAA").encode() + ASKED)
                found += [b'"storage"' in received_to_end(client), received_to_end(quiet) == b""]
            said = process.communicate(timeout=PATIENCE)[1].decode().splitlines()
        found += [process.returncode == 3, said[-1] == "npacd: storage"]
        found.append(any(line.startswith("storage connection=2 failures=") for line in said))
        with served(1, "--db", file) as port, connected(port) as client:
            found.append(is_answered(client))
    return found


TESTS = (before_the_first, beside_bad_clients, more_than_places, all_ends, large_beside_small, silent, few_descriptors, logged,
         shut_store)


def main():
    if not os.path.isfile(PROGRAM):
        sys.exit(f"{PROGRAM} is not there: build it first")
    wrong, count = [], 0
    for test in TESTS:
        found = test()
        count += len(found)
        wrong += [f"{test.__name__}, {place}" for place, well in enumerate(found) if not well]
    print(*wrong, f"connections at once: {count - len(wrong)} rows as expected, {len(wrong)} others", sep="\n")
    sys.exit(1 if wrong else 0)


if __name__ == "__main__":
    main()
