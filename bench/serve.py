"""Measures messages a second that `npacd serve` answers to kept, many and short connections.

    bench/run serve [N [WORDS ..]]      (default 20000; WORDS go to the program, as --db FILE; needs the built program)

N queries on one connection; twenty at a time on one; on 16 and on 128 connections, one at a time on each; and a
connection for each of N / 10, with one that sends garbage beside them. Each response is checked. On the clock, and by
the program's processor time. Then the processor time of a second of 1,000 silent connections, and their memory.
"""
import resource
import time

from lib.clients import connected
from lib.messages import answer, message
from lib.program import high_water, processor_time, serving

FED = ("--feed", "examples/first-port.http")
ASKED = message("AAAA", "/query", '{"uri":"tel:+12025331234"}').encode()
ANSWERED = answer('{"uri":"tel:+12025331234;npdi;rn=+12025440000"}').encode()
GARBAGE = b"GARBAGE\r\n\r\n"
BAD_HEAD = b'{"error":"bad_head","number":45}'


def hear(client, answers):
    """Hears these answers, and no more."""
    heard = b""
    while len(heard) < len(answers):
        more = client.recv(len(answers) - len(heard))
        assert more, heard
        heard += more
    assert heard == answers, heard


def on_kept(port, many, connections, at_once):
    """Asks on kept connections in turns, so many at a time on each."""
    clients = [connected(port) for _ in range(connections)]
    for _ in range(many // (connections * at_once)):
        for client in clients:
            client.sendall(ASKED * at_once)
        for client in clients:
            hear(client, ANSWERED * at_once)
    for client in clients:
        client.close()


def on_short(port, many):
    for _ in range(many):
        with connected(port) as client:
            client.sendall(ASKED)
            hear(client, ANSWERED)


def measured(process, what, many, work):
    before, begun = processor_time(process), time.monotonic()
    work()
    wall, spent = time.monotonic() - begun, processor_time(process) - before
    print(f"{what}: {many / wall:,.0f} messages a second, {many / spent:,.0f} of processor time", flush=True)


def beside_silent(process, port):
    resource.setrlimit(resource.RLIMIT_NOFILE, (4096, 4096))
    peak = high_water(process)
    clients = [connected(port) for _ in range(1000)]
    time.sleep(1)
    before = processor_time(process)
    time.sleep(1)
    spent = processor_time(process) - before
    print(f"1,000 silent: {1000 * spent:.1f} ms of processor time a second, {high_water(process) - peak:.1f} MiB more")
    for client in clients:
        client.close()


def main(words):
    many = int(words[0]) if words else 20_000
    with serving(*FED, *words[1:], "--at-once", "1024") as (process, port):
        with connected(port) as client:
            client.sendall(GARBAGE)
            assert client.recv(65_536).endswith(BAD_HEAD)
            assert client.recv(1) == b"", "the connection was left open"
        measured(process, "one kept", many, lambda: on_kept(port, many, 1, 1))
        measured(process, "twenty at a time", many, lambda: on_kept(port, many, 1, 20))
        measured(process, "16 kept", many, lambda: on_kept(port, many, 16, 1))
        measured(process, "128 kept", many, lambda: on_kept(port, many, 128, 1))
        measured(process, "a connection for each", many // 10, lambda: on_short(port, many // 10))
        beside_silent(process, port)
