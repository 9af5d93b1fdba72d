"""Measures messages a second of kept connections that port numbers over a file, and how many share a sync: of theirs,
and of the same ports fed at once.

    bench/run syncs [N [CLIENTS]]      (default 2000 ports and 16; needs the built program and strace)

Each client has one message under way. Every answer is looked at, those of the feed only counted. Wall time; the syncs
are those of other runs.
"""
import re
import socket
import subprocess
import time
from concurrent.futures import ThreadPoolExecutor

from lib.measure import counts, folder
from lib.messages import shown
from lib.numbers import CARRIERS, opening, port
from lib.program import command_line, serving

# what the answers to a port's messages show
SHOWN = shown("pending", "pending", *["sending"] * len(CARRIERS), "active")
STRACE = ["strace", "-f", "-e", "trace=fsync,fdatasync", "-o"]


def version_in(heard):
    """The version that an answer shows."""
    return int(re.search(r'"id":(\d+)', heard)[1])


def minute():
    """The present minute, of which at least two seconds are left."""
    while time.time() % 60 > 58:
        time.sleep(0.1)
    return int(time.time()) // 60


def messages_of(it, due):
    """All messages of a port."""
    return it.sent(due) + it.acknowledged()


class Client:
    """A kept connection that waits for each answer."""

    def __init__(self, at):
        self.socket = socket.create_connection(("127.0.0.1", at))
        self.socket.setsockopt(socket.IPPROTO_TCP, socket.TCP_NODELAY, 1)
        self.stream = self.socket.makefile("rb")

    def hear(self):
        """Hears one answer whole."""
        head, length = b"", 0
        while not head.endswith(b"\r\n\r\n"):
            line = self.stream.readline()
            if not line:
                raise ConnectionError
            if line.startswith(b"content-length:"):
                length = int(line.split(b":")[1])
            head += line
        body = self.stream.read(length)
        if len(body) < length:
            raise ConnectionError
        return (head + body).decode()

    def ask(self, message, wanted):
        self.socket.sendall(message.encode())
        heard = self.hear()
        assert heard.startswith("HTTP/1.1 200 OK\r\n") and wanted in heard, (message, heard)
        return heard

    def port(self, place):
        """A whole port, as the version that the first create makes."""
        it, due = port(place), minute()
        heard = self.ask(it.new_create(due), SHOWN[0])
        it = it._replace(version=version_in(heard))
        for message, wanted in zip(messages_of(it, due)[1:], SHOWN[1:]):
            self.ask(message, wanted)


def ported(at, count, clients):
    """Ports so many numbers by so many clients, and returns the seconds that it took."""
    first = Client(at)
    for message in opening():
        first.ask(message, "{")
    kept = [first, *(Client(at) for _ in range(clients - 1))]
    begun = time.monotonic()
    with ThreadPoolExecutor(clients) as pool:
        turns = [pool.submit(lambda client, begin: [client.port(place) for place in range(begin, count, clients)],
                             client, begin) for begin, client in enumerate(kept)]
        for turn in turns:
            turn.result()
    return time.monotonic() - begun


def syncs_in(calls):
    return calls.read_text("utf-8").count("sync(")


def fed(count, held):
    """Feeds the messages of so many ports at once, and returns how many there were, and how often they were synced."""
    stream = "".join([*opening(), *(it for place in range(count) for it in port(place).whole())]).encode()
    words = [*STRACE, held / "fed_calls", *command_line("feed", "--db", str(held / "fed"))]
    answers = subprocess.run(words, input=stream, capture_output=True, check=True).stdout
    return answers.count(b"HTTP/1.1 200 OK\r\n"), syncs_in(held / "fed_calls")


def main(words):
    count, clients = counts(words, 2000, 16)
    messages = count * len(SHOWN)
    with folder() as held:
        with serving("--db", str(held / "timed")) as (_, at):
            seconds = ported(at, count, clients)
        calls = held / "calls"
        with serving("--db", str(held / "traced")) as (process, at):
            with subprocess.Popen([*STRACE, calls, "-p", str(process.pid)], stderr=subprocess.DEVNULL) as tracer:
                time.sleep(1)
                ported(at, count, clients)
                tracer.terminate()
        at_once, feed_syncs = fed(count, held)
        print(f"{messages / seconds:,.0f} messages a second, {messages / syncs_in(calls):.2f} messages a sync; "
              f"fed at once {at_once / feed_syncs:.1f}")
