"""Kills a service over a file, again and again, and looks whether every answered message stands.

    bench/run kills [N [CLIENTS]]      (default 1000 kills and 16 clients; needs the built program)

Each client keeps a connection, with one message of a port under way. The program is killed at some moment within a
tenth of a second and started again. The version of each port then shows what its answers showed, or what the one
message shows that was not answered.
"""
import random
import socket
import sys
import time
from concurrent.futures import ThreadPoolExecutor

from lib.measure import counts, folder
from lib.messages import question
from lib.numbers import CARRIERS, opening, port
from lib.program import serving
from syncs import SHOWN, Client, messages_of, minute, version_in

# the least that a version shows after so many answers: its creates, its activation, its last acknowledgement
STEPS = {1: ("pending", "sending", "active"), 2: ("pending", "sending", "active"), 13: ("active",)}


def cut_ports(at, begin, step):
    """Ports numbers until the connection breaks: the place of the last, its version, and how many were answered."""
    place, version, answered = begin, None, 0
    try:
        client = Client(at)
        while True:
            version, answered, due = None, 0, minute()
            for turn, wanted in enumerate(SHOWN):
                it = port(place)._replace(version=version)
                heard = client.ask(messages_of(it, due)[turn], wanted)
                version = version or version_in(heard)
                answered += 1
            place += step
    except OSError:
        pass
    return place, version, answered


def stands(client, version, answered):
    """Whether a version shows at least what was answered of it."""
    shown = client.ask(question(CARRIERS[0], f"/versions/{version}"), '"status"')
    least = STEPS.get(answered, ("sending", "active"))
    return any(f'"status":"{status}"' in shown for status in least)


def main(words):
    kills, clients = counts(words, 1000, 16)
    rounds = random.Random(7)
    with folder() as held, ThreadPoolExecutor(clients) as pool:
        file, begun, looked = str(held / "register"), 0, 0
        with serving("--db", file) as (_, at):
            first = Client(at)
            for message in opening():
                first.ask(message, "{")
        for _ in range(kills):
            with serving("--db", file) as (process, at):
                turns = [pool.submit(cut_ports, at, begun + turn, clients) for turn in range(clients)]
                time.sleep(rounds.random() / 10)
                process.kill()
                process.wait()
                cut = [turn.result() for turn in turns]
            begun = max(place for place, *_ in cut) // clients * clients + clients
            with serving("--db", file) as (_, at):
                client = Client(at)
                for place, version, answered in cut:
                    if answered and not stands(client, version, answered):
                        sys.exit(f"the port of {port(place).tn} had {answered} answers, and does not show it")
                    looked += answered > 0
        print(f"{kills} kills: every answered message stands, looked at in {looked} ports under way")
