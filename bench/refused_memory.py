"""Tests two streams and the worked stories with each of their allocations refused in turn.

    bench/run refused-memory [FILE]      (default all, otherwise the messages of FILE; needs gcc, the built program, and
                                          the built tests: cd crates/memory_tests && rt test)

The streams are the first port, and a registration beside open broadcasts; the stories use every call. The message
whose allocation was refused is answered with `no_memory`, and when it is sent again, as if nothing had happened. Or the
program ends with `no_memory`, and all responses before are right. Then come the tests of `bench/run refused-files`.
"""
import io
import sys
from collections import Counter
from concurrent.futures import ThreadPoolExecutor
from pathlib import Path

import refused_files
import stories

from lib.measure import folder
from lib.messages import acknowledgement, opened, parts, registered, routed
from lib.numbers import Port
from lib.program import command_line
from lib.refusing import Refusing

NO_MEMORY = b'{"error":"no_memory","number":30}'
FIRST_PORT = "examples/first-port.http"

# the worked stories, and what meets every call of the interface with an answer of 200
STORIES = (
    "cancellation-acknowledged", "carrier", "carrier-codes", "clock-back", "conflict-at-the-last-minute",
    "conflict-removed-by-the-new-provider", "conflict-removed-by-the-old-provider", "conflict-too-late", "contaminated",
    "due-minute", "failed-second-port", "failed-second-port-jump", "faulty-queries", "first-port", "held-block",
    "held-block-jump", "held-by-the-donor", "hundred-carriers", "long-queries", "modified", "modified-newcomer",
    "newcomer-after-the-end", "newcomer-before-the-end", "newcomer-of-a-block", "no-acknowledgement", "numbers",
    "old-provider-cancels", "old-provider-cancels-jump", "planned-disconnect-of-nobody",
    "planned-disconnect-of-nobody-jump", "ported-again", "ported-again-jump", "queries", "refusals", "released-block",
    "released-block-jump", "retention", "silent-new-provider", "silent-new-provider-jump", "silent-old-provider",
    "some-acknowledgements", "three-creates", "two-refusals-cancellation-acknowledge", "uris", "windows-of-restriction",
)
# the story whose first message is cut, and how the program ends after that
CUT, CUT_END = "cut-message", (1, b"npacd: cut_body\n")
WHOLE_END = (0, b"")
# how many runs at once
WORKERS = 3
# the last part of the paths that end with one
LAST = {"numbers": "{tn}", "versions": "{id}", "downloads": "{n}"}


def parts_of(text):
    return list(parts(io.BytesIO(text)))


def outcome(refusing, messages, answers, place, end=WHOLE_END):
    """What became of the run in which this allocation was refused, or None where that is wrong."""
    def served(asked):
        ran = refusing.run(command_line("feed"), place, input=b"".join(asked), capture_output=True)
        return ran, parts_of(ran.stdout)

    first, heard = served(messages)
    if first.returncode == 3 and not heard and not first.stderr:
        return "ended before there was a place to tell it"
    if first.returncode == 3:
        told = first.stderr == b"npacd: no_memory\n" and heard == answers[:len(heard)]
        return "ended" if told else None
    if (first.returncode, first.stderr) != end:
        return None
    turn = next((turn for turn, answer in enumerate(heard) if answer.endswith(NO_MEMORY)), None)
    if turn is None:
        return "unharmed" if heard == answers else None
    # the same once more, and the message that met it is sent a second time
    again, heard_again = served(messages[:turn + 1] + messages[turn:])
    wanted = answers[:turn] + [heard[turn]] + answers[turn:]
    return "sent again" if (again.returncode, again.stderr) == end and heard_again == wanted else None


def beside_open_broadcasts(count):
    """So many broadcasts that two carriers have not acknowledged, a third that registers, and its acknowledgements."""
    lrns = {"AAAA": "2025440000", "BBBB": "2025330000"}
    for carrier, lrn in lrns.items():
        yield registered(carrier)
        yield routed(carrier, lrn)
    yield opened("202533", "BBBB")
    for version in range(1, count + 1):
        yield from Port(f"202533{version:04}", "BBBB", "AAAA", lrns["AAAA"], version).sent()
    yield registered("CCCC")
    for version in range(1, count + 1):
        yield acknowledgement("CCCC", version)


def call_of(asked):
    """The path of a message, as the interface for machines names it."""
    path = asked.split(" ")[1]
    kind, _, last = path[1:].partition("/")
    return f"/{kind}/{LAST[kind]}" if kind in LAST and last != "acknowledge" else path


def told_of(name):
    """The messages of a story, and its answers."""
    rows = stories.rows_of(name, stories.names_of_all(), True)
    assert all(isinstance(row, stories.Row) and len(row.answers) == 1 for row in rows), name
    return [row.asked for row in rows], [row.answers[0] for row in rows]


def cut_message():
    """The message of the story that is cut, and its answer."""
    row, end = stories.rows_of(CUT, stories.names_of_all(), True)[:2]
    assert end.how == "cut_body"
    return [row.asked.encode()], [text.encode() for text in row.answers]


def met_by_all():
    """The calls that are met with an answer of 200."""
    pairs = [pair for name in STORIES for pair in zip(*told_of(name))]
    return {call_of(asked) for asked, answer in pairs if answer.startswith("HTTP/1.1 200 ")}


def calls():
    with open("docs/openapi.yaml", encoding="utf-8") as file:
        return {line.strip().rstrip(":") for line in file if line.startswith("  /")}


def refuse_in_turn(refusing, name, messages, answers=None, end=WHOLE_END):
    """Refuses each allocation that the messages take, prints what became of it, and tells how many there were."""
    whole, places = refusing.counted(command_line("feed"), input=b"".join(messages), capture_output=True)
    heard = parts_of(whole.stdout)
    assert (whole.returncode, whole.stderr) == end and len(heard) == len(messages), whole.stderr
    assert answers is None or heard == answers
    with ThreadPoolExecutor(WORKERS) as pool:
        found = pool.map(lambda place: outcome(refusing, messages, heard, place, end), range(1, places + 1))
        outcomes = Counter()
        for place, became in enumerate(found, 1):
            if became is None:
                sys.exit(f"{name}allocation {place}: wrong")
            outcomes[became] += 1
    became = ", ".join(f"{many} {became}" for became, many in outcomes.items())
    print(f"{name}{len(messages)} messages, {places} allocations, each refused in turn: {became}", flush=True)
    return places


def refuse_stories(refusing):
    assert met_by_all() == calls(), met_by_all() ^ calls()
    places = 0
    for name in STORIES:
        messages, answers = ([stories.encoded(text) for text in texts] for texts in told_of(name))
        places += refuse_in_turn(refusing, f"{name}: ", messages, answers)
    places += refuse_in_turn(refusing, f"{CUT}: ", *cut_message(), CUT_END)
    print(f"{len(STORIES) + 1} stories, {len(calls())} calls, {places} allocations")


def main(words):
    with folder() as held:
        refusing = Refusing(held)
        refuse_in_turn(refusing, "", parts_of(Path(*words or [FIRST_PORT]).read_bytes()))
        if not words:
            refuse_in_turn(refusing, "", [text.encode() for text in beside_open_broadcasts(12)])
            refuse_stories(refusing)
            refused_files.refuse_tests(refusing)
