#!/usr/bin/env python3
"""Tests command lines of the built program: exit status, output, and what standard error reports.

    tests/command_lines.py      (build first: cd crates/npacd && rt run -- --help)

A row is a command line, its input, and the status, the output and the report with which it ends. The lines run one after another, over
files in one folder. No clause knows which files the program reads and writes, nor `clap`'s texts. The gate runs it after `rt ci`, which
leaves the program that it has proved and run.
"""
import os
import re
import socket
import subprocess
import sys
import tempfile
import time
from pathlib import Path

sys.path.insert(0, str(Path(__file__).resolve().parents[1] / "bench"))
from explained import HEADER, LIMIT
from lib.clients import connected, log_lines, received, received_to_end, responses_to
from lib.messages import acknowledgement, clock, message, opened, registered, routed, text_of
from lib.program import PROGRAM, free_port, listening
from stories import Names, answer

# A text that is not empty, as `clap` writes it.
SOME = None
# What --progress shows of a line that takes more than a second.
PROGRESS = re.compile(rb"npacd: \d+ rows\n")

WINDOWS = {
    "initial_concurrence": 60, "final_concurrence": 60, "conflict_restriction": 30, "conflict_resolution": 120, "conflict_expiration": 1000,
    "cancellation_initial": 60, "cancellation_final": 60, "pending_retention": 500, "broadcast": 15,
}


def windows_file(**changes):
    """Returns the windows file with other values. `None` leaves a key out."""
    return "".join(f"{key} = {value}\n" for key, value in (WINDOWS | changes).items() if value is not None)


def response(text):
    """Returns the response that a story writes so."""
    return answer(text, Names())


FIRST, SECOND = registered("AAAA"), registered("BBBB")
REGISTERED, TAKEN = response('200 {"rows":[],"spid":"AAAA"}'), response("409 carrier_taken 4")
CUT, CUT_BODY = FIRST.removesuffix(':"AAAA"}'), response("400 cut_body 46")
GARBAGE, BAD_HEAD = "GARBAGE\r\n\r\n", response("400 bad_head 45")
# The head of a message whose body has one byte too many.
LARGE, TOO_LARGE = "POST /carriers HTTP/1.1\r\nx-spid: NPAC\r\ncontent-length: 1048577\r\n\r\n", response("413 too_large 44")
# Nothing is read after a message that asks to close.
CLOSING = SECOND.replace("\r\n\r\n", "\r\nconnection: close\r\n\r\n") + "POST /carriers HTTP/1.1\r\n\r\n"
# Three carriers, each with a routing number, and a code that BBBB holds.
ROUTINGS = {"AAAA": "2025440000", "BBBB": "2025330000", "CCCC": "2025550000"}
CARRIERS = "".join(registered(spid) + routed(spid, lrn) for spid, lrn in ROUTINGS.items()) + opened("202533", "BBBB")
ACKNOWLEDGED = "".join(acknowledgement(spid, 1) for spid in ROUTINGS)
WIDE = message("NPAC", "/windows", text_of(WINDOWS | {"broadcast": 16}))

# Both creates of a port at minute 100, and another provider's create between them.
CREATE_BY_AAAA = "AAAA,subscriptionVersionNewSP-Create,2025331234,BBBB,AAAA,100,2025440000,,\n"
CREATES = (HEADER + CREATE_BY_AAAA + "CCCC,subscriptionVersionNewSP-Create,2025331234,BBBB,CCCC,100,2025550000,,\n"
           "BBBB,subscriptionVersionOldSP-Create,2025331234,BBBB,AAAA,100,,,yes\n")
CREATED = "row,subject,result,id\n1,2025331234,ok,1\n2,2025331234,busy,\n3,2025331234,ok,1\n"
BUSY = "row,subject,result,id\n1,2025331234,busy,\n2,2025331234,busy,\n3,2025331234,busy,\n"
ACTIVATES = HEADER + "AAAA,subscriptionVersionActivate,2025331234,,,,,,\n"
BAD_ROW = "BBBB,Activate,2025331234,,,,,,\n"
IN_FORCE = "subject,lrn,cic\n2025331234,2025440000,\n"
NOTHING_IN_FORCE = "subject,lrn,cic\n"
COPY = "subject,lrn,cic\n2025331234,2025550000,\n2025339999,2025330000,\n"
# What `check` writes of a new file with one carrier.
SUMMARY = "minute 0\nset 1\nnext_id 1\ncarriers 1\ndue none\n"

FILES = {
    "good.toml": windows_file(), "narrow.toml": windows_file(broadcast=None), "wide.toml": windows_file(broadcast=16),
    "latin.toml": windows_file().encode() + b"# caf\xe9\n", "tenth.toml": windows_file() + "tenth = 15\n",
    "fraction.toml": windows_file(broadcast="15.0"), "zero.toml": windows_file(broadcast=0),
    "first.http": FIRST, "cut.http": CUT, "closed.http": CLOSING, "carriers.http": CARRIERS, "clock.http": clock(100),
    "acknowledged.http": ACKNOWLEDGED, "wide.http": WIDE,
}

# Mistakes in the line, found before any file is opened.
MISTAKES = [
    ("", "", 2, "", SOME),
    ("listen --windows good.toml", "", 2, "", SOME),
    ("feed", "", 2, "", SOME),
    ("feed --windows good.toml --port 8700", "", 2, "", SOME),
    ("feed --windows good.toml --unknown", FIRST, 2, "", SOME),
    ("feed --windows good.toml --strict", FIRST, 2, "", SOME),
    ("feed --present-windows", "", 2, "", SOME),
    ("feed --present-windows --db none.db --windows none.toml", "", 2, "",
     "error: --windows stands beside --present-windows, or a number is not in digits\n"),
    ("serve --windows good.toml", "", 2, "", SOME),
    ("serve --windows none.toml --port 0", "", 2, "", SOME),
    ("serve --windows good.toml --port 65536", "", 2, "", SOME),
    ("serve --windows good.toml --port +80", "", 2, "", "error: a number is written in digits\n"),
    ("serve --windows good.toml --port 1 --connections x", "", 2, "", SOME),
    ("serve --windows good.toml --port 1 --connections 0", "", 2, "", SOME),
    ("serve --windows good.toml --port 1 --at-once 0", "", 2, "", SOME),
    ("serve --windows good.toml --port 1 --at-once 1025", "", 2, "", SOME),
    ("serve --windows good.toml --port 1 --group 0", "", 2, "", SOME),
    ("serve --windows good.toml --port 1 --group 257", "", 2, "", SOME),
    ("bulk", CREATES, 2, "", SOME),
    ("bulk --windows none.toml --spid AAAA", CREATES, 2, "", SOME),
    ("bulk --windows none.toml --db none.db --snapshot", CREATES, 2, "", SOME),
    ("export", "", 2, "", SOME),
    ("export --windows none.toml --port 1", "", 2, "", SOME),
    ("export --windows none.toml --snapshot", "", 2, "", "error: --snapshot stands without --db\n"),
    ("audit --windows none.toml", COPY, 2, "", SOME),
    ("audit --spid AAAA", COPY, 2, "", SOME),
    ("windows", "", 2, "", SOME),
    ("windows --windows good.toml", "", 2, "", SOME),
    ("windows --db none.db --feed none.http", "", 2, "", SOME),
    ("check", "", 2, "", SOME),
    ("check --windows good.toml", "", 2, "", SOME),
    ("check --db none.db --progress", "", 2, "", SOME),
    ("backup --db none.db", "", 2, "", SOME),
    ("repair --db none.db", "", 2, "", SOME),
    ("report --db none.db", "", 2, "", SOME),
    ("report --db none.db --to none.html --number 12", "", 2, "", "error: a number is written in digits\n"),
]

HELP = [(f"{name} --help".strip(), FIRST, 0, SOME, "")
        for name in ("", "feed", "serve", "bulk", "export", "audit", "windows", "check", "backup", "repair", "report")]
HELP.append(("--version", FIRST, 0, "npacd 0.1.0\n", ""))

# The first fault in this order is reported: of the windows file, of the file of messages, of the input.
FAULTS = [
    ("feed --windows narrow.toml", FIRST, 1, "", "npacd: missing_key\n"),
    ("feed --windows none.toml", FIRST, 3, "", "npacd: read\n"),
    ("feed --windows narrow.toml --feed none.http", FIRST, 1, "", "npacd: missing_key\n"),
    ("feed --windows good.toml --feed none.http", FIRST, 3, "", "npacd: read\n"),
    ("feed --windows good.toml --feed cut.http", FIRST, 1, "", "npacd: cut_body\n"),
    ("serve --windows good.toml --port 1 --feed cut.http", FIRST, 1, "", "npacd: cut_body\n"),
    ("serve --windows good.toml --port 1 --log none/log", "", 3, "", "npacd: write\n"),
    ("feed --windows good.toml", FIRST + CUT, 1, REGISTERED + CUT_BODY, "npacd: cut_body\n"),
    ("feed --windows good.toml --feed closed.http", CUT, 1, CUT_BODY, "npacd: cut_body\n"),
    ("feed --windows good.toml", GARBAGE, 1, BAD_HEAD, "npacd: bad_head\n"),
    ("feed --windows good.toml", LARGE, 1, TOO_LARGE, "npacd: too_large\n"),
    ("feed --windows cut.http", FIRST, 1, "", "npacd: syntax\n"),
    ("serve --windows latin.toml --port 1", "", 1, "", "npacd: syntax\n"),
    ("bulk --windows tenth.toml", "", 1, "", "npacd: unknown_key\n"),
    ("export --windows fraction.toml", "", 1, "", "npacd: not_whole\n"),
    ("audit --windows zero.toml --spid AAAA", "", 1, "", "npacd: out_of_range\n"),
]

# Windows files, and their faults. Of several faults the first in the order of docs/FILES.md is reported.
WINDOWS_FILES = [
    ("", "missing_key"),
    ("initial_concurrence = [", "syntax"),
    (windows_file(broadcast="2026-12-01-01"), "syntax"),
    (windows_file(broadcast=2**63), "syntax"),
    (windows_file() + "broadcast = 15\n", "syntax"),
    ("broadcast = 15\nbroadcast = 15\n", "syntax"),
    *((windows_file(**{key: None}), "missing_key") for key in WINDOWS),
    ("[windows]\n" + windows_file(), "missing_key"),
    (windows_file(broadcast=None) + "Broadcast = 15\n", "missing_key"),
    (windows_file(broadcast=None, pending_retention="true"), "missing_key"),
    (windows_file() + "[more]\n", "unknown_key"),
    (windows_file(broadcast="15.0") + "tenth = 15\n", "unknown_key"),
    *((windows_file(broadcast=value), "not_whole") for value in ("'15'", "true", "[15]", "15e0", "2026-12-01")),
    (windows_file(initial_concurrence=0, broadcast="15.0"), "not_whole"),
    *((windows_file(**{key: 525_601}), "out_of_range") for key in WINDOWS),
    *((windows_file(broadcast=value), "out_of_range") for value in (0, -1, 2**32 + 15, 2**63 - 1, -(2**63))),
]
GOOD_WINDOWS = [windows_file(**dict.fromkeys(WINDOWS, 1)), windows_file(**dict.fromkeys(WINDOWS, 525_600)), "# Nine.\n\n" + windows_file()]

# What is fed first is answered to nobody, and what follows its end is discarded.
FED = [
    ("feed --windows good.toml", FIRST, 0, REGISTERED, ""),
    ("feed --windows good.toml --feed first.http", FIRST, 0, TAKEN, ""),
    ("feed --windows good.toml --feed closed.http", FIRST, 0, REGISTERED, ""),
]

# Lines over a file. `windows`, `check` and `--existing` make no file.
STORED = [
    ("check --db made.db", "", 3, "refused there is no such file or folder\n", "npacd: storage\n"),
    ("feed --windows good.toml --db made.db --existing", FIRST, 3, "", "npacd: storage\n"),
    ("windows --db made.db", "", 3, "", "npacd: storage\n"),
    ("windows --db made.db", "", 3, "", "npacd: storage\n"),
    ("feed --present-windows --db made.db", FIRST, 3, "", "npacd: storage\n"),
    ("feed --windows good.toml --db made.db", FIRST, 0, REGISTERED, ""),
    ("feed --db made.db --present-windows", FIRST, 0, TAKEN, ""),
    ("windows --db made.db", "", 0, "# Set 1\n" + windows_file(), ""),
    ("check --db made.db", "", 0, SUMMARY + "rows sound\n", ""),
    ("feed --windows good.toml --db made.db --existing --explain why.txt", FIRST, 0, TAKEN, ""),
    ("check --db good.toml --existing", "", 3, "refused it is no SQLite database\n", "npacd: storage\n"),
    ("check --db . --explain why.txt", "", 3, "refused it is a folder or a device\n", "npacd: storage\n"),
    ("backup --db made.db --to copy.db", "", 0, SUMMARY, ""),
    ("backup --db made.db --to copy.db", "", 3, "", "npacd: write\n"),
    ("backup --db none.db --to other.db", "", 3, "", "npacd: storage\n"),
    ("repair --db made.db --to new.db", "", 0, SUMMARY, ""),
    ("repair --db made.db --to new.db", "", 3, "", "npacd: write\n"),
    ("repair --db none.db --to other.db", "", 3, "", "npacd: storage\n"),
    ("report --db made.db --to made.html --number 2025331234", "", 0, "", ""),
    ("report --db made.db --to none/made.html", "", 3, "", "npacd: write\n"),
    ("report --db none.db --to made.html", "", 3, "", "npacd: storage\n"),
    ("windows --db good.toml", "", 3, "", "npacd: storage\n"),
    ("windows --db :memory:", "", 3, "", "npacd: storage\n"),
    ("feed --windows good.toml --db made.db", FIRST, 0, TAKEN, ""),
    ("feed --windows wide.toml --db made.db", FIRST, 1, "", "npacd: windows_differ\n"),
    ("feed --windows good.toml --db good.toml", FIRST, 3, "", "npacd: storage\n"),
    ("feed --windows good.toml --db :memory:", FIRST, 3, "", "npacd: storage\n"),
]

# Files of commands, exports and audits over memory: from nothing, from what was fed, and from what precedes the end of what was fed.
IN_MEMORY = [
    ("bulk --windows good.toml --feed carriers.http", CREATES, 0, CREATED, ""),
    ("bulk --windows good.toml", HEADER, 0, "row,subject,result,id\n", ""),
    ("bulk --windows good.toml --progress --explain none/why", HEADER + BAD_ROW, 0, "row,subject,result,id\n1,,bad_row,\n", ""),
    ("bulk --windows good.toml", ACTIVATES, 0, "row,subject,result,id\n1,2025331234,unknown_carrier,\n", ""),
    ("bulk --windows good.toml --feed closed.http", ACTIVATES.replace("AAAA", "BBBB") + BAD_ROW, 0,
     "row,subject,result,id\n1,2025331234,not_found,\n2,,bad_row,\n", ""),
    ("bulk --strict --windows good.toml --feed carriers.http", CREATES, 1, CREATED, "npacd: rows_refused\n"),
    ("bulk --windows good.toml --strict", HEADER + BAD_ROW, 1, "row,subject,result,id\n1,,bad_row,\n", "npacd: rows_refused\n"),
    ("bulk --windows good.toml --strict --feed carriers.http", HEADER + CREATE_BY_AAAA, 0,
     "row,subject,result,id\n1,2025331234,ok,1\n", ""),
    ("bulk --windows good.toml --strict", COPY, 1, "", "npacd: bad_header\n"),
    ("export --windows good.toml", CREATES, 0, NOTHING_IN_FORCE, ""),
    ("audit --windows good.toml --spid BBBB --feed closed.http", NOTHING_IN_FORCE, 0, "subject,finding\n", ""),
    ("audit --windows good.toml --spid CCCC --feed carriers.http", COPY, 0, "subject,finding\n2025331234,extra\n2025339999,extra\n", ""),
]

# A port is created, sent when it is due, and acknowledged.
IN_FILE = [
    ("bulk --windows good.toml --db files.db --feed carriers.http", CREATES, 0, CREATED, ""),
    ("export --windows good.toml --db files.db", "", 0, NOTHING_IN_FORCE, ""),
    ("bulk --windows good.toml --db files.db", CREATES, 0, BUSY, ""),
    ("bulk --windows good.toml --db files.db", ACTIVATES, 0, "row,subject,result,id\n1,2025331234,before_due,\n", ""),
    ("bulk --windows good.toml --db files.db --feed clock.http", ACTIVATES, 0, "row,subject,result,id\n1,2025331234,ok,1\n", ""),
    ("audit --windows good.toml --db files.db --spid CCCC", COPY, 0, "subject,finding\n2025331234,waiting\n2025339999,extra\n", ""),
    ("export --windows good.toml --db files.db --feed acknowledged.http", "", 0, IN_FORCE, ""),
    ("audit --windows good.toml --db files.db --spid CCCC", COPY, 0, "subject,finding\n2025331234,different\n2025339999,extra\n", ""),
]

# A line has the faults of later lines too. The first in this order is reported: of the windows file, of the file of `--db`, of that of
# `--feed`, of the carrier, of the input. The last line finds the file as it was.
FILE_FAULTS = [
    ("bulk --windows narrow.toml --db good.toml --feed none.http", "", 1, "", "npacd: missing_key\n"),
    ("export --windows none.toml --db good.toml --feed cut.http", "", 3, "", "npacd: read\n"),
    ("audit --windows narrow.toml --db good.toml --feed none.http --spid X", "", 1, "", "npacd: missing_key\n"),
    ("bulk --windows good.toml --db good.toml --feed none.http", "", 3, "", "npacd: storage\n"),
    ("export --windows wide.toml --db files.db --feed cut.http", "", 1, "", "npacd: windows_differ\n"),
    ("audit --windows wide.toml --db files.db --feed none.http --spid X", "", 1, "", "npacd: windows_differ\n"),
    ("bulk --windows good.toml --feed none.http", "", 3, "", "npacd: read\n"),
    ("bulk --windows good.toml --feed cut.http", "", 1, "", "npacd: cut_body\n"),
    ("export --windows good.toml --feed cut.http", "", 1, "", "npacd: cut_body\n"),
    ("audit --windows good.toml --feed none.http --spid X", "", 3, "", "npacd: read\n"),
    ("audit --windows good.toml --feed cut.http --spid X", "", 1, "", "npacd: cut_body\n"),
    ("audit --windows good.toml --feed carriers.http --spid X", "", 1, "", "npacd: unknown_carrier\n"),
    ("audit --windows good.toml --feed carriers.http --spid DDDD", "", 1, "", "npacd: unknown_carrier\n"),
    ("audit --windows good.toml --feed carriers.http --spid NPAC", "", 1, "", "npacd: unknown_carrier\n"),
    ("bulk --windows good.toml", "", 1, "", "npacd: bad_header\n"),
    ("bulk --windows good.toml --feed carriers.http", COPY, 1, "", "npacd: bad_header\n"),
    ("audit --windows good.toml --feed carriers.http --spid AAAA", "", 1, "", "npacd: bad_header\n"),
    ("audit --windows good.toml --feed carriers.http --spid AAAA", "subject,lrn\n2025331234,2025440000\n", 1, "", "npacd: bad_header\n"),
    ("audit --windows good.toml --feed carriers.http --spid AAAA", "subject,lrn,cic\n2025331234,2025440000\n", 1, "", "npacd: bad_file\n"),
    ("audit --windows good.toml --feed carriers.http --spid AAAA", IN_FORCE + "2025331234,2025440000,\n", 1, "", "npacd: bad_file\n"),
    ("export --windows good.toml --db files.db", "", 0, IN_FORCE, ""),
]

# Lines over copies of a file, which stays as it was. The copy is made before the windows are read.
SNAPSHOTS = [
    ("export --windows good.toml --db files.db --snapshot --progress", "", 0, IN_FORCE, ""),
    ("audit --windows good.toml --db files.db --spid CCCC --snapshot", COPY, 0,
     "subject,finding\n2025331234,different\n2025339999,extra\n", ""),
    ("export --windows good.toml --db files.db --snapshot --feed wide.http", "", 0, IN_FORCE, ""),
    ("export --windows good.toml --db files.db", "", 0, IN_FORCE, ""),
    ("export --windows none.toml --db none.db --snapshot", "", 3, "", "npacd: storage\n"),
    ("export --windows none.toml --db files.db --snapshot", "", 3, "", "npacd: read\n"),
    ("export --windows wide.toml --db files.db --snapshot", "", 1, "", "npacd: windows_differ\n"),
    ("export --windows good.toml --db good.toml --snapshot", "", 3, "", "npacd: storage\n"),
]

# The administrator sets other windows: the file then opens with these, and not with the first.
WINDOWS_CHANGED = [
    ("export --windows good.toml --db files.db --feed wide.http", "", 0, IN_FORCE, ""),
    ("export --windows good.toml --db files.db", "", 1, "", "npacd: windows_differ\n"),
    ("export --present-windows --db files.db", "", 0, IN_FORCE, ""),
    ("export --present-windows --db files.db --snapshot", "", 0, IN_FORCE, ""),
    ("export --snapshot --present-windows --db files.db", "", 0, IN_FORCE, ""),
    ("export --present-windows --progress --db files.db", "", 0, IN_FORCE, ""),
    ("windows --db files.db", "", 0, "# Set 2\n" + windows_file(broadcast=16), ""),
    ("export --windows wide.toml --db files.db", "", 0, IN_FORCE, ""),
]

# Lines whose input cannot be read, and lines, with their input, whose output cannot be written.
UNREAD = ["feed --windows good.toml", "bulk --windows good.toml", "audit --windows good.toml --feed carriers.http --spid AAAA"]
UNWRITTEN = [
    ("--help", ""),
    ("feed --windows good.toml", CLOSING),
    ("bulk --windows good.toml", ACTIVATES),
    ("export --windows good.toml", ""),
    ("windows --db files.db", ""),
    ("check --db files.db", ""),
    ("check --db good.toml", ""),
    ("audit --windows good.toml --feed carriers.http --spid AAAA", COPY),
]


def ended(words, stdout=subprocess.PIPE, **given):
    """Returns the exit status of a command line, its output and its report."""
    ran = subprocess.run([PROGRAM, *words], stdout=stdout, stderr=subprocess.PIPE, timeout=LIMIT, check=False, **given)
    return ran.returncode, ran.stdout, ran.stderr


def is_text(given, expected):
    return bool(given) if expected is SOME else given == expected.encode()


def executed(rows):
    """Yields each line with how it ended, and whether that is as expected."""
    for line, given, status, output, report in rows:
        found = ended(line.split(), input=given.encode())
        shown = PROGRESS.sub(b"", found[2]) if "--progress" in line else found[2]
        yield (line, *found), found[0] == status and is_text(found[1], output) and is_text(shown, report)


def windows_files():
    """Yields windows files with how the program ended over each, and whether that is as expected."""
    path = Path("tried.toml")
    for text, name in WINDOWS_FILES:
        path.write_text(text, encoding="utf-8")
        found = ended(["feed", "--windows", path], input=FIRST.encode())
        yield (text, *found), found == (1, b"", f"npacd: {name}\n".encode())
    for text in GOOD_WINDOWS:
        path.write_text(text, encoding="utf-8")
        found = ended(["feed", "--windows", path], input=FIRST.encode())
        yield (text, *found), found == (0, REGISTERED.encode(), b"")


def device_faults():
    """Yields lines that read a folder or write to a full device, with how they ended, and whether that is as expected."""
    for line in UNREAD:
        folder = os.open(".", os.O_RDONLY)
        found = ended(line.split(), stdin=folder)
        os.close(folder)
        yield (line, *found), (found[0], found[2]) == (3, b"npacd: read\n")
    for line, given in UNWRITTEN:
        with open("/dev/full", "wb") as full:
            found = ended(line.split(), stdout=full, input=given.encode())
        yield (line, *found), (found[0], found[2]) == (3, b"npacd: write\n")


def other_words():
    """Yields how a word ends that is no UTF-8, and a port that another listener has, and whether that is as expected."""
    found = ended([b"feed", b"\xff"], stdin=subprocess.DEVNULL)
    yield ("not UTF-8", *found), found == (2, b"", b"error: an argument is not UTF-8\n")
    with socket.create_server(("127.0.0.1", 0)) as taken:
        words = f"serve --windows good.toml --port {taken.getsockname()[1]}".split()
        found = ended(words, stdin=subprocess.DEVNULL)
    yield ("a port that is taken", *found), found == (3, b"", b"npacd: listen\n")


# ---- serve

# What `--log -` writes of the slow clients, in the order in which their connections end.
SLOW_CLIENTS = [
    "connection=1 spids=- messages=0 refusals=0 end=message",
    "connection=2 spids=NPAC messages=1 refusals=1 end=idle",
    "connection=3 spids=NPAC messages=1 refusals=1 end=closed",
]


def served(line, port, clients, log):
    """Serves clients, which end the program. Yields whether each finds what it expects, and whether the program then ends with 0, with no
    output after the line that names its port, and with this log."""
    with listening([PROGRAM, *line.split()], port, stdin=subprocess.DEVNULL) as program:
        yield from (((line, place), is_expected) for place, is_expected in enumerate(clients(port)))
        output, report = program.communicate(timeout=LIMIT)
    lines = log_lines(PROGRESS.sub(b"", report).decode())
    yield (line, program.returncode, output, lines), (program.returncode, output, lines) == (0, b"", log)


def slow_clients(port):
    """Yields whether a client is closed within a message, one between messages, each after its limit, and whether a third is answered."""
    for said, heard, least in ((CUT, "", 0.9), (FIRST, TAKEN, 1.9)):
        begun = time.monotonic()
        yield responses_to(port, said.encode(), False) == heard.encode() and least < time.monotonic() - begun < least + 10
    yield responses_to(port, FIRST.replace("\r\n\r\n", "\r\nconnection: close\r\n\r\n").encode(), False) == TAKEN.encode()


def clients_in_turn(port):
    """Yields whether a silent client loses the only place to a cut one, and whether that one, a refused one and a last are answered."""
    with connected(port) as silent:
        silent.sendall(FIRST.encode())
        yield received(silent, len(TAKEN)) == TAKEN.encode()
        yield responses_to(port, CUT.encode(), True) == CUT_BODY.encode()
        yield received_to_end(silent) == b""
    yield responses_to(port, GARBAGE.encode(), False) == BAD_HEAD.encode()
    yield responses_to(port, FIRST.encode(), True) == TAKEN.encode()


def services():
    """Yields what is found of two services whose options are at their limits: one at the last port, one with one place."""
    limits = "--at-once 1024 --group 1 --message-limit 1 --idle-limit 2 --sending-limit 65535"
    line = f"serve --feed first.http --connections 3 --port 65535 --windows good.toml {limits} --log -"
    yield from served(line, 65535, slow_clients, SLOW_CLIENTS)
    port = free_port()
    options = "--existing --db=made.db --progress --at-once=1 --connections=4 --explain=-"
    yield from served(f"serve --windows=good.toml --port={port} {options}", port, clients_in_turn, [])


def all_found():
    """Yields each row with how it ended, and whether that is as expected."""
    for rows in (MISTAKES, HELP, FAULTS, FED, STORED, IN_MEMORY, IN_FILE, FILE_FAULTS, SNAPSHOTS, WINDOWS_CHANGED):
        yield from executed(rows)
    for tests in (windows_files, device_faults, other_words, services):
        yield from tests()


def main():
    if not os.path.isfile(PROGRAM):
        sys.exit(f"{PROGRAM} is not there: build it first")
    with tempfile.TemporaryDirectory() as folder:
        os.chdir(folder)
        for name, text in FILES.items():
            Path(name).write_bytes(text if isinstance(text, bytes) else text.encode())
        found = list(all_found())
        os.chdir("/")
    wrong = [row for row, is_expected in found if not is_expected]
    print(*wrong, f"command lines: {len(found) - len(wrong)} as expected, {len(wrong)} others", sep="\n")
    sys.exit(1 if wrong else 0)


if __name__ == "__main__":
    main()
