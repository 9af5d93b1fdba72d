#!/usr/bin/env python3
"""Tests the migration of files in the two older formats by the built program, with stock SQLite.

Python's own SQLite module writes each file, the program migrates it, and the module reads it. The files in the first format
(tests/first_format) are from the middle of a worked story: the program gets the rest of that story, and each answer must be the story's, to
the byte. A file in the second format has one table more. With other windows, or with a row that cannot be read, a file is refused, and
each byte of it stays; once the row is repaired, it continues.

    tests/migrated_files.py      (build first: cd crates/npacd && rt run -- --help)

The gate runs it after `rt ci`, which leaves the program that it has proved and run.
"""
import os
import sqlite3
import subprocess
import sys
import tempfile
from pathlib import Path

import stories

TOP = Path(__file__).resolve().parent.parent
sys.path.insert(0, str(TOP / "bench"))
from lib.program import PROGRAM
from stock_sqlite import changed, is_refused, with_windows

STATEMENTS = TOP / "tests" / "first_format"

# The statement that makes a file of the second format from one of the first: the table of pending modifies.
SECOND = "CREATE TABLE next_routing (id INTEGER PRIMARY KEY, lrn INTEGER NOT NULL, cic INTEGER) STRICT"
FORMATS = {"first": (), "second": (SECOND,)}

# After this many seconds a feed counts as endless.
LIMIT = 60

# Each file, its story, and how many of the story's messages precede the file.
FILES = {
    "sending": ("failed-block", 16),
    "failed": ("failed-block", 34),
    "partly-failed": ("failed-block-jump", 14),
    "second-sending": ("held-block", 16),
    "second-failed": ("held-block", 25),
    "second-sent-again": ("held-block", 28),
}

# The file in which nothing is pending, and the tables that are empty there.
AT_REST, EMPTY = "second-failed", {"broadcast", "wait"}

# Statements that make a row of the file "sending" unreadable in the second format, each with one that undoes it.
UNREADABLE = {
    "INSERT INTO carrier VALUES ('x')": "DELETE FROM carrier WHERE spid = 'x'",
    "INSERT INTO lrn VALUES (7, 'x')": "DELETE FROM lrn WHERE lrn = 7",
    "INSERT INTO code VALUES (7, 'x')": "DELETE FROM code WHERE code = 7",
    "INSERT INTO block VALUES (7, 'x', NULL)": "DELETE FROM block WHERE block = 7",
    "INSERT INTO broadcast VALUES (900, 1, -1, 7, 'create', NULL, NULL, 1, 0)": "DELETE FROM broadcast WHERE id = 900",
    "INSERT INTO wait VALUES ('x', 1, 900, 1, 7)": "DELETE FROM wait WHERE spid = 'x'",
    "INSERT INTO next_routing VALUES (900, -1, NULL)": "DELETE FROM next_routing WHERE id = 900",
    "UPDATE version SET attempt = attempt - 9": "UPDATE version SET attempt = attempt + 9",
    "UPDATE clock SET next_id = next_id - 99": "UPDATE clock SET next_id = next_id + 99",
}

# The tables whose rows stay where they are, and those that get a row or none.
STAYING = ("carrier", "lrn", "code", "block", "broadcast", "wait")
TABLES = (*STAYING, "version", "clock", "next_routing", "window_set", "version2", "clock2")


def write_file(file, name, *more):
    """Writes a file with stock SQLite, with pages and a log as the program's files have them."""
    database = sqlite3.connect(file, isolation_level=None)
    database.execute("PRAGMA page_size = 4096")
    database.execute("PRAGMA journal_mode = WAL")
    for part in ("every", name):
        database.executescript((STATEMENTS / f"{part}.sql").read_text(encoding="utf-8"))
    for statement in more:
        database.execute(statement)
    database.close()


def messages_of(rows):
    return "".join(row.asked for row in rows).encode()


def answers_of(rows):
    return "".join(text for row in rows for text in row.answers).encode()


def feed(file, text=b""):
    """Returns the exit status of a feed over the file, and its output."""
    words = [PROGRAM, "feed", "--windows", stories.WINDOWS, "--db", file]
    ran = subprocess.run(words, input=text, capture_output=True, check=False, timeout=LIMIT)
    return ran.returncode, ran.stdout, ran.stderr


def content_of(file):
    """Returns the result of stock SQLite's check of the file, its schema, and the rows of each table."""
    database = sqlite3.connect(file)
    ask = lambda query: database.execute(query).fetchall()
    listed = ask("SELECT type, name, tbl_name, sql FROM sqlite_schema")
    names = [name for kind, name, _, _ in listed if kind == "table"]
    rows = {name: sorted(ask(f"SELECT * FROM {name}"), key=repr) for name in names}
    is_whole = ask("PRAGMA integrity_check") == [("ok",)]
    database.close()
    return is_whole, listed, rows


def migrated(rows):
    """Returns the expected rows of a migrated file, as docs/FILES.md describes them."""
    one, now, next_id, *windows = rows["clock"][0]
    return {name: rows[name] for name in STAYING} | {
        "version": [],
        "clock": [],
        "next_routing": [],
        "window_set": [(1, *windows)],
        "version2": [(*row, 1) for row in rows["version"]],
        "clock2": [(one, now, next_id, 1)],
    }


def parts_of(name):
    """Returns the messages of a file's story, with their answers: those before the file, and the rest."""
    story, count = FILES[name]
    told = stories.rows_of(story, stories.names_of_all(), True)
    return told[:count], told[count:]


def checked(name, form, folder):
    """Returns the checks of one file in a format, and whether each holds."""
    file, other = (os.path.join(folder, f"{name}-{form}{end}.db") for end in ("", "-of-today"))
    begun, rest = parts_of(name)
    write_file(file, name, *FORMATS[form])
    is_whole, _, before = content_of(file)
    empty = {table for table in (*STAYING, "version", "clock") if not before[table]}
    found = {"written": is_whole and empty == (EMPTY if name == AT_REST else set())}
    found["opened"] = feed(file) == (0, b"", b"")
    is_whole, listed, after = content_of(file)
    found |= {"integrity": is_whole, "tables": set(after) == set(TABLES)}
    found |= {f"rows of {table}": after.get(table) == rows for table, rows in migrated(before).items()}
    found["the same messages to a new file"] = feed(other, messages_of(begun)) == (0, answers_of(begun), b"")
    found["what they leave there"] = content_of(other) == (True, listed, after)
    found["the rest of the story"] = feed(file, messages_of(rest)) == (0, answers_of(rest), b"")
    found["the same in the new file"] = feed(other, messages_of(rest)) == (0, answers_of(rest), b"")
    found["integrity afterwards"], _, last = content_of(file)
    found["what it leaves"] = last == content_of(other)[2] and last != after
    return {f"{name} in the {form} format, {what}": well for what, well in found.items()}


def is_continued(file, name):
    """Returns whether a file is answered as the rest of its story says."""
    rest = parts_of(name)[1]
    return feed(file, messages_of(rest)) == (0, answers_of(rest), b"")


def refused(folder):
    """Tests files that are refused in their older format, and continue once what is wrong is undone."""
    found, file, other = {}, os.path.join(folder, "refused.db"), with_windows(folder)
    for form, more in FORMATS.items():
        Path(file).unlink(missing_ok=True)
        write_file(file, "sending", *more)
        is_kept = is_refused(file, "npacd: windows_differ", 1, other)
        found[f"other windows in the {form} format"] = is_kept and is_continued(file, "sending")
    for damage, repair in UNREADABLE.items():
        Path(file).unlink()
        write_file(file, "sending", SECOND, damage)
        is_kept = is_refused(file)
        found[damage] = is_kept and is_continued(changed(file, folder, repair), "sending")
    return found


def found_in_all():
    found = {}
    with tempfile.TemporaryDirectory() as folder:
        for name in FILES:
            for form in FORMATS:
                found |= checked(name, form, folder)
        found |= refused(folder)
    return found


def main():
    if not os.path.isfile(PROGRAM):
        sys.exit(f"{PROGRAM} is not there: build it first")
    found = found_in_all()
    wrong = [what for what, well in found.items() if not well]
    print(*wrong, f"migrated files, by stock SQLite: {len(found) - len(wrong)} rows as expected, {len(wrong)} others", sep="\n")
    sys.exit(1 if wrong else 0)


if __name__ == "__main__":
    main()
