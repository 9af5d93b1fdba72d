#!/usr/bin/env python3
"""Tests repairs by the built program of files that stock SQLite vacuumed, or loaded from a dump.

    tests/repaired.py      (build first: cd crates/npacd && rt run -- --help)

No clause of the program knows what lies at a path, so this is where it is tested that each row of a moved file is in the new one. The
files are those that short stories leave. The gate runs it after `rt ci`, which leaves the program that it has proved and run.
"""
import os
import shutil
import sqlite3
import subprocess
import sys
import tempfile
from pathlib import Path

sys.path.insert(0, str(Path(__file__).resolve().parents[1] / "bench"))
from explained import BREAK, FILE, LIMIT, STORIES, is_short, new_file, run
from lib.program import PROGRAM, WINDOWS
from migrated_files import TABLES, write_file
from stock_sqlite import SPOILED, changed

MOVED = "refused its tables have other root pages, as after a VACUUM\n"

# Changes by hand of a moved file, after which a register has no row that can be read, or lacks a part.
CHANGES = [
    "DROP TABLE wait", "DROP TABLE version", "DROP TABLE next_routing", "ALTER TABLE lrn RENAME COLUMN spid TO owner",
    "ALTER TABLE version2 DROP COLUMN due", "INSERT INTO clock VALUES (0, 100, 3, 60, 60, 30, 120, 1000, 60, 60, 500, 15)",
    "DELETE FROM clock2", "DELETE FROM window_set", "UPDATE clock2 SET present = 2",
]


def vacuumed(file, moved):
    shutil.copy(file, moved)
    database = sqlite3.connect(moved, isolation_level=None)
    database.execute("VACUUM")
    database.close()


def reloaded(file, moved):
    with tempfile.TemporaryDirectory() as folder:
        database = sqlite3.connect(shutil.copy(file, folder))
        texts = list(database.iterdump())
        database.close()
    database = sqlite3.connect(moved)
    database.executescript("\n".join(texts))
    database.close()


MOVES = (vacuumed, reloaded)


def rows_of(file):
    """Returns the rows of each table, of a copy that stock SQLite finds whole."""
    with tempfile.TemporaryDirectory() as folder:
        database = sqlite3.connect(shutil.copy(file, folder))
        assert database.execute("PRAGMA integrity_check").fetchall() == [("ok",)]
        found = {table: sorted(database.execute(f"SELECT * FROM {table}"), key=repr) for table in TABLES}
        database.close()
    return found


def show(file):
    """Returns what the program shows of a file: its summary, and everything in force."""
    return run("check", "--db", file), run("export", "--present-windows", "--db", file)


def left_of(new):
    return [name for name in (new, f"{new}-wal", f"{new}.part", f"{new}.part-wal") if os.path.exists(name)]


def is_repaired(file, moved, folder):
    """Returns whether a moved file is refused, and the repaired one has each row of the file from before it was moved."""
    new, before = os.path.join(folder, "new.db"), Path(moved).read_bytes()
    if run("check", "--db", moved) != (3, MOVED, "npacd: storage\n"):
        return False
    summary = run("check", "--db", file)[1].rpartition("rows ")[0]
    told = run("repair", "--db", moved, "--to", new)
    well = told == (0, summary, "") and left_of(new) == [new] and Path(moved).read_bytes() == before
    well = well and rows_of(new) == rows_of(file) and show(new) == show(file)
    well = well and run("repair", "--db", moved, "--to", new) == (3, "", "npacd: write\n")
    for name in left_of(new):
        os.remove(name)
    return well


def is_refused(moved, folder, reports=("npacd: storage\n",)):
    """Returns whether a repair ends with a fault, without a new file, and leaves the moved one as it was."""
    new, path = os.path.join(folder, "refused.db"), Path(moved)
    before = path.read_bytes() if path.is_file() else None
    status, text, report = run("repair", "--db", moved, "--to", new)
    after = path.read_bytes() if path.is_file() else None
    return (status, text) == (3, "") and report in reports and not left_of(new) and after == before


def moved_by(moves, name, file, folder):
    """Returns whether a file is repaired after each of these ways of moving it."""
    found = {}
    for move in moves:
        moved = os.path.join(folder, "moved.db")
        move(file, moved)
        found[f"{name} {move.__name__}"] = is_repaired(file, moved, folder)
        for left in (moved, f"{moved}-wal"):
            Path(left).unlink(missing_ok=True)
    return found


def played(folder):
    """Repairs the files that short stories leave, each moved in one of the ways by turns."""
    found = {}
    for turn, story in enumerate(sorted(each for each in STORIES.iterdir() if is_short(each))):
        file = os.path.join(folder, "story.db")
        for text in story.read_bytes().split(BREAK):
            if not text.startswith(FILE):
                words = [PROGRAM, "feed", "--windows", WINDOWS, "--db", file]
                subprocess.run(words, input=text, capture_output=True, timeout=LIMIT, check=False)
        found |= moved_by(MOVES[turn % 2:][:1], f"story {story.name}", file, folder)
        for left in (file, f"{file}-wal"):
            Path(left).unlink(missing_ok=True)
    return found


def spoiled(moved, folder):
    """Tests values that are not of their column's type, and parts that are missing."""
    found = {}
    for table, columns in SPOILED.items():
        for column, values in columns.items():
            for value in values:
                if table not in ("version", "clock"):
                    change = f"UPDATE {table} SET {column} = {value!r} WHERE rowid = (SELECT max(rowid) FROM {table})"
                    found[change] = is_refused(changed(moved, folder, change), folder)
    return found | {change: is_refused(changed(moved, folder, change), folder) for change in CHANGES}


def others(folder):
    """Tests files that are no registers of the present format."""
    earlier, plain, empty = (os.path.join(folder, name) for name in ("earlier.db", "plain.db", "empty.db"))
    write_file(earlier, "sending")
    Path(plain).write_text("this is not a database\n", encoding="utf-8")
    Path(empty).touch()
    none = os.path.join(folder, "none.db")
    found = {file: is_refused(file, folder) for file in (earlier, plain, empty, none, folder)}
    return found | {"no file is made": not os.path.exists(none), "no folder": run("repair", "--db", plain, "--to", "/none/new.db")[0] == 3}


def found_in_all():
    with tempfile.TemporaryDirectory() as folder:
        file, moved = new_file(folder), os.path.join(folder, "vacuumed.db")
        vacuumed(file, moved)
        found = moved_by(MOVES, "port and block", file, folder) | spoiled(moved, folder) | others(folder) | played(folder)
        # A file whose tables are in their places is copied too.
        found["not moved"] = run("repair", "--db", file, "--to", moved + "2")[0] == 0 and rows_of(moved + "2") == rows_of(file)
    return found


def main():
    if not os.path.isfile(PROGRAM):
        sys.exit(f"{PROGRAM} is not there: build it first")
    found = found_in_all()
    wrong = [what for what, well in found.items() if not well]
    print(*wrong, f"repairs: {len(found) - len(wrong)} as expected, {len(wrong)} others", sep="\n")
    sys.exit(1 if wrong else 0)


if __name__ == "__main__":
    main()
