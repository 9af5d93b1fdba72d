#!/usr/bin/env python3
"""Tests a register's file with stock SQLite, and the program with files that were changed by hand.

    tests/stock_sqlite.py      (build first: cd crates/npacd && rt run -- --help)

The expected rows are worked out from docs/RULES.md and docs/FILES.md for the messages below. A file with a value of no type, a key of
nothing, another schema or other windows is refused, and each byte of it stays. The last values of a type are accepted. A call changes the
rows of the subjects that it reads, and no other. tests/migrated_files.py tests files in older formats. The gate runs it after `rt ci`, which
leaves the program that it has proved and run.
"""
import os
import shutil
import sqlite3
import subprocess
import sys
import tempfile
from pathlib import Path

sys.path.insert(0, str(Path(__file__).resolve().parents[1] / "bench"))
from lib.messages import answer, clock, message, opened, question, registered
from lib.program import PROGRAM, WINDOWS

# The bytes of a page.
PAGE = 4096
TN, LRN = "2025331234", "2025440000"
PARTIES = f'"new":"AAAA","old":"BBBB","tn":"{TN}"'

# A port that is activated at minute 100, and whose number is then routed without a carrier code, which nobody has acknowledged;
# and a block that its donor, who uses one of its numbers, gave to the pool, which nobody has acknowledged.
MESSAGES = [
    ("NPAC", "/carriers", '{"spid":"AAAA"}'),
    ("NPAC", "/carriers", '{"spid":"BBBB"}'),
    ("AAAA", "/lrns", f'{{"lrn":"{LRN}"}}'),
    ("BBBB", "/lrns", '{"lrn":"2025330000"}'),
    ("NPAC", "/codes", '{"code":"202533","spid":"BBBB"}'),
    ("AAAA", "/subscriptionVersionNewSP-Create", f'{{"cic":"0288","due":60,"lrn":"{LRN}",{PARTIES}}}'),
    ("BBBB", "/subscriptionVersionOldSP-Create", f'{{"authorized":true,"due":60,{PARTIES}}}'),
    ("NPAC", "/clock", '{"minute":100}'),
    ("AAAA", "/subscriptionVersionActivate", '{"id":1}'),
    ("AAAA", "/downloads/acknowledge", '{"attempt":1,"id":1}'),
    ("BBBB", "/downloads/acknowledge", '{"attempt":1,"id":1}'),
    ("AAAA", "/subscriptionVersionModify", f'{{"id":1,"lrn":"{LRN}"}}'),
    ("BBBB", "/blocks/donate", '{"block":"2025337","lrn":"2025330000","used":["001"]}'),
]

# How many rows each table has then: versions of the port, and of the one number of the block that is in use. The tables of an older
# format have none.
COUNTS = {
    "carrier": 2, "lrn": 2, "code": 1, "block": 1, "version": 0, "broadcast": 2, "wait": 4, "clock": 0, "next_routing": 1,
    "window_set": 1, "version2": 2, "clock2": 1,
}

# One look-up of each table, and the queries that docs/FILES.md gives an operator.
QUERIES = [
    ("SELECT count(*) FROM carrier WHERE spid = 'AAAA'", [(1,)]),
    ("SELECT spid FROM lrn WHERE lrn = 2025440000", [("AAAA",)]),
    ("SELECT spid FROM code WHERE code = 202533", [("BBBB",)]),
    ("SELECT donor, last FROM block WHERE block = 2025337", [("BBBB", None)]),
    ("SELECT old, new, due, lrn, cic, status, sends, since, attempt, opens, holds, held FROM version2 WHERE id = 1",
     [("BBBB", "AAAA", 60, 2025440000, 288, "sending", "modify", 100, 2, -2, 2025331234, 1)]),
    ("SELECT lrn, cic FROM next_routing WHERE id = 1", [(2025440000, None)]),
    ("SELECT minute, subject, action, lrn, cic, open, any FROM broadcast WHERE id = 1 AND attempt = 2",
     [(100, 2025331234, "modify", 2025440000, None, 1, 0)]),
    ("SELECT spid FROM wait WHERE id = 1 ORDER BY spid", [("AAAA",), ("BBBB",)]),
    ("SELECT now, next_id, present FROM clock2 WHERE one = 0", [(100, 3, 1)]),
    ("SELECT pending_retention, broadcast FROM window_set WHERE number = 1", [(500, 15)]),
    ("SELECT printf('%010d', lrn), iif(cic IS NULL, '', printf('%04d', cic)) FROM version2 WHERE holds = 2025331234",
     [("2025440000", "0288")]),
    ("SELECT minute, id, attempt, subject FROM wait WHERE spid = 'AAAA' ORDER BY minute, id, attempt",
     [(100, 1, 2, 2025331234), (100, 2, 1, 2025337001)]),
]

# Values that are not of their column's type.
SPOILED = {
    "carrier": {"spid": ["AB1", "AAAAA", "aaaa", ""]},
    "lrn": {"lrn": [-1, 10**10], "spid": ["A", "AAAAA"]},
    "code": {"code": [-1, 10**6, 102_533, 202_133], "spid": ["A", "bbbb"]},
    "block": {"block": [-1, 10**7, 1_025_337, 2_021_337], "donor": ["A", "BBBBB"], "last": [-1]},
    "version2": {
        "id": [-1], "subject": [5], "old": ["A", "BBBBB"], "new": ["A", "aaaa"], "due": [-1, 2**40], "lrn": [10**10], "cic": [10_000, -1],
        "old_at": [-1], "new_at": [-1], "status": ["gone", ""], "sends": ["update"], "since": [-1], "attempt": [-1],
        "spent": [2], "protective": [2], "deadline": [-1], "holds": [5, -7], "opens": [5, -7], "held": [0, 1_001],
    },
    "broadcast": {
        "id": [-1], "attempt": [-1], "minute": [-1], "subject": [5, 1_025_331_234], "action": ["none"], "lrn": [10**10], "cic": [10_000],
        "open": [2], "any": [2],
    },
    "wait": {"spid": ["A", "aaaa"], "minute": [-1], "id": [-1], "attempt": [-1], "subject": [5, 1_025_337_001]},
    "next_routing": {"id": [-1], "lrn": [10**10], "cic": [10_000]},
    "window_set": {"number": [0, 1_001]},
    "clock2": {"one": [-1, 1], "now": [-1, 2**40], "next_id": [-1], "present": [0, 1_001]},
}

# Changes by hand that are refused: values of no type in several columns, or not in the first row; keys of another subject, or of the code
# for no subject; a missing clock or set of windows.
CHANGES = [
    "UPDATE version2 SET subject = 1025331234, holds = 1025331234 WHERE id = 1",
    "UPDATE version2 SET holds = 2025331235 WHERE id = 1",
    "UPDATE version2 SET holds = -1 WHERE id = 1",
    "UPDATE version2 SET holds = -7 WHERE id = 2",
    "UPDATE version2 SET opens = 2025337009 WHERE id = 2",
    "UPDATE version2 SET sends = 'update' WHERE id = 2",
    "UPDATE broadcast SET action = 'none' WHERE id = 2",
    "UPDATE broadcast SET cic = 10000 WHERE id = 2",
    "UPDATE broadcast SET subject = 1025331234 WHERE id = 2",
    "UPDATE wait SET subject = 1025337001 WHERE id = 2",
    "UPDATE window_set SET number = 2",
    "UPDATE clock2 SET present = 2",
    "DELETE FROM window_set",
    "DELETE FROM clock2",
]

# Changes by hand that are accepted: values that the program does not judge, as docs/FILES.md says, since a version in another status would
# have them; the last values of a type; the key of a version that is not in force.
TAKEN = [
    "UPDATE version2 SET release = -1 WHERE id = 1",
    "UPDATE version2 SET cancelled_by = 'both' WHERE id = 1",
    "UPDATE carrier SET spid = 'ZZ99' WHERE spid = 'AAAA'",
    "UPDATE version2 SET deadline = 0 WHERE id = 1",
    "UPDATE version2 SET due = 1099511627775 WHERE id = 1",
    "UPDATE version2 SET cic = 9999 WHERE id = 1",
    "UPDATE clock2 SET now = 1099511627775",
    "UPDATE window_set SET broadcast = 1",
    "UPDATE window_set SET pending_retention = 525600",
    "UPDATE version2 SET held = 1000 WHERE id = 1",
    "UPDATE next_routing SET cic = 9999",
    "UPDATE version2 SET holds = -1 - id WHERE id = 1",
]

# A change that the schema itself excludes.
EXCLUDED = "UPDATE version2 SET holds = NULL WHERE id = 1"

# Parts of the schema, and what replaces each: a column of another type or with another rule, and one column more.
EDITS = [
    ("donor TEXT NOT NULL", "donor BLOB NOT NULL"),
    ("due INTEGER NOT NULL", "due ANY NOT NULL"),
    ("status TEXT NOT NULL", "status TEXT"),
    ("sends TEXT NOT NULL", "sends TEXT NOT NULL DEFAULT 'none'"),
    ("donor TEXT NOT NULL", "donor TEXT NOT NULL COLLATE NOCASE"),
    ("since INTEGER NOT NULL", "since INTEGER NOT NULL, more INTEGER"),
    ("held INTEGER NOT NULL", "held INTEGER"),
    ("present INTEGER NOT NULL", "present ANY NOT NULL"),
]

# Other schemas, and a row in a table of an older format.
SCHEMAS = [
    "CREATE TABLE more (one INTEGER PRIMARY KEY) STRICT",
    "ALTER TABLE carrier ADD COLUMN name TEXT",
    "DROP INDEX version_deadline",
    "DROP INDEX version2_deadline",
    "CREATE INDEX more ON version2 (old)",
    "CREATE VIEW more AS SELECT spid FROM carrier",
    "DROP TABLE wait",
    "DROP TABLE next_routing",
    "INSERT INTO clock VALUES (0, 100, 3, 60, 60, 30, 120, 1000, 60, 60, 500, 15)",
    "INSERT INTO version SELECT id, subject, old, new, due, lrn, cic, old_at, new_at, status, sends, since, attempt, release, spent, "
    "protective, cancelled_by, deadline, holds, opens FROM version2",
]

# A thousand numbers, whose creates by the old provider end at minute 120 if the new provider sends none.
LINES = range(1000, 2000)
CANCELED = (
    '{{"attempt":0,"cic":null,"due":300,"id":{id},"lrn":null,"new":"AAAA","old":"BBBB","phase":null,"release":null,"since":120,'
    '"status":"canceled","subject":"202533{line}"}}'
)

# The columns of a version.
VERSION = (
    "id", "subject", "old", "new", "due", "lrn", "cic", "old_at", "new_at", "status", "sends", "since", "attempt", "release", "spent",
    "protective", "cancelled_by", "deadline", "holds", "opens", "held",
)

# Messages after that minute has come, the body of each answer, and what changes: the versions that end, and whether a carrier comes.
STEPS = [
    (message("AAAA", "/query", '{"uri":"tel:+12025339999"}'), '{"uri":"tel:+12025339999;npdi"}', range(0), False),
    (question("AAAA", "/versions/1"), CANCELED.format(id=1, line=1000), range(1, 2), False),
    (clock(119), '{"error":"clock_back","number":27}', range(0), False),
    (clock(120), '{"now":120}', range(0), False),
    (question("AAAA", "/downloads/10"), '{"downloads":[]}', range(2, 1001), False),
    (registered("CCCC"), '{"rows":[],"spid":"CCCC"}', range(0), True),
]


def run(file, text="", windows=WINDOWS):
    """Returns the exit status and the report of a feed over the file."""
    words = [PROGRAM, "feed", "--windows", windows, "--db", file]
    ran = subprocess.run(words, input=text.encode(), capture_output=True, check=False)
    return ran.returncode, ran.stderr.decode().strip(), ran.stdout


def changed(original, folder, statement, *values):
    """Returns a copy of the file in which a statement was executed by hand."""
    file = os.path.join(folder, "changed.db")
    shutil.copy(original, file)
    database = sqlite3.connect(file, isolation_level=None)
    database.execute("PRAGMA journal_mode = DELETE")
    database.execute(statement, values)
    database.close()
    return file


def is_kept(file, was):
    """Returns whether a file still has these bytes, and its log no page."""
    log = Path(file + "-wal")
    return Path(file).read_bytes() == was and (not log.exists() or log.stat().st_size < PAGE)


def is_refused(file, fault="npacd: storage", status=3, windows=WINDOWS):
    """Returns whether the program refuses the file with this fault, and leaves it as it was."""
    was = Path(file).read_bytes()
    return run(file, windows=windows)[:2] == (status, fault) and is_kept(file, was)


def is_bad(file):
    """Returns whether the program refuses the file when it opens it and when it checks it, and leaves it as it was."""
    was = Path(file).read_bytes()
    ran = subprocess.run([PROGRAM, "check", "--db", file], capture_output=True, check=False)
    is_seen = (ran.returncode, ran.stderr) == (3, b"npacd: storage\n") and ran.stdout.startswith(b"refused ")
    return is_seen and is_kept(file, was) and is_refused(file)


def is_taken(file):
    """Returns whether the program opens the file, and each row stays."""
    words = [PROGRAM, "feed", "--present-windows", "--db", file]
    was = rows_of(file)
    ran = subprocess.run(words, input=b"", capture_output=True, check=False)
    return (ran.returncode, ran.stdout, ran.stderr) == (0, b"", b"") and rows_of(file) == was


def with_windows(folder):
    """Writes a file of windows with another one for broadcasts."""
    other = os.path.join(folder, "other.toml")
    lines = Path(WINDOWS).read_text(encoding="utf-8").splitlines()
    Path(other).write_text("\n".join("broadcast = 61" if line.startswith("broadcast") else line for line in lines) + "\n", encoding="utf-8")
    return other


def tables_of(file):
    """Returns the statements that make the tables and indexes."""
    database = sqlite3.connect(file)
    texts = [text for text, in database.execute("SELECT sql FROM sqlite_schema WHERE sql IS NOT NULL")]
    database.close()
    return texts


def rows_of(file):
    """Returns the rows of each table."""
    database = sqlite3.connect(file)
    rows = {table: sorted(database.execute(f"SELECT * FROM {table}").fetchall(), key=repr) for table in COUNTS}
    database.close()
    return rows


def check_rows(file):
    database = sqlite3.connect(file)
    ask = lambda query: database.execute(query).fetchall()
    found = {f"rows of {table}": ask(f"SELECT count(*) FROM {table}") == [(count,)] for table, count in COUNTS.items()}
    found |= {query: ask(query) == wanted for query, wanted in QUERIES}
    found["integrity"] = ask("PRAGMA integrity_check") == [("ok",)]
    database.close()
    return found


def windows_of(file):
    """Returns the columns of a set that have windows."""
    database = sqlite3.connect(file)
    names = [row[1] for row in database.execute("PRAGMA table_info(window_set)")]
    database.close()
    return names[1:]


def with_value(file, folder, table, column, value):
    """Returns a copy of the file in which the first row of the table was given this value by hand."""
    first = f"rowid = (SELECT min(rowid) FROM {table})"
    return changed(file, folder, f"UPDATE OR REPLACE {table} SET {column} = ? WHERE {first}", value)


def spoiled_values(file):
    windows = {name: [0, 525_601] for name in windows_of(file)}
    for table, columns in (SPOILED | {"window_set": SPOILED["window_set"] | windows}).items():
        for column, values in columns.items():
            yield from ((table, column, value) for value in values)


def is_excluded(file, folder):
    """Returns whether the schema itself excludes a change."""
    try:
        changed(file, folder, EXCLUDED)
    except sqlite3.IntegrityError:
        return True
    return False


def with_schema(folder, statements):
    """Writes a new file with these tables and indexes, with pages and a log as the program's files have them."""
    file = os.path.join(folder, "schema.db")
    Path(file).unlink(missing_ok=True)
    database = sqlite3.connect(file, isolation_level=None)
    database.execute(f"PRAGMA page_size = {PAGE}")
    database.execute("PRAGMA journal_mode = WAL")
    database.executescript(statements)
    database.close()
    return file


def schemas(folder):
    """Tests new files: an empty one, of which a store is made, and those with an edited schema."""
    new = os.path.join(folder, "new.db")
    Path(new).touch()
    found = {"empty": is_made_a_store(new)}
    statements = ";\n".join(tables_of(new))
    found["the schema as it is"] = run(with_schema(folder, statements)) == (0, "", b"")
    for old, new_text in EDITS:
        found[new_text] = old in statements and is_bad(with_schema(folder, statements.replace(old, new_text)))
    return found


def is_made_a_store(file):
    """Returns whether an empty file is refused by a check, which makes no table, is made a store without rows, and then is one."""
    check, feed = [PROGRAM, "check", "--db", file], [PROGRAM, "feed", "--windows", WINDOWS, "--db", file, "--existing"]
    refused = subprocess.run(check, capture_output=True, check=False)
    is_bare = refused.returncode == 3 and not tables_of(file)
    is_made, was = run(file) == (0, "", b""), rows_of(file)
    again = subprocess.run(feed, input=b"", capture_output=True, check=False)
    is_one = (again.returncode, again.stderr) == (0, b"") and rows_of(file) == was
    return is_bare and is_made and is_one and not any(was[table] for table in ("carrier", "lrn", "code", "block", "version2"))


def settled_step(file, number):
    """Returns whether a step is answered as expected, and changes the rows that it should, and no other."""
    text, body, ended, is_newcomer = STEPS[number]
    was, before = rows_of(file), Path(file).read_bytes()
    status, report, answers = run(file, text)
    is_same = bool(ended) or is_newcomer or is_kept(file, before)
    wanted = {table: list(rows) for table, rows in was.items()}
    wanted["version2"] = [ended_row(row) if row[0] in ended else row for row in was["version2"]]
    if is_newcomer:
        wanted["carrier"].append(("CCCC",))
    is_answered = (status, report) == (0, "") and answers.endswith(f"\r\n\r\n{body}".encode()) and answers.count(b"HTTP/1.1 ") == 1
    return is_answered and is_same and rows_of(file) == {table: sorted(rows, key=repr) for table, rows in wanted.items()}


def ended_row(row):
    """Returns the row of a version after its windows have ended at 120: it is canceled, neither in force nor open, and never due."""
    found = dict(zip(VERSION, row)) | {"status": "canceled", "since": 120, "deadline": None, "opens": -1 - row[0]}
    return tuple(found.values())


def settled(folder):
    """Tests that a call settles the subjects that it reads, and no other."""
    file = os.path.join(folder, "settled.db")
    body = '{{"authorized":true,"due":300,"new":"AAAA","old":"BBBB","tn":"202533{line}"}}'
    creates = (message("BBBB", "/subscriptionVersionOldSP-Create", body.format(line=line)) for line in LINES)
    status, report, answers = run(file, registered("AAAA") + registered("BBBB") + opened("202533", "BBBB") + "".join(creates) + clock(120))
    found = {"a thousand creates": (status, report, answers.count(b"HTTP/1.1 200 ")) == (0, "", len(LINES) + 4)}
    return found | {f"what is settled, {number}": settled_step(file, number) for number in range(len(STEPS))}


def found_in_all():
    with tempfile.TemporaryDirectory() as folder:
        file = os.path.join(folder, "register.db")
        status, report, answers = run(file, "".join(message(*it) for it in MESSAGES))
        assert (status, report, answers.count(b"HTTP/1.1 200 ")) == (0, "", len(MESSAGES)), (status, report, answers)
        found = check_rows(file)
        found |= {what: is_bad(with_value(file, folder, *what)) for what in spoiled_values(file)}
        found |= {change: is_bad(changed(file, folder, change)) for change in CHANGES + SCHEMAS}
        found |= {change: is_taken(changed(file, folder, change)) for change in TAKEN}
        found |= {"excluded": is_excluded(file, folder)} | schemas(folder) | settled(folder)
        found["other windows"] = is_refused(file, "npacd: windows_differ", 1, with_windows(folder))
        asked = run(file, message("AAAA", "/query", f'{{"uri":"tel:+1{TN}"}}'))
        found["its own windows"] = asked == (0, "", answer(f'{{"uri":"tel:+1{TN};cic=+10288;npdi;rn=+1{LRN}"}}').encode())
    return found


def main():
    if not os.path.isfile(PROGRAM):
        sys.exit(f"{PROGRAM} is not there: build it first")
    found = found_in_all()
    wrong = [str(what) for what, well in found.items() if not well]
    print(*wrong, f"spoiled files, by stock SQLite: {len(found) - len(wrong)} as expected, {len(wrong)} others", sep="\n")
    sys.exit(1 if wrong else 0)


if __name__ == "__main__":
    main()
