#!/usr/bin/env python3
"""Tests the words for a refusal: each mistake is made on purpose, with stock SQLite where it is one of a database.

    tests/explained.py      (build first: cd crates/npacd && rt run -- --help)

`npacd check` writes why a file is refused, and --explain appends what a fault is about. No clause knows what lies at a path, so this is
where the words are tested. The gate runs it after `rt ci`, which leaves the program that it has proved and run.
"""
import os
import re
import shutil
import signal
import sqlite3
import subprocess
import sys
import tempfile
import time
from pathlib import Path

sys.path.insert(0, str(Path(__file__).resolve().parents[1] / "bench"))
from lib.messages import message
from lib.program import PROGRAM, WINDOWS, serving
from migrated_files import write_file
from stock_sqlite import MESSAGES, changed

# The stories, as bytes: byte 30 is between connections, and byte 29 begins a file of commands in place of one.
STORIES = Path(__file__).resolve().parents[1] / "crates/stories/data"
BREAK, FILE = b"\x1e", b"\x1d"

# After this many seconds a command counts as endless.
LIMIT = 60
NOBODY = 65534

# How many versions of an earlier format are migrated, in more than 0.3 s, and at most how many rows the other tables have.
VERSIONS, OTHER_ROWS = 40_000, 10

# What the file of `MESSAGES` holds: nothing is due before minute 115.
SUMMARY = "minute 100\nset 1\nnext_id 3\ncarriers 2\ndue none\nrows sound\n"
DUE = SUMMARY.replace("100", "115").replace("none", "1")

MISSING = "there is no such file or folder"
MAY_NOT = "this user may not read and write it"
DAMAGED = "it is damaged, or the log beside it is damaged or another file's"
IN_USE = "another program has it open"

# Changes by hand, and the words for them.
CHANGES = {
    "VACUUM": "its tables have other root pages, as after a VACUUM",
    "CREATE TABLE more (one INTEGER PRIMARY KEY) STRICT": "the table more is not a register's",
    "DROP TABLE wait": "the table wait is missing",
    "ALTER TABLE carrier ADD COLUMN name TEXT": "the column carrier.name is not a register's",
    "ALTER TABLE lrn RENAME COLUMN spid TO owner": "the column lrn.spid is missing",
    "DROP INDEX wait_subject": "the index wait_subject is missing",
    "CREATE INDEX more ON version2 (old)": "the index more is not a register's",
    "CREATE TRIGGER more AFTER INSERT ON lrn BEGIN SELECT 1; END": "the view, trigger or table more is not a register's",
    "CREATE VIEW more AS SELECT 1": "the view, trigger or table more is not a register's",
    "UPDATE carrier SET spid = 'AB1' WHERE spid = 'AAAA'": "the row AB1 of the table carrier cannot be read",
    "UPDATE version2 SET status = 'gone' WHERE id = 2": "the row 2 of the table version2 cannot be read",
    "UPDATE wait SET minute = -1 WHERE spid = 'BBBB'": "the row BBBB of the table wait cannot be read",
    "UPDATE clock2 SET one = 1": "the row 1 of the table clock2 cannot be read",
    "INSERT INTO clock VALUES (0, 100, 3, 60, 60, 30, 120, 1000, 60, 60, 500, 15)": "the table clock of an earlier format has a row",
    "DELETE FROM clock2": "the table clock2 has no row",
    "DELETE FROM window_set": "the table window_set has no row for the present set",
}

# Changes by hand that leave rows which can be read, and the words for their first flaw. Version 1 has sent a modify, which is pending,
# and version 2 a create, each at minute 100. That a subject has two versions in force or two open, the file's schema excludes.
FLAWS = {
    "DELETE FROM version2 WHERE id = 2": "version 2 is missing",
    "UPDATE version2 SET id = 0, holds = -1 WHERE id = 2": "version 0 has an id that none has yet",
    "UPDATE clock2 SET next_id = 2": "version 2 has an id that none has yet",
    "UPDATE version2 SET held = 2 WHERE id = 1": "version 1 holds a set of windows that is missing",
    "UPDATE version2 SET since = 101 WHERE id = 1": "version 1 entered its status after the minute",
    "UPDATE version2 SET deadline = 114 WHERE id = 1": "version 1 has another deadline than by its windows",
    "UPDATE version2 SET deadline = NULL WHERE id = 1": "version 1 has another deadline than by its windows",
    "UPDATE version2 SET holds = -2 WHERE id = 1": "version 1 has a wrong value in holds",
    "UPDATE version2 SET opens = 2025331234 WHERE id = 1": "version 1 has a wrong value in opens",
    "UPDATE version2 SET opens = -3 WHERE id = 2": "version 2 has a wrong value in opens",
    "DELETE FROM broadcast WHERE id = 1": "version 1 is sending without its broadcast",
    "UPDATE broadcast SET open = 0 WHERE id = 1": "version 1 is sending without its broadcast",
    "UPDATE broadcast SET minute = 99 WHERE id = 1": "version 1 is sending without its broadcast",
    "UPDATE broadcast SET action = 'create' WHERE id = 1": "version 1 is sending without its broadcast",
    "UPDATE broadcast SET subject = 2025331235 WHERE id = 1": "version 1 is sending without its broadcast",
    "UPDATE version2 SET subject = 2025337, status = 'old', sends = 'none', deadline = NULL, opens = -3 WHERE id = 2":
        "version 2 is not under its block",
    "UPDATE wait SET minute = 99 WHERE spid = 'AAAA' AND id = 1": "attempt 2 of version 1 is pending for AAAA, but was not sent so",
    "UPDATE wait SET attempt = 3 WHERE spid = 'AAAA' AND id = 1": "attempt 3 of version 1 is pending for AAAA, but was not sent so",
    "UPDATE wait SET subject = 2025331235 WHERE spid = 'BBBB' AND id = 1": "attempt 2 of version 1 is pending for BBBB, but was not sent so",
}

# Windows files that are refused: the fault, and the words for it.
WINDOWS_FILES = {
    "a = [": ("syntax", "it is not TOML in UTF-8"),
    "broadcast = 15\n": ("missing_key", "one of the nine windows is missing"),
}

# Rows that are no request, and the words for them. A spreadsheet dropped the zero of the first.
HEADER = "caller,action,subject,old,new,due,lrn,cic,flag\n"
ACTIVATE = "subscriptionVersionActivate,2025331234"
NEW, OLD = "subscriptionVersionNewSP-Create,2025331234", "subscriptionVersionOldSP-Create,2025331234"
LETTERS = "four capital letters or digits are expected"
MINUTE = "a minute is expected, in digits without leading zeros"
NUMBERS = "a number is expected, of ten digits, the first and the fourth 2 to 9, or a range of one code"
NOTHING = "nothing is expected here of this action"
ROWS = {
    f"BBBB,{NEW},AAAA,BBBB,200,2025330000,288,": "cic is 288: four digits are expected, or nothing",
    f"AAAA,{ACTIVATE},,,,,": "fields are 8: 9 are expected",
    f"aaaa,{ACTIVATE},,,,,,": f"caller is aaaa: {LETTERS}",
    f",{ACTIVATE},,,,,,": f"caller is empty: {LETTERS}",
    "AAAA,Activate,2025331234,,,,,,": "action is Activate: an action is expected, as subscriptionVersionActivate",
    "AAAA,subscriptionVersionActivate,1025331234,,,,,,": f"subject is 1025331234: {NUMBERS}",
    "AAAA,subscriptionVersionActivate,2025330000-2025331000,,,,,,": f"subject is 2025330000-2025331000: {NUMBERS}",
    f"AAAA,{ACTIVATE},AAAA,,,,,": f"old is AAAA: {NOTHING}",
    f"AAAA,{ACTIVATE},,BBBB,,,,": f"new is BBBB: {NOTHING}",
    f"AAAA,{ACTIVATE},,,200,,,": f"due is 200: {NOTHING}",
    f"AAAA,{ACTIVATE},,,,2025330000,,": f"lrn is 2025330000: {NOTHING}",
    f"AAAA,{ACTIVATE},,,,,0288,": f"cic is 0288: {NOTHING}",
    f"AAAA,{ACTIVATE},,,,,,yes": f"flag is yes: {NOTHING}",
    f"AAAA,{OLD},,BBBB,200,,,yes": f"old is empty: {LETTERS}",
    f"AAAA,{OLD},AAAA,BBB,200,,,yes": f"new is BBB: {LETTERS}",
    f"AAAA,{OLD},AAAA,BBBB,0200,,,yes": f"due is 0200: {MINUTE}",
    f"AAAA,{OLD},AAAA,BBBB,200,,,Yes": "flag is Yes: yes or no is expected",
    f"BBBB,{NEW},AAAA,BBBB,200,25330000,0288,": "lrn is 25330000: ten digits are expected",
    "AAAA,subscriptionVersionDisconnect,2025331234,,,soon,,,": f"due is soon: {MINUTE}, or nothing",
    f"A\x01\u00e9~ ,{ACTIVATE},,,,,,": f"caller is A???~ : {LETTERS}",
    f"{'x' * 40},{ACTIVATE},,,,,,": f"caller is {'x' * 40}: {LETTERS}",
    f"{'x' * 41},{ACTIVATE},,,,,,": f"caller is {'x' * 40}...: {LETTERS}",
}
GOOD = f"AAAA,{ACTIVATE},,,,,,"
# The quote before the caller is never closed, so that the row takes in the one after it.
LOST = f'"AAAA,{ACTIVATE},,,,,,\n{GOOD}\n'
LOST_WORDS = ("fields are 1: 9 are expected", "a field has more than one line: a quote may be lost, and rows with it")

# Files that are refused as a whole: the fault, and the lines for it.
WHOLE = {"bad_header": "its first row is not the header", "bad_file": "a row is not an export's, or its subject is there twice"}
BULK_HEADERS = {
    "subject\n": "fields are 1: 9 are expected",
    HEADER.replace("flag", "flags"): "flag is flags: the name of the column is expected",
}
COPY_HEADERS = {
    "subject,lrn\n": "fields are 2: 3 are expected",
    "subject,lrn,CIC\n": "cic is CIC: the name of the column is expected",
}
COPY_ROWS = {
    "2025331234,2025330000\n": "row 2, line 3: fields are 2: 3 are expected",
    "2025331234,2025330000,288\n": "row 2, line 3: cic is 288: four digits are expected, or nothing",
    "2025331234,25330000,\n": "row 2, line 3: lrn is 25330000: ten digits are expected",
    "202533,2025330000,\n": "row 2, line 3: subject is 202533: "
    "a number of ten digits or a block of seven is expected, the first and the fourth 2 to 9",
    "2025339876,2025330000,\n": "the rows: the number 2025339876 is in two rows",
    "2025441,2025330000,\n2025441,2025330000,\n": "the rows: the block 2025441 is in two rows",
}


def run(*words, text="", **more):
    """Returns the exit status of a command line, its output and its report."""
    ran = subprocess.run([PROGRAM, *words], input=text, capture_output=True, text=True, timeout=LIMIT, check=False, **more)
    return ran.returncode, ran.stdout, ran.stderr


def is_summary(file, text):
    return run("check", "--db", file) == (0, text, "")


def is_flawed(file, words):
    """Returns whether `check` writes what the file holds, and then this flaw."""
    status, text, report = run("check", "--db", file)
    return (status, report) == (3, "npacd: storage\n") and text.startswith("minute 100\n") and text.endswith(f"\nrows {words}\n")


def is_refused(file, words, **more):
    """Returns whether `check` writes these words, and an export explains its fault with them."""
    checked = run("check", "--db", file, **more) == (3, f"refused {words}\n", "npacd: storage\n")
    line = ("export", "--windows", WINDOWS, "--existing", "--db", file, "--explain", "-")
    report = f"npacd: storage\nnpacd: storage: {file}: {words}\n"
    return checked and run(*line, **more) == (3, "", report)


def is_explained(folder, status, name, about, words, *line, text=""):
    """Returns whether a command line ends with a fault, and appends its explanation to a file."""
    why = os.path.join(folder, "why.txt")
    Path(why).write_text("before\n", encoding="utf-8")
    ran = run(*line, "--explain", why, text=text)
    written = Path(why).read_text(encoding="utf-8")
    return (ran[0], ran[2]) == (status, f"npacd: {name}\n") and written == f"before\nnpacd: {name}: {about}: {words}\n"


def lines_of(folder, status, name, *line, text):
    """Returns the lines that explain a command line, which ends with this fault, or `None` if it ends otherwise."""
    why = os.path.join(folder, "rows.txt")
    Path(why).unlink(missing_ok=True)
    plain, ran = run(*line, text=text), run(*line, "--explain", why, text=text)
    as_expected = ran == plain and (ran[0], ran[2]) == (status, f"npacd: {name}\n" if name else "")
    return Path(why).read_text(encoding="utf-8").splitlines() if as_expected else None


def rows(folder):
    """Tests the words for rows that are refused, and for files that are refused for a row."""
    found, bulk = {}, ("bulk", "--windows", WINDOWS)
    wanted = [f"npacd: bad_row: row {2 * place}, line {2 * place + 1}: {words}" for place, words in enumerate(ROWS.values(), start=1)]
    last = 2 * len(ROWS) + 1
    wanted += [f"npacd: bad_row: row {last}, line {last + 1}: {words}" for words in LOST_WORDS]
    text = HEADER + "".join(f"{GOOD}\n{row}\n" for row in ROWS) + LOST
    found["rows"] = lines_of(folder, 0, "", *bulk, text=text) == wanted
    wanted.append("npacd: rows_refused: standard input: a row was refused: the report says which")
    found["rows, strictly"] = lines_of(folder, 1, "rows_refused", *bulk, "--strict", text=text) == wanted
    for text, words in BULK_HEADERS.items():
        found[words] = is_whole_file(folder, "bad_header", f"the header: {words}", *bulk, text=text)
    return found


def is_whole_file(folder, name, words, *line, text):
    """Returns whether a file is refused for a row of it, and as a whole."""
    wanted = [f"npacd: {name}: {words}", f"npacd: {name}: standard input: {WHOLE[name]}"]
    return lines_of(folder, 1, name, *line, text=text) == wanted


def copies(folder, file):
    """Tests the words for copies that an audit refuses."""
    found, audit = {}, ("audit", "--spid", "AAAA", "--windows", WINDOWS, "--db", file)
    for text, words in COPY_HEADERS.items():
        found[words] = is_whole_file(folder, "bad_header", f"the header: {words}", *audit, text=text)
    for text, words in COPY_ROWS.items():
        text = "subject,lrn,cic\n2025339876,2025330000,0288\n" + text
        found[words] = is_whole_file(folder, "bad_file", words, *audit, text=text)
    return found


def shows_progress():
    """Returns whether `--progress` writes the rows so far once a second has passed, and else nothing."""
    line = ("bulk", "--progress", "--windows", WINDOWS)
    quick = run(*line, text=HEADER + f"{GOOD}\n" * 1000)
    with subprocess.Popen([PROGRAM, *line], stdin=subprocess.PIPE, stdout=subprocess.DEVNULL, stderr=subprocess.PIPE, text=True) as slow:
        slow.stdin.write(HEADER + f"{GOOD}\n" * 2)
        slow.stdin.flush()
        time.sleep(1.5)
        shown = slow.communicate(f"{GOOD}\n" * 2, timeout=LIMIT)[1]
    with open("/dev/full", "w", encoding="ascii") as full:
        lost = subprocess.run([PROGRAM, *line], input=HEADER, stdout=subprocess.DEVNULL, stderr=full, text=True, timeout=LIMIT, check=False)
    return (quick[0], quick[2], slow.returncode, shown, lost.returncode) == (0, "", 0, "npacd: 3 rows\n", 0)


def write_many(file):
    """Writes a file in the first format with `VERSIONS` versions, all old."""
    write_file(file, "second-failed")
    database = sqlite3.connect(file)
    database.execute("DELETE FROM version")
    rows = ((number, -number - 1, -number - 1) for number in range(1, VERSIONS + 1))
    database.executemany(
        "INSERT INTO version VALUES (?, 2025337001, 'BBBB', 'BBBB', 0, 2025330000, NULL, NULL, NULL, 'old', 'none', 5, 1, NULL, 0, 1, NULL, NULL, ?, ?)",
        rows)
    database.execute(f"UPDATE clock SET next_id = {VERSIONS + 1}")
    database.commit()
    database.close()


def run_in_steps(*line):
    """How a command line ends that is stopped three times for more than a second, however fast it is, and what it writes."""
    with subprocess.Popen([PROGRAM, *line], stdin=subprocess.DEVNULL, stdout=subprocess.PIPE, stderr=subprocess.PIPE, text=True) as process:
        for _ in range(3):
            time.sleep(0.1)
            process.send_signal(signal.SIGSTOP)
            time.sleep(1.1)
            process.send_signal(signal.SIGCONT)
        text, shown = process.communicate(timeout=LIMIT)
    return process.returncode, text, shown


def shows_opening(folder):
    """Returns whether `--progress` shows the rows while a file is migrated, each version three times, and `feed` and `serve` take it."""
    file = os.path.join(folder, "many.db")
    write_many(file)
    status, text, shown = run_in_steps("feed", "--progress", "--windows", WINDOWS, "--db", file)
    counts = [int(count) for count in re.findall(r"npacd: (\d+) rows\n", shown)]
    is_rising = all(one < next_one for one, next_one in zip(counts, counts[1:]))
    is_counted = bool(counts) and is_rising and counts[-1] <= 3 * VERSIONS + OTHER_ROWS
    is_all = shown == "".join(f"npacd: {count} rows\n" for count in counts)
    quick = run("feed", "--progress", "--windows", WINDOWS)
    with serving("--progress"):
        return (status, text, quick) == (0, "", (0, "", "")) and is_counted and is_all


def new_file(folder):
    """Makes the file of `MESSAGES`, without a log."""
    file = os.path.join(folder, "register.db")
    text = "".join(message(*each) for each in MESSAGES)
    assert run("feed", "--windows", WINDOWS, "--db", file, text=text)[::2] == (0, "")
    return file


def changes(file, folder):
    return {change: is_refused(changed(file, folder, change), words) for change, words in CHANGES.items()}


def flaws(file, folder):
    return {change: is_flawed(changed(file, folder, change), words) for change, words in FLAWS.items()}


def is_short(story):
    """Returns whether a story has less than 100,000 bytes, and is no windows file."""
    return story.suffix != ".toml" and story.stat().st_size < 100_000


def is_played_soundly(story, folder):
    """Returns whether the rows are sound that a story leaves in a new file. Its files of commands are left out."""
    file = os.path.join(folder, f"{story.name}.db")
    for text in story.read_bytes().split(BREAK):
        if not text.startswith(FILE):
            words = [PROGRAM, "feed", "--windows", WINDOWS, "--db", file]
            subprocess.run(words, input=text, capture_output=True, timeout=LIMIT, check=False)
    status, text, report = run("check", "--db", file)
    return (status, report) == (0, "") and text.endswith("\nrows sound\n")


def played(folder):
    return {f"story {story.name}": is_played_soundly(story, folder) for story in sorted(STORIES.iterdir()) if is_short(story)}


def with_log(file, folder):
    """Returns a copy of the file beside the log of another file."""
    other, copy = os.path.join(folder, "other.db"), os.path.join(folder, "with-log.db")
    database = sqlite3.connect(other, isolation_level=None)
    database.execute("PRAGMA page_size = 4096")
    database.execute("PRAGMA journal_mode = WAL")
    database.execute("CREATE TABLE other (one INTEGER PRIMARY KEY) STRICT")
    shutil.copy(file, copy)
    shutil.copy(other + "-wal", copy + "-wal")
    database.close()
    return copy


def beside_others(file, folder):
    """Tests files that something else is beside, or that are no databases of this program."""
    linked, journal, logged = (os.path.join(folder, name) for name in ("linked.db", "journal.db", "logged.db"))
    earlier, plain, cut, empty = (os.path.join(folder, name) for name in ("earlier.db", "plain.db", "cut.db", "empty.db"))
    for copy in (linked, journal, logged):
        shutil.copy(file, copy)
    os.link(linked, linked + "-again")
    Path(journal + "-journal").write_text("x", encoding="utf-8")
    os.mkdir(logged + "-wal")
    write_file(earlier, "sending")
    Path(plain).write_text("this is not a database\n", encoding="utf-8")
    Path(cut).write_bytes(Path(file).read_bytes()[:6000])
    Path(empty).touch()
    return {
        "a hard link": is_refused(linked, "it has a second name, a hard link"),
        "a journal": is_refused(journal, "a journal lies beside it: open it with sqlite3 first"),
        "a folder for a log": is_refused(logged, "its log, with -wal after its name, cannot be opened or made"),
        # SQLite reads the pages of a log in place of the file's, so that the tables are those of the log.
        "another's log": is_refused(with_log(file, folder), "the table carrier is missing"),
        "an earlier format": run("check", "--db", earlier)[1]
        == "refused it has an earlier format, which a command with --windows migrates\n",
        "no database": is_refused(plain, "it is no SQLite database"),
        "half a file": is_refused(cut, DAMAGED),
        "an empty file": run("check", "--db", empty)[1] == "refused it is empty, or has no tables\n",
        "a folder": is_refused(folder, "it is a folder or a device"),
        "no file": is_refused(os.path.join(folder, "none.db"), MISSING) and not os.path.exists(os.path.join(folder, "none.db")),
        "no folder": is_refused(os.path.join(folder, "none", "none.db"), MISSING),
    }


def is_in_use(file):
    """Returns whether a file that a service has open is refused for that."""
    with serving("--db", file):
        return is_refused(file, IN_USE)


def is_forbidden(file):
    """Returns whether a file that its user may not write is refused for that, also where no copy of it can be made. Root may write each
    file: nobody tries it then."""
    as_nobody = {"user": NOBODY, "group": NOBODY, "extra_groups": []} if os.geteuid() == 0 else {}
    with tempfile.TemporaryDirectory() as folder:
        os.chmod(folder, 0o755)
        copy, program, windows = (os.path.join(folder, name) for name in ("register.db", "npacd", "w.toml"))
        for of, to in ((file, copy), (PROGRAM, program), (WINDOWS, windows)):
            shutil.copy(of, to)
        os.chmod(copy, 0o444)
        lines = (program, "check", "--db", copy), (program, "export", "--windows", windows, "--db", copy, "--snapshot", "--explain", "-")
        ran = [subprocess.run(line, capture_output=True, text=True, timeout=LIMIT, check=False, **as_nobody) for line in lines]
    return [(it.returncode, it.stdout, it.stderr) for it in ran] == [
        (3, f"refused {MAY_NOT}\n", "npacd: storage\n"),
        (3, "", f"npacd: write\nnpacd: write: {copy}: no copy of it can be made beside it\n"),
    ]


def is_copy_examined(file, folder):
    """Returns whether the copy is examined that was refused, and not the file, which another program has open."""
    changed_file = changed(file, folder, "CREATE VIEW more AS SELECT 1")
    other = sqlite3.connect(changed_file, isolation_level=None)
    other.execute("PRAGMA locking_mode = EXCLUSIVE")
    other.execute("BEGIN EXCLUSIVE")
    ran = run("export", "--windows", WINDOWS, "--db", changed_file, "--snapshot", "--explain", "-")
    other.close()
    words = "the view, trigger or table more is not a register's"
    return ran == (3, "", f"npacd: storage\nnpacd: storage: {changed_file}: {words}\n")


def explanations(file, folder):
    """Tests faults of other files, and explanations that cannot be written."""
    none, wide = os.path.join(folder, "none"), os.path.join(folder, "windows.toml")
    found = {}
    for text, (name, words) in WINDOWS_FILES.items():
        Path(wide).write_text(text, encoding="utf-8")
        found[name] = is_explained(folder, 1, name, wide, words, "export", "--windows", wide)
    Path(wide).write_text(Path(WINDOWS).read_text(encoding="utf-8").replace("broadcast = 15", "broadcast = 16"), encoding="utf-8")
    differ = "its windows are not the present ones of the database"
    found["windows_differ"] = is_explained(folder, 1, "windows_differ", wide, differ, "export", "--windows", wide, "--db", file)
    found["no windows"] = is_explained(folder, 3, "read", none, MISSING, "export", "--windows", none)
    found["no messages"] = is_explained(folder, 3, "read", none, MISSING, "export", "--windows", WINDOWS, "--feed", none)
    found["unwritten"] = run("export", "--windows", none, "--explain", os.path.join(none, "why")) == (3, "", "npacd: read\n")
    return found


def found_in_all():
    with tempfile.TemporaryDirectory() as folder:
        file = new_file(folder)
        found = {"summary": is_summary(file, SUMMARY)}
        found["due"] = is_summary(changed(file, folder, "UPDATE clock2 SET now = 115"), DUE)
        found |= flaws(file, folder) | played(folder)
        found |= changes(file, folder) | beside_others(file, folder) | explanations(file, folder)
        found |= rows(folder) | copies(folder, file)
        found |= {"in use": is_in_use(file), "no permission": is_forbidden(file), "a copy": is_copy_examined(file, folder)}
        found |= {"progress": shows_progress(), "progress of an opening": shows_opening(folder)}
    return found


def main():
    if not os.path.isfile(PROGRAM):
        sys.exit(f"{PROGRAM} is not there: build it first")
    found = found_in_all()
    wrong = [what for what, well in found.items() if not well]
    print(*wrong, f"refusals and flaws, in words: {len(found) - len(wrong)} as expected, {len(wrong)} others", sep="\n")
    sys.exit(1 if wrong else 0)


if __name__ == "__main__":
    main()
