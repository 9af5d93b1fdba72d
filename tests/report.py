#!/usr/bin/env python3
"""Tests the page of `npacd report` against stock SQLite, which counts the rows of the same file.

    tests/report.py      (build first: cd crates/npacd && rt run -- --help)

The program feeds ports into a file: some active, some that one carrier has not acknowledged, some that wait for a create. Then it writes
the page. Python's own `html.parser` reads the page, and each number of its tables must be that of the rows. The page may have no script,
nothing from elsewhere, and no id twice, and a failed run must leave an earlier page. The gate runs it after `rt ci`, which leaves the
program that it has proved and run.
"""
import re
import sqlite3
import subprocess
import sys
import tempfile
from datetime import datetime, timedelta, timezone
from html.parser import HTMLParser
from pathlib import Path

TOP = Path(__file__).resolve().parent.parent
sys.path.insert(0, str(TOP / "bench"))
from lib.messages import clock
from lib.numbers import CARRIERS, opening, port
from lib.program import PROGRAM, command_line

# The minute of the page: 2026-11-29 15:51 UTC, two days after most ports.
NOW = 29_932_791
BEFORE = NOW - 2900
SILENT = CARRIERS[-1]
# The greatest minute, whose date is after the year 9999.
GREATEST = 2**40 - 1
VOID = {"meta"}
STATUSES = ["pending", "conflict", "cancel-pending", "sending", "active", "partial-failure", "failed", "disconnect-pending", "old", "canceled"]


class Page(HTMLParser):
    """The elements of a page, and the rows of its tables by their ids."""

    def __init__(self, text):
        super().__init__()
        self.open, self.ids, self.labels, self.links = [], [], [], []
        self.names, self.tables, self.items = set(), {}, []
        self.table = None
        self.feed(text)
        self.close()

    def handle_starttag(self, tag, attrs):
        self.names.add(tag)
        given = dict(attrs)
        self.ids += [given["id"]] if "id" in given else []
        self.labels += [given["aria-labelledby"]] if "aria-labelledby" in given else []
        self.links += [value for key, value in attrs if key in ("src", "href") or "://" in (value or "")]
        if tag not in VOID and not self.get_starttag_text().endswith("/>"):
            self.open.append(tag)
        if tag == "table":
            self.table = self.tables[given["id"]] = []
        if tag == "tr":
            self.table.append([])
        if tag in ("th", "td"):
            self.table[-1].append("")
        if tag == "li":
            self.items.append("")

    def handle_startendtag(self, tag, attrs):
        self.names.add(tag)

    def handle_endtag(self, tag):
        assert self.open.pop() == tag, (tag, self.open, self.getpos())

    def handle_data(self, data):
        if "li" in self.open:
            self.items[-1] += data
        elif self.open[-1:] in (["th"], ["td"]) or self.open[-2:] == ["td", "time"]:
            self.table[-1][-1] += data

    def rows(self, name):
        """The rows of a table without its head."""
        return self.tables[f"{name}-table"][1:]


def program(*words, text=""):
    ran = subprocess.run([PROGRAM, *words], input=text.encode(), capture_output=True, timeout=120)
    return ran.returncode, ran.stderr.decode()


def messages():
    """Ports of which the last carrier acknowledges half; then creates, of which some wait for the other provider's."""
    yield from opening()
    yield clock(BEFORE)
    for place in range(40):
        it = port(place)
        yield from it.sent(BEFORE)
        yield from it.acknowledged(CARRIERS if place % 2 else CARRIERS[:-1])
    yield clock(NOW - 30)
    for place in range(40, 60):
        it = port(place)
        yield it.new_create(NOW)
        yield from [it.old_create(NOW)] if place % 3 else []
    yield clock(NOW)


def counted(numbers):
    return [f"{number:,}" for number in numbers]


def hours(database):
    """Versions with a timer: ended, in each of 24 hours, and later."""
    places = [0] * 26
    for deadline, in database.execute("SELECT deadline FROM version2 WHERE deadline IS NOT NULL"):
        places[min((max(deadline - NOW, 0) + 59) // 60, 25)] += 1
    return places


def days(database, statuses):
    places = [0] * 15
    for since, in database.execute(f"SELECT since FROM version2 WHERE status IN ({statuses})"):
        places[min(NOW // 1440 - since // 1440, 14)] += 1
    return places


def time_of(minute):
    return (datetime(1970, 1, 1, tzinfo=timezone.utc) + timedelta(minutes=minute)).strftime("%Y-%m-%d %H:%M")


def carriers(database):
    """Of each carrier its name, the subjects pending for it, and when the first was sent."""
    for spid, in database.execute("SELECT spid FROM carrier ORDER BY spid"):
        count, first = database.execute("SELECT count(DISTINCT subject), min(minute) FROM wait WHERE spid = ?", (spid,)).fetchone()
        yield [spid, f"{count:,}", "none" if first is None else time_of(first)]


def compare(page, database):
    by_status = dict(database.execute("SELECT status, count(*) FROM version2 GROUP BY status"))
    assert page.rows("statuses") == [[name, f"{by_status.get(name, 0):,}"] for name in STATUSES]
    assert [row[:3] for row in page.rows("carriers")] == list(carriers(database))
    assert [row[0] for row in page.rows("carriers") if row[-1] == "late"] == [SILENT]
    assert [row[1] for row in page.rows("windows")] == counted(hours(database))
    active, old = days(database, "'active', 'partial-failure'"), days(database, "'old'")
    assert [row[1:] for row in page.rows("days")] == [[f"{a:,}", f"{b}"] for a, b in zip(active, old)]
    assert page.rows("days")[0][0] == time_of(NOW)[:10] and page.rows("days")[14][0] == "earlier"


def is_sound(page):
    """Whether the page is whole, names each thing once, and needs nothing else."""
    names = {label for labels in page.labels for label in labels.split()}
    return not page.open and len(page.ids) == len(set(page.ids)) and names <= set(page.ids) and not page.links and "script" not in page.names


def is_far_page_written(folder):
    """Whether the page of a register without versions at the greatest minute names the number of the day."""
    file, to = f"{folder}/far.db", f"{folder}/far.html"
    text = "".join(opening()) + clock(GREATEST)
    fed = program(*command_line("feed", "--db", file)[1:], text=text)
    written = program("report", "--db", file, "--to", to)
    page = Path(to).read_text(encoding="utf-8")
    hour, minute = divmod(GREATEST % 1440, 60)
    time = f"<time>day {GREATEST // 1440} {hour:02}:{minute:02}</time>"
    return fed[0] == 0 and written == (0, "") and time in page and "No carrier is late." in page


def main():
    with tempfile.TemporaryDirectory() as folder:
        file, to = f"{folder}/register.db", f"{folder}/page.html"
        words = command_line("feed", "--db", file)[1:]
        assert program(*words, text="".join(messages()))[0] == 0
        number = port(0).tn
        assert program("report", "--db", file, "--to", to, "--number", number) == (0, "")
        text = Path(to).read_text(encoding="utf-8")
        page = Page(text)
        assert is_sound(page), (page.open, page.links)
        database = sqlite3.connect(f"file:{file}?mode=ro", uri=True)
        compare(page, database)
        database.close()
        assert any(re.search(f"attempt 1 sent, a create, pending for {SILENT}$", item) for item in page.items), page.items
        assert is_far_page_written(folder)
        assert program("report", "--db", f"{folder}/none.db", "--to", to) == (3, "npacd: storage\n")
        assert program("report", "--db", file, "--to", f"{folder}/none/page.html") == (3, "npacd: write\n")
        assert Path(to).read_text(encoding="utf-8") == text and sorted(Path(folder).glob("*.part")) == []
    print("the numbers of a page are those of stock SQLite")


if __name__ == "__main__":
    main()
