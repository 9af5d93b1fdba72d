"""Measures messages and queries a second of a register in a file, beside stock SQLite, and how long files take to open.

    bench/run file [N [M [V [PROGRAM]]]]      (default 1000, 10000 and 4000; needs the built program and strace)

The program gets N ports and then M queries of their numbers, over a file. Stock SQLite (Python's module) gets the same
SQL, a transaction for each message. With PROGRAM, another one with the same command line is timed too. Then a file of V
versions in force, written by stock SQLite, is opened, and the same file in the first format, which is migrated. Wall
time.
"""
import hashlib
import sqlite3
import subprocess

from lib.measure import counts, folder, timed
from lib.messages import count_of
from lib.numbers import CARRIERS, ROUTED, opening, port, query
from lib.program import PROGRAM, command_line, run

VERSION = ("id, subject, old, new, due, lrn, cic, old_at, new_at, status, sends, since, attempt, release, spent, "
           "protective, cancelled_by, deadline, holds, opens")
COLUMNS = {
    "version2": f"{VERSION}, held", "broadcast": "id, attempt, minute, subject, action, lrn, cic, open, any",
    "wait": "spid, minute, id, attempt, subject", "clock2": "one, now, next_id, present", "window_set": "*",
    "carrier": "spid", "lrn": "lrn, spid", "code": "code, spid", "block": "block, donor, last",
}


def insert(table):
    columns = COLUMNS[table]
    return f"INSERT INTO {table} ({columns}) VALUES ({', '.join('?' * len(columns.split(',')))})"


def version_row(place, status, sends="none", attempt=0, deadline=None):
    """The row of a port's version: it is in force where it is active, and open before."""
    it = port(place)
    subject, nobody = int(it.tn), -2 - place
    kept = (subject, nobody) if status == "active" else (nobody, subject)
    begun = (it.version, subject, it.old, it.new, 0, int(it.lrn), None, 0, 0, status, sends, 0, attempt)
    return (*begun, None, 0, 0, None, deadline, *kept, 1)


class Peer:
    """What the program asks of its database and writes to it, message by message."""

    def __init__(self, file):
        self.database = sqlite3.connect(file, isolation_level=None)
        self.database.execute("PRAGMA journal_mode = WAL")
        self.database.execute("PRAGMA synchronous = FULL")
        self.kept = {}

    def ask(self, table, which="", *values):
        return self.database.execute(f"SELECT {COLUMNS[table]} FROM {table} {which}", values).fetchall()

    def once(self, table, which="", *values):
        """What no message of this measure changes is read the first time, as the program reads it."""
        if table not in self.kept:
            self.kept[table] = self.ask(table, which, *values)
        return self.kept[table]

    def commit(self, *statements):
        self.database.execute("BEGIN IMMEDIATE")
        for text, values in statements:
            self.database.execute(text, values)
        self.database.execute("COMMIT")

    def clock(self):
        """What is read of the clock: its row, and the present set of windows."""
        self.once("clock2", "WHERE one = ?", 0)
        self.once("window_set", "WHERE number = ?", 1)

    def settle(self):
        self.clock()
        self.once("version2", "WHERE deadline >= 0 AND deadline <= ? ORDER BY deadline LIMIT 1", 0)

    def number(self, subject):
        """What is read of a number and its block."""
        for key in ("holds", "opens"):
            self.ask("version2", f"WHERE {key} = ?", subject)
        self.ask("block", "WHERE block = ?", subject // 1000)
        self.ask("code", "WHERE code = ?", subject // 10_000)

    def put_version(self, row):
        taken = [(f"DELETE FROM {table} WHERE id = ?", row[:1]) for table in ("version2", "next_routing")]
        return [*taken, (insert("version2"), row)]

    def create(self, row, is_first):
        self.settle()
        self.clock()
        self.once("carrier")
        self.number(row[1])
        self.ask("lrn", "WHERE lrn = ?", row[5])
        moved = []
        if is_first:
            self.clock()
            moved = [("DELETE FROM clock2 WHERE one = 0", ()), (insert("clock2"), (0, 0, row[0] + 1, 1))]
        self.commit(*self.put_version(row), *moved)

    def activate(self, row):
        self.settle()
        self.ask("version2", "WHERE id = ?", row[0])
        self.clock()
        broadcast = (row[0], 1, 0, row[1], "create", row[5], None, 1, 0)
        waits = [(insert("wait"), (carrier, 0, row[0], 1, row[1])) for (carrier,) in self.once("carrier")]
        self.commit(*self.put_version(row), (insert("broadcast"), broadcast), *waits)

    def acknowledge(self, carrier, row, is_last):
        self.settle()
        self.once("carrier")
        self.ask("version2", "WHERE id = ?", row[0])
        self.ask("broadcast", "WHERE id = ? AND attempt = ?", row[0], 1)
        self.ask("wait", "WHERE subject = ? AND spid = ?", row[1], carrier)
        self.ask("wait", "WHERE id = ? AND attempt = ?", row[0], 1)
        taken = [
            ("DELETE FROM broadcast WHERE id = ? AND attempt = ?", (row[0], 1)),
            ("DELETE FROM wait WHERE spid = ? AND minute = ? AND id = ? AND attempt = ?", (carrier, 0, row[0], 1)),
        ]
        broadcast = (row[0], 1, 0, row[1], "create", row[5], None, 1, 1)
        self.commit(*taken, *(self.put_version(row) if is_last else [(insert("broadcast"), broadcast)]))

    def port(self, place):
        self.create(version_row(place, "pending", deadline=60), True)
        self.create(version_row(place, "pending", deadline=500), False)
        sending = version_row(place, "sending", "create", 1, 15)
        self.activate(sending)
        for carrier in CARRIERS[:-1]:
            self.acknowledge(carrier, sending, False)
        self.acknowledge(CARRIERS[-1], version_row(place, "active", "none", 1), True)

    def query(self, caller, subject):
        self.settle()
        self.once("carrier")
        self.number(subject)


def feed(file, texts, program=PROGRAM, **more):
    """Feeds messages to a program over the file, and tells what it took."""
    return run(command_line("feed", "--db", file, program=program), "".join(texts).encode(), **more)


def rows_of(file):
    """A digest of the rows that a file has, table by table."""
    database = sqlite3.connect(file)
    tables = [name for name, in database.execute("SELECT name FROM sqlite_schema WHERE type = 'table' ORDER BY name")]
    digest = hashlib.sha256()
    for table in tables:
        columns = [row[1] for row in database.execute(f"PRAGMA table_info({table})")]
        digest.update(table.encode())
        for row in database.execute(f"SELECT * FROM {table} ORDER BY {', '.join(columns)}"):
            digest.update(repr(row).encode())
    database.close()
    return digest.hexdigest()


def ports_and_queries(programs, held, ports, many):
    asked = [query(turn, ports) for turn in range(many)]
    texts = [text for place in range(ports) for text in port(place).whole()]
    for place, program in enumerate(programs):
        file, answers = held / f"{place}.db", held / "answers"
        feed(file, opening(), program)
        rate = len(texts) / feed(file, texts, program).wall
        print(f"{program}: {rate:,.0f} messages a second of ports", end="", flush=True)
        rate = many / feed(file, asked, program, answers=answers).wall
        assert count_of(answers, ROUTED) == many
        print(f", {rate:,.0f} queries a second", flush=True)


def peer(held, ports, many):
    """The same of stock SQLite, and whether it then has the rows that the program wrote."""
    file = held / "peer.db"
    feed(file, opening())
    stock = Peer(file)
    taken = timed(lambda: [stock.port(place) for place in range(ports)])
    print(f"stock SQLite: {13 * ports / taken:,.0f} transactions a second of ports", end="", flush=True)
    queried = [(CARRIERS[turn % 10], int(port(turn * 7919 % ports).tn)) for turn in range(many)]
    taken = timed(lambda: [stock.query(*it) for it in queried])
    stock.database.close()
    same = "the same rows" if rows_of(file) == rows_of(held / "0.db") else "OTHER ROWS"
    print(f", {many / taken:,.0f} queries a second; {same} as the program's", flush=True)


def queries_write_nothing(held, ports):
    file, calls = held / "0.db", held / "calls"
    before = rows_of(file)
    words = ["strace", "-f", "-e", "trace=pwrite64,fdatasync", "-o", calls, *command_line("feed", "--db", file)]
    found = []
    for many in (1, 1_000):
        texts = "".join(query(turn, ports) for turn in range(many))
        subprocess.run(words, input=texts.encode(), stdout=subprocess.DEVNULL, check=True)
        found.append(sum(1 for call in calls.read_text("utf-8").splitlines() if "(" in call))
    assert rows_of(file) == before
    print(f"writes and syncs while 1 query is answered, and 1,000: {found[0]} and {found[1]}", flush=True)


def written(file, versions):
    """A file of so many versions in force, written by stock SQLite."""
    feed(file, opening())
    database = sqlite3.connect(file)
    database.execute("PRAGMA journal_mode = WAL")
    database.executemany(insert("version2"), (version_row(place, "active", "none", 1) for place in range(versions)))
    database.execute("UPDATE clock2 SET next_id = ?", (versions + 1,))
    database.commit()
    database.close()
    return file


def one_query(file, versions):
    """What it takes to open a file for one query."""
    taken = feed(file, [query(1, versions)])
    return f"{taken.wall:.1f} s, {taken.peak:,.0f} MiB"


# What makes a file one of the first form: it knows no modify, and no sets of windows.
FIRST_FORM = f"""
    INSERT INTO version SELECT {VERSION} FROM version2;
    INSERT INTO clock SELECT one, now, next_id, initial_concurrence, final_concurrence, conflict_restriction,
        conflict_resolution, conflict_expiration, cancellation_initial, cancellation_final, pending_retention, broadcast
        FROM clock2, window_set;
    DROP TABLE clock2; DROP TABLE version2; DROP TABLE window_set; DROP TABLE next_routing;
"""


def open_large(held, versions):
    """A file, and the same made one of the first form, which is moved as it is opened, and has the rows that it had."""
    file = written(held / "large.db", versions)
    size = file.stat().st_size / 2**20
    print(f"a file of {versions:,} versions, {size:,.0f} MiB: opened in {one_query(file, versions)}", flush=True)
    file = written(held / "earlier.db", versions)
    before = rows_of(file)
    database = sqlite3.connect(file)
    database.executescript(FIRST_FORM)
    database.close()
    moved = one_query(file, versions)
    same = "the rows that it had" if rows_of(file) == before else "OTHER ROWS"
    again = one_query(file, versions)
    print(f"the same file of the first form: moved in {moved}; {same}; opened again in {again}", flush=True)


def main(words):
    ports, many, versions = counts(words[:3], 1_000, 10_000, 4_000)
    with folder(within=".") as held:
        ports_and_queries([PROGRAM, *words[3:]], held, ports, many)
        peer(held, ports, many)
        queries_write_nothing(held, ports)
        open_large(held, versions)
