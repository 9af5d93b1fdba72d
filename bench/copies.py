"""Tests that carriers which keep their copies as docs/INTERFACE.md says end with what is in force.

    bench/run copies [RUNS [STEPS]]      (default 20 and 600; needs the built program)

Four carriers port, modify and give back eight numbers at random while the clock moves on, and fetch downloads now and
then. A carrier may stop after it stored a download, or after its acknowledgement, before the copy was changed. At the
end, when nothing is pending and no broadcast is open, each copy must be the starting rows of a new carrier.
"""
import json
import random
import subprocess

from lib.measure import counts
from lib.program import command_line

CARRIERS = ("AAAA", "BBBB", "CCCC", "DDDD")
NUMBERS = [f"20253312{line:02d}" for line in range(8)]
ROUTING = {spid: [f"20255{place}{other}000" for other in range(2)] for place, spid in enumerate(CARRIERS)}


class Stopped(Exception):
    """A carrier's program stops."""


class Register:
    """A register that is fed messages one by one."""

    def __init__(self):
        self.process = subprocess.Popen(command_line("feed"), stdin=subprocess.PIPE, stdout=subprocess.PIPE)

    def call(self, spid, path, body=None):
        """The status and the body of the response."""
        text = b"" if body is None else json.dumps(body).encode()
        method = "GET" if body is None else "POST"
        head = f"{method} {path} HTTP/1.1\r\nx-spid: {spid}\r\ncontent-length: {len(text)}\r\n\r\n"
        self.process.stdin.write(head.encode() + text)
        self.process.stdin.flush()
        lines = iter(self.process.stdout.readline, b"\r\n")
        status, *fields = [line.decode().strip() for line in lines]
        length = next(int(field.split()[1]) for field in fields if field.startswith("content-length"))
        return int(status.split()[1]), json.loads(self.process.stdout.read(length))

    def version_in_force(self, tn):
        number = self.call(CARRIERS[0], f"/numbers/{tn}")[1]["in_force"]
        return None if number is None else self.call(CARRIERS[0], f"/versions/{number}")[1]


class Copy:
    """A carrier's copy, and the downloads that it stored."""

    def __init__(self, register, spid, chance):
        self.register, self.spid, self.chance, self.stored = register, spid, chance, {}
        rows = register.call("NPAC", "/carriers", {"spid": spid})[1]["rows"]
        self.routings = {row["subject"]: (row["lrn"], row["cic"]) for row in rows}

    def put(self, subject, row):
        if row is None or row["lrn"] is None:
            self.routings.pop(subject, None)
        else:
            self.routings[subject] = row["lrn"], row["cic"]

    def acknowledge(self, download):
        asked = {name: download[name] for name in ("id", "attempt")}
        status, said = self.register.call(self.spid, "/downloads/acknowledge", asked)
        if self.chance.random() < 0.15:
            raise Stopped
        row = download
        if said.get("error") == "not_queued":
            version = self.register.call(self.spid, f"/versions/{download['id']}")[1]
            if (version["status"], version["attempt"]) != ("sending", download["attempt"]):
                row = self.register.version_in_force(download["subject"])
        else:
            assert status == 200, (download, said)
        self.put(download["subject"], row)
        del self.stored[download["id"], download["attempt"]]

    def turn(self, most):
        """Acknowledges what was stored before a stop, then up to `most` downloads."""
        try:
            for download in sorted(self.stored.values(), key=lambda it: (it["minute"], it["id"], it["attempt"])):
                self.acknowledge(download)
            for download in self.register.call(self.spid, f"/downloads/{most}")[1]["downloads"]:
                self.stored[download["id"], download["attempt"]] = download
                if self.chance.random() < 0.1:
                    raise Stopped
                self.acknowledge(download)
        except Stopped:
            pass


def port(register, chance, tn, now):
    before = register.version_in_force(tn)
    old = "BBBB" if before is None else before["new"]
    new = chance.choice([spid for spid in CARRIERS if spid != old])
    parties = {"due": now, "new": new, "old": old, "tn": tn}
    create = {**parties, "lrn": chance.choice(ROUTING[new])}
    status, version = register.call(new, "/subscriptionVersionNewSP-Create", create)
    if status == 200:
        register.call(old, "/subscriptionVersionOldSP-Create", {**parties, "authorized": True})
        register.call(new, "/subscriptionVersionActivate", {"id": version["id"]})


def try_again(register, chance, tn):
    """Activates or cancels the number's open version."""
    number = register.call("AAAA", f"/numbers/{tn}")[1]["open"]
    if number is not None:
        provider = register.call("AAAA", f"/versions/{number}")[1]["new"]
        command = chance.choice(("Activate", "Cancel"))
        register.call(provider, f"/subscriptionVersion{command}", {"id": number})


def change(register, chance, tn, now):
    """Modifies the number in force, or gives it back, now or later."""
    version = register.version_in_force(tn)
    if version is not None:
        provider, asked = version["new"], {"id": version["id"]}
        if chance.random() < 0.5:
            register.call(provider, "/subscriptionVersionModify", {**asked, "lrn": chance.choice(ROUTING[provider])})
        else:
            register.call(provider, "/subscriptionVersionDisconnect", {**asked, "release": chance.choice((None, now + 5))})


def run(chance, steps):
    """Returns the copies that are wrong, and what is in force."""
    register, now = Register(), 0
    copies = [Copy(register, spid, chance) for spid in CARRIERS]
    for spid in CARRIERS:
        for lrn in ROUTING[spid]:
            register.call(spid, "/lrns", {"lrn": lrn})
    register.call("NPAC", "/codes", {"code": "202533", "spid": "BBBB"})
    for _ in range(steps):
        kind, tn = chance.random(), chance.choice(NUMBERS)
        if kind < 0.25:
            port(register, chance, tn, now)
        elif kind < 0.35:
            try_again(register, chance, tn)
        elif kind < 0.5:
            change(register, chance, tn, now)
        elif kind < 0.7:
            now += chance.choice((1, 3, 10, 20, 40))
            register.call("NPAC", "/clock", {"minute": now})
        else:
            chance.choice(copies).turn(chance.choice((1, 3, 100)))
    now += 1000
    register.call("NPAC", "/clock", {"minute": now})
    for _ in range(200):
        for copy in copies:
            copy.turn(100)
    rows = register.call("NPAC", "/carriers", {"spid": "ZZZZ"})[1]["rows"]
    wanted = {row["subject"]: (row["lrn"], row["cic"]) for row in rows}
    register.process.stdin.close()
    register.process.wait()
    return [copy.spid for copy in copies if copy.routings != wanted], len(wanted)


def main(words):
    runs, steps = counts(words, 20, 600)
    in_force = 0
    for seed in range(runs):
        wrong, count = run(random.Random(seed), steps)
        assert not wrong, (seed, wrong)
        in_force += count
    print(f"{runs} runs of {steps} steps: {4 * runs} copies are right, {in_force} numbers in force")
