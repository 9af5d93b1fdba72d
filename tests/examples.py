#!/usr/bin/env python3
"""Tests the example files, examples/*.csv, with Python's own `csv`: each has its header, and as many fields in each row.

If the program is built, runs it on them as the README does, and compares its output. The gate does not run this.

    tests/examples.py
"""
import csv
import os
import subprocess
import sys
from pathlib import Path

sys.path.insert(0, str(Path(__file__).resolve().parents[1] / "bench"))
from lib.program import PROGRAM

HEADERS = {
    "bulk": "caller,action,subject,old,new,due,lrn,cic,flag",
    "bulk-report": "row,subject,result,id",
    "copy": "subject,lrn,cic",
    "export": "subject,lrn,cic",
    "findings": "subject,finding",
}
# The words after `--windows`, the file that is read, and the one that is written.
RUNS = [
    (["bulk", "--feed", "examples/carriers.http"], "bulk", "bulk-report"),
    (["export", "--feed", "examples/first-port.http"], None, "export"),
    (["audit", "--feed", "examples/first-port.http", "--spid", "BBBB"], "copy", "findings"),
]


def path_of(name):
    return f"examples/{name}.csv"


def text_of(name):
    if name is None:
        return b""
    with open(path_of(name), "rb") as file:
        return file.read()


def has_form(name):
    """Tests that the file has its header, and each row as many fields."""
    with open(path_of(name), encoding="utf-8", newline="") as file:
        header, *rows = list(csv.reader(file, strict=True))
    return header == HEADERS[name].split(",") and all(len(row) == len(header) for row in rows)


def is_written(words, read, written):
    subcommand, *options = words
    ran = subprocess.run([PROGRAM, subcommand, "--windows", "examples/windows.toml", *options], input=text_of(read), capture_output=True)
    return (ran.returncode, ran.stdout, ran.stderr) == (0, text_of(written), b"")


def main():
    os.chdir(os.path.join(os.path.dirname(os.path.abspath(__file__)), ".."))
    found = {name.removesuffix(".csv") for name in os.listdir("examples") if name.endswith(".csv")}
    wrong = [f"{name}: not listed in tests/examples.py, or not there" for name in sorted(found ^ set(HEADERS))]
    wrong += [f"{path_of(name)}: another header, or another number of fields" for name in sorted(found & set(HEADERS)) if not has_form(name)]
    runs = RUNS if os.path.isfile(PROGRAM) else []
    wrong += [f"npacd {' '.join(words)}: does not write {path_of(written)}" for words, read, written in runs if not is_written(words, read, written)]
    print(*wrong, f"{len(found)} files read, {len(runs)} runs compared", sep="\n")
    sys.exit(1 if wrong else 0)


if __name__ == "__main__":
    main()
