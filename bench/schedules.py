"""Plays schedules of connections, and compares what each client receives with worked responses and with `serve`.

    bench/run schedules      (needs the toolchain alone; some ten minutes)

The tests of `bench/schedules` run unproved, in a copy of `memory_tests` with its fixture: to prove them would double the
time of that crate. Their names end in `.in`, because `rt ci` refuses a source that belongs to no crate. They play all short
schedules of two clients, and random ones of three; and they send the first port in pieces, cut at every place, and end it early.
"""
import re
import shutil
import subprocess
import sys
from pathlib import Path

from lib.measure import counts, folder

TOP = Path(__file__).resolve().parent.parent
TESTS = sorted((TOP / "bench/schedules").glob("*.rt.in"))

# What the tests want of the fixture, beside what it has.
BODIES = """
pub const BAD_HEAD: &str = r#"{"error":"bad_head","number":45}"#;

pub const CUT_BODY: &str = r#"{"error":"cut_body","number":46}"#;
"""


def copied(held):
    """The copy of the crates, with these tests in place of those of `memory_tests`."""
    shutil.copytree(TOP / "crates", held / "crates", ignore=shutil.ignore_patterns("out", "wrong-bodies"))
    shutil.copy(TOP / "HANDLES", held)
    rows = (TOP / "crates.txt").read_text("utf-8")
    (held / "crates.txt").write_text(re.sub(r"(?m)^(memory_tests: .*)$", r"\1 hub", rows), "utf-8")
    source = held / "crates/memory_tests/src"
    fixture = (source / "fixture.rt").read_text("utf-8") + BODIES
    shutil.rmtree(source)
    source.mkdir()
    (source / "fixture.rt").write_text(fixture, "utf-8")
    for test in TESTS:
        shutil.copy(test, source / test.stem)
    modules = ["fixture", *(Path(test.stem).stem for test in TESTS)]
    head = "//! Schedules of connections.\n#![tactic(auto)]\n"
    (source / "lib.rt").write_text(head + "".join(f"\n#[cfg(test)]\nmod {name};" for name in modules) + "\n", "utf-8")
    return held / "crates/memory_tests"


def main(words):
    counts(words)
    with folder() as held:
        ended = subprocess.run(["rt", "try", "--test", "--seconds", "900"], cwd=copied(held), check=False)
    sys.exit(ended.returncode)
