"""Tests files of commands, exports, audits and copies with each of their allocations refused in turn.

    bench/run refused-files      (needs gcc, and the built tests: cd crates/memory_tests && rt test)

The tests are those of `files::allocation_failures` and `allocation_failures`: a run of a file of commands, an export and
an audit whose allocation is refused report it, have written only whole lines, and succeed the next time; so do a
carrier's copy, which stays as it was, and the answer to a query. `stores` has the commits and the reads of a store.
"""
import re
import subprocess
import sys

from lib.measure import counts, folder
from lib.refusing import Refusing

TESTS = "crates/memory_tests/out/memory_tests_tests"
SILENT = {"stdout": subprocess.DEVNULL, "stderr": subprocess.DEVNULL}


NAMES = r"(?:(?:files::)?allocation_failures|stores)::[a-z_]+"


def refuse_tests(refusing):
    """Runs each of the tests with each of its allocations refused in turn."""
    listed = subprocess.run([TESTS, "--list"], capture_output=True, text=True, check=True).stdout
    for name in re.findall(NAMES, listed):
        whole, count = refusing.counted([TESTS, name], stdout=subprocess.DEVNULL)
        whole.check_returncode()
        for place in range(1, count + 1):
            if refusing.run([TESTS, name], place, **SILENT).returncode:
                sys.exit(f"{name}, allocation {place}: wrong")
        print(f"{name}: {count} allocations, each refused in turn", flush=True)


def main(words):
    counts(words)
    with folder() as held:
        refuse_tests(Refusing(held))
