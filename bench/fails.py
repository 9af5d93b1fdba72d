"""Tests stories in which a call of the store fails, or a message is cut.

    bench/run fails [NAME ..]      (default all stories without files; needs the built player of stories:
                                    cd crates/stories && rt run -- opening)

Each call of a store fails in turn, once and from then on, over memory and over a database. Each message is cut after
each of its bytes. The gate does the same with a part of the calls and of the stories.
"""
import re
import subprocess
import sys
import time
from concurrent.futures import ThreadPoolExecutor
from pathlib import Path

import stories

PROGRAM = Path("crates/stories/out/stories").resolve()
TOLD = re.compile(r"story \S+, (\d+) cuts\nstory \S+, (\d+) calls of memory\nstory \S+, (\d+) calls of the database\n")


def played(name):
    """A story's cuts, calls of memory and calls of a database; or none, if something is answered otherwise."""
    ran = subprocess.run([PROGRAM, "--each", name], cwd=stories.CRATE / "data", capture_output=True, check=False)
    heard = ran.stdout.decode(errors="replace")
    wanted = "".join(piece.text for piece in stories.told(name)[1])
    told = TOLD.fullmatch(heard.removeprefix(wanted)) if heard.startswith(wanted) and not ran.returncode else None
    return [int(count) for count in told.groups()] if told else None


def has_file(name):
    """Returns whether a story runs a file of commands, an export or an audit, which no call fails in."""
    rows = stories.rows_of(name, stories.names_of_all(), True)
    return any(isinstance(row, stories.Row) and row.is_file for row in rows)


def main(names):
    all_names = [path.stem for path in sorted(stories.STORIES.glob("*.story"))]
    names = names or [name for name in all_names if not has_file(name)]
    start, counts = time.monotonic(), []
    with ThreadPoolExecutor(2) as pool:
        for name, count in zip(names, pool.map(played, names)):
            if count is None:
                sys.exit(f"{name}: answered otherwise")
            print(f"{name}: {count[0]} cuts, {count[1]} calls of memory, {count[2]} of a database", flush=True)
            counts.append(count)
    cuts, memory, database = (sum(column) for column in zip(*counts))
    failed = f"{memory} calls of memory and {database} of a database failed in turn, each once and then always"
    print(f"{len(names)} stories: {failed}")
    print(f"{cuts} cuts; {time.monotonic() - start:.0f} seconds on two processors")
