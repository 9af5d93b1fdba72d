"""Measures the processor time of each function's proof, and of the search for its goals, from nothing in one job.

    bench/run functions NAME [NAME ..]      (crates; takes as long as their proofs, and first builds what is below them where that is not built)

Names the functions whose proof takes more than 10 s, and those with goals found by search in more than 3 s: each goal that the function's
Answers.antt does not have. The checker saves each module as a file as it ends with it. The files' times and the processor time of the
check then show what each module took, to a fifth of a second.
"""
import bisect
import re
import subprocess
import sys
import time
from dataclasses import dataclass, field

from lib.measure import folder
from lib.processes import look
from lib.report import print_head, print_row
from wrong_bodies import read_crates

DEAR, DEAR_SEARCH = 10, 3
PAUSE = 0.2
SILENT = {"stdin": subprocess.DEVNULL, "stdout": subprocess.DEVNULL, "stderr": subprocess.DEVNULL}
# The module with the goals that the checker's own search proves, and the one with the answers that are written.
SEARCH, ANSWERS = "Proof", "Answers"


@dataclass
class Proof:
    """The seconds of a function's proof, or of a file of lemmas: all, and by kind of module."""
    seconds: float = 0.0
    kinds: dict = field(default_factory=dict)

    def add(self, kind, seconds):
        self.seconds += seconds
        self.kinds[kind] = self.kinds.get(kind, 0.0) + seconds


def line_of(crate):
    """Returns the line by which `rt check` has a crate checked. What is below the crate is built then."""
    seen = {}
    asked = subprocess.Popen(["rt", "check", "--jobs", "1", "--only", ""], cwd=f"crates/{crate}", **SILENT)
    while asked.poll() is None:
        look(asked.pid, seen, time.time())
        time.sleep(PAUSE)
    for process in seen.values():
        if process.crate() == crate and "--incremental" in process.words:
            first = next(place for place, word in enumerate(process.words) if word.endswith("/rattle"))
            return process.words[first:]
    sys.exit(f"{crate}: what is below it is not proved")


def checked(crate, work):
    """Checks a crate into an empty folder, so from nothing. Returns times on the clock, and the processor time until each."""
    line, times, spent, seen = line_of(crate), [time.time()], [0.0], {}
    line[line.index("--incremental") + 1] = str(work.resolve())
    del line[(only := line.index("--only")):only + 2]
    check = subprocess.Popen(line, cwd=f"crates/{crate}", **SILENT)
    while check.poll() is None:
        look(check.pid, seen, time.time())
        times.append(time.time())
        spent.append(sum(process.seconds for process in seen.values()))
        time.sleep(PAUSE)
    if check.returncode:
        sys.exit(f"{crate} is not proved: rt check says why")
    return times, spent


def spent_at(times, spent, moment):
    """Returns the processor time at a moment, in proportion between two looks."""
    place = min(bisect.bisect(times, moment), len(times) - 1)
    share = (moment - times[place - 1]) / (times[place] - times[place - 1])
    return spent[place - 1] + min(share, 1.0) * (spent[place] - spent[place - 1])


def modules_of(crate, work, times, spent):
    """Returns the seconds before the first module of the crate, and those of each module."""
    moments = sorted((file.stat().st_mtime, file.name) for file in work.glob(f"*/Rattle-{crate}*.oantt"))
    ends = [spent_at(times, spent, moment) for moment, _ in moments]
    modules = {}
    for (_, name), before, end in zip(moments, [ends[0], *ends], ends):
        module = re.sub(r"(\.decls)?\.oantt$", "", name.removeprefix(f"Rattle-{crate}-proofs."))
        modules[module] = modules.get(module, 0.0) + end - before
    return ends[0], modules


def proofs_of(modules):
    """Returns the proof of each function, of all its modules, and of each file of lemmas."""
    functions = {module.removesuffix(".Lts") for module in modules if module.endswith(".Lts")}
    proofs = {}
    for module, seconds in modules.items():
        parts = module.split(".")
        prefixes = (".".join(parts[:length]) for length in range(len(parts), 0, -1))
        name = next((prefix for prefix in prefixes if prefix in functions), module)
        proofs.setdefault(name, Proof()).add(module[len(name) + 1:].partition(".")[0], seconds)
    return proofs


def print_dear(proofs):
    """Prints the dear proofs, dearest first. Returns how many are dear, and how many have dear searches."""
    dear = dear_searches = 0
    for name, proof in sorted(proofs.items(), key=lambda it: -it[1].seconds):
        search, answers = (proof.kinds.get(kind, 0.0) for kind in (SEARCH, ANSWERS))
        dear, dear_searches = dear + (proof.seconds > DEAR), dear_searches + (search > DEAR_SEARCH)
        if proof.seconds > DEAR or search > DEAR_SEARCH:
            print_row(f"`{name}`", *(f"{seconds:.1f}" for seconds in (proof.seconds, search, answers)))
    return dear, dear_searches


def main(words):
    crates = read_crates()
    for crate in words:
        if crate not in crates:
            sys.exit(f"crates.txt has no crate {crate}")
    for crate in words:
        with folder() as work:
            before, modules = modules_of(crate, work, *checked(crate, work))
        print_head(f"`{crate}`", "Seconds", "Search", "Answers")
        dear, dear_searches = print_dear(proofs_of(modules))
        print(f"\n{crate}: {before:.0f} s before the first module, then {sum(modules.values()):.0f} s; {dear} proofs take more than {DEAR} s,"
              f" and the searches of {dear_searches} more than {DEAR_SEARCH} s\n", flush=True)
