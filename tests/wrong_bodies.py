#!/usr/bin/env python3
"""Tests that the prover refuses wrong bodies, all of a crate's in one check.

    tests/wrong_bodies.py [--changed] [NAME..]      (all crates with wrong bodies, if none is named)

A proof sees the other functions of its crate by their contracts alone, so wrong bodies of different functions do not meet. They are put
into one copy of the crate, which is checked once. One of them is refused where its own function has a goal of its own that is not
proved; that it calls another function that is not proved says nothing. What was not refused stays for the next check, only with
others that were not, until a check refuses none of them: what is left then is proved, and the crate's contracts are too weak.

The file tests/refused records the edits that did as they have to, each with a checksum of all that it depends on: the edit, the
sources, definitions and proofs of its crate, and the contracts, definitions and cited lemmas of those below. The checksum is over tokens,
so that neither a comment nor the layout of code nor a hint where to inline sends an edit back to be tried. With --changed only edits
without such a record are tried, so that the gate pays only for what changed. The file tests/untried names those that are new or stand on changed code, and wait to be tried over the sources as they are:
with --changed they are skipped and counted. One that does as it has to is taken out of that file.

An edit is a file crates/NAME/wrong-bodies/*.edit, of the form of must-fail edits: a line 'file: src/lib.rt', then pairs of lines
'old: TEXT' and 'new: TEXT', each TEXT once in that file, all in one function. An edit whose name begins with 'harmless' changes no
meaning but takes a goal's name away, so that it is not proved either: it shows that such a change is not counted as refused.
"""
import functools
import hashlib
import os
import re
import shutil
import subprocess
import sys
import tempfile
import threading
from concurrent.futures import FIRST_COMPLETED, ThreadPoolExecutor, wait
from dataclasses import dataclass

SOURCES = ("src", "specs", "proofs")
PARTS = (*SOURCES, "out")
LANES = 2
RECORD = "tests/refused"
WAITING = "tests/untried"
NOTING = threading.Lock()
# a text, a word, or a sign
TOKEN = re.compile(r'"(?:\\.|[^"\\])*"|\w+|[^\w\s]')
# a hint where to inline, which no proof sees
HINT = re.compile(r"\s*#\[(?:inline(?:\(\w+\))?|cold)\]")


@dataclass
class Edit:
    """A wrong body: what it changes, and of which function."""
    crate: str
    name: str
    path: str
    pairs: list
    function: str = ""
    # whether its function's answers name a goal that it takes away
    takes_a_name: bool = False

    def is_harmless(self):
        return self.name.startswith("harmless")

    def applied(self, text):
        for old, new in self.pairs:
            if text.count(old) != 1:
                return None
            text = text.replace(old, new)
        return text


def stop(why):
    sys.exit(f"wrong-bodies: {why}")


def read_crates():
    """The crates, and the repository's libraries that each names, as crates.txt has them."""
    with open("crates.txt", encoding="utf-8") as file:
        lines = [line.split("#")[0].partition(":") for line in file if line.split("#")[0].strip()]
    named = {head.split()[0]: tail.split() for head, _, tail in lines}
    return {crate: [it for it in below if it in named] for crate, below in named.items()}


# ---- edits

def read_edit(crate, name):
    with open(f"crates/{crate}/wrong-bodies/{name}", encoding="utf-8") as file:
        lines = file.read().split("\n")
    paths = {line[len("file: "):] for line in lines if line.startswith("file: ")}
    olds = [line[len("old: "):] for line in lines if line.startswith("old: ")]
    news = [re.sub(r"\Anew: ?", "", line) for line in lines if line.startswith("new:")]
    if len(paths) != 1 or not olds or len(olds) != len(news):
        stop(f"{crate}/{name}: an edit is one line 'file: ..' and pairs of lines 'old: ..' and 'new: ..'")
    edit = Edit(crate, name.removesuffix(".edit"), paths.pop(), list(zip(olds, news)))
    with open(f"crates/{crate}/{edit.path}", encoding="utf-8") as file:
        text = file.read()
    if edit.applied(text) is None:
        stop(f"{crate}/{name}: an 'old:' text is not in {edit.path} once")
    edit.function = function_at(crate, edit.path, text[:text.index(olds[0]) + len(olds[0])])
    return edit


def function_at(crate, path, before):
    """The function in which a text ends, as a pattern of the path by which the checker names it: that of its module, or of its type's."""
    found = list(re.finditer(r"^( *)(?:pub(?:\(\w+\))? )?fn (\w+)", before, re.M))
    if not found or re.search(rf"^{found[-1][1]}\}}", before[found[-1].end():], re.M):
        stop(f"{crate}/{path}: no function stands there")
    indent, name = found[-1].groups()
    if indent:
        heads = r"^(?:impl(?:<.*?>)? (?:([\w:]+)(?:<(\w+).*?>)? for )?|(?:pub )?trait )(\w+|\(.*?\))"
        trait, argument, subject = re.findall(heads, before, re.M)[-1]
        if subject.startswith("("):
            # the checker names a tuple by its length and its types
            types = re.findall(r"\w+", subject)
            subject = f"Tuple{len(types)}" + "".join(name[0].upper() + name[1:] for name in types)
        # an impl of one kind of the type alone names that kind behind it, as in Store+File::open
        return rf"{crate}::(?:\w+::)*{subject}{trait.split('::')[-1]}(?:{argument})?(?:\+[\w+]+)?::{name}"
    module = path.removeprefix("src/").removesuffix(".rt").removesuffix("/mod")
    return "::".join([crate, *([] if module in ("lib", "main") else module.split("/")), name])


def edits_of(crate):
    folder = f"crates/{crate}/wrong-bodies"
    names = sorted(os.listdir(folder)) if os.path.isdir(folder) else []
    return [read_edit(crate, name) for name in names if name.endswith(".edit")]


def together(edits):
    """Those that can be tried in one check, at most one of a function, and the texts of the files with all of them."""
    chosen, texts = [], {}
    for edit in edits:
        if edit.path not in texts:
            with open(f"crates/{edit.crate}/{edit.path}", encoding="utf-8") as file:
                texts[edit.path] = file.read()
        text = edit.applied(texts[edit.path])
        if text is not None and edit.function not in [it.function for it in chosen]:
            texts[edit.path] = text
            chosen.append(edit)
    return chosen, texts


# ---- the record

def significant(path, text):
    """Returns what the prover reads of a file: without comments, empty lines and hints where to inline, and of code, whose layout means
    nothing, the tokens alone.

    A comment takes whole lines, in code and in definitions alike.
    """
    is_code = path.endswith(".rt")
    comment = "//" if is_code else "--"
    lines = [line.rstrip() for line in text.split("\n")
             if line.strip() and not line.lstrip().startswith(comment) and not (is_code and HINT.fullmatch(line))]
    return " ".join(TOKEN.findall("\n".join(lines))) if is_code else "\n".join(lines)


def contracts(text):
    """Returns code without the bodies of its functions: what other crates see of it."""
    kept, head, end = [], None, None
    for line in text.split("\n"):
        if end is not None:
            end = None if line == end else end
            continue
        kept.append(line)
        if found := re.match(r"( *)(?:pub(?:\(\w+\))? )?(?:const )?(?:unsafe )?fn \w", line):
            head = found[1]
        if head is None:
            continue
        if line == head + "{" or line.endswith(" {") and (found or line.startswith(head + ")")):
            head, end = None, head + "}"
        elif line.endswith(";"):
            head = None
    return "\n".join(kept)


def files_in(folder):
    for here, folders, files in os.walk(folder):
        folders.sort()
        yield from (f"{here}/{file}" for file in sorted(files))


def read_text(path):
    with open(path, encoding="utf-8") as file:
        return file.read()


def cited_lemmas(crate, below):
    """The files of lemmas of the crates below that a proof of the crate cites, itself or through others."""
    lemmas = {f"Rattle.{name}.proofs." + file[len(f"crates/{name}/proofs/"):-len(".antt")].replace("/", "."): file
              for name in below for file in files_in(f"crates/{name}/proofs") if file.endswith(".antt")}
    found, left = set(), [file for part in SOURCES for file in files_in(f"crates/{crate}/{part}")]
    while left:
        cited = set(re.findall(r"\bRattle\.\w+\.proofs(?:\.[A-Z]\w*)+", read_text(left.pop())))
        fresh = {lemmas[it] for name in cited for it in [name, name.rpartition(".")[0]] if it in lemmas} - found
        found |= fresh
        left += fresh
    return found


def sum_of_sources(crate, below):
    """Returns a checksum of what the proofs of the crate see: all of its own files, and of the crates below their contracts, definitions
    and cited lemmas. Comments do not count."""
    total = hashlib.sha256()
    seen = {file: read_text(file) for part in SOURCES for file in files_in(f"crates/{crate}/{part}")}
    for name in below:
        seen |= {file: contracts(read_text(file)) for file in files_in(f"crates/{name}/src")}
        seen |= {file: read_text(file) for file in files_in(f"crates/{name}/specs")}
    seen |= {file: read_text(file) for file in cited_lemmas(crate, below)}
    for file, text in sorted(seen.items()):
        total.update(f"{file}\n".encode() + hashlib.sha256(significant(file, text).encode()).digest())
    return total.digest()


def sums_of(crate, below, edits):
    """Returns for each edit the checksum under which it is recorded: of the sources, and of the tokens that the edit replaces and inserts."""
    sources, found = sum_of_sources(crate, below), {}
    for edit in edits:
        change = [TOKEN.findall(text) for pair in edit.pairs for text in pair]
        found[edit.name] = hashlib.sha256(sources + repr((edit.path, change)).encode()).hexdigest()[:16]
    return found


def read_record():
    """The checksum under which each edit was seen to do as it has to."""
    if not os.path.isfile(RECORD):
        return {}
    with open(RECORD, encoding="utf-8") as file:
        return dict(line.split() for line in file)


def read_waiting():
    """The edits that wait to be tried over the sources as they are."""
    if not os.path.isfile(WAITING):
        return set()
    with open(WAITING, encoding="utf-8") as file:
        return set(file.read().split())


def note(crate, sums):
    """Puts the edits of the crate that did as they have to into the record, and takes out those that are no more."""
    kept = {name: it for name, it in read_record().items() if name.partition("/")[0] != crate or os.path.isfile(
        "crates/{0}/wrong-bodies/{1}.edit".format(*name.split("/")))}
    kept |= {f"{crate}/{name}": it for name, it in sums.items()}
    with open(RECORD, "w", encoding="utf-8") as file:
        file.writelines(f"{name} {it}\n" for name, it in sorted(kept.items()))
    waiting = read_waiting()
    if left := waiting - {f"{crate}/{name}" for name in sums}:
        if left != waiting:
            with open(WAITING, "w", encoding="utf-8") as file:
                file.writelines(f"{name}\n" for name in sorted(left))
    elif waiting:
        os.remove(WAITING)


# ---- checks

def check_edited(crate, texts, below):
    """What the checker says of the crate with these texts in place of its own, in a room of its own beside links to what it stands on."""
    os.makedirs("out", exist_ok=True)
    with tempfile.TemporaryDirectory(dir="out") as room:
        os.mkdir(f"{room}/crates")
        shutil.copy("HANDLES", room)
        with open("crates.txt", encoding="utf-8") as file, open(f"{room}/crates.txt", "w", encoding="utf-8") as listed:
            listed.writelines(line for line in file if line.partition(":")[0].split()[:1] in [[it] for it in [crate, *below]])
        for other in below:
            shutil.copytree(f"crates/{other}", f"{room}/crates/{other}", copy_function=os.link)
        for part in PARTS:
            if os.path.isdir(f"crates/{crate}/{part}"):
                shutil.copytree(f"crates/{crate}/{part}", f"{room}/crates/{crate}/{part}")
        for path, text in texts.items():
            with open(f"{room}/crates/{crate}/{path}", "w", encoding="utf-8") as file:
                file.write(text)
        ran = subprocess.run(["rt", "check", "--jobs", "1"], cwd=f"{room}/crates/{crate}", stdin=subprocess.DEVNULL,
                             stdout=subprocess.PIPE, stderr=subprocess.STDOUT, encoding="utf-8", errors="replace")
    return ran.stdout.split("\n")


def noted_goal(lines):
    """The last goal that the notes at the end of these lines say is not proved: those of a function stand before its own line."""
    notes = re.compile(r"note: .*it is not proved that .*\((`[^`]*`)\)")
    for line in reversed(lines):
        if line.startswith("fn "):
            break
        if found := notes.match(line):
            return found[1]
    return None


def goal_of(edit, lines):
    """A goal of the edit's own function that is not proved, None where there is none."""
    own_line = re.compile(rf"fn ({edit.function}): (.*)")
    places = [place for place, line in enumerate(lines) if own_line.match(line)]
    said = [own_line.match(lines[place]) for place in places]
    if len(said) != 1:
        stop(f"{edit.crate}/{edit.name}: the checker speaks {len(said)} times of {edit.function}; its last lines:\n" + "\n".join(lines[-6:]))
    if goal := re.search(r"`search` did not prove (`[^`]*`)", said[0][2]):
        return goal[1]
    if goal := noted_goal(lines[:places[0]]):
        return goal
    _, *parts = said[0][1].split("::")
    own = re.compile(rf"\./proofs/{'/'.join([*parts[:-1], ''])}\+?{parts[-1]}/\w+\.antt:\d+:\d+: error: (.*)")
    names = re.compile(r"has no field|is not in scope|has no `|was not admitted")
    errors = [found[1] for line in lines if (found := own.match(line))]
    edit.takes_a_name = any(names.search(error) for error in errors)
    return next((error[:70] for error in errors if not names.search(error)), None)


def verdicts(crate, edits, below):
    """For each edit the goal that refuses it, or None."""
    left, goals = edits, {}
    while left:
        chosen, texts = together(left)
        lines = check_edited(crate, texts, below)
        found = {edit.name: goal for edit in chosen if (goal := goal_of(edit, lines))}
        goals |= found
        if not found:
            # what no check among others refuses is not refused
            goals |= {edit.name: None for edit in chosen}
        left = [edit for edit in left if edit.name not in goals]
    return goals


def try_crate(crate, below, edits):
    """Says what became of each of these edits of the crate, and returns whether each did as it has to."""
    sums = sums_of(crate, below, edits)
    goals = verdicts(crate, edits, below)
    lines, seen = [], {}
    for edit in edits:
        goal = goals[edit.name]
        well = edit.is_harmless() == (goal is None)
        if well:
            seen[edit.name] = sums[edit.name]
        unrefused = "not judged, since it takes away a goal's name" if edit.takes_a_name else "proved"
        lines.append(f"{crate}/{edit.name}: {'refused: ' + goal if goal else unrefused}{'' if well else ', WHICH IS WRONG'}")
    print("\n".join(lines), flush=True)
    with NOTING:
        note(crate, seen)
    return len(seen) == len(edits)


def make_library(crate, _below):
    """Checks the crate as it stands, and builds it where others stand on it: the edited copies are checked over that."""
    ran = subprocess.run(["rt", "lib", "--jobs", "1"], cwd=f"crates/{crate}", stdin=subprocess.DEVNULL,
                         stdout=subprocess.PIPE, stderr=subprocess.STDOUT, encoding="utf-8", errors="replace")
    if ran.returncode:
        print(ran.stdout, f"{crate}: not proved as it stands", sep="\n", flush=True)
    return ran.returncode == 0


# ---- all crates

def all_below(crates, crate):
    """The libraries that the crate stands on, and those under them."""
    found = {it: None for below in crates[crate] for it in [*all_below(crates, below), below]}
    return list(found)


def unnoted(crate, below, edits):
    """Those of the edits that the record does not have as they stand."""
    sums, record = sums_of(crate, below, edits), read_record()
    return [it for it in edits if record.get(f"{crate}/{it.name}") != sums[it.name]]


def tasks_of(crates, tried):
    """What is to be done, and what each waits for. `tried` has the edits of each crate."""
    needed = {it for name in tried for it in [*all_below(crates, name), name]}
    tasks = {}
    for crate in crates:
        below = all_below(crates, crate)
        is_library = os.path.isfile(f"crates/{crate}/src/lib.rt")
        if crate in needed and is_library:
            tasks["library", crate] = ([("library", it) for it in below], below, make_library)
        if crate in tried:
            do = functools.partial(try_crate, edits=tried[crate])
            tasks["edits", crate] = ([("library", it) for it in [*below, *([crate] if is_library else [])]], below, do)
    return tasks


def in_lanes(tasks):
    """Runs each task once those that it waits for have ended, libraries first. Whether all went well."""
    left, running, done = sorted(tasks, key=lambda it: it[0], reverse=True), {}, {}
    with ThreadPoolExecutor(LANES) as pool:
        while left or running:
            ready = [it for it in left if all(below in done for below in tasks[it][0])]
            for key in ready[:LANES - len(running)]:
                left.remove(key)
                _, below, do = tasks[key]
                running[pool.submit(do, key[1], below)] = key
            for ended in wait(running, return_when=FIRST_COMPLETED).done:
                done[running.pop(ended)] = ended.result()
    return all(done.values())


def main():
    os.chdir(os.path.dirname(os.path.dirname(os.path.abspath(__file__))))
    crates = read_crates()
    only_changed = "--changed" in sys.argv[1:]
    names = [it for it in sys.argv[1:] if it != "--changed"] or [it for it in crates if os.path.isdir(f"crates/{it}/wrong-bodies")]
    for name in names:
        if name not in crates:
            stop(f"crates.txt has no crate {name}")
    tried = {it: edits_of(it) for it in names}
    if only_changed:
        tried = {it: unnoted(it, all_below(crates, it), edits) for it, edits in tried.items()}
        waiting = read_waiting()
        passed = sum(f"{it}/{edit.name}" in waiting for it, edits in tried.items() for edit in edits)
        tried = {it: [edit for edit in edits if f"{it}/{edit.name}" not in waiting] for it, edits in tried.items()}
        if passed:
            print(f"{passed} wrong bodies were not tried since what they stand on changed (tests/untried)", flush=True)
    left = sum(map(len, tried.values()))
    print(f"{left} wrong bodies to try" + (", the others were seen refused as they stand" if only_changed else ""), flush=True)
    sys.exit(0 if in_lanes(tasks_of(crates, {it: edits for it, edits in tried.items() if edits})) else 1)


if __name__ == "__main__":
    main()
