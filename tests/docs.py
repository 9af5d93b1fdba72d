#!/usr/bin/env python3
"""Tests the documents: their lengths, tables, links, quotations, counts and words.

usage: tests/docs.py [--run]

Names each place that breaks a rule, and fails if there is one. The rules are those of docs/STYLE.md that a script can check:

- a document has at most the words of LIMITS, and docs/ at most TOTAL; a cell of a table has at most 80 characters;
- a link leads to a file, and to a heading if it names one;
- a box without a language in THEOREM.md is in a source, a definition or a wrong body as it is;
- counts are those of the tree; documents and comments have few of the phrases that STYLE.md replaces.

With --run, runs each box that is marked `sh run`, in its order, against the built program: in a folder of its own, a fresh one for each
document. It needs crates/npacd/out/npacd, and is no part of the gate.
"""
import re
import subprocess
import sys
import tempfile
from pathlib import Path

TOP = Path(__file__).resolve().parent.parent
LIMITS = {
    "README.md": 1000, "docs/ARCHITECTURE.md": 1600, "docs/CHANGING.md": 1500, "docs/CONTRACTS.md": 1800, "docs/DECISIONS.md": 1800,
    "docs/FILES.md": 1500, "docs/GLOSSARY.md": 800, "docs/INTERFACE.md": 2400, "docs/MEASUREMENTS.md": 1000, "docs/OPERATING.md": 2200,
    "docs/RULES.md": 2600, "docs/STYLE.md": 1000, "docs/TEL.md": 650, "docs/TESTING.md": 1800, "docs/THEOREM.md": 3600,
    "docs/openapi.yaml": 2500,
}
TOTAL = 27_000
WIDEST_CELL = 80
# phrases that STYLE.md replaces
PHRASES = re.compile(
    r"\b(want of memory|so many|a front of|(is|are|was|were|be) told|anew|brought to the rows|handed in|carried out|comes to"
    r"|each once, rising|take[sn]? (the )?room|let go|what (stands|waits)|of whom)\b", re.IGNORECASE)
COMMENT = {".rt": re.compile(r"\s*//[/!]?\s?(.*)"), ".antt": re.compile(r"\s*--+\s?(.*)")}
# how many of these phrases comments of code and definitions may have
MOST_IN_CODE = 60


def read(path):
    return (TOP / path).read_text(encoding="utf-8")


def documents():
    return ["README.md", "CHANGELOG.md", *sorted(str(path.relative_to(TOP)) for path in TOP.glob("docs/*.md"))]


def prose(text):
    """The lines of a document outside its boxes, each with its number."""
    inside = False
    for number, line in enumerate(text.split("\n"), 1):
        if line.startswith("```"):
            inside = not inside
        elif not inside:
            yield number, line


def lengths():
    counts = {path: len(read(path).split()) for path in LIMITS}
    for path in documents():
        if path not in LIMITS and path != "CHANGELOG.md":
            yield f"{path}: has no limit in tests/docs.py"
    for path, count in counts.items():
        if count > LIMITS[path]:
            yield f"{path}: {count:,} words; the limit is {LIMITS[path]:,}"
    total = sum(count for path, count in counts.items() if path.startswith("docs/"))
    if total > TOTAL:
        yield f"docs: {total:,} words; the limit is {TOTAL:,}"


def cells():
    for path in documents():
        for number, line in prose(read(path)):
            if line.startswith("|"):
                for cell in line.strip("|").split("|"):
                    text = re.sub(r"\]\([^)]*\)", "]", cell.strip())
                    if len(text) > WIDEST_CELL:
                        yield f"{path}:{number}: a cell of {len(text)} characters: {text[:50]}"


def anchors(text):
    """The anchors of a document's headings, as GitHub makes them."""
    titles = [line.lstrip("#").strip() for _, line in prose(text) if line.startswith("#")]
    return {re.sub(r"[^\w\- ]", "", re.sub(r"\[([^\]]*)\]\([^)]*\)", r"\1", title).lower()).replace(" ", "-") for title in titles}


def links():
    for path in [*documents(), "tests/stories/README.md"]:
        for number, line in prose(read(path)):
            for target in re.findall(r"\]\(([^)\s]+)\)", line):
                if "://" in target:
                    continue
                name, _, anchor = target.partition("#")
                file = (TOP / path).parent / name if name else TOP / path
                if not file.exists():
                    yield f"{path}:{number}: no file {target}"
                elif anchor and anchor not in anchors(file.read_text(encoding="utf-8")):
                    yield f"{path}:{number}: no heading {target}"


def quotations():
    parts = ("src/**/*.rt", "specs/**/*.antt", "wrong-bodies/*.edit")
    sources = "\0".join(path.read_text(encoding="utf-8") for part in parts for path in sorted(TOP.glob(f"crates/*/{part}")))
    for quoted in re.findall(r"^```\n(.*?)^```$", read("docs/THEOREM.md"), re.M | re.S):
        if quoted not in sources:
            yield f"docs/THEOREM.md: no source has this as it is quoted:\n{quoted}"


def counts():
    measured = read("docs/MEASUREMENTS.md")
    edits = [path for path in TOP.glob("crates/*/wrong-bodies/*.edit") if not path.name.startswith("harmless")]
    stories = list(TOP.glob("tests/stories/*.story"))
    for wanted in (f"| wrong bodies | {len(edits):,} |", f"| stories; their messages | {len(stories):,}; "):
        if wanted not in measured:
            yield f"docs/MEASUREMENTS.md: no row begins `{wanted}`"
    if subprocess.run([sys.executable, "-B", TOP / "bench" / "sizes", "--check"], capture_output=True, check=False).returncode:
        yield "docs/THEOREM.md: the sizes changed: run bench/sizes --write"


def phrases():
    for path in documents():
        if path == "docs/STYLE.md":
            continue
        for number, line in prose(read(path)):
            if found := PHRASES.search(re.sub(r"`[^`]*`", "", line)):
                yield f"{path}:{number}: `{found[0]}` is a phrase that docs/STYLE.md replaces"
    places = []
    for path in sorted(TOP.glob("crates/*/[sp][rp]*/**/*.*")):
        if comment := COMMENT.get(path.suffix):
            for number, line in enumerate(path.read_text(encoding="utf-8").split("\n"), 1):
                if (found := comment.match(line)) and PHRASES.search(found[1]):
                    places.append(f"{path.relative_to(TOP)}:{number}: {found[1]}")
    if len(places) > MOST_IN_CODE:
        yield from (f"{len(places)} phrases that docs/STYLE.md replaces, at most {MOST_IN_CODE} wanted:", *places)


def run_boxes():
    """Runs the boxes marked `sh run`; names each that fails."""
    for path in documents():
        boxes = re.findall(r"^```sh run\n(.*?)^```$", read(path), re.M | re.S)
        if not boxes:
            continue
        with tempfile.TemporaryDirectory() as folder:
            for name in ("crates", "examples", "docs"):
                (Path(folder) / name).symlink_to(TOP / name)
            for box in boxes:
                done = subprocess.run(["bash", "-e", "-c", box], cwd=folder, capture_output=True, text=True, timeout=600, check=False)
                print(f"---- {path}\n{box}----\n{done.stdout}{done.stderr}", end="")
                if done.returncode:
                    yield f"{path}: a box ends with {done.returncode}:\n{box}"


def main():
    if sys.argv[1:] == ["--run"]:
        found = list(run_boxes())
    elif not sys.argv[1:]:
        found = [place for rule in (lengths, cells, links, quotations, counts, phrases) for place in rule()]
    else:
        sys.exit(__doc__)
    if found:
        sys.exit("\n".join(found))
    print("the documents keep their rules")


if __name__ == "__main__":
    main()
