#!/usr/bin/env python3
"""Tests stories: makes the input and the expected output of the crate `stories` from tests/stories.

tests/stories.py           writes crates/stories/data, args and stdout, and the examples
tests/stories.py --check   names the files that differ from what it would write
tests/stories.py --play    runs the built program, and names the rows with another answer

tests/stories/README.md says how a story is written.
"""

import itertools
import json
import re
import subprocess
import sys
from dataclasses import dataclass, field
from pathlib import Path

HERE = Path(__file__).resolve().parent
STORIES = HERE / "stories"
CRATE = HERE.parent / "crates" / "stories"
EXAMPLES = HERE.parent / "examples"
WINDOWS = EXAMPLES / "windows.toml"

# The stories that are examples too: a stream of messages, and its answers.
SHOWN = ("block", "carrier", "first-port", "modified-for-some", "windows-of-broadcasts")

NUMBERS = {"attempt", "due", "id", "ids", "in_force", "minute", "now", "open", "release", "set", "since"}
# The windows are numbers too.
NUMBERS |= {"initial_concurrence", "final_concurrence", "pending_retention", "broadcast"}
NUMBERS |= {"conflict_restriction", "conflict_resolution", "conflict_expiration"}
NUMBERS |= {"cancellation_initial", "cancellation_final"}
# The keys of lists: of texts or numbers, and of what `let` has named.
LISTS = {"ids", "used"}
NAMED_LISTS = {"downloads", "rows"}
PHRASES = {
    200: "OK",
    400: "Bad Request",
    403: "Forbidden",
    404: "Not Found",
    405: "Method Not Allowed",
    409: "Conflict",
    413: "Payload Too Large",
    503: "Service Unavailable",
}
ENDS = {"input", "closed", "bad_head", "too_large", "cut_body"}
# How a file of commands, an export or an audit ends.
ENDS |= {"written", "bad_header", "bad_file", "unknown_carrier"}
# The byte between the connections of a story, and the one that begins a file in place of a connection.
BREAK = "\x1e"
FILE = "\x1d"


class Mistake(Exception):
    """A mistake in a story, and where it is."""


@dataclass
class Row:
    where: str
    asked: str
    answers: list[str] = field(default_factory=list)

    @property
    def is_file(self) -> bool:
        return self.asked.startswith(FILE)

    @property
    def count(self) -> int:
        """How many messages are answered, or how many rows a file writes after its header."""
        return max(0, "".join(self.answers).count("\n") - 1) if self.is_file else len(self.answers)


@dataclass
class End:
    where: str
    how: str


@dataclass
class Names:
    """The names that `let` has given: to the fields of bodies, and to texts."""

    fields: dict[str, dict[str, str]] = field(default_factory=dict)
    texts: dict[str, str] = field(default_factory=dict)


@dataclass
class Piece:
    """A piece of the expected output, and the line of a story that expects it."""

    where: str
    text: str


def encoded(text: str) -> bytes:
    """Returns the bytes of a text, in which `\\udc80` to `\\udcff` are the bytes 80 to FF, which are no UTF-8."""
    return text.encode(errors="surrogateescape")


def between(low: str, high: str) -> list[str]:
    """Returns the numbers from `low` to `high`, each with as many digits as `low`."""
    return [str(number).zfill(len(low)) for number in range(int(low), int(high) + 1)]


def items(text: str) -> list[str]:
    """Returns the items of a list, where `001..100` is each from one to the other, and `001*9` is one nine times."""
    made: list[str] = []
    for part in text.split(","):
        if ends := re.fullmatch(r"(\d+)\.\.(\d+)", part):
            made += between(ends[1], ends[2])
        elif counted := re.fullmatch(r"(\w+)\*(\d+)", part):
            made += [counted[1]] * int(counted[2])
        else:
            made.append(part)
    return made


def value(key: str, text: str, names: Names) -> str:
    """Returns a value as JSON writes it."""
    if text in ("null", "true", "false") or text[:1] in ("[", "{"):
        return text
    if key in NAMED_LISTS:
        return "[" + ",".join(object_of(names.fields[name], names) for name in text.split(",")) + "]"
    if key in LISTS:
        return "[" + ",".join(item if key in NUMBERS else json.dumps(item) for item in items(text)) + "]"
    return text if key in NUMBERS else json.dumps(text)


def object_of(fields: dict[str, str], names: Names) -> str:
    """Returns fields as a JSON object, with ascending keys."""
    return "{" + ",".join(f'"{key}":{value(key, fields[key], names)}' for key in sorted(fields)) + "}"


def fields_of(words: list[str], names: Names) -> dict[str, str]:
    """Returns the fields that words give: those of a name, if the first word is one, and then each `key=value`."""
    fields: dict[str, str] = {}
    if "=" not in words[0]:
        fields.update(names.fields[words.pop(0)])
    for word in words:
        key, _, text = word.partition("=")
        fields[key] = text
    return fields


def body_of(text: str, names: Names) -> str:
    """Returns a body: JSON as it is, texts, or fields with ascending keys."""
    if not text or text[0] in "{[":
        return text
    if text.startswith("raw "):
        return texts_of(text.removeprefix("raw "), names)
    return object_of(fields_of(text.split(), names), names)


def texts_of(text: str, names: Names) -> str:
    """Joins texts in quotes, as JSON writes them, and names of texts; `*N` after one repeats it N times."""
    made = ""
    for part in re.findall(r'(?:"(?:[^"\\]|\\.)*"|[^\s"*]+)(?:\*\d+)?', text):
        one, times = part, 1
        if counted := re.fullmatch(r"(.*)\*(\d+)", part, re.DOTALL):
            one, times = counted[1], int(counted[2])
        made += (json.loads(one) if one.startswith('"') else names.texts[one]) * times
    return made


def asked(caller: str, path: str, body: str) -> str:
    if not body:
        return f"GET {path} HTTP/1.1\r\nx-spid: {caller}\r\n\r\n"
    length = len(encoded(body))
    return f"POST {path} HTTP/1.1\r\nx-spid: {caller}\r\ncontent-length: {length}\r\n\r\n{body}"


def answer(text: str, names: Names) -> str:
    """Returns an answer: a status and a body, or a status, a refusal's name and its number, or what a file writes."""
    status, _, rest = text.partition(" ")
    if status == "writes":
        return texts_of(rest, names)
    if refused := re.fullmatch(r"(\w+) (\d+)", rest):
        body = f'{{"error":"{refused[1]}","number":{refused[2]}}}'
    else:
        body = body_of(rest, names)
    head = f"HTTP/1.1 {status} {PHRASES[int(status)]}\r\ncontent-type: application/json\r\n"
    return f"{head}content-length: {len(body.encode())}\r\n\r\n{body}"


def unrolled(lines: list[tuple[str, str]]) -> list[tuple[str, str]]:
    """Returns the lines, those between `for` and `end` once for each number in place of `#`."""
    made: list[tuple[str, str]] = []
    repeated: list[tuple[str, str]] = []
    numbers: list[str] = []
    for where, line in lines:
        if loop := re.fullmatch(r"for (\d+) to (\d+)", line):
            numbers = between(loop[1], loop[2])
            repeated = []
        elif line == "end":
            made += [(at, each.replace("#", number)) for number in numbers for at, each in repeated]
            numbers = []
        elif numbers:
            repeated.append((where, line))
        else:
            made.append((where, line))
    return made


def said_by_each(lines: list[tuple[str, str]]) -> list[tuple[str, str]]:
    """Returns the lines, a row of several callers once for each of them, with its answers after each."""
    made: list[tuple[str, str]] = []
    rows: list[list[tuple[str, str]]] = []
    for where, line in lines:
        if line.startswith(" "):
            for row in rows:
                row.append((where, line))
        else:
            made += itertools.chain(*rows)
            several = re.fullmatch(r"([A-Z0-9]{4}(?:,[A-Z0-9]{4})+)( /.*)", line)
            said = [each + several[2] for each in several[1].split(",")] if several else [line]
            rows = [[(where, each)] for each in said]
    return [*made, *itertools.chain(*rows)]


def lines_of(name: str) -> list[tuple[str, str]]:
    path = STORIES / f"{name}.story"
    lines = path.read_text(encoding="utf-8").splitlines()
    if not lines or not lines[0].startswith("# "):
        raise Mistake(f"{path.name}: the first line is no title")
    numbered = [(f"{path.name}:{number}", line) for number, line in enumerate(lines, 1)]
    said = [(at, line) for at, line in numbered if line and not line.startswith("#")]
    return said_by_each(unrolled(said))


def let(line: str, names: Names) -> None:
    name, _, rest = line.partition(" ")
    if rest.startswith('"'):
        names.texts[name] = texts_of(rest, names)
    else:
        names.fields[name] = fields_of(rest.split(), names)


def file_of(word: str, rest: str, names: Names) -> str:
    """Returns what stands for a file in place of a connection: a line that says what is done, and its bytes."""
    carrier, _, texts = rest.partition(" ") if word == "audit" else ("", "", rest)
    return f"{FILE}{word} {carrier}\n{texts_of(texts, names)}"


def add(where: str, line: str, rows: list[Row | End], names: Names, is_whole: bool) -> None:
    """Adds a line to the rows."""
    word, _, rest = line.partition(" ")
    if line.startswith(" "):
        last = rows[-1]
        if not isinstance(last, Row):
            raise Mistake(f"{where}: an answer without a message")
        last.answers.append(answer(line.strip(), names))
    elif word == "let":
        let(rest, names)
    elif word == "after":
        rows += rows_of(rest, names, True) if is_whole else []
    elif word == "then":
        rows += rows_of(rest, names, False)
    elif word == "raw":
        rows.append(Row(where, texts_of(rest, names)))
    elif word in ("bulk", "export", "audit"):
        rows.append(Row(where, file_of(word, rest, names)))
    elif word == "ends" and rest in ENDS:
        rows.append(End(where, rest))
    elif said := re.fullmatch(r"([A-Z0-9]{4}) (/\S*) ?(.*)", line):
        rows.append(Row(where, asked(said[1], said[2], body_of(said[3], names))))
    else:
        raise Mistake(f"{where}: {line}")


def rows_of(name: str, names: Names, is_whole: bool) -> list[Row | End]:
    """Returns a story's rows, with or without those of the story that it comes after."""
    rows: list[Row | End] = []
    for where, line in lines_of(name):
        try:
            add(where, line, rows, names, is_whole)
        except (KeyError, ValueError, IndexError) as fault:
            raise Mistake(f"{where}: {line} ({fault!r})") from fault
    return rows


def names_of_all() -> Names:
    names = Names()
    for line in (STORIES / "names").read_text(encoding="utf-8").splitlines():
        if line.startswith("let "):
            let(line.removeprefix("let "), names)
    return names


def example(name: str) -> dict[Path, bytes]:
    """Returns a story of one connection as an example: its messages, and their answers."""
    rows = [row for row in rows_of(name, names_of_all(), True) if isinstance(row, Row)]
    texts = {
        "http": "".join(row.asked for row in rows),
        "answers": "".join(text for row in rows for text in row.answers),
    }
    return {EXAMPLES / f"{name}.{kind}": text.encode() for kind, text in texts.items()}


def ended(rows: list[Row | End]) -> list[Row | End]:
    """Returns the rows, with an end after each connection and each file."""
    made: list[Row | End] = []
    for row, after in itertools.zip_longest(rows, rows[1:]):
        made.append(row)
        if isinstance(row, Row) and not isinstance(after, End) and (after is None or row.is_file or after.is_file):
            made.append(End(row.where, "written" if row.is_file else "input"))
    return made


def told(name: str) -> tuple[str, list[Piece]]:
    """Returns the messages of a story, and the pieces of its expected output."""
    rows = ended(rows_of(name, names_of_all(), True))
    stream, count = "", 0
    pieces = [Piece(f"{name}.story", f"story {name}\n")]
    for row in rows:
        if isinstance(row, Row):
            stream += row.asked
            pieces += [Piece(row.where, text) for text in row.answers]
            count += row.count
        else:
            stream += BREAK
            pieces.append(Piece(row.where, f"\n{count} answered, {row.how}\n"))
            count = 0
    return stream.removesuffix(BREAK), pieces


def made() -> tuple[dict[Path, bytes], list[Piece]]:
    """Returns the files of the crate, and the pieces of its standard output."""
    files = {CRATE / "data" / "w.toml": WINDOWS.read_bytes()}
    all_pieces: list[Piece] = []
    names = sorted(path.stem for path in STORIES.glob("*.story"))
    for name in names:
        stream, pieces = told(name)
        files[CRATE / "data" / name] = encoded(stream)
        all_pieces += pieces
    for name in SHOWN:
        files.update(example(name))
    files[CRATE / "args"] = "".join(f"{name}\n" for name in names).encode()
    files[CRATE / "stdout"] = "".join(piece.text for piece in all_pieces).encode()
    return files, all_pieces


def differences(pieces: list[Piece], heard: str) -> list[str]:
    """Returns where the output differs from what is expected: the first place of each story."""
    found, at, is_lost = [], 0, False
    for piece in pieces:
        is_title = piece.text.startswith("story ")
        if is_lost and is_title:
            again = heard.find(piece.text, at)
            at, is_lost = (again, False) if again >= 0 else (at, True)
        if is_lost:
            continue
        if heard.startswith(piece.text, at):
            at += len(piece.text)
        else:
            instead = heard[at : at + len(piece.text) + 40]
            found.append(f"{piece.where}\n  wanted {piece.text!r}\n  heard  {instead!r}")
            is_lost = True
    if not is_lost and at < len(heard):
        found.append(f"more is printed: {heard[at:][:200]!r}")
    return found


def notices(pieces: list[Piece]) -> bool:
    """Returns whether each wrong answer is noticed, and named by its line."""
    wanted = [piece.text for piece in pieces]
    for place, piece in enumerate(pieces):
        other = "".join([*wanted[:place], piece.text[:-2], "~~", *wanted[place + 1 :]])
        found = differences(pieces, other)
        if not found or not found[0].startswith(piece.where):
            return False
    return differences(pieces, "".join(wanted)) == []


def write(files: dict[Path, bytes]) -> int:
    (CRATE / "data").mkdir(parents=True, exist_ok=True)
    for path in (CRATE / "data").iterdir():
        if path not in files:
            path.unlink()
    for path, content in files.items():
        path.write_bytes(content)
    return 0


def check(files: dict[Path, bytes], pieces: list[Piece]) -> int:
    there = {*(CRATE / "data").iterdir(), CRATE / "args", CRATE / "stdout"}
    for path in sorted(there | files.keys()):
        is_made = path in files and path.is_file()
        if not is_made or path.read_bytes() != files[path]:
            name = path.relative_to(HERE.parent)
            print(f"{name} is not what tests/stories.py makes of the stories")
            return 1
    if not notices(pieces[:200]):
        print("tests/stories.py does not notice an answer that is not wanted")
        return 1
    return 0


def play(pieces: list[Piece]) -> int:
    names = (CRATE / "args").read_text(encoding="utf-8").split()
    program = CRATE / "out" / "stories"
    ran = subprocess.run([program, *names], cwd=CRATE / "data", capture_output=True, check=False)
    found = differences(pieces, ran.stdout.decode(errors="replace"))
    print("\n".join(found) or f"{len(names)} stories are answered as they are written")
    sys.stderr.write(ran.stderr.decode(errors="replace"))
    return 1 if found or ran.returncode else 0


def main(words: list[str]) -> int:
    try:
        files, pieces = made()
    except Mistake as mistake:
        print(mistake)
        return 1
    if words == ["--check"]:
        return check(files, pieces)
    if words == ["--play"]:
        return play(pieces)
    return write(files) if not words else 2


if __name__ == "__main__":
    sys.exit(main(sys.argv[1:]))
