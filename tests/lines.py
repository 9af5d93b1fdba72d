#!/usr/bin/env python3
"""Tests that lines of definitions and proofs have at most 100 columns.

usage: tests/lines.py [--break]

Names each longer line that can be broken, and fails if there is one. An import stays one line, since
`rt fmt` puts each of its names on a line of its own; a text is one word, and so is a goal's name; and
`rt fmt` joins a bracket to the `in` before it. With --break, breaks the lines and has `rt fmt` lay
them out, until nothing changes.

A line is broken after the bracket of a long record or tuple, so that each of its parts gets a line;
else before an operator, after `=` or `in`, or between arguments, where brackets are least deep."""
import glob
import os
import re
import subprocess
import sys

WIDTH = 100
# Lines that wait: to break one proves its crate again, and all above. Each has one column too many.
WAITING = {("crates/api/specs/Executing.antt", 81)}
OPENING, CLOSING = "([{", ")]}"
# A line is broken before these, the loosest first.
BEFORE = [{"→", "↦", "then", "else"}, {"×", "⊎"}, {"∙"}, {"≡", "≢"},
          {"≤", "<", "∷", "++", "&&", "||", "+"}]
NEVER_BEFORE = {":", "in", "where", "=", "]", ")", "}", "↦", ";"}
NEVER_BEHIND = {"λ", "|", "pub", "let", ":", "abbrev", "module"}
IMPORTS = ("use ", "pub use ", "ghost use ")


def words_of(text):
    """Returns the words of a line, each with its column and the depth of its brackets; a text is one word."""
    words, depth, start, least, at = [], 0, None, 0, 0
    while at < len(text):
        char = text[at]
        if char == " ":
            if start is not None:
                words.append((start, text[start:at], least))
                start = None
            at += 1
            continue
        if start is None:
            start, least = at, depth
        if char == '"':
            at += 1
            while at < len(text) and text[at] != '"':
                at += 2 if text[at] == "\\" else 1
        depth += (char in OPENING) - (char in CLOSING)
        at += 1
    if start is not None:
        words.append((start, text[start:], least))
    return words


def rank(word, before):
    """Returns how well a line breaks before this word: 0 is best, 9 tears an operator from its operand."""
    if before in ("=", "in") or before.endswith(";"):
        return 0
    for place, operators in enumerate(BEFORE):
        if word in operators:
            return place + 1
    if any(before in operators for operators in BEFORE) or before in ("¬", "Type"):
        return 9
    return 6 if before in ("{", "[") or before.endswith("record") else 5


def breaks_of(text):
    """Returns where the line may be broken: column, depth, rank. Never between a λ and its dot."""
    words, binders, found = words_of(text), [], []
    for (_, before, _), (column, word, depth) in zip([(0, "|", 0), *words], words):
        if not any(it <= depth for it in binders) and before not in NEVER_BEHIND and word not in NEVER_BEFORE:
            found.append((column, depth, rank(word, before)))
        bare = word.lstrip(OPENING)
        if bare.startswith("λ"):
            binders.append(depth + len(word) - len(bare))
        if binders and word.endswith(".") and not word.endswith(".."):
            binders.pop()
    return [it for it in found if it[0] >= 12]


def matching(text, place):
    depth = 0
    for at in range(place, len(text)):
        depth += (text[at] in OPENING) - (text[at] in CLOSING)
        if depth == 0:
            return at
    return len(text)


def has_comma(inside):
    depth = 0
    for char in inside:
        depth += (char in OPENING) - (char in CLOSING)
        if char == "," and depth == 0:
            return True
    return False


def parts_begin(text):
    """Returns the place after the bracket of the outermost long record or tuple, if the line has one and no text."""
    found, depth = None, 0
    for place, char in enumerate(text if '"' not in text else ""):
        if char in OPENING:
            end = matching(text, place)
            inside = text[place + 1:end]
            is_record = char == "{" and " = " in inside and end - place > 50 \
                and re.search(r"\brecord( \S+| \([^()]*\))? $", text[:place])
            is_tuple = char == "(" and has_comma(inside) and end - place > 70
            if (is_record or is_tuple) and (found is None or depth < found[1]):
                found = (place + 1, depth)
            depth += 1
        elif char in CLOSING:
            depth -= 1
    return found and found[0]


def broken(line):
    """Returns the line in two parts, or as it is."""
    bare = line.lstrip(" ")
    indent = line[:len(line) - len(bare)]
    if bare.startswith("-- "):
        at = bare.rfind(" ", 3, WIDTH - len(indent) + 1)
        return [line] if at < 4 else [indent + bare[:at], indent + "-- " + bare[at + 1:]]
    at, room = parts_begin(bare), WIDTH - len(indent)
    if at is None:
        places = breaks_of(bare)
        fit = [it for it in places if it[0] - 1 <= room]
        cost = lambda it: (it[1] * 14 + it[2] * 6 + (room - it[0]) * 0.45, -it[0])
        at = min(fit, key=cost)[0] if fit else places[0][0] if places else None
    return [line] if at is None else [indent + bare[:at].rstrip(), indent + "    " + bare[at:].lstrip()]


def is_long(line):
    return len(line) > WIDTH and not line.lstrip(" ").startswith(IMPORTS)


def files():
    return sorted(glob.glob("crates/*/specs/**/*.antt", recursive=True) + glob.glob("crates/*/proofs/**/*.antt", recursive=True))


def lines_of(name):
    with open(name, encoding="utf-8") as file:
        return file.read().split("\n")


def could_be_broken(line):
    return is_long(line) and not line.endswith(" in (") and '"' not in line and len(broken(line)) > 1


def break_all():
    for _ in range(20):
        changed = set()
        for name in files():
            lines = lines_of(name)
            result = [part for line in lines for part in (broken(line) if could_be_broken(line) else [line])]
            if result != lines:
                changed.add(name.split("/")[1])
                with open(name, "w", encoding="utf-8") as file:
                    file.write("\n".join(result))
        for crate in changed:
            subprocess.run(["rt", "fmt"], cwd=f"crates/{crate}", check=True, stdout=subprocess.DEVNULL)
        if not changed:
            return


def main():
    os.chdir(os.path.join(os.path.dirname(os.path.abspath(__file__)), ".."))
    if "--break" in sys.argv[1:]:
        break_all()
    found = [f"{name}:{number}: {len(line)} columns" for name in files()
             for number, line in enumerate(lines_of(name), 1) if could_be_broken(line) and (name, number) not in WAITING]
    print("\n".join(found) if found else "no line is longer than 100 columns that could be broken")
    sys.exit(1 if found else 0)


if __name__ == "__main__":
    main()
