"""What is said to the program, and what it has to answer."""
import json
import sys
from itertools import zip_longest

# a text of JSON as the program writes it: its keys sorted, no spaces
text_of = json.JSONEncoder(separators=(",", ":"), sort_keys=True).encode


def message(caller, path, body):
    return f"POST {path} HTTP/1.1\r\nx-spid: {caller}\r\ncontent-length: {len(body)}\r\n\r\n{body}"


def question(caller, path):
    return f"GET {path} HTTP/1.1\r\nx-spid: {caller}\r\n\r\n"


def answer(body):
    """An answer of success."""
    return f"HTTP/1.1 200 OK\r\ncontent-type: application/json\r\ncontent-length: {len(body)}\r\n\r\n{body}"


def registered(carrier):
    return message("NPAC", "/carriers", f'{{"spid":"{carrier}"}}')


def opened(code, holder):
    return message("NPAC", "/codes", f'{{"code":"{code}","spid":"{holder}"}}')


def routed(carrier, lrn):
    return message(carrier, "/lrns", f'{{"lrn":"{lrn}"}}')


def clock(minute):
    return message("NPAC", "/clock", f'{{"minute":{minute}}}')


def on_version(caller, action, version):
    return message(caller, f"/subscriptionVersion{action}", f'{{"id":{version}}}')


def acknowledgement(carrier, version, attempt=1):
    return message(carrier, "/downloads/acknowledge", f'{{"attempt":{attempt},"id":{version}}}')


def said(caller, path, body, told):
    """A message and its answer, of bodies that are values."""
    return message(caller, path, text_of(body)), answer(text_of(told))


def write(path, texts):
    """Writes texts one behind the other, and says how many they are."""
    with open(path, "w", newline="", encoding="utf-8") as stream:
        return sum(1 for text in texts if stream.write(text))


def parts(stream):
    """The messages or answers of a stream: each a head, and as many bytes as it says."""
    part, length = b"", 0
    while line := stream.readline():
        part += line
        if line.startswith(b"content-length:"):
            length = int(line.split(b":")[1])
        if line == b"\r\n":
            yield part + stream.read(length)
            part, length = b"", 0
    if part:
        yield part


def shown(*statuses):
    """What answers have to show of versions in these statuses."""
    return [f'"status":"{status}"' for status in statuses]


def is_told(heard, told):
    """Whether an answer is the one that is wanted, to the byte."""
    return heard == told


def shows(heard, shown):
    """Whether an answer is one of success, and has in it what is wanted."""
    return heard.startswith(b"HTTP/1.1 200 OK\r\n") and shown in heard


def check(path, rows, is_so=is_told):
    """Every message is answered as its row, a message and what is wanted, has it, and no more comes."""
    with open(path, "rb") as stream:
        for heard, row in zip_longest(parts(stream), rows):
            asked, wanted = row or ("no more was asked", "")
            if heard is None or row is None or not is_so(heard, wanted.encode()):
                sys.exit(f"{asked}\nwanted {wanted}\nheard  {heard}")


def count_of(path, piece):
    """How often a piece of a line stands in a file."""
    with open(path, "rb") as stream:
        return sum(line.count(piece) for line in stream)
