"""Tests the examples of docs/openapi.yaml: each is answered as it is written, in the order of its turns.

    bench/run openapi      (needs the built program, and PyYAML)

A served register gets each on a connection of its own.
"""
import http.client
import json
import time

import yaml

from lib.measure import counts
from lib.program import served

# Minutes below this one stand for the machine's present one.
LATER = 35_000_000
MINUTES = ("due", "minute", "now", "since")


def examples(document):
    """Turn, caller, method, path, body, and the status and body that are answered."""
    for path, methods in document["paths"].items():
        for method, operation in methods.items():
            answers = {
                name: (int(status), example["value"])
                for status, response in operation["responses"].items() if status != "default"
                for name, example in response["content"]["application/json"].get("examples", {}).items()
            }
            for name, example in asked(operation):
                value = example["value"]
                filled, body = path.partition("{")[0] + str(value), None
                if method == "post":
                    filled, body = path, json.dumps(value)
                yield example["x-turn"], example["x-caller"], method.upper(), filled, body, answers.pop(name)
            assert not answers, (path, answers)


def asked(operation):
    """The examples of the body, or of the last part of the path."""
    if "requestBody" in operation:
        return operation["requestBody"]["content"]["application/json"]["examples"].items()
    (part,) = [it for it in operation["parameters"] if it.get("in") == "path"]
    return part["examples"].items()


def is_so(heard, wanted, key=None):
    """Whether an answer is the one that is wanted, but for the machine's minutes."""
    if isinstance(wanted, dict):
        same_keys = isinstance(heard, dict) and list(heard) == sorted(wanted)
        return same_keys and all(is_so(heard[name], wanted[name], name) for name in wanted)
    if isinstance(wanted, list):
        return isinstance(heard, list) and len(heard) == len(wanted) and all(map(is_so, heard, wanted))
    if key in MINUTES and wanted < LATER:
        return 0 <= time.time() // 60 - heard <= 1
    return heard == wanted and type(heard) is type(wanted)


def answer(port, caller, method, path, body):
    client = http.client.HTTPConnection("127.0.0.1", port)
    client.request(method, path, body, {"x-spid": caller})
    response = client.getresponse()
    heard = response.read()
    client.close()
    return response.status, json.loads(heard)


def main(words):
    counts(words)
    with open("docs/openapi.yaml", encoding="utf-8") as file:
        walk = sorted(examples(yaml.safe_load(file)))
    assert [it[0] for it in walk] == list(range(1, len(walk) + 1)), "a turn is missing, or stands twice"
    with served(len(walk)) as port:
        for turn, caller, method, path, body, (status, wanted) in walk:
            heard = answer(port, caller, method, path, body)
            assert heard[0] == status and is_so(heard[1], wanted), (turn, path, heard, wanted)
    print(f"{len(walk)} examples are answered as they are written")
