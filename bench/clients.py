"""Measures ordinary clients of `npacd serve`, all at once: wrk, Node's agent, Python's requests and curl.

    bench/run clients [SECONDS [WORDS ..]]      (default 60; WORDS go to the program, as --db FILE; needs the built program,
                                                 wrk, node, curl and Python's requests)

Each asks the same query: wrk on 16 connections, Node on 8 that it keeps, four threads with a session of requests each, and a
curl after another. For each: how many responses there were, how many were others than wanted, and the longest wait.
"""
import subprocess
import sys
import tempfile
from concurrent.futures import ThreadPoolExecutor
from pathlib import Path

from lib.program import serving
from lib.report import print_head, print_row

FED = ("--feed", "examples/first-port.http")
BODY = '{"uri":"tel:+12025331234"}'
WANTED = '{"uri":"tel:+12025331234;npdi;rn=+12025440000"}'

WRK = f"""
wrk.method = "POST"
wrk.body = '{BODY}'
wrk.headers["x-spid"] = "AAAA"
local wrong = 0
function response(status, headers, body)
  if status ~= 200 or body ~= '{WANTED}' then wrong = wrong + 1 end
  wrk.thread:set("wrong", wrong)
end
local threads = {{}}
function setup(thread) table.insert(threads, thread) end
function done(summary, latency, requests)
  local errors = summary.errors
  local others = errors.connect + errors.read + errors.write + errors.status + errors.timeout
  for _, thread in ipairs(threads) do others = others + (thread:get("wrong") or 0) end
  io.stderr:write(string.format("%d %d %d", summary.requests, others, latency.max))
end
"""

NODE = """
const http = require("http");
const [port, seconds, body, wanted] = process.argv.slice(1);
const agent = new http.Agent({keepAlive: true, maxSockets: 8});
const end = Date.now() + 1000 * seconds;
let count = 0, wrong = 0, longest = 0;
function ask() {
  if (Date.now() > end) return;
  const begun = performance.now();
  const headers = {"x-spid": "AAAA", "content-length": body.length};
  const request = http.request({port, path: "/query", method: "POST", agent, headers}, response => {
    let heard = "";
    response.on("data", piece => heard += piece);
    response.on("end", () => {
      count += 1; wrong += heard !== wanted;
      longest = Math.max(longest, performance.now() - begun);
      ask();
    });
  });
  request.on("error", () => { count += 1; wrong += 1; ask(); });
  request.end(body);
}
for (let place = 0; place < 8; place += 1) ask();
process.on("exit", () => { agent.destroy(); console.log(count, wrong, Math.round(1000 * longest)); });
"""

REQUESTS = """
import sys, threading, time, requests
port, seconds, body, wanted = sys.argv[1:]
end, found = time.monotonic() + float(seconds), []
def ask():
    session, count, wrong, longest = requests.Session(), 0, 0, 0
    while time.monotonic() < end:
        begun = time.monotonic()
        try:
            wrong += session.post(f"http://127.0.0.1:{port}/query", data=body, headers={"x-spid": "AAAA"}).text != wanted
        except requests.RequestException:
            wrong += 1
        count, longest = count + 1, max(longest, time.monotonic() - begun)
    found.append((count, wrong, longest))
threads = [threading.Thread(target=ask) for _ in range(4)]
[thread.start() for thread in threads]
[thread.join() for thread in threads]
counts, wrongs, longest = zip(*found)
print(sum(counts), sum(wrongs), round(1_000_000 * max(longest)))
"""


def by_wrk(port, seconds):
    with tempfile.NamedTemporaryFile("w", suffix=".lua") as script:
        script.write(WRK)
        script.flush()
        words = ["wrk", "-t1", "-c16", f"-d{seconds}s", "-s", script.name, f"http://127.0.0.1:{port}/query"]
        return subprocess.run(words, capture_output=True, text=True, check=True).stderr


def by_node(port, seconds):
    words = ["node", "-e", NODE, str(port), str(seconds), BODY, WANTED]
    return subprocess.run(words, capture_output=True, text=True, check=True).stdout


def by_requests(port, seconds):
    words = [sys.executable, "-c", REQUESTS, str(port), str(seconds), BODY, WANTED]
    return subprocess.run(words, capture_output=True, text=True, check=True).stdout


def by_curl(port, seconds):
    words = ["curl", "-s", "-d", BODY, "-H", "x-spid: AAAA", "-w", "\n%{time_total}", f"http://127.0.0.1:{port}/query"]
    spent, count, wrong, longest = 0.0, 0, 0, 0.0
    while spent < seconds:
        heard, _, wait = subprocess.run(words, capture_output=True, text=True, check=False).stdout.rpartition("\n")
        count, wrong, longest = count + 1, wrong + (heard != WANTED), max(longest, float(wait))
        # a process for each takes some milliseconds more
        spent += float(wait) + 0.01
    return f"{count} {wrong} {round(1_000_000 * longest)}"


CLIENTS = {"wrk, 16 connections": by_wrk, "Node, 8 kept": by_node, "requests, 4 sessions": by_requests, "curl": by_curl}


def main(words):
    seconds = int(words[0]) if words else 60
    with serving(*FED, *words[1:]) as (_, port), ThreadPoolExecutor() as pool:
        asked = {name: pool.submit(ask, port, seconds) for name, ask in CLIENTS.items()}
        print_head("Client", "Responses", "Others than wanted", "Longest wait, ms")
        for name, ran in asked.items():
            count, wrong, longest = map(int, ran.result().split())
            print_row(name, f"{count:,}", wrong, f"{longest / 1000:.1f}")
