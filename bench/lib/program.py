"""The built program: begun, fed, timed, and its memory."""
import os
import resource
import select
import socket
import subprocess
import time
from contextlib import contextmanager
from pathlib import Path
from typing import NamedTuple

TOP = Path(__file__).resolve().parents[2]
PROGRAM = str(TOP / "crates/npacd/out/npacd")
WINDOWS = str(TOP / "crates/npacd/data/w.toml")


def command_line(*words, program=PROGRAM):
    """A command line of the program, or of another that takes the same words."""
    return [program, *words, "--windows", WINDOWS]


def processor_time(process):
    """Seconds of the processor that a running process has had (POSIX's clock of another process)."""
    return time.clock_gettime((~process.pid << 3) | 2)


def rested(process):
    """Its processor's time once it waits for more input."""
    before = -1.0
    while (now := processor_time(process)) != before:
        before = now
        time.sleep(0.1)
    return now


def high_water(process):
    """The most memory that a running process has had so far, in MiB."""
    with open(f"/proc/{process.pid}/status", encoding="ascii") as status:
        return next((int(row.split()[1]) / 1024 for row in status if row.startswith("VmHWM:")), 0.0)


def watched(process, peak=0.0):
    """Waits for the end of a process: its seconds of the processor, and its peak memory in MiB. What `wait4` tells of
    that is no less than this script's own; where it is no more, what was seen last counts, if anything was."""
    own = resource.getrusage(resource.RUSAGE_SELF).ru_maxrss
    pause, end = 0.0001, os.pidfd_open(process.pid)
    while not select.select([end], [], [], pause)[0]:
        peak, pause = max(peak, high_water(process)), min(2 * pause, 0.002)
    os.close(end)
    _, status, usage = os.wait4(process.pid, 0)
    process.returncode = status
    assert status == 0, (process.args, status)
    if usage.ru_maxrss > own or not peak:
        peak = usage.ru_maxrss / 1024
    return usage.ru_utime + usage.ru_stime, peak


class Run(NamedTuple):
    """What a run took: seconds of the processor and on the clock, and the peak memory in MiB."""
    processor: float
    wall: float
    peak: float


def run(words, said, answers=os.devnull, **more):
    """Runs a command line over a file, or over bytes by a pipe, to its end."""
    by_pipe = isinstance(said, bytes)
    begun = time.monotonic()
    with open(os.devnull if by_pipe else said, "rb") as source, open(answers, "wb") as target:
        stdin = subprocess.PIPE if by_pipe else source
        process = subprocess.Popen(words, stdin=stdin, stdout=target, **more)
    if by_pipe:
        process.stdin.write(said)
        process.stdin.close()
    processor, peak = watched(process)
    return Run(processor, time.monotonic() - begun, peak)


class Fed:
    """The program while it is fed, part by part."""

    def __init__(self, answers, *words):
        with open(answers, "wb") as out:
            self.process = subprocess.Popen(command_line("feed", *words), stdin=subprocess.PIPE, stdout=out)
        self.spent = 0.0

    def __enter__(self):
        return self

    def __exit__(self, fault, *_):
        self.process.stdin.close()
        status = self.process.wait()
        assert fault or status == 0, status

    def say(self, texts):
        """Says texts one by one: the seconds of the processor until it waits for more."""
        for text in texts:
            self.process.stdin.write(text.encode())
        self.process.stdin.flush()
        before, self.spent = self.spent, rested(self.process)
        return self.spent - before

    def feed(self, texts):
        """The same, said at once."""
        return self.say(["".join(texts)])


def free_port():
    with socket.socket() as probe:
        probe.bind(("127.0.0.1", 0))
        return probe.getsockname()[1]


@contextmanager
def listening(line, port, **more):
    """Runs a command line that serves at this port. Yields the process once it listens."""
    with subprocess.Popen(line, stdout=subprocess.PIPE, stderr=subprocess.PIPE, **more) as process:
        try:
            assert process.stdout.readline() == f"listening on 127.0.0.1:{port}\n".encode()
            yield process
        finally:
            process.kill()


@contextmanager
def serving(*words, program=PROGRAM, environment=None):
    """The program while it serves, and the port at which it listens."""
    port = free_port()
    with listening(command_line("serve", "--port", str(port), *words, program=program), port, env=environment) as process:
        yield process, port


@contextmanager
def served(connections, *words):
    """The port at which the program listens, for so many connections, after which it has to end by itself."""
    with serving("--connections", str(connections), *words) as (process, port):
        yield port
        assert process.wait() == 0
