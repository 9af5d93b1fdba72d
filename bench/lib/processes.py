"""What the processes under a command cost: seconds of the processors, for each crate that they prove, build or run."""
import os
import re
from dataclasses import dataclass
from pathlib import Path

TICKS = os.sysconf("SC_CLK_TCK")


@dataclass
class Process:
    """A process, its seconds of the processors so far, and when it was first and last seen."""
    words: list
    folder: str
    parent: "Process | None" = None
    seconds: float = 0.0
    begun: float = 0.0
    ended: float = 0.0

    def crate(self):
        """Returns the crate that it works for: the one that its line names, or in whose folder it runs, else its parent's."""
        line = " ".join(self.words)
        named = re.search(r"--crate-name (\w+)", line)
        if found := named or re.search(r"/crates/(\w+)", f"{self.folder} {line}"):
            return found[1]
        return self.parent.crate() if self.parent else "the gate itself"

    def part(self):
        """Returns what it does for that crate."""
        if not re.search(r"/rattle (build|check) ", " ".join(self.words)):
            return "else"
        if "rt-edit" in self.folder:
            return "edits"
        return "tests" if "--test" in self.words else "proof"


def text_of(path, read=lambda path: Path(path).read_text("utf-8", errors="replace")):
    """Returns the text of a file of a process, or an empty one if the process has ended."""
    try:
        return read(path)
    except OSError:
        return ""


def all_processes():
    """Yields of each running process its number, its parent's, when it began, and its seconds so far."""
    for number in filter(str.isdigit, os.listdir("/proc")):
        fields = text_of(f"/proc/{number}/stat").rpartition(")")[2].split()
        if fields:
            yield int(number), int(fields[1]), fields[19], (int(fields[11]) + int(fields[12])) / TICKS


def processes_under(root):
    """Yields the root and every process under it, each after its parent. A child can have a lower number than its parent."""
    children, left = {}, []
    for process in all_processes():
        children.setdefault(process[1], []).append(process)
        if process[0] == root:
            left.append(process)
    while left:
        process = left.pop()
        yield process
        left += children.get(process[0], [])


def look(root, seen, now):
    """Notes the seconds of every process under the root."""
    present = {}
    for number, parent, begun, seconds in processes_under(root):
        key = number, begun
        if key not in seen or not seen[key].words:
            words = text_of(f"/proc/{number}/cmdline").split("\0")[:-1]
            folder = text_of(f"/proc/{number}/cwd", os.readlink)
            seen[key] = Process(words, folder, present.get(parent), begun=now)
        present[number] = seen[key]
        present[number].seconds, present[number].ended = seconds, now


def busy():
    """Returns the seconds that all processors together were at work since the machine began, and those that its host took from them."""
    user, nice, system, _idle, _waits, *others = map(int, text_of("/proc/stat").split("\n")[0].split()[1:])
    return (user + nice + system + sum(others[:2])) / TICKS, others[2] / TICKS
