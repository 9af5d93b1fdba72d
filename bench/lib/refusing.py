"""A program of which one allocation is refused."""
import os
import subprocess


class Refusing:
    """What is loaded into a program for that: bench/refused_memory.c."""

    def __init__(self, held):
        self.shim, self.count = held / "shim.so", held / "count"
        subprocess.run(["gcc", "-O2", "-shared", "-fPIC", "-o", self.shim, "bench/refused_memory.c"], check=True)

    def run(self, words, place, **more):
        """Runs a command line, the allocation at a place refused."""
        refused = {"LD_PRELOAD": str(self.shim), "REFUSED_AT": str(place)}
        return subprocess.run(words, env=os.environ | refused | more.pop("env", {}), check=False, **more)

    def counted(self, words, **more):
        """Runs a command line with nothing refused, and says how many allocations it takes."""
        ran = self.run(words, 0, env={"REFUSED_COUNT": str(self.count)}, **more)
        return ran, int(self.count.read_text())
