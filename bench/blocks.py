"""Measures messages a second and peak memory, of N blocks from donation to holder, and of 10 N.

    bench/run blocks [N]      (default 100; needs the built program)

Each block is donated with a hundred lines in use and assigned. Ten carriers acknowledge every broadcast of it. At the
end twenty numbers of each block are queried. A block takes 101 ids: one for each line in use, ascending, and one for
itself. Everything happens in minute 0, so that no window ends. Each response is compared byte for byte with what the
rules say. The best of three runs each.
"""
from lib.measure import compare, counts
from lib.pool import rows


def main(words):
    compare(*counts(words, 100), 10, "blocks", rows)
