#!/usr/bin/env python3
"""Measures the turns of a journal, and prints nanoseconds a turn.

usage: journal.py [PROGRAM]     the program is crates/eris_try_journal/out/eris_try_journal where
                                none is named; `rt ci` builds it

Each thread adds entries of one packet to a small book, in a ring, and fetches the packets that come
to it; a turn is an entry that was added or a packet that was fetched. `ring` goes through a journal,
`plain` is the same on the book alone, in one thread. What a turn of the journal costs beyond the
small book's own work is the difference of the two with one thread. Turns that find nothing to fetch
aren't counted, but take their time.

Nothing here is a test: the figures are the machine's.
"""
import os
import subprocess
import sys
import time

HERE = os.path.dirname(os.path.abspath(__file__))
PROGRAM = os.path.join(HERE, "..", "crates", "eris_try_journal", "out", "eris_try_journal")


def nanoseconds(program, kind, threads, turns):
    """What a turn takes: the best of three runs, less the start of the program."""
    entries = turns // (2 * threads)
    best = None
    for _ in range(3):
        start = time.monotonic()
        subprocess.run([program], input=b"", check=True, stdout=subprocess.DEVNULL)
        empty = time.monotonic() - start
        start = time.monotonic()
        line = f"{kind} {threads} {entries}\n".encode()
        out = subprocess.run([program], input=line, check=True, stdout=subprocess.PIPE).stdout
        took = time.monotonic() - start - empty
        if b"each node's in order\neach packet fetched once\n" not in out:
            sys.exit(f"{kind} {threads} {entries}: {out.decode()}")
        best = took if best is None else min(best, took)
    return best / turns * 1e9


def main():
    program = sys.argv[1] if len(sys.argv) > 1 else PROGRAM
    for turns in (100_000, 1_000_000):
        for kind, threads in (("plain", 1), ("ring", 1), ("plain", 10), ("ring", 10)):
            print(f"{kind} threads {threads} turns {turns}: {nanoseconds(program, kind, threads, turns):.0f} ns a turn")


if __name__ == "__main__":
    main()
