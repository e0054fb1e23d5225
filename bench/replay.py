#!/usr/bin/env python3
"""Replays scripts of many events with the built prompt_replay, and prints events a second and the peak memory.

Usage: bench/replay.py [EVENTS]        100,000 events where no number is given

`line` types 70 letters and deletes them, again and again, on a terminal of 24 rows and 80 columns. `long` first types
30,000 letters in one piece, which wrap over the whole window, and then types a letter and deletes it, again and again.
The program is the one that `rt run` left in crates/prompt_replay/out.
"""

import os
import resource
import subprocess
import sys
import tempfile
import time

PROGRAM = os.path.join(os.path.dirname(__file__), "..", "crates", "prompt_replay", "out", "prompt_replay")


def line(events):
    keys = ["a"] * 70 + ["\\x7f"] * 70
    return [f"piece {keys[event % len(keys)]}" for event in range(events)]


def long(events):
    return ["piece " + "a" * 30_000] + [f"piece {'b' if event % 2 == 0 else chr(92) + 'x7f'}" for event in range(events)]


def replay(name, lines, events):
    with tempfile.NamedTemporaryFile("w", suffix=".script") as script:
        script.write("set size 24x80\n" + "\n".join(lines) + "\n")
        script.flush()
        with open(script.name) as given:
            begun = time.monotonic()
            subprocess.run([PROGRAM], stdin=given, stdout=subprocess.DEVNULL, check=False)
            seconds = time.monotonic() - begun
    peak = resource.getrusage(resource.RUSAGE_CHILDREN).ru_maxrss / 1024
    print(f"{name}: {events} events in {seconds:.2f} s, {events / seconds:,.0f} events a second, at most {peak:.0f} MB")


def main():
    events = int(sys.argv[1]) if len(sys.argv) > 1 else 100_000
    if not os.access(PROGRAM, os.X_OK):
        sys.exit("no built program: run `rt run < stdin` in crates/prompt_replay first")
    replay("line", line(events), events)
    replay("long", long(events), events)


if __name__ == "__main__":
    main()
