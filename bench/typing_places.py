#!/usr/bin/env python3
"""Counts what a typed letter costs at three places of a document of 32,000 letters.

Usage: bench/typing_places.py

At each place the program types 100 letters in one run and 700 in another. The difference of the instructions of the two
runs, as `perf stat` counts them, or else valgrind, is that of 600 letters. A letter in the middle or at the start must
cost at most 3 times one at the end. The program is the one that `rt run` left in crates/doc_bench/out.
"""

import os
import re
import subprocess
import sys

PROGRAM = os.path.join(os.path.dirname(__file__), "..", "crates", "doc_bench", "out", "doc_bench")
COUNTERS = [
    (["perf", "stat", "-x", ",", "-e", "instructions:u"], r"^(\d+),[^,]*,instructions"),
    (["valgrind", "--tool=callgrind", "--callgrind-out-file=/dev/null"], r"Collected : (\d+)"),
]


def counted(counter, pattern, place, letters):
    """The instructions of a run, or None where they can't be counted this way."""
    given = f"{place} {letters}\n"
    try:
        run = subprocess.run(counter + [PROGRAM], input=given, capture_output=True, text=True, check=False)
    except FileNotFoundError:
        return None
    found = re.search(pattern, run.stderr, re.MULTILINE)
    return int(found.group(1)) if run.returncode == 0 and found else None


def instructions(place, letters):
    for counter, pattern in COUNTERS:
        count = counted(counter, pattern, place, letters)
        if count is not None:
            return count
    sys.exit("neither perf nor valgrind counts instructions here")


def main():
    if not os.access(PROGRAM, os.X_OK):
        sys.exit("no built program: run `rt run < stdin` in crates/doc_bench first")
    costs = {}
    for name, place in [("end", 32_000), ("middle", 16_000), ("start", 0)]:
        costs[name] = (instructions(place, 700) - instructions(place, 100)) / 600
        print(f"{name}: {costs[name]:,.0f} instructions a letter")
    if max(costs["middle"], costs["start"]) > 3 * costs["end"]:
        sys.exit("a letter costs more than 3 times one at the end")


if __name__ == "__main__":
    main()
