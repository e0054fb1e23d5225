#!/usr/bin/env python3
"""Counts the instructions of all batches of an answer against those of one run of the completer.

Usage: bench/answer_batches.py [WORDS]        10,000 words where no number is given, which are 157 batches

Each of the three runs of answer_bench makes the same request. The first does no more, the second runs the completer once,
and the third takes the batches of the answer, one by one. What the first costs is taken off the others. The status is 1
where the batches cost more than 3 times the one run. valgrind's callgrind counts, and the program is the one that
`rt run -- batches 130` left in crates/answer_bench/out.
"""

import os
import re
import subprocess
import sys

PROGRAM = os.path.join(os.path.dirname(__file__), "..", "crates", "answer_bench", "out", "answer_bench")
MOST = 3


def instructions(task, words):
    command = ["valgrind", "--tool=callgrind", "--callgrind-out-file=/dev/null", PROGRAM, task, str(words)]
    told = subprocess.run(command, stdin=subprocess.DEVNULL, capture_output=True, text=True, check=True).stderr
    return int(re.search(r"Collected\s*:\s*(\d+)", told).group(1))


def main():
    words = int(sys.argv[1]) if len(sys.argv) > 1 else 10_000
    if not os.access(PROGRAM, os.X_OK):
        sys.exit("no built program: run `rt run -- batches 130` in crates/answer_bench first")
    setup = instructions("setup", words)
    once = instructions("once", words) - setup
    batches = instructions("batches", words) - setup
    print(f"{words} words: one run of the completer {once:,} instructions, all batches {batches:,}, {batches / once:.2f} times as many")
    sys.exit(0 if batches <= MOST * once else 1)


if __name__ == "__main__":
    main()
