#!/usr/bin/env python3
"""Measures the time from the start of `prompt` to its first frame against that of three runs of stty by a shell.

Usage: bench/prompt_start.py [RUNS]        30 runs where no number is given

Both are run in a pseudo-terminal, and medians are compared. The peak memory of a prompt with a short line is printed too, and what
its guard adds: the time until it says that it is ready, against that of a shell which makes the terminal raw alone, and its
memory. The program is the one that `rt run` left in crates/prompt_main/out. The status is 1 where the prompt takes more than 3
times as long, or 8 MB and more.
"""

import os
import pathlib
import shlex
import statistics
import sys
import time

TOP = pathlib.Path(__file__).resolve().parent.parent
sys.path.insert(0, str(TOP / "terminal"))
from pseudo import PseudoTerminal

PROMPT = os.environ.get("PROMPT", str(TOP / "crates/prompt_main/out/prompt_main"))
RAW = "sh -c 'stty raw -echo min 0 time 1 < /dev/tty'"
STTY = f"sh -c 'stty -g < /dev/tty'; sh -c 'stty size < /dev/tty'; {RAW}; printf '> '"


def seconds(words, *marks):
    """Returns how long it takes until some words print one of these marks."""
    begun = time.monotonic()
    with PseudoTerminal(words) as terminal:
        while not any(mark in terminal.written for mark in marks):
            terminal.read(0.05)
        return time.monotonic() - begun


def times(first, second, runs):
    """Runs two programs by turns, each some words and its marks, and returns the median and the least of each in milliseconds."""
    found = [(1000 * seconds(*first), 1000 * seconds(*second)) for _ in range(runs)]
    return [(statistics.median(column), min(column)) for column in zip(*found)]


def memory(pid, name, file="status"):
    """Returns the kilobytes that the system tells of a process."""
    return int(pathlib.Path(f"/proc/{pid}/{file}").read_text().split(f"{name}:")[1].split()[0])


def guard_of(pid):
    """Returns the number and the words of the guard that a prompt has."""
    for number in pathlib.Path(f"/proc/{pid}/task/{pid}/children").read_text().split():
        words = pathlib.Path(f"/proc/{number}/cmdline").read_text().split("\0")[:-1]
        if "guard" in words:
            return int(number), words
    sys.exit("the prompt has no guard")


def main():
    runs = int(sys.argv[1]) if len(sys.argv) > 1 else 30
    if not os.access(PROMPT, os.X_OK):
        sys.exit("no built program: run ./prove prompt_main first")
    (stty, _), (prompt, _) = times((STTY, b"> "), (f"exec {PROMPT}", b"> ", b">\x1b"), runs)
    with PseudoTerminal(f"exec {PROMPT}") as terminal:
        terminal.expect("the terminal is not raw", terminal.is_raw)
        terminal.type("a short line")
        terminal.expect_text("a short line")
        peak = memory(terminal.pid, "VmHWM")
        guard, words = guard_of(terminal.pid)
        resident = memory(guard, "VmRSS")
        own = sum(memory(guard, name, "smaps_rollup") for name in ("Private_Clean", "Private_Dirty"))
    started = f"name=$(tty); setsid {shlex.join(words[:-1])} $name < /dev/null"
    (raw, least_raw), (ready, least_ready) = times((f"name=$(tty); {RAW}; echo ready", b"ready"), (started, b"ready"), runs)
    print(f"prompt {prompt:.1f} ms, three runs of stty {stty:.1f} ms: {prompt / stty:.2f} times; {peak} kB at most")
    print(f"its guard takes {ready - raw:.1f} ms more to make the terminal raw than a shell alone, {least_ready - least_raw:.1f} ms in the "
          f"quickest runs, and has {resident} kB, {own} kB of them its own")
    sys.exit(1 if prompt > 3 * stty or peak >= 8192 else 0)


if __name__ == "__main__":
    main()
