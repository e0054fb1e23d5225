"""What the checks in real terminals share: the program, the shells that run it, and the course of a script of checks.

Each check waits up to 20 seconds for what it expects and is judged by nothing else. The program is the one that `rt run`
left in crates/prompt_main/out, or the one that the variable PROMPT names. Where `screen_show` was built too, what was written
to each terminal is also obeyed by the product's own model of a terminal, which has to show the same screen. The status of a
script is 1 where a check failed, and 77 where no pseudo-terminal can be had.
"""

import os
import pathlib
import shlex
import subprocess
import sys
import tempfile
import time

from pseudo import PATIENCE, PseudoTerminal, Unmet

TOP = pathlib.Path(__file__).resolve().parent.parent
PROMPT = os.environ.get("PROMPT", str(TOP / "crates/prompt_main/out/prompt_main"))


class Checks:
    """The checks of a script, in order."""

    def __init__(self):
        self.functions = []

    def add(self, function):
        self.functions.append(function)
        return function


def demand(holds, what):
    if not holds:
        raise Unmet(what)


def wait_until(what, holds):
    """Waits until something holds that no terminal tells, and raises where it doesn't."""
    until = time.monotonic() + PATIENCE
    while not holds():
        demand(time.monotonic() < until, what)
        time.sleep(0.02)


def prompt(*words):
    return " ".join([shlex.quote(PROMPT), *map(shlex.quote, words)])


def run(*words, given=b"", **others):
    """Runs the program without a terminal, and returns what came of it."""
    return subprocess.run([PROMPT, *words], input=given, capture_output=True, timeout=PATIENCE, start_new_session=True,
                          check=False, **others)


def with_prompt(*words, rows=24, cols=80, before="", behind="", **others):
    """Starts the program in a terminal, and waits for its first prompt."""
    terminal = PseudoTerminal(f"{before}{prompt(*words)}{behind}; echo status $?", rows, cols, **others)
    terminal.expect("the terminal is not raw", terminal.is_raw)
    return terminal


def folder():
    return tempfile.TemporaryDirectory(prefix="prompt-checks-")


def child_of(pid):
    """Returns the program that a shell runs."""
    until = time.monotonic() + PATIENCE
    while time.monotonic() < until:
        for number in pathlib.Path(f"/proc/{pid}/task/{pid}/children").read_text().split():
            if os.path.realpath(f"/proc/{number}/exe") == os.path.realpath(PROMPT):
                return int(number)
    raise Unmet("the shell runs no prompt")


def state_of(pid):
    """Returns the letter for what a process does, or none where it is gone."""
    try:
        return pathlib.Path(f"/proc/{pid}/stat").read_text().rsplit(")", 1)[1].split()[0]
    except (FileNotFoundError, ProcessLookupError):
        return ""


def main(checks):
    """Runs the checks that the command names, or all."""
    names = sys.argv[1:]
    if not os.access(PROMPT, os.X_OK):
        sys.exit("no built program: run ./prove prompt_main first")
    try:
        os.close(os.open("/dev/ptmx", os.O_RDWR | os.O_NOCTTY))
    except OSError as fault:
        print(f"no pseudo-terminal can be had: {fault}")
        sys.exit(77)
    failed = 0
    chosen = [function for function in checks.functions if not names or function.__name__ in names]
    for function in chosen:
        name = function.__name__.replace("_", " ")
        try:
            function()
            print(f"ok      {name}", flush=True)
        except Exception as fault:
            failed += 1
            print(f"FAILED  {name}: {type(fault).__name__}: {fault}", flush=True)
    print(f"{len(chosen) - failed} checks passed, {failed} failed")
    sys.exit(1 if failed else 0)
