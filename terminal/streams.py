#!/usr/bin/env python3
"""Runs the built program `prompt` with streams that lead elsewhere, and checks what it writes and its statuses.

Usage: terminal/streams.py [NAME]..        all checks where no name is given
"""

import pathlib

from checking import Checks, demand, folder, main, prompt, run, with_prompt
from pseudo import PseudoTerminal

CHECKS = Checks()
check = CHECKS.add


@check
def size_and_a_stream():
    done = run("--size", "24x80", given=b"hello\r")
    demand((done.stdout, done.returncode) == (b"hello\n", 0), f"{done}")


@check
def end_of_a_stream():
    done = run("--size", "24x80", "--repeat", "2", given=b"one\rtw")
    demand((done.stdout, done.returncode) == (b"one\n", 1), f"{done}")


@check
def output_to_a_file():
    with folder() as where:
        with with_prompt(behind=" > out", folder=where) as terminal:
            terminal.type("to a file\r")
            terminal.expect_rows(["> to a file", "status 0", ""])
            demand(pathlib.Path(where, "out").read_text() == "to a file\n", "the file has something else")


@check
def line_of_a_shell():
    with PseudoTerminal(f"line=$({prompt()}); echo \"[$line] $?\"") as terminal:
        terminal.expect_rows([">"], (0, 2))
        terminal.type("hello\r")
        terminal.expect_rows(["> hello", "[hello] 0", ""])


@check
def drawing_to_a_file():
    with folder() as where:
        with with_prompt(behind=" 2> drawn", folder=where) as terminal:
            terminal.type("unseen\r")
            terminal.expect_rows(["unseen", "status 0", ""])
            demand(b"unseen" in pathlib.Path(where, "drawn").read_bytes(), "nothing was drawn into the file")


@check
def input_from_a_pipe():
    with PseudoTerminal(f"printf 'piped\\r' | {prompt()}; echo status $?") as terminal:
        terminal.expect_rows(["> piped", "piped", "status 0", ""])
        demand(not terminal.is_raw(), "the terminal is raw")


@check
def input_from_a_pipe_that_ends():
    with PseudoTerminal(f"printf 'pip' | {prompt()}; echo status $?") as terminal:
        terminal.expect_rows(["> pip", "prompt: cannot read from standard input", "status 3", ""])
        demand(not terminal.is_raw(), "the terminal is raw")


@check
def output_that_is_full():
    with with_prompt(behind=" > /dev/full") as terminal:
        terminal.type("lost\r")
        terminal.expect_rows(["> lost", "prompt: cannot write to standard output", "status 5", ""])


@check
def drawing_that_is_refused():
    with PseudoTerminal(f"{prompt()} 2> /dev/full; echo status $?") as terminal:
        terminal.expect_rows(["status 4", ""])
        demand(not terminal.is_raw(), "the terminal is raw")


@check
def no_terminal():
    done = run(given=b"hello\r")
    demand(done.returncode == 7 and done.stdout == b"", f"{done}")
    demand(done.stderr == b"prompt: cannot use the terminal: there is no terminal that stty can ask\n", f"{done}")


@check
def size_outside_the_limits():
    with PseudoTerminal(f"{prompt()}; echo status $?", rows=24, cols=1001) as terminal:
        terminal.expect_text("status 7")
        demand("its size is not within 1x1 and 500x1000" in terminal.screen.texts()[0], f"{terminal.screen.texts()[0]}")
        demand(not terminal.is_raw(), "the terminal is raw")


@check
def unknown_words():
    usage = "usage: prompt [--name value]...\n"
    for words, sentence in [
        (["--siz", "3x4"], "prompt: --siz: no option of prompt, see prompt --help\n"),
        (["--size", "24 80"], "prompt: --size: rows x columns, as 24x80\n"),
        (["--repeat", "0"], "prompt: --repeat: a number of lines, 1 to 100\n"),
        (["--size=3x4", "--size=3x4"], "prompt: --size: stands once\n"),
        (["--help", "--size", "3x4"], "prompt: --help: stands alone\n"),
    ]:
        done = run(*words)
        demand((done.returncode, done.stdout) == (2, b""), f"{done}")
        demand(done.stderr.decode() == sentence + usage, f"{words}: {done.stderr.decode()!r}")


@check
def word_that_is_no_text():
    done = run("--message", b"\xff")
    demand((done.returncode, done.stdout) == (2, b""), f"{done}")
    demand(done.stderr == b"prompt: word 2: not UTF-8\nusage: prompt [--name value]...\n", f"{done}")


@check
def help_and_version():
    done = run("--help")
    demand((done.returncode, done.stderr) == (0, b""), f"{done}")
    for word in (b"--message", b"--repeat", b"--history", b"--size", b"--help", b"--version", b"return", b"130"):
        demand(word in done.stdout, f"--help says nothing of {word!r}")
    done = run("--version")
    demand(done.returncode == 0 and done.stdout.startswith(b"prompt "), f"{done}")


if __name__ == "__main__":
    main(CHECKS)
