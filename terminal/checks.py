#!/usr/bin/env python3
"""Runs the built program `prompt` in real pseudo-terminals, and checks what it does there.

Usage: terminal/checks.py [NAME]..        all checks where no name is given
"""

import os
import pathlib
import shutil
import signal
import subprocess
import time

from checking import PROMPT, Checks, child_of, demand, folder, main, prompt, with_prompt
from pseudo import PATIENCE, PseudoTerminal, Unmet

CHECKS = Checks()
check = CHECKS.add


def kept_entries(path):
    """Reads a history file as prompt_toolkit does."""
    entries, lines = [], []
    for line in path.read_bytes().decode().splitlines(keepends=True):
        if line.startswith("+"):
            lines.append(line[1:])
        else:
            if lines:
                entries.append("".join(lines)[:-1])
            lines = []
    if lines:
        entries.append("".join(lines)[:-1])
    return entries


# what is typed and drawn


@check
def typing():
    with with_prompt() as terminal:
        terminal.expect_rows([">"], (0, 2))
        terminal.type("hello")
        terminal.expect_rows(["> hello"], (0, 7))
        terminal.type("\r")
        terminal.expect_rows(["> hello", "hello", "status 0", ""], (3, 0))
        demand(terminal.expect_end() == 0, "the shell failed")


@check
def erasing():
    with with_prompt() as terminal:
        terminal.type("abc\x7f\x7fd")
        terminal.expect_rows(["> ad"], (0, 4))
        terminal.type("\x7f\x7f\x7f\x7f")
        terminal.expect_rows([">"], (0, 2))
        terminal.type("\r")
        terminal.expect_rows([">", "", "status 0", ""])


@check
def message():
    with with_prompt("--message", "sql> ") as terminal:
        terminal.type("select 1;")
        terminal.expect_rows(["sql> select 1;"], (0, 14))


@check
def empty_message():
    with with_prompt("--message=") as terminal:
        terminal.type("x")
        terminal.expect_rows(["x"], (0, 1))


@check
def wrapping():
    with with_prompt(rows=6, cols=10) as terminal:
        terminal.type("abcdefgh")
        terminal.expect_rows(["> abcdefgh", ""], (1, 0))
        terminal.type("ijk")
        terminal.expect_rows(["> abcdefgh", "ijk"], (1, 3))
        terminal.type("\x7f" * 4)
        terminal.expect_rows(["> abcdefg"], (0, 9))


@check
def scrolling_at_the_last_row():
    with with_prompt(rows=5, cols=10, before="printf 'a\\nb\\nc\\nd\\n'; ") as terminal:
        terminal.expect_rows(["a", "b", "c", "d", ">"], (4, 2))
        terminal.type("0123456789")
        terminal.expect_rows(["b", "c", "d", "> 01234567", "89"], (4, 2))
        terminal.type("\r")
        terminal.expect_text("status 0")


@check
def longer_than_the_window():
    with with_prompt(rows=3, cols=10) as terminal:
        terminal.type("a" * 40 + "z")
        terminal.expect_rows(["a" * 10, "a" * 10, "aaz"], (2, 3))
        terminal.type("\x7f" * 38)
        terminal.expect_rows(["> aaa"], (0, 5))


@check
def narrower_and_wider():
    with with_prompt(rows=8, cols=20) as terminal:
        terminal.type("0123456789abcdef")
        terminal.expect_rows(["> 0123456789abcdef"], (0, 18))
        terminal.resize(8, 10)
        terminal.expect_rows(["> 01234567", "89abcdef"], (1, 8))
        terminal.type("g")
        terminal.expect_rows(["> 01234567", "89abcdefg"], (1, 9))
        terminal.resize(8, 30)
        terminal.expect_rows(["> 0123456789abcdefg"], (0, 19))
        terminal.type("\r")
        terminal.expect_rows(["> 0123456789abcdefg", "0123456789abcdefg", "status 0", ""])


@check
def fewer_rows():
    with with_prompt(rows=6, cols=10, before="printf 'a\\nb\\n'; ") as terminal:
        terminal.type("0123456789abcdefghijklm")
        terminal.expect_rows(["a", "b", "> 01234567", "89abcdefgh", "ijklm"], (4, 5))
        terminal.resize(2, 10)
        terminal.expect_rows(["89abcdefgh", "ijklm"], (1, 5))
        terminal.type("\x7f" * 22)
        terminal.expect_rows(["> 0"], (0, 3))


@check
def ignored_keys():
    with with_prompt() as terminal:
        terminal.type(b"a\x1b[99~b\x1b[1;9Qc")
        terminal.expect_rows(["> abc"], (0, 5))


@check
def interrupted():
    with with_prompt("--repeat", "2") as terminal:
        terminal.type("one\rab\x03")
        terminal.expect_rows(["> one", "> ab", "one", "status 130", ""])


@check
def ended_by_a_key():
    with with_prompt() as terminal:
        terminal.type("ab\x01\x04\x04\x04")
        terminal.expect_rows([">", "status 1", ""])


@check
def history_by_keys():
    with folder() as where:
        path = pathlib.Path(where, "history")
        path.write_text("\n# 2026-01-02 03:04:05.678901\n+select 1;\n\n# 2026-01-02 03:04:06.000000\n+insert 2;\n")
        with with_prompt("--repeat", "3", "--history", str(path)) as terminal:
            terminal.type("\x1b[A\x1b[A")
            terminal.expect_rows(["> select 1;"], (0, 11))
            terminal.type("\x1b[B")
            terminal.expect_rows(["> insert 2;"], (0, 11))
            terminal.type("\r\x1b[A")
            terminal.expect_rows(["> insert 2;", "> insert 2;"], (1, 11))


@check
def search_in_the_history():
    with folder() as where:
        path = pathlib.Path(where, "history")
        path.write_text("\n# 2026-01-02 03:04:05.678901\n+select 1;\n\n# 2026-01-02 03:04:06.000000\n+insert 2;\n")
        with with_prompt("--history", str(path)) as terminal:
            terminal.type("\x12ele")
            terminal.expect_rows(["> select 1;", "I-search backward: ele"])
            terminal.type("\r")
            terminal.expect_rows(["> select 1;"])
            terminal.type("\r")
            terminal.expect_rows(["> select 1;", "select 1;", "status 0", ""])


@check
def password():
    with with_prompt("--password", "--toolbar", "a bar") as terminal:
        terminal.type("ab")
        terminal.expect_rows(["> **", "a bar"], (0, 4))
        terminal.type("\r")
        terminal.expect_rows(["> **", "ab", "status 0", ""])


@check
def rows_of_a_text():
    with with_prompt("--multiline", "--default", "a") as terminal:
        terminal.type("\rb")
        terminal.expect_rows(["> a", "  b"], (1, 3))
        terminal.type("\x1b\r")
        terminal.expect_rows(["> a", "  b", "a", "b", "status 0", ""])


@check
def undo():
    with with_prompt() as terminal:
        terminal.type("ab c\x17")
        terminal.expect_rows(["> ab"], (0, 5))
        terminal.type("\x1f")
        terminal.expect_rows(["> ab c"], (0, 6))


@check
def kill_and_yank():
    with with_prompt() as terminal:
        terminal.type("ab cd\x17\x19\x19")
        terminal.expect_rows(["> ab cdcd"], (0, 9))


@check
def paste():
    with with_prompt() as terminal:
        terminal.type("\x1b[200~a\r\nb\x1b[201~c")
        terminal.expect_rows(["> a", "bc"], (1, 2))
        terminal.type("\x1b\r")
        terminal.expect_text("status 0")


@check
def typed_ahead():
    with with_prompt("--repeat", "3") as terminal:
        terminal.type("one\rtwo\rthree\r")
        terminal.expect_rows(["> one", "> two", "> three", "one", "two", "three", "status 0", ""])


@check
def several_prompts():
    with with_prompt("--repeat", "3") as terminal:
        for number, line in enumerate(["one", "two", "three"]):
            terminal.expect_rows([f"> {word}" for word in ["one", "two"][:number]] + [">"], (number, 2))
            terminal.type(line + "\r")
        terminal.expect_rows(["> one", "> two", "> three", "one", "two", "three", "status 0", ""])


@check
def large_paste():
    with with_prompt(rows=4, cols=40) as terminal:
        terminal.type(b"\x1b[200~" + b"y" * 1_000_000 + b"\x1b[201~")
        terminal.type(b"\x1b[200~" + b"x" * 32_768 + b"\x1b[201~z\r")
        terminal.expect_text("status 0")
        demand(b"x" * 32_768 + b"\r\n" in terminal.written, "the line has not 32,768 characters")
        demand(b"y" not in terminal.written, "a part of a paste that is too long was taken")


@check
def many_keys_at_once():
    with with_prompt(rows=4, cols=40) as terminal:
        terminal.type(b"x" * 4_000)
        terminal.type("\r")
        terminal.expect_text("status 0")
        demand(b"x" * 4_000 + b"\r\n" in terminal.written, "the line has not 4,000 characters")


@check
def stopped_and_continued():
    with folder() as where:
        with with_prompt("--history", "h", behind="; :", folder=where) as terminal:
            terminal.type("ab")
            terminal.expect_rows(["> ab"], (0, 4))
            pid = child_of(terminal.pid)
            os.kill(pid, signal.SIGSTOP)
            terminal.type("c")
            os.kill(pid, signal.SIGCONT)
            os.kill(pid, signal.SIGWINCH)
            terminal.type("d\r")
            terminal.expect_rows(["> abcd", "abcd", "status 0", ""])


# what is kept


@check
def history_file():
    with folder() as where:
        path = pathlib.Path(where, "history")
        for lines in (["one", "two", "two", ""], ["two", "three"]):
            with with_prompt("--repeat", str(len(lines)), "--history", str(path)) as terminal:
                terminal.type("\r".join(lines) + "\r")
                terminal.expect_text("status 0")
        demand(kept_entries(path) == ["one", "two", "three"], f"the file has {kept_entries(path)}")


@check
def history_of_prompt_toolkit():
    with folder() as where:
        path = pathlib.Path(where, "history")
        path.write_text("\n# 2026-01-02 03:04:05.678901\n+select 1;\n\n# 2026-01-02 03:04:06.000000\n+a\n+b\n")
        with with_prompt("--repeat", "2", "--history", str(path)) as terminal:
            terminal.type("a\rselect 2;\r")
            terminal.expect_text("status 0")
        demand(kept_entries(path) == ["select 1;", "a\nb", "a", "select 2;"], f"the file has {kept_entries(path)}")


@check
def history_that_cannot_be_written():
    with folder() as where:
        path = pathlib.Path(where, "none", "history")
        with with_prompt("--repeat", "2", "--history", str(path), cols=200) as terminal:
            terminal.type("kept\r")
            terminal.expect_text("status 6")
            rows = terminal.screen.texts()
            demand(rows[:2] == ["> kept", "kept"], f"the screen has {rows}")
            demand(rows[2].startswith(f"prompt: cannot append to {path}: "), f"the screen has {rows}")


@check
def history_that_cannot_be_read():
    with folder() as where:
        terminal = PseudoTerminal(f"{prompt('--history', where)}; echo status $?", cols=200)
        with terminal:
            terminal.expect_text("status 6")
            rows = terminal.screen.texts()
            demand(rows[0].startswith(f"prompt: cannot read {where}: ") and len(rows) == 3, f"the screen has {rows}")


@check
def history_of_many_at_once():
    with folder() as where:
        path = pathlib.Path(where, "history")
        runs = []
        for number in range(6):
            given = "".join(f"line {number} {count}\r" for count in range(50)).encode()
            words = [PROMPT, "--size", "24x80", "--repeat", "50", "--history", str(path)]
            run_there = subprocess.Popen(words, stdin=subprocess.PIPE, stdout=subprocess.DEVNULL, stderr=subprocess.DEVNULL)
            runs.append((run_there, given))
        for run_there, given in runs:
            run_there.communicate(given, timeout=PATIENCE)
            demand(run_there.returncode == 0, f"status {run_there.returncode}")
        want = sorted(f"line {number} {count}" for number in range(6) for count in range(50))
        demand(sorted(kept_entries(path)) == want, "some entry was parted")


# what it costs


@check
def terminal_that_never_waits():
    with with_prompt() as terminal:
        pid = child_of(terminal.pid)
        terminal.type("a")
        terminal.expect_rows(["> a"], (0, 3))
        subprocess.run(["stty", "-F", os.readlink(f"/proc/{pid}/fd/0"), "min", "0", "time", "0"], check=True)
        begun, rounds = time.monotonic(), waits_of(pid)
        time.sleep(1.5)
        rate = (waits_of(pid) - rounds) / (time.monotonic() - begun)
        demand(rate < 200, f"{rate:.0f} waits a second")
        terminal.type("b\r")
        terminal.expect_rows(["> ab", "ab", "status 0", ""])


def waits_of(pid):
    for line in pathlib.Path(f"/proc/{pid}/status").read_text().splitlines():
        if line.startswith("voluntary_ctxt_switches"):
            return int(line.split()[1])
    raise Unmet("the program has ended")


@check
def little_memory():
    with with_prompt() as terminal:
        terminal.type("a short line")
        terminal.expect_rows(["> a short line"])
        status = pathlib.Path(f"/proc/{child_of(terminal.pid)}/status").read_text()
        peak = int(status.split("VmHWM:")[1].split()[0])
        demand(peak < 8 * 1024, f"{peak} kB at most")


# through another program that shows terminals


@check
def tmux():
    if not shutil.which("tmux"):
        return
    name = f"prompt-checks-{os.getpid()}"
    tmux_words = ["tmux", "-L", name, "-f", "/dev/null"]

    def ask(*words):
        return subprocess.run([*tmux_words, *words], capture_output=True, text=True, timeout=PATIENCE, check=True).stdout

    def rows():
        return ask("capture-pane", "-p", "-t", name).rstrip("\n").split("\n")

    def expect(want):
        until = time.monotonic() + PATIENCE
        while rows() != want and time.monotonic() < until:
            time.sleep(0.05)
        demand(rows() == want, f"tmux shows {rows()}, and not {want}")

    words = f"{prompt('--message', 'sql> ', '--repeat', '2')}; echo status $?; cat"
    try:
        ask("new-session", "-d", "-s", name, "-x", "20", "-y", "6", words)
        expect(["sql>"])
        ask("send-keys", "-t", name, "-l", "select 0123456789")
        expect(["sql> select 01234567", "89"])
        ask("resize-window", "-t", name, "-x", "40", "-y", "6")
        ask("send-keys", "-t", name, "-l", "x")
        expect(["sql> select 0123456789x"])
        ask("send-keys", "-t", name, "BSpace", "Enter")
        expect(["sql> select 0123456789", "sql>"])
        ask("send-keys", "-t", name, "Enter")
        expect(["sql> select 0123456789", "sql>", "select 0123456789", "", "status 0"])
    finally:
        subprocess.run([*tmux_words, "kill-server"], capture_output=True, check=False)


if __name__ == "__main__":
    main(CHECKS)
