#!/usr/bin/env python3
"""Ends the built program `prompt` in every way in real pseudo-terminals, and checks how it leaves them.

Usage: terminal/endings.py [NAME]..        all checks where no name is given

Behind each way out the settings of the terminal are byte for byte those from before, rows wrap, pastes are not marked, the
cursor is visible, and of all processes that came of the program none is there any more. Some checks choose moments at
random: they print their seed, and take the one that the variable SEED has.
"""

import contextlib
import fcntl
import itertools
import os
import pathlib
import random
import shutil
import signal
import struct
import termios
import time

from checking import Checks, child_of, demand, folder, main, prompt, state_of, wait_until
from pseudo import PseudoTerminal

CHECKS = Checks()
check = CHECKS.add

# what a process of a check is known by, in its environment
MARK = "PROMPT_CHECK"
NUMBERS = itertools.count()

SIGNALS = [signal.SIGINT, signal.SIGTERM, signal.SIGHUP, signal.SIGQUIT, signal.SIGKILL]

# the shell gives each program a group of its own, leaves no memory image, and stays where it is interrupted
SHELL = "read -r go; ulimit -c 0; trap : INT; set -m; "


class Watched(PseudoTerminal):
    """A terminal with settings of its own, of which all processes are known, and whose shell runs some words."""

    def __init__(self, words, shell=SHELL, **others):
        self.mark = f"{os.getpid()}.{next(NUMBERS)}"
        super().__init__(f"{shell}{words}; echo status $?; read -r rest", environment={MARK: self.mark}, **others)
        settings = self.settings()
        settings[0] &= ~termios.IXON
        settings[6][termios.VERASE] = b"\x08"
        termios.tcsetattr(self.end, termios.TCSANOW, settings)
        self.before = self.all_settings()
        self.type("\n")

    def all_settings(self):
        """Returns the bytes of the settings."""
        return fcntl.ioctl(self.end, termios.TCGETS, bytes(64))

    def processes(self):
        """Returns the processes that came of the shell's words."""
        want = f"{MARK}={self.mark}".encode()
        found = set()
        for path in pathlib.Path("/proc").glob("[0-9]*"):
            with contextlib.suppress(OSError):
                if want in (path / "environ").read_bytes().split(b"\0"):
                    found.add(int(path.name))
        return found - {self.pid}

    def expect_prompt(self):
        """Waits until the program shows its prompt and what is typed, and returns its number."""
        pid = child_of(self.pid)
        self.type("ab")
        self.expect_text("> ab")
        demand(self.is_raw() and self.screen.pastes and not self.screen.wraps, "the terminal has what it had before")
        return pid

    def expect_left(self):
        """Waits until nothing is left of the program but what it drew."""
        self.expect("a process stays behind", lambda: not self.processes())
        self.expect("other settings than before", lambda: self.all_settings() == self.before)
        screen = self.screen
        self.expect("other modes than before", lambda: screen.wraps and screen.shows_cursor and not screen.pastes)

    def expect_status(self, status):
        self.expect_text(f"status {status}")
        self.expect_left()

    def hang_up(self):
        """Takes the terminal away, and waits until all its processes have ended."""
        os.close(self.end)
        self.end = None
        wait_until("a process goes on", lambda: not self.processes())
        wait_until("the shell goes on", lambda: state_of(self.pid) in ("", "Z"))


def send(pid, number, to_group):
    """Sends a signal to a program, or to its whole group."""
    with contextlib.suppress(ProcessLookupError):
        if to_group:
            os.killpg(pid, number)
        else:
            os.kill(pid, number)


def endings():
    return itertools.product(SIGNALS, (False, True))


def moments():
    """Returns what chooses moments at random."""
    seed = int(os.environ.get("SEED", time.time_ns() % 1_000_000))
    print(f"        seed {seed}", flush=True)
    return random.Random(seed)


def programs(where, *names, **scripts):
    """Makes a folder where only these programs are found, and these scripts."""
    for name in names:
        pathlib.Path(where, name).symlink_to(shutil.which(name))
    for name, text in scripts.items():
        path = pathlib.Path(where, name)
        path.write_text(text)
        path.chmod(0o755)
    return f"PATH={where} "


# ways out of its own


@check
def accepted():
    with Watched(prompt()) as terminal:
        terminal.expect_prompt()
        terminal.type("\r")
        terminal.expect_status(0)
        for reset in (b"\x1b[0m", b"\x1b[?7h", b"\x1b[?25h", b"\x1b[?2004l"):
            demand(reset in terminal.written, f"{reset} was not written")


@check
def interrupted_by_a_key():
    with Watched(prompt()) as terminal:
        terminal.expect_prompt()
        terminal.type("\x03")
        terminal.expect_status(130)


@check
def ended_by_a_key():
    with Watched(prompt()) as terminal:
        terminal.expect_prompt()
        terminal.type("\x7f\x7f\x04")
        terminal.expect_status(1)


@check
def faults_of_streams():
    for behind, status in ((" < /dev/null", 3), (" 2> /dev/full", 4), (" > /dev/full", 5)):
        with Watched(prompt() + behind) as terminal:
            terminal.type("\r")
            terminal.expect_status(status)


@check
def faults_of_the_history():
    with folder() as where:
        for path, status in ((where, 6), (f"{where}/none/history", 6)):
            with Watched(prompt("--history", path), cols=200) as terminal:
                terminal.type("a\r")
                terminal.expect_status(status)


@check
def words_that_are_refused():
    with Watched(prompt("--siz", "3x4")) as terminal:
        terminal.expect_status(2)


@check
def size_outside_the_limits():
    with Watched(prompt(), cols=1001) as terminal:
        terminal.expect_status(7)


# signals


@check
def signals_at_a_prompt():
    for number, to_group in endings():
        with Watched(prompt()) as terminal:
            send(terminal.expect_prompt(), number, to_group)
            terminal.expect_status(128 + number)


@check
def signals_in_a_paste():
    for number, to_group in endings():
        with Watched(prompt()) as terminal:
            pid = terminal.expect_prompt()
            terminal.type("\x1b[200~pasted\rtext")
            wait_until("the paste is not read", lambda: unread(pid) == 0)
            send(pid, number, to_group)
            terminal.expect_status(128 + number)


def unread(pid):
    """Returns how many bytes were typed that a program has not read."""
    terminal = os.open(f"/proc/{pid}/fd/0", os.O_RDWR | os.O_NOCTTY)
    try:
        return struct.unpack("i", fcntl.ioctl(terminal, termios.FIONREAD, bytes(4)))[0]
    finally:
        os.close(terminal)


@check
def signals_while_it_starts():
    chosen = moments()
    for number, to_group in [*endings()] * 6:
        with Watched(prompt()) as terminal:
            pid = child_of(terminal.pid)
            time.sleep(chosen.uniform(0, 0.05))
            send(pid, number, to_group)
            terminal.expect_status(128 + number)


@check
def signals_while_it_leaves():
    chosen = moments()
    for number, to_group in [*endings()] * 3:
        with Watched(prompt()) as terminal:
            pid = terminal.expect_prompt()
            terminal.type("\r")
            time.sleep(chosen.uniform(0, 0.02))
            send(pid, number, to_group)
            terminal.expect_text("status ")
            terminal.expect_left()


@check
def signals_while_it_is_stopped():
    for number in SIGNALS:
        with Watched(f"{prompt()}; echo stopped; fg > /dev/null") as terminal:
            pid = terminal.expect_prompt()
            os.kill(pid, signal.SIGTSTP)
            terminal.expect_text("stopped")
            send(pid, number, False)
            terminal.expect_left()


@check
def killed_where_the_shell_has_its_own_settings():
    with Watched(f"{prompt()}; stty sane erase x; echo stopped; read -r go; fg > /dev/null") as terminal:
        pid = terminal.expect_prompt()
        os.kill(pid, signal.SIGTSTP)
        terminal.expect_text("stopped")
        terminal.before = terminal.all_settings()
        demand(terminal.settings()[6][termios.VERASE] == b"x", "the shell has no settings of its own")
        os.kill(pid, signal.SIGKILL)
        terminal.expect_left()


@check
def signal_to_the_leader_of_the_session():
    for number in SIGNALS:
        with Watched(f"exec {prompt()}", shell="read -r go; ulimit -c 0; ") as terminal:
            terminal.expect("the terminal is not raw", terminal.is_raw)
            os.kill(terminal.pid, number)
            terminal.expect("the program goes on", lambda: state_of(terminal.pid) in ("", "Z"))
            terminal.expect_left()


# terminals that go away, and that come back


@check
def hang_up():
    with Watched(prompt()) as terminal:
        terminal.expect_prompt()
        terminal.hang_up()


@check
def hang_up_that_is_ignored():
    with Watched(prompt(), shell=SHELL + "trap '' HUP; ") as terminal:
        terminal.expect_prompt()
        terminal.hang_up()


@check
def hang_up_while_it_starts():
    chosen = moments()
    for _ in range(10):
        with Watched(prompt()) as terminal:
            child_of(terminal.pid)
            time.sleep(chosen.uniform(0, 0.05))
            terminal.hang_up()


@check
def in_the_background():
    with PseudoTerminal(f"set -m; {prompt()} & read line; fg > /dev/null; echo status $?") as terminal:
        pid = child_of(terminal.pid)
        terminal.expect("the program goes on", lambda: state_of(pid) == "T")
        demand(not terminal.is_raw(), "the terminal is raw")
        terminal.type("go\n")
        terminal.expect("the terminal is not raw", terminal.is_raw)
        terminal.type("x\r")
        terminal.expect_text("status 0")


@check
def suspended():
    with Watched(f"{prompt()}; stty sane; echo stopped; read -r go; stty raw -echo min 0 time 1; fg > /dev/null") as terminal:
        pid = terminal.expect_prompt()
        os.kill(pid, signal.SIGTSTP)
        terminal.expect_text("stopped")
        demand(not terminal.is_raw(), "the terminal is raw in the shell")
        terminal.type("go on\n")
        terminal.expect("the terminal is not raw", terminal.is_raw)
        terminal.type("c\r")
        terminal.expect_text("abc")
        terminal.expect_status(0)


# where a guard cannot be started as it is meant to


@check
def guard_in_the_group():
    with folder() as where:
        path = programs(where, "sh", "stty")
        for number, to_group in endings():
            if (number, to_group) != (signal.SIGKILL, True):
                with Watched(path + prompt()) as terminal:
                    send(terminal.expect_prompt(), number, to_group)
                    terminal.expect_status(128 + number)


@check
def guard_in_the_group_of_the_leader_of_the_session():
    with folder() as where:
        path = programs(where, "sh", "stty")
        with Watched(f"{path}exec {prompt()}", shell="read -r go; ") as terminal:
            terminal.expect("the terminal is not raw", terminal.is_raw)
            os.kill(terminal.pid, signal.SIGKILL)
            terminal.expect_left()


@check
def guard_where_no_session_can_be_had():
    with folder() as where:
        path = programs(where, "sh", "stty", setsid="#!/bin/sh\nexit 1\n")
        with Watched(path + prompt()) as terminal:
            send(terminal.expect_prompt(), signal.SIGKILL, False)
            terminal.expect_status(128 + signal.SIGKILL)


@check
def no_guard():
    with folder() as where:
        shell = shutil.which("sh")
        path = programs(where, "stty", sh=f'#!{shell}\ncase "$2" in *ready*) exit 1 ;; esac\nexec {shell} "$@"\n')
        with Watched(path + prompt()) as terminal:
            terminal.expect_prompt()
            terminal.type("\r")
            terminal.expect_status(0)


if __name__ == "__main__":
    main(CHECKS)
