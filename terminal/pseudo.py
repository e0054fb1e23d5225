"""A program in a pseudo-terminal: what it writes is kept and shown, and what is typed is written to it."""

import fcntl
import os
import pathlib
import pty
import select
import signal
import struct
import subprocess
import termios
import time

from screens import Screen

TOP = pathlib.Path(__file__).resolve().parent.parent

# obeys bytes by the product's own model of a terminal, and prints its screen
SHOW = os.environ.get("SCREEN_SHOW", str(TOP / "crates/screen_show/out/screen_show"))

# how long what is expected may take; nothing else is measured by a clock
PATIENCE = 20


class Unmet(Exception):
    """What was expected did not come."""


class PseudoTerminal:
    """A shell that runs some words in a pseudo-terminal of its own."""

    def __init__(self, words, rows=24, cols=80, environment=None, folder=None):
        self.screen = Screen(rows, cols)
        self.written = b""
        self.sizes = [f"{rows}x{cols}"]
        self.obeyed = 0
        self.ended = False
        self.status = None
        self.pid, self.end = pty.fork()
        if self.pid == 0:
            try:
                fcntl.ioctl(0, termios.TIOCSWINSZ, struct.pack("HHHH", rows, cols, 0, 0))
                if folder:
                    os.chdir(folder)
                for number in (signal.SIGHUP, signal.SIGINT, signal.SIGQUIT, signal.SIGTERM, signal.SIGPIPE):
                    signal.signal(number, signal.SIG_DFL)
                os.execvpe("sh", ["sh", "-c", words], {**os.environ, **(environment or {})})
            finally:
                os._exit(127)

    def __enter__(self):
        return self

    def __exit__(self, *_):
        if self.end is not None:
            os.close(self.end)
            self.end = None
        try:
            os.kill(self.pid, signal.SIGKILL)
        except ProcessLookupError:
            pass
        if self.status is None:
            os.waitpid(self.pid, 0)

    def read(self, seconds):
        """Takes what the program writes within some seconds, and tells whether there was anything."""
        ready, _, _ = select.select([self.end], [], [], seconds)
        if not ready:
            return False
        try:
            data = os.read(self.end, 65536)
        except OSError:
            data = b""
        if not data:
            self.ended = True
            return False
        self.written += data
        self.screen.take(data)
        return True

    def expect(self, what, holds):
        """Waits until something holds, and raises where it doesn't."""
        until = time.monotonic() + PATIENCE
        while not holds():
            if self.ended and not holds():
                break
            if time.monotonic() > until:
                break
            self.read(0.05)
        if not holds():
            raise Unmet(f"{what}; the screen has {self.screen.texts()}, the cursor is at {self.place()}")

    def expect_rows(self, rows, place=None):
        """Waits until the screen has exactly these rows, and the cursor this place where one is given."""
        self.expect(f"no rows {rows} with the cursor at {place}", lambda: self.screen.texts() == rows
                    and (place is None or self.place() == place))
        self.agree()

    def agree(self):
        """Demands that the product's own terminal shows the same screen where it obeys all that was written."""
        if not os.access(SHOW, os.X_OK):
            return
        shown = subprocess.run([SHOW, *self.sizes], input=self.written, capture_output=True, timeout=PATIENCE, check=True)
        screen = self.screen
        want = [f"screen {screen.rows} {screen.cols} {screen.row} {screen.col}"] + [f"|{text}" for text in screen.texts()]
        if shown.stdout.decode().splitlines() != want:
            raise Unmet(f"the model of a terminal shows {shown.stdout.decode().splitlines()}, and not {want}")

    def expect_text(self, text):
        """Waits until some row has this text."""
        self.expect(f"no row with {text!r}", lambda: any(text in row for row in self.screen.texts()))

    def expect_end(self):
        """Waits for the end of the shell, and returns its status."""
        self.expect("no end", lambda: self.ended)
        _, status = os.waitpid(self.pid, 0)
        self.status = os.waitstatus_to_exitcode(status)
        return self.status

    def place(self):
        return (self.screen.row, self.screen.col)

    def type(self, keys):
        """Writes all the bytes, and takes what the program writes meanwhile."""
        data = keys.encode() if isinstance(keys, str) else keys
        until = time.monotonic() + PATIENCE
        while data and time.monotonic() < until:
            _, ready, _ = select.select([], [self.end], [], 0.05)
            if ready:
                data = data[os.write(self.end, data[:1024]) :]
            while self.read(0):
                pass
        if data:
            raise Unmet(f"{len(data)} bytes could not be typed")

    def resize(self, rows, cols):
        """Gives the terminal another size, behind what was written so far."""
        while self.read(0):
            pass
        fcntl.ioctl(self.end, termios.TIOCSWINSZ, struct.pack("HHHH", rows, cols, 0, 0))
        self.screen.resize(rows, cols)
        self.sizes += [str(len(self.written) - self.obeyed), f"{rows}x{cols}"]
        self.obeyed = len(self.written)

    def settings(self):
        """Returns the settings of the terminal."""
        return termios.tcgetattr(self.end)

    def is_raw(self):
        """Tells whether what is typed is handed on byte by byte and not echoed."""
        return not self.settings()[3] & (termios.ICANON | termios.ECHO)
