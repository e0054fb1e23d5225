"""A terminal's screen, worked out from the bytes that are written to it.

It knows the control functions that a prompt uses, by ECMA-48 and xterm, for characters of one column. Any other function
is an error: a prompt is not to write it.
"""

import re

FUNCTION = re.compile(rb"\x1b\[([?0-9;]*)([@-~])")


class Screen:
    def __init__(self, rows, cols):
        self.rows, self.cols = rows, cols
        self.lines = [[" "] * cols for _ in range(rows)]
        self.row = self.col = 0
        self.pending = False
        self.wraps = True
        self.shows_cursor = True
        self.pastes = False
        self.rest = b""

    def take(self, data):
        """Obeys the bytes. A control function that is cut off waits for its end."""
        data = self.rest + data
        self.rest = b""
        at = 0
        while at < len(data):
            byte = data[at]
            if byte == 0x1B:
                found = FUNCTION.match(data, at)
                if found:
                    self.obey(found.group(1).decode(), found.group(2).decode())
                    at = found.end()
                    continue
                if len(data) - at > 32:
                    raise ValueError(f"no control function: {data[at:at + 32]!r}")
                self.rest = data[at:]
                return
            self.take_byte(byte)
            at += 1

    def take_byte(self, byte):
        if byte == 0x0D:
            self.col, self.pending = 0, False
        elif byte == 0x0A:
            self.pending = False
            self.line_feed()
        elif byte == 0x08:
            self.col, self.pending = max(0, self.col - 1), False
        elif byte == 0x07:
            pass
        elif 0x20 <= byte < 0x7F:
            self.put(chr(byte))
        else:
            raise ValueError(f"no character of one column: {byte:#x}")

    def line_feed(self):
        if self.row == self.rows - 1:
            self.lines = self.lines[1:] + [[" "] * self.cols]
        else:
            self.row += 1

    def put(self, char):
        if self.pending and self.wraps:
            self.col, self.pending = 0, False
            self.line_feed()
        self.lines[self.row][self.col] = char
        if self.col == self.cols - 1:
            self.pending = True
        else:
            self.col += 1

    def obey(self, given, final):
        numbers = [int(number or 0) for number in given.lstrip("?").split(";")]
        count = max(1, numbers[0])
        if given.startswith("?"):
            self.set_modes(numbers, final)
            return
        self.pending = self.pending and final == "m"
        if final == "A":
            self.row = max(0, self.row - count)
        elif final == "B":
            self.row = min(self.rows - 1, self.row + count)
        elif final == "C":
            self.col = min(self.cols - 1, self.col + count)
        elif final == "D":
            self.col = max(0, self.col - count)
        elif final == "J" and numbers[0] == 0:
            self.lines[self.row][self.col :] = [" "] * (self.cols - self.col)
            for row in range(self.row + 1, self.rows):
                self.lines[row] = [" "] * self.cols
        elif final == "K" and numbers[0] == 0:
            self.lines[self.row][self.col :] = [" "] * (self.cols - self.col)
        elif final != "m":
            raise ValueError(f"no control function of a prompt: CSI {given} {final}")

    def set_modes(self, numbers, final):
        if final not in "hl":
            raise ValueError(f"no mode is set by CSI ? {numbers} {final}")
        for number in numbers:
            if number == 7:
                self.wraps = final == "h"
            elif number == 25:
                self.shows_cursor = final == "h"
            elif number == 2004:
                self.pastes = final == "h"
            else:
                raise ValueError(f"no mode of a prompt: {number}")

    def resize(self, rows, cols):
        """Takes another size: lines are cut or padded, and the cursor's line stays in the window."""
        lost = max(0, self.row + 1 - rows)
        lines = self.lines[lost : lost + rows]
        lines = [(line + [" "] * cols)[:cols] for line in lines]
        self.lines = lines + [[" "] * cols for _ in range(rows - len(lines))]
        self.row, self.col, self.pending = self.row - lost, min(self.col, cols - 1), False
        self.rows, self.cols = rows, cols

    def texts(self):
        """Returns the rows without their spaces at the end, down to the cursor or the last that has text."""
        texts = ["".join(line).rstrip() for line in self.lines]
        last = max([number for number, text in enumerate(texts) if text] + [self.row])
        return texts[: last + 1]
