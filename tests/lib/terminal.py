"""A terminal for the program, and what is on it."""

import os
import pty
import select
import signal
import subprocess
import termios
import time
from collections.abc import Mapping

from lib.program import PROGRAM

UP = "\x1b[A"


class OnTerminal:
    """A run of a program whose standard error is a terminal. Its standard output is a pipe, or the terminal too."""

    def __init__(
        self, *words: str, is_all: bool = False, program: str = PROGRAM, env: Mapping[str, str] | None = None
    ) -> None:
        self.master, slave = pty.openpty()
        termios.tcsetwinsize(slave, (24, 80))
        output = slave if is_all else subprocess.PIPE
        self.child = subprocess.Popen([program, *words], stdin=subprocess.DEVNULL, stdout=output, stderr=slave, env=env)
        os.close(slave)
        self.shown = b""

    def read(self, seconds: float) -> bool:
        """Reads what comes to the terminal within a time, and returns whether anything did."""
        if not select.select([self.master], [], [], seconds)[0]:
            return False
        try:
            piece = os.read(self.master, 65_536)
        except OSError:  # the terminal of a program that ended
            return False
        self.shown += piece
        return bool(piece)

    def await_line(self, seconds: float = 20) -> str:
        """Reads until a line was drawn, and returns the text that came to the terminal."""
        end = time.monotonic() + seconds
        while b"\n" not in self.shown and time.monotonic() < end:
            self.read(end - time.monotonic())
        return self.shown.decode()

    def hold(self, seconds: float) -> None:
        """Stops the program for a time."""
        self.child.send_signal(signal.SIGSTOP)
        time.sleep(seconds)
        self.child.send_signal(signal.SIGCONT)

    def end(self) -> tuple[int, bytes, str]:
        """Waits for the end, and returns the exit status, standard output, and what came to the terminal."""
        output = self.child.stdout.read() if self.child.stdout else b""
        while self.read(0.2) or self.child.poll() is None:
            pass
        os.close(self.master)
        return self.child.wait(), output, self.shown.decode()


def screen(text: str) -> tuple[list[str], tuple[int, int]]:
    """Returns the lines of a terminal on which a text was written, without trailing blanks, and where the cursor is."""
    lines, row, column = [""], 0, 0
    at = 0
    while at < len(text):
        if text.startswith(UP, at):
            row, at = max(0, row - 1), at + len(UP)
            continue
        if text[at] == "\r":
            column = 0
        elif text[at] == "\n":
            row += 1
            lines += [""] * (row + 1 - len(lines))
        else:
            line = lines[row].ljust(column)
            lines[row] = line[:column] + text[at] + line[column + 1 :]
            column += 1
        at += 1
    return [line.rstrip() for line in lines], (row, column)
