"""The built program: its commands, how they end, and tables of them."""

import os
import shutil
import subprocess
from collections.abc import Iterable, Sequence
from typing import Any

from lib.keys import KEYS
from lib.messages import replies

ROOT = os.path.dirname(os.path.dirname(os.path.dirname(os.path.abspath(__file__))))
PROVED = os.path.join(ROOT, "crates", "goshelf", "out", "goshelf")
UNPROVED = os.path.join(ROOT, "out", "unproved", "goshelf")


def find_program() -> str:
    """Returns the program to test: the one that GOSHELF names, or the proved one, or else that of `--unproved`."""
    if named := os.environ.get("GOSHELF"):
        return os.path.abspath(named)
    return UNPROVED if os.path.exists(UNPROVED) and not os.path.exists(PROVED) else PROVED


PROGRAM = find_program()


def run(
    words: Iterable[str], stdin: bytes = b"", timeout: float = 120, before: Sequence[str] = (), **how: Any
) -> tuple[int, bytes, str]:
    """Runs goshelf with these words, and returns its exit status, its output and its errors.

    `before` is the command that runs it, as `NOBODY`; `how` goes to `subprocess.run`."""
    ran = subprocess.run([*before, PROGRAM, *words], input=stdin, capture_output=True, timeout=timeout, **how)
    return ran.returncode, ran.stdout, ran.stderr.decode()


def answered(words: Iterable[str], requests: Iterable[bytes], timeout: float = 600) -> list[tuple[int, bytes]]:
    """Has one run of `goshelf answer`, which must end well, answer requests. Returns the status and body of each."""
    status, output, errors = run(["answer", *words], b"".join(requests), timeout)
    assert (status, errors) == (0, ""), (status, errors)
    return replies(output)


def done(*words: str) -> None:
    """Runs a command that must end well."""
    status, _, errors = run(words)
    assert (status, errors) == (0, ""), (words, errors)


def refusal(word: str) -> tuple[int, bytes, str]:
    """Returns how a command ends, as `run` does, that refuses with a word."""
    return 1, b"", f"goshelf: {word}\n"


# runs a command as nobody: the rights of files do not bind root
NOBODY = ["setpriv", "--reuid=65534", "--regid=65534", "--clear-groups", "--no-new-privs"]


def can_be_nobody() -> bool:
    """Returns whether a process can become nobody here."""
    words = [*NOBODY, "true"]
    return (
        os.geteuid() == 0
        and bool(shutil.which("setpriv"))
        and subprocess.run(words, capture_output=True).returncode == 0
    )


def columns(row: str, count: int) -> list[str]:
    """Returns the columns of a row of a table, between which is `|`. Those that the row lacks are empty."""
    found = [column.strip() for column in row.split("|")]
    return found + [""] * (count - len(found))


def words_of(line: str) -> list[str]:
    """Returns the words of a command line. A letter after `--key` becomes its key."""
    words = line.split()
    return [KEYS.get(word, word) if before == "--key" else word for before, word in zip(["", *words], words)]
