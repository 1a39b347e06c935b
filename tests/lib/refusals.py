"""Refusals of goshelf by their words, and the causes that goshelf-doctor finds for them."""

import os
import subprocess
from collections.abc import Sequence
from typing import IO

from lib import stores
from lib.keys import KEY
from lib.program import PROGRAM, ROOT

DOCTOR = os.path.join(ROOT, "deploy", "goshelf-doctor")


def word(line: str, *more: str, before: Sequence[str] = (), output: int | IO = subprocess.PIPE) -> str:
    """Runs a command, and returns the word of its refusal; nothing if it ends with 0."""
    ran = subprocess.run(
        [*before, PROGRAM, *line.split(), *more],
        stdin=subprocess.DEVNULL,
        stdout=output,
        stderr=subprocess.PIPE,
        timeout=120,
    )
    errors = ran.stderr.decode()
    if ran.returncode == 0 and errors == "":
        return ""
    is_word = errors.startswith("goshelf: ") and errors.count("\n") == 1
    assert ran.returncode == 1 and is_word, (line, ran.returncode, errors)
    return errors[len("goshelf: ") : -1]


def doctor(*words: str, before: Sequence[str] = ()) -> subprocess.CompletedProcess[str]:
    """Runs goshelf-doctor over this program, which need not be installed."""
    settings = {**os.environ, "GOSHELF": PROGRAM}
    return subprocess.run([*before, DOCTOR, *words], capture_output=True, text=True, env=settings, timeout=120)


def new_store(name: str) -> None:
    """Makes a store of alpha and its key."""
    stores.new_store(name, ("alpha", KEY))
