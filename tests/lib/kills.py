"""Publishes that are killed: versions whose bytes follow from their number, and whether a store kept them."""

import os
import random
import subprocess
import threading
import time

from lib.keys import KEY
from lib.messages import get, put, replies
from lib.program import run

MODULE = "example.com/kills"
SIZES = [0, 1, 300, 5_000, 30_000, 150_000]
# versions on one store: each opening reads all of it
MOST = 150
# the random moments of a run; GOSHELF_SEED repeats them
SEED = int(os.environ.get("GOSHELF_SEED") or time.time_ns() % 10**9)
RANDOM = random.Random(SEED)


def print_seed() -> None:
    """Prints how to repeat the random moments of this run; pytest shows it where a test fails."""
    print(f"GOSHELF_SEED={SEED} repeats this")


def files_of(number: int) -> tuple[bytes, bytes]:
    """Returns the go.mod and the zip of the version of a number."""
    gomod = f"module {MODULE}\n\nrequire example.com/other v1.{number}.0\n".encode()
    return gomod, random.Random(number).randbytes(SIZES[number % len(SIZES)])


def publish(number: int, key: str = KEY) -> bytes:
    """Returns the request that publishes the version of a number."""
    return put(MODULE, f"v1.{number}.0", *files_of(number), key)


def fetch(number: int, kind: str, key: str = KEY) -> bytes:
    """Returns the request for a file of the version of a number."""
    return get(f"{MODULE}/@v/v1.{number}.0.{kind}", key)


def kill_after(child: subprocess.Popen, wait: float) -> threading.Timer:
    """Kills a program after some seconds, unless the timer is cancelled."""
    timer = threading.Timer(wait, child.kill)
    timer.start()
    return timer


def is_kept(store: str, acknowledged: list[int], underway: list[int]) -> tuple[bool, str | None]:
    """Opens the store again. Returns whether the version underway is there, and what is wrong, or None."""
    asked = [*acknowledged, *underway]
    status, written, errors = run(
        ["answer", "--db", store], b"".join(fetch(number, kind) for number in asked for kind in ("mod", "zip"))
    )
    got = replies(written) if status == 0 else []
    if len(got) != 2 * len(asked):
        return False, f"{len(got)} replies to {2 * len(asked)} requests, status {status}, {errors}"
    pairs = dict(zip(asked, zip(got[::2], got[1::2])))
    whole = {number: tuple((200, part) for part in files_of(number)) for number in asked}
    for number in acknowledged:
        if pairs[number] != whole[number]:
            return False, f"version {number} is lost or changed"
    for number in underway:
        if pairs[number] != whole[number] and [status for status, _ in pairs[number]] != [404, 404]:
            return False, f"version {number} is there in part"
    return any(pairs[number] == whole[number] for number in underway), None
