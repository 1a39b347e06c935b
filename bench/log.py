#!/usr/bin/env python3
"""Publishes with each of some programs in turn, and what they leave.

It measures the log, the time to open the store, and to copy both files. It compares programs that differ in
`checkpoint_frames`, a figure of `Options` in crates/store/src/files.rt, which says how long the log grows before it is
copied into the file. Name each by --program FILE. Each publish is one transaction that is on the disk before it is
answered.
"""

import os
import shutil
import tempfile
import time

import store
from shared import PROGRAM, file_named, need, parser_of
from store import middle

ROUNDS = 5
KINDS = (("1 KiB", 1_500, 1_024), ("1 MiB", 200, 2**20), ("16 MiB", 12, 2**24))
# versions of the store that is opened with its longest log
VERSIONS = 10_000


def log_of(file: str) -> float:
    return os.path.getsize(f"{file}-wal") / 2**20 if os.path.exists(f"{file}-wal") else 0


def copy(file: str, end: str) -> None:
    """Copies a store with its log, each under its name with an ending."""
    for name in (file, f"{file}-wal"):
        if os.path.exists(name):
            shutil.copyfile(name, name + end)


def copied(file: str) -> float:
    """Seconds that a copy of the store takes."""
    started = time.monotonic()
    copy(file, ".copy")
    return time.monotonic() - started


def round_of(folder: str, program: str, count: int, size: int) -> tuple[float, float, float, float]:
    """Milliseconds of a publish, MiB of the log, seconds of an opening and of a copy."""
    file = os.path.join(folder, "store.db")
    store.made(file).close()
    opening, _ = store.answered(file, [], program)
    seconds, _ = store.answered(file, (store.publish(n, size) for n in range(count)), program)
    row = (1000 * (seconds - opening) / count, log_of(file), store.answered(file, [], program)[0], copied(file))
    for name in os.listdir(folder):
        os.unlink(os.path.join(folder, name))
    return row


def longest(file: str, program: str) -> None:
    """Publishes small versions into a store until its log begins anew, and leaves it as it was before that."""
    store.filled(file, VERSIONS)
    kept, versions = 0.0, VERSIONS
    while True:
        copy(file, ".before")
        store.answered(file, (store.publish(n, 1_024) for n in range(versions, versions + 20)), program)
        versions += 20
        if log_of(file) <= kept:
            for name in (file, f"{file}-wal"):
                os.replace(f"{name}.before", name)
            return
        kept = log_of(file)


def publishes(folder: str, programs: list[str]) -> None:
    """Prints what publishes of each kind take by each program, in turn."""
    rows: dict[tuple[str, str], list[tuple[float, float, float, float]]] = {}
    for _ in range(ROUNDS):
        for name, count, size in KINDS:
            for program in programs:
                rows.setdefault((name, program), []).append(round_of(folder, program, count, size))
    for (name, program), turns in rows.items():
        took, log, opened, copies = zip(*turns)
        line = f"{name}, {program}: {middle(took)} ms a publish; a log of {max(log):.1f} MiB, opened in"
        print(f"{line} {middle(opened)} s, copied in {middle(copies)} s", flush=True)


def openings(folder: str, programs: list[str]) -> None:
    """Prints what the opening of a store with its longest log takes by each program, in turn."""
    files = [os.path.join(folder, f"longest{at}.db") for at in range(len(programs))]
    for file, program in zip(files, programs):
        longest(file, program)
    took: list[list[float]] = [[] for _ in programs]
    for _ in range(2 * ROUNDS - 1):
        for file, program, seconds in zip(files, programs, took):
            seconds.append(store.answered(file, [], program)[0])
    for file, program, seconds in zip(files, programs, took):
        line = f"{VERSIONS:,} versions with a log of {log_of(file):.1f} MiB, {program}: opened in {middle(seconds)} s"
        print(line, flush=True)


def main() -> None:
    parser = parser_of(__doc__)
    parser.add_argument("--program", action="append", metavar="FILE", type=file_named, help="a program, again for each")
    programs = parser.parse_args().program or [PROGRAM]
    for program in programs:
        need(program)
    with tempfile.TemporaryDirectory(dir=os.environ.get("STORES")) as folder:
        publishes(folder, programs)
        openings(folder, programs)


if __name__ == "__main__":
    main()
