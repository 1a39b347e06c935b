#!/usr/bin/env python3
"""Time and memory of `goshelf extract`, beside Python's sqlite3 that copies the same rows.

Build the program first (`./goshelf --version`), and have strace. A store of 100,000 versions of ten teams is made by
sqlite3, and one team's part of it extracted, in turn with sqlite3, which copies the rows of that part into new tables
in one transaction with synchronous FULL. The program reads and judges the whole store when it opens it, which sqlite3
does not. strace tells the two apart by the calls on the file of the part: its making goes from the first of them, once
the whole was opened, to the end of the last. Reads and writes are not traced, so tracing costs next to nothing; an
extract without it is timed in each turn too. With --quick the store is a tenth as large.
"""

import os
import re
import shutil
import sqlite3
import subprocess
import sys
import tempfile
import time
from typing import NamedTuple

from shared import PROGRAM, add_quick, need, parser_of, place, remove_stores, run
from store import BLOCK, answered, empty, gomod, middle, put_version

ROUNDS = 5
TEAMS = [f"team{n}" for n in range(10)]
TEAM = "team4"
# calls that name a file, or by -y the file of a descriptor, but those that read and write it
TRACED = "open,openat,stat,lstat,newfstatat,statx,access,faccessat2,flock,ftruncate,fsync,fdatasync,unlink,rename,close"
# the process, the moment, the call, and the seconds that it took
CALL = re.compile(r"(?:\d+ +)?(\d+\.\d+) (.*?)(?: <(\d+\.\d+)>)?$")
COPY = (
    "INSERT INTO shelf SELECT name, parent FROM whole.shelf WHERE name = ?1",
    "INSERT INTO access SELECT * FROM whole.access WHERE shelf IN ('common', ?1)",
    "INSERT INTO version SELECT * FROM whole.version WHERE shelf IN ('common', ?1)",
    (
        "INSERT INTO piece SELECT piece.* FROM whole.version JOIN whole.piece ON piece.version = version.id WHERE shelf"
        " IN ('common', ?1)"
    ),
)


def key_of(team: str) -> str:
    return f"{team}key0000000001"


def entry(n: int) -> tuple[str, str, str]:
    """The team, the path and the version of the nth entry, those of the teams by turns."""
    return TEAMS[n % len(TEAMS)], *place(n // len(TEAMS))


def filled(file: str, entries: int) -> None:
    """A store of this many versions with 1 KiB zips, those of the teams by turns."""
    conn = empty(file)
    conn.execute("BEGIN")
    for team in TEAMS:
        conn.execute("INSERT INTO shelf VALUES (?, 'common')", (team,))
        conn.execute("INSERT INTO access VALUES (?, ?, 1)", (key_of(team), team))
    for n in range(entries):
        team, path, version = entry(n)
        put_version(conn, team, path, version, gomod(path), BLOCK)
    conn.execute("COMMIT")
    conn.close()


def extracted(whole: str, part: str) -> tuple[float, float]:
    """Seconds and peak memory of the program."""
    remove_stores(part)
    took = run([PROGRAM, "extract", "--db", whole, "--team", TEAM, "--to", part])
    return took.seconds, took.peak


def parts_of(trace: list[str], whole: str, part: str) -> tuple[float, float]:
    """Seconds of opening the whole and of making the part, by the calls in a trace."""
    calls = [call for call in map(CALL.match, trace) if call]
    opens = [n for n, call in enumerate(calls) if call[2].startswith("open") and f'"{whole}"' in call[2]]
    # what is asked of the part before the whole is opened is none of its making
    making = [call for call in calls[opens[-1] :] if part in call[2]] if opens else []
    if not making:
        sys.exit("the trace has no call on the part")
    first, last = making[0], making[-1]
    return float(first[1]) - float(calls[0][1]), float(last[1]) + float(last[3] or 0) - float(first[1])


def traced(whole: str, part: str) -> tuple[float, float]:
    """Seconds of opening the whole and of making the part."""
    remove_stores(part)
    trace = part + ".trace"
    strace = ["strace", "-f", "--seccomp-bpf", "-y", "-ttt", "-T", "-s", "4096", "-e", f"trace={TRACED}", "-o", trace]
    subprocess.run([*strace, PROGRAM, "extract", "--db", whole, "--team", TEAM, "--to", part], check=True)
    with open(trace) as lines:
        return parts_of(lines.read().splitlines(), whole, part)


def begin_copy(new: str, name: str, old: str) -> sqlite3.Connection:
    """Makes a store by sqlite3, attaches another under a name, and begins a transaction that will be on the disk."""
    remove_stores(new)
    conn = empty(new)
    conn.execute("PRAGMA journal_mode = WAL")
    conn.execute("PRAGMA synchronous = FULL")
    conn.execute(f"ATTACH ? AS {name}", (old,))
    conn.execute("BEGIN")
    return conn


def copied(whole: str, part: str) -> float:
    """Seconds of sqlite3, from the opening of both to the end of the transaction."""
    started = time.monotonic()
    conn = begin_copy(part, "whole", whole)
    for statement in COPY:
        conn.execute(statement, (TEAM,))
    conn.execute("COMMIT")
    seconds = time.monotonic() - started
    conn.close()
    return seconds


def rows(file: str) -> list[list[tuple]]:
    """What a store has, without the numbers of its rows."""
    conn = sqlite3.connect(file)
    queries = (
        "SELECT * FROM shelf ORDER BY name",
        "SELECT * FROM access ORDER BY token",
        "SELECT shelf, path, version, time, mod, order_key, rank_key FROM version ORDER BY shelf, path, version",
        (
            "SELECT shelf, path, v.version, number, bytes FROM piece JOIN version v ON v.id = piece.version ORDER BY"
            " shelf, path, v.version, number"
        ),
    )
    found = [conn.execute(query).fetchall() for query in queries]
    conn.close()
    return found


class Turn(NamedTuple):
    """Seconds and MiB of a traced extract, of one that is not traced, and of the copy by sqlite3."""

    opening: float
    making: float
    seconds: float
    peak: float
    beside: float


def turn(whole: str, ours: str, theirs: str) -> Turn:
    """A traced extract, one that is not traced, with its peak, and the copy by sqlite3."""
    return Turn(*traced(whole, ours), *extracted(whole, ours), copied(whole, theirs))


def show(turns: list[Turn], part: str) -> None:
    """Prints the times of the turns."""
    opening, making, seconds, _, beside = zip(*turns)
    ratios = [one / other for one, other in zip(making, beside)]
    print(
        f"{part}, medians of {len(turns)} turns: the whole is opened in {middle(opening)} s, and the part made in"
        f" {middle(making, '.3f')} s; sqlite3 copies it in {middle(beside, '.3f')} s"
    )
    print(f"  making it takes {middle(ratios)} times sqlite3's time; without strace all takes {middle(seconds)} s")


def main() -> None:
    parser = parser_of(__doc__)
    add_quick(parser)
    entries = 100_000 // parser.parse_args().scale
    need()
    if shutil.which("strace") is None:
        sys.exit("strace is wanted")
    with tempfile.TemporaryDirectory(dir=os.environ.get("STORES")) as folder:
        whole, ours, theirs = (
            os.path.join(os.path.realpath(folder), name) for name in ("whole.db", "ours.db", "theirs.db")
        )
        filled(whole, entries)
        turns = [turn(whole, ours, theirs) for _ in range(ROUNDS)]
        size = f"{os.path.getsize(whole) / 2**20:,.0f} MiB"
        show(turns, f"a part of {entries // len(TEAMS):,} versions out of {entries:,} ({size})")
        # before this process grows: a child's peak begins at its parent's
        _, opened = answered(whole, [])
        _, opened_part = answered(ours, [])
        if rows(ours) != rows(theirs):
            sys.exit("the two copies differ")
        peak = max(one.peak for one in turns)
        print(f"peak {peak:,.1f} MiB; the whole is opened with {opened:,.1f} MiB, the part with {opened_part:,.1f} MiB")


if __name__ == "__main__":
    main()
