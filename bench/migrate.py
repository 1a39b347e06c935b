#!/usr/bin/env python3
"""Time and memory of `goshelf migrate`, beside Python's sqlite3 that makes the same rows.

Build the program first (`./goshelf --version`). A store of 100,000 versions and 1 GiB is made by sqlite3 in the tables
of schema 1, and another in those of schema 2. Each is migrated, in turn with sqlite3, which writes the rows of today's
tables in one transaction with synchronous FULL; from schema 1 it makes the keys of order and the pieces too. The
program reads the whole older store when it opens it, which sqlite3 does not. The peak is that of the whole run; beside
it stand the peaks of runs that open one of the two stores and are then refused. GOSHELF names another program. With
--quick the stores are a tenth as large, and --rounds N makes N turns, in place of 5.
"""

import os
import sqlite3
import subprocess
import sys
import tempfile
import time
from collections.abc import Sequence

from extract import TEAMS, begin_copy, entry, key_of, rows
from shared import PROGRAM, add_quick, add_sizes, need, parser_of, remove_stores
from store import gomod, keys, middle

from lib.older import OWN, SHARED
from lib.tables import PIECE

# a zip of one piece: 100,000 of them are 1 GiB
ZIP = bytes(range(256)) * 41 + b"z" * 241


def filled(file: str, schema: int, entries: int) -> None:
    """A store of an older schema with this many versions, those of the teams by turns."""
    conn = sqlite3.connect(file, isolation_level=None)
    for text in (*SHARED, *OWN[schema]):
        conn.execute(text)
    conn.execute("BEGIN")
    conn.execute("INSERT INTO meta VALUES ('schema', ?)", (schema,))
    conn.execute("INSERT INTO shelf VALUES ('common')")
    for team in TEAMS:
        conn.execute("INSERT INTO shelf VALUES (?)", (team,))
        conn.execute("INSERT INTO access VALUES (?, ?, 1)", (key_of(team), team))
    for n in range(entries):
        team, path, version = entry(n)
        row = (n + 1, team, path, version, None, gomod(path))
        if schema == 1:
            conn.execute("INSERT INTO version VALUES (?, ?, ?, ?, ?, ?)", row)
            conn.execute("INSERT INTO body VALUES (?, ?)", (n + 1, ZIP))
        else:
            conn.execute("INSERT INTO version VALUES (?, ?, ?, ?, ?, ?, ?, ?)", (*row, *keys(version)))
            conn.execute("INSERT INTO piece VALUES (?, 0, ?)", (n + 1, ZIP))
    conn.execute("COMMIT")
    conn.close()


def ran(status: int, *words: str) -> tuple[float, float, float]:
    """Seconds, seconds of the processor, and peak memory of a run of the program, which has to end with this status.
    What a child had before it became the program counts for the peak of getrusage, so that is asked of the system
    while it runs."""
    started, peak = time.monotonic(), 0
    child = subprocess.Popen([PROGRAM, *words], stderr=subprocess.DEVNULL)
    while not (ended := os.wait4(child.pid, os.WNOHANG))[0]:
        with open(f"/proc/{child.pid}/status") as file:
            peak = max([peak, *(int(line.split()[1]) for line in file if line.startswith("VmHWM"))])
        time.sleep(0.005)
    seconds = time.monotonic() - started
    if os.waitstatus_to_exitcode(ended[1]) != status:
        sys.exit(f"{words} ended with wait status {ended[1]}")
    return seconds, ended[2].ru_utime + ended[2].ru_stime, peak / 1024


def migrated(old: str, new: str) -> tuple[float, float, float]:
    """Seconds, seconds of the processor, and peak memory of a migration."""
    remove_stores(new)
    return ran(0, "migrate", "--from", old, "--to", new)


def copied(old: str, new: str, schema: int) -> tuple[float, float]:
    """Seconds of sqlite3, and of its processor, from the opening of both to the end of the transaction."""
    started, used = time.monotonic(), time.process_time()
    conn = begin_copy(new, "old", old)
    conn.execute("INSERT INTO shelf SELECT name, 'common' FROM old.shelf WHERE name <> 'common'")
    conn.execute("INSERT INTO access SELECT * FROM old.access")
    if schema == 2:
        conn.execute("INSERT INTO version SELECT * FROM old.version")
        conn.execute("INSERT INTO piece SELECT * FROM old.piece")
    else:
        whole = sqlite3.connect(old)
        for *row, zip in whole.execute(
            "SELECT v.id, shelf, path, version, time, mod, zip FROM version v JOIN body b ON b.id = v.id"
        ):
            conn.execute("INSERT INTO version VALUES (?, ?, ?, ?, ?, ?, ?, ?)", (*row, *keys(row[3])))
            pieces = ((row[0], at // PIECE, zip[at : at + PIECE]) for at in range(0, len(zip), PIECE))
            conn.executemany("INSERT INTO piece VALUES (?, ?, ?)", pieces)
        whole.close()
    conn.execute("COMMIT")
    seconds = time.monotonic() - started, time.process_time() - used
    conn.close()
    return seconds


def measured(folder: str, schema: int, entries: int, rounds: int) -> None:
    """Migrates a store of a schema by the program and by sqlite3, so many times each, and prints what both take."""
    old, ours, theirs, other = (
        os.path.join(folder, f"{name}{schema}.db") for name in ("old", "ours", "theirs", "other")
    )
    filled(old, schema, entries)
    turns = [(*migrated(old, ours), *copied(old, theirs, schema)) for _ in range(rounds)]
    if rows(ours) != rows(theirs):
        sys.exit("the program and sqlite3 do not make the same rows")
    seconds, used, peaks, beside, used_beside = zip(*turns)
    size = os.path.getsize(old) >> 20
    print(f"schema {schema}, {entries:,} versions, {size} MiB, medians of {rounds} turns:", end=" ")
    print(f"migrated in {middle(seconds)} s, by sqlite3 in {middle(beside)} s,", end=" ")
    print(f"{middle(ratios(seconds, beside))} times its time")
    print(f"    of the processor {middle(used)} s and {middle(used_beside)} s", end=", ")
    print(f"{middle(ratios(used, used_beside))} times as much")
    subprocess.run([PROGRAM, "team-add", "--db", other, "--team", "alpha"], check=True)
    old_alone = ran(1, "migrate", "--from", old, "--to", other)[2]
    new_alone = ran(1, "key-revoke", "--db", ours, "--key", "nosuchkey0000001")[2]
    print(f"    peak {max(peaks):.1f} MiB; opening the old store alone {old_alone:.1f} MiB,", end=" ")
    print(f"the new one alone {new_alone:.1f} MiB; three entries of the largest size are 51 MiB", flush=True)
    remove_stores(old, ours, theirs, other)


def ratios(ones: Sequence[float], others: Sequence[float]) -> list[float]:
    return [one / other for one, other in zip(ones, others)]


def main() -> None:
    parser = parser_of(__doc__)
    add_quick(parser)
    add_sizes(parser, ("rounds", 5, "turns"))
    words = parser.parse_args()
    need()
    with tempfile.TemporaryDirectory(prefix="goshelf-migrate-") as folder:
        for schema in (1, 2):
            measured(folder, schema, 100_000 // words.scale, words.rounds)


if __name__ == "__main__":
    main()
