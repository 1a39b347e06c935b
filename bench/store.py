#!/usr/bin/env python3
"""Speed and memory of a store in a file: `goshelf answer --db`, and lists of a long path.

Beside it Python's sqlite3 inserts the same rows. Build the program first (`./goshelf --version`); GOSHELF names another
program. Each publish is one transaction that is on the disk before it is answered, and so is each of sqlite3's
(synchronous=FULL). The publishes of both go in turn, each time into a new store. With --publishes these alone are
measured; with --quick the stores are a tenth as large. STORES names the folder of the stores.
"""

import itertools
import os
import sqlite3
import statistics
import sys
import tempfile
import time
from collections.abc import Iterable, Sequence

from shared import PROGRAM, add_quick, need, parser_of, place, run

from lib.keys import KEY
from lib.tables import PIECE, TABLES, order_key, rank_key

BLOCK = bytes(range(256)) * 4
ROUNDS = 9


def keys(version: str) -> tuple[bytes, bytes]:
    """The order_key and the rank_key of a version."""
    return order_key(version), rank_key(version)


def gomod(path: str) -> bytes:
    return f"module {path}\n".encode()


def publish_of(version: str, zip_length: int, path: str = place(0)[0]) -> bytes:
    length = len(gomod(path)) + zip_length
    head = (
        f"PUT /k/{KEY}/{path}/@v/{version} HTTP/1.1\r\nMod-Length: {len(gomod(path))}\r\nContent-Length:"
        f" {length}\r\n\r\n"
    )
    return head.encode() + gomod(path) + BLOCK * (zip_length // len(BLOCK))


def publish(n: int, zip_length: int) -> bytes:
    path, version = place(n)
    return publish_of(version, zip_length, path)


def get(n: int) -> bytes:
    path, version = place(n)
    return f"GET /k/{KEY}/{path}/@v/{version}.mod HTTP/1.1\r\n\r\n".encode()


def empty(file: str) -> sqlite3.Connection:
    """A database with the tables of a store and `common` alone, made by sqlite3."""
    conn = sqlite3.connect(file, isolation_level=None)
    conn.execute("PRAGMA foreign_keys = ON")
    for table in TABLES:
        conn.execute(table)
    conn.execute("INSERT INTO meta VALUES ('schema', 3)")
    conn.execute("INSERT INTO shelf VALUES ('common', NULL)")
    return conn


def made(file: str) -> sqlite3.Connection:
    """A database with the tables of a store, with alpha and its key, made by sqlite3."""
    conn = empty(file)
    conn.execute("INSERT INTO shelf VALUES ('alpha', 'common')")
    conn.execute("INSERT INTO access VALUES (?, 'alpha', 1)", (KEY,))
    return conn


def put_version(conn: sqlite3.Connection, shelf: str, path: str, version: str, mod: bytes, zip: bytes = b"") -> None:
    """Adds a version with its go.mod and its zip."""
    number = conn.execute(
        "INSERT INTO version (shelf, path, version, mod, order_key, rank_key) VALUES (?, ?, ?, ?, ?, ?)",
        (shelf, path, version, mod, *keys(version)),
    ).lastrowid
    for at in range(0, len(zip), PIECE):
        conn.execute("INSERT INTO piece VALUES (?, ?, ?)", (number, at // PIECE, zip[at : at + PIECE]))


def insert(conn: sqlite3.Connection, n: int, zip_length: int) -> None:
    path, version = place(n)
    put_version(conn, "alpha", path, version, gomod(path), BLOCK * (zip_length // len(BLOCK)))


def filled(file: str, entries: int) -> None:
    """A store of this many versions with 1 KiB zips, made by sqlite3 in one transaction."""
    conn = made(file)
    conn.execute("BEGIN")
    for n in range(entries):
        insert(conn, n, 1024)
    conn.execute("COMMIT")
    conn.close()


def answered(file: str, requests: Iterable[bytes], program: str = PROGRAM) -> tuple[float, float]:
    """Returns the seconds and the peak in MiB of the program on a stream.

    The stream is written to a file part by part so that this process stays small: a child's peak memory begins at its
    parent's.
    """
    with tempfile.TemporaryFile() as source, tempfile.TemporaryFile() as target:
        count = 0
        for request in requests:
            source.write(request)
            count += 1
        source.seek(0)
        took = run([program, "answer", "--db", file], source, target)
        target.seek(0)
        done = sum(line.count(b"HTTP/1.1 200 ") + line.count(b"HTTP/1.1 201 ") for line in target)
        if done != count:
            sys.exit(f"{done} of {count} requests were answered 200 or 201")
        return took.seconds, took.peak


def published(folder: str, count: int, zip_length: int) -> tuple[float, float, float]:
    """Milliseconds of one of this many publishes, and of one of as many by sqlite3, and the program's peak, each
    into a new store."""
    ours, theirs = (os.path.join(folder, f"{name}.db") for name in ("ours", "theirs"))
    made(ours).close()
    opening, _ = answered(ours, [])
    seconds, memory = answered(ours, (publish(n, zip_length) for n in range(count)))
    conn = made(theirs)
    conn.execute("PRAGMA journal_mode = WAL")
    conn.execute("PRAGMA synchronous = FULL")
    started = time.monotonic()
    for n in range(count):
        conn.execute("BEGIN")
        insert(conn, n, zip_length)
        conn.execute("COMMIT")
    beside = time.monotonic() - started
    conn.close()
    for name in os.listdir(folder):
        os.remove(os.path.join(folder, name))
    return 1000 * max(seconds - opening, 1e-9) / count, 1000 * beside / count, memory


def publishes(folder: str, count: int, zip_length: int, name: str) -> None:
    """Prints the medians of turns of publishes by the program and by sqlite3."""
    with tempfile.TemporaryDirectory(dir=folder) as own:
        turns = [published(own, count, zip_length) for _ in range(ROUNDS)]
    ours, theirs, memory = zip(*turns)
    ratios = [one / other for one, other in zip(ours, theirs)]
    print(
        (
            f"publishes with {name} zips, medians of {ROUNDS} turns of {count:,}: {middle(ours)} ms,"
            f" {1000 / statistics.median(ours):,.0f} a second, peak {max(memory):,.1f} MiB; sqlite3"
            f" {middle(theirs)} ms: {middle(ratios)} times its time"
        ),
        flush=True,
    )


def middle(values: Sequence[float], form: str = ".2f", unit: str = "") -> str:
    """The median of some values, the least and the most."""
    return f"{statistics.median(values):{form}}{unit} ({min(values):{form}} to {max(values):{form}})"


def filled_file(folder: str, entries: int) -> str:
    """The file of a store of this many versions, with the time and the memory of its opening."""
    file = os.path.join(folder, f"store{entries}.db")
    filled(file, entries)
    seconds, peaks = zip(*(answered(file, []) for _ in range(ROUNDS)))
    print(
        (
            f"a store of {entries:,} versions ({os.path.getsize(file) / 2**20:,.1f} MiB): opened in {middle(seconds)} s"
            f" with {max(peaks):,.1f} MiB at the peak"
        ),
        flush=True,
    )
    return file


def fetching(file: str, entries: int, gets: int) -> float:
    """Seconds of this many GETs of a .mod from a store, without its opening. The asked versions are spread over the
    store. They are so many that what an opening takes more or less from run to run hardly counts."""
    opening, _ = answered(file, [])
    seconds, _ = answered(file, (get(n * 7919 % entries) for n in range(gets)))
    return max(seconds - opening, 1e-9)


def fetches(folder: str, few: int, many: int, gets: int) -> None:
    """GETs from a small and from a large store, in turn, since the machine's speed may change meanwhile: the least
    of each."""
    files = {entries: filled_file(folder, entries) for entries in (few, many)}
    rounds = [{entries: fetching(file, entries, gets) for entries, file in files.items()} for _ in range(ROUNDS)]
    least = {entries: min(seconds[entries] for seconds in rounds) for entries in files}
    for entries, seconds in least.items():
        print(
            f"{gets:,} GETs of a .mod from {entries:,} versions: {gets / seconds:,.0f} a second, the best of"
            f" {ROUNDS} runs"
        )
    ratios = sorted(seconds[many] / seconds[few] for seconds in rounds)
    print(
        f"  a GET from the larger store costs {least[many] / least[few]:.2f} times one from the smaller by the best"
        f" runs; run by run {ratios[0]:.2f} to {ratios[-1]:.2f}, {ratios[ROUNDS // 2]:.2f} in the median"
    )


def ask(rest: str) -> bytes:
    return f"GET /k/{KEY}/{place(0)[0]}/{rest} HTTP/1.1\r\n\r\n".encode()


def on_one_path(folder: str, versions: int, asks: int, publishes: int) -> None:
    """The list and the latest version of a path, asked again and again, and asked once after each of some publishes."""
    file = filled_file(folder, versions)
    more = itertools.count()
    for name, rest in (("list", "@v/list"), ("latest version", "@latest")):
        opening = min(answered(file, [])[0] for _ in range(ROUNDS))
        again = min(answered(file, (ask(rest) for _ in range(asks)))[0] for _ in range(ROUNDS)) - opening
        put = lambda: publish_of(f"v1.1.{next(more)}", 0)
        plain = answered(file, (put() for _ in range(publishes)))[0]
        between = answered(file, itertools.chain.from_iterable((put(), ask(rest)) for _ in range(publishes)))[0]
        print(
            f"the {name} of {versions:,} versions: {1000 * again / asks:,.2f} ms asked again, the best of {ROUNDS} runs"
            f" of {asks:,}; {1000 * (between - plain) / publishes:,.2f} ms after a publish to the path"
        )


def main() -> None:
    parser = parser_of(__doc__)
    add_quick(parser)
    parser.add_argument("--publishes", action="store_true", help="measure publishes alone")
    words = parser.parse_args()
    scale = words.scale
    need()
    with tempfile.TemporaryDirectory(dir=os.environ.get("STORES")) as folder:
        publishes(folder, 1_500 // scale, 1024, "1 KiB")
        publishes(folder, 100 // scale, 2**20, "1 MiB")
        if words.publishes:
            return
        fetches(folder, 1_000, 100_000 // scale, 1_000_000 // scale)
        on_one_path(folder, 3_900, 1_000 // scale, 40)


if __name__ == "__main__":
    main()
