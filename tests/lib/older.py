"""Stores of schemas 1 and 2, made by sqlite3."""

import os
import shutil
import sqlite3

from lib.keys import KEYS, SHELVES
from lib.messages import put
from lib.program import answered, run
from lib.scratch import write
from lib.stores import new_store
from lib.tables import ACCESS, META, PIECE, PIECES, VERSION, connected, entries_of, settled
from lib.worked import FILES

# the tables of schemas 1 and 2: those that they share, and those of each
SHARED = (META, "CREATE TABLE shelf (name TEXT PRIMARY KEY) STRICT", ACCESS)
OWN = {
    1: (
        (
            "CREATE TABLE version (id INTEGER PRIMARY KEY, shelf TEXT NOT NULL REFERENCES shelf (name), path TEXT NOT"
            " NULL, version TEXT NOT NULL, time TEXT, mod BLOB NOT NULL, UNIQUE (shelf, path, version)) STRICT"
        ),
        "CREATE TABLE body (id INTEGER PRIMARY KEY REFERENCES version (id), zip BLOB NOT NULL) STRICT",
    ),
    2: (VERSION, PIECES),
}
# zips of more pieces than one, the last one full or not
LONG = {"v1.0.1": b"p" * PIECE, "v1.0.2": b"q" * (PIECE + 1), "v1.0.3": bytes(range(256)) * 1024}
LONG_MOD = b"module example.com/long\n"
# the key that stands in a log alone
LATE_KEY = "latekey000000001"


def older(file: str, schema: int, source: str = "whole.db") -> None:
    """Makes a file of an older schema with the rows of a store, which has no group."""
    new, old = connected(source), connected(file)
    for text in (*SHARED, *OWN[schema]):
        old.execute(text)
    old.execute("BEGIN")
    old.execute("INSERT INTO meta VALUES ('schema', ?)", (schema,))
    old.executemany("INSERT INTO shelf VALUES (?)", new.execute("SELECT name FROM shelf").fetchall())
    old.executemany(
        "INSERT INTO access VALUES (?, ?, ?)", new.execute("SELECT token, shelf, publish FROM access").fetchall()
    )
    for row, zip_bytes in entries_of(new):
        put_entry(old, schema, row, zip_bytes)
    old.execute("COMMIT")
    new.close()
    settled(old)


def put_entry(conn: sqlite3.Connection, schema: int, row: tuple, zip_bytes: bytes) -> None:
    """Adds a version to an older store: the row that `version` has today, and the zip."""
    if schema == 1:
        conn.execute("INSERT INTO version VALUES (?, ?, ?, ?, ?, ?)", row[:6])
        conn.execute("INSERT INTO body VALUES (?, ?)", (row[0], zip_bytes))
    else:
        conn.execute("INSERT INTO version VALUES (?, ?, ?, ?, ?, ?, ?, ?)", row)
        for at in range(0, len(zip_bytes), PIECE):
            conn.execute("INSERT INTO piece VALUES (?, ?, ?)", (row[0], at // PIECE, zip_bytes[at : at + PIECE]))


def fill_whole_store(file: str = "whole.db") -> None:
    """Makes the store of the worked rows, with some long zips. The files that it imports are written beside it."""
    write(FILES)
    new_store(file, *SHELVES)
    for letter, name in (("B", "beta.csv"), ("A", "alpha.csv"), ("C", "common.csv")):
        count = FILES[name].count("\n") - 1
        printed = "".join(f"{number} 201 published\n" for number in range(1, count + 1))
        assert run(["import", "--db", file, "--key", KEYS[letter], "--list", name]) == (0, printed.encode(), ""), name
    publishes = [
        put("example.com/long", version, LONG_MOD, zip_bytes, KEYS["A"]) for version, zip_bytes in LONG.items()
    ]
    assert [status for status, _ in answered(["--db", file], publishes)] == [201] * len(LONG)


def with_log(folder: str, schema: int, source: str = "whole.db") -> None:
    """Makes a folder with an older store whose last key stands in its log alone, as a killed program leaves it."""
    os.mkdir(folder)
    kept = f"{folder}/kept.db"
    older(kept, schema, source)
    conn = connected(kept)
    assert conn.execute("PRAGMA journal_mode = WAL").fetchone() == ("wal",)
    conn.execute("PRAGMA wal_checkpoint(TRUNCATE)")
    conn.execute("INSERT INTO access VALUES (?, 'beta', 1)", (LATE_KEY,))
    for end in ("", "-wal"):
        shutil.copy(f"{kept}{end}", f"{folder}/old.db{end}")
    conn.close()
    os.remove(kept)


# a version of `common`, without the keys of order of schema 2
ENTRY = "7, 'common', 'example.com/lib', 'v1.0.0', NULL, X'6d6f64756c65206578616d706c652e636f6d2f6c69620a'"
# the keys of v1.0.0
ORDER_KEY = "00000000000000010000000000000000000000000000000003"
RANK_KEY = "03" + ORDER_KEY


def script(schema: int, *entry: str) -> str:
    """Returns the statements that make a store of a schema with alpha, its key, and these rows of an entry."""
    return "".join(
        f"{statement};\n"
        for statement in (
            *SHARED,
            *OWN[schema],
            f"INSERT INTO meta VALUES ('schema', {schema})",
            "INSERT INTO shelf VALUES ('common'), ('alpha')",
            f"INSERT INTO access VALUES ('{KEYS['A']}', 'alpha', 1)",
            *entry,
        )
    )


SCHEMA_1 = script(1, f"INSERT INTO version VALUES ({ENTRY})", "INSERT INTO body VALUES (7, X'5A')")
SCHEMA_2 = script(
    2,
    f"INSERT INTO version VALUES ({ENTRY}, X'{ORDER_KEY}', X'{RANK_KEY}')",
    "INSERT INTO piece VALUES (7, 0, X'5A')",
)
