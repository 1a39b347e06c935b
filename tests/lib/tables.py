"""The tables of a store as sqlite3 reads and writes them."""

import re
import sqlite3
from collections.abc import Iterable, Iterator, Sequence

from lib.sums import seal

# bytes of a piece of a zip but for its last
PIECE = 65_536
# the row numbers that sqlite takes
LEAST, MOST = -(2**63), 2**63 - 1
# the tables, of which those of schema 2 were the same but for `shelf`
META = "CREATE TABLE meta (name TEXT PRIMARY KEY, value INTEGER NOT NULL) STRICT"
SHELF = "CREATE TABLE shelf (name TEXT PRIMARY KEY, parent TEXT REFERENCES shelf (name)) STRICT"
ACCESS = (
    "CREATE TABLE access (token TEXT PRIMARY KEY, shelf TEXT NOT NULL REFERENCES shelf (name), publish INTEGER NOT NULL"
    " CHECK (publish IN (0, 1))) STRICT"
)
VERSION = (
    "CREATE TABLE version (id INTEGER PRIMARY KEY, shelf TEXT NOT NULL REFERENCES shelf (name), path TEXT NOT NULL,"
    " version TEXT NOT NULL, time TEXT, mod BLOB NOT NULL, order_key BLOB NOT NULL, rank_key BLOB NOT NULL, UNIQUE"
    " (shelf, path, version)) STRICT"
)
PIECES = (
    "CREATE TABLE piece (version INTEGER NOT NULL REFERENCES version (id), number INTEGER NOT NULL CHECK (number >= 0),"
    " bytes BLOB NOT NULL, PRIMARY KEY (version, number)) STRICT"
)
TABLES = (META, SHELF, ACCESS, VERSION, PIECES)
PSEUDO = re.compile(r"^v0\.0\.0-(\d{14})-[0-9a-f]{12}$")


def order_key(version: str) -> bytes:
    """Returns the key that orders versions by precedence."""
    numbers, _, identifiers = version[1:].partition("-")
    key = b"".join(int(number).to_bytes(8, "big") for number in numbers.split("."))
    if not identifiers:
        return key + b"\3"
    for one in identifiers.split("."):
        key += bytes([1, len(one)]) + one.encode() if one.isdigit() else b"\2" + one.encode() + b"\0"
    return key + b"\0"


def rank_key(version: str) -> bytes:
    """Returns the key that orders versions by rank: pseudo-versions, pre-releases, releases."""
    stamp = PSEUDO.match(version)
    rank = b"\1" + stamp[1].encode() if stamp else b"\2" if "-" in version else b"\3"
    return rank + order_key(version)


def connected(file: str) -> sqlite3.Connection:
    """Opens a file by sqlite3, which then breaks references."""
    conn = sqlite3.connect(file, isolation_level=None)
    conn.execute("PRAGMA foreign_keys = OFF")
    return conn


def settled(conn: sqlite3.Connection) -> None:
    """Copies the log into the file, closes the connection, and writes the sums that sqlite3 leaves out."""
    name = conn.execute("PRAGMA database_list").fetchone()[2]
    conn.execute("PRAGMA wal_checkpoint(TRUNCATE)")
    conn.close()
    seal(name)


def empty_log(file: str) -> None:
    """Copies the log of a file that goshelf alone wrote into the file. Its pages keep the sums that goshelf wrote."""
    conn = connected(file)
    conn.execute("PRAGMA wal_checkpoint(TRUNCATE)")
    conn.close()


def entries_of(conn: sqlite3.Connection) -> Iterator[tuple[tuple, bytes]]:
    """Lists the entries of a store of today's schema: the row of `version`, and the zip."""
    for row in conn.execute(
        "SELECT id, shelf, path, version, time, mod, order_key, rank_key FROM version ORDER BY id"
    ).fetchall():
        pieces = conn.execute("SELECT bytes FROM piece WHERE version = ? ORDER BY number", row[:1])
        yield row, b"".join(piece for (piece,) in pieces)


def rows_of(file: str) -> tuple[list, list, list]:
    """Returns what a store of today's schema holds, but for the numbers of its rows."""
    conn = connected(file)
    tables = [sorted(conn.execute(f"SELECT * FROM {table}")) for table in ("meta", "access")]
    shelves = sorted(conn.execute("SELECT name, ifnull(parent, '') FROM shelf"))
    entries = sorted((row[1:4], row[4] or "", row[5:], zip_bytes) for row, zip_bytes in entries_of(conn))
    conn.close()
    empty_log(file)
    return tables, shelves, entries


def change(name: str, *statements: Sequence) -> None:
    """Runs statements by sqlite3, each with its values, and copies the log into the file."""
    conn = sqlite3.connect(name, isolation_level=None)
    for statement, *values in statements:
        conn.execute(statement, values)
    settled(conn)


def reordered(name: str, other: str) -> None:
    """Makes a file with the tables and the rows of another, the tables in the order of their names."""
    conn = sqlite3.connect(name, isolation_level=None)
    conn.execute("ATTACH ? AS f", (other,))
    tables = conn.execute("SELECT name, sql FROM f.sqlite_schema WHERE type = 'table' ORDER BY name").fetchall()
    for table, sql in tables:
        conn.execute(sql)
        conn.execute(f"INSERT INTO {table} SELECT * FROM f.{table}")
    conn.close()


def put_versions(conn: sqlite3.Connection, shelf: str, path: str, numbers: Iterable[int], zip_bytes: bytes) -> None:
    """Adds a version of a path for each row number, from `v1.0.0` on, with this zip."""
    gomod = f"module {path}\n".encode()
    conn.execute("BEGIN")
    for at, number in enumerate(numbers):
        version = f"v1.{at}.0"
        row = (number, shelf, path, version, None, gomod, order_key(version), rank_key(version))
        conn.execute("INSERT INTO version VALUES (?, ?, ?, ?, ?, ?, ?, ?)", row)
        starts = range(0, len(zip_bytes), PIECE)
        pieces = [(number, start // PIECE, zip_bytes[start : start + PIECE]) for start in starts]
        conn.executemany("INSERT INTO piece VALUES (?, ?, ?)", pieces)
    conn.execute("COMMIT")
