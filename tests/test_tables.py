"""The tables of a store as sqlite3 reads and writes them: shelves and their parents, keys of order, and zips in pieces.

The program publishes, and Python's sqlite3 finds the tables whole, the parent of each shelf, the pieces of each zip and
the keys of each version, which are made here by their own rules. Then sqlite3 changes rows, also such as break a
reference, and the program refuses each file as `bad-schema` and leaves its bytes as they were. At last sqlite3 makes
the rows, and the program serves them.
"""

import contextlib
import re
import shutil
import sqlite3
from collections.abc import Iterable, Iterator
from typing import NamedTuple

import pytest

from lib import messages
from lib.keys import KEY, KEYS
from lib.messages import get
from lib.program import answered, refusal, run
from lib.scratch import read
from lib.stores import add_platform, new_store, remove_store
from lib.tables import PIECE, PSEUDO, connected, order_key, rank_key, settled

PATH = "example.com/m"
GOMOD = f"module {PATH}\n".encode()
# the version whose zip is the largest
LARGEST = "v1.0.6"
# each version with the length of its zip
VERSIONS = {
    "v1.0.0": 0,
    "v1.0.1": 1,
    "v1.0.2": PIECE - 1,
    "v1.0.3": PIECE,
    "v1.0.4": PIECE + 1,
    "v1.0.5": 2 * PIECE,
    LARGEST: 256 * PIECE,
    "v1.1.0-rc.10": 2 * PIECE + 3,
    "v1.1.0-2": 3,
    "v0.0.0-20240131120000-0123456789ab": 4,
}
# each shelf with its parent
SHELVES = [("alpha", "common"), ("common", None), ("delta", "platform"), ("gamma", "platform"), ("platform", None)]
# each table with its columns: the name, the type, whether it may be null, and its place in the primary key
COLUMNS = {
    "meta": [("name", "TEXT", 1, 1), ("value", "INTEGER", 1, 0)],
    "shelf": [("name", "TEXT", 1, 1), ("parent", "TEXT", 0, 0)],
    "access": [("token", "TEXT", 1, 1), ("shelf", "TEXT", 1, 0), ("publish", "INTEGER", 1, 0)],
    "version": [
        ("id", "INTEGER", 0, 1), ("shelf", "TEXT", 1, 0), ("path", "TEXT", 1, 0), ("version", "TEXT", 1, 0),
        ("time", "TEXT", 0, 0),
        ("mod", "BLOB", 1, 0), ("order_key", "BLOB", 1, 0), ("rank_key", "BLOB", 1, 0),
    ],
    "piece": [("version", "INTEGER", 1, 1), ("number", "INTEGER", 1, 2), ("bytes", "BLOB", 1, 0)],
}  # fmt: skip
# the foreign keys of each table that has some: the column, and the table and column that it refers to
FOREIGN = {
    "shelf": [("parent", "shelf", "name")],
    "access": [("shelf", "shelf", "name")],
    "version": [("shelf", "shelf", "name")],
    "piece": [("version", "version", "id")],
}


def zip_of(version: str) -> bytes:
    """Returns bytes that differ from piece to piece and from version to version."""
    length = VERSIONS[version]
    block = (version.encode() + b" ") * 4001
    return b"".join(b"%08d" % at + block for at in range(0, length + 1, len(block)))[:length]


def put(version: str) -> bytes:
    time = stamp_time(version) if PSEUDO.match(version) else ""
    return messages.put(PATH, version, GOMOD, zip_of(version), time=time)


def stamp_time(version: str) -> str:
    """Returns the time of a pseudo-version."""
    stamp = PSEUDO.match(version)[1]
    return re.sub(r"(....)(..)(..)(..)(..)(..)", r"\1-\2-\3T\4:\5:\6Z", stamp)


def make_store(file: str, versions: Iterable[str]) -> None:
    """Makes a store of alpha, and publishes these versions."""
    new_store(file, ("alpha", KEY))
    puts = [put(version) for version in versions]
    assert [status for status, _ in answered(["--db", file], puts)] == [201] * len(puts)


class Rows(NamedTuple):
    """What sqlite3 reads of a store: each version's rows of `version` and `piece`, and the versions by their keys."""

    checks: dict[str, list]
    keys: dict[str, list[tuple[bytes, bytes]]]
    pieces: dict[str, list[tuple[int, bytes]]]
    by_order: list[str]
    by_rank: list[str]


def read_rows(file: str) -> Rows:
    conn = connected(file)

    def select(sql: str, *values: object) -> list:
        return conn.execute(sql, values).fetchall()

    of_version = "version = (SELECT id FROM version WHERE path = ? AND version = ?)"
    rows = Rows(
        {pragma: select(f"PRAGMA {pragma}") for pragma in ("integrity_check", "foreign_key_check")}
        | {"meta": select("SELECT name, value FROM meta")},
        {
            version: select("SELECT order_key, rank_key FROM version WHERE path = ? AND version = ?", PATH, version)
            for version in VERSIONS
        },
        {
            version: select(f"SELECT number, bytes FROM piece WHERE {of_version} ORDER BY number", PATH, version)
            for version in VERSIONS
        },
        [version for (version,) in select("SELECT version FROM version ORDER BY order_key")],
        [version for (version,) in select("SELECT version FROM version ORDER BY rank_key")],
    )
    conn.close()
    return rows


class TestPublished:
    """What the program published, as sqlite3 reads it."""

    @pytest.fixture(scope="class")
    def rows(self, class_folder: str) -> Rows:
        make_store("f.db", VERSIONS)
        return read_rows("f.db")

    @pytest.mark.parametrize(
        ("check", "wanted"),
        [("integrity_check", [("ok",)]), ("foreign_key_check", []), ("meta", [("schema", 3)])],
        ids=["integrity_check", "foreign_key_check", "schema 3"],
    )
    def test_check(self, rows: Rows, check: str, wanted: list) -> None:
        assert rows.checks[check] == wanted

    @pytest.mark.parametrize("version", VERSIONS)
    def test_keys(self, rows: Rows, version: str) -> None:
        assert rows.keys[version] == [(order_key(version), rank_key(version))]

    @pytest.mark.parametrize("version", VERSIONS)
    def test_pieces(self, rows: Rows, version: str) -> None:
        pieces = rows.pieces[version]
        assert [number for number, _ in pieces] == list(range((VERSIONS[version] + PIECE - 1) // PIECE))
        assert [number for number, piece in pieces[:-1] if len(piece) != PIECE] == [], "each but the last is full"
        is_whole = b"".join(piece for _, piece in pieces) == zip_of(version)
        assert is_whole, "joined they are not the zip"

    def test_order_key_goes_by_precedence(self, rows: Rows) -> None:
        releases = [f"v1.0.{n}" for n in range(7)]
        assert rows.by_order == ["v0.0.0-20240131120000-0123456789ab", *releases, "v1.1.0-2", "v1.1.0-rc.10"]

    def test_rank_key_goes_by_rank(self, rows: Rows) -> None:
        releases = [f"v1.0.{n}" for n in range(7)]
        assert rows.by_rank == ["v0.0.0-20240131120000-0123456789ab", "v1.1.0-2", "v1.1.0-rc.10", *releases]


# the letters of the keys whose shelves publish
PUBLISHED = "APMC"


def get_by(letter: str, other: str) -> bytes:
    """Returns a GET, by a key, of what another key published."""
    return get(f"example.com/{other.lower()}/@v/v1.0.0.zip", KEYS[letter])


def seen(file: str, letter: str) -> str:
    """Returns the letters of the keys whose versions a key sees."""
    replies = answered(["--db", file], [get_by(letter, other) for other in PUBLISHED])
    return "".join(other for other, found in zip(PUBLISHED, replies) if found == (200, other.encode()))


def make_shelves() -> None:
    """Makes shelves.db, a store with a group whose shelves each publish a version."""
    new_store("shelves.db", ("alpha", KEY), ("common", KEYS["C"]))
    add_platform("shelves.db")
    paths = {letter: f"example.com/{letter.lower()}" for letter in PUBLISHED}
    puts = [
        messages.put(path, "v1.0.0", f"module {path}\n".encode(), letter.encode(), KEYS[letter])
        for letter, path in paths.items()
    ]
    assert [status for status, _ in answered(["--db", "shelves.db"], puts)] == [201] * len(puts)
    settled(connected("shelves.db"))


class TestSchema:
    """Tables, columns and the parents of shelves, as sqlite3 lists them."""

    @pytest.fixture(scope="class")
    def conn(self, class_folder: str) -> Iterator[sqlite3.Connection]:
        make_shelves()
        with contextlib.closing(connected("shelves.db")) as conn:
            yield conn

    def test_each_shelf_has_its_parent(self, conn: sqlite3.Connection) -> None:
        assert conn.execute("SELECT name, parent FROM shelf ORDER BY name").fetchall() == SHELVES

    def test_checks(self, conn: sqlite3.Connection) -> None:
        assert conn.execute("PRAGMA foreign_key_check").fetchall() == []
        assert conn.execute("PRAGMA integrity_check").fetchall() == [("ok",)]

    def test_each_table_is_strict(self, conn: sqlite3.Connection) -> None:
        tables = {row[1]: row[5] for row in conn.execute("PRAGMA table_list") if not row[1].startswith("sqlite_")}
        assert tables == {name: 1 for name in COLUMNS}

    @pytest.mark.parametrize("table", COLUMNS)
    def test_columns(self, conn: sqlite3.Connection, table: str) -> None:
        found = [(row[1], row[2], row[3], row[5]) for row in conn.execute(f"PRAGMA table_info({table})")]
        assert found == COLUMNS[table]

    @pytest.mark.parametrize("table", COLUMNS)
    def test_foreign_keys(self, conn: sqlite3.Connection, table: str) -> None:
        found = [(row[3], row[2], row[4]) for row in conn.execute(f"PRAGMA foreign_key_list({table})")]
        assert found == FOREIGN.get(table, [])


def change_shelves(file: str, statements: str) -> None:
    """Copies shelves.db to a file and runs statements there."""
    remove_store(file)
    shutil.copy("shelves.db", file)
    conn = connected(file)
    for statement in statements.split(";"):
        conn.execute(statement)
    settled(conn)


def add_second_row(file: str, parent: str | None, is_in_index: bool) -> None:
    """Gives `alpha` a second row, which its primary key forbids: without the key the row is added, and then the key
    is put back, either over an index that has both rows, or over the one that has the first alone."""
    key, table = "sqlite_autoindex_shelf_1", "CREATE TABLE shelf (name TEXT, parent TEXT) STRICT"
    change_shelves(file, "SELECT 1")
    conn = connected(file)
    rows = conn.execute(
        "SELECT rowid, type, name, tbl_name, rootpage, sql FROM sqlite_schema WHERE tbl_name = 'shelf'"
    ).fetchall()
    conn.executescript(
        f"PRAGMA writable_schema = ON; DELETE FROM sqlite_schema WHERE name = '{key}'; UPDATE sqlite_schema SET sql ="
        f" '{table}' WHERE name = 'shelf'"
    )
    conn.close()
    conn = connected(file)
    conn.execute("INSERT INTO shelf VALUES ('alpha', ?)", (parent,))
    if is_in_index:
        conn.execute("CREATE INDEX both ON shelf (name)")
    conn.execute("PRAGMA writable_schema = ON")
    roots = dict(conn.execute("SELECT 'root', rootpage FROM sqlite_schema WHERE name = 'both'"))
    conn.execute("DELETE FROM sqlite_schema WHERE tbl_name = 'shelf'")
    for number, kind, name, of, root, sql in rows:
        conn.execute(
            "INSERT INTO sqlite_schema (rowid, type, name, tbl_name, rootpage, sql) VALUES (?, ?, ?, ?, ?, ?)",
            (number, kind, name, of, roots.get("root", root) if name == key else root, sql),
        )
    settled(conn)


# shelves that are those of no world
UNFIT_SHELVES = {
    "a parent that is no shelf": "UPDATE shelf SET parent = 'nosuch' WHERE name = 'gamma'",
    "a new team of a group that is not there": "INSERT INTO shelf VALUES ('eps', 'nosuch')",
    "a new team whose parent is itself": "INSERT INTO shelf VALUES ('eps', 'eps')",
    "an empty parent": "UPDATE shelf SET parent = '' WHERE name = 'gamma'",
    "a parent in other letters": "UPDATE shelf SET parent = 'Platform' WHERE name = 'gamma'",
    "a team as a parent": "UPDATE shelf SET parent = 'alpha' WHERE name = 'gamma'",
    "a team of the group as a parent": "UPDATE shelf SET parent = 'delta' WHERE name = 'gamma'",
    "a team that is its own parent": "UPDATE shelf SET parent = name WHERE name = 'alpha'",
    "a team of a group that is its own parent": "UPDATE shelf SET parent = name WHERE name = 'gamma'",
    "a group that is its own parent": "UPDATE shelf SET parent = name WHERE name = 'platform'",
    "a cycle of two teams": (
        "UPDATE shelf SET parent = iif(name = 'gamma', 'delta', 'gamma') WHERE name IN ('gamma', " "'delta')"
    ),
    "a cycle of a group and its team": "UPDATE shelf SET parent = 'gamma' WHERE name = 'platform'",
    "a cycle of three": (
        "UPDATE shelf SET parent = iif(name = 'gamma', 'alpha', 'gamma') WHERE name IN ('gamma', "
        "'platform');"
        " UPDATE shelf SET parent = 'platform' WHERE name = 'alpha'"
    ),
    "a group of teams whose parent is common": "UPDATE shelf SET parent = 'common' WHERE name = 'platform'",
    "a group in a group": (
        "INSERT INTO shelf VALUES ('tools', NULL); UPDATE shelf SET parent = 'tools' WHERE name = " "'platform'"
    ),
    "common in a group": "UPDATE shelf SET parent = 'platform' WHERE name = 'common'",
    "common as a team": "UPDATE shelf SET parent = 'alpha' WHERE name = 'common'",
    "common that is its own parent": "UPDATE shelf SET parent = name WHERE name = 'common'",
    "common with a parent that is no shelf": "UPDATE shelf SET parent = 'nosuch' WHERE name = 'common'",
    "no common": "DELETE FROM shelf WHERE name = 'common'",
    "no common, and nothing that names it": (
        "DELETE FROM shelf WHERE name = 'common'; UPDATE shelf SET parent = NULL WHERE parent = "
        "'common'; UPDATE"
        " access SET shelf = 'alpha' WHERE shelf = 'common'; UPDATE version SET shelf = 'alpha' WHERE shelf ="
        " 'common'"
    ),
    "no shelf at all": "DELETE FROM shelf",
    "the group is gone": "DELETE FROM shelf WHERE name = 'platform'",
    "the group is gone, and its key and version": (
        "DELETE FROM shelf WHERE name = 'platform'; DELETE FROM access WHERE shelf = 'platform'; DELETE "
        "FROM piece"
        " WHERE version = (SELECT id FROM version WHERE shelf = 'platform'); DELETE FROM version WHERE shelf ="
        " 'platform'"
    ),
    "a team that is gone, with a key": "DELETE FROM shelf WHERE name = 'delta'",
    "a team's name that is none": "INSERT INTO shelf VALUES ('No Team', 'common')",
    "a group's name that is none": "INSERT INTO shelf VALUES ('No Group', NULL)",
    "a group's name of 33 bytes": "INSERT INTO shelf VALUES ('a23456789012345678901234567890123', NULL)",
    "an empty name": "INSERT INTO shelf VALUES ('', NULL)",
    "a group's name that is none, and its team": (
        "INSERT INTO shelf VALUES ('No Group', NULL); UPDATE shelf SET parent = 'No Group' WHERE name = " "'gamma'"
    ),
}
# shelves of a world, with a group that is there, and what the keys of alpha, the group, gamma, delta and common see of
# `PUBLISHED`
FIT_SHELVES = {
    "the shelves as they are": ("SELECT 1", "platform", {"A": "AC", "P": "PC", "M": "PMC", "D": "PC", "C": "C"}),
    "a team that joined the group": (
        "UPDATE shelf SET parent = 'platform' WHERE name = 'alpha'",
        "platform",
        {"A": "APC", "P": "PC", "M": "PMC", "D": "PC", "C": "C"},
    ),
    "a team that left it": (
        "UPDATE shelf SET parent = 'common' WHERE name = 'gamma'",
        "platform",
        {"A": "AC", "P": "PC", "M": "MC", "D": "PC", "C": "C"},
    ),
    "a team that became a group": (
        "UPDATE shelf SET parent = NULL WHERE name = 'alpha'; UPDATE shelf SET parent = 'alpha' WHERE name = 'delta'",
        "alpha",
        {"A": "AC", "P": "PC", "M": "PMC", "D": "AC", "C": "C"},
    ),
    "another group, made behind its team": (
        "UPDATE shelf SET parent = 'tools' WHERE name = 'delta'; INSERT INTO shelf VALUES ('tools', NULL)",
        "tools",
        {"A": "AC", "P": "PC", "M": "PMC", "D": "C", "C": "C"},
    ),
    "a group that became a team, since it has none": (
        "UPDATE shelf SET parent = 'common' WHERE parent = 'platform'; UPDATE shelf SET parent = 'common' WHERE"
        " name = 'platform'",
        "",
        {"A": "AC", "P": "PC", "M": "MC", "D": "C", "C": "C"},
    ),
}


def check_refused(file: str) -> None:
    """Checks that a file is refused, and keeps its bytes."""
    before = read(file)
    assert run(["team-add", "--db", file, "--team", "beta"], timeout=300) == refusal("bad-schema")
    is_kept = read(file) == before
    assert is_kept, "the file was changed"


class TestShelves:
    """Shelves that sqlite3 changed: a file is refused where they are those of no world."""

    @pytest.fixture(scope="class", autouse=True)
    def shelves(self, class_folder: str) -> None:
        make_shelves()

    @pytest.mark.parametrize("cause", UNFIT_SHELVES)
    def test_unfit_shelves_are_refused(self, cause: str) -> None:
        change_shelves("unfit.db", UNFIT_SHELVES[cause])
        check_refused("unfit.db")

    @pytest.mark.parametrize("is_in_index", [True, False], ids=["in its index", "not in its index"])
    @pytest.mark.parametrize("parent", ["common", "platform", None])
    def test_second_row_of_a_shelf_is_refused(self, parent: str | None, is_in_index: bool) -> None:
        add_second_row("twice.db", parent, is_in_index)
        check_refused("twice.db")

    @pytest.mark.parametrize("cause", FIT_SHELVES)
    def test_fit_shelves(self, cause: str) -> None:
        statements, group, wanted = FIT_SHELVES[cause]
        change_shelves("fit.db", statements)
        assert {letter: seen("fit.db", letter) for letter in wanted} == wanted, "what each key sees"
        words = ["team-add", "--db", "fit.db", "--team", "eps", "--group", group or "platform"]
        assert run(words) == ((0, b"", "") if group else refusal("no-group"))


# statements after which a file is no store, and what each makes
OF = "(SELECT id FROM version WHERE version = 'v1.0.5')"
SPOILT = {
    "a gap in the numbers": f"UPDATE piece SET number = 2 WHERE number = 1 AND version = {OF}",
    "no first piece": f"DELETE FROM piece WHERE number = 0 AND version = {OF}",
    "a piece behind the last that is not full": (
        "INSERT INTO piece SELECT id, 1, X'5A' FROM version WHERE version = 'v1.0.1'"
    ),
    "a short piece before another": f"UPDATE piece SET bytes = substr(bytes, 2) WHERE number = 0 AND version = {OF}",
    "a piece of a byte too many": (
        f"UPDATE piece SET bytes = CAST(bytes || X'5A' AS BLOB) WHERE number = 1 AND version = {OF}"
    ),
    "an empty piece": f"INSERT INTO piece VALUES ({OF}, 2, X'')",
    "an empty piece of an empty zip": "INSERT INTO piece SELECT id, 0, X'' FROM version WHERE version = 'v1.0.0'",
    "a zip of a byte too many": "INSERT INTO piece SELECT id, 256, X'5A' FROM version WHERE version = 'v1.0.6'",
    "a piece without its version": "INSERT INTO piece VALUES (99, 0, X'5A')",
    "pieces whose version is gone": "DELETE FROM version WHERE version = 'v1.0.5'",
    "pieces of a version taken by another": (
        f"UPDATE piece SET version = {OF} WHERE number > 2 AND version = (SELECT id FROM version WHERE "
        "version"
        " = 'v1.0.6')"
    ),
    "an order_key of another version": (
        f"UPDATE version SET order_key = X'{order_key('v1.0.4').hex()}' WHERE version = 'v1.0.5'"
    ),
    "a rank_key that is the order_key": "UPDATE version SET rank_key = order_key WHERE version = 'v1.0.5'",
    "schema 1 by its number": "UPDATE meta SET value = 1",
    "schema 2 by its number": "UPDATE meta SET value = 2",
    "schema 4 by its number": "UPDATE meta SET value = 4",
}


class TestSpoilt:
    """Files whose rows sqlite3 spoilt are refused."""

    @pytest.fixture(scope="class")
    def whole(self, class_folder: str) -> dict[bool, str]:
        """Stores of all versions, and of all but the largest."""
        make_store("largest.db", VERSIONS)
        make_store("whole.db", [version for version in VERSIONS if version != LARGEST])
        for file in ("largest.db", "whole.db"):
            settled(connected(file))
        return {True: "largest.db", False: "whole.db"}

    @pytest.mark.parametrize("cause", SPOILT)
    def test_file_is_refused(self, whole: dict[bool, str], cause: str) -> None:
        remove_store("bad.db")
        shutil.copy(whole[LARGEST in SPOILT[cause]], "bad.db")
        conn = connected("bad.db")
        conn.execute(SPOILT[cause])
        settled(conn)
        check_refused("bad.db")


def put_version(
    conn: sqlite3.Connection, number: int, shelf: str, path: str, version: str, gomod: bytes, time: str | None = None
) -> None:
    """Adds a row of a version, as goshelf does."""
    row = (number, shelf, path, version, time, gomod, order_key(version), rank_key(version))
    columns = "id, shelf, path, version, time, mod, order_key, rank_key"
    conn.execute(f"INSERT INTO version ({columns}) VALUES (?, ?, ?, ?, ?, ?, ?, ?)", row)


def put_zip(conn: sqlite3.Connection, number: int, zip_bytes: bytes) -> None:
    """Adds the pieces of a zip, the last one first: the order of rows means nothing."""
    for at in reversed(range(0, len(zip_bytes), PIECE)):
        piece = (number, at // PIECE, zip_bytes[at : at + PIECE])
        conn.execute("INSERT INTO piece (version, number, bytes) VALUES (?, ?, ?)", piece)


class TestMadeBySqlite:
    """The program serves what sqlite3 wrote."""

    @pytest.fixture(scope="class", autouse=True)
    def made(self, class_folder: str) -> None:
        new_store("made.db", ("alpha", KEY))
        conn = connected("made.db")
        conn.execute("BEGIN")
        # the team first, and then its group: the order of rows means nothing
        conn.execute("INSERT INTO shelf (name, parent) VALUES ('gamma', 'platform'), ('platform', NULL)")
        conn.execute("INSERT INTO access (token, shelf, publish) VALUES (?, 'gamma', 0)", (KEYS["M"],))
        put_version(conn, -5, "platform", "example.com/p", "v1.0.0", b"module example.com/p\n")
        for number, version in enumerate(VERSIONS, 7):
            time = stamp_time(version) if PSEUDO.match(version) else None
            put_version(conn, number, "alpha", PATH, version, GOMOD, time)
            put_zip(conn, number, zip_of(version))
        conn.execute("COMMIT")
        settled(conn)

    @pytest.mark.parametrize("version", VERSIONS)
    def test_zip_is_served(self, version: str) -> None:
        ((status, body),) = answered(["--db", "made.db"], [get(f"{PATH}/@v/{version}.zip")])
        is_whole = body == zip_of(version)
        assert (status, len(body), is_whole) == (200, VERSIONS[version], True)

    def test_version_of_a_group_is_served_to_its_team_alone(self) -> None:
        asks = [get("example.com/p/@v/v1.0.0.mod", key) for key in (KEYS["M"], KEY)]
        assert answered(["--db", "made.db"], asks) == [(200, b"module example.com/p\n"), (404, b"not found\n")]
