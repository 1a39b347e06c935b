"""Files whose tables sqlite3 made and changed: which of them the program takes for a store.

Each case begins with the tables of a store, and mostly with a few rows, and runs statements there. A file that is
refused keeps its bytes. What is taken is asked for what it holds.
"""

import shutil
from collections.abc import Callable, Iterator

import pytest

from lib.ids import name_value
from lib.keys import KEY, KEYS
from lib.messages import get, put, reply
from lib.program import answered, done, refusal, run
from lib.runs import name_rows
from lib.scratch import entered_folder, read
from lib.servers import CONTROL, Server
from lib.tables import (
    ACCESS,
    LEAST,
    MOST,
    PIECES,
    SHELF,
    TABLES,
    VERSION,
    change,
    connected,
    order_key,
    rank_key,
    settled,
)

GOMOD = b"module example.com/lib\n"
PSEUDO = "v0.0.0-20240229123456-0123456789ab"


def keys_of(version: str) -> str:
    """Returns the keys of a version as sqlite3 reads them."""
    return f"order_key = X'{order_key(version).hex()}', rank_key = X'{rank_key(version).hex()}'"


def row_of(number: int, version: str) -> str:
    """Returns the statement that adds a version of `common`."""
    keys = f"X'{order_key(version).hex()}', X'{rank_key(version).hex()}'"
    values = f"{number}, 'common', 'example.com/lib', '{version}', NULL, X'{GOMOD.hex()}', {keys}"
    return f"INSERT INTO version VALUES ({values})"


# a team with a key, a group with a team, and a version on `common`
ROWS = [
    "INSERT INTO meta VALUES ('schema', 3)",
    "INSERT INTO shelf VALUES ('common', NULL), ('alpha', 'common'), ('platform', NULL), ('gamma', 'platform')",
    f"INSERT INTO access VALUES ('{KEY}', 'alpha', 1)",
    row_of(7, "v1.0.0"),
    "INSERT INTO piece VALUES (7, 0, X'5A')",
]
# instead of tables
OTHER_TABLES = [
    "CREATE TABLE x (a INTEGER) STRICT",
    "CREATE TABLE body (id INTEGER PRIMARY KEY, zip BLOB NOT NULL) STRICT",
]
NO_PIECES = "DROP TABLE piece"
NO_VERSIONS = f"{NO_PIECES};DROP TABLE version"
NO_SHELVES = f"{NO_VERSIONS};DROP TABLE access;DROP TABLE shelf"
REST = f"{ACCESS};{VERSION};{PIECES}"
PIECE = "CREATE TABLE piece (version INTEGER NOT NULL"
OF_VERSION, NUMBER, BYTES = (
    "REFERENCES version (id)",
    "number INTEGER NOT NULL CHECK (number >= 0)",
    "bytes BLOB NOT NULL",
)
PIECE_KEY = "PRIMARY KEY (version, number)"
# changes of tables without rows: columns of `shelf`, more of tables, columns, keys and checks of others, the order of
# tables and their text
OTHER_SCHEMAS = [
    f"{NO_SHELVES};CREATE TABLE shelf (name TEXT PRIMARY KEY) STRICT;{REST}",
    f"{NO_SHELVES};CREATE TABLE shelf (name TEXT PRIMARY KEY, parent TEXT) STRICT;{REST}",
    f"{NO_SHELVES};{SHELF.replace('parent TEXT', 'parent TEXT NOT NULL')};{REST}",
    f"{NO_SHELVES};{SHELF.replace(') STRICT', ', kind TEXT) STRICT')};{REST}",
    f"{NO_VERSIONS};{VERSION.replace('rank_key BLOB NOT NULL', 'rank_key BLOB')};{PIECES}",
    "CREATE TABLE x (a INTEGER) STRICT",
    "CREATE INDEX by_path ON version (path)",
    "CREATE VIEW paths AS SELECT path FROM version",
    NO_PIECES,
    f"{NO_PIECES};{PIECE} {OF_VERSION}, {NUMBER}, bytes BLOB, {PIECE_KEY}) STRICT",
    f"{NO_PIECES};{PIECE} {OF_VERSION}, {NUMBER}, {BYTES}, size INTEGER, {PIECE_KEY}) STRICT",
    f"{NO_PIECES};{PIECE} {OF_VERSION}, number INTEGER NOT NULL, {BYTES}, {PIECE_KEY}) STRICT",
    f"{NO_PIECES};{PIECE} {OF_VERSION}, {NUMBER.replace('>=', '>')}, {BYTES}, {PIECE_KEY}) STRICT",
    f"{NO_PIECES};{PIECE} {OF_VERSION}, {NUMBER}, {BYTES}) STRICT",
    f"{NO_PIECES};{PIECE} {OF_VERSION}, {NUMBER}, {BYTES}, PRIMARY KEY (number, version)) STRICT",
    f"{NO_PIECES};{PIECE}, {NUMBER}, {BYTES}, {PIECE_KEY}) STRICT",
    f"{NO_PIECES};CREATE TABLE body (id INTEGER PRIMARY KEY REFERENCES version (id), zip BLOB NOT NULL) STRICT",
    "DROP TABLE meta;CREATE TABLE meta (name TEXT PRIMARY KEY, value INTEGER NOT NULL)",
    f"{NO_VERSIONS};DROP TABLE access;{VERSION};{ACCESS};{PIECES}",
    f"{NO_VERSIONS};DROP TABLE access;{ACCESS.replace('publish IN (0, 1)', 'publish = 0 OR publish = 1')};{VERSION};"
    + PIECES,
]
# changes of the rows that stand for no world; `FULL` is the 65,536 bytes of a full piece
UNFIT_ROWS = [
    "DELETE FROM meta",
    "UPDATE meta SET value = 2",
    "UPDATE meta SET name = 'Schema'",
    "INSERT INTO meta VALUES ('other', 3)",
    "DELETE FROM access;DELETE FROM shelf WHERE name = 'alpha';UPDATE version SET shelf = 'gamma';"
    "DELETE FROM shelf WHERE name = 'common'",
    "INSERT INTO shelf VALUES ('Beta', 'common')",
    "INSERT INTO shelf VALUES ('Beta', NULL)",
    "INSERT INTO shelf VALUES ('beta', 'alpha')",
    "INSERT INTO shelf VALUES ('beta', 'gamma')",
    "INSERT INTO shelf VALUES ('beta', 'beta')",
    "UPDATE shelf SET parent = 'platform' WHERE name = 'common'",
    "UPDATE shelf SET parent = 'common' WHERE name = 'common'",
    "UPDATE shelf SET parent = 'common' WHERE name = 'platform'",
    "UPDATE shelf SET parent = 'platform' WHERE name = 'platform'",
    "UPDATE shelf SET parent = 'gamma' WHERE name = 'platform'",
    "UPDATE shelf SET parent = 'gamma' WHERE name = 'alpha';UPDATE shelf SET parent = 'alpha' WHERE name = 'gamma'",
    "INSERT INTO access VALUES ('shortkey1234567', 'common', 0)",
    "INSERT INTO access VALUES ('UPPERKEY00000001', 'common', 0)",
    "UPDATE version SET path = 'example.com//lib'",
    "UPDATE version SET version = 'v1.0'",
    f"UPDATE version SET version = 'v2.0.0', {keys_of('v2.0.0')}",
    f"UPDATE version SET version = '{PSEUDO}', {keys_of(PSEUDO)}",
    f"UPDATE version SET version = '{PSEUDO}', time = '2024-02-29T12:34:57Z', {keys_of(PSEUDO)}",
    "UPDATE version SET time = '2024-02-30T12:34:56Z'",
    "UPDATE version SET mod = X''",
    "UPDATE version SET path = 'example.com/other'",
    "UPDATE piece SET number = 1",
    "UPDATE piece SET bytes = X''",
    "INSERT INTO piece VALUES (7, 1, X'5A')",
    "UPDATE piece SET bytes = X'FULL5A'",
    "UPDATE piece SET bytes = X'FULL';INSERT INTO piece VALUES (7, 2, X'5A')",
    "UPDATE piece SET bytes = X'FULL';INSERT INTO piece VALUES (7, 1, X'')",
    "UPDATE piece SET bytes = X'FULL';INSERT INTO piece VALUES (7, 1, X'5A');INSERT INTO piece VALUES (7, 2, X'5A')",
    "UPDATE piece SET bytes = X'FULL';INSERT INTO piece VALUES (7, 255, X'5A')",
    "UPDATE version SET order_key = X'00000000000000010000000000000000000000000000000103'",
    "UPDATE version SET rank_key = X'0300000000000000010000000000000000000000000000000103'",
    "UPDATE version SET order_key = X''",
    "UPDATE version SET rank_key = order_key",
    "UPDATE version SET order_key = rank_key, rank_key = order_key",
    "UPDATE version SET version = 'v1.0.1'",
]
# changes of the rows that stand for a world
FIT_ROWS = [
    "INSERT INTO shelf VALUES ('beta', 'common')",
    "INSERT INTO shelf VALUES ('beta', 'platform')",
    "INSERT INTO shelf VALUES ('beta', NULL)",
    "UPDATE shelf SET parent = NULL WHERE name = 'alpha'",
    "UPDATE shelf SET parent = 'platform' WHERE name = 'alpha'",
    "UPDATE shelf SET parent = 'common' WHERE name = 'gamma'",
    "DELETE FROM shelf WHERE name = 'gamma'",
    "UPDATE access SET shelf = 'platform'",
    f"UPDATE version SET version = '{PSEUDO}', time = '2024-02-29T12:34:56Z', {keys_of(PSEUDO)}",
    "DELETE FROM piece",
    "UPDATE piece SET bytes = X'FULL'",
    "UPDATE piece SET bytes = X'FULL';INSERT INTO piece VALUES (7, 1, X'5A')",
    f"{NO_PIECES};{PIECES};INSERT INTO piece VALUES (7, 0, X'5A')",
]
# a row at the last number, and one at the first
LAST_ROW = [row_of(MOST, "v1.1.0"), f"INSERT INTO piece VALUES ({MOST}, 0, X'5959')"]
FIRST_ROW = [row_of(LEAST, "v1.2.0"), f"INSERT INTO piece VALUES ({LEAST}, 0, X'5A')"]


@pytest.fixture(scope="module")
def files() -> Iterator[str]:
    """A folder with the tables alone, and with the tables and their rows."""
    with entered_folder() as folder:
        change(f"{folder}/tables.db", *([sql] for sql in TABLES))
        change(f"{folder}/rows.db", *([sql] for sql in [*TABLES, *ROWS]))
        yield folder


def make_file(name: str, statements: str) -> None:
    """Runs statements on a file, beginning with an empty one where it does not exist."""
    conn = connected(name)
    for statement in statements.replace("FULL", "5A" * 65_536).split(";"):
        conn.execute(statement)
    settled(conn)


def check_refused(name: str) -> None:
    """Checks that no command takes a file for a store, and that it keeps its bytes."""
    before = read(name)
    assert run(["team-add", "--db", name, "--team", "eps"]) == refusal("bad-schema")
    is_kept = read(name) == before
    assert is_kept, "the file was changed"


@pytest.mark.parametrize("statements", OTHER_TABLES, ids=name_value)
def test_other_tables_are_refused(folder: str, statements: str) -> None:
    make_file("file.db", statements)
    check_refused("file.db")


@pytest.mark.parametrize("statements", OTHER_SCHEMAS, ids=name_rows([name_value(sql) for sql in OTHER_SCHEMAS]))
def test_other_schema_is_refused(folder: str, files: str, statements: str) -> None:
    shutil.copy(f"{files}/tables.db", "file.db")
    make_file("file.db", statements)
    check_refused("file.db")


@pytest.mark.parametrize("statements", UNFIT_ROWS, ids=name_rows([name_value(sql) for sql in UNFIT_ROWS]))
def test_unfit_rows_are_refused(folder: str, files: str, statements: str) -> None:
    shutil.copy(f"{files}/rows.db", "file.db")
    make_file("file.db", statements)
    check_refused("file.db")


@pytest.mark.parametrize("statements", FIT_ROWS, ids=name_rows([name_value(sql) for sql in FIT_ROWS]))
def test_fit_rows_are_taken(folder: str, files: str, statements: str) -> None:
    shutil.copy(f"{files}/rows.db", "file.db")
    make_file("file.db", statements)
    done("team-add", "--db", "file.db", "--team", "eps")


@pytest.fixture
def held(folder: str, files: str) -> Callable[..., None]:
    """Makes `file.db` of the tables and their rows, and more."""

    def make(*statements: str) -> None:
        shutil.copy(f"{files}/rows.db", "file.db")
        for statement in statements:
            make_file("file.db", statement)

    return make


def test_rows_are_answered(held: Callable[..., None]) -> None:
    held()
    zip_of, mod_of, info_of = (get(f"example.com/lib/@v/v1.0.0.{end}", KEY) for end in ("zip", "mod", "info"))
    info = b'{"Version":"v1.0.0"}'
    assert answered(["--db", "file.db"], [zip_of, mod_of, info_of]) == [(200, b"Z"), (200, GOMOD), (200, info)]
    status, printed, errors = run(["key-list", "--db", "file.db"])
    assert (status, printed.split()[:2], printed.count(b"\n"), errors) == (0, [b"alpha", b"publish"], 1, "")
    assert run(["group-add", "--db", "file.db", "--group", "platform"]) == refusal("taken")
    assert run(["team-add", "--db", "file.db", "--team", "delta", "--group", "alpha"]) == refusal("no-group")
    for shelf, letter in (("gamma", "M"), ("platform", "P")):
        done("key-add", "--db", "file.db", "--shelf", shelf, "--key", KEYS[letter])
    fetches = [get("example.com/lib/@v/v1.0.0.zip", KEYS[letter]) for letter in "MA"]
    assert answered(["--db", "file.db"], fetches) == [(200, b"Z"), (200, b"Z")]
    of_group = put("example.com/lib", "v1.0.0", GOMOD, b"H", KEYS["P"])
    assert answered(["--db", "file.db"], [of_group]) == [(409, b"conflict\n")]
    make_file("file.db", f"{row_of(8, 'v1.0.0').replace('common', 'platform')};INSERT INTO piece VALUES (8, 0, X'48')")
    assert answered(["--db", "file.db"], fetches) == [(200, b"H"), (200, b"Z")]


def test_rows_below_the_last_number_are_made(held: Callable[..., None]) -> None:
    held(*LAST_ROW)
    gomod = b"module example.com/own\n"
    one, two = (
        put("example.com/own", f"v1.{minor}.0", gomod, zip_bytes) for minor, zip_bytes in enumerate([b"a", b"b"])
    )
    zips = [f"example.com/{path}/@v/v1.{minor}.0.zip" for path in ("own", "lib") for minor in (0, 1)]
    replies = answered(["--db", "file.db"], [one, two, one, *map(get, zips)])
    assert replies[:3] == [(201, b"published\n"), (201, b"published\n"), (200, b"already published\n")]
    assert replies[3:] == [(200, content) for content in (b"a", b"b", b"Z", b"YY")]


def test_no_row_is_made_between_the_first_number_and_the_last(held: Callable[..., None]) -> None:
    held(*LAST_ROW, *FIRST_ROW)
    with Server("file.db", CONTROL) as server:
        publish = put("example.com/own", "v1.0.0", b"module example.com/own\n")
        assert server.exchange(publish) == reply(503, b"unavailable\n")
        assert server.status(get("example.com/own/@v/v1.0.0.mod")) == 404
        assert b" store-failures=1 " in server.order(b"ping\n")
        assert server.exchange(get("example.com/lib/@v/v1.0.0.zip")).endswith(b"\r\n\r\nZ")


class TestMost:
    """At most 4,096 versions of a path are taken."""

    @pytest.fixture(scope="class", autouse=True)
    def most(self, class_folder: str, files: str) -> None:
        shutil.copy(f"{files}/rows.db", "most.db")
        change("most.db", *([row_of(7 + number, f"v1.{number}.0")] for number in range(1, 4_096)))

    def test_4096_versions(self) -> None:
        assert answered(["--db", "most.db"], [get("example.com/lib/@v/list")])[0][1].count(b"\n") == 4_096

    def test_one_more(self) -> None:
        shutil.copy("most.db", "more.db")
        make_file("more.db", row_of(1, "v1.0.1"))
        check_refused("more.db")
