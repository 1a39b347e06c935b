"""What a file keeps from run to run, and which files are refused: with which word, and unchanged.

Zips are about as long as a piece, and an inventory lists their lengths. Python's sqlite3 makes the files that are no
stores. Each command with --db is tried on each of them.
"""

import os
import sqlite3
import struct
from collections.abc import Iterator, Sequence

import pytest

from lib.ids import name_value
from lib.keys import KEY, KEYS, MEMORY
from lib.messages import get, put, raw_replies, reply
from lib.older import ORDER_KEY, RANK_KEY, SCHEMA_1, SCHEMA_2
from lib.program import refusal, run, words_of
from lib.runs import Story, number_runs, read_runs
from lib.scratch import read, write
from lib.servers import CONTROL, NEW_STORE, Server
from lib.stores import new_store
from lib.sums import seal
from lib.tables import PIECE, settled

KEPT_FILES = {"go.mod": "module example.com/lib\n", "Z": "Z\n"}
KEPT = read_runs(
    """
team-add --db a.db --team alpha | 0
key-add --db a.db --shelf alpha --key A | 0
publish --db a.db --key A --module example.com/lib --version v1.0.0 --mod go.mod --zip Z | 0
    201 published
inventory --db a.db --key A | 0
    path,version,shelf,class,time,mod_bytes,zip_bytes
    example.com/lib,v1.0.0,alpha,release,,23,2
answer --db a.db < A example.com/lib/@v/v1.0.0.mod | 0
    200 module example.com/lib
answer --db a.db < A example.com/lib/@v/v1.0.0.zip | 0
    200 Z
team-add --db a.db --team alpha | 1 taken
group-add --db a.db --group platform | 0
team-add --db a.db --team gamma --group platform | 0
key-add --db a.db --shelf gamma --key M | 0
key-add --db a.db --shelf platform --key P | 0
publish --db a.db --key P --module example.com/lib --version v1.0.0 --mod go.mod --zip Z | 0
    201 published
answer --db a.db < M example.com/lib/@v/v1.0.0.zip | 0
    200 Z
group-add --db a.db --group platform | 1 taken
team-add --db a.db --team platform | 1 taken
"""
)

# the largest zip, of 256 pieces, is in test_tables.py and test_largest.py
SIZES = {"v1.0.0": 0, "v1.0.1": 1, "v1.0.2": PIECE, "v1.0.3": PIECE + 1}
# sizes of zips that the inventory reads from their last piece, of a piece and of more
LISTED = (0, 1, PIECE - 1, PIECE, PIECE + 1, 2 * PIECE - 1, 2 * PIECE, 2 * PIECE + 1, 16 * PIECE)
PATH, GOMOD = "example.com/z", b"module example.com/z\n"
PUBLISHED = reply(201, b"published\n")

# the commands that open a store F, and the word of each where F is none; the last three make F a store
COMMANDS = """
team-add --db F --team beta | bad-schema
group-add --db F --group platform | bad-schema
key-add --db F --shelf common --key C | bad-schema
key-revoke --db F --key A | bad-schema
publish --db F --key A --module example.com/lib --version v1.0.0 --mod none --zip none | bad-schema
import --db F --key A --list none | bad-schema
inventory --db F --key A | bad-schema
requires --db F --key A --module example.com/lib --version v1.0.0 | bad-schema
extract --db F --team alpha --to part.db | bad-schema
answer --db F | bad-schema
serve --db F --port 0 --connections 0 | bad-schema
init --db F | not-empty
extract --db good.db --team alpha --to F | not-empty
migrate --from good.db --to F | not-empty
""".strip().splitlines()
MIGRATE = "migrate --from F --to fresh.db | bad-schema"
COPY = f"copy --control {CONTROL} --to F | not-empty"

# a team and a version in a store
FILL = f"""
INSERT INTO shelf VALUES ('alpha', 'common');
INSERT INTO access VALUES ('alphakey00000001', 'alpha', 1);
INSERT INTO version VALUES (7, 'alpha', 'example.com/lib', 'v1.0.0', NULL, \
X'6d6f64756c65206578616d706c652e636f6d2f6c69620a', X'{ORDER_KEY}', X'{RANK_KEY}');
INSERT INTO piece VALUES (7, 0, X'5A');
"""
LISTED_FILL = b"path,version,shelf,class,time,mod_bytes,zip_bytes\nexample.com/lib,v1.0.0,alpha,release,,23,1\n"
WRONG_KEYS = {
    "the order_key of v1.0.1": "UPDATE version SET order_key = X'00000000000000010000000000000000000000000000000103'",
    "the rank_key of a pre-release": f"UPDATE version SET rank_key = X'02{ORDER_KEY}'",
    "empty keys": "UPDATE version SET order_key = X'', rank_key = X''",
}

# names that are not opened as files: of a folder, of a device, and those that sqlite takes for something else
NO_FILES = ("folder", "/dev/zero", ":memory:", "", "file:a.db")


def run_row(row: str, name: str) -> tuple[tuple[int, bytes, str], tuple[int, bytes, str]]:
    """Runs a row of COMMANDS on a file. Returns how the command ends, and how it is to end."""
    line, word = row.replace(" F", f" {name}").split(" | ")
    return run(words_of(line)), refusal(word)


def change_file(name: str, sql: str) -> bytes:
    """Runs statements on a file by sqlite3, which copies the log into it, and returns its bytes."""
    conn = sqlite3.connect(name)
    conn.executescript(sql)
    settled(conn)
    return read(name)


def flip(content: bytes, *places: int) -> bytes:
    """Returns the bytes, with every bit of those at the places turned."""
    return bytes(byte ^ 255 if at in places else byte for at, byte in enumerate(content))


@pytest.fixture(scope="class")
def kept(class_folder: str) -> Story:
    write(KEPT_FILES)
    return Story(KEPT, class_folder)


class TestKept:
    """A file keeps its shelves."""

    @pytest.mark.parametrize(**number_runs(KEPT))
    def test_run(self, kept: Story, number: int) -> None:
        kept.check(number)


def zip_of(version: str, is_other: bool = False) -> bytes:
    """Returns bytes of the version's size; another zip ends with another byte."""
    size = SIZES[version]
    return (b"a" * PIECE + b"b")[: size - is_other] + b"x" * is_other


# a name, a request and its reply
Row = tuple[str, bytes, bytes]
PUBLISHES: list[Row] = [
    (f"a zip of {size} bytes is published", put(PATH, version, GOMOD, zip_of(version)), PUBLISHED)
    for version, size in SIZES.items()
]


def list_kept_zips() -> Iterator[Row]:
    """Lists requests for what was published: the zip, the same again, and another."""
    for version, size in SIZES.items():
        zip_bytes, about = zip_of(version), f"a zip of {size} bytes"
        yield f"{about} is read back", get(f"{PATH}/@v/{version}.zip"), reply(200, zip_bytes, ".zip")
        yield f"{about} is published again", put(PATH, version, GOMOD, zip_bytes), reply(200, b"already published\n")
        if size:
            other = put(PATH, version, GOMOD, zip_of(version, True))
            yield f"{about}, but for its last byte", other, reply(409, b"conflict\n")


KEPT_ZIPS = list(list_kept_zips())


def answer(words: list[str], rows: Sequence[Row]) -> list[bytes]:
    """Sends the requests of the rows in one run, which has to end well, and returns the replies."""
    status, output, errors = run(["answer", *words], b"".join(request for _, request, _ in rows))
    replies = raw_replies(output)
    assert (status, errors, len(replies)) == (0, "", len(rows))
    return replies


# the rows of runs over a file, later over the same file, and over shelves in memory
ZIP_ROWS = {"a file": PUBLISHES, "a later run": KEPT_ZIPS, "--mem": [*PUBLISHES, *KEPT_ZIPS]}
ZIP_CASES = {f"{where}: {rows[at][0]}": (where, at) for where, rows in ZIP_ROWS.items() for at in range(len(rows))}


class TestZips:
    """A zip is read back, taken again and never replaced: in a file, by a later run, and in memory."""

    @pytest.fixture(scope="class")
    def replies(self, class_folder: str) -> dict[str, list[bytes]]:
        new_store("a.db", ("alpha", KEY))
        words = {"a file": ["--db", "a.db"], "a later run": ["--db", "a.db"], "--mem": MEMORY}
        return {where: answer(words[where], rows) for where, rows in ZIP_ROWS.items()}

    @pytest.mark.parametrize(("where", "number"), ZIP_CASES.values(), ids=ZIP_CASES)
    def test_request(self, replies: dict[str, list[bytes]], where: str, number: int) -> None:
        assert replies[where][number] == ZIP_ROWS[where][number][2]


class TestLengths:
    """The inventory lists the length of each zip."""

    rows = [
        (f"a zip of {size} bytes", put(PATH, f"v1.0.{n}", GOMOD, b"z" * size), PUBLISHED)
        for n, size in enumerate(LISTED)
    ]

    @pytest.fixture(scope="class")
    def replies(self, class_folder: str) -> list[bytes]:
        new_store("a.db", ("alpha", KEY))
        return answer(["--db", "a.db"], self.rows)

    @pytest.mark.parametrize("number", range(len(LISTED)), ids=[f"{size} bytes" for size in LISTED])
    def test_zip_is_published(self, replies: list[bytes], number: int) -> None:
        assert replies[number] == PUBLISHED

    def test_inventory(self, replies: list[bytes]) -> None:
        lines = [f"{PATH},v1.0.{n},alpha,release,,{len(GOMOD)},{size}\n" for n, size in enumerate(LISTED)]
        listed = "path,version,shelf,class,time,mod_bytes,zip_bytes\n" + "".join(lines)
        assert run(["inventory", "--db", "a.db", "--key", KEY]) == (0, listed.encode(), "")


class TestRefused:
    """A file that is no store is refused, and keeps its bytes."""

    causes = [
        "a file that is cut off", "a file with a damaged page", "a file with a damaged head",
        "a file with a damaged head and page", "a file of schema 1", "a file of schema 2",
        "a file of schema 2 that says 3", "a file with another table", "a text", "the letter S", "the letters SQ",
    ]  # fmt: skip

    @pytest.fixture(scope="class")
    def contents(self, class_folder: str) -> dict[str, bytes]:
        """The bytes of each file that is no store. The file good.db is one."""
        new_store("good.db")
        good = change_file("good.db", FILL)
        found = [
            good[:5000],
            flip(good, 4096),
            flip(good, 0),
            flip(good, 0, 4096),
            change_file("schema-1.db", SCHEMA_1),
            change_file("schema-2.db", SCHEMA_2),
            change_file("says-3.db", SCHEMA_2 + "UPDATE meta SET value = 3;"),
            change_file("foreign.db", "CREATE TABLE x (a INTEGER) STRICT"),
            b"This is a text and no database.",
            b"S",
            b"SQ",
        ]
        return dict(zip(self.causes, found, strict=True))

    @pytest.mark.parametrize("row", COMMANDS)
    @pytest.mark.parametrize("cause", causes)
    def test_file(self, contents: dict[str, bytes], cause: str, row: str) -> None:
        # a file of its own, since a command may leave a log beside the file that it refuses
        name = f"{cause.replace(' ', '-')}-{COMMANDS.index(row)}.db"
        write({name: contents[cause]})
        found, wanted = run_row(row, name)
        assert found == wanted
        assert read(name) == contents[cause]

    def test_file_that_was_damaged_in_copies_is_opened(self, contents: dict[str, bytes]) -> None:
        assert run(["team-add", "--db", "good.db", "--team", "beta"]) == (0, b"", "")


# the bytes of a database, its log and its shared memory, by the ends of their names
Files = dict[str, bytes]


def make_logged(name: str, made: str, later: str, stale: Sequence[str] = ()) -> Files:
    """Returns a database, its log and its shared memory, as a killed sqlite3 leaves them that wrote the last statements
    to the log alone. The log begins anew for them: without bytes, or over the frames of stale statements."""
    conn = sqlite3.connect(name, isolation_level=None)
    conn.execute("PRAGMA journal_mode = WAL")
    conn.execute("PRAGMA wal_autocheckpoint = 0")
    for sql in (made, *stale):
        conn.executescript(sql)
    conn.execute(f"PRAGMA wal_checkpoint({'RESTART' if stale else 'TRUNCATE'})")
    seal(name)
    conn.executescript(later)
    files = {end: read(name + end) for end in ("", "-wal", "-shm")}
    conn.close()
    return files


def salt(log: bytes, salt_bytes: bytes) -> bytes:
    """Returns a log whose frames have another salt than its header."""
    head = log[:16] + salt_bytes + log[20:24]
    one = two = 0
    for at in range(0, 24, 8):
        # the magic number of the header says in which order the checksum takes the bytes of a word
        first, second = struct.unpack(">II" if log[3] & 1 else "<II", head[at : at + 8])
        one = (one + first + two) & 0xFFFF_FFFF
        two = (two + second + one) & 0xFFFF_FFFF
    return head + struct.pack(">II", one, two) + log[32:]


FOREIGN = "CREATE TABLE x (a INTEGER, b TEXT) STRICT; INSERT INTO x VALUES (1, 'one'), (2, 'two');"
ADDED = "INSERT INTO x VALUES (3, 'three');"
# enough frames that those of another commit do not cover them
STALE = ["INSERT INTO x SELECT a + 2, hex(zeroblob(3000)) FROM x;"] * 9


def make_no_stores() -> dict[str, Files]:
    """Returns files that hold no store, each by what it is. Another program wrote their logs."""
    foreign = make_logged("foreign.db", FOREIGN, ADDED)
    log = foreign["-wal"]
    new_store("bad.db")
    bad = make_logged("bad.db", FILL, WRONG_KEYS["empty keys"])
    return {
        "a database with another table": foreign,
        "one that is in its log alone": make_logged("early.db", "", FOREIGN),
        "one over stale frames": make_logged("stale.db", FOREIGN, ADDED, STALE),
        "one whose log has another salt": {**foreign, "-wal": salt(log, flip(log[16:20], 0))},
        "one whose log has a salt of the same first byte": {**foreign, "-wal": salt(log, flip(log[16:20], 1))},
        "one whose log has another header": {**foreign, "-wal": flip(log, 0)},
        "one whose log is not signed": {**foreign, "-wal": flip(log, 24)},
        "one whose log has a header alone": {**foreign, "-wal": log[:32]},
        "one whose log is a text": {**foreign, "-wal": b"This is a text and no log. " * 9},
        "one whose log is empty": {**foreign, "-wal": b""},
        "one with a torn frame": {**foreign, "-wal": log + log[32:90]},
        "one with half a frame": {**foreign, "-wal": log[:-2000]},
        "tables of schema 2": make_logged("older.db", SCHEMA_2, "INSERT INTO shelf VALUES ('beta');"),
        "a store with keys of no version": bad,
        "a store with a damaged page": {**bad, "": flip(bad[""], 4096 * 3 + 2)},
    }


def read_beside(name: str) -> Files:
    """Returns the bytes of each file whose name begins so, by the rest of its name."""
    return {file[len(name) :]: read(file) for file in os.listdir(".") if file.startswith(name)}


NO_STORES = [
    "a database with another table", "one that is in its log alone", "one over stale frames",
    "one whose log has another salt", "one whose log has a salt of the same first byte",
    "one whose log has another header", "one whose log is not signed", "one whose log has a header alone",
    "one whose log is a text", "one whose log is empty", "one with a torn frame", "one with half a frame",
    "tables of schema 2", "a store with keys of no version", "a store with a damaged page",
]  # fmt: skip
LOG_ROWS = [*COMMANDS, COPY]
# what a look finds does not depend on the command, so most files meet a few
LOG_CASES = [
    *((NO_STORES[0], row) for row in LOG_ROWS),
    *((cause, row) for cause in NO_STORES[1:] for row in LOG_ROWS if row.startswith(("inventory", "init", "copy"))),
]


class TestLogsOfOthers:
    """A file that holds no store keeps every byte, and so do its log and its shared memory. No other file appears."""

    @pytest.fixture(scope="class")
    def no_stores(self, class_folder: str) -> Iterator[dict[str, Files]]:
        new_store("good.db")
        change_file("good.db", FILL)
        new_store("served.db", ("alpha", KEY))
        with Server("served.db", CONTROL):
            yield make_no_stores()

    @pytest.mark.parametrize(("cause", "row"), LOG_CASES)
    def test_files_are_kept(self, no_stores: dict[str, Files], cause: str, row: str) -> None:
        files, name = no_stores[cause], f"no-store-{NO_STORES.index(cause)}-{LOG_ROWS.index(row)}.db"
        write({name + end: content for end, content in files.items()})
        found, wanted = run_row(row, name)
        left = read_beside(name)
        assert found == wanted
        assert [end for end in sorted({*files, *left}) if files.get(end) != left.get(end)] == []

    def test_each_cause_is_tried(self, no_stores: dict[str, Files]) -> None:
        assert list(no_stores) == NO_STORES


@pytest.mark.parametrize(
    ("stale", "tail"),
    [((), b""), (["UPDATE shelf SET name = name;"] * 9, b""), ((), bytes(range(90)))],
    ids=["the commit is the end of the log", "stale frames follow it", "a part of a frame follows it"],
)
def test_store_whose_newest_commits_are_in_its_log_alone(folder: str, stale: list[str], tail: bytes) -> None:
    new_store("made.db", ("beta", KEYS["B"]))
    files = make_logged("made.db", "", FILL, stale)
    write({f"log.db{end}": content for end, content in [*files.items(), ("-wal", files["-wal"] + tail)]})
    assert run(["inventory", "--db", "log.db", "--key", KEY]) == (0, LISTED_FILL, "")
    assert run(["inventory", "--db", "log.db", "--key", KEYS["B"]])[0] == 0
    assert run(["team-add", "--db", "log.db", "--team", "gamma"]) == (0, b"", "")
    conn = sqlite3.connect("log.db")
    names = [row[0] for row in conn.execute("SELECT name FROM shelf ORDER BY name")]
    conn.close()
    assert names == ["alpha", "beta", "common", "gamma"]


class TestLogsAlone:
    """A log whose database file is gone or empty is kept, and no command makes another file for it."""

    @pytest.fixture(scope="class")
    def log(self, class_folder: str) -> bytes:
        new_store("good.db", ("alpha", KEY))
        return read("good.db-wal")

    @pytest.mark.parametrize("row", [*COMMANDS, MIGRATE])
    @pytest.mark.parametrize("file", [{}, {"": b""}], ids=["a log without its file", "a log beside an empty file"])
    def test_log(self, log: bytes, file: Files, row: str) -> None:
        # a file of its own, since a command may change what it does not refuse
        name = f"alone-{len(file)}-{[*COMMANDS, MIGRATE].index(row)}.db"
        write({f"{name}{end}": content for end, content in [*file.items(), ("-wal", log)]})
        line = row.replace(" F", f" {name}").split(" | ")[0]
        # an older file that is missing or empty is not opened
        wanted = refusal("bad-schema" if line.startswith(f"migrate --from {name}") else "device")
        if line.endswith(f" --to {name}"):
            lone = "is a log without its store: move it away, or name another file"
            wanted = (1, b"", f"{name}-wal {lone}\ngoshelf: not-empty\n")
        assert run(words_of(line)) == wanted
        assert {end: read(name + end) for end in ("", "-wal") if os.path.exists(name + end)} == {**file, "-wal": log}


@pytest.mark.parametrize(
    ("file", "log"),
    [(None, None), (b"", b""), (b"", b"7" + bytes(40)), (b"\0", b"7" + bytes(40)), (None, b"")],
    ids=[
        "no files", "two empty files", "an empty file and a log of a header", "a 0 and a log of a header",
        "a log that is empty, without its file",
    ],
)  # fmt: skip
def test_store_that_a_crash_left_while_it_was_made_is_opened(folder: str, file: bytes, log: bytes) -> None:
    """There are no bytes or a 0 in the file, and no more than a header in the log."""
    for end, content in (("", file), ("-wal", log)):
        if content is not None:
            write({f"added.db{end}": content, f"served.db{end}": content})
    assert run(["team-add", "--db", "added.db", "--team", "alpha"]) == (0, b"", "")
    status, _, errors = run(["serve", "--db", "served.db", "--port", "0", "--connections", "0"])
    assert (status, errors) == (0, "" if file else NEW_STORE), "serve says whether the file was empty"


@pytest.mark.parametrize("cause", WRONG_KEYS)
def test_store_with_wrong_keys_is_refused(folder: str, cause: str) -> None:
    new_store("bad.db")
    change_file("bad.db", FILL)
    request = get("example.com/lib/@v/v1.0.0.zip")
    assert run(["answer", "--db", "bad.db"], request) == (0, reply(200, b"Z", ".zip"), "")
    content = change_file("bad.db", WRONG_KEYS[cause])
    assert run(["team-add", "--db", "bad.db", "--team", "beta"]) == refusal("bad-schema")
    assert read("bad.db") == content


@pytest.mark.parametrize("command", [["team-add", "--team", "beta"], ["init"], ["answer"]], ids=lambda words: words[0])
@pytest.mark.parametrize("name", NO_FILES, ids=name_value)
def test_name_that_is_not_opened_as_a_file(folder: str, name: str, command: list[str]) -> None:
    os.mkdir("folder")
    assert run([*command, f"--db={name}"]) == refusal("device")
    assert os.listdir(".") == ["folder"], "a file was made"


@pytest.mark.parametrize("row", [*COMMANDS, MIGRATE])
def test_pipe_is_refused(folder: str, row: str) -> None:
    """No command waits for somebody who opens the other end."""
    new_store("good.db")
    os.mkfifo("pipe")
    line = row.replace(" F", " pipe").split(" | ")[0]
    assert run(words_of(line), timeout=20) == refusal("device")
    assert sorted(os.listdir(".")) == ["good.db", "good.db-wal", "pipe"], "a file was made"


def test_file_that_is_missing_is_a_store_with_common_alone(folder: str) -> None:
    assert run(["key-revoke", "--db", "new.db", "--key", KEYS["A"]]) == refusal("no-key")
