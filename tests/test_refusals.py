"""Each other cause that docs/REFERENCE.md names for a refusal: of numbers, files, names and memory, and of a publish.

Every test makes the cause, runs a command, and looks at its word; where the page names a remedy, the command is run
again after it. The causes that goshelf-doctor finds have a suite of their own.
"""

import os
import re
import socket
from collections.abc import Callable, Iterator
from typing import NamedTuple

import pytest

from lib import stores
from lib.keys import KEY, KEYS, SHELVES
from lib.messages import put
from lib.older import SCHEMA_2
from lib.program import ROOT, answered, done, refusal, run
from lib.refusals import new_store, word
from lib.scratch import entered_folder, read, write
from lib.servers import CONTROL, Server
from lib.stores import add_platform
from lib.tables import PIECE, change, order_key, rank_key
from lib.worked import HEADER

ROW = f"--key {KEY} --module example.com/lib --version v1.0.0"


class TestNumbersOfRows:
    MOD, LAST, FIRST = b"module example.com/n\n", 2**63 - 1, -(2**63)

    def add(self, number: int, version: str) -> None:
        row = ["alpha", "example.com/n", version, None, self.MOD, order_key(version), rank_key(version)]
        statement = "INSERT INTO version VALUES (?, ?, ?, ?, ?, ?, ?, ?)"
        change("n.db", [statement, number, *row], ["INSERT INTO piece VALUES (?, 0, X'5A')", number])

    def publish(self, version: str) -> tuple[int, bytes, str]:
        words = f"publish --db n.db --key {KEY} --module example.com/n --mod n.mod --zip n.mod --version {version}"
        return run(words.split())

    @pytest.fixture
    def store(self, folder: str) -> None:
        new_store("n.db")
        write({"n.mod": self.MOD})
        self.add(self.LAST, "v1.0.0")

    def test_a_publish_takes_a_free_number_where_the_last_is_used(self, store: None) -> None:
        assert self.publish("v1.1.0") == (0, b"201 published\n", "")

    def test_no_number_is_free_where_the_first_is_used_too(self, store: None) -> None:
        self.publish("v1.1.0")
        self.add(self.FIRST, "v1.2.0")
        assert self.publish("v1.3.0") == (1, b"503 unavailable\n", "")
        for table, column in (("version", "id"), ("piece", "version")):
            change("n.db", [f"UPDATE {table} SET {column} = 0 WHERE {column} = ?", self.LAST])
        assert self.publish("v1.3.0") == (0, b"201 published\n", "")


class TestFiles:
    LINES = {
        "init on a file that has bytes": ("not-empty", "init --db go.mod"),
        "a go.mod that can't be read": ("io", f"publish --db f.db {ROW} --mod none --zip lib.zip"),
        "a zip that can't be read": ("io", f"publish --db f.db {ROW} --mod go.mod --zip none"),
        "a list that can't be read": ("io", f"import --db f.db --key {KEY} --list none"),
    }
    LISTS = {
        "another header": b"path,version\n",
        "a row of four fields": HEADER.encode() + b"example.com/lib,v1.0.1,,go.mod\n",
        "a row that is no text": HEADER.encode() + b"example.com/lib,v1.0.1,,go.mod,\xff\n",
    }

    @pytest.fixture(autouse=True)
    def store(self, folder: str) -> None:
        new_store("f.db")
        write({"go.mod": "module example.com/lib\n", "lib.zip": "zip"})

    @pytest.mark.parametrize("wanted, line", LINES.values(), ids=LINES)
    def test_a_file_is_refused(self, wanted: str, line: str) -> None:
        assert word(line) == wanted

    @pytest.mark.parametrize("content", LISTS.values(), ids=LISTS)
    def test_a_list_is_refused_until_it_is_mended(self, content: bytes) -> None:
        line = f"import --db f.db --key {KEY} --list list.csv"
        write({"list.csv": content})
        assert word(line) == "bad-row"
        write({"list.csv": HEADER + "example.com/lib,v1.0.1,,go.mod,lib.zip\n"})
        assert run(line.split()) == (0, b"1 201 published\n", "")

    def test_a_publish_whose_output_fails_is_published(self) -> None:
        with open("/dev/full", "wb") as full:
            assert word(f"publish --db f.db {ROW} --mod go.mod --zip lib.zip", output=full) == "io"
        rows = "example.com/lib,v1.0.0,,go.mod,lib.zip\nexample.com/lib,v1.0.1,,go.mod,lib.zip\n"
        write({"list.csv": HEADER + rows})
        wanted = b"1 200 already published\n2 201 published\n"
        assert run(f"import --db f.db --key {KEY} --list list.csv".split()) == (0, wanted, "")

    @pytest.mark.parametrize("line", ["--help", "--version", "serve --help"])
    def test_help_whose_output_fails(self, line: str) -> None:
        with open("/dev/full", "wb") as full:
            assert word(line, output=full) == "io"

    def test_a_port_that_is_taken(self) -> None:
        with socket.create_server(("127.0.0.1", 0)) as taken:
            assert word(f"serve --db f.db --port {taken.getsockname()[1]} --connections 0") == "io"


# causes of the table of publish outcomes in docs/REFERENCE.md, in order: the outcome, the cause, and what is published.
# `-` is in the place of what a row lacks: a go.mod other than that of its path, a zip other than `zip`, a time, and a
# key other than alpha's
PSEUDO = "v0.0.0-20240131120000-abcdefabcdef"
OUTCOMES = f"""\
201 published            | a version                         | example.com/lib    v1.0.0 - - -
200 already published    | the same again                    | example.com/lib    v1.0.0 - - -
403 forbidden            | a key that only reads             | example.com/lib    v1.1.0 - - - R
404 not found            | a key that is not there           | example.com/lib    v1.1.0 - - - N
404 not found            | v1.1                              | example.com/lib    v1.1 - - -
404 not found            | no v                              | example.com/lib    1.1.0 - - -
404 not found            | a build part                      | example.com/lib    v1.1.0+linux - - -
404 not found            | an upper-case letter              | example.com/Lib    v1.1.0 - - -
201 published            | it is escaped                     | example.com/!lib   v1.1.0 module_example.com/Lib - -
404 not found            | no dot in the first part          | lib                v1.1.0 - - -
409 conflict             | another zip                       | example.com/lib    v1.0.0 - other -
409 conflict             | another go.mod                    | example.com/lib    v1.0.0 module_example.com/lib;; - -
409 conflict             | another time                      | example.com/lib    v1.0.0 - - 2024-01-31T12:00:00Z
201 published            | a version of common               | example.com/base   v1.0.0 - - - C
409 conflict             | common has it                     | example.com/base   v1.0.0 - other -
201 published            | the next version                  | example.com/base   v1.0.1 - other -
201 published            | a version of a group              | example.com/group  v1.0.0 - - - P
409 conflict             | its group has it                  | example.com/group  v1.0.0 - other - M
201 published            | the next version by its team      | example.com/group  v1.0.1 - other - M
413 too large            | a large go.mod                    | example.com/lib    v1.1.0 LARGE - -
422 major-mismatch       | v2 without a suffix               | example.com/lib    v2.0.0 - - -
201 published            | with a suffix                     | example.com/lib/v2 v2.0.0 - - -
201 published            | with +incompatible                | example.com/lib    v2.0.0+incompatible - - -
422 major-mismatch       | v1 with /v2                       | example.com/lib/v2 v1.1.0 - - -
422 bad-time             | an offset                         | example.com/lib    v1.1.0 - - 2024-01-31T12:00:00+02:00
422 bad-time             | fractions                         | example.com/lib    v1.1.0 - - 2024-01-31T12:00:00.5Z
422 bad-time             | no such day                       | example.com/lib    v1.1.0 - - 2024-02-30T12:00:00Z
201 published            | UTC                               | example.com/lib    v1.1.0 - - 2024-01-31T12:00:00Z
422 time-mismatch        | another time than the version's   | example.com/lib    {PSEUDO} - - 2024-01-31T12:00:01Z
201 published            | no time                           | example.com/lib    {PSEUDO} - - -
422 bad-gomod 2          | a fault in line 2                 | example.com/lib    v1.2.0 module_example.com/lib;\
no_directive - -
422 module-path          | the go.mod of a fork              | example.com/fork   v1.2.0 module_example.com/lib - -
201 published            | the go.mod was changed            | example.com/fork   v1.2.0 - - -
422 incompatible-gomod   | +incompatible and more            | example.com/lib    v3.0.0+incompatible \
module_example.com/lib;go_1.17 - -
201 published            | the go.mod was cut                | example.com/lib    v3.0.0+incompatible - - -
"""
AT = f"PUT /k/{KEY}/example.com/lib/@v/v1.2.0 HTTP/1.1\r\n"
UNREAD = [
    ("400 bad mod-length", "none", f"{AT}Content-Length: 3\r\n\r\nzip"),
    ("400 bad mod-length", "more than the body", f"{AT}Mod-Length: 4\r\nContent-Length: 3\r\n\r\nzip"),
    ("400 bad request", "a chunked body", f"{AT}Transfer-Encoding: chunked\r\n\r\n3\r\nzip\r\n0\r\n\r\n"),
]


class Outcome(NamedTuple):
    """A row of a publish: the outcome that it is to have, the cause, and the request."""

    wanted: str
    cause: str
    request: bytes

    def __str__(self) -> str:
        return f"{self.wanted}: {self.cause}"


def read_publish(words: str) -> bytes:
    """Returns the request of a row of OUTCOMES."""
    path, version, gomod, zip_text, time, letter = [*words.split(), "A"][:6]
    text = "module " + path.replace("!l", "L")
    if gomod != "-":
        text = gomod.replace("_", " ").replace(";", "\n").replace("LARGE", "/" * 1_048_577)
    content = b"zip" if zip_text == "-" else zip_text.encode()
    return put(path, version, f"{text}\n".encode(), content, KEYS[letter], "" if time == "-" else time)


def read_outcomes() -> list[Outcome]:
    rows = [[column.strip() for column in line.split("|")] for line in OUTCOMES.splitlines()]
    read_rows = [Outcome(wanted, cause, read_publish(words)) for wanted, cause, words in rows]
    return [*read_rows, *(Outcome(wanted, cause, text.encode()) for wanted, cause, text in UNREAD)]


class TestOutcomesOfAPublish:
    ROWS = read_outcomes()

    @pytest.fixture(scope="class")
    def replies(self, class_folder: str) -> list[tuple[int, bytes]]:
        stores.new_store("o.db", *SHELVES)
        add_platform("o.db")
        return answered(["--db", "o.db"], [row.request for row in self.ROWS])

    @pytest.mark.parametrize("number", range(len(ROWS)), ids=map(str, ROWS))
    def test_outcome(self, replies: list[tuple[int, bytes]], number: int) -> None:
        status, body = replies[number]
        assert f"{status} {body.decode()}" == f"{self.ROWS[number].wanted}\n"

    def test_each_request_has_a_reply(self, replies: list[tuple[int, bytes]]) -> None:
        assert len(replies) == len(self.ROWS)

    def test_page_lists_these_outcomes(self) -> None:
        with open(os.path.join(ROOT, "docs", "REFERENCE.md"), encoding="utf-8") as page:
            table = page.read().partition("| outcome | cause |")[2]
        listed = set(re.findall(r"^\| (\d{3}) `([a-z -]+)(?: LINE)?` \|", table, re.M))
        made = {tuple(re.sub(r" \d+$", "", row.wanted).split(" ", 1)) for row in self.ROWS}
        # (the suite of the largest sizes fills a shelf, and that of refused allocations makes memory run out)
        assert listed == made - {("201", "published")} | {("507", "full"), ("503", "unavailable")}


@pytest.fixture(scope="module")
def whole() -> Iterator[str]:
    """The folder of a store with the group platform, of an older one, and of files that no copy may replace."""
    with entered_folder() as folder:
        new_store("whole.db")
        add_platform("whole.db")
        change("older.db", *([statement] for statement in filter(str.strip, SCHEMA_2.split(";"))))
        done("group-add", "--db", "group.db", "--group", "platform")
        write({"text": "no store"})
        yield folder


EXTRACTS = {
    "no such team": ("no-team", "extract --db whole.db --team beta --to part.db"),
    "G is no store": ("not-empty", "extract --db whole.db --team alpha --to text"),
    "G is F": ("not-empty", "extract --db whole.db --team alpha --to whole.db"),
    "a group": ("no-team", "extract --db whole.db --team platform --to gamma.db"),
    "G has a group": ("not-empty", "extract --db whole.db --team alpha --to group.db"),
}
MIGRATIONS = {
    "G is no store": ("not-empty", "migrate --from older.db --to text"),
    "G is F": ("not-empty", "migrate --from older.db --to older.db"),
    "G has a group": ("not-empty", "migrate --from older.db --to group.db"),
}
TAKEN = {
    "extract alpha": "extract --db whole.db --team alpha --to alpha.db",
    "extract a team of a group": "extract --db whole.db --team gamma --to gamma.db",
    "migrate": "migrate --from older.db --to newer.db",
}


class TestFilesOfStores:
    @pytest.fixture(autouse=True)
    def files(self, whole: str, folder: str) -> None:
        for name in os.listdir(whole):
            write({name: read(os.path.join(whole, name))})

    @pytest.mark.parametrize("wanted, line", EXTRACTS.values(), ids=EXTRACTS)
    def test_an_extract_is_refused(self, wanted: str, line: str) -> None:
        assert word(line) == wanted

    @pytest.mark.parametrize("wanted, line", MIGRATIONS.values(), ids=MIGRATIONS)
    def test_a_migration_is_refused(self, wanted: str, line: str) -> None:
        assert word(line) == wanted

    @pytest.mark.parametrize("line", TAKEN.values(), ids=TAKEN)
    def test_another_file_is_taken_once(self, line: str) -> None:
        assert word(line) == ""
        assert word(line) == "not-empty"


class TestLogWithoutItsStore:
    """A log is at the name of a new store, whose file is missing or empty: each command says so, and keeps it."""

    COMMANDS = {
        "extract": "extract --db whole.db --team alpha --to",
        "migrate": "migrate --from older.db --to",
        "copy": f"copy --control {CONTROL} --to",
    }
    commands = pytest.mark.parametrize("line", COMMANDS.values(), ids=COMMANDS)

    @pytest.fixture(autouse=True)
    def served(self, whole: str, folder: str, serve: Callable[..., Server]) -> None:
        for name in os.listdir(whole):
            write({name: read(os.path.join(whole, name))})
        new_store("served.db")
        serve("served.db", CONTROL)

    def order(self, line: str, to: str) -> tuple[int, bytes, str]:
        return run([*line.split(), os.path.abspath(to)])

    def refuse(self, to: str) -> tuple[int, bytes, str]:
        """Returns how a command ends that finds a log."""
        log = os.path.abspath(f"{to}-wal")
        errors = f"{log} is a log without its store: move it away, or name another file\ngoshelf: not-empty\n"
        return 1, b"", errors

    @commands
    def test_a_log_alone(self, line: str) -> None:
        write({"new.db-wal": read("whole.db-wal")})
        assert self.order(line, "new.db") == self.refuse("new.db")
        assert not os.path.lexists("new.db")

    @commands
    def test_a_log_beside_an_empty_file(self, line: str) -> None:
        log = read("whole.db-wal")
        write({"new.db": "", "new.db-wal": log})
        assert self.order(line, "new.db") == self.refuse("new.db")
        assert (read("new.db"), read("new.db-wal")) == (b"", log)
        os.remove("new.db-wal")
        assert self.order(line, "new.db") == (0, b"", "")
        assert self.order(line, "new.db") == refusal("not-empty")

    @commands
    def test_another_file_at_the_name_of_the_log(self, line: str) -> None:
        write({"new.db-wal": "no log of SQLite\n"})
        assert self.order(line, "new.db") == refusal("device")

    @commands
    def test_an_empty_log_alone(self, line: str) -> None:
        write({"new.db-wal": ""})
        assert self.order(line, "new.db") == (0, b"", "")

    def test_a_copy_to_a_near_path(self) -> None:
        # (the path is that of serve, which may have another folder)
        write({"new.db-wal": read("whole.db-wal")})
        assert run([*self.COMMANDS["copy"].split(), "new.db"]) == refusal("not-empty")


SHORT_NAMES = {"an upper-case letter": "Alpha", "a digit first": "1team", "33 bytes": "a" * 33, "common": "common"}
BAD_KEYS = {"15 bytes": "a" * 15, "65 bytes": "a" * 65, "a dash": "alpha-key-000000001"}
NO_GROUPS = {"no such group": "nosuch", "a team": "alpha", "common": "common"}
UNKNOWN = f"{KEYS['B']} --module example.com/lib --version v1.0.0"
NAMES = {
    **{f"a team: {cause}": ("name", f"team-add --team {name}") for cause, name in SHORT_NAMES.items()},
    **{f"a group: {cause}": ("name", f"group-add --group {name}") for cause, name in SHORT_NAMES.items()},
    **{f"a key: {cause}": ("name", f"key-add --shelf alpha --key {key}") for cause, key in BAD_KEYS.items()},
    "a team that is there": ("taken", "team-add --team alpha"),
    "a key that is there": ("taken", f"key-add --shelf common --key {KEY}"),
    "a group that is named as a team": ("taken", "group-add --group alpha"),
    **{
        f"team-add --group: {cause}": ("no-group", f"team-add --team eps --group {name}")
        for cause, name in NO_GROUPS.items()
    },
    "a team that is named as a group": ("taken", "team-add --team platform"),
    "a group that is there": ("taken", "group-add --group platform"),
    "no such team": ("no-team", f"key-add --shelf beta --key {KEYS['B']}"),
    "no such key, key-revoke": ("no-key", f"key-revoke --key {KEYS['B']}"),
    "no such key, inventory": ("no-key", f"inventory --key {KEYS['B']}"),
    "requires: a path that does not read": ("not-found", f"requires --key {KEY} --module Example --version v1.0.0"),
    "requires: a version that does not read": (
        "not-found",
        f"requires --key {KEY} --module example.com/lib --version 1",
    ),
    "requires: no such key": ("not-found", f"requires --key {UNKNOWN}"),
    "requires: a version that is not seen": ("not-found", f"requires {ROW}"),
}


class TestNames:
    @pytest.fixture(scope="class")
    def store(self, class_folder: str) -> str:
        new_store("n.db")
        for line in ("group-add --db n.db --group platform", "team-add --db n.db --team gamma --group platform"):
            done(*line.split())
        return os.path.join(class_folder, "n.db")

    @pytest.mark.parametrize("wanted, line", NAMES.values(), ids=NAMES)
    def test_a_name_is_refused(self, store: str, wanted: str, line: str) -> None:
        assert word(line, "--db", store) == wanted

    def test_a_team_is_taken_once_its_group_is_there(self, folder: str) -> None:
        new_store("n.db")
        assert word("team-add --db n.db --team gamma --group platform") == "no-group"
        assert word("group-add --db n.db --group platform") == ""
        assert word("team-add --db n.db --team gamma --group platform") == ""


@pytest.mark.needs("prlimit")
def test_memory_that_the_system_refuses(folder: str) -> None:
    new_store("m.db")
    row = ["alpha", "example.com/big", "v1.0.0", None, b"module example.com/big\n"]
    change(
        "m.db",
        ["INSERT INTO version VALUES (1, ?, ?, ?, ?, ?, ?, ?)", *row, order_key("v1.0.0"), rank_key("v1.0.0")],
        *(["INSERT INTO piece VALUES (1, ?, ?)", number, os.urandom(PIECE)] for number in range(244)),
    )
    assert word("team-add --db m.db --team beta", before=["prlimit", "--as=8388608"]) == "memory"
    assert word("team-add --db m.db --team beta") == ""
