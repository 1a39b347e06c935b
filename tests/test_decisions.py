"""Which versions may stand: the first check of a publish that fails decides, and so does it for a row of a file.

A table has publishes of one version onto shelves that hold some already, over shelves in memory and over a file. The
rows of files are made by sqlite3, and the program serves a file or refuses it as `bad-schema`.
"""

import functools
import shutil
from collections.abc import Callable, Iterator
from typing import NamedTuple

import pytest

from lib.keys import KEY, KEYS, MEMORY
from lib.messages import get, put, raw_replies, reply
from lib.program import answered, refusal, run
from lib.runs import name_rows
from lib.scratch import entered_folder, read, write
from lib.shelves import answer
from lib.stores import new_store
from lib.tables import connected, order_key, rank_key, settled

PATH = "example.com/lib"
# Publishes of PATH. A row has the right of the key; the version; the time; the go.mod and the zip, with `-` for a body
# that does not split; the zip and the time of v1.0.0 on the shelf, where it is; and the number of versions there.
# Behind `=` stands the reply. `;` is a newline.
DECISIONS = """\
Reads|v2.0.0|malformed|-||||0 = 403 forbidden
Publishes|v2.0.0|malformed|-||||0 = 400 bad mod-length
Publishes|v1.0.0||;|a|a||4096 = 422 bad-gomod 0
Publishes|v1.0.0||module example.com/lib;|a|a||4096 = 200 already published
Publishes|v1.0.0||module example.com/lib;|a|b||4096 = 409 conflict
Publishes|v1.0.0||module example.com/lib;|a|||4096 = 507 full
Publishes|v1.0.0||module example.com/lib;|a|||4095 = 201 published
Publishes|v1.0.0||module example.com/lib;||||0 = 201 published
Publishes|v1.0.0|2024-01-01T00:00:01Z|module example.com/lib;||||0 = 201 published
Publishes|v2.0.0|malformed|module example.com/lib;||||0 = 422 major-mismatch
Publishes|v2.0.0+incompatible||module example.com/lib;||||0 = 201 published
Publishes|v1.0.0|malformed|module example.com/lib;||||0 = 422 bad-time
Publishes|v0.0.0-20240101000000-aaaaaaaaaaaa||module example.com/lib;||||0 = 201 published
Publishes|v0.0.0-20240101000000-aaaaaaaaaaaa|2024-01-01T00:00:00Z|module example.com/lib;||||0 = 201 published
Publishes|v0.0.0-20240101000000-aaaaaaaaaaaa|2024-01-01T00:00:01Z|module example.com/lib;||||0 = 422 time-mismatch
Publishes|v0.0.0-20240101000000-aaaaaaaaaaaa|malformed|module example.com/lib;||||0 = 422 bad-time
Publishes|v1.0.0||module example.com/lib;;require (;example.com/x 1.0.0;);||||0 = 422 bad-gomod 4
Publishes|v1.0.0||module example.com/lib;frobnicate a;||||0 = 422 bad-gomod 2
Publishes|v1.0.0||module example.com/lib;toolchain go1.21.0;||||0 = 201 published
Publishes|v2.1.0+incompatible||module example.com/lib;tool example.com/x;||||0 = 422 incompatible-gomod
Publishes|v1.0.0||module example.com/other;||||0 = 422 module-path
Publishes|v1.0.0||module example.com/lib;require example.com/x v1.0.0;||||0 = 201 published
Publishes|v2.1.0+incompatible||module example.com/lib;require example.com/x v1.0.0;||||0 = 422 incompatible-gomod
Publishes|v2.1.0+incompatible||module example.com/lib;||||0 = 201 published
Publishes|v1.0.0|2024-02-29T23:59:59Z|module example.com/lib;|a|a|2024-02-29T23:59:59Z|1 = 200 already published
Publishes|v1.0.0||module example.com/lib;|a|a|2024-02-29T23:59:59Z|1 = 409 conflict
Publishes|v1.0.0||module example.com/lib;|zip|||0 = 201 published
Publishes|v2.0.0||module example.com/other;|zip|||0 = 422 major-mismatch
Publishes|v0.0.0-20240101000000-aaaaaaaaaaaa|2024-01-01T00:00:01Z|module example.com/other;|zip|||0 = 422 time-mismatch
Publishes|v1.0.0||module example.com/lib;;require (;example.com/x 1.0.0;);|zip|||0 = 422 bad-gomod 4
Publishes|v2.1.0+incompatible||module example.com/other;require example.com/x v1.0.0;|zip|||0 = 422 module-path
Publishes|v2.1.0+incompatible||module example.com/lib;require example.com/x v1.0.0;|zip|||0 = 422 incompatible-gomod
""".splitlines()
# a path, a version, a go.mod and a time, and behind `=` whether a file with this row is served
ENTRIES = """\
example.com/lib|v1.0.0|module example.com/lib;| = true
example.com/lib|v1.0.0|module example.com/lib;|2019-11-09T02:19:32Z = true
example.com/lib|v1.0.0|module example.com/lib;go 1.21;| = true
example.com/lib/v2|v2.0.0|module example.com/lib/v2;| = true
example.com/lib|v2.0.0+incompatible|module example.com/lib;| = true
example.com/lib|v0.0.0-20191109021931-daa7c04131f5|module example.com/lib;|2019-11-09T02:19:31Z = true
mymod|v1.0.0|module mymod;| = false
example.com/lib|1.0.0|module example.com/lib;| = false
example.com/lib|v2.0.0|module example.com/lib;| = false
example.com/lib|v1.0.0|module example.com/lib/v2;| = false
example.com/lib|v1.0.0|module;| = false
example.com/lib|v2.0.0+incompatible|module example.com/lib;go 1.21;| = false
example.com/lib|v0.0.0-20191109021931-daa7c04131f5|module example.com/lib;|2019-11-09T02:19:32Z = false
example.com/lib|v0.0.0-20191109021931-daa7c04131f5|module example.com/lib;| = false
""".splitlines()


def with_lines(column: str) -> bytes:
    return column.replace(";", "\n").encode()


class Publish(NamedTuple):
    """A row of DECISIONS: the versions that the shelf has, the publish, and the reply."""

    held: list[bytes]
    request: bytes
    wanted: bytes


def read_decision(row: str) -> Publish:
    asked, _, wanted = row.partition(" = ")
    right, version, time, gomod, zip_text, seen_zip, seen_time, count = asked.split("|")
    key = KEYS["R"] if right == "Reads" else KEY
    if gomod == "-":
        request = put(PATH, version, b"", b"module", key, time).replace(b"Mod-Length: 0", b"Mod-Length: 7")
    else:
        request = put(PATH, version, with_lines(gomod), zip_text.encode(), key, time)
    bare = f"module {PATH}\n".encode()
    held = [put(PATH, "v1.0.0", bare, seen_zip.encode(), time=seen_time)] if seen_zip else []
    held += [put(PATH, f"v0.1.{number}", bare) for number in range(int(count) - len(held))]
    status, _, body = wanted.partition(" ")
    return Publish(held, request, reply(int(status), f"{body}\n".encode()))


# the names of the rows
NAMES = name_rows([row.partition(" = ")[0] for row in DECISIONS])


@pytest.mark.parametrize("row", [row for row in DECISIONS if row.startswith("Publishes")], ids=NAMES[1:])
def test_decision_in_memory(row: str) -> None:
    held, request, wanted = read_decision(row)
    replies = raw_replies(answer(MEMORY, [*held, request]))
    assert (replies[:-1], replies[-1]) == ([reply(201, b"published\n")] * len(held), wanted)


@pytest.fixture(scope="module")
def shelf() -> Iterator[Callable[..., str]]:
    """Returns a file whose shelf has some versions, which is made when it is first wanted."""
    with entered_folder() as folder:

        @functools.cache
        def make(*held: bytes) -> str:
            file = f"{folder}/{len(held)}-{abs(hash(held))}.db"
            new_store(file, ("alpha", KEY, KEYS["R"]))
            assert [status for status, _ in answered(["--db", file], held)] == [201] * len(held)
            settled(connected(file))
            return file

        yield make


@pytest.mark.parametrize("row", DECISIONS, ids=NAMES)
def test_decision_over_a_file(folder: str, shelf: Callable[..., str], row: str) -> None:
    held, request, wanted = read_decision(row)
    shutil.copy(shelf(*held), "shelves.db")
    assert answer(["--db", "shelves.db"], [request]) == wanted


def test_line_of_a_publish_onto_a_full_shelf(folder: str, shelf: Callable[..., str]) -> None:
    (row,) = [row for row in DECISIONS if row.endswith(" = 507 full")]
    shutil.copy(shelf(*read_decision(row).held), "shelves.db")
    write({"go.mod": f"module {PATH}\n", "zip": "a"})
    words = f"publish --db shelves.db --key {KEY} --module {PATH} --version v1.0.0 --mod go.mod --zip zip"
    assert run(words.split()) == (1, b"507 full\n", "")


@pytest.fixture(scope="module")
def empty() -> Iterator[str]:
    with entered_folder() as folder:
        new_store(f"{folder}/empty.db", ("alpha", KEY))
        settled(connected(f"{folder}/empty.db"))
        yield f"{folder}/empty.db"


def put_entry(path: str, version: str, gomod: bytes, time: str) -> None:
    """Puts the row of a version into `entry.db`, and its zip."""
    conn = connected("entry.db")
    keys = [key("v" + version.lstrip("v").removesuffix("+incompatible")) for key in (order_key, rank_key)]
    row = (7, "alpha", path, version, time or None, gomod, *keys)
    conn.execute("INSERT INTO version VALUES (?, ?, ?, ?, ?, ?, ?, ?)", row)
    conn.execute("INSERT INTO piece VALUES (7, 0, ?)", (b"zip",))
    settled(conn)


@pytest.mark.parametrize("row", ENTRIES)
def test_entry_of_a_file(folder: str, empty: str, row: str) -> None:
    path, version, gomod, time = row.partition(" = ")[0].split("|")
    shutil.copy(empty, "entry.db")
    put_entry(path, version, with_lines(gomod), time)
    before = read("entry.db")
    if row.endswith(" = true"):
        asks = [get(f"{path}/@v/{version.replace('+', '%2B')}{end}") for end in (".mod", ".zip")]
        assert answered(["--db", "entry.db"], asks) == [(200, with_lines(gomod)), (200, b"zip")]
    else:
        assert run(["team-add", "--db", "entry.db", "--team", "beta"]) == refusal("bad-schema")
        assert read("entry.db") == before
