"""Bits that turn in the file of a store, between runs and while goshelf serves it: no answer ever has a wrong byte.

Each file that a command newly makes has the sums of SQLite's cksumvfs, which are computed here by their own rule, and
sqlite3 calls it sound. A bit is turned in the page of a zip, in the row of a go.mod, in an index, in the first page and
in a sum. Between runs goshelf refuses the file, and goshelf-doctor names the versions. While it serves, what is read of
a bad page is a 503 and a notice, and the rest gets its bytes. A file of an older goshelf, which has no sums, is made by
sqlite3: it works as before, and a copy of it has sums.
"""

import os
import random
import sqlite3
import subprocess
from collections.abc import Iterator
from typing import NamedTuple

import pytest

from lib.keys import KEY
from lib.messages import get, put
from lib.older import SCHEMA_2
from lib.program import answered, done, refusal, run
from lib.refusals import doctor
from lib.scratch import read, turn_in_file, write
from lib.servers import CONTROL, Server
from lib.stores import new_store
from lib.sums import PAGE, has_sums, wrong_sums
from lib.tables import TABLES, change, connected, empty_log, settled

PATH, OTHER = "example.com/lib", "example.com/other"
GOMOD, OTHER_GOMOD = f"module {PATH}\n".encode(), f"module {OTHER}\n".encode()
# of each version its zip, in one piece, in two, and in a leaf
ZIPS = {"v1.0.0": b"one." * 10_000, "v1.1.0": b"two:" * 30_000, "v1.2.0": b"three"}
TARGETS = {f"{PATH}/@v/{version}.zip": zip_bytes for version, zip_bytes in ZIPS.items()}
TARGETS |= {f"{PATH}/@v/{version}.mod": GOMOD for version in ZIPS}
TARGETS |= {f"{PATH}/@v/list": b"v1.0.0\nv1.1.0\nv1.2.0\n", f"{OTHER}/@v/v1.0.0.mod": OTHER_GOMOD}
# how all of them are answered by a store without damage
WHOLE = [(200, body) for body in TARGETS.values()]
# random bits that are turned, each in a run of its own
BITS = 24
BIG, BIG_PATH = 16 * 2**20, "example.com/big"


def fill(file: str) -> None:
    """Publishes the versions."""
    asks = [put(PATH, version, GOMOD, zip_bytes) for version, zip_bytes in ZIPS.items()]
    asks.append(put(OTHER, "v1.0.0", OTHER_GOMOD, b"other"))
    assert [status for status, _ in answered(["--db", file], asks)] == [201] * 4


def check_sound(file: str) -> None:
    """Checks that sqlite3 calls a file sound, and that its pages have their sums."""
    conn = connected(file)
    assert conn.execute("PRAGMA integrity_check").fetchall() == [("ok",)]
    conn.close()
    empty_log(file)
    assert (has_sums(file), wrong_sums(file)) == (True, [])


def copy(to: str) -> None:
    done("copy", "--control", CONTROL, "--to", f"{os.getcwd()}/{to}")


class TestMade:
    """Whatever newly makes a file gives it sums, and what is published keeps them."""

    files = {
        "init, and publishes": "made.db",
        "a command on a missing file": "missing.db",
        "extract": "extract.db",
        "migrate": "migrated.db",
        "copy": "copy.db",
    }

    @pytest.fixture(scope="class", autouse=True)
    def made(self, class_folder: str) -> None:
        new_store("made.db", ("alpha", KEY))
        fill("made.db")
        done("team-add", "--db", "missing.db", "--team", "alpha")
        done("extract", "--db", "made.db", "--team", "alpha", "--to", "extract.db")
        change("old.db", *([statement] for statement in filter(str.strip, SCHEMA_2.split(";"))))
        done("migrate", "--from", "old.db", "--to", "migrated.db")
        with Server("made.db", CONTROL):
            copy("copy.db")

    @pytest.mark.parametrize("how", files)
    def test_file_has_sums(self, how: str) -> None:
        check_sound(self.files[how])

    @pytest.mark.parametrize("file", ["extract.db", "copy.db"])
    def test_file_has_the_bytes(self, file: str) -> None:
        assert answered(["--db", file], map(get, TARGETS)) == WHOLE


class TestWithoutSums:
    """A file that sqlite3 made has no sums: it opens, changes and is copied."""

    @pytest.fixture(scope="class", autouse=True)
    def older(self, class_folder: str) -> None:
        conn = connected("older.db")
        for statement in TABLES:
            conn.execute(statement)
        conn.execute("INSERT INTO meta VALUES ('schema', 3)")
        conn.execute("INSERT INTO shelf VALUES ('common', NULL), ('alpha', 'common')")
        conn.execute("INSERT INTO access VALUES (?, 'alpha', 1)", (KEY,))
        settled(conn)
        fill("older.db")

    def test_file_has_the_bytes(self) -> None:
        assert answered(["--db", "older.db"], map(get, TARGETS)) == WHOLE

    def test_publish_adds_no_sums(self) -> None:
        assert not has_sums("older.db")

    def test_doctor_says_so(self) -> None:
        ran = doctor("--db", "older.db")
        assert ran.returncode == 0, ran
        assert "have no sums" in ran.stdout

    def test_copy_has_sums(self) -> None:
        with Server("older.db", CONTROL):
            copy("new.db")
        check_sound("new.db")


def find_in_zip(content: bytes, part: bytes) -> int:
    """Returns where a file has a zip of this part, again and again. What comes first may be left over in a page of a
    tree."""
    return content.rindex(part * 400) + 700


def turn_bit(content: bytes, at: int, bit: int) -> bytes:
    return content[:at] + bytes([content[at] ^ 1 << bit]) + content[at + 1 :]


FIRST, SECOND = (f"alpha {PATH} {version}" for version in ("v1.0.0", "v1.1.0"))
# where a bit is turned, and what the doctor then names
CAUSES = {
    "a zip": [FIRST],
    "a zip in pieces": [SECOND],
    "a go.mod": [FIRST, SECOND, f"alpha {OTHER} v1.0.0"],
    "an index": ["such as an index"],
    "the keys": ["such as an index"],
    "the first page": ["such as an index"],
    "the mark of a database": [],
    "a sum": [FIRST],
}
COMMANDS = (["answer"], ["inventory", "--key", KEY], ["team-add", "--team", "beta"])


class Whole(NamedTuple):
    """The bytes of a store, the places of the causes in it, and the random bits."""

    content: bytes
    places: dict[str, int]
    bits: list[tuple[int, int]]


class TestBetweenRuns:
    """A bit that turned between two runs: goshelf refuses the file, keeps its bytes, and the doctor says why."""

    @pytest.fixture(scope="class")
    def whole(self, class_folder: str) -> Whole:
        new_store("whole.db", ("alpha", KEY))
        fill("whole.db")
        empty_log("whole.db")
        content = read("whole.db")
        conn = sqlite3.connect("whole.db")
        roots = dict(conn.execute("SELECT name, rootpage FROM sqlite_schema"))
        conn.close()
        page = {name: (root - 1) * PAGE for name, root in roots.items()}
        places = {
            "a zip": find_in_zip(content, b"one."),
            "a zip in pieces": find_in_zip(content, b"two:"),
            "a go.mod": content.index(GOMOD, page["version"]) + 3,
            "an index": page["sqlite_autoindex_version_1"] + PAGE - 100,
            "the keys": page["access"] + PAGE - 20,
            "the first page": 60,
            "the mark of a database": 3,
            "a sum": find_in_zip(content, b"one.") // PAGE * PAGE + PAGE - 1,
        }
        chosen = random.Random(83)
        bits = [(at, chosen.randrange(8)) for at in sorted(chosen.sample(range(len(content)), BITS))]
        return Whole(content, places, bits)

    @pytest.fixture(autouse=True)
    def without_logs(self, whole: Whole) -> Iterator[None]:
        """Removes what a test leaves beside bad.db."""
        yield
        for end in ("-wal", "-shm"):
            if os.path.exists(f"bad.db{end}"):
                os.remove(f"bad.db{end}")

    @pytest.mark.parametrize("words", COMMANDS, ids=lambda words: words[0])
    @pytest.mark.parametrize("cause", CAUSES)
    def test_file_is_refused(self, whole: Whole, cause: str, words: list[str]) -> None:
        at = whole.places[cause]
        bad = turn_bit(whole.content, at, at % 8)
        write({"bad.db": bad})
        found = run([words[0], "--db", "bad.db", *words[1:]], get(f"{PATH}/@v/v1.0.0.zip"))
        assert found == refusal("bad-schema")
        is_kept = read("bad.db") == bad
        assert is_kept, "the file was changed"

    @pytest.mark.parametrize("cause", CAUSES)
    def test_doctor_names_what_is_on_the_page(self, whole: Whole, cause: str) -> None:
        at = whole.places[cause]
        write({"bad.db": turn_bit(whole.content, at, at % 8)})
        ran = doctor("--db", "bad.db")
        assert (ran.returncode, ran.stderr) == (1, "")
        assert [name for name in (*CAUSES[cause], "goshelf-restore") if name not in ran.stdout] == [], ran.stdout

    @pytest.mark.parametrize("number", range(BITS))
    def test_random_bit(self, whole: Whole, number: int) -> None:
        at, bit = whole.bits[number]
        write({"bad.db": turn_bit(whole.content, at, bit)})
        found = run(["answer", "--db", "bad.db"], get(f"{PATH}/@v/v1.0.0.zip"))
        assert found == refusal("bad-schema"), f"bit {bit} of byte {at}"

    def test_file_without_damage_has_the_bytes(self, whole: Whole) -> None:
        write({"bad.db": whole.content})
        assert answered(["--db", "bad.db"], map(get, TARGETS)) == WHOLE


# what is asked first, and whether goshelf has to read it from the disk
DAMAGED = {
    f"{PATH}/@v/v1.0.0.zip": True,
    f"{BIG_PATH}/@v/v1.0.0.zip": True,
    f"{PATH}/@v/v1.1.0.mod": False,
    f"{PATH}/@v/list": False,
}
UNAVAILABLE = (503, b"unavailable\n")


def version_of(target: str) -> str:
    """Returns the version that a target asks for; of a list its path alone is on a damaged page."""
    return target.partition("/@v/")[2].removesuffix(".zip").removesuffix(".mod").removesuffix("list")


class Served(NamedTuple):
    """What came while a bit was turned: the replies, the faults that were noted, what the doctor printed, how a copy
    ended, and the status of the target once the bit had turned back."""

    replies: dict[str, tuple[int, bytes]]
    faults: list[str]
    doctor: subprocess.CompletedProcess[str]
    copy: tuple[int, bytes, str]
    status_after: int

    def failed(self) -> set[str]:
        return {target for target, reply in self.replies.items() if reply == UNAVAILABLE}


@pytest.mark.parametrize("target", DAMAGED, scope="class")
class TestServing:
    """A bit that turns while goshelf serves a file that is larger than what it keeps of it in memory."""

    @pytest.fixture(scope="module")
    def content(self, module_folder: str) -> bytes:
        """The bytes of a store with large zips."""
        new_store("large.db", ("alpha", KEY))
        fill("large.db")
        gomod = f"module {BIG_PATH}\n".encode()
        big = [put(BIG_PATH, f"v1.{number}.0", gomod, bytes([number + 1]) * BIG) for number in range(3)]
        assert [status for status, _ in answered(["--db", "large.db"], big)] == [201] * 3
        empty_log("large.db")
        return read("large.db")

    @pytest.fixture(scope="class")
    def served(self, content: bytes, class_folder: str, target: str) -> Served:
        write({"served.db": content})
        root = content.index(GOMOD) + 3
        at = {
            f"{PATH}/@v/v1.0.0.zip": find_in_zip(content, b"one."),
            # (not near its end, which may be in memory)
            f"{BIG_PATH}/@v/v1.0.0.zip": find_in_zip(content, bytes([1])) - BIG // 2,
        }.get(target, root)
        with open("errors", "wb") as errors, Server("served.db", CONTROL, errors=errors) as server:
            turn_in_file("served.db", at)
            replies = {asked: server.ask("GET", asked) for asked in (target, *TARGETS)}
            notices = read("errors").decode().splitlines()
            ran = doctor("--db", "served.db")
            copied = run(["copy", "--control", CONTROL, "--to", f"{os.getcwd()}/bad-copy.db"])
            turn_in_file("served.db", at)
            status_after = server.ask("GET", target)[0]
        return Served(replies, [line for line in notices if line.startswith("fault: ")], ran, copied, status_after)

    def test_what_is_read_of_a_bad_page_is_a_503(self, served: Served, target: str) -> None:
        # (what some pages hold may be in memory)
        others = set() if DAMAGED[target] else {(200, TARGETS.get(target))}
        assert served.replies[target] in {UNAVAILABLE, *others}

    def test_no_answer_is_wrong(self, served: Served, target: str) -> None:
        answers = {asked: reply for asked, reply in served.replies.items() if asked not in served.failed()}
        assert {asked for asked, reply in answers.items() if reply != (200, TARGETS.get(asked))} == set()

    def test_others_are_answered(self, served: Served, target: str) -> None:
        assert len(served.failed()) < len(TARGETS)

    def test_faults_are_noted(self, served: Served, target: str) -> None:
        assert [notice for notice in served.faults if not notice.endswith(": device")] == []
        assert bool(served.faults) == bool(served.failed())

    def test_doctor_names_the_versions(self, served: Served, target: str) -> None:
        names = {asked: f"alpha {asked.partition('/@v/')[0]} {version_of(asked)}" for asked in served.failed()}
        assert [name for name in names.values() if name not in served.doctor.stdout] == []
        assert "damaged pages (1," in served.doctor.stdout

    def test_damaged_zip_is_not_copied(self, served: Served, target: str) -> None:
        # (a copy may have read other pages before)
        others = set() if target.startswith(BIG_PATH) else {(0, b"", "")}
        assert served.copy in {refusal("device"), *others}

    def test_bit_that_turned_back(self, served: Served, target: str) -> None:
        assert served.status_after == 200
