"""A store of schema 1 or 2 that is migrated answers as before, and a spoilt one is refused.

A file that stands for no world stays as it was. The store of the worked rows is filled by the program, and Python's
sqlite3 writes its rows into files of the older schemas, by their SQL texts. Each is migrated, and each request by each
key gets the bytes that the whole store answers. Then sqlite3 spoils an older file in one way after another, and a store
is read-only, or has rows in its log alone.
"""

import contextlib
import fcntl
import os
import shutil
import sqlite3
import tempfile
from collections.abc import Callable, Iterator
from typing import NamedTuple

import pytest

from lib.keys import KEYS
from lib.messages import get, put
from lib.older import LATE_KEY, LONG, fill_whole_store, older, put_entry, with_log
from lib.program import NOBODY, can_be_nobody, refusal, run
from lib.runs import Ending, Story, number_runs, read_runs
from lib.scratch import files_of, read, small_disk, write
from lib.tables import connected, order_key, rank_key, rows_of, settled
from lib.worked import everything, replies_of

INVENTORY_OF_BETA = b"""\
path,version,shelf,class,time,mod_bytes,zip_bytes
example.com/own,v1.0.0,beta,release,,23,1
example.com/x,v1.0.0,common,release,,21,1
example.com/y,v1.0.0,common,release,,21,1
"""


DONE: Ending = (0, b"", "")


def answers_of(file: str) -> list[bytes]:
    """Returns a store's replies to everything that is asked, by each key, and to requests for the long zips."""
    targets = [*everything(), *(f"example.com/long/@v/{version}.zip" for version in LONG)]
    return replies_of(file, [get(target, KEYS[letter]) for letter in "ARBCN" for target in targets])


class Base(NamedTuple):
    """A folder with the store of the worked rows, the file whole.db, and older stores with the same rows: old1.db and
    old2.db, and logged1 and logged2, whose files old.db have a log."""

    folder: str

    def copy(self, name: str, to: str) -> None:
        """Copies a store to a file, or a folder to a folder."""
        if os.path.isdir(f"{self.folder}/{name}"):
            shutil.copytree(f"{self.folder}/{name}", to)
        else:
            shutil.copy(f"{self.folder}/{name}", to)


@pytest.fixture(scope="module")
def base() -> Iterator[Base]:
    with tempfile.TemporaryDirectory(prefix="goshelf-") as folder:
        with contextlib.chdir(folder):
            fill_whole_store()
            settled(connected("whole.db"))
            for schema in (1, 2):
                older(f"old{schema}.db", schema)
                with_log(f"logged{schema}", schema)
        yield Base(folder)


@pytest.fixture(scope="module")
def wanted(base: Base) -> list[bytes]:
    """What the whole store answers."""
    return answers_of(f"{base.folder}/whole.db")


class Migrated(NamedTuple):
    """What came of a migration."""

    inventory_before: Ending
    ending: Ending
    is_kept: bool
    answers: list[bytes]
    inventory: Ending
    has_all_rows: bool
    again: Ending
    is_unchanged: bool
    group: Ending
    publish_of_reader: bytes


@pytest.mark.parametrize("schema", [1, 2], scope="class", ids=["schema 1", "schema 2"])
class TestMigrated:
    """An older store that is migrated answers as before."""

    @pytest.fixture(scope="class")
    def migrated(self, class_folder: str, base: Base, schema: int) -> Migrated:
        old, new = f"old{schema}.db", f"new{schema}.db"
        base.copy("whole.db", "whole.db")
        base.copy(old, old)
        before = read(old)
        inventory_before = run(["inventory", "--db", old, "--key", KEYS["B"]])
        ending = run(["migrate", "--from", old, "--to", new])
        is_kept, answers = read(old) == before, answers_of(new)
        inventory = run(["inventory", "--db", new, "--key", KEYS["B"]])
        has_all_rows = rows_of(new) == rows_of("whole.db")
        after = read(new)
        again = run(["migrate", "--from", old, "--to", new])
        is_unchanged = (read(old), read(new)) == (before, after)
        group = run(["team-add", "--db", new, "--team", "gamma", "--group", "alpha"])
        publish = put("example.com/q", "v1.0.0", b"module example.com/q\n", key=KEYS["R"])
        reply = run(["answer", "--db", new], publish)[1]
        return Migrated(
            inventory_before, ending, is_kept, answers, inventory, has_all_rows, again, is_unchanged, group, reply
        )

    def test_other_commands_refuse_the_older_store(self, migrated: Migrated) -> None:
        assert migrated.inventory_before == refusal("bad-schema")

    def test_migration_ends_well(self, migrated: Migrated) -> None:
        assert migrated.ending == DONE

    def test_older_file_keeps_its_bytes(self, migrated: Migrated) -> None:
        assert migrated.is_kept

    def test_each_reply_is_as_it_was(self, migrated: Migrated, wanted: list[bytes]) -> None:
        unlike = [number for number, pair in enumerate(zip(migrated.answers, wanted)) if pair[0] != pair[1]]
        assert (unlike, len(migrated.answers)) == ([], len(wanted))

    def test_inventory(self, migrated: Migrated) -> None:
        assert migrated.inventory == (0, INVENTORY_OF_BETA, "")

    def test_tables_are_those_of_the_whole_store(self, migrated: Migrated) -> None:
        assert migrated.has_all_rows

    def test_second_migration_changes_nothing(self, migrated: Migrated) -> None:
        assert (migrated.again, migrated.is_unchanged) == (refusal("not-empty"), True)

    def test_teams_have_no_group(self, migrated: Migrated) -> None:
        assert migrated.group == refusal("no-group")

    def test_key_that_reads_only_reads(self, migrated: Migrated) -> None:
        assert migrated.publish_of_reader.split()[1] == b"403"


OF_LONG = "(SELECT id FROM version WHERE version = 'v1.0.2')"
OF_RELEASE = "(SELECT id FROM version WHERE path = 'example.com/rc' AND version = 'v1.0.0')"
# what spoils an older file, by the schemas that it is of
SPOILT = (
    ((1, 2), "the number of another schema", "UPDATE meta SET value = 3"),
    ((1, 2), "the number of the other old schema", "UPDATE meta SET value = 3 - value"),
    ((1, 2), "another name in meta", "UPDATE meta SET name = 'schemata'"),
    ((1, 2), "no row of meta", "DELETE FROM meta"),
    ((1, 2), "a row more of meta", "INSERT INTO meta VALUES ('more', 1)"),
    ((1, 2), "no common", "DELETE FROM shelf WHERE name = 'common'"),
    ((1, 2), "a shelf that is no team's name", "INSERT INTO shelf VALUES ('Gamma')"),
    ((1, 2), "a key that is too short", "UPDATE access SET token = 'short' WHERE shelf = 'beta'"),
    ((1, 2), "a key of no shelf", "UPDATE access SET shelf = 'nosuch' WHERE shelf = 'beta'"),
    ((1, 2), "a version of no shelf", "UPDATE version SET shelf = 'nosuch' WHERE path = 'example.com/own'"),
    ((1, 2), "a path that is none", "UPDATE version SET path = 'example.com//own' WHERE path = 'example.com/own'"),
    ((1, 2), "a time that is none", "UPDATE version SET time = '2024-02-30T00:00:00Z' WHERE path = 'example.com/own'"),
    ((1, 2), "a pseudo-version without its time", "UPDATE version SET time = NULL WHERE path = 'example.com/ps'"),
    ((1, 2), "a go.mod that does not read", "UPDATE version SET mod = X'6d6f64' WHERE path = 'example.com/own'"),
    ((1, 2), "a table more", "CREATE TABLE more (a INTEGER) STRICT"),
    ((1, 2), "an index more", "CREATE INDEX more ON version (path)"),
    ((1,), "a body that is missing", f"DELETE FROM body WHERE id = {OF_RELEASE}"),
    ((1,), "a zip of a byte too many", f"UPDATE body SET zip = zeroblob(16777217) WHERE id = {OF_RELEASE}"),
    ((1,), "a version that is none", f"UPDATE version SET version = 'v1.0' WHERE id = {OF_RELEASE}"),
    ((2,), "a gap in the pieces", f"UPDATE piece SET number = 2 WHERE number = 1 AND version = {OF_LONG}"),
    ((2,), "no first piece", f"DELETE FROM piece WHERE number = 0 AND version = {OF_LONG}"),
    (
        (2,),
        "a short piece before another",
        f"UPDATE piece SET bytes = substr(bytes, 2) WHERE number = 0 AND version = {OF_LONG}",
    ),
    ((2,), "an empty piece", f"INSERT INTO piece VALUES ({OF_RELEASE}, 0, X'')"),
    ((2,), "a piece of no version", "INSERT INTO piece VALUES (999, 0, X'5A')"),
    (
        (2,),
        "a key of order of another version",
        f"UPDATE version SET order_key = X'{order_key('v1.0.4').hex()}' WHERE id = {OF_RELEASE}",
    ),
    (
        (2,),
        "a key of rank that is the key of order",
        f"UPDATE version SET rank_key = order_key WHERE id = {OF_RELEASE}",
    ),
)


def add_too_many(conn: sqlite3.Connection, schema: int) -> None:
    """Adds one version more of a path than a shelf may have."""
    conn.execute("BEGIN")
    for number in range(4_097):
        version, gomod = f"v1.0.{number}", b"module example.com/many\n"
        keys = order_key(version), rank_key(version)
        put_entry(conn, schema, (10_000 + number, "alpha", "example.com/many", version, None, gomod, *keys), b"")
    conn.execute("COMMIT")


Spoil = Callable[[sqlite3.Connection, int], object]
SPOILS: dict[str, tuple[int, Spoil]] = {
    f"schema {schema}, {name}": (schema, lambda conn, _, text=text: conn.execute(text))
    for schemas, name, text in SPOILT
    for schema in schemas
}
SPOILS |= {f"schema {schema}, a version too many of a path": (schema, add_too_many) for schema in (1, 2)}


@pytest.mark.parametrize("cause", SPOILS)
def test_spoilt_store_is_refused(folder: str, base: Base, cause: str) -> None:
    schema, spoil = SPOILS[cause]
    base.copy(f"old{schema}.db", "bad.db")
    conn = connected("bad.db")
    spoil(conn, schema)
    settled(conn)
    before = read("bad.db")
    assert run(["migrate", "--from", "bad.db", "--to", "fresh.db"], timeout=600) == refusal("bad-schema")
    is_kept = read("bad.db") == before
    assert is_kept, "the file was changed"
    words = ["migrate", "--from", f"{base.folder}/old{schema}.db", "--to", "fresh.db"]
    assert run(words) == DONE, "what is left of the fresh store is not taken"


FAULTS = read_runs(
    """
migrate --from missing.db --to new.db | 1 bad-schema
migrate --from empty --to new.db | 1 bad-schema
migrate --from foreign --to new.db | 1 bad-schema
migrate --from whole.db --to new.db | 1 bad-schema
migrate --from folder --to new.db | 1 device
migrate --from pipe --to new.db | 1 device
migrate --from :memory: --to new.db | 1 device
migrate --from= --to new.db | 1 device
migrate --from second.db --to new.db | 1 device
migrate --from old.db --to none/new.db | 1 device
migrate --from missing.db --to none/new.db | 1 device
migrate --from folder --to text | 1 device
migrate --from foreign --to none/new.db | 1 bad-schema
migrate --from old.db --to text | 1 not-empty
migrate --from old.db --to whole.db | 1 not-empty
migrate --from whole.db --to text | 1 not-empty
migrate --from whole.db --to team.db | 1 not-empty
migrate --from missing.db --to text | 1 not-empty
migrate --from missing.db --to team.db | 1 not-empty
migrate --from empty --to team.db | 1 not-empty
migrate --from foreign --to team.db | 1 bad-schema
migrate --from text --to text | 1 bad-schema
migrate --from old.db --to old.db | 1 not-empty
migrate --from old.db --to ./old.db | 1 not-empty
migrate --from link --to old.db | 1 not-empty
migrate --from old.db --to link | 1 not-empty
migrate --from whole.db --to whole.db | 1 not-empty
migrate --from empty --to empty | 1 not-empty
migrate --from missing.db --to missing.db | 1 not-empty
migrate --from old.db --to old.db-wal | 1 device
migrate --from old.db --to old.db-journal | 1 device
migrate --from old.db --to old.db-shm | 1 device
migrate --from link --to old.db-journal | 1 device
migrate --from text --to text-wal | 1 device
migrate --from missing.db --to missing.db-journal | 1 device
migrate --from old.db --to whole.db-journal | 1 device
migrate --from link --to ./old.db-wal | 1 device
migrate --from old.db --to team.db | 1 not-empty
migrate --from old.db --to group.db | 1 not-empty
migrate --from old.db --to key.db | 1 not-empty
migrate --from old.db --to new.db | 0
migrate --from link --to other.db | 0
migrate --from old.db --to blank.db | 0
migrate --from old.db --to nothing.db | 0
"""
)
# files that none of these runs changes
UNCHANGED = ("old.db", "whole.db", "text", "foreign", "empty", "first.db", "team.db", "group.db", "key.db")


class TestFaults:
    """The order of the refusals, what they leave, and which files are taken for the new store."""

    @pytest.fixture(scope="class")
    def story(self, class_folder: str, base: Base) -> Story:
        os.mkdir("folder")
        os.mkfifo("pipe")
        os.symlink("old.db", "link")
        write({"text": "no database\n", "foreign": "no database either\n", "empty": "", "nothing.db": ""})
        base.copy("whole.db", "whole.db")
        for name in ("old.db", "first.db"):
            base.copy("old2.db", name)
        os.link("first.db", "second.db")
        for words in (
            ["init", "--db", "blank.db"],
            ["team-add", "--db", "team.db", "--team", "alpha"],
            ["group-add", "--db", "group.db", "--group", "alpha"],
            ["key-add", "--db", "key.db", "--shelf", "common", "--key", KEYS["C"]],
        ):
            assert run(words) == DONE
        return Story(FAULTS, class_folder)

    @pytest.fixture(scope="class")
    def before(self, story: Story) -> dict[str, bytes]:
        """The bytes of files before all runs, which are then made."""
        assert not story.endings, "a run was made before"
        found = {name: read(name) for name in UNCHANGED}
        story.ending(len(FAULTS) - 1)
        return found

    @pytest.mark.parametrize(**number_runs(FAULTS))
    def test_run(self, story: Story, before: dict[str, bytes], number: int) -> None:
        story.check(number)

    @pytest.mark.parametrize("name", UNCHANGED)
    def test_file_keeps_its_bytes(self, before: dict[str, bytes], name: str) -> None:
        assert read(name) == before[name]

    def test_file_that_is_missing_is_not_made(self, before: dict[str, bytes]) -> None:
        assert not os.path.exists("missing.db")

    @pytest.mark.parametrize("name", ["old.db-journal", "old.db-shm", "missing.db-journal", "whole.db-journal"])
    def test_no_file_is_made_where_sqlite_has_a_use_for_it(self, before: dict[str, bytes], name: str) -> None:
        assert not os.path.lexists(name)

    @pytest.mark.parametrize("name", ["old.db-wal", "foreign-wal", "empty-wal", "first.db-wal"])
    def test_no_log_is_left_beside_a_file_that_was_read(self, before: dict[str, bytes], name: str) -> None:
        assert not os.path.exists(name)


@pytest.mark.parametrize("schema", [1, 2], ids=["schema 1", "schema 2"])
def test_log_is_migrated_and_kept(folder: str, base: Base, schema: int) -> None:
    base.copy(f"logged{schema}", "kept")
    before = files_of("kept")
    assert len(before["old.db-wal"]) > 1000
    assert run(["migrate", "--from", "kept/old.db", "--to", "new.db"]) == DONE
    assert files_of("kept") == before
    assert run(["inventory", "--db", "new.db", "--key", LATE_KEY]) == (0, INVENTORY_OF_BETA, "")


@pytest.mark.root
@pytest.mark.needs("umount")
@pytest.mark.parametrize("files", [{}, {"small/new.db": b""}], ids=["beside a missing file", "beside an empty file"])
@pytest.mark.parametrize("what", ["the file", "the log"])
def test_disk_without_room_for_a_copy(folder: str, base: Base, what: str, files: dict[str, bytes]) -> None:
    """The older store is copied beside the new one: both keep their bytes, and no other file stays."""
    base.copy("logged2", "kept")
    room = os.path.getsize("kept/old.db")
    os.mkdir("small")
    with small_disk("small", str(room // 2 if what == "the file" else room + 4096)) as is_there:
        if not is_there:
            pytest.skip("no tmpfs can be mounted here")
        write(files)
        before = files_of("kept"), files_of("small")
        assert run(["migrate", "--from", "kept/old.db", "--to", "small/new.db"]) == refusal("device")
        assert (files_of("kept"), files_of("small")) == before


# an error of the first write to the copy, the older file, and how the migration ends: a text is no store, but that is
# not judged without memory
UNWRITTEN = [
    ("ENOMEM", "old.db", "memory"), ("ENOMEM", "text", "memory"),
    ("EIO", "old.db", "device"), ("EIO", "text", "bad-schema"),
]  # fmt: skip


@pytest.mark.needs("strace")
@pytest.mark.parametrize(("error", "name", "wanted"), UNWRITTEN)
def test_copy_that_cannot_be_written(folder: str, base: Base, error: str, name: str, wanted: str) -> None:
    base.copy("old2.db", "old.db")
    write({"text": "no database\n"})
    before = files_of()
    fails = ["strace", "-f", "-qq", "-o", "/dev/null", "-e", "trace=write", "-e", f"inject=write:error={error}:when=1"]
    assert run(["migrate", "--from", name, "--to", "new.db"], before=fails) == refusal(wanted)
    assert files_of() == before


@pytest.mark.parametrize("log", [None, b"", b"of another"], ids=["no log", "an empty log", "a log"])
def test_store_that_another_program_has_open_is_not_read(folder: str, base: Base, log: bytes | None) -> None:
    base.copy("old2.db", "old.db")
    if log is not None:
        write({"old.db-wal": log})
    before = files_of()
    with open("old.db", "r+b") as file:
        fcntl.lockf(file, fcntl.LOCK_EX, 512, 1 << 30)
        assert run(["migrate", "--from", "old.db", "--to", "new.db"]) == refusal("device")
    assert files_of() == before


# the rights of a folder and of the files in it, and whose they are
RIGHTS = (
    (0o555, 0o444, 0),
    (0o755, 0o444, 0),
    (0o755, 0o444, 65534),
    (0o555, 0o644, 65534),
    (0o555, 0o444, 65534),
    (0o777, 0o666, 0),
)


# these, with a log and without
TURNS = {
    f"{'a log' if has_log else 'no log'}, a file {file:o} in a folder {mode:o} of {'nobody' if owner else 'root'}": (
        (has_log, mode, file, owner)
    )
    for has_log in (False, True)
    for mode, file, owner in RIGHTS
}


def fix_store(base: Base, folder: str, has_log: bool, mode: int, of_file: int, owner: int) -> None:
    """Makes a folder with an older store, with or without a log, and gives both these rights and this owner."""
    if has_log:
        base.copy("logged2", folder)
    else:
        os.mkdir(folder)
        base.copy("old2.db", f"{folder}/old.db")
    for name in ("", *os.listdir(folder)):
        os.chown(f"{folder}/{name}", owner, owner)
        os.chmod(f"{folder}/{name}", of_file if name else mode)


@pytest.mark.root
@pytest.mark.needs("setpriv")
class TestReadOnly:
    """A read-only older store: by its file, by its folder, by both; by its owner, and by somebody else."""

    @pytest.fixture(autouse=True)
    def room(self, folder: str) -> None:
        """The folder of the new store, where nobody may make files."""
        if not can_be_nobody():
            pytest.skip("no process can become nobody here")
        os.mkdir("room")
        os.chmod("room", 0o777)

    @pytest.mark.parametrize("turn", TURNS)
    def test_nobody_migrates_it(self, base: Base, wanted: list[bytes], turn: str) -> None:
        fix_store(base, "fixed", *TURNS[turn])
        before = files_of("fixed")
        assert run(["migrate", "--from", "fixed/old.db", "--to", "room/new.db"], before=NOBODY) == DONE
        assert files_of("fixed") == before
        assert [name for name in os.listdir("room") if name.startswith("goshelf-")] == []
        is_whole = answers_of("room/new.db") == wanted
        assert is_whole, "a reply is another"

    def test_root_migrates_it(self, base: Base) -> None:
        fix_store(base, "fixed", False, *RIGHTS[0])
        assert run(["migrate", "--from", "fixed/old.db", "--to", "root.db"]) == DONE

    @pytest.fixture
    def migrate(self, base: Base) -> Callable[[str], Ending]:
        """Has nobody migrate a store of a folder that is read-only, with its file, and owned by root."""
        fix_store(base, "fixed", False, *RIGHTS[0])
        return lambda to: run(["migrate", "--from", "fixed/old.db", "--to", to], before=NOBODY)

    def test_file_that_may_not_be_read(self, migrate: Callable[[str], Ending]) -> None:
        os.chmod("fixed/old.db", 0o400)
        assert migrate("room/new.db") == refusal("device")

    def test_folder_where_nothing_may_be_made(self, migrate: Callable[[str], Ending]) -> None:
        assert migrate("fixed/new.db") == refusal("device")

    def test_read_only_file_into_itself(self, migrate: Callable[[str], Ending]) -> None:
        assert migrate("fixed/old.db") == refusal("not-empty")

    def test_read_only_file_that_another_program_has_open(self, migrate: Callable[[str], Ending]) -> None:
        with open("fixed/old.db", "r+b") as file:
            fcntl.lockf(file, fcntl.LOCK_EX, 512, 1 << 30)
            assert migrate("room/new.db") == refusal("device")
        assert os.listdir("room") == []

    def test_read_only_file_with_a_journal_that_is_not_played_back(self, migrate: Callable[[str], Ending]) -> None:
        write({"fixed/old.db-journal": b"\xd9"})
        assert migrate("room/new.db") == refusal("device")
        assert [name for name in os.listdir("room") if name.startswith("goshelf-")] == []
