"""Extracts are refused in order, and where a name is one that SQLite uses; nothing is changed by a refusal.

A table holds runs, as lib/runs.py reads them.
"""

import os
import sqlite3

import pytest

from lib.keys import KEYS
from lib.runs import Story, number_runs, read_runs
from lib.scratch import read, write
from lib.stores import new_store
from lib.worked import finish

ONE_VERSION = """
team-add --db whole.db --team alpha | 0
key-add --db whole.db --shelf alpha --key A | 0
publish --db whole.db --key A --module example.com/lib --version v1.0.0 --mod go.mod --zip empty | 0
    201 published
answer --db whole.db < A example.com/lib/@v/v1.0.0.mod | 0
    200 module example.com/lib
"""
# `text` and `foreign.db` are no stores, `folder` is a folder, `link` leads to whole.db, `empty` has no bytes, the
# others are not there
FAULTS = """
extract --db text --team alpha --to part.db | 1 bad-schema
extract --db text --team alpha --to text | 1 bad-schema
extract --db foreign.db --team nosuch --to text | 1 bad-schema
extract --db folder --team alpha --to text | 1 device
extract --db :memory: --team alpha --to text | 1 device
extract --db whole.db --team alpha --to none/part.db | 1 device
extract --db whole.db --team nosuch --to none/part.db | 1 device
extract --db whole.db --team nosuch --to folder | 1 device
extract --db whole.db --team alpha --to= | 1 device
extract --db whole.db --team alpha --to text | 1 not-empty
extract --db whole.db --team nosuch --to text | 1 not-empty
extract --db whole.db --team nosuch --to foreign.db | 1 not-empty
extract --db whole.db --team alpha --to whole.db | 1 not-empty
extract --db whole.db --team nosuch --to ./whole.db | 1 not-empty
extract --db whole.db --team alpha --to link | 1 not-empty
extract --db link --team alpha --to whole.db | 1 not-empty
extract --db empty --team alpha --to empty | 1 not-empty
extract --db new.db --team alpha --to new.db | 1 not-empty
extract --db missing.db --team alpha --to part.db | 1 no-team
extract --db whole.db --team nosuch --to part.db | 1 no-team
extract --db whole.db --team common --to part.db | 1 no-team
extract --db whole.db --team Alpha --to part.db | 1 no-team
extract --db whole.db --team alpha --to part.db | 0
extract --db whole.db --team alpha --to part.db | 1 not-empty
extract --db whole.db --team nosuch --to part.db | 1 no-team
extract --db part.db --team alpha --to missing.db | 0
answer --db missing.db < A example.com/lib/@v/v1.0.0.mod | 0
    200 module example.com/lib
team-add --db team.db --team alpha | 0
extract --db whole.db --team alpha --to team.db | 1 not-empty
key-add --db key.db --shelf common --key C | 0
extract --db whole.db --team alpha --to key.db | 1 not-empty
"""
# names that SQLite gives the files beside a database: by the name itself, by another folder, by a link, and of another
# database; `away/log` is a link to the log, `away/shared` one to the shared memory of other.db, and `twin` a hard link
# to its log
TAKEN = """
extract --db whole.db --team alpha --to whole.db-journal | 1 device
extract --db whole.db --team alpha --to whole.db-wal | 1 device
extract --db whole.db --team alpha --to whole.db-shm | 1 device
extract --db whole.db --team nosuch --to away/../whole.db-journal | 1 device
extract --db link --team alpha --to whole.db-journal | 1 device
extract --db link --team alpha --to link-journal | 1 device
extract --db away/link --team alpha --to whole.db-shm | 1 device
extract --db whole.db --team alpha --to away/log | 1 device
extract --db whole.db --team alpha --to away/shared | 1 device
extract --db other.db --team alpha --to twin | 1 device
extract --db whole.db --team alpha --to other.db-journal | 1 device
extract --db whole.db --team alpha --to text-wal | 1 device
extract --db none.db --team alpha --to none.db-journal | 1 device
"""
NOT_TAKEN = """
extract --db whole.db --team alpha --to folder-wal | 0
extract --db whole.db --team alpha --to lone.db-journal | 0
extract --db whole.db --team alpha --to whole.db-journals | 0
extract --db whole.db --team alpha --to whole.db.wal | 0
extract --db whole.db --team alpha --to away/whole.db-journal | 0
inventory --db lone.db-journal --key A | 0
    path,version,shelf,class,time,mod_bytes,zip_bytes
    example.com/lib,v1.0.0,alpha,release,,23,0
publish --db whole.db --key A --module example.com/lib --version v1.0.0 --mod go.mod --zip empty | 0
    200 already published
"""
INTO_EMPTY = """
extract --db whole.db --team alpha --to empty | 0
answer --db empty < A example.com/lib/@v/v1.0.0.mod | 0
    200 module example.com/lib
"""

ONE_VERSION_RUNS, FAULT_RUNS, INTO_EMPTY_RUNS = map(read_runs, (ONE_VERSION, FAULTS, INTO_EMPTY))
TAKEN_RUNS, NOT_TAKEN_RUNS = map(read_runs, (TAKEN, NOT_TAKEN))
FILES = {"go.mod": "module example.com/lib\n", "text": "no database\n", "empty": ""}
# the files that no fault changes
UNCHANGED = ("whole.db", "whole.db-wal", "foreign.db", "text", "empty")


def read_tree(folder: str) -> dict[str, bytes]:
    """Returns the names below a folder, with the bytes of each file."""
    names = (os.path.join(at, name) for at, folders, files in os.walk(folder) for name in (*folders, *files))
    return {name: read(name) if os.path.isfile(name) else b"" for name in names}


class TestFaults:
    @pytest.fixture(scope="class")
    def one_version(self, class_folder: str) -> Story:
        os.mkdir("folder")
        os.symlink("whole.db", "link")
        write(FILES)
        conn = sqlite3.connect("foreign.db")
        conn.execute("CREATE TABLE x (a INTEGER) STRICT")
        conn.close()
        return Story(ONE_VERSION_RUNS, class_folder)

    @pytest.fixture(scope="class")
    def before(self, one_version: Story) -> dict[str, bytes]:
        finish(one_version)
        return read_tree(one_version.folder)

    @pytest.fixture(scope="class")
    def faults(self, class_folder: str, before: dict[str, bytes]) -> Story:
        return Story(FAULT_RUNS, class_folder)

    @pytest.fixture(scope="class")
    def after(self, faults: Story) -> dict[str, bytes]:
        finish(faults)
        return read_tree(faults.folder)

    @pytest.fixture(scope="class")
    def into_empty(self, class_folder: str, after: dict[str, bytes]) -> Story:
        return Story(INTO_EMPTY_RUNS, class_folder)

    @pytest.mark.parametrize(**number_runs(ONE_VERSION_RUNS))
    def test_run_that_makes_the_whole(self, one_version: Story, number: int) -> None:
        one_version.check(number)

    @pytest.mark.parametrize(**number_runs(FAULT_RUNS))
    def test_run_in_the_order_of_faults(self, faults: Story, number: int) -> None:
        faults.check(number)

    @pytest.mark.parametrize("name", UNCHANGED)
    def test_file_keeps_its_bytes(
        self, class_folder: str, before: dict[str, bytes], after: dict[str, bytes], name: str
    ) -> None:
        file = os.path.join(class_folder, name)
        assert after[file] == before[file]

    @pytest.mark.parametrize(**number_runs(INTO_EMPTY_RUNS))
    def test_run_into_an_empty_file(self, into_empty: Story, number: int) -> None:
        into_empty.check(number)


class TestNamesOfSQLite:
    """A name that SQLite uses is refused before anything is touched. Any other is taken, and the whole goes on."""

    @pytest.fixture(scope="class")
    def one_version(self, class_folder: str) -> Story:
        for name in ("folder", "away"):
            os.mkdir(name)
        os.symlink("whole.db", "link")
        os.symlink("../whole.db", "away/link")
        write(FILES)
        return Story(ONE_VERSION_RUNS, class_folder)

    @pytest.fixture(scope="class")
    def before(self, one_version: Story) -> dict[str, bytes]:
        finish(one_version)
        at = os.path.abspath(one_version.folder)
        new_store(f"{at}/other.db", ("alpha", KEYS["A"]))
        os.link(f"{at}/other.db-wal", f"{at}/twin")
        os.symlink("../whole.db-wal", f"{at}/away/log")
        write({f"{at}/other.db-shm": ""})
        os.symlink("../other.db-shm", f"{at}/away/shared")
        return read_tree(at)

    @pytest.fixture(scope="class")
    def taken(self, class_folder: str, before: dict[str, bytes]) -> Story:
        return Story(TAKEN_RUNS, class_folder)

    @pytest.fixture(scope="class")
    def after(self, taken: Story) -> dict[str, bytes]:
        finish(taken)
        return read_tree(taken.folder)

    @pytest.fixture(scope="class")
    def not_taken(self, class_folder: str, after: dict[str, bytes]) -> Story:
        return Story(NOT_TAKEN_RUNS, class_folder)

    @pytest.mark.parametrize(**number_runs(ONE_VERSION_RUNS))
    def test_run_that_makes_the_whole(self, one_version: Story, number: int) -> None:
        one_version.check(number)

    @pytest.mark.parametrize(**number_runs(TAKEN_RUNS))
    def test_run_with_a_name_of_sqlite(self, taken: Story, number: int) -> None:
        taken.check(number)

    def test_nothing_is_touched(self, before: dict[str, bytes], after: dict[str, bytes]) -> None:
        assert after == before

    @pytest.mark.parametrize(**number_runs(NOT_TAKEN_RUNS))
    def test_run_with_another_name(self, not_taken: Story, number: int) -> None:
        not_taken.check(number)
