"""What the pages have an operator do besides nginx: keys, backups, queries, tables.

A team gets a store of its own. Their commands and the scripts of deploy/ run as they are, on a machine in a folder
(lib/machine.py). tests/test_watching.py has goshelf-watch and goshelf-metrics.
"""

import hashlib
import os
import re
import shutil
import subprocess
from collections.abc import Iterator

import pytest

from lib.machine import Machine
from lib.older import SCHEMA_1, SCHEMA_2
from lib.operating import (
    ALPHA,
    BETA,
    COMMON,
    GROUP,
    MEMBER,
    PUBLISHED,
    READER,
    SECRET,
    TIME,
    Published,
    ask_store,
    empty_store,
    is_running,
    list_backups,
    opened_machine,
    publish,
    read_cron_lines,
)
from lib.pages import OPERATORS, block, blocks, read_page
from lib.program import run
from lib.scratch import read
from lib.stores import remove_store
from lib.sums import has_sums, wrong_sums
from lib.tables import change, reordered, rows_of

pytestmark = [pytest.mark.root, pytest.mark.needs("sqlite3", "openssl", "curl", "xxd")]

LIB = "example.com/lib/@v"
BAD_SCHEMA = (1, b"", "goshelf: bad-schema\n")
# the ways to copy a store by sqlite3 that the pages name
WAYS = re.findall(r"`(sqlite3 F [^`]*COPY[^`]*)`", "".join(map(read_page, OPERATORS)))


@pytest.fixture
def machine() -> Iterator[Machine]:
    with opened_machine() as machine:
        yield machine


def find_block(first: str) -> str:
    """Returns the block of the pages for operators that begins with these words."""
    texts = (text for page in OPERATORS for text in blocks(f"docs/{page}", "sh"))
    return next(text for text in texts if text.startswith(first))


def list_versions(file: str) -> tuple[int, bytes, str]:
    """Returns how an inventory of a store ends."""
    return run(["inventory", "--db", file, "--key", ALPHA])


def add_key(machine: Machine) -> str:
    return machine.does(block("sh", "--control /run/goshelf/control --shelf alpha --new")).strip()


def revoke_key(machine: Machine, key: str) -> None:
    machine.does(block("sh", "key-revoke --control /run/goshelf/control --key KEY").replace("KEY", key))


def ask_status(machine: Machine, key: str) -> str:
    """Returns the status of a GET with a key."""
    return machine.does(f"curl -s -o /dev/null -w '%{{http_code}}' http://127.0.0.1:8080/k/{key}/-/modules")


def test_a_new_key_reads_at_once(machine: Machine) -> None:
    key = add_key(machine)
    assert re.fullmatch("[a-z0-9]{26}", key)
    assert ask_status(machine, key) == "200"


def test_a_revoked_key_reads_nothing_at_once(machine: Machine) -> None:
    key = add_key(machine)
    revoke_key(machine, key)
    assert ask_status(machine, key) == "404"
    assert is_running(machine)


def test_the_store_holds_what_orders_changed(machine: Machine) -> None:
    revoked, added = add_key(machine), "0" * 32
    revoke_key(machine, revoked)
    machine.does(block("sh", "team-add --control").replace("beta", "omega").replace("KEY", added))
    assert "omega team\n" in machine.does("goshelf shelf-list --control /run/goshelf/control")
    assert is_running(machine)
    machine.does("systemctl stop goshelf")
    statuses = [ask_store(machine.store, "-/modules", key=key)[0][0] for key in (revoked, ALPHA, added)]
    assert statuses == [404, 200, 200]


def test_an_order_while_goshelf_is_stopped_ends_with_device(machine: Machine) -> None:
    order = f"goshelf key-revoke --control {machine.folder}/run/goshelf/control --key {READER}"
    machine.does("systemctl stop goshelf")
    assert machine.sh(order) == (1, "", "goshelf: device\n")
    machine.does("systemctl start goshelf")
    assert machine.sh(order) == (0, "", "")


def test_the_lines_for_cron_run_each_script_as_root(machine: Machine) -> None:
    wanted = [["root", f"{machine.folder}/usr/local/bin/goshelf-{name}"] for name in ("backup", "watch", "metrics")]
    assert [line.split()[5:7] for line in read_cron_lines(machine)] == wanted


def test_a_backup_by_cron_prints_nothing(machine: Machine) -> None:
    script = read_cron_lines(machine)[0].split()[6]
    # cron gives few settings
    settings = {"PATH": "/usr/bin:/bin", "HOME": "/root"}
    ran = subprocess.run(["sh", "-c", script], env=settings, cwd="/", capture_output=True, text=True)
    assert (ran.returncode, ran.stdout, ran.stderr) == (0, "", "")
    assert len(list_backups(machine)) == 1


class TestCopies:
    """goshelf copies its store while it runs, and sqlite3 makes no store of it."""

    def test_the_pages_name_one_way_by_sqlite3(self) -> None:
        assert len(WAYS) == 1

    @pytest.mark.parametrize("way", WAYS)
    def test_sqlite3_makes_an_empty_copy_while_goshelf_runs(self, machine: Machine, way: str) -> None:
        copy = f"{machine.folder}/root/copy.db"
        status, _, errors = machine.sh(way.replace("F", machine.store, 1).replace("COPY", copy))
        assert status != 0 and "database is locked" in errors
        assert os.path.getsize(copy) == 0
        assert machine.does(f"sqlite3 {copy} 'PRAGMA integrity_check'") == "ok\n"
        listed = find_block("goshelf inventory").replace("KEY", ALPHA).replace("COPY", copy)
        assert machine.sh(listed) == (1, "", "goshelf: no-key\n")

    @pytest.mark.parametrize("way", WAYS)
    def test_sqlite3_makes_no_store_while_goshelf_is_stopped(self, machine: Machine, way: str) -> None:
        machine.does("systemctl stop goshelf")
        copy = f"{machine.folder}/root/copy.db"
        machine.does(way.replace("F", machine.store, 1).replace("COPY", copy))
        listed = find_block("goshelf inventory").replace("KEY", ALPHA).replace("COPY", copy)
        assert machine.sh(listed) == (1, "", "goshelf: bad-schema\n")

    def test_the_copy_of_goshelf_is_a_store(self, machine: Machine) -> None:
        machine.does(block("sh", "goshelf copy --control"))
        machine.does("systemctl stop goshelf")
        listed = find_block("goshelf inventory").replace("KEY", ALPHA)
        wanted = machine.does(listed.replace("COPY", machine.store))
        assert wanted.count("example.com/lib,") == 3
        assert machine.does(listed.replace("COPY", "/var/lib/goshelf/copy.db")) == wanted


def name_backup(machine: Machine, name: str) -> str:
    """Makes the machine's first backup, gives it a name, and returns its folder."""
    at = f"{machine.folder}/var/backups/goshelf"
    machine.does("goshelf-backup")
    (made,) = list_backups(machine)
    os.rename(f"{at}/{made}", f"{at}/{name}")
    return f"{at}/{name}"


class TestBackups:
    """goshelf-backup."""

    def test_goshelf_runs_on(self, machine: Machine) -> None:
        assert machine.sh("goshelf-backup") == (0, "", "")
        assert is_running(machine)
        beside = sorted(os.listdir(f"{machine.folder}/var/lib/goshelf"))
        assert beside == ["shelves.db", "shelves.db-reserve", "shelves.db-wal"]

    def test_one_that_stops_goshelf_has_the_same_versions(self, machine: Machine) -> None:
        by_copy = name_backup(machine, "2020-01-01T031500Z")
        assert machine.sh("goshelf-backup stop") == (0, "", "")
        assert is_running(machine)
        stopped = f"{os.path.dirname(by_copy)}/{list_backups(machine)[1]}"
        assert read(f"{stopped}/versions") == read(f"{by_copy}/versions")

    def test_a_backup_is_a_store_that_root_alone_reads(self, machine: Machine) -> None:
        made = name_backup(machine, "2020-01-01T031500Z")
        paths = (os.path.dirname(made), made, f"{made}/shelves.db")
        assert {os.stat(path).st_mode & 0o077 for path in paths} == {0}
        shelves = ["alpha"] * 3 + ["beta", "common"]
        lines = sorted(f"{shelf}|{row.module}|{row.version}|{TIME}" for row, shelf in zip(PUBLISHED, shelves))
        assert read(f"{made}/versions").decode().splitlines() == lines
        shutil.copytree(made, f"{machine.folder}/root/copy")
        assert ask_store(f"{machine.folder}/root/copy/shelves.db", f"{LIB}/v1.1.0.zip") == [(200, SECRET)]

    def test_the_latest_14_are_kept(self, machine: Machine) -> None:
        made = name_backup(machine, "2020-02-01T031500Z")
        for day in range(20):
            shutil.copytree(made, f"{os.path.dirname(made)}/2020-01-{day + 1:02}T031500Z")
        assert machine.sh("goshelf-backup") == (0, "", "")
        assert len(list_backups(machine)) == 14
        assert list_backups(machine)[0] == "2020-01-09T031500Z"

    def test_a_copy_that_lacks_a_version_is_no_backup(self, machine: Machine) -> None:
        name_backup(machine, "2020-01-01T031500Z")
        machine.does("systemctl stop goshelf")
        os.rename(machine.store, f"{machine.store}.aside")
        shutil.copy(f"{machine.store}.aside", machine.store)
        change(machine.store, ["DELETE FROM piece WHERE version = 1"], ["DELETE FROM version WHERE id = 1"])
        machine.does("systemctl start goshelf")
        status, printed, _ = machine.sh("goshelf-backup")
        assert status == 1 and "alpha|example.com/lib|v1.0.0|" in printed
        assert list_backups(machine) == ["2020-01-01T031500Z"]

    def test_an_empty_copy_is_no_backup(self, machine: Machine) -> None:
        name_backup(machine, "2020-01-01T031500Z")
        empty_store(machine)
        assert machine.sh("goshelf-backup")[0] != 0
        assert list_backups(machine) == ["2020-01-01T031500Z"]
        assert is_running(machine)

    def test_the_last_backup_takes_the_place_of_the_store(self, machine: Machine) -> None:
        name_backup(machine, "2020-01-01T031500Z")
        empty_store(machine)
        machine.write("root/yes", "yes\n")
        machine.does(find_block("goshelf-restore\n").replace("goshelf-restore last", "goshelf-restore last < yes"))
        machine.does("systemctl stop goshelf")
        found = ask_store(machine.store, f"{LIB}/v1.1.0.zip", f"{LIB}/list")
        assert found == [(200, SECRET), (200, b"v1.0.0\nv1.1.0\nv1.2.0\n")]


class TestQueries:
    """What goshelf prints of the store, and sqlite3 of a copy."""

    # words of a query of the page, and the rows that it prints first
    ROWS = {
        "ORDER BY id DESC LIMIT 20": [["common", "example.com/base", "v0.1.0"], ["beta", "example.com/lib", "v1.1.0"]],
        "AS zip_bytes": [
            ["common", "1", "24", "200000"],
            ["alpha", "3", "69", str(3 + len(SECRET) + 5)],
            ["beta", "1", "23", "10"],
        ],
    }

    @pytest.fixture(scope="class")
    def machine(self) -> Iterator[Machine]:
        """A machine with two backups."""
        with opened_machine() as machine:
            made = name_backup(machine, "2020-01-09T031500Z")
            shutil.copytree(made, f"{os.path.dirname(made)}/2020-01-10T031500Z")
            yield machine

    @pytest.mark.parametrize("words", ROWS)
    def test_query_of_a_copy(self, machine: Machine, words: str) -> None:
        copy = f"{machine.folder}/var/backups/goshelf/2020-01-09T031500Z/shelves.db"
        printed = machine.does(block("sh", words).replace("COPY", copy))
        lines = [line.strip("│\n").split("│") for line in printed.splitlines() if line.startswith("│")]
        _, *rows = [[cell.strip() for cell in line] for line in lines]
        wanted = self.ROWS[words]
        assert [row[: len(want)] for row, want in zip(rows, wanted)] == wanted, printed

    def test_who_has_keys_and_which_shelves_there_are(self, machine: Machine) -> None:
        publishers = {"alpha": ALPHA, "beta": BETA, "common": COMMON, "gamma": MEMBER, "platform": GROUP}
        rights = [*((shelf, "publish", key) for shelf, key in publishers.items()), ("alpha", "read", READER)]
        sums = [hashlib.sha256(key.encode()).hexdigest() for _, _, key in rights]
        keys = sorted(f"{shelf} {right} {text[:16]} {text}" for (shelf, right, _), text in zip(rights, sums))
        shelves = ["alpha team", "beta team", "common common", "gamma team platform", "platform group"]
        assert machine.does(block("sh", "goshelf key-list")).splitlines() == keys + shelves

    def test_the_first_backup_that_has_a_version(self, machine: Machine) -> None:
        printed = machine.does(block("sh", "/versions | head"))
        assert printed.endswith("/2020-01-09T031500Z/versions\n")

    def test_the_shelves_that_have_a_module_in_the_backups(self, machine: Machine) -> None:
        lines = machine.does(block("sh", "/versions | sort -u")).splitlines()
        assert [line.split("|")[0] for line in lines] == ["alpha"] * 3 + ["beta"]


def test_an_extract_has_what_its_team_sees(machine: Machine) -> None:
    machine.does(block("sh", "goshelf extract", "DEPLOYMENTS.md"))
    own = f"{machine.folder}/root/alpha.db"
    assert is_running(machine)
    found = ask_store(own, f"{LIB}/list", f"{LIB}/v1.0.0.zip", "example.com/base/@v/list")
    assert found == [(200, b"v1.0.0\nv1.1.0\nv1.2.0\n"), (200, b"one"), (200, b"v0.1.0\n")]
    assert ask_store(own, f"{LIB}/list", key=BETA) == [(404, b"not found\n")], "another team reads it"


def test_a_store_without_sums_gets_them_by_a_backup(machine: Machine) -> None:
    machine.does("systemctl stop goshelf")
    plain = f"{machine.folder}/root/plain.db"
    machine.does(f"sqlite3 {machine.store} .dump | sqlite3 {plain}")
    remove_store(machine.store)
    shutil.copy(plain, machine.store)
    machine.does("systemctl start goshelf")
    assert is_running(machine) and not has_sums(machine.store)
    before = rows_of(plain)
    machine.does(block("sh", "&& goshelf-restore last").replace("restore last", "restore --yes last"))
    machine.does("systemctl stop goshelf")
    assert rows_of(machine.store) == before
    assert has_sums(machine.store) and wrong_sums(machine.store) == []


@pytest.mark.parametrize("tables", [SCHEMA_1, SCHEMA_2], ids=["schema 1", "schema 2"])
def test_a_store_of_an_older_schema_is_migrated(machine: Machine, tables: str) -> None:
    machine.does("systemctl stop goshelf")
    remove_store(machine.store)
    change(machine.store, *([statement] for statement in filter(str.strip, tables.split(";"))))
    before = read(machine.store)
    assert list_versions(machine.store) == BAD_SCHEMA
    printed = machine.does(block("sh", "goshelf migrate").replace("KEY", ALPHA))
    assert is_running(machine)
    header = "path,version,shelf,class,time,mod_bytes,zip_bytes\n"
    assert printed == f"{header}example.com/lib,v1.0.0,common,release,,23,1\n"
    machine.does("systemctl stop goshelf")
    joined = run(["team-add", "--db", machine.store, "--team", "eps", "--group", "alpha"])
    assert joined == (1, b"", "goshelf: no-group\n"), "a team of an older store became a group"
    assert read(f"{machine.folder}/var/lib/goshelf/older/shelves.db") == before


class TestTables:
    """What sqlite3 does with the tables of a store while goshelf is stopped."""

    @pytest.fixture
    def stopped(self, machine: Machine) -> Machine:
        machine.does("systemctl stop goshelf")
        return machine

    @pytest.fixture
    def other(self, stopped: Machine) -> str:
        """A file with the store's tables in another order."""
        file = f"{stopped.folder}/root/other.db"
        stopped.does(f"sqlite3 {stopped.store} 'PRAGMA wal_checkpoint(TRUNCATE)'")
        reordered(file, stopped.store)
        return file

    @pytest.fixture
    def taken(self, stopped: Machine, other: str) -> str:
        """A store with the rows of that file."""
        file = f"{stopped.folder}/root/taken.db"
        script = block("sh", "goshelf init --db NEW", "REFERENCE.md")
        stopped.does(script.replace("NEW", file).replace("'F'", f"'{other}'"))
        return file

    def test_a_zip_is_read(self, stopped: Machine) -> None:
        script = block("sh", "xxd -r -p", "REFERENCE.md").rstrip()
        words = {"'P'": "'example.com/base'", "'V'": "'v0.1.0'", "'alpha'": "'common'", " F ": f" {stopped.store} "}
        for word, own in words.items():
            script = script.replace(word, own)
        stopped.does(f"{script} > zip.out")
        assert read(f"{stopped.folder}/root/zip.out") == b"four" * 50_000

    def test_tables_in_another_order_are_no_store(self, other: str) -> None:
        assert list_versions(other) == BAD_SCHEMA

    def test_their_rows_are_taken_over(self, stopped: Machine, taken: str) -> None:
        status, listed, _ = list_versions(taken)
        assert status == 0
        assert listed == list_versions(stopped.store)[1]
        joined = run(["team-add", "--db", taken, "--team", "eps", "--group", "platform"])
        assert joined == (0, b"", ""), "no group was taken over"

    def test_a_page_that_sqlite3_wrote_gets_its_sum(self, stopped: Machine, taken: str) -> None:
        listed = list_versions(taken)
        stopped.does(f"sqlite3 {taken} \"INSERT INTO shelf VALUES ('zeta', 'common')\"")
        assert list_versions(taken) == BAD_SCHEMA
        shelves = stopped.does(block("sh", "F VACUUM", "REFERENCE.md").replace(" F", f" {taken}"))
        assert "zeta team\n" in shelves
        assert list_versions(taken) == listed

    def test_a_publish_needs_a_free_row_number(self, stopped: Machine, taken: str) -> None:
        ends = (
            "UPDATE version SET id = {0} WHERE id = (SELECT {1}(id) FROM version); UPDATE piece SET version = {0} WHERE"
            " version = (SELECT {1}(version) FROM piece)"
        )
        for number, which in ((2**63 - 1, "max"), (-(2**63), "min")):
            change(taken, *([statement] for statement in ends.format(number, which).split(";")))
        last = Published(ALPHA, "example.com/lib", "v1.4.0", b"last")
        assert publish(taken, last) == "503 unavailable"
        stopped.does(block("sh", "UPDATE version SET id = 0", "REFERENCE.md").replace(" F ", f" {taken} "))
        assert publish(taken, last) == "201 published"
