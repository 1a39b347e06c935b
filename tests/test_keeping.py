"""goshelf-backup, goshelf-restore and goshelf-forget, used and misused: nothing is lost but what was asked for.

The commands run on a machine in a folder (lib/machine.py), with the store of lib/operating.py.
"""

import os
import re
import shutil
from collections.abc import Iterator
from typing import NamedTuple

import pytest

from lib.machine import Machine
from lib.operating import (
    ALPHA,
    BETA,
    PUBLISHED,
    READER,
    SECRET,
    TIME,
    Published,
    ask_store,
    empty_store,
    is_running,
    list_backups,
    opened_machine,
    publish,
)
from lib.pages import block
from lib.scratch import read, write
from lib.stores import remove_store
from lib.tables import change

pytestmark = [pytest.mark.root, pytest.mark.needs("sqlite3", "curl", "flock", "setpriv")]

# a command `goshelf-front`, which replaces the one that needs an nginx: it notes that it was to reset the caches
UNCACHE = '#!/bin/sh\n[ "$*" != uncache ] || echo >> @/root/uncached\n'
OLDER = [f"2020-01-{day:02}T031500Z" for day in (1, 2, 3)]
BUSY = "another goshelf-backup, goshelf-restore or goshelf-forget has not ended"
# words of goshelf-restore, the status that they get, and what is said; `night` is empty
RESTORES = (
    ('"$night"', 2, "usage: goshelf-restore"),
    ('--yes "$night"', 2, "goshelf-restore: BACKUP is empty\n"),
    ("--yes 2020-13-01T031500Z", 1, "there is no backup 2020-13-01"),
    ("--yes ..", 1, "there is no backup .."),
    ("--yes .", 1, "there is no backup ."),
    ("--force last", 2, "usage:"),
    ("last --yes", 2, "usage:"),
    ("--yes", 2, "usage:"),
    ("last", 1, "nothing was changed"),
    ("last < yess", 1, "nothing was changed"),
)
# what happens to keys after the backups
NEW_KEY, OMEGA = "alphanewkey00001", "omegakey00000001"
KEYS_SINCE = f"""set -- --control /run/goshelf/control
goshelf key-revoke "$@" --key {READER}
goshelf key-add "$@" --shelf alpha --key {NEW_KEY}
goshelf team-add "$@" --team omega
goshelf key-add "$@" --shelf omega --key {OMEGA}"""
LATE, LATE_LINE = (
    Published(BETA, "example.com/late", "v1.0.0", b"late"),
    f"beta|example.com/late|v1.0.0|{TIME}",
)
# what leaked, and words of goshelf-forget, as above
LEAKED = "alpha example.com/lib v1.1.0"
FORGETS = (
    ("", 2, "usage:"),
    ("alpha example.com/lib", 2, "usage:"),
    (f"--force {LEAKED}", 2, "usage:"),
    (f"{LEAKED} --yes", 2, "usage:"),
    ("--yes '' '' ''", 2, "goshelf-forget: SHELF is empty\n"),
    ("--yes alpha '' v1.1.0", 2, "goshelf-forget: MODULE is empty\n"),
    ("--yes alpha example.com/lib ''", 2, "goshelf-forget: VERSION is empty\n"),
    ("--yes alpha example.com/!lib v1.1.0", 1, "write capitals as such"),
    ("--yes alpha \"x' OR '1'='1\" v1.1.0", 1, "no module has the path"),
    ("--yes alpha example.com/lib %", 1, "'%' is not a version"),
    ("--yes alpha example.com/lbi v1.1.0", 1, "Nothing was taken out"),
    ("--yes alpha example.com/lib v1.1.1", 1, "alpha example.com/lib v1.1.0\n"),
    ("--yes alpha example.com/Lib v1.1.0", 1, "alpha example.com/lib v1.1.0\n"),
    ("--yes gamma example.com/lib v1.1.0", 1, "beta example.com/lib v1.1.0\n"),
    (LEAKED, 1, "these are not the same words"),
    (f"{LEAKED} < other", 1, "these are not the same words"),
    (f"{LEAKED} < yess", 1, "these are not the same words"),
)
# files of what an operator types
TYPED = {"yes": "yes", "yess": "yess", "other": f"{LEAKED[:-1]}1", "words": LEAKED}


def add_front(machine: Machine) -> None:
    """Gives a machine files of what is typed, a front of nginx, and an entry of its cache."""
    for name, text in TYPED.items():
        machine.write(f"root/{name}", f"{text}\n")
    machine.write("etc/nginx/conf.d/goshelf.conf", "")
    machine.command("goshelf-front", UNCACHE)
    machine.write("var/cache/nginx/goshelf/1/ab/entry", "KEY: alpha /example.com/lib/@v/v1.1.0.zip\n")


def add_backups(machine: Machine) -> None:
    """Makes the three older backups."""
    at = f"{machine.folder}/var/backups/goshelf"
    machine.does("goshelf-backup")
    (made,) = list_backups(machine)
    for name in OLDER:
        shutil.copytree(f"{at}/{made}", f"{at}/{name}")
    shutil.rmtree(f"{at}/{made}")


@pytest.fixture
def machine() -> Iterator[Machine]:
    """A machine with three older backups."""
    with opened_machine() as machine:
        add_front(machine)
        add_backups(machine)
        yield machine


class State(NamedTuple):
    """What a command that is refused leaves as it was."""

    store: bytes
    beside: list[str]
    backups: list[str]
    is_running: bool


def look_at(machine: Machine) -> State:
    beside = sorted(os.listdir(f"{machine.folder}/var/lib/goshelf"))
    return State(read(machine.store), beside, list_backups(machine), is_running(machine))


def list_aside(folder: str) -> list[str]:
    """Returns the folders of what a command set aside."""
    return [f"{folder}/{name}" for name in os.listdir(folder) if name.startswith("aside-")]


class TestBackups:
    """goshelf-backup."""

    @pytest.fixture
    def new(self) -> Iterator[Machine]:
        """A machine without backups."""
        with opened_machine() as machine:
            yield machine

    def test_the_second_of_two_at_once_is_refused(self, new: Machine) -> None:
        slow = "order_copy "
        new.edit("usr/local/bin/goshelf-backup", (slow, f"sleep 1; {slow}"))
        both = "goshelf-backup & sleep 0.5; set +e; goshelf-backup stop; echo $?; wait $!; echo $?"
        assert new.does(both).splitlines() == [f"goshelf-backup: {BUSY}", "1", "0"]
        assert len(list_backups(new)) == 1

    def test_two_in_one_second_have_names_of_their_own(self, new: Machine) -> None:
        new.command("date", "#!/bin/sh\necho 2019-01-01T000000Z\n")
        new.does("(sleep 2; rm /usr/local/bin/date) & goshelf-backup; goshelf-backup; wait")
        names = list_backups(new)
        assert (len(names), names[0]) == (2, "2019-01-01T000000Z")
        at = f"{new.folder}/var/backups/goshelf"
        assert [sorted(os.listdir(f"{at}/{name}")) for name in names] == [["shelves.db", "versions"]] * 2

    def test_a_backup_waits_while_goshelf_makes_another_copy(self, new: Machine) -> None:
        with new.busy(2):
            assert new.sh("goshelf-backup") == (0, "", "")
        assert len(list_backups(new)) == 1


class TestRefusedBackups:
    @pytest.fixture(scope="class")
    def machine(self) -> Iterator[Machine]:
        with opened_machine() as machine:
            add_backups(machine)
            yield machine

    @pytest.mark.parametrize("words", ["--keep", "now", "''", "stop stop"])
    def test_wrong_words(self, machine: Machine, words: str) -> None:
        assert machine.sh(f"goshelf-backup {words}")[:2] == (2, "")
        assert list_backups(machine) == OLDER

    @pytest.mark.parametrize("unit, said", [("other", "there is no folder"), ("../lib", "no unit has the name ../lib")])
    def test_a_unit_that_is_not_there(self, machine: Machine, unit: str, said: str) -> None:
        status, printed, _ = machine.sh(f"GOSHELF_UNIT={unit} goshelf-backup")
        assert status == 1 and said in printed
        assert list_backups(machine) == OLDER

    def test_help(self, machine: Machine) -> None:
        assert machine.does("goshelf-backup --help").startswith("usage: goshelf-backup")


class TestRefusedRestores:
    """goshelf-restore over a store that has lost all."""

    @pytest.fixture(scope="class")
    def machine(self) -> Iterator[Machine]:
        with opened_machine() as machine:
            add_front(machine)
            add_backups(machine)
            empty_store(machine)
            yield machine

    def test_without_words_it_lists_the_backups(self, machine: Machine) -> None:
        lines = machine.does("goshelf-restore").splitlines()
        assert [line.partition(":")[0] for line in lines] == OLDER
        assert all(re.fullmatch(r"\S+: 5 versions, \d+ MiB", line) for line in lines), lines

    @pytest.mark.parametrize("words, wanted, said", RESTORES, ids=[words for words, *_ in RESTORES])
    def test_words(self, machine: Machine, words: str, wanted: int, said: str) -> None:
        before = look_at(machine)
        status, _, errors = machine.sh(f"goshelf-restore {words}", night="")
        assert status == wanted and said in errors
        assert look_at(machine) == before

    def test_help(self, machine: Machine) -> None:
        assert machine.does("goshelf-restore --help").startswith("usage: goshelf-restore")

    def test_a_unit_that_is_none(self, machine: Machine) -> None:
        status, _, errors = machine.sh("GOSHELF_UNIT=../lib goshelf-restore last < yess")
        assert status == 1 and "no unit has the name ../lib" in errors

    @pytest.mark.parametrize("content", [b"x" * 9_000, b""], ids=["no store", "an empty file"])
    def test_a_backup_that_is_no_store(self, machine: Machine, content: bytes) -> None:
        before, broken = look_at(machine), f"{machine.folder}/var/backups/goshelf/2021-01-01T031500Z"
        os.mkdir(broken)
        write({f"{broken}/shelves.db": content, f"{broken}/versions": ""})
        status, _, errors = machine.sh("goshelf-restore --yes 2021-01-01T031500Z")
        shutil.rmtree(broken)
        assert status == 1 and ("is no store" in errors or "goshelf refuses" in errors)
        assert look_at(machine) == before

    def test_while_another_command_has_the_lock(self, machine: Machine) -> None:
        status, _, errors = machine.sh(f"flock {machine.folder}/var/backups/goshelf goshelf-restore --yes last")
        assert status == 1 and BUSY in errors

    def test_a_store_with_a_text_in_the_place_of_a_key(self) -> None:
        """The text is no command to the sqlite3 that gets the keys."""
        with opened_machine() as machine:
            add_backups(machine)
            machine.does("systemctl stop goshelf")
            text = f"x', 'alpha', 0);\n.shell touch {machine.folder}/root/ran\n--"
            change(machine.store, ["INSERT INTO access (token, shelf, publish) VALUES (?, 'alpha', 0)", text])
            status, _, errors = machine.sh("goshelf-restore --yes last")
            assert status == 1 and "goshelf refuses " in errors
            assert not os.path.exists(f"{machine.folder}/root/ran")


def list_late(machine: Machine) -> str:
    """Returns the list of what beta published after the backups."""
    return machine.does(f"curl -s http://127.0.0.1:8080/k/{BETA}/example.com/late/@v/list")


class TestRestores:
    """goshelf-restore over a store that has more than its backups."""

    @pytest.fixture
    def late(self, machine: Machine) -> Machine:
        """A machine whose store has one more version."""
        machine.does("systemctl stop goshelf")
        assert publish(machine.store, LATE) == "201 published"
        machine.does("systemctl start goshelf")
        return machine

    def test_the_last_backup_replaces_a_store_that_has_lost_all(self, machine: Machine) -> None:
        empty_store(machine)
        before = read(machine.store)
        status, printed, _ = machine.sh("goshelf-restore last < yes")
        assert status == 0
        assert f"The keys are those of {OLDER[-1]}. " in printed
        assert f"{OLDER[-1]} lacks 0 versions:" in printed
        assert is_running(machine)
        aside = list_aside(f"{machine.folder}/var/lib/goshelf")
        assert [read(f"{folder}/shelves.db") for folder in aside] == [before]
        assert list_backups(machine) == OLDER
        assert machine.read("root/uncached") == "\n", "the caches did not begin anew"

    def test_the_store_stays_where_the_caches_cannot_begin_anew(self, late: Machine) -> None:
        late.command("goshelf-front", "#!/bin/sh\nexit 1\n")
        status, _, errors = late.sh("goshelf-restore --yes last")
        assert status == 1 and "the caches would answer" in errors
        assert is_running(late)
        assert list_late(late) == "v1.0.0\n"

    def test_the_store_stays_where_goshelf_does_not_start(self, late: Machine) -> None:
        flag = f"{late.folder}/root/started"
        once = f'start)\n    [ -e "{flag}" ] || {{ touch "{flag}"; exit 1; }}\n'
        text = late.read("usr/local/bin/systemctl")
        late.write("usr/local/bin/systemctl", text.replace("start)\n", once, 1))
        status, _, errors = late.sh("goshelf-restore --yes last")
        assert os.path.exists(flag)
        assert status == 1 and "the store is as it was" in errors
        assert is_running(late)
        assert list_late(late) == "v1.0.0\n"
        assert late.read("root/uncached") == "\n"

    def test_an_older_backup_lacks_what_was_published_since(self, late: Machine) -> None:
        status, printed, _ = late.sh(f"goshelf-restore --yes {OLDER[0]}")
        assert status == 0 and f"{OLDER[0]} lacks 1 versions:\n{LATE_LINE}\n" in printed
        assert is_running(late)
        assert list_late(late) == "not found\n"
        assert late.does("cat /var/lib/goshelf/aside-*/lost") == f"{LATE_LINE}\n"
        assert late.read("root/uncached") == "\n"

    def test_the_backups_after_an_older_one_are_set_aside(self, late: Machine) -> None:
        late.does(f"goshelf-restore --yes {OLDER[0]}")
        at = f"{late.folder}/var/backups/goshelf"
        assert [sorted(os.listdir(folder)) for folder in list_aside(at)] == [OLDER[1:]]
        assert list_backups(late) == OLDER[:1]
        assert late.sh("goshelf-backup") == (0, "", "")

    def test_the_keys_stay_those_of_the_store(self, machine: Machine) -> None:
        machine.does(KEYS_SINCE)
        printed = machine.does(f"goshelf-restore --yes {OLDER[0]}")
        assert f"\n{OLDER[0]} lacks a shelf and its keys: omega\n" in printed
        assert "The keys are those" not in printed
        ask = "curl -s -o /dev/null -w '%{http_code}' http://127.0.0.1:8080/k/KEY/-/modules"
        statuses = {key: machine.does(ask.replace("KEY", key)) for key in (ALPHA, READER, NEW_KEY, OMEGA)}
        assert statuses == {ALPHA: "200", READER: "404", NEW_KEY: "200", OMEGA: "404"}

    def test_a_store_that_cannot_be_read_is_replaced(self, machine: Machine) -> None:
        machine.does("systemctl stop goshelf")
        remove_store(machine.store)
        write({machine.store: b"x" * 9_000})
        status, printed, _ = machine.sh("goshelf-restore --yes last")
        assert status == 0 and "The store cannot be read" in printed
        assert is_running(machine)
        assert machine.read("root/uncached") == "\n"


class TestRefusedForgets:
    @pytest.fixture(scope="class")
    def machine(self) -> Iterator[Machine]:
        with opened_machine() as machine:
            add_front(machine)
            add_backups(machine)
            yield machine

    @pytest.mark.parametrize("words, wanted, said", FORGETS, ids=[words or "no words" for words, *_ in FORGETS])
    def test_words(self, machine: Machine, words: str, wanted: int, said: str) -> None:
        before = look_at(machine)
        status, _, errors = machine.sh(f"goshelf-forget {words}", night="")
        assert status == wanted and said in errors
        assert look_at(machine) == before

    def test_help(self, machine: Machine) -> None:
        assert machine.does("goshelf-forget --help").startswith("usage: goshelf-forget")

    def test_a_unit_that_is_none(self, machine: Machine) -> None:
        status, _, errors = machine.sh(f"GOSHELF_UNIT=../lib goshelf-forget {LEAKED} < yess")
        assert status == 1 and "no unit has the name ../lib" in errors

    def test_while_another_command_has_the_lock(self, machine: Machine) -> None:
        status, _, errors = machine.sh(f"flock {machine.folder}/var/backups/goshelf goshelf-forget --yes {LEAKED}")
        assert status == 1 and BUSY in errors


class TestForgets:
    """A version that is taken out is gone, from the store's bytes too, and nothing else is."""

    @pytest.fixture
    def printed(self, machine: Machine) -> str:
        """What goshelf-forget prints."""
        return machine.does(f"{block('sh', 'goshelf-forget alpha').strip()} < words")

    def test_it_shows_what_it_takes_out(self, machine: Machine, printed: str) -> None:
        assert printed.startswith(f"{LEAKED}: published")
        assert f"a go.mod of 23 bytes, a zip of {len(SECRET)} bytes\nbeta has this version too" in printed
        assert os.listdir(f"{machine.folder}/var/cache/nginx/goshelf/1/ab") == [], "the cache is not empty"
        status, _, errors = machine.sh(f"goshelf-forget --yes {LEAKED}")
        assert status == 1 and "Nothing was taken out" in errors

    def test_the_backups_that_have_it_are_set_aside(self, machine: Machine, printed: str) -> None:
        aside = [sorted(os.listdir(folder)) for folder in list_aside(f"{machine.folder}/var/backups/goshelf")]
        assert OLDER in aside
        assert list_backups(machine) == []
        assert "3 backups have the version" in printed
        assert machine.sh("goshelf-backup") == (0, "", "")
        assert len(list_backups(machine)) == 1

    def test_the_store_lacks_it_and_nothing_else(self, machine: Machine, printed: str) -> None:
        machine.does("systemctl stop goshelf")
        at, gone = "example.com/lib/@v", (404, b"not found\n")
        wanted = {f"{at}/v1.1.0.zip": gone, f"{at}/v1.1.0.mod": gone, f"{at}/list": (200, b"v1.0.0\nv1.2.0\n")}
        wanted |= {f"{at}/{row.version}.zip": (200, row.zipped) for row in (PUBLISHED[0], PUBLISHED[2])}
        wanted |= {"example.com/base/@v/v0.1.0.zip": (200, PUBLISHED[4].zipped)}
        assert dict(zip(wanted, ask_store(machine.store, *wanted))) == wanted
        others = ask_store(machine.store, f"{at}/v1.1.0.zip", key=BETA)
        assert others == [(200, PUBLISHED[3].zipped)], "another team lacks its own"
        files = [name for name in (machine.store, f"{machine.store}-wal") if os.path.exists(name)]
        held = b"".join(map(read, files))
        pages = [SECRET[start : start + 64] for start in range(0, len(SECRET), 4096)]
        assert not any(page in held for page in pages), "a page of it is in the store"
        after = Published(ALPHA, "example.com/lib", "v1.3.0", b"next")
        assert publish(machine.store, after) == "201 published"
