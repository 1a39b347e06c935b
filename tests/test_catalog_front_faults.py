"""goshelf-catalog, misused or broken: a sentence says why, the pages stay, and goshelf has no key more."""

import fcntl
import os
import re
from collections.abc import Callable, Iterator
from typing import NamedTuple

import pytest

from lib.catalog_front import AT, USERS, Does, Reader, all_pages, between, list_left, set_up
from lib.front import list_keys
from lib.machine import Machine
from lib.scratch import opened, read

pytestmark = [pytest.mark.root, pytest.mark.needs("flock", "nginx", "nginx-js", "nginx-stream", "openssl", "sqlite3")]

# words that are bad usage
WORDS = ("''", "first", "alpha", "last last", "--last", "--control", "last ''")
# a way to break a run, as a script and the script that mends it, and what is said
BREAKS = (
    ("a unit that is no name", "export GOSHELF_UNIT=../goshelf", "", "no unit has the name ../goshelf"),
    ("a unit without a store", "export GOSHELF_UNIT=other", "", "there is no folder "),
    ("no folder of pages", "mv @AT@ /root/aside", "mv /root/aside @AT@", "install -d -g www-data -m 2750 "),
    ("no tools", "mv /root/tools /root/aside", "mv /root/aside /root/tools", "there is no command "),
    (
        "no users",
        "mv @MAPS@/goshelf.json /root/aside",
        "mv /root/aside @MAPS@/goshelf.json",
        "the users cannot be read",
    ),
    (
        "goshelf is stopped",
        "systemctl stop goshelf",
        "systemctl start goshelf",
        "does not answer: goshelf: device",
    ),
    (
        "no nginx",
        "mv /etc/nginx/conf.d/goshelf.conf /root/aside",
        "mv /root/aside /etc/nginx/conf.d/goshelf.conf",
        "nginx's host is not known: ",
    ),
    ("a folder of the name of the key", "mkdir @AT@/.goshelf.key", "rmdir @AT@/.goshelf.key", "Is a directory"),
    (
        "nothing that asks",
        "mv /root/deploy/shelf_lines.py /root/aside",
        "mv /root/aside /root/deploy/shelf_lines.py",
        "can't open file",
    ),
)


@pytest.fixture(scope="module")
def reader() -> Iterator[Reader]:
    """Users of each shelf, on a machine with their pages."""
    with opened(set_up) as made:
        yield made


class State(NamedTuple):
    """The pages of all shelves, what stands beside the store, and the keys that goshelf has."""

    pages: dict[str, dict[str, bytes]]
    beside: list[str]
    keys: str


def state_of(reader: Reader) -> State:
    return State(all_pages(reader), list_left(reader), list_keys(reader.machine))


@pytest.fixture
def machine(reader: Reader) -> Iterator[Machine]:
    """The machine, whose next goshelf-catalog makes all pages. In the end all is as it was."""
    before = state_of(reader)
    reader.machine.does(f"rm -f /{AT}/goshelf.state")
    yield reader.machine
    assert state_of(reader) == before, "the pages stay, and nothing more is left"


@pytest.mark.parametrize("words", WORDS)
def test_wrong_words_are_bad_usage(machine: Machine, words: str) -> None:
    made = machine.sh(f"goshelf-catalog {words}")
    assert made[:2] == (2, "") and "usage: " in made[2], made


@pytest.mark.parametrize(("name", "breaks", "mends", "error"), BREAKS, ids=[row[0] for row in BREAKS])
def test_what_is_missing_is_named(machine: Machine, name: str, breaks: str, mends: str, error: str) -> None:
    places = {"@AT@": f"/{AT}", "@MAPS@": "/etc/nginx/goshelf"}
    breaks, mends = (re.sub("@[A-Z]+@", lambda place: places[place[0]], script) for script in (breaks, mends))
    made = machine.sh(f"{breaks}\ngoshelf-catalog")
    machine.does(mends)
    assert made[:2] == (1, "") and error in made[2], made


def test_second_run_ends(machine: Machine) -> None:
    held = os.open(f"{machine.folder}/var/lib/goshelf", os.O_RDONLY)
    fcntl.flock(held, fcntl.LOCK_EX)
    made = machine.sh("goshelf-catalog")
    os.close(held)
    assert made == (1, "another goshelf-catalog has not ended\n", "")


def at_beta(verb: str, does: Callable[[int], bytes | None]) -> Does:
    """Returns what `between` does with the orders of this verb for beta or its key: what `does` says of their
    sender."""
    keys = {"beta"}

    def find(order: list[str], sender: int) -> bytes | None:
        if order[:2] == ["reader-add", "beta"]:
            keys.add(order[2])
        return does(sender) if order[0] == verb and keys & {*order} else None

    return find


def parent_of(number: int) -> int:
    return int(read(f"/proc/{number}/stat").rpartition(b")")[2].split()[1])


# what befalls the orders for beta, as a name, the verb, what is done, and what is said
BEFALLS = (
    ("goshelf prints nothing", "catalog", lambda _: b"device\n", "beta: goshelf does not print what it sees: device"),
    ("goshelf ends", "catalog", lambda _: b'{"Path":"example.com/a"}\n', "what it sees: the reply was cut off"),
    ("goshelf ends at once", "catalog", lambda _: b"", "what it sees: the reply was cut off"),
    ("goshelf ends in a line", "catalog", lambda _: b"done\n{", "what it sees: the reply was cut off"),
    ("goshelf makes no key", "reader-add", lambda _: b"memory\n", "what it sees: memory"),
    ("the run is stopped", "catalog", lambda it: os.kill(parent_of(it), 15), ""),
    ("what asks is stopped", "catalog", lambda it: os.kill(it, 15), "beta: goshelf does not print what it sees: "),
    ("what asks is killed", "catalog", lambda it: os.kill(it, 9), "beta: goshelf does not print what it sees: "),
)


@pytest.mark.parametrize(("name", "verb", "does", "error"), BEFALLS, ids=[row[0] for row in BEFALLS])
def test_shelf_whose_lines_do_not_come(
    machine: Machine, name: str, verb: str, does: Callable[[int], bytes | None], error: str
) -> None:
    with between(machine, at_beta(verb, does)):
        made = machine.sh("goshelf-catalog")
    assert made[0] == 1 and error in made[2] and "beta: " not in made[1], made


def test_run_waits_for_a_copy_without_a_key(machine: Machine) -> None:
    tries = [b"busy\n", b"busy\n"]
    with between(machine, at_beta("catalog", lambda _: tries.pop() if tries else None)) as asked:
        made = machine.sh("goshelf-catalog")
    assert (made[0], made[2], tries) == (0, "", [])
    verbs = [order.split()[0] for order in asked]
    verbs = [verb for verb in verbs if verb in ("reader-add", "catalog", "key-revoke")]
    # (a key more for the zips of each shelf)
    assert re.fullmatch("(?:reader-add (?:catalog )?key-revoke ?)+", " ".join(verbs))
    assert verbs.count("catalog") == len(USERS) + 2


def kill_run(sender: int) -> None:
    """Kills a run and what asks for it."""
    os.kill(parent_of(sender), 9)
    os.kill(sender, 9)


UNREVOKED = (
    ("a revocation that fails", "key-revoke", lambda _: b"device\n", "is not revoked: device"),
    ("a revocation without a reply", "key-revoke", lambda _: b"", "is not revoked: the reply was cut off"),
    ("a run that is killed", "catalog", kill_run, ""),
)


@pytest.mark.parametrize(("name", "verb", "does", "error"), UNREVOKED, ids=[row[0] for row in UNREVOKED])
def test_key_that_is_not_revoked_is_kept_for_the_next_run(
    machine: Machine, name: str, verb: str, does: Callable[[int], bytes | None], error: str
) -> None:
    path, keys = f"{machine.folder}/{AT}/.goshelf.key", list_keys(machine)
    with between(machine, at_beta(verb, does)):
        made = machine.sh("goshelf-catalog")
    assert made[0] != 0 and error in made[2], made
    key = read(path).decode()
    assert os.stat(path).st_mode & 0o777 == 0o600
    assert len(list_keys(machine)) > len(keys)
    with between(machine) as asked:
        made = machine.sh("goshelf-catalog")
    assert (made[0], made[2], asked[0]) == (0, "", f"key-revoke {key}"), "the next run revokes the key first"


def test_key_is_kept_while_goshelf_is_stopped(machine: Machine) -> None:
    machine.does("systemctl stop goshelf")
    machine.write(f"{AT}/.goshelf.key", "0" * 32)
    made = machine.sh("goshelf-catalog")
    key = machine.read(f"{AT}/.goshelf.key")
    machine.does("systemctl start goshelf")
    machine.does(f"rm /{AT}/.goshelf.key")
    assert key == "0" * 32
    assert made[0] == 1 and "is not revoked: goshelf does not answer: " in made[2], made
    assert "does not answer: goshelf: device" in made[2]


@pytest.mark.parametrize("text", ["", "0" * 31, "0" * 32, "a\nkey-revoke b\n", "\0" * 32], ids=repr)
def test_key_that_goshelf_does_not_have_is_dropped(machine: Machine, text: str) -> None:
    machine.write(f"{AT}/.goshelf.key", text)
    with between(machine) as asked:
        made = machine.sh("goshelf-catalog")
    sent = [f"key-revoke {text}"] if text == "0" * 32 else []
    assert (made[0], made[2], asked[: len(sent)], asked.count("ping")) == (0, "", sent, 1)


def test_folder_of_somebody_s_own_stays(machine: Machine) -> None:
    top = f"{machine.folder}/{AT}"
    os.rename(f"{top}/beta", f"{top}/aside")
    os.mkdir(f"{top}/beta")
    made = machine.sh("goshelf-catalog")
    os.rmdir(f"{top}/beta")
    os.rename(f"{top}/aside", f"{top}/beta")
    assert made[0] == 1 and "beta: " in made[2] and "gamma: " in made[1], made
    made = machine.sh("goshelf-catalog")
    assert made[::2] == (0, "") and "\nbeta: " in made[1], made
