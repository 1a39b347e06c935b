"""`serve` is killed while it copies: the copy is whole or empty, and nothing that was acknowledged is lost.

The kills (SIGKILL) come at random moments of a copy, while versions are published and keys are added, one after
another. After each both stores are opened. The served one has all that was acknowledged. The copy is empty, or it is
the served store of one moment: it has all that was acknowledged before the order, and a beginning of what came
meanwhile. A copy that is empty is copied into again. --long has 200 kills; GOSHELF_SEED=N repeats the random moments of
a run.
"""

import shutil
import subprocess
import threading
import time
from collections.abc import Iterator
from typing import NamedTuple

import pytest

from lib.keys import KEY
from lib.kills import RANDOM, fetch, files_of, kill_after, print_seed, publish
from lib.messages import get
from lib.program import answered, run
from lib.runs import Ending
from lib.scratch import entered_folder
from lib.servers import CONTROL, Server
from lib.stores import new_store, remove_store

SHORT, LONG = 20, 200
# how many versions and keys a store has at first, and from how many on another one is begun
FIRST, MOST = 120, 200
DONE: Ending = (0, b"", "")


def pytest_generate_tests(metafunc: pytest.Metafunc) -> None:
    if "turn" in metafunc.fixturenames:
        metafunc.parametrize("turn", range(LONG if metafunc.config.getoption("--long") else SHORT))


def key_of(number: int) -> str:
    return f"key{number:013}"


def is_key(number: int) -> bool:
    """Whether the change of a number adds a key; the others publish a version."""
    return number % 4 == 3


def make_change(server: Server, number: int) -> bool:
    """Publishes the version of a number or adds its key. Returns whether that was acknowledged."""
    if is_key(number):
        return server.order(f"key-add alpha {key_of(number)}\n".encode()) == b"done\n"
    return server.status(publish(number)) == 201


class Changes:
    """Changes, one after another, until the server is killed. `begun` were begun, and `ended` acknowledged."""

    def __init__(self, server: Server, first: int) -> None:
        self.server, self.begun, self.ended, self.is_over = server, first, first, False
        self.thread = threading.Thread(target=self.run)
        self.thread.start()

    def run(self) -> None:
        while not self.is_over:
            self.begun += 1
            try:
                if not make_change(self.server, self.ended):
                    return
            except (OSError, IndexError):
                return
            self.ended += 1

    def stop(self) -> None:
        self.is_over = True
        self.thread.join()


def requests_of(number: int) -> list[bytes]:
    """Returns the requests whose replies show whether a store has the change of a number."""
    if is_key(number):
        return [get("-/modules", key_of(number))]
    return [fetch(number, "mod"), fetch(number, "zip")]


def count_changes(store: str, count: int) -> tuple[int, str]:
    """Returns how many of the first `count` changes a store has, all up to one, and what is wrong with that, or
    nothing."""
    requests = [requests_of(number) for number in range(count)]
    replies = iter(answered(["--db", store], sum(requests, [])))
    is_there = []
    for number, asked in enumerate(requests):
        found = [next(replies) for _ in asked]
        statuses = {status for status, _ in found}
        is_whole = is_key(number) or [body for _, body in found] == list(files_of(number))
        if statuses not in ({200}, {404}) or (statuses == {200} and not is_whole):
            return 0, f"change {number} is there in part"
        is_there.append(statuses == {200})
    first = is_there.index(False) if False in is_there else count
    return first, f"change {first} is missing, and a later one is there" if any(is_there[first:]) else ""


def is_empty(store: str) -> bool:
    """Whether a store, which may be missing, has only `common`."""
    lists = [run([name, "--db", store]) for name in ("shelf-list", "key-list")]
    return lists == [(0, b"common common\n", ""), DONE]


def find_wrong_copy(to: str, ending: Ending, least: int, begun: int) -> tuple[str, bool]:
    """Returns what is wrong with a copy that ended so, or nothing, and whether it is whole. At the order `least`
    changes were acknowledged, and at its end this many were begun."""
    if is_empty(to):
        return "it is empty" if ending == DONE else "", False
    count, wrong = count_changes(to, begun)
    return wrong or ("" if least <= count <= begun else f"it has {count} changes, of {least} to {begun}"), True


class Killed(NamedTuple):
    """A kill during a copy: how the copy ended and after how long, how many changes were acknowledged before the
    order, and how many were begun at its end."""

    ending: Ending
    seconds: float
    least: int
    begun: int


class Served:
    """A store that is served, killed and served again."""

    def __init__(self, store: str) -> None:
        self.store, self.count, self.begun = store, FIRST, FIRST
        for end in ("", "-wal"):
            shutil.copyfile(f"first.db{end}", f"{store}{end}")

    def kill(self, to: str, wait: float) -> Killed:
        """Kills its server some time after a copy is ordered."""
        with Server(self.store, CONTROL, errors=subprocess.DEVNULL) as server:
            changes = Changes(server, self.count)
            time.sleep(RANDOM.random() / 20)
            least, timer, ordered = changes.ended, kill_after(server.child, wait), time.monotonic()
            ending, begun = run(["copy", "--control", CONTROL, "--to", to]), changes.begun
            seconds = time.monotonic() - ordered
            timer.join()
            changes.stop()
        self.count, self.begun = changes.ended, changes.begun
        return Killed(ending, seconds, least, begun)

    def find_wrong(self) -> str:
        """Opens the store again. Returns what it lost, or nothing."""
        count, wrong = count_changes(self.store, self.begun)
        lost = "" if self.count <= count else f"{self.count} changes were acknowledged, and it has {count}"
        self.count = count
        return wrong or lost


def time_a_copy() -> float:
    """Makes the first store. Returns the seconds of its copy, while more is published."""
    new_store("first.db", ("alpha", KEY))
    with Server("first.db", CONTROL, errors=subprocess.DEVNULL) as server:
        assert all(make_change(server, number) for number in range(FIRST))
    served = Served("timed.db")
    with Server(served.store, CONTROL, errors=subprocess.DEVNULL) as server:
        changes, begun = Changes(server, FIRST), time.monotonic()
        assert run(["copy", "--control", CONTROL, "--to", "timed-copy.db"]) == DONE
        seconds = time.monotonic() - begun
        changes.stop()
    return seconds


class Kills:
    """Kills at random moments of copies. `served` and `copies` have what was wrong after each, or nothing."""

    def __init__(self, count: int) -> None:
        self.served: list[str] = []
        self.copies: list[str] = []
        self.whole = 0
        seconds, store, to = time_a_copy(), None, ""
        for turn in range(count):
            if not store or store.count > MOST:
                store = Served(f"served{turn}.db")
            to = to or f"copy{turn}.db"
            killed = store.kill(to, 1.2 * seconds * RANDOM.random())
            # (a busy machine copies now slowly, now fast)
            seconds = killed.seconds if killed.ending == DONE else 1.1 * seconds
            self.served.append(store.find_wrong())
            wrong, is_whole = find_wrong_copy(to, killed.ending, killed.least, killed.begun)
            self.copies.append(f"{wrong}, and ended with {killed.ending}" if wrong else "")
            self.whole += is_whole
            if is_whole:
                remove_store(to)
                to = ""
            if self.served[-1]:
                store = None


@pytest.fixture(scope="module")
def kills(is_long: bool) -> Iterator[Kills]:
    print_seed()
    with entered_folder():
        yield Kills(LONG if is_long else SHORT)


def test_served_store_loses_nothing(kills: Kills, turn: int) -> None:
    assert kills.served[turn] == ""


def test_copy_is_whole_or_empty(kills: Kills, turn: int) -> None:
    assert kills.copies[turn] == ""


def test_some_copies_are_whole_and_some_are_not(kills: Kills) -> None:
    assert 0 < kills.whole < len(kills.copies)
