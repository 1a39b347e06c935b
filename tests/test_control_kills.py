"""What `serve --control` acknowledged is there after it is killed.

The server is killed (SIGKILL) at random moments while keys are added, publish and are revoked, at times all of a shelf
in one order. After each kill the store is opened again: each version and key that was acknowledged is there, whole,
each revoked key is unknown, and of the keys of a shelf that were being revoked all are there or none. --long has 1,000
kills; GOSHELF_SEED=N repeats the random moments of a run.
"""

import contextlib
from collections.abc import Iterator
from typing import NamedTuple

import pytest

from lib.keys import KEY, KEYS
from lib.kills import MOST, RANDOM, is_kept, kill_after, print_seed, publish
from lib.messages import get
from lib.program import answered
from lib.scratch import entered_folder
from lib.servers import CONTROL, Server
from lib.stores import new_store

SHORT, LONG = 20, 1_000
# a busy machine acknowledges little in the time, so there are up to so many times as many kills
PATIENCE = 10


def pytest_generate_tests(metafunc: pytest.Metafunc) -> None:
    if "turn" in metafunc.fixturenames:
        metafunc.parametrize("turn", range(LONG if metafunc.config.getoption("--long") else SHORT))


class Wrong(NamedTuple):
    """What a kill lost of each, or nothing."""

    publishes: str
    keys: str
    keys_of_beta: str


class Acknowledged:
    """What a store acknowledged: its publishes, the keys that it added, and those that it revoked."""

    def __init__(self, store: str) -> None:
        new_store(store, ("alpha", KEY), ("beta", KEYS["B"]))
        self.store, self.next_number, self.next_key = store, 0, 0
        self.published: list[int] = []
        self.added: list[str] = []
        self.revoked: list[str] = []
        # the keys of beta, and whether the order to revoke them was sent and not acknowledged
        self.of_beta: list[str] = []
        self.is_revoking_beta = False

    def is_done(self, server: Server, order: str) -> bool:
        return server.order(f"{order}\n".encode()) == b"done\n"

    def new_key(self) -> str:
        """Returns a key that no shelf has."""
        self.next_key += 1
        return f"key{self.next_key:013}"

    def revoke_beta(self, server: Server) -> bool:
        """Adds keys to beta, and revokes them all in one order. Returns whether all was acknowledged."""
        for _ in range(4):
            key = self.new_key()
            if not self.is_done(server, f"reader-add beta {key}"):
                return False
            self.of_beta.append(key)
        self.is_revoking_beta = True
        if not self.is_done(server, "keys-revoke beta"):
            return False
        self.revoked += self.of_beta
        self.of_beta, self.is_revoking_beta = [], False
        return True

    def ask(self, server: Server) -> None:
        """Adds a key, publishes by it and at times revokes it, or all of beta, until the server is killed."""
        while True:
            key = self.new_key()
            if not self.is_done(server, f"key-add alpha {key}"):
                return
            self.added.append(key)
            if server.status(publish(self.next_number, key)) != 201:
                return
            self.published.append(self.next_number)
            self.next_number += 1
            if RANDOM.random() < 0.5:
                self.added.remove(key)
                if not self.is_done(server, f"key-revoke {key}"):
                    return
                self.revoked.append(key)
            if RANDOM.random() < 0.5 and not self.revoke_beta(server):
                return

    def statuses(self, keys: list[str]) -> list[int]:
        """Returns how each key is answered. A key that is there sees its shelf, even if that is empty."""
        return [status for status, _ in answered(["--db", self.store], [get("-/modules", key) for key in keys])]

    def find_wrong_keys(self) -> str:
        """Returns which of the latest keys are answered otherwise than was acknowledged, or nothing."""
        wanted = {key: 200 for key in self.added[-8:]} | {key: 404 for key in self.revoked[-8:]}
        found = dict(zip(wanted, self.statuses(list(wanted))))
        return "" if found == wanted else f"found {found}, wanted {wanted}"

    def find_wrong_of_beta(self) -> str:
        """Returns how the keys of beta are answered unless all are there, or none while they are revoked."""
        found, count = self.statuses(self.of_beta), len(self.of_beta)
        is_right = found == [200] * count or (self.is_revoking_beta and found == [404] * count)
        if self.is_revoking_beta and 200 not in found:
            self.revoked += self.of_beta
            self.of_beta = []
        self.is_revoking_beta = False
        return "" if is_right else f"beta: {found}"

    def find_wrong(self) -> Wrong:
        """Opens the store again, and returns what it lost."""
        is_there, lost = is_kept(self.store, self.published[-12:], [self.next_number])
        self.next_number += is_there
        return Wrong(lost or "", self.find_wrong_keys(), self.find_wrong_of_beta())


class Kills:
    """Kills of a server, with orders among the publishes. `wrong` has what each lost."""

    def __init__(self) -> None:
        self.stores: list[Acknowledged] = []
        self.wrong: list[Wrong] = []

    def kill(self) -> None:
        if not self.stores or any(self.wrong[-1]) or self.stores[-1].next_number > MOST:
            self.stores.append(Acknowledged(f"kills{len(self.stores)}.db"))
        with Server(self.stores[-1].store, CONTROL) as server:
            timer = kill_after(server.child, RANDOM.choice((0.01, 0.03, 0.08)) * RANDOM.random())
            with contextlib.suppress(OSError, IndexError):
                self.stores[-1].ask(server)
            timer.cancel()
        self.wrong.append(self.stores[-1].find_wrong())

    def sums(self) -> dict[str, int]:
        """Returns how many publishes, keys and revoked keys were acknowledged."""
        return {
            "publishes": sum(len(store.published) for store in self.stores),
            "keys": sum(len(store.added) for store in self.stores),
            "revoked keys": sum(len(store.revoked) for store in self.stores),
        }


@pytest.fixture(scope="module")
def kills(is_long: bool) -> Iterator[Kills]:
    print_seed()
    count = LONG if is_long else SHORT
    with entered_folder():
        kills = Kills()
        while len(kills.wrong) < count or (len(kills.wrong) < PATIENCE * count and not all(kills.sums().values())):
            kills.kill()
        print(f"{len(kills.wrong)} kills, {len(kills.stores)} stores, {kills.sums()}")
        yield kills


@pytest.mark.parametrize("what", Wrong._fields)
def test_kill_loses_nothing(kills: Kills, turn: int, what: str) -> None:
    assert getattr(kills.wrong[turn], what) == ""


def test_kill_after_those_loses_nothing(kills: Kills) -> None:
    assert [wrong for wrong in kills.wrong if any(wrong)] == []


@pytest.mark.parametrize("what", ["publishes", "keys", "revoked keys"])
def test_some_were_acknowledged(kills: Kills, what: str) -> None:
    assert kills.sums()[what] > 0
