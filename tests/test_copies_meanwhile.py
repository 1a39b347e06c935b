"""What `serve` does while it copies its store: it answers, publishes and obeys, and the copy has nothing of that.

The store is so large that a copy takes a while. Each test that needs a copy underway finds that its order has no reply
yet. `test_copies` has what a copy is made of and refused for, and `test_copy_kills` the kills.
"""

import os
import re
import select
import shutil
import signal
import socket
import subprocess
import tempfile
from collections.abc import Callable, Iterable, Iterator
from typing import NamedTuple

import pytest

from lib.keys import KEY, KEYS
from lib.messages import get, put, reply
from lib.peers import GOMOD, LIST, rest
from lib.ports import wait_until
from lib.program import PROGRAM, answered, refusal, run
from lib.runs import Ending
from lib.scratch import read
from lib.servers import CONTROL, Server
from lib.stores import new_store
from lib.tables import LEAST, MOST, connected, empty_log, put_versions, rows_of, settled

# the zips of a store, the most of them, and the bytes of each
ZIPS, MOST_ZIPS, LENGTH = 48, 128, 1_048_576
ZIP = bytes(range(256)) * (LENGTH // 256)
# how many of them one run publishes
AT_ONCE = 16
LARGE = "example.com/large"
DONE: Ending = (0, b"", "")
NOT_FOUND = reply(404, b"not found\n")
COMMON_ALONE: Ending = (0, b"common common\n", "")
FREE = range(1, ZIPS + 1)


class Underway:
    """A copy that is ordered, and begun before the first connection that comes after."""

    def __init__(self, server: Server, to: str) -> None:
        self.held = server.operator()
        self.held.sendall(f"copy {to}\n".encode())
        # (orders are obeyed in turn, so the reply says that the copy has begun)
        self.health = server.order(b"ping\n")

    def is_on(self) -> bool:
        return not select.select([self.held], [], [], 0)[0]

    def wait(self) -> bytes:
        """Returns the reply, once it is there."""
        with self.held:
            return rest(self.held)


def make_large_store(file: str, count: int) -> None:
    """Makes a store with this many large versions."""
    new_store(file, ("alpha", KEY), ("beta", KEYS["B"]))
    for first in range(0, count, AT_ONCE):
        numbers = range(first, min(first + AT_ONCE, count))
        puts = [put(LARGE, f"v1.{number}.0", f"module {LARGE}\n".encode(), ZIP) for number in numbers]
        assert [status for status, _ in answered(["--db", file], puts)] == [201] * len(puts)
    empty_log(file)


def make_numbered_store(file: str, numbers: Iterable[int]) -> None:
    """Makes a store with a large version for each row number."""
    new_store(file, ("alpha", KEY), ("beta", KEYS["B"]))
    conn = connected(file)
    put_versions(conn, "alpha", LARGE, numbers, ZIP)
    settled(conn)


def copy(to: str) -> Ending:
    return run(["copy", "--control", CONTROL, "--to", to])


def publish(server: Server, version: str, zip_bytes: bytes = b"zip", key: str = KEY) -> int:
    return server.status(put("example.com/lib", version, GOMOD, zip_bytes, key=key))


# what is asked and ordered during a copy, one after another, and what comes
MEANWHILE: dict[str, tuple[Callable[[Server], object], object]] = {
    "a GET": (lambda server: server.status(get(f"{LARGE}/@v/v1.{ZIPS - 1}.0.zip")), 200),
    "a list": (lambda server: server.exchange(get(LIST)).endswith(b"\r\n\r\nv1.0.0\n"), True),
    "a publish": (lambda server: publish(server, "v1.1.0"), 201),
    "the same again": (lambda server: publish(server, "v1.1.0"), 200),
    "a list after it": (lambda server: server.exchange(get(LIST)).endswith(b"\r\n\r\nv1.0.0\nv1.1.0\n"), True),
    "another content": (lambda server: publish(server, "v1.1.0", b"zap"), 409),
    "a group": (lambda server: server.order(b"group-add platform\n"), b"done\n"),
    "a team": (lambda server: server.order(b"team-add gamma platform\n"), b"done\n"),
    "a key": (lambda server: server.order(f"key-add gamma {KEYS['M']}\n".encode()), b"done\n"),
    "a publish by it": (lambda server: publish(server, "v1.0.0", b"", KEYS["M"]), 201),
    "a key that is revoked": (lambda server: server.order(f"key-revoke {KEYS['B']}\n".encode()), b"done\n"),
    "a GET by the revoked key": (lambda server: server.status(get("-/modules", KEYS["B"])), 404),
    "a list of keys": (lambda server: server.order(b"key-list\n").count(b" publish "), 2),
    "a line that is no order": (lambda server: server.order(b"nonsense\n"), b"bad\n"),
    "a second copy": (lambda server: copy("two.db"), refusal("busy")),
    "a second copy to the same file": (lambda server: copy("one.db"), refusal("busy")),
}
# what each store is asked afterwards
ASKS = [
    get(f"{LARGE}/@v/v1.{ZIPS - 1}.0.mod"), get("example.com/lib/@v/v1.0.0.zip"),
    get("example.com/lib/@v/v1.1.0.zip"), get("-/modules", KEYS["M"]), get("-/modules", KEYS["B"]),
]  # fmt: skip


class Seen(NamedTuple):
    """What came during a copy and after it."""

    health: bytes
    found: dict[str, object]
    was_on: bool
    ending: bytes
    health_after: bytes
    is_second_begun: bool
    later: Ending
    shelves: Ending


class TestMeanwhile:
    """All that is asked and ordered during a copy is done at once, and the copy has nothing of it."""

    @pytest.fixture(scope="class")
    def seen(self, class_folder: str) -> Seen:
        make_large_store("served.db", MOST_ZIPS)
        with Server("served.db", CONTROL) as server:
            assert publish(server, "v1.0.0") == 201
            shelves = run(["shelf-list", "--control", CONTROL])
            underway = Underway(server, "one.db")
            found = {name: act(server) for name, (act, _) in MEANWHILE.items()}
            was_on, ending = underway.is_on(), underway.wait()
            health_after = server.order(b"ping\n")
            is_second_begun = os.path.lexists("two.db")
            later = copy("three.db")
        return Seen(underway.health, found, was_on, ending, health_after, is_second_begun, later, shelves)

    def test_ping_counts_the_versions_that_are_copied(self, seen: Seen) -> None:
        assert seen.health.startswith(b"connections=1 ")
        progress = re.search(rb" copying=(\d+)/(\d+) shelves=", seen.health)
        assert progress, seen.health
        assert int(progress[1]) < int(progress[2]) == MOST_ZIPS + 1

    @pytest.mark.parametrize("name", MEANWHILE)
    def test_request_during_a_copy(self, seen: Seen, name: str) -> None:
        assert seen.found[name] == MEANWHILE[name][1]

    def test_copy_lasts_longer_than_all_of_them(self, seen: Seen) -> None:
        assert seen.was_on
        assert seen.ending == b"done\n"
        assert b" copying=" not in seen.health_after

    def test_second_copy_was_not_begun(self, seen: Seen) -> None:
        assert not seen.is_second_begun

    def test_copy_has_what_was_there_at_the_order(self, seen: Seen) -> None:
        assert [status for status, _ in answered(["--db", "one.db"], ASKS)] == [200, 200, 404, 404, 200]
        assert run(["shelf-list", "--db", "one.db"]) == seen.shelves

    def test_store_has_what_came_since(self, seen: Seen) -> None:
        assert [status for status, _ in answered(["--db", "served.db"], ASKS)] == [200, 200, 200, 200, 404]

    def test_later_copy_has_what_came_since(self, seen: Seen) -> None:
        assert seen.later == DONE
        is_whole = rows_of("three.db") == rows_of("served.db")
        assert is_whole


@pytest.fixture(scope="module")
def large() -> Iterator[str]:
    """A file with a store of large zips."""
    with tempfile.TemporaryDirectory(prefix="goshelf-") as folder:
        make_large_store(f"{folder}/large.db", ZIPS)
        yield f"{folder}/large.db"


@pytest.fixture
def server(folder: str, large: str) -> Iterator[Server]:
    """A server of the store of large zips."""
    shutil.copy(large, "served.db")
    with Server("served.db", CONTROL) as server:
        yield server


# what a ping says of the requests of TestHealth, before what it says of copies
HEALTH = (
    rb"connections=3 2xx=2 4xx=1 5xx=0 unanswered=0 store-failures=0 since=\d{4}-\d\d-\d\dT\d\d:\d\d:\d\dZ "
    rb"versions=%d bytes=\d+ log=\d+" % (ZIPS + 1)
)
OF_ALPHA = rb" shelves=1\nshelf alpha publishes=1 fetches=1\n"


class TestHealth:
    """What a ping says of requests during a copy, and of the copy."""

    def test_counts_by_shelf(self, server: Server) -> None:
        fetch = get("example.com/lib/@v/v1.0.0.zip")
        assert server.status(fetch) == 404
        underway = Underway(server, "one.db")
        assert (publish(server, "v1.0.0"), server.status(fetch)) == (201, 200)
        during, was_on = server.order(b"ping\n"), underway.is_on()
        assert (was_on, underway.wait()) == (True, b"done\n")
        progress = re.fullmatch(HEALTH + rb" copying=(\d+)/(\d+)" + OF_ALPHA, during)
        assert progress, during
        assert int(progress[1]) < int(progress[2]) == ZIPS
        after = server.order(b"ping\n")
        assert re.fullmatch(HEALTH + rb" copied=\d{4}-\d\d-\d\dT\d\d:\d\d:\d\dZ" + OF_ALPHA, after), after


class TestEnd:
    """What ends a copy: the end of the server, or of its operator."""

    @pytest.fixture
    def noted(self, folder: str, large: str) -> Iterator[Server]:
        """A server whose notices are in `errors`."""
        shutil.copy(large, "served.db")
        with open("errors", "wb") as errors, Server(
            "served.db", CONTROL, "--connections", "4", errors=errors
        ) as server:
            yield server

    def test_stop_behind_others_who_are_served(self, noted: Server) -> None:
        assert noted.order(f"key-add alpha {KEYS['R']}\n".encode()) == b"done\n"
        assert publish(noted, "v1.0.0", b"") == 201
        underway = Underway(noted, "one.db")
        assert noted.exchange(get("example.com/lib/@v/v1.0.0.mod", KEYS["R"])) == reply(200, GOMOD)
        assert noted.order(b"copy two.db\n") == b"busy\n"
        noted.child.send_signal(signal.SIGSTOP)
        with noted.connected() as peer, noted.operator() as operator:
            peer.sendall(get(LIST))
            operator.sendall(b"stop\n")
            noted.child.send_signal(signal.SIGCONT)
            assert (rest(operator), underway.wait()) == (b"stopping\n", b"ended\n")
            assert rest(peer) == b"", "the last peer is not taken"
        assert noted.wait_for_end() == 0
        assert read("errors").decode().splitlines() == [
            f"opened: served.db: {ZIPS} versions",
            "order: key-add alpha c2fcda156efd8585: done",
            "order: copy two.db: busy",
            "order: stopping",
            "order: copy one.db: ended",
            "ended: served.db",
        ]

    def test_operator_who_has_left_is_noted(self, noted: Server) -> None:
        Underway(noted, "one.db").held.close()
        assert [noted.exchange(get(LIST)) for _ in range(2)] == [NOT_FOUND] * 2
        wait_until(lambda: read("errors").decode().endswith("\norder: copy one.db: ended\n"), 30)

    def test_order_to_stop(self, server: Server) -> None:
        words = [PROGRAM, "copy", "--control", CONTROL, "--to", "one.db"]
        child = subprocess.Popen(words, stderr=subprocess.PIPE)
        wait_until(lambda: os.path.exists("one.db"))
        assert server.order(b"stop\n") == b"stopping\n"
        errors = child.communicate(timeout=60)[1]
        assert (child.returncode, errors) == (1, b"goshelf: ended\n")
        assert server.wait_for_end() == 0
        assert not os.path.lexists(CONTROL)
        assert run(["shelf-list", "--db", "one.db"]) == COMMON_ALONE, "the file is as a failed copy leaves it"
        with Server("served.db", CONTROL):
            assert copy("one.db") == DONE
        is_whole = rows_of("one.db") == rows_of("served.db")
        assert is_whole

    def test_signal(self, server: Server) -> None:
        underway = Underway(server, "two.db")
        server.child.send_signal(signal.SIGTERM)
        assert underway.wait() == b""
        assert server.wait_for_end() == -signal.SIGTERM
        assert run(["shelf-list", "--db", "two.db"]) == COMMON_ALONE

    def test_operator_who_goes_away(self, server: Server) -> None:
        """Others are served, and the next copy is made."""
        child = subprocess.Popen([PROGRAM, "copy", "--control", CONTROL, "--to", "one.db"])
        wait_until(lambda: os.path.exists("one.db"))
        child.kill()
        child.wait()
        assert server.status(get(f"{LARGE}/@v/v1.0.0.mod")) == 200
        endings = [refusal("busy")]

        def is_free() -> bool:
            endings.append(copy("two.db"))
            return endings[-1] != refusal("busy")

        wait_until(is_free, 60)
        assert endings[-1] == DONE
        assert copy("one.db") == DONE
        server.kill()
        whole = rows_of("served.db")
        are_whole = [rows_of(file) == whole for file in ("one.db", "two.db")]
        assert are_whole == [True, True]

    def test_operator_who_shuts_its_side_waits_on(self, server: Server) -> None:
        with server.operator() as held:
            held.sendall(b"copy three.db\n")
            held.shutdown(socket.SHUT_WR)
            assert rest(held) == b"done\n"
        server.kill()
        is_whole = rows_of("three.db") == rows_of("served.db")
        assert is_whole


@pytest.mark.parametrize(
    ("numbers", "status"),
    [
        ([*FREE, MOST], 201),
        ([*FREE, MOST - 1], 201),
        ([LEAST, *FREE], 201),
        ([LEAST, *FREE, MOST], 503),
        ([*range(-ZIPS // 2, ZIPS // 2)], 201),
    ],
    ids=["the highest", "the one below it", "the lowest", "both ends", "0 and negative ones"],
)
class TestNumbers:
    """Row numbers at both ends of their range, also those of versions that come meanwhile."""

    def test_publishes_during_a_copy(self, folder: str, numbers: list[int], status: int) -> None:
        make_numbered_store("served.db", numbers)
        before = rows_of("served.db")
        with Server("served.db", CONTROL) as server:
            underway = Underway(server, "one.db")
            statuses = [publish(server, f"v1.{number}.0") for number in range(2)]
            assert (statuses, underway.is_on()) == ([status, status], True)
            assert underway.wait() == b"done\n"
            assert server.exchange(get(LIST)).count(b"v1.") == (2 if status == 201 else 0)
        is_as_before = rows_of("one.db") == before
        assert is_as_before
