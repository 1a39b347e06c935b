"""`goshelf catalog --control S`: a running `serve` prints the catalog of a key, and serves others between its lines.

The lines are compared with those of `catalog --db`, which `test_catalog` compares with what goshelf answers. A catalog
that has to last is one of many lines, or is read slowly. The command prints all of them or nothing, and `serve` never
waits for who reads what it prints.
"""

import hashlib
import os
import re
import shutil
import signal
import socket
import subprocess
import tempfile
import threading
import time
from collections.abc import Callable, Iterator
from typing import NamedTuple

import pytest

from lib.catalog_store import SHELF_KEYS, STORE, published, rows_of
from lib.ids import name_value
from lib.keys import KEY, KEYS, SHELVES
from lib.messages import get, put
from lib.peers import LIST, Load, by_false_server, rest
from lib.ports import wait_until
from lib.program import PROGRAM, answered, done, refusal, run
from lib.runs import Ending
from lib.scratch import entered_folder, read
from lib.servers import CONTROL, Server
from lib.stores import add_platform, new_store
from lib.tables import connected, put_versions, settled

# the paths of a store whose catalog lasts, and the versions of each
PATHS, VERSIONS = 8, 3_000
# seconds between two reads of a catalog that is read slowly, and those that a line may wait for its operator
PACE, PATIENCE = 0.1, 2
# seconds that a pager takes no line of what the command prints, and those that a peer may wait meanwhile
PAUSE, MOST = 10, 1
# peers who ask on and on, and the seconds that one may wait on a busy machine
PEERS, LONGEST = 8, 4
# what is published while the store is served, as in lib/catalog_store.py
MORE = rows_of(
    """
A example.com/alpha v1.0.0 - 3
P example.com/rpc v1.2.0 2026-11-28 20
    retract v1.1.0
M example.com/gamma/pseudo v0.0.0-20261111120000-abcdefabcdef - 30
C example.com/log v1.2.1 2026-11-28 1
    retract [v1.0.0, v1.2.0]
"""
)
MIB = 1 << 20
LINE = b'{"Path":"example.com/a","Version":"v1.0.0"}\n'
WHOLE = LINE + LINE + b"done\n"
# the words that a catalog may end with, and those of other orders
WORDS = ("no-key", "device", "memory", "busy", "ended")
OTHERS = ("name", "taken", "no-team", "no-group", "not-empty", "stopping", "bad", "Done", "done.", "word")
# replies whose last line is no outcome
ODD = [
    b"\n", b"\n\n", LINE + b"\n", b"done\n\n", b"done\r\n", b" done\n", b"done \n", b"done\0\n", b"done", b"\xff\n",
    LINE[:-1] + b"done\n", LINE + b"done\nmore\n", LINE + LINE + b"done\n ", b"done" * 50 + b"\n", b"\0" * 10,
    b"\xff\xfe\n" + b"\xff\n", b"a" * 5_000 + b"\n" + b"a" * 200 + b"\n", b"a" * 5_000, LINE + b"busy", LINE + b"ended",
]  # fmt: skip
# replies that end well; goshelf does not look at what a line says
EVEN = [
    b"done\n", WHOLE, LINE * 50_000 + b"done\n", b"a" * 1_000_000 + b"\n" + WHOLE,
    *(b"a" * length + b"\n" + WHOLE for length in range(4_093, 4_099)),
    b"done\ndone\n", b"\n\0\xff\n\ndone\n", b"ended\ndone\n",
]  # fmt: skip


def catalog(way: str, name: str, key: str = KEY) -> Ending:
    return run(["catalog", way, name, "--key", key], timeout=600)


def order_of(key: str) -> bytes:
    return f"catalog {key}\n".encode()


class Slow:
    """A catalog that an operator reads slowly. It has begun once this is made."""

    def __init__(self, server: Server, key: str = KEY) -> None:
        self.held, self.got, self.hurried = server.operator(), bytearray(), threading.Event()
        self.held.sendall(order_of(key))
        self.got += self.held.recv(1)
        self.thread = threading.Thread(target=self.read)
        self.thread.start()

    def read(self) -> None:
        try:
            while piece := self.held.recv(65_536):
                self.got += piece
                self.hurried.wait(PACE)
        except ConnectionResetError:
            pass

    def finish(self) -> bytes:
        """Reads the rest at once, and returns all that came."""
        self.hurried.set()
        self.thread.join()
        self.held.close()
        return bytes(self.got)


def start_catalog() -> subprocess.Popen[bytes]:
    words = [PROGRAM, "catalog", "--control", CONTROL, "--key", KEY]
    return subprocess.Popen(words, stdout=subprocess.PIPE, stderr=subprocess.PIPE)


def begin_catalog(server: Server) -> subprocess.Popen[bytes]:
    """Starts the command, and waits until its catalog has begun: then another is refused."""
    child = start_catalog()
    begun = time.monotonic()
    while server.order(order_of(KEYS["N"])) != b"busy\n":
        assert time.monotonic() - begun < 30, "the catalog does not begin"
    return child


def ending(child: subprocess.Popen[bytes]) -> Ending:
    """Returns how a command ends: its status, what it printed, and the line of its refusal."""
    printed, errors = child.communicate(timeout=600)
    return child.returncode, printed, errors.decode()


def next_catalog(key: str = KEY) -> Ending:
    """Returns how a catalog ends, once no other is printed."""
    endings: list[Ending] = []

    def is_free() -> bool:
        endings.append(catalog("--control", CONTROL, key))
        return endings[-1] != refusal("busy")

    wait_until(is_free, 60)
    return endings[-1]


class Catalogs(NamedTuple):
    """Catalogs of each shelf, by `--db` and by `--control`, before more is published and after it."""

    before: dict[str, list[Ending]]
    reader: Ending
    published: list[int]
    outcomes: list[bytes]
    # of a team that sees common alone, and of its key once it is revoked
    omega: Ending
    revoked: Ending
    after: dict[str, list[Ending]]


@pytest.fixture(scope="module")
def catalogs() -> Catalogs:
    """Has a server print the catalogs of a store with hostile go.mods."""
    with entered_folder():
        new_store("served.db", *SHELVES)
        add_platform("served.db")
        replies = answered(["--db", "served.db"], [published(*row) for row in rows_of(STORE)])
        assert replies == [(201, b"published\n")] * len(rows_of(STORE))
        before = {shelf: [catalog("--db", "served.db", KEYS[letter])] for shelf, letter in SHELF_KEYS.items()}
        with Server("served.db", CONTROL) as server:
            return print_catalogs(server, before)


def print_catalogs(server: Server, before: dict[str, list[Ending]]) -> Catalogs:
    for shelf, letter in SHELF_KEYS.items():
        before[shelf].append(catalog("--control", CONTROL, KEYS[letter]))
    reader = catalog("--control", CONTROL, KEYS["R"])
    statuses = [server.status(published(*row)) for row in MORE]
    lines = (b"team-add omega\n", f"reader-add omega {KEYS['N']}\n".encode())
    outcomes = [server.order(line) for line in lines]
    omega = catalog("--control", CONTROL, KEYS["N"])
    done("copy", "--control", CONTROL, "--to", "copy.db")
    after = {
        shelf: [catalog("--db", "copy.db", KEYS[letter]), catalog("--control", CONTROL, KEYS[letter])]
        for shelf, letter in SHELF_KEYS.items()
    }
    outcomes.append(server.order(f"key-revoke {KEYS['N']}\n".encode()))
    return Catalogs(before, reader, statuses, outcomes, omega, catalog("--control", CONTROL, KEYS["N"]), after)


@pytest.mark.parametrize("shelf", SHELF_KEYS)
def test_catalog_is_the_same_by_both_ways(catalogs: Catalogs, shelf: str) -> None:
    by_file, by_control = catalogs.before[shelf]
    assert by_control == by_file
    assert by_file[::2] == (0, "")


def test_catalog_of_a_reader_is_that_of_its_shelf(catalogs: Catalogs) -> None:
    assert catalogs.reader == catalogs.before["alpha"][0]


def test_more_is_published_and_ordered(catalogs: Catalogs) -> None:
    assert (catalogs.published, catalogs.outcomes) == ([201] * len(MORE), [b"done\n"] * 3)


@pytest.mark.parametrize("shelf", SHELF_KEYS)
def test_catalog_after_publishes_is_that_of_a_copy(catalogs: Catalogs, shelf: str) -> None:
    by_copy, by_control = catalogs.after[shelf]
    assert by_control == by_copy
    assert by_control != catalogs.before[shelf][0]


def test_catalog_of_a_team_that_sees_common_alone(catalogs: Catalogs) -> None:
    assert catalogs.omega[1].count(b"common") > 1


def test_key_that_is_revoked_gets_no_catalog(catalogs: Catalogs) -> None:
    assert catalogs.revoked == refusal("no-key")


class Large(NamedTuple):
    """A store whose catalog lasts, with a version of the path of LIST, and the lines of alpha's key."""

    folder: str
    lines: bytes

    def copy_here(self) -> None:
        shutil.copy(f"{self.folder}/large.db", "served.db")


@pytest.fixture(scope="module")
def large() -> Iterator[Large]:
    with tempfile.TemporaryDirectory(prefix="goshelf-") as folder:
        yield Large(folder, make_large(f"{folder}/large.db"))


def make_large(file: str) -> bytes:
    """Makes the large store, and returns the lines of alpha's key."""
    new_store(file, ("alpha", KEY, KEYS["R"]), ("beta", KEYS["B"]))
    conn = connected(file)
    for at in range(PATHS):
        numbers = range(at * VERSIONS + 1, (at + 1) * VERSIONS + 1)
        put_versions(conn, "alpha", f"example.com/m{at}", numbers, b"")
    put_versions(conn, "alpha", "example.com/lib", [PATHS * VERSIONS + 1], b"")
    settled(conn)
    status, lines, errors = catalog("--db", file)
    assert (status, errors, lines.count(b"\n")) == (0, "", PATHS * VERSIONS + 1)
    return lines


@pytest.fixture
def server(folder: str, large: Large) -> Iterator[Server]:
    """A server of the large store, which a test may end."""
    large.copy_here()
    with Server("served.db", CONTROL) as server:
        yield server


def publish(server: Server, path: str, version: str, more: bytes = b"", key: str = KEY) -> int:
    """Returns the status of a publish of a go.mod that says more than its path."""
    return server.status(put(path, version, f"module {path}\n".encode() + more, key=key))


HEALTH = re.compile(
    rb"connections=0 2xx=0 4xx=0 5xx=0 unanswered=0 store-failures=0 since=\S{20} versions=\d+ bytes=\d+ log=\d+ "
    rb"shelves=0\n"
)
# what is asked and ordered while a catalog is printed, one after another, and what comes
MEANWHILE: dict[str, tuple[Callable[[Server], object], object]] = {
    "a ping, which names no copy": (lambda server: bool(HEALTH.fullmatch(server.order(b"ping\n"))), True),
    "a GET": (lambda server: server.status(get(LIST)), 200),
    "a publish of a path before all": (lambda server: publish(server, "example.com/a", "v1.0.0"), 201),
    "a publish of a path behind all": (lambda server: publish(server, "example.com/z", "v1.0.0"), 201),
    "a publish that retracts": (
        lambda server: publish(server, "example.com/m7", "v1.9999.0", b"retract [v1.0.0, v1.9999.0]\n"),
        201,
    ),
    "a publish of a version that exists": (
        lambda server: publish(server, "example.com/lib", "v1.0.0", b"go 1.21\n"),
        409,
    ),
    "a list": (
        lambda server: server.exchange(get("example.com/z/@v/list")).endswith(b"\r\n\r\nv1.0.0\n"),
        True,
    ),
    "a team": (lambda server: server.order(b"team-add gamma\n"), b"done\n"),
    "a key": (lambda server: server.order(f"key-add gamma {KEYS['M']}\n".encode()), b"done\n"),
    "a publish by it": (lambda server: publish(server, "example.com/lib", "v1.0.0", key=KEYS["M"]), 201),
    "the key of the catalog is revoked": (lambda server: server.order(f"key-revoke {KEY}\n".encode()), b"done\n"),
    "a GET by the revoked key": (lambda server: server.status(get(LIST)), 404),
    "a list of keys": (lambda server: server.order(b"key-list\n").count(b" publish "), 2),
    "a line that is no order": (lambda server: server.order(b"catalog\n"), b"bad\n"),
    "a copy": (lambda server: run(["copy", "--control", CONTROL, "--to", "copy.db"]), refusal("busy")),
    "a second catalog": (lambda server: catalog("--control", CONTROL, KEYS["B"]), refusal("busy")),
    "a catalog of nobody's key": (lambda server: catalog("--control", CONTROL, KEYS["N"]), refusal("busy")),
}


class TestMeanwhile:
    """All that is asked and ordered while a catalog is printed is done at once, and the catalog has nothing of it."""

    class Seen(NamedTuple):
        """What came during a catalog, the catalog, and those after it: by the revoked key, and by a reader's."""

        found: dict[str, object]
        catalog: bytes
        is_copied: bool
        revoked: Ending
        later: Ending
        # of a catalog during a copy, of this copy, of the catalogs of the copy and of the store after it
        during_a_copy: bytes
        copied: bytes
        behind: list[Ending]

    @pytest.fixture(scope="class")
    def seen(self, class_folder: str, large: Large) -> Seen:
        large.copy_here()
        with Server("served.db", CONTROL) as server:
            slow = Slow(server)
            found = {name: act(server) for name, (act, _) in MEANWHILE.items()}
            whole = slow.finish()
            is_copied = os.path.lexists("copy.db")
            revoked = catalog("--control", CONTROL)
            later = catalog("--control", CONTROL, KEYS["R"])
            # (both wait behind an operator who sends nothing)
            with server.operator(), server.operator() as copies, server.operator() as asks:
                copies.sendall(b"copy copy.db\n")
                asks.sendall(order_of(KEYS["R"]))
                during_a_copy, copied = rest(asks), rest(copies)
            behind = [catalog("--db", "copy.db", KEYS["R"]), catalog("--control", CONTROL, KEYS["R"])]
        return self.Seen(found, whole, is_copied, revoked, later, during_a_copy, copied, behind)

    @pytest.mark.parametrize("name", MEANWHILE)
    def test_request_during_a_catalog(self, seen: Seen, name: str) -> None:
        assert seen.found[name] == MEANWHILE[name][1]

    def test_catalog_is_that_of_the_moment_of_its_order(self, seen: Seen, large: Large) -> None:
        assert seen.catalog == large.lines + b"done\n"

    def test_no_copy_was_begun(self, seen: Seen) -> None:
        assert not seen.is_copied

    def test_catalog_after_it_by_the_revoked_key(self, seen: Seen) -> None:
        assert seen.revoked == refusal("no-key")

    def test_catalog_after_it_has_what_came(self, seen: Seen, large: Large) -> None:
        status, later, errors = seen.later
        assert (status, later.count(b"\n") - large.lines.count(b"\n"), errors) == (0, 3, "")
        assert later.count(b'"Retracted":true') == VERSIONS + 1

    def test_catalog_during_a_copy(self, seen: Seen) -> None:
        assert (seen.during_a_copy, seen.copied) == (b"busy\n", b"done\n")

    def test_catalog_after_a_copy_is_that_of_the_copy(self, seen: Seen) -> None:
        of_copy, of_store = seen.behind
        assert of_copy == of_store == seen.later


class TestLoad:
    """Peers are answered while a catalog is printed."""

    def test_no_peer_waits_long(self, server: Server, large: Large) -> None:
        load = Load(server, KEY, PEERS)
        wait_until(lambda: len(load.seen) >= PEERS)
        begun = time.monotonic()
        printed = catalog("--control", CONTROL)
        ended = time.monotonic()
        load.stop()
        assert printed == (0, large.lines, ""), f"the lines while {PEERS} peers ask"
        meanwhile = [status for at, end, status in load.seen if at > begun and end < ended]
        assert {*meanwhile} == {200}, f"{len(meanwhile)} requests meanwhile"
        assert len(meanwhile) > 20 * PEERS
        waits = [end - at for at, end, _ in load.seen if at < ended and end > begun]
        assert max(waits) < LONGEST
        print(f"{ended - begun:.1f} s, of which a request waits at most {max(waits) * 1e3:.0f} ms")

    def test_pager_that_takes_no_line_holds_up_nobody(self, server: Server, large: Large) -> None:
        child, waits, end = start_catalog(), [], time.monotonic() + PAUSE
        while time.monotonic() < end:
            at = time.monotonic()
            assert server.status(get(LIST)) == 200
            waits.append(time.monotonic() - at)
            time.sleep(0.01)
        assert max(waits) < MOST
        assert next_catalog() == (0, large.lines, "")
        assert server.order(b"stop\n") == b"stopping\n"
        server.wait_for_end()
        assert ending(child) == (0, large.lines, ""), "the pager gets all lines"


class TestOperators:
    """What ends a catalog: its operator, and an output that fails. The server goes on."""

    @pytest.fixture(scope="class")
    def server(self, class_folder: str, large: Large) -> Iterator[Server]:
        """A server of the large store, whose notices are in `errors`."""
        large.copy_here()
        with open("errors", "wb") as errors, Server("served.db", CONTROL, errors=errors) as server:
            yield server

    def test_operator_who_goes_away_ends_it(self, server: Server, large: Large) -> None:
        child = begin_catalog(server)
        child.kill()
        ending(child)
        assert server.status(get(LIST)) == 200
        assert next_catalog() == (0, large.lines, "")

    def test_output_that_fails(self, server: Server, large: Large) -> None:
        with open("/dev/full", "wb") as full:
            words = [PROGRAM, "catalog", "--control", CONTROL, "--key", KEY]
            ran = subprocess.run(words, stdout=full, stderr=subprocess.PIPE, timeout=120)
        assert (ran.returncode, ran.stderr) == (1, b"goshelf: io\n")
        assert next_catalog() == (0, large.lines, "")

    def test_operator_who_shuts_its_side_gets_all_lines(self, server: Server, large: Large) -> None:
        with server.operator() as held:
            held.sendall(order_of(KEY))
            held.shutdown(socket.SHUT_WR)
            assert rest(held) == large.lines + b"done\n"

    def test_operator_who_reads_nothing_holds_up_others_for_the_time_of_a_line(
        self, server: Server, large: Large
    ) -> None:
        earlier = len(read("errors").splitlines())
        with server.operator() as held:
            held.sendall(order_of(KEY))
            # (until no more fits between the two)
            time.sleep(0.5)
            begun = time.monotonic()
            assert server.status(get(LIST)) == 200
            assert time.monotonic() - begun < PATIENCE + LONGEST
            notice = f"order: catalog {hashlib.sha256(KEY.encode()).hexdigest()[:16]}: ended"
            wait_until(lambda: notice in read("errors").decode().splitlines()[earlier:], PATIENCE + LONGEST)
            assert next_catalog() == (0, large.lines, "")
            got = rest(held)
        assert large.lines.startswith(got) and got != large.lines, "who reads nothing gets no outcome"


class TestEndOfTheServer:
    """The end of the server ends a catalog, of which no line is printed."""

    def test_order_to_stop(self, server: Server) -> None:
        child = begin_catalog(server)
        assert server.order(b"stop\n") == b"stopping\n"
        assert ending(child) == refusal("ended")
        assert (server.wait_for_end(), os.path.lexists(CONTROL)) == (0, False)

    @pytest.mark.parametrize("number", [signal.SIGTERM, signal.SIGKILL], ids=["a signal", "a kill"])
    def test_signal_that_ends_the_server(self, server: Server, number: int) -> None:
        child = begin_catalog(server)
        server.child.send_signal(number)
        assert ending(child) == refusal("io")
        server.wait_for_end()


class TestFalseServers:
    """What a false server replies: only `done` ends the command well, and otherwise nothing is printed."""

    words = ["catalog", "--key", KEY, "--control"]

    @pytest.fixture(scope="class", autouse=True)
    def own_folder(self, class_folder: str) -> None:
        """The socket of the false server is in a folder of the class."""

    @pytest.mark.parametrize("length", range(len(WHOLE)))
    def test_reply_that_is_cut(self, length: int) -> None:
        assert by_false_server(self.words, WHOLE[:length]) == (refusal("io"), order_of(KEY))

    @pytest.mark.parametrize("sent", ODD, ids=name_value)
    def test_reply_that_ends_in_no_outcome(self, sent: bytes) -> None:
        assert by_false_server(self.words, sent) == (refusal("io"), order_of(KEY))

    @pytest.mark.parametrize("sent", EVEN, ids=name_value)
    def test_reply_that_ends_well(self, sent: bytes) -> None:
        ran, order = by_false_server(self.words, sent)
        assert order == order_of(KEY)
        assert ran == (0, sent.removesuffix(b"done\n"), "")

    @pytest.mark.parametrize("lines", [0, 1, 1_000])
    @pytest.mark.parametrize("word", (*WORDS, *OTHERS))
    def test_reply_that_ends_in_a_word(self, word: str, lines: int) -> None:
        found = by_false_server(self.words, LINE * lines + f"{word}\n".encode())
        assert found == (refusal(word if word in WORDS else "io"), order_of(KEY))

    @pytest.mark.parametrize("name", ["none", "none/control", "s" * 108, ""], ids=name_value)
    def test_nobody_listens(self, name: str) -> None:
        assert catalog("--control", name) == refusal("device")

    @pytest.mark.parametrize("key", ["two words", "line\n", "k" * 120, "é" * 100], ids=name_value)
    def test_key_that_no_line_can_carry_is_not_sent(self, key: str) -> None:
        assert by_false_server(["catalog", "--key", key, "--control"], b"") == (refusal("no-key"), b"")

    @pytest.mark.needs("prlimit")
    @pytest.mark.parametrize(
        ("size", "wanted"), [(1, (0, b"a" * MIB + b"\n", "")), (64, refusal("memory"))], ids=["1 MiB", "64 MiB"]
    )
    def test_catalog_by_a_command_with_32_mib_of_memory(self, size: int, wanted: Ending) -> None:
        limit = ["prlimit", f"--as={MIB << 5}"]
        ran, _ = by_false_server(self.words, b"a" * size * MIB + b"\ndone\n", before=limit)
        assert (ran[0], len(ran[1]), ran[2]) == (wanted[0], len(wanted[1]), wanted[2])
        assert ran == wanted
