"""`serve --control`: orders, operators that misbehave, keys that go under load.

Each order is compared with what the same command does with `--db` on a store of its own. `test_control_sockets` has
the sockets, and `test_control_kills` the kills.
"""

import contextlib
import re
import socket
import statistics
import subprocess
import threading
import time
from collections.abc import Iterator
from typing import NamedTuple

import pytest

from lib.ids import name_value, name_values
from lib.keys import KEY, KEYS
from lib.messages import get, put, reply
from lib.peers import GOMOD, LIST, Load, by_false_server, rest
from lib.ports import wait_until
from lib.program import PROGRAM, refusal, run, words_of
from lib.runs import Ending
from lib.scratch import entered_folder, read
from lib.servers import CONTROL, Server
from lib.stores import new_store

# the seconds that an operator has for its line, and those that a busy machine takes more
PATIENCE, MARGIN = 2, 2
NOT_FOUND = reply(404, b"not found\n")
WAYS = {"--control": CONTROL, "--db": "other.db"}
# the lists, and how many lines each has at the least after ORDERS
LISTS = {"key-list": 4, "shelf-list": 4}

# each is run with `--db`, and with `--control` while another store is served; both end with this
ORDERS = """
group-add --group platform | 0
group-add --group platform | 1 taken
group-add --group Platform | 1 name
group-add --group= | 1 name
group-add --group common | 1 name
team-add --team alpha | 0
team-add --team alpha | 1 taken
team-add --team platform | 1 taken
team-add --team common | 1 name
team-add --team a23456789012345678901234567890123 | 1 name
team-add --team gamma --group platform | 0
team-add --team delta --group nosuch | 1 no-group
team-add --team delta --group common | 1 no-group
team-add --team delta --group= | 1 no-group
key-add --shelf alpha --key A | 0
key-add --shelf alpha --key A | 1 taken
key-add --shelf alpha --key shortkey1234567 | 1 name
key-add --shelf alpha --key= | 1 name
key-add --shelf nosuch --key B | 1 no-team
key-add --shelf= --key B | 1 no-team
key-add --shelf alpha --key R --read-only | 0
key-add --shelf gamma --key M | 0
key-add --shelf platform --key P --read-only | 0
key-add --shelf common --key C | 0
key-revoke --key N | 1 no-key
key-revoke --key= | 1 no-key
key-revoke --key R | 0
key-revoke --key R | 1 no-key
key-add --shelf common --key R --read-only | 0
key-add --shelf gamma --key B | 0
key-add --shelf gamma --key D --read-only | 0
key-revoke --shelf gamma --all | 0
key-revoke --key B | 1 no-key
key-revoke --key D | 1 no-key
key-revoke --key M | 1 no-key
key-revoke --shelf gamma --all | 0
key-revoke --shelf nosuch --all | 1 no-team
key-revoke --shelf= --all | 1 no-team
key-add --shelf gamma --key M | 0
key-revoke --fingerprint c2fcda156efd8585 | 0
key-revoke --fingerprint c2fcda156efd8585 | 1 no-key
key-revoke --fingerprint ccaaf6d99f2c8ac | 1 no-key
key-revoke --fingerprint ccaaf6d99f2c8ac70 | 1 no-key
key-revoke --fingerprint CCAAF6D99F2C8AC7 | 1 no-key
key-revoke --fingerprint= | 1 no-key
key-add --shelf common --key R --read-only | 0
key-revoke --fingerprint c2fcda156efd85851ad7847dc201fa716836a3ce7f801b07b9a1f6b6d3af2a2 | 1 no-key
key-revoke --fingerprint c2fcda156efd85851ad7847dc201fa716836a3ce7f801b07b9a1f6b6d3af2a2b0 | 1 no-key
key-revoke --fingerprint C2FCDA156EFD85851AD7847DC201FA716836A3CE7F801B07B9A1F6B6D3AF2A2B | 1 no-key
key-revoke --fingerprint c2fcda156efd8585000000000000000000000000000000000000000000000000 | 1 no-key
key-revoke --fingerprint c2fcda156efd85851ad7847dc201fa716836a3ce7f801b07b9a1f6b6d3af2a2b | 0
key-revoke --fingerprint c2fcda156efd85851ad7847dc201fa716836a3ce7f801b07b9a1f6b6d3af2a2b | 1 no-key
key-add --shelf common --key R --read-only | 0
catalog --key A | 0
catalog --key N | 1 no-key
catalog --key= | 1 no-key
""".strip().splitlines()
# words that no line can carry, and how both ways end, whether somebody listens or not
UNSAYABLE = [
    (["group-add", "--group", "plat form"], "name"), (["team-add", "--team", "al\npha"], "name"),
    (["team-add", "--team", "alpha beta", "--group", "platform"], "name"),
    (["key-add", "--shelf", "al pha", "--key", KEYS["B"]], "no-team"),
    (["key-add", "--shelf", "alpha", "--key", KEY + "\n"], "name"),
    (["key-add", "--shelf", "al pha", "--key", "short"], "name"), (["key-revoke", "--key", KEY + " "], "no-key"),
    (["key-revoke", "--key", "k" * 200], "no-key"), (["key-revoke", "--shelf", "al pha", "--all"], "no-team"),
    (["key-revoke", "--shelf", "s" * 200, "--all"], "no-team"), (["team-add", "--team", "t" * 200], "name"),
    (["key-revoke", "--fingerprint", "ccaaf6d99f2c8ac7 "], "no-key"),
    (["key-revoke", "--fingerprint", "f" * 200], "no-key"),
    (["key-revoke", "--fingerprint", "ccaaf6d9\n9f2c8ac7"], "no-key"),
    (["catalog", "--key", "k" * 200], "no-key"), (["catalog", "--key", KEY + " "], "no-key"),
]  # fmt: skip
# groups that no line can carry, for which another word is sent, since only the store knows how these end
BAD_GROUPS = [
    (["team-add", "--team", "delta", "--group", "plat form"], "no-group"),
    (["team-add", "--team", "alpha", "--group", "plat form"], "taken"),
    (["team-add", "--team", "delta", "--group", "g" * 200], "no-group"),
]  # fmt: skip
# paths of copies that no line can carry
BAD_PATHS = ["a b", "a\nb.db", "p" * 4_091, " "]
# how each ends where nobody listens
UNHEARD = [
    *UNSAYABLE,
    *((["copy", "--to", path], "name") for path in BAD_PATHS),
    *((words, "device") for words, _ in BAD_GROUPS),
]
# what is sent before the operator shuts its side, and the reply
LINES = [
    (b"", b"bad\n"), (b"\n", b"bad\n"), (b"team-add", b"bad\n"), (b"team-add\n", b"bad\n"), (b"team-add \n", b"name\n"),
    (b"nonsense alpha\n", b"bad\n"), (b"Team-add eta\n", b"bad\n"), (b"team-add eta", b"bad\n"),
    (b"team-add eta\r\n", b"name\n"),
    (b"team-add eta\nteam-add theta\n", b"bad\n"), (b"team-add eta\n\n", b"bad\n"), (b"team-add  eta\n", b"name\n"),
    (b" team-add eta\n", b"bad\n"), (b"team-add eta platform more\n", b"bad\n"), (b"team-add \xff\n", b"bad\n"),
    (b"team-add eta\0\n", b"name\n"), (b"key-add alpha alphakey0000009\n", b"name\n"), (b"key-add alpha\n", b"bad\n"),
    (b"key-revoke alphakey0000000", b"bad\n"), (b"key-revoke alphakey00000001 \n", b"bad\n"),
    (b"reader-add nosuch nosuchkey0000001\n", b"no-team\n"),
    (b"keys-revoke nosuch\n", b"no-team\n"), (b"keys-revoke\n", b"bad\n"), (b"keys-revoke alpha", b"bad\n"),
    (b"keys-revoke alpha beta\n", b"bad\n"), (b"keys-revoke alpha \n", b"bad\n"),
    (b"revoke-fingerprint 0123456789abcdef\n", b"no-key\n"), (b"revoke-fingerprint\n", b"bad\n"),
    (b"revoke-fingerprint \n", b"no-key\n"), (b"revoke-fingerprint 0123456789abcdef more\n", b"bad\n"),
    (b"revoke-fingerprint " + b"0" * 64 + b"\n", b"no-key\n"),
    (b"revoke-fingerprint " + b"0" * 108 + b"\n", b"no-key\n"),
    (b"revoke-fingerprint " + b"0" * 109 + b"\n", b"bad\n"),
    (b"catalog\n", b"bad\n"), (b"catalog nosuchkey0000001", b"bad\n"), (b"catalog nosuchkey0000001 \n", b"bad\n"),
    (b"catalog alphakey00000001 more\n", b"bad\n"), (b"catalog alphakey00000001\n\n", b"bad\n"),
    (b"Catalog alphakey00000001\n", b"bad\n"), (b"catalog  alphakey00000001\n", b"bad\n"),
    (b"catalog nosuchkey0000001\n", b"no-key\n"), (b"catalog \n", b"no-key\n"), (b"catalog a\0\n", b"no-key\n"),
    (b"catalog alphakey00000001\n", b"done\n"), (b"catalog " + b"k" * 119 + b"\n", b"no-key\n"),
    (b"catalog " + b"k" * 120 + b"\n", b"bad\n"),
    (b"key-list", b"bad\n"), (b"key-list \n", b"bad\n"), (b"shelf-list a\n", b"bad\n"), (b"key-list\n\n", b"bad\n"),
    (b"stop", b"bad\n"), (b"stop \n", b"bad\n"), (b"stop now\n", b"bad\n"), (b"Stop\n", b"bad\n"),
    (b"stop\nstop\n", b"bad\n"),
    (b"team-add " + b"a" * 118 + b"\n", b"name\n"),
    *((b"team-add " + b"a" * (length - 9) + b"\n", b"bad\n") for length in (128, 4_095, 4_096)),
    *((b"a" * length, b"bad\n") for length in (127, 128, 4_095, 4_096, 4_097)), (b"copy \xff\n", b"bad\n"),
]  # fmt: skip


def run_by(way: str, words: list[str]) -> Ending:
    """Runs a command on the store of a way."""
    return run([words[0], way, WAYS[way], *words[1:]])


class Ordered(NamedTuple):
    """What came of ORDERS, made by `--control` on one store and by `--db` on the other, and of what followed them."""

    # for each way, how each order ended, and how the lists did
    endings: dict[str, list[Ending]]
    lists: dict[str, dict[str, Ending]]
    # what the served store answers to a list by a key, and to publishes by a key that publishes and one that reads
    replies: dict[str, bytes]
    published: tuple[int, int]
    # how a command with `--db` ends on the served store
    held: Ending
    # by key, the status of an inventory of each store, once nobody serves it
    inventories: dict[str, list[int]]


@pytest.fixture(scope="module")
def ordered() -> Ordered:
    with entered_folder():
        return make_orders()


def make_orders() -> Ordered:
    new_store("served.db")
    new_store("other.db")
    with Server("served.db", CONTROL) as server:
        words = [words_of(line.partition(" | ")[0]) for line in ORDERS]
        endings = {way: [run_by(way, order) for order in words] for way in WAYS}
        lists = {way: {name: run_by(way, [name]) for name in LISTS} for way in WAYS}
        replies = {letter: server.exchange(get(LIST, KEYS[letter])) for letter in "ARMPCN"}
        publish = [server.status(put("example.com/lib", "v1.0.0", GOMOD, key=KEYS[letter])) for letter in "AR"]
        held = run(["team-add", "--db", "served.db", "--team", "eta"])
    inventories = {
        letter: [run(["inventory", "--db", store, "--key", KEYS[letter]])[0] for store in ("served.db", "other.db")]
        for letter in "ARMPCBN"
    }
    return Ordered(endings, lists, replies, (publish[0], publish[1]), held, inventories)


@pytest.mark.parametrize("way", WAYS, ids=lambda way: f"by {way}")
@pytest.mark.parametrize("number", range(len(ORDERS)), ids=ORDERS)
def test_order_ends_alike_by_both_ways(ordered: Ordered, number: int, way: str) -> None:
    status, _, word = ORDERS[number].partition(" | ")[2].partition(" ")
    assert ordered.endings[way][number] == (int(status), b"", f"goshelf: {word}\n" if word else "")


@pytest.mark.parametrize("name", LISTS)
def test_list_is_the_same_by_both_ways(ordered: Ordered, name: str) -> None:
    assert ordered.lists["--control"][name] == ordered.lists["--db"][name]
    assert ordered.lists["--control"][name][1].count(b"\n") >= LISTS[name]


@pytest.mark.parametrize("letter", "ARMPCN")
def test_key_is_answered_after_the_orders(ordered: Ordered, letter: str) -> None:
    assert ordered.replies[letter] == NOT_FOUND


def test_key_that_was_added_publishes_and_a_reader_does_not(ordered: Ordered) -> None:
    assert ordered.published == (201, 403)


def test_served_store_is_held(ordered: Ordered) -> None:
    assert ordered.held == refusal("device")


@pytest.mark.parametrize(
    ("letter", "status"), [("A", 0), ("R", 0), ("M", 0), ("P", 0), ("C", 0), ("B", 1), ("N", 1)], ids=list("ARMPCBN")
)
def test_key_is_in_both_stores_or_in_none(ordered: Ordered, letter: str, status: int) -> None:
    assert ordered.inventories[letter] == [status, status]


class TestUnsayable:
    """Words that no line can carry are refused before anybody is asked; all others need somebody who listens."""

    @pytest.fixture(scope="class", autouse=True)
    def stores(self, class_folder: str) -> Iterator[None]:
        for file in ("served.db", "other.db"):
            new_store(file, ("alpha", KEY), groups=[("platform", KEYS["P"])])
        with Server("served.db", CONTROL):
            yield

    @pytest.mark.parametrize("way", WAYS, ids=lambda way: f"by {way}")
    @pytest.mark.parametrize(
        ("words", "word"), UNSAYABLE + BAD_GROUPS, ids=name_values(words for words, _ in UNSAYABLE + BAD_GROUPS)
    )
    def test_words_are_refused_by_both_ways(self, words: list[str], word: str, way: str) -> None:
        assert run_by(way, words) == refusal(word)

    @pytest.mark.parametrize(("words", "word"), UNHEARD, ids=name_values(words for words, _ in UNHEARD))
    def test_words_where_nobody_listens(self, words: list[str], word: str) -> None:
        assert run([words[0], "--control", "nobody", *words[1:]]) == refusal(word)

    @pytest.mark.parametrize("path", BAD_PATHS, ids=name_values(BAD_PATHS))
    def test_copy_to_a_path_that_no_line_can_carry(self, path: str) -> None:
        assert run(["copy", "--control", CONTROL, "--to", path]) == refusal("name")


class TestMadeKey:
    """A key that the program makes, adds and prints. None is printed that was not added, and none stays unprinted."""

    @pytest.fixture(scope="class")
    def server(self, class_folder: str) -> Iterator[Server]:
        new_store("served.db", ("alpha", KEY))
        new_store("other.db", ("alpha", KEY))
        with Server("served.db", CONTROL) as server:
            yield server

    def test_key_for_no_shelf(self, server: Server) -> None:
        assert run(["key-add", "--control", CONTROL, "--shelf", "nosuch", "--new"]) == refusal("no-team")

    def test_made_key_is_printed_and_reads(self, server: Server) -> None:
        status, output, errors = run(["key-add", "--control", CONTROL, "--shelf", "alpha", "--new"])
        assert (status, errors) == (0, "")
        key = output.decode().strip()
        assert re.fullmatch("[a-z0-9]{26}", key)
        assert server.exchange(get(LIST, key)) == NOT_FOUND
        assert run(["key-add", "--db", "other.db", "--shelf", "alpha", "--key", key]) == (0, b"", "")

    def test_made_key_that_cannot_be_printed_is_revoked(self, server: Server) -> None:
        listed = run(["key-list", "--control", CONTROL])
        with open("/dev/full", "wb") as full:
            words = [PROGRAM, "key-add", "--control", CONTROL, "--shelf", "alpha", "--new"]
            ran = subprocess.run(words, stdout=full, stderr=subprocess.PIPE, timeout=120)
        assert (ran.returncode, ran.stderr) == (1, b"goshelf: io\n")
        assert run(["key-list", "--control", CONTROL]) == listed

    @pytest.mark.parametrize(
        ("outcome", "word"), [(b"device\n", "device"), (b"taken\n", "taken"), (b"bad\n", "io"), (b"", "io")]
    )
    def test_made_key_is_not_printed_unless_it_was_added(self, folder: str, outcome: bytes, word: str) -> None:
        ending, sent = by_false_server(["key-add", "--shelf", "alpha", "--new", "--control"], outcome)
        assert ending == refusal(word)
        assert re.fullmatch(b"key-add alpha [a-z0-9]{26}\n", sent)


def read_files() -> tuple[bytes, bytes]:
    """Returns the bytes of the served store."""
    return read("served.db-wal"), read("served.db")


class TestLines:
    """Bytes of an operator, and the reply. Unless they are an order nothing changes, and peers are answered."""

    @pytest.fixture(scope="class")
    def server(self, class_folder: str) -> Iterator[Server]:
        new_store("served.db", ("alpha", KEY), groups=[("platform", KEYS["P"])])
        with Server("served.db", CONTROL) as server:
            yield server

    @pytest.mark.parametrize(("sent", "outcome"), LINES, ids=name_values(sent for sent, _ in LINES))
    def test_line(self, server: Server, sent: bytes, outcome: bytes) -> None:
        before = read_files()
        assert server.order(sent) == outcome
        assert server.status(get(LIST)) == 404
        assert read_files() == before

    @pytest.mark.parametrize("sent", [b"a" * 100_000, b"team-add eta" + b" " * 1_000_000], ids=name_value)
    def test_line_that_is_too_long(self, server: Server, sent: bytes) -> None:
        before = read_files()
        assert read_reply_to_too_much(server, sent) == b"bad\n"
        assert read_files() == before

    def test_reply_comes_before_the_operator_shuts_its_side(self, server: Server) -> None:
        with server.operator() as held:
            held.sendall(b"key-revoke nosuchkey0000001\n")
            assert rest(held) == b"no-key\n"

    def test_line_that_comes_byte_by_byte(self, server: Server) -> None:
        with server.operator() as held:
            for byte in b"team-add theta\n":
                held.sendall(bytes([byte]))
                # (so that each byte is read by itself)
                time.sleep(0.01)
            assert rest(held) == b"done\n"

    @pytest.mark.parametrize("sent", [b"", b"key-revoke alphakey000000"], ids=["silent", "half a line"])
    def test_operator_who_stalls_holds_a_peer_for_a_short_time(self, server: Server, sent: bytes) -> None:
        with server.operator() as held:
            held.sendall(sent)
            begun = time.monotonic()
            assert server.status(get(LIST)) == 404
            assert time.monotonic() - begun <= PATIENCE + MARGIN
            assert read_rest_or_nothing(held) == b""

    def test_operators_who_close_at_once(self, server: Server) -> None:
        for _ in range(50):
            server.operator().close()
        assert server.status(get(LIST)) == 404

    def test_line_that_drips_is_cut_off(self, server: Server) -> None:
        with server.operator() as held:
            assert drip(held) <= PATIENCE + MARGIN


def read_rest_or_nothing(held: socket.socket) -> bytes:
    """Returns all that comes, or nothing if the connection is reset."""
    try:
        return rest(held)
    except ConnectionResetError:
        return b""


def read_reply_to_too_much(server: Server, sent: bytes) -> bytes:
    """Returns the reply to more than a line holds; the connection may be closed before all is sent."""
    with server.operator() as held:
        with contextlib.suppress(OSError):
            held.sendall(sent)
            held.shutdown(socket.SHUT_WR)
        try:
            return held.recv(100)
        except ConnectionResetError:
            return b"bad\n"


def drip(held: socket.socket) -> float:
    """Sends a byte at a time, and returns the seconds until that fails."""
    begun = time.monotonic()
    with contextlib.suppress(OSError):
        while time.monotonic() - begun < 20:
            held.sendall(b"a")
            time.sleep(0.1)
    return time.monotonic() - begun


class TestKeysUnderLoad:
    """Keys that are added and revoked while peers ask with them."""

    @pytest.fixture
    def server(self, folder: str) -> Iterator[Server]:
        new_store("served.db", ("alpha", KEY), ("beta", KEYS["B"]))
        with Server("served.db", CONTROL) as server:
            assert server.status(put("example.com/lib", "v1.0.0", GOMOD)) == 201
            yield server

    def test_no_request_after_a_key_was_revoked_gets_a_200(self, server: Server) -> None:
        late, early, taken = [], [], []
        for number in range(20):
            key = f"key{number:013}"
            begun, ended = order_done(server, f"reader-add alpha {key}")
            taken.append(ended - begun)
            load = Load(server, key)
            wait_until(lambda: len(load.seen) >= 4)
            begun, ended = order_done(server, f"key-revoke {key}")
            taken.append(ended - begun)
            wait_until(lambda: any(at > ended for at, _, _ in load.seen))
            load.stop()
            late += [status for at, _, status in load.seen if at > ended]
            early += [status for _, at, status in load.seen if at < begun]
        assert {*late} == {404}, f"{len(late)} requests"
        assert {*early} == {200}, f"{len(early)} requests"
        print(f"an order under load takes {statistics.median(taken) * 1e3:.1f} ms, at most {max(taken) * 1e3:.1f}")

    def test_all_keys_of_a_shelf_are_revoked_at_once(self, server: Server) -> None:
        keys = [KEY, *(f"key{number:013}" for number in range(5))]
        assert {server.order(f"reader-add alpha {key}\n".encode()) for key in keys[1:]} == {b"done\n"}
        load = Load(server, keys[1])
        wait_until(lambda: len(load.seen) >= 4)
        begun = time.monotonic()
        assert run(["key-revoke", "--control", CONTROL, "--shelf", "alpha", "--all"]) == (0, b"", "")
        ended = time.monotonic()
        wait_until(lambda: any(at > ended for at, _, _ in load.seen))
        load.stop()
        assert {status for _, at, status in load.seen if at < begun} == {200}
        assert {status for at, _, status in load.seen if at > ended} == {404}
        assert {server.status(get("-/modules", key)) for key in keys} == {404}
        assert server.status(get("-/modules", KEYS["B"])) == 200
        server.kill()
        status, listed, errors = run(["key-list", "--db", "served.db"])
        assert (status, listed.count(b"\n"), listed.startswith(b"beta "), errors) == (0, 1, True, "")

    def test_200_operators_at_once(self, server: Server) -> None:
        load, replies = Load(server, KEY, 2), []
        lines = [f"key-add alpha key{number:013}\n".encode() for number in range(200)]
        threads = [threading.Thread(target=lambda line=line: replies.append(server.order(line))) for line in lines]
        for thread in threads:
            thread.start()
        for thread in threads:
            thread.join()
        load.stop()
        assert replies == [b"done\n"] * 200
        assert {status for _, _, status in load.seen} == {200}
        server.kill()
        assert run(["inventory", "--db", "served.db", "--key", f"key{199:013}"])[0] == 0


def order_done(server: Server, line: str) -> tuple[float, float]:
    """Gives an order, and returns when it was sent and when it was done."""
    begun = time.monotonic()
    assert server.order(f"{line}\n".encode()) == b"done\n", line
    return begun, time.monotonic()
