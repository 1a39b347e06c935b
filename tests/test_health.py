"""`ping --control S`: the counts after known requests, and after connections that get no answer.

It also prints the sizes of the store, the last copy, and publishes and fetches by shelf, and leaves all else as it is.
Some pings are made under load, behind a publish and of servers that lie. What goshelf counts is compared with what the
peers here were answered.
"""

import os
import re
import socket
import struct
import subprocess
import threading
import time
from collections.abc import Callable, Iterator
from typing import NamedTuple

import pytest

from lib.ids import name_value, name_values
from lib.keys import KEY, KEYS
from lib.messages import get, put
from lib.peers import GOMOD, LIST, Load, by_false_server, rest
from lib.ports import wait_until
from lib.program import PROGRAM, refusal, run
from lib.scratch import read
from lib.servers import CONTROL, Server
from lib.stores import new_store

TIME = rb"\d{4}-\d\d-\d\dT\d\d:\d\d:\d\dZ"
FORM = re.compile(
    rb"connections=(\d+) 2xx=(\d+) 4xx=(\d+) 5xx=(\d+) unanswered=(\d+) store-failures=(\d+) "
    rb"since=(%s) versions=(\d+) bytes=(\d+) log=(\d+)(?: copied=(%s))?(?: copying=\d+/\d+)? shelves=(\d+)\n"
    rb"((?:shelf [a-z0-9-]+ publishes=\d+ fetches=\d+\n)*)" % (TIME, TIME)
)
PING = ["ping", "--control", CONTROL]
OLD = b"connections=124 2xx=100 4xx=20 5xx=3 unanswered=1 store-failures=0 since=2026-11-26T18:40:00Z versions=12345\n"
SHORT = OLD[:-1] + b" shelves=0\n"
ALPHA, COMMON = b"shelf alpha publishes=1 fetches=0\n", b"shelf common publishes=0 fetches=70\n"
LINE = OLD[:-1] + b" bytes=8192 log=32 copied=2026-11-26T18:50:00Z shelves=2\n" + ALPHA + COMMON
MOST = 2**64 - 1
LONGEST = f"connections={MOST} 2xx={MOST} 4xx={MOST} 5xx={MOST} unanswered={MOST} store-failures={MOST} ".encode()
LONGEST += f"since=9999-12-31T23:59:59Z versions={MOST} bytes={MOST} log={MOST} copied=9999-12-31T23:59:59Z ".encode()
LONGEST += b"shelves=1000\n" + b"".join(
    f"shelf {'a' * 28}{number:04} publishes={MOST} fetches={MOST}\n".encode() for number in range(1000)
)
# replies that are no health's: nothing of them is printed
FALSE = [
    b"", b"done\n", b"bad\n", b"stopping\n", b"ok\n", LINE[:-1], LINE + b"\n", LINE + LINE, b" " + LINE,
    LINE[:-1] + b" \n", LINE[:-1] + b"\r\n",
    LINE.replace(b"\n", b" keys=1\n"), LINE.replace(b" 5xx=3", b""), LINE.replace(b"2xx=100 4xx=20", b"4xx=20 2xx=100"),
    LINE.replace(b" 2xx", b"  2xx"), LINE.replace(b"=124", b"=0124"), LINE.replace(b"=124", b"=+124"),
    LINE.replace(b"=124", b"=-124"),
    LINE.replace(b"=124", b"="), LINE.replace(b"=124", b"=18446744073709551616"), LINE.replace(b"=124", b"=1e3"),
    LINE.replace(b"=124", b"=\xd9\xa1"),
    LINE.replace(b"=124", b"=124\x1b[2J"), LINE.replace(b"Z", b"+00:00"), LINE.replace(b"18:40", b"24:40"),
    LINE.replace(b"11-26", b"02-30"),
    LINE.replace(b"2026", b"12026"), LINE.replace(b"conn", b"Conn"), b"\x1b[2J" + LINE, b"\xff" + LINE,
    LINE.replace(b" ", b"\t"),
    LINE.replace(b" ", b"\0"), b"a" * 300 + b"\n", LINE.replace(b"=124", b"=" + b"0" * 300),
    OLD, SHORT + ALPHA, SHORT + b"\n", LINE.replace(COMMON, b""), LINE.replace(ALPHA, b""), LINE.replace(ALPHA, COMMON),
    LINE.replace(ALPHA, ALPHA + ALPHA), LINE.replace(ALPHA + COMMON, COMMON + ALPHA), LINE + b"done\n",
    LINE.replace(b"=70", b"=070"), LINE.replace(b"=70", b"="), LINE.replace(b"=70", b"=18446744073709551616"),
    LINE.replace(b"alpha", b"Alpha"), LINE.replace(b"alpha", b""), LINE.replace(b"alpha", b"\x1b[2J"),
    LINE.replace(b"alpha", b"a" * 33), LINE.replace(b"publishes=1", b"publishes=1 publishes=1"),
    LINE.replace(b" bytes=8192 log=32", b" log=32 bytes=8192"), LINE.replace(b"log=32", b"log=-32"),
    LINE.replace(b"log=32", b"log=32 log=32"), LINE.replace(b"18:50", b"24:50"),
    LINE.replace(b" shelves", b" copying=12 shelves"), LINE.replace(b" shelves", b" copying=1/2/3 shelves"),
    LINE.replace(b" shelves", b" copying=1/-2 shelves"), LINE.replace(b" copied", b" copying=1/2 copied"),
    LINE.replace(b"shelves=2", b"shelves=3"),
]  # fmt: skip
# what a server replies, what is printed, and how the ping ends; `;` is the end of a line, and `@` stands for OLD
HEALTHS = """
@ shelves=0|@ shelves=0|done
@ bytes=4096 shelves=0|@ bytes=4096 shelves=0|done
@ bytes=8192 log=32 copied=2026-11-26T18:50:00Z shelves=2;shelf alpha publishes=1 fetches=0;shelf common publishes=0 \
fetches=7|@ bytes=8192 log=32 copied=2026-11-26T18:50:00Z shelves=2;shelf alpha publishes=1 fetches=0;shelf common \
publishes=0 fetches=7|done
@ copying=1200/50000 shelves=0|@ copying=1200/50000 shelves=0|done
@ log=32 copied=2026-11-26T18:50:00Z copying=0/0 shelves=0|@ log=32 copied=2026-11-26T18:50:00Z copying=0/0 \
shelves=0|done
@||Io
0@ shelves=0||Io
@ shelves=0 ||Io
@ shelves=00||Io
@ shelves=1||Io
@ shelves=0;||Io
@ shelves=0;shelf alpha publishes=1 fetches=0||Io
@ shelves=1;shelf Alpha publishes=1 fetches=0||Io
@ shelves=1;shelf  publishes=1 fetches=0||Io
@ shelves=2;shelf beta publishes=1 fetches=0;shelf alpha publishes=1 fetches=0||Io
@ shelves=2;shelf alpha publishes=1 fetches=0;shelf alpha publishes=1 fetches=0||Io
@ log=32 bytes=8192 shelves=0||Io
@ copied=2026-11-26T24:50:00Z shelves=0||Io
@ copying=1200 shelves=0||Io
@ copying=1200/ shelves=0||Io
@ copying=/50000 shelves=0||Io
@ copying=1200/50000/1 shelves=0||Io
@ copying=01200/50000 shelves=0||Io
@ copying=1200/18446744073709551616 shelves=0||Io
@ copying=1200/50000 copying=1200/50000 shelves=0||Io
@ copying=1200/50000 copied=2026-11-26T18:50:00Z shelves=0||Io
connections=124||Io
device||Device
memory||Memory
busy||Io
ended||Io
done||Io
bad||Io
||Io
""".strip(
    "\n"
).split(
    "\n"
)
# the place of each class of statuses among the counts
CLASSES = [None, 2, 4, 5]
NO_LINGER = struct.pack("ii", 1, 0)


class Health(NamedTuple):
    """What a ping prints."""

    # connections, the three classes of statuses, and what got no answer
    counts: list[int]
    failures: int
    since: str
    versions: int
    sizes: list[int]
    copied: str | None
    # how many shelves it says that it lists, and each with its publishes and fetches
    shelf_count: int
    shelves: list[tuple[str, int, int]]


def ping() -> Health:
    """Returns what a ping prints."""
    status, printed, errors = run(PING)
    found = FORM.fullmatch(printed)
    assert (status, errors) == (0, "") and found, (status, printed, errors)
    rows = [line.replace("=", " ").split() for line in found[13].decode().splitlines()]
    return Health(
        counts=[int(count) for count in found.groups()[:5]],
        failures=int(found[6]),
        since=found[7].decode(),
        versions=int(found[8]),
        sizes=[int(found[9]), int(found[10])],
        copied=found[11] and found[11].decode(),
        shelf_count=int(found[12]),
        shelves=[(row[1], int(row[3]), int(row[5])) for row in rows],
    )


def counts_of(connections: int) -> list[int]:
    """Returns the counts, once this many connections were taken. A ping goes before peers who wait to be taken."""
    wait_until(lambda: ping().counts[0] >= connections)
    return ping().counts


def utc() -> str:
    return time.strftime("%Y-%m-%dT%H:%M:%SZ", time.gmtime())


def test_ping_where_nobody_listens(folder: str) -> None:
    assert run(PING) == refusal("device")


KNOWN = [
    (put("example.com/lib", "v1.0.0", GOMOD), 201), (put("example.com/lib", "v1.0.0", GOMOD), 200),
    (put("example.com/lib", "v1.1.0", GOMOD), 201),
    (put("example.com/lib", "v1.0.0", GOMOD, key=KEYS["B"]), 201),
    (put("example.com/lib", "v1.0.0", GOMOD, b"zip"), 409), (get(LIST), 200),
    (get("example.com/lib/@v/v1.0.0.info"), 200), (get(LIST, KEYS["N"]), 404),
    (get("example.com/lib/@v/v9.0.0.info"), 404), (b"GET /\r\n\r\n", 400),
    (b"half a requ", 400), (b"PUT / HTTP/1.1\r\nContent-Length: 17825793\r\n\r\n", 413),
    (put("example.com/lib", "v2.0.0", GOMOD), 422),
]  # fmt: skip


class TestKnown:
    """The counts after requests whose statuses are known."""

    @pytest.fixture(scope="class")
    def seen(self, class_folder: str) -> list[tuple[int, Health]]:
        """The health of a server that begins, after the status 0, and after each request its status and the health."""
        new_store("served.db", ("alpha", KEY), ("beta", KEYS["B"]))
        begun = utc()
        with Server("served.db", CONTROL) as server:
            first = ping()
            assert begun <= first.since <= utc()
            return [(0, first), *((server.status(request), ping()) for request, _ in KNOWN)]

    def test_server_that_begins(self, seen: list[tuple[int, Health]]) -> None:
        first = seen[0][1]
        assert (first.counts, first.failures, first.versions) == ([0, 0, 0, 0, 0], 0, 0)

    @pytest.mark.parametrize("number", range(len(KNOWN)), ids=name_values(request for request, _ in KNOWN))
    def test_request_is_counted(self, seen: list[tuple[int, Health]], number: int) -> None:
        statuses = [status for _, status in KNOWN[: number + 1]]
        wanted = [len(statuses), 0, 0, 0, 0]
        for status in statuses:
            wanted[CLASSES.index(status // 100)] += 1
        found, health = seen[number + 1]
        assert (found, health.counts, health.versions) == (statuses[-1], wanted, statuses.count(201))
        assert health.since == seen[0][1].since, "the time of the begin stays"


class TestUnanswered:
    """Connections that get no status count, and as unanswered; one that closes at once holds nobody."""

    @pytest.fixture
    def server(self, folder: str) -> Iterator[Server]:
        new_store("served.db", ("alpha", KEY))
        with Server("served.db", CONTROL) as server:
            yield server

    def test_peers_who_close_at_once(self, server: Server) -> None:
        for _ in range(50):
            server.connected().close()
        assert counts_of(50) == [50, 0, 0, 0, 50]

    def test_peers_who_reset_the_connection(self, server: Server) -> None:
        for _ in range(10):
            held = server.connected()
            held.setsockopt(socket.SOL_SOCKET, socket.SO_LINGER, NO_LINGER)
            held.close()
        assert counts_of(10) == [10, 0, 0, 0, 10]

    def test_1000_peers_who_close_at_once_and_a_request(self, server: Server) -> None:
        begun = time.monotonic()
        for _ in range(1_000):
            server.connected().close()
        assert server.status(get(LIST)) == 404
        assert time.monotonic() - begun < 30
        assert ping().counts == [1_001, 0, 1, 0, 1_000]

    def test_ping_behind_a_peer_who_stays_silent_in_mid_request(self, server: Server) -> None:
        with server.connected() as held:
            held.sendall(b"GET /k")
            assert counts_of(1) == [1, 0, 0, 0, 1]


# orders that are not counted, and what each is answered
UNCOUNTED = {
    b"team-add beta\n": b"done\n",
    b"team-add alpha\n": b"taken\n",
    b"nonsense\n": b"bad\n",
    b"ping now\n": b"bad\n",
    b"ping": b"bad\n",
    b"key-revoke nosuchkey0000001\n": b"no-key\n",
}


class TestBeside:
    """What a ping leaves as it is, and what is not counted."""

    @pytest.fixture(scope="class")
    def server(self, class_folder: str) -> Iterator[Server]:
        new_store("served.db", ("alpha", KEY))
        with Server("served.db", CONTROL) as server:
            assert server.status(put("example.com/lib", "v1.0.0", GOMOD)) == 201
            yield server

    def test_pings_change_nothing_and_are_not_counted(self, server: Server) -> None:
        before = read("served.db-wal"), read("served.db"), ping()
        for _ in range(100):
            server.order(b"ping\n")
        assert (read("served.db-wal"), read("served.db"), ping()) == before

    @pytest.mark.parametrize("order", UNCOUNTED, ids=name_value)
    def test_order_is_not_counted(self, server: Server, order: bytes) -> None:
        before = ping()
        assert server.order(order) == UNCOUNTED[order]
        after = ping()
        assert (after.counts, after.failures, after.since, after.versions) == before[:4]

    def test_operator_who_closes_at_once_is_not_counted(self, server: Server) -> None:
        before = ping()
        server.operator().close()
        assert ping() == before

    def test_ping_that_comes_byte_by_byte(self, server: Server) -> None:
        with server.operator() as held:
            for byte in b"ping\n":
                held.sendall(bytes([byte]))
                # (so that each byte is read by itself)
                time.sleep(0.01)
            assert FORM.fullmatch(rest(held))

    @pytest.mark.parametrize("word", [KEY, "example.com", "served.db"])
    def test_no_key_and_no_path_is_printed(self, server: Server, word: str) -> None:
        assert word.encode() not in server.order(b"ping\n")


def test_next_server_begins_anew_with_the_versions_of_the_store(folder: str, serve: Callable[..., Server]) -> None:
    new_store("served.db", ("alpha", KEY))
    first = serve("served.db", CONTROL)
    assert first.status(put("example.com/lib", "v1.0.0", GOMOD)) == 201
    first.kill()
    last = serve("served.db", CONTROL, "--connections", "1")
    health = ping()
    assert (health.counts, health.failures, health.versions) == ([0, 0, 0, 0, 0], 0, 1)
    assert last.status(get(LIST)) == 200
    assert (last.child.wait(60), run(PING)) == (0, refusal("device")), "a server whose connections are used up"


class TestSizes:
    """The sizes are those of the file and its log, also behind a link; the last copy that was made has its time."""

    @pytest.fixture(scope="class")
    def server(self, class_folder: str) -> Iterator[Server]:
        new_store("served.db", ("alpha", KEY))
        os.symlink("served.db", "link.db")
        with Server("link.db", CONTROL) as server:
            yield server

    @pytest.mark.parametrize("number", range(3))
    def test_sizes_after_a_publish(self, server: Server, number: int) -> None:
        assert server.status(put("example.com/lib", f"v1.{number}.0", GOMOD, b"z" * 100_000 * number)) == 201
        assert ping().sizes == [os.path.getsize(file) for file in ("served.db", "served.db-wal")]

    def test_time_of_the_last_copy(self, folder: str, serve: Callable[..., Server]) -> None:
        new_store("served.db", ("alpha", KEY))
        serve("served.db", CONTROL)
        words = ["copy", "--control", CONTROL, "--to"]
        assert ping().copied is None
        begun = utc()
        assert run([*words, "copy.db"]) == (0, b"", "")
        copied = ping().copied
        assert copied and begun <= copied <= utc()
        # (a later copy has another time, which has seconds)
        wait_until(lambda: utc() > copied)
        assert run([*words, "copy.db"]) == refusal("not-empty")
        assert ping().copied == copied
        assert run([*words, "other.db"]) == (0, b"", "")
        later = ping().copied
        assert later and copied < later <= utc()


MODULE, ZIP = ("example.com/lib", "v1.0.0"), "example.com/lib/@v/v1.0.0.zip"
# requests, one after another, the status of each, and what it adds to the publishes and fetches of a shelf
BY_SHELF: list[tuple[bytes, int, dict[str, tuple[int, int]]]] = [
    (get(ZIP), 404, {}), (put(*MODULE, GOMOD, key=KEYS["R"]), 403, {}),
    (put("example.com/lib", "v2.0.0", GOMOD), 422, {}), (put(*MODULE, GOMOD), 201, {"alpha": (1, 0)}),
    (put(*MODULE, GOMOD), 200, {}), (put(*MODULE, GOMOD, b"zip"), 409, {}),
    (get(ZIP), 200, {"alpha": (0, 1)}), (get(ZIP, KEYS["R"]), 200, {"alpha": (0, 1)}),
    (get(LIST), 200, {}), (get("example.com/lib/@v/v1.0.0.mod"), 200, {}),
    (get("example.com/lib/@v/v1.0.0.info"), 200, {}), (get("-/gosum/example.com/lib/@v/v1.0.0"), 200, {}),
    (get(ZIP, KEYS["B"]), 404, {}), (get(ZIP, KEYS["N"]), 404, {}), (get(ZIP, KEYS["C"]), 404, {}),
    (put("example.com/all", "v1.0.0", b"module example.com/all\n", key=KEYS["C"]), 201, {"common": (1, 0)}),
    (get("example.com/all/@v/v1.0.0.zip", KEYS["B"]), 200, {"beta": (0, 1)}),
    (get("example.com/all/@v/v1.0.0.zip"), 200, {"alpha": (0, 1)}),
    (put(*MODULE, GOMOD, key=KEYS["B"]), 201, {"beta": (1, 0)}),
]  # fmt: skip


class TestByShelf:
    """Publishes and fetches are counted for the shelf of the key, once they ended well, and nothing else is."""

    @pytest.fixture(scope="class")
    def seen(self, class_folder: str) -> list[tuple[int, Health]]:
        """The health of a server that begins, after each request its status and the health, and the health of the
        next server."""
        new_store("served.db", ("beta", KEYS["B"]), ("alpha", KEY, KEYS["R"]), ("common", KEYS["C"]))
        with Server("served.db", CONTROL) as server:
            found = [(0, ping()), *((server.status(request), ping()) for request, _, _ in BY_SHELF)]
        with Server("served.db", CONTROL):
            return [*found, (0, ping())]

    @pytest.mark.parametrize("number", [0, -1], ids=["the first server", "the next server"])
    def test_server_that_begins(self, seen: list[tuple[int, Health]], number: int) -> None:
        health = seen[number][1]
        assert (health.shelf_count, health.shelves) == (0, [])

    @pytest.mark.parametrize("number", range(len(BY_SHELF)), ids=name_values(request for request, _, _ in BY_SHELF))
    def test_request_is_counted_for_its_shelf(self, seen: list[tuple[int, Health]], number: int) -> None:
        totals: dict[str, tuple[int, int]] = {}
        for _, _, more in BY_SHELF[: number + 1]:
            for shelf, (publishes, fetches) in more.items():
                before = totals.get(shelf, (0, 0))
                totals[shelf] = before[0] + publishes, before[1] + fetches
        status, health = seen[number + 1]
        assert status == BY_SHELF[number][1]
        assert (health.shelf_count, health.shelves) == (
            len(totals),
            [(shelf, *totals[shelf]) for shelf in sorted(totals)],
        )


def test_pings_under_load(folder: str, serve: Callable[..., Server]) -> None:
    """Each sums up, none falls behind the one before, and the last counts what the peers saw."""
    new_store("served.db", ("alpha", KEY))
    server = serve("served.db", CONTROL)
    load, found, begun = Load(server, KEY, 4), [], time.monotonic()
    while time.monotonic() - begun < 3:
        found.append(ping().counts)
    load.stop()
    assert [counts for counts in found if counts[0] != sum(counts[1:])] == [], f"{len(found)} pings"
    falls = [pair for pair in zip(found, found[1:]) if any(later < earlier for earlier, later in zip(*pair))]
    assert falls == []
    assert ping().counts == [len(load.seen), 0, len(load.seen), 0, 0]


def test_ping_behind_a_publish_waits_for_its_answer(folder: str, serve: Callable[..., Server]) -> None:
    new_store("served.db", ("alpha", KEY))
    server = serve("served.db", CONTROL)
    request = put("example.com/lib", "v1.0.0", GOMOD, b"z" * 100_000)
    results: list[Health] = []
    thread = threading.Thread(target=lambda: results.append(ping()))
    with server.connected() as held:
        held.sendall(request[:-5])
        thread.start()
        thread.join(0.5)
        assert results == [], "a ping waits while a publish comes"
        held.sendall(request[-5:])
        assert rest(held).split()[1] == b"201"
        thread.join()
    assert [(health.counts, health.versions) for health in results] == [([1, 1, 0, 0, 0], 1)]


def name_false(sent: bytes) -> str:
    """Names a reply by what differs from LINE, or by its bytes if most of it does."""
    start = len(os.path.commonprefix([sent, LINE]))
    rest_of_both = min(len(sent), len(LINE)) - start
    end = min(len(os.path.commonprefix([sent[::-1], LINE[::-1]])), rest_of_both)
    if start + end < len(LINE) // 2:
        return name_value(sent)
    was, is_now = LINE[start : len(LINE) - end], sent[start : len(sent) - end]
    return f"{name_value(was)} at {start} becomes {name_value(is_now)}"


class TestFalseServers:
    """What the command prints of a server that lies: nothing but the lines of a health."""

    @pytest.fixture(scope="class", autouse=True)
    def own_folder(self, class_folder: str) -> None:
        """The socket of the false server is in a folder of the class."""

    @pytest.mark.parametrize(
        "line", [LINE, SHORT, LINE.replace(b" shelves", b" copying=1200/50000 shelves"), LONGEST], ids=name_value
    )
    def test_health_is_printed(self, line: bytes) -> None:
        assert by_false_server(PING[:-1], line) == ((0, line, ""), b"ping\n")

    @pytest.mark.parametrize("sent", FALSE, ids=name_false)
    def test_reply_that_is_no_health(self, sent: bytes) -> None:
        assert by_false_server(PING[:-1], sent) == (refusal("io"), b"ping\n")

    @pytest.mark.parametrize("row", HEALTHS, ids=name_value)
    def test_health(self, row: str) -> None:
        sent, printed, ending = (part.replace("@", OLD.decode().rstrip("\n")) for part in row.split("|"))
        line, wanted = (part.replace(";", "\n").encode() + b"\n" for part in (sent, printed))
        found = by_false_server(PING[:-1], line)
        assert found == ((0, wanted, "") if ending == "done" else refusal(ending.lower()), b"ping\n")


def test_output_that_is_full(folder: str, serve: Callable[..., Server]) -> None:
    new_store("served.db")
    serve("served.db", CONTROL)
    with open("/dev/full", "wb") as full:
        ran = subprocess.run([PROGRAM, *PING], stdout=full, stderr=subprocess.PIPE, timeout=60)
    assert (ran.returncode, ran.stderr) == (1, b"goshelf: io\n")
