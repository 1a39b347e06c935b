"""How long a request waits behind slow and hostile peers.

At goshelf's own port it is as long as its bounds, through nginx at most a second. goshelf answers one connection after
another, so a peer holds up all others, as docs/REFERENCE.md says: 5 seconds while it sends a request and 5 while it
takes the reply, each with one more for each MiB, and 2 while it sends what nobody reads. Each kind of peer has a server
of its own. A request is made behind one such peer, and behind three. Then the same peers come to nginx, by the files of
deploy/.
"""

import os
import socket
import struct
import threading
import time
from collections.abc import Callable, Iterator
from concurrent.futures import ThreadPoolExecutor
from typing import NamedTuple

import pytest

from lib.front import AT, GOMOD, UNUSED, Client, start
from lib.keys import KEY
from lib.machine import Machine
from lib.messages import put, reply
from lib.peers import rest_of
from lib.program import answered
from lib.scratch import closed_on_failure, opened
from lib.servers import Server
from lib.stores import new_store
from lib.worked import copy_store

MIB = 1_048_576
ZIP = os.urandom(16 * MIB)
LIST = reply(200, b"v1.0.0\n")
# seconds of reading a request or writing its reply, of the drain, and those that a busy machine takes more
PATIENCE, DRAIN, MARGIN = 5, 2, 2
FOREVER = 3_600
# seconds after which a request that is not answered fails
LONGEST = 90
TOO_LARGE = 18 * MIB


def connect(port: int, room: int | None = None) -> socket.socket:
    """Returns a connection to a port of this host, with room for this many bytes of what is answered."""
    connection = socket.socket()
    connection.settimeout(LONGEST)
    if room:
        connection.setsockopt(socket.SOL_SOCKET, socket.SO_RCVBUF, room)
    connection.connect(("127.0.0.1", port))
    return connection


class Door:
    """goshelf's own port, which closes each connection."""

    closes = True

    def __init__(self, file: str) -> None:
        self.server = Server(file)
        self.port = self.server.port

    def connect(self, room: int | None = None) -> socket.socket:
        return connect(self.port, room)

    def head(self, method: str, target: str, *lines: str) -> bytes:
        """Returns the head of a request, without the empty line at its end."""
        return "".join(f"{line}\r\n" for line in (f"{method} /k/{KEY}{target} HTTP/1.1", *lines)).encode()

    def ask(self) -> bytes:
        """Returns the reply to a request for the list."""
        with self.connect() as connection:
            connection.sendall(self.head("GET", f"{AT}/list") + b"\r\n")
            return rest_of(connection)

    def close(self) -> None:
        self.server.kill()


class Front:
    """The port of nginx, which may keep a connection."""

    closes = False

    def __init__(self, client: Client) -> None:
        self.client, self.port = client, client.machine.front

    def connect(self, room: int | None = None) -> socket.socket:
        return self.client.begin(b"", room)

    def head(self, method: str, target: str, *lines: str) -> bytes:
        return self.client.head(method, target, "pub", *lines)

    def ask(self) -> bytes:
        status, body = self.client.get(f"{AT}/list", "pub")
        return reply(status, body)


class Peer:
    """A peer that acts by a function, which yields the seconds until its next step. The first step is made here, the
    others in a thread."""

    def __init__(self, door: Door | Front, acts: Callable[["Peer"], Iterator[float]]) -> None:
        self.door, self.received, self.stopped = door, b"", threading.Event()
        self.connection: socket.socket | None = None
        self.steps = acts(self)
        self.pause = next(self.steps, None)
        self.thread = threading.Thread(target=self.go_on, daemon=True)
        self.thread.start()

    def go_on(self) -> None:
        try:
            while self.pause is not None and not self.stopped.wait(self.pause):
                self.pause = next(self.steps, None)
        except OSError:
            # goshelf has closed the connection
            pass

    def begin(self, sent: bytes, room: int | None = None) -> None:
        """Connects, and sends this."""
        self.connection = self.door.connect(room)
        self.connection.sendall(sent)

    def send(self, content: bytes) -> None:
        assert self.connection
        self.connection.sendall(content)

    def receive(self, most: int) -> bytes:
        """Reads some bytes, and returns them: none at the end."""
        assert self.connection
        part = self.connection.recv(most)
        self.received += part
        return part

    def reset(self) -> None:
        """Closes the connection so that it lingers for no time, which sends a reset."""
        assert self.connection
        self.connection.setsockopt(socket.SOL_SOCKET, socket.SO_LINGER, struct.pack("ii", 1, 0))
        self.connection.close()

    def end(self) -> bytes:
        """Stops, and returns all that it received if the connection was closed."""
        self.stopped.set()
        self.thread.join()
        try:
            while self.connection and self.door.closes and self.receive(MIB):
                pass
        except OSError:
            pass
        if self.connection:
            self.connection.close()
        return self.received


def is_silent(peer: Peer) -> Iterator[float]:
    peer.begin(b"")
    yield FOREVER


def sends_a_byte_every_4_seconds(peer: Peer) -> Iterator[float]:
    peer.begin(b"G")
    for at in range(1, 60):
        yield 4
        peer.send(peer.door.head("GET", f"{AT}/list")[at : at + 1])


def sends_half_a_head(peer: Peer) -> Iterator[float]:
    head = peer.door.head("GET", f"{AT}/list")
    peer.begin(head[: len(head) // 2])
    yield FOREVER


def sends_a_body_at_1_kb_a_second(peer: Peer) -> Iterator[float]:
    lines = f"Mod-Length: {len(GOMOD)}", f"Content-Length: {len(GOMOD) + 100_000}"
    peer.begin(peer.door.head("PUT", f"{AT}/v9.0.0", *lines) + b"\r\n" + GOMOD)
    for _ in range(400):
        yield 0.25
        peer.send(bytes(250))


def ask_for_the_zip(peer: Peer) -> None:
    peer.begin(peer.door.head("GET", f"{AT}/v1.0.0.zip", "Connection: close") + b"\r\n", 4_096)


def never_reads_a_zip(peer: Peer) -> Iterator[float]:
    ask_for_the_zip(peer)
    yield FOREVER


def reads_a_zip_at_10_kb_a_second(peer: Peer) -> Iterator[float]:
    ask_for_the_zip(peer)
    for _ in range(1_000):
        yield 0.1
        peer.receive(1_000)


def feeds_the_drain(peer: Peer) -> Iterator[float]:
    peer.begin(peer.door.head("PUT", f"{AT}/v9.0.0", "Mod-Length: 23", f"Content-Length: {TOO_LARGE}") + b"\r\n")
    for _ in range(300):
        yield 0.05
        peer.send(bytes(50_000))


def is_reset_in_mid_zip(peer: Peer) -> Iterator[float]:
    ask_for_the_zip(peer)
    yield 0
    while len(peer.received) < MIB and peer.receive(65_536):
        pass
    peer.reset()


def sends_a_bare_cr(peer: Peer) -> Iterator[float]:
    peer.begin(peer.door.head("GET", f"{AT}/list", "X-Text: a\rb") + b"\r\n")
    yield FOREVER


def sends_a_nul(peer: Peer) -> Iterator[float]:
    peer.begin(peer.door.head("GET", f"{AT}/list", "X-Text: a\0b") + b"\r\n")
    yield FOREVER


def sends_an_http2_preface(peer: Peer) -> Iterator[float]:
    peer.begin(b"PRI * HTTP/2.0\r\n\r\nSM\r\n\r\n" + bytes([0, 0, 0, 4, 0, 0, 0, 0, 0]))
    yield FOREVER


def closes_1000_connections(peer: Peer) -> Iterator[float]:
    yield 0
    for _ in range(1_000):
        connect(peer.door.port).close()


class Kind(NamedTuple):
    """What a peer does, the seconds that it may hold others beside those for the bytes that it is sent, and the status
    that it gets."""

    acts: Callable[[Peer], Iterator[float]]
    patience: int
    status: bytes = b""

    def __str__(self) -> str:
        return self.acts.__name__.replace("_", " ")


KINDS = [
    Kind(is_silent, PATIENCE),
    Kind(sends_a_byte_every_4_seconds, PATIENCE),
    Kind(sends_half_a_head, PATIENCE),
    Kind(sends_a_body_at_1_kb_a_second, PATIENCE),
    Kind(never_reads_a_zip, PATIENCE, b"200"),
    Kind(reads_a_zip_at_10_kb_a_second, PATIENCE, b"200"),
    Kind(feeds_the_drain, DRAIN, b"413"),
    Kind(is_reset_in_mid_zip, 0, b"200"),
    Kind(sends_a_bare_cr, DRAIN, b"400"),
    Kind(sends_a_nul, DRAIN, b"400"),
    Kind(sends_an_http2_preface, DRAIN, b"400"),
    Kind(closes_1000_connections, 0),
]
# peers that come and go; the others go on for as long as they are let
PASSING = (is_reset_in_mid_zip, closes_1000_connections)
by_kind = pytest.mark.parametrize("kind", KINDS, ids=str)
by_count = pytest.mark.parametrize("count", [1, 3], ids=["one", "three"])


class Wait(NamedTuple):
    """A request behind peers: its reply, the seconds until it came, and the bytes and the status of each peer."""

    reply: bytes
    seconds: float
    sizes: list[int]
    statuses: list[bytes]


def wait_behind(door: Door | Front, kind: Kind, count: int) -> Wait:
    """Makes a request behind this many peers of a kind."""
    peers = [Peer(door, kind.acts) for _ in range(count)]
    for peer in peers:
        peer.thread.join(30 if kind.acts in PASSING else 0.1)
    begun = time.monotonic()
    answer = door.ask()
    seconds = time.monotonic() - begun
    received = [peer.end() for peer in peers]
    return Wait(answer, seconds, list(map(len, received)), [content[9:12] for content in received])


def make_store(file: str, version: str, zip_bytes: bytes) -> None:
    new_store(file, ("alpha", KEY))
    replies = answered(["--db", file], [put("example.com/lib", version, GOMOD, zip_bytes)])
    assert replies == [(201, b"published\n")]


Waits = dict[tuple[Kind, int], Wait]


class TestOwnPort:
    @pytest.fixture(scope="class")
    def waits(self, request: pytest.FixtureRequest, class_folder: str) -> Waits:
        """The waits behind each kind that a test was chosen for, the kinds side by side."""
        make_store("shelves.db", "v1.0.0", ZIP)
        tests = [item for item in request.session.items if item.parent is request.node]
        chosen = {test.callspec.params["kind"] for test in tests if isinstance(test, pytest.Function)}

        def measure(kind: Kind) -> Waits:
            file = f"{class_folder}/{kind}.db"
            copy_store("shelves.db", file)
            door = Door(file)
            try:
                return {(kind, count): wait_behind(door, kind, count) for count in (1, 3)}
            finally:
                door.close()

        with ThreadPoolExecutor(len(KINDS)) as pool:
            return {key: wait for waits in pool.map(measure, chosen) for key, wait in waits.items()}

    @by_kind
    @by_count
    def test_a_request_waits_as_long_as_the_bounds(self, waits: Waits, kind: Kind, count: int) -> None:
        wait = waits[kind, count]
        assert wait.reply == LIST
        assert wait.seconds <= count * kind.patience + sum(wait.sizes) / MIB + MARGIN

    @by_kind
    @by_count
    def test_peers_get_their_status(self, waits: Waits, kind: Kind, count: int) -> None:
        assert waits[kind, count].statuses == [kind.status] * count


class TestSlowLine:
    """A peer on a slow line, whose bytes give it the time that it needs."""

    BODY, RATE = ZIP[: 12 * MIB], 1_600_000

    def keep_rate(self, begun: float, sent: int) -> None:
        """Waits until a line of this rate has carried this many bytes."""
        time.sleep(max(0, begun + sent / self.RATE - time.monotonic()))

    def test_publish_of_12_mib_in_8_seconds(self, folder: str, serve: Callable[..., Server]) -> None:
        new_store("shelves.db", ("alpha", KEY))
        request, begun = put("example.com/lib", "v1.1.0", GOMOD, self.BODY), time.monotonic()
        with connect(serve("shelves.db").port) as connection:
            for at in range(0, len(request), 100_000):
                self.keep_rate(begun, at)
                connection.sendall(request[at : at + 100_000])
            assert rest_of(connection) == reply(201, b"published\n")

    def test_zip_of_12_mib_in_8_seconds(self, folder: str, serve: Callable[..., Server]) -> None:
        make_store("shelves.db", "v1.1.0", self.BODY)
        # with room for the bytes of 0.16 s: where each few KiB wait until a busy machine runs this reader again, it is
        # a slow peer
        with connect(serve("shelves.db").port, 262_144) as connection:
            connection.sendall(f"GET /k/{KEY}{AT}/v1.1.0.zip HTTP/1.1\r\n\r\n".encode())
            begun, received = time.monotonic(), b""
            while part := connection.recv(65_536):
                received += part
                self.keep_rate(begun, len(received))
        is_whole = received == reply(200, self.BODY, ".zip")
        assert is_whole, f"{len(received)} bytes in {time.monotonic() - begun:.1f} s"


def open_front(folder: str) -> Client:
    """Sets goshelf up behind nginx, with a user who publishes for alpha."""
    machine = Machine(folder)
    with closed_on_failure(machine):
        new_store(machine.store, ("alpha", UNUSED))
        start(machine, {"example.com": ["alpha"]})
        client = Client(machine)
        client.add("pub", "alpha", "publish")
        assert client.put("v1.0.0", GOMOD + ZIP) == (201, b"published\n")
    return client


@pytest.mark.needs("nginx", "nginx-js", "nginx-stream", "openssl")
@pytest.mark.root
class TestThroughNginx:
    """nginx waits for the peers itself."""

    @pytest.fixture(scope="class")
    def front(self) -> Iterator[Front]:
        with opened(open_front) as client:
            yield Front(client)

    @by_kind
    @by_count
    def test_a_request_waits_at_most_a_second(self, front: Front, kind: Kind, count: int) -> None:
        wait = wait_behind(front, kind, count)
        assert wait.reply == LIST
        assert wait.seconds <= 1
