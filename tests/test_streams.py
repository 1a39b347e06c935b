"""Streams that are cut at will, replies by their writes, and which connections `serve` counts.

A read gives one packet of a socket, and a write makes one. Peers of a server that is stopped by SIGSTOP have all come
before it looks, and strace has `accept4` fail.
"""

import signal
import socket
import subprocess
from collections.abc import Callable

import pytest

from lib.keys import KEY, KEYS, MEMORY
from lib.messages import get, put, reply
from lib.peers import GOMOD, rest
from lib.program import PROGRAM, run
from lib.scratch import read
from lib.servers import Server, write_failing
from lib.shelves import run_in_reads
from lib.stores import new_store

PUT = put("example.com/lib", "v1.0.0", GOMOD)
GET = get("example.com/lib/@v/v1.0.0.mod")
PUBLISHED = reply(201, b"published\n")
SERVED = reply(200, GOMOD)
# a publish, GETs of its two files, and a GET with an unknown key; and the replies
STREAM = PUT + GET + get("example.com/lib/@v/v1.0.0.zip") + get("example.com/lib/@v/v1.0.0.mod", KEYS["N"])
ANSWERS = PUBLISHED + SERVED + reply(200, b"", ".zip") + reply(404, b"not found\n")
# the head of a publish that is larger than a body may be
TOO_LARGE = b"PUT / HTTP/1.1\r\nContent-Length: 18874368\r\n\r\n"
MORE = b"x" * 60_000


def test_stream_and_its_replies_have_the_bytes_of_the_page() -> None:
    assert (len(STREAM), len(ANSWERS)) == (319, 440)


@pytest.mark.parametrize("first", range(1, 400, 57))
def test_stored_run_however_it_is_cut(first: int) -> None:
    """The stream comes in pieces of each length from the first on."""
    for length in range(first, min(first + 57, 400)):
        pieces = [STREAM[at : at + length] for at in range(0, len(STREAM), length)]
        assert run_in_reads(["answer", *MEMORY], pieces) == (0, ANSWERS, ""), f"in pieces of {length}"


def test_empty_input_in_memory() -> None:
    assert run(["answer", *MEMORY]) == (0, b"", "")


def written(stream: bytes) -> list[bytes]:
    """Returns the bytes of each write with which a stream is answered."""
    ours, theirs = socket.socketpair(socket.AF_UNIX, socket.SOCK_SEQPACKET)
    with ours, theirs:
        ran = subprocess.Popen([PROGRAM, "answer", *MEMORY], stdin=subprocess.PIPE, stdout=theirs.fileno())
        theirs.close()
        assert ran.stdin
        ran.stdin.write(stream)
        ran.stdin.close()
        found = []
        while packet := ours.recv(1 << 20):
            found.append(packet)
        assert ran.wait(60) == 0
    return found


def publish_and_fetch(length: int) -> bytes:
    return put("example.com/lib", "v1.0.0", GOMOD, b"z" * length) + get("example.com/lib/@v/v1.0.0.zip")


@pytest.mark.parametrize(
    ("stream", "count"),
    [(STREAM, 4), (publish_and_fetch(65_536), 2), (publish_and_fetch(65_537), 3)],
    ids=["four replies", "a zip of 65,536 bytes", "a zip of 65,537 bytes"],
)
def test_head_and_short_body_are_written_at_once(stream: bytes, count: int) -> None:
    found = written(stream)
    assert len(found) == count
    assert found[0] == PUBLISHED
    assert stream != STREAM or b"".join(found) == ANSWERS


@pytest.fixture
def peers(folder: str, serve: Callable[..., Server]) -> Callable[..., list[socket.socket]]:
    """Has peers send bytes, each on a connection of its own, before a server of so many connections looks."""
    new_store("served.db", ("alpha", KEY))

    def connect(connections: int, *sent: bytes, program: str = PROGRAM, shuts: bool = False) -> list[socket.socket]:
        server = serve("served.db", None, "--connections", str(connections), program=program)
        if program == PROGRAM:
            server.child.send_signal(signal.SIGSTOP)
        held = [server.connected() for _ in sent]
        for peer, content in zip(held, sent):
            peer.sendall(content)
            if shuts or not content:
                peer.shutdown(socket.SHUT_WR)
        server.child.send_signal(signal.SIGCONT)
        assert server.wait_for_end() == 0
        return held

    return connect


Peers = Callable[..., list[socket.socket]]


def test_one_request_on_each_of_two_connections(peers: Peers) -> None:
    assert [rest(peer) for peer in peers(2, PUT, GET)] == [PUBLISHED, SERVED]


def test_connection_that_fails_counts(peers: Peers) -> None:
    replies = [rest(peer) for peer in peers(2, b"", b"GET / HT", GET, shuts=True)]
    assert replies == [b"", reply(400, b"bad request\n"), b""], "the third is not taken"


def test_bytes_behind_the_message_do_not_lose_the_reply(peers: Peers) -> None:
    assert [rest(peer) for peer in peers(1, PUT + MORE)] == [PUBLISHED]


def test_bytes_behind_a_message_that_is_too_large_do_not_lose_the_reply(peers: Peers) -> None:
    assert [rest(peer) for peer in peers(1, TOO_LARGE + MORE, shuts=True)] == [reply(413, b"too large\n")]


@pytest.mark.needs("strace")
class TestUntaken:
    """An `accept4` that fails counts as a connection."""

    def test_three_that_fail(self, peers: Peers) -> None:
        assert peers(3, program=write_failing(1)) == []
        assert read("calls").count(b"ECONNABORTED") == 3

    def test_fourth_behind_three_peers(self, peers: Peers) -> None:
        replies = [rest(peer) for peer in peers(4, PUT, b"", GET, program=write_failing(4))]
        assert replies == [PUBLISHED, b"", SERVED]
        assert read("calls").count(b"ECONNABORTED") == 1
