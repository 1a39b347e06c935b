"""Two servers whose standard input is one socket that listens, as two units of one socket have it.

Whether a call waits there is shared by all who have the socket. A server with operators needs that it does not.
"""

import contextlib
import os
import signal
import socket
import subprocess
import time
from collections.abc import Iterator, Sequence

import pytest

from lib.keys import KEY
from lib.messages import get, reply
from lib.peers import LIST, exchanged, rest_of
from lib.ports import wait_until
from lib.program import PROGRAM, run
from lib.scratch import read
from lib.servers import CONTROL
from lib.stores import new_store

NOT_FOUND = reply(404, b"not found\n")
OPERATORS = ["--control", CONTROL]


@pytest.fixture
def listener(folder: str) -> Iterator[socket.socket]:
    """Makes the stores of two servers and the socket."""
    for store in ("one.db", "two.db"):
        new_store(store, ("alpha", KEY))
    with socket.create_server(("127.0.0.1", 0)) as made:
        yield made


def state_of(process: int) -> bytes:
    """Returns the letter of a process's state."""
    return read(f"/proc/{process}/stat").rpartition(b")")[2].split()[0]


def is_held(process: int) -> bool:
    """Whether strace keeps a process stopped for half a second, as where it delays a call."""
    for _ in range(10):
        if state_of(process) != b"t":
            return False
        time.sleep(0.05)
    return True


def stop(server: subprocess.Popen[bytes]) -> None:
    """Stops a server, and waits until it has: before that it may still take a peer."""
    server.send_signal(signal.SIGSTOP)
    wait_until(lambda: state_of(server.pid) == b"T")


@contextlib.contextmanager
def served(
    store: str, listener: socket.socket, *more: str, before: Sequence[str] = ()
) -> Iterator[subprocess.Popen[bytes]]:
    """Serves a store at the socket until the block ends."""
    words = [*before, PROGRAM, "serve", "--db", store, "--stdin", *more]
    with subprocess.Popen(words, stdin=listener.fileno(), stdout=subprocess.PIPE) as server:
        assert server.stdout and server.stdout.readline() == b"listening on standard input\n"
        try:
            yield server
        finally:
            server.kill()


def test_server_beside_one_with_operators_takes_its_connections(listener: socket.socket) -> None:
    """The other one is stopped, so it takes none."""
    port = listener.getsockname()[1]
    with served("one.db", listener, "--connections", "3") as one, served("two.db", listener, *OPERATORS) as two:
        stop(two)
        assert [exchanged(port, get(LIST)) for _ in range(3)] == [NOT_FOUND] * 3
        assert one.wait(60) == 0


@pytest.mark.needs("strace")
@pytest.mark.parametrize("is_first", [True, False], ids=["begins first", "begins last"])
def test_operators_do_not_wait_for_a_peer_whom_another_server_took(listener: socket.socket, is_first: bool) -> None:
    """strace stops the server with operators for 4 seconds before it takes the peer."""
    late = ["strace", "-f", "-qq", "-o", "calls", "-e", "trace=accept4"]
    late += ["-e", "inject=accept4:delay_enter=4000000:when=1"]
    with contextlib.ExitStack() as held:
        begun = {}
        for store in ("two.db", "one.db") if is_first else ("one.db", "two.db"):
            more, before = (OPERATORS, late) if store == "two.db" else ([], [])
            begun[store] = held.enter_context(served(store, listener, *more, before=before))
        traced = int(read(f"/proc/{begun['two.db'].pid}/task/{begun['two.db'].pid}/children").split()[0])
        # (strace leaves it when it is killed)
        held.callback(os.kill, traced, signal.SIGKILL)
        stop(begun["one.db"])
        with socket.create_connection(listener.getsockname(), timeout=60) as peer:
            peer.sendall(get(LIST))
            wait_until(lambda: is_held(traced))
            begun["one.db"].send_signal(signal.SIGCONT)
            assert rest_of(peer) == NOT_FOUND
        assert run(["key-list", "--control", CONTROL], timeout=30)[0] == 0
        assert b"EAGAIN" in read("calls")
