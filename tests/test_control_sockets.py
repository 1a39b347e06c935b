"""`serve --control` and `--stdin`: bad sockets, servers that give no outcome, what ends a server, what it listens on.

A restart by the socket that systemd holds is made under load.
"""

import contextlib
import os
import signal
import socket
import stat
import subprocess
import threading
from collections.abc import Callable, Iterator
from typing import IO

import pytest

from lib.ids import name_value, name_values
from lib.keys import KEY, KEYS
from lib.messages import get, put, reply
from lib.peers import GOMOD, LIST, Load, asked_by, by_false_server, rest
from lib.ports import wait_until
from lib.program import NOBODY, PROGRAM, can_be_nobody, refusal, run
from lib.runs import Ending
from lib.scratch import read, write
from lib.servers import CONTROL, Server
from lib.stores import new_store

NOT_FOUND = reply(404, b"not found\n")
LISTED = b"path,version,shelf,class,time,mod_bytes,zip_bytes\nexample.com/lib,v1.0.0,alpha,release,,23,0\n"
REVOKE = ["key-revoke", "--key", KEY, "--control"]
# `printf %s alphakey00000001 | sha256sum`
SHA256 = "ccaaf6d99f2c8ac7d9c4a0277e323db4465bf5929f8262e063c9229ab93cb24c"
SERVE = ["serve", "--db", "served.db", "--stdin"]
# all outcomes that a server may give of orders, and two words that are none
OUTCOMES = "done name taken no-team no-key no-group device memory not-empty busy ended stopping bad".split()
OUTCOMES += ["word", ""]
# those that a registry command takes
REPLIES = {"done", "name", "taken", "no-team", "no-key", "no-group", "device", "memory"}
# orders, their lines, and the outcomes that each takes: at any other, the command ends with `io`
ORDERS = (
    (["team-add", "--team", "gamma"], b"team-add gamma\n", REPLIES),
    (["team-add", "--team", "alpha", "--group", "platform"], b"team-add alpha platform\n", REPLIES),
    (["group-add", "--group", "platform"], b"group-add platform\n", REPLIES),
    (["key-add", "--shelf", "alpha", "--key", KEY, "--read-only"], f"reader-add alpha {KEY}\n".encode(), REPLIES),
    (["key-revoke", "--key", KEY], f"key-revoke {KEY}\n".encode(), REPLIES),
    (["key-revoke", "--shelf", "alpha", "--all"], b"keys-revoke alpha\n", REPLIES),
    # no line can carry the group, so the command asks whether the team exists
    (["team-add", "--team", "alpha", "--group", "plat form"], b"team-add alpha ?\n", REPLIES),
    (["key-revoke", "--fingerprint", "ccaaf6d99f2c8ac7"], b"revoke-fingerprint ccaaf6d99f2c8ac7\n", REPLIES),
    (["key-revoke", "--fingerprint", SHA256], f"revoke-fingerprint {SHA256}\n".encode(), REPLIES),
    (["copy", "--to", "one.db"], b"copy one.db\n", {"done", "device", "memory", "not-empty", "busy", "ended"}),
    (["stop"], b"stop\n", {"stopping", "device", "memory"}),
)
LINE = f"alpha publish {SHA256[:16]} {SHA256}\n".encode()
# what a false server sends of a list, and how the command ends
LISTS: list[tuple[bytes, Ending]] = [
    *((sent, refusal("io")) for sent in (b"", LINE, LINE[:-1], b"a team undone\n", LINE + b"done", LINE + b"bad\n")),
    (b"bad\n", refusal("io")),
    (b"stopping\n", refusal("io")),
    (b"device\n", refusal("device")),
    (b"memory\n", refusal("memory")),
    (b"done\n", (0, b"", "")),
    (LINE + b"done\n", (0, LINE, "")),
]


class TestRefusedSockets:
    """Names of sockets that `serve` refuses; then nothing is changed, and nothing is printed but the word."""

    @pytest.fixture(scope="class")
    def live(self, class_folder: str) -> Iterator[Server]:
        """A server of another store, in a folder with files whose names are tried."""
        new_store("served.db", ("alpha", KEY))
        new_store("live.db", ("alpha", KEY))
        write({"file": "text\n", "served.txt": ""})
        os.mkdir("folder")
        os.symlink("file", "link")
        with Server("live.db", "live") as live:
            yield live

    @staticmethod
    def read_all() -> tuple:
        """Returns what no refusal may change."""
        return read("served.db-wal"), read("served.db"), read("file"), os.listdir("folder"), os.readlink("link")

    @pytest.mark.parametrize(
        "name",
        ["file", "folder", "link", "s" * 108, "none/control", "live", "", "served.db", "served.db-wal"],
        ids=name_value,
    )
    def test_socket_is_refused(self, live: Server, name: str) -> None:
        before = self.read_all()
        words = ["serve", "--db", "served.db", "--port", "0", "--connections", "0", "--control", name]
        assert run(words) == refusal("io")
        assert self.read_all() == before
        assert before[2:] == (b"text\n", [], "file")
        assert (live.order(b"team-add alpha\n"), live.status(get(LIST))) == (b"taken\n", 404)
        # (its store takes writes)
        assert live.order(b"key-add alpha livekey000000001\n") == b"done\n"
        assert live.order(b"key-revoke livekey000000001\n") == b"done\n"

    def test_socket_of_a_port_that_is_taken_is_removed(self, live: Server) -> None:
        with socket.create_server(("127.0.0.1", 0)) as taken:
            words = ["serve", "--db", "served.db", "--port", str(taken.getsockname()[1]), "--control", "left"]
            assert run(words) == refusal("io")
        assert not os.path.lexists("left")


def test_socket_of_a_killed_server_is_taken_over(folder: str, serve: Callable[..., Server]) -> None:
    new_store("live.db", ("alpha", KEY))
    serve("live.db", "live").kill()
    assert stat.S_ISSOCK(os.lstat("live").st_mode)
    assert run(["team-add", "--control", "live", "--team", "gamma"]) == refusal("device")
    server = serve("live.db", "live", "--connections", "1")
    assert server.order(b"team-add gamma\n") == b"done\n"
    assert stat.S_IMODE(os.lstat("live").st_mode) == 0o600, "its own user alone may use the socket"
    assert server.status(get(LIST)) == 404
    assert server.child.wait(60) == 0
    assert not os.path.lexists("live"), "a server that ends removes its socket"


def test_socket_that_another_server_made_meanwhile_stays(folder: str, serve: Callable[..., Server]) -> None:
    new_store("first.db", ("alpha", KEY))
    new_store("second.db", ("alpha", KEY))
    first = serve("first.db", "live", "--connections", "1")
    os.unlink("live")
    second = serve("second.db", "live")
    assert first.status(get(LIST)) == 404
    assert first.child.wait(60) == 0
    assert second.order(b"team-add gamma\n") == b"done\n"


@pytest.mark.needs("strace")
def test_socket_whose_mode_cannot_be_set_is_removed(folder: str) -> None:
    new_store("served.db", ("alpha", KEY))
    calls = "?chmod,?fchmodat,?fchmodat2"
    fails = ["strace", "-f", "-qq", "-o", "calls", "-e", f"trace={calls}", "-e", f"inject={calls}:error=EPERM"]
    words = ["serve", "--db", "served.db", "--port", "0", "--control", CONTROL]
    assert run(words, before=fails) == refusal("io")
    assert b"EPERM" in read("calls")
    assert not os.path.lexists(CONTROL)


@pytest.mark.needs("strace")
def test_socket_where_the_system_lets_nobody_listen_is_removed(folder: str) -> None:
    new_store("served.db", ("alpha", KEY))
    fails = ["strace", "-f", "-qq", "-o", "calls", "-e", "trace=listen", "-e", "inject=listen:error=ENOMEM:when=1"]
    words = ["serve", "--db", "served.db", "--port", "0", "--control", CONTROL]
    assert run(words, before=fails) == refusal("io")
    assert b"ENOMEM" in read("calls")
    assert not os.path.lexists(CONTROL)


@pytest.mark.needs("strace")
def test_two_servers_that_find_a_left_socket_at_once(folder: str, serve: Callable[..., Server]) -> None:
    """The first is stopped once it has seen that nobody listens there. Then the second takes the name over."""
    new_store("first.db", ("alpha", KEY))
    new_store("second.db", ("alpha", KEY))
    with socket.socket(socket.AF_UNIX) as left:
        left.bind("live")
    stops = ["strace", "-f", "-qq", "-o", "calls", "-e", "trace=connect", "-e", "inject=connect:signal=SIGSTOP:when=1"]
    words = [PROGRAM, "serve", "--db", "first.db", "--port", "0", "--connections", "0", "--control", "live"]
    first = subprocess.Popen([*stops, *words], stdout=subprocess.PIPE, stderr=subprocess.PIPE)
    wait_until(lambda: os.path.exists("calls") and b"stopped by" in read("calls"))
    second = serve("second.db", "live")
    os.kill(int(read("calls").split()[0]), signal.SIGCONT)
    assert (*first.communicate(timeout=60), first.returncode) == (b"", b"goshelf: io\n", 1)
    assert second.order(b"team-add gamma\n") == b"done\n"


def test_socket_with_the_longest_name_that_is_removed(folder: str, serve: Callable[..., Server]) -> None:
    new_store("live.db", ("alpha", KEY))
    longest = "s" * 107
    server = serve("live.db", longest)
    assert server.order(b"team-add delta\n") == b"done\n"
    os.unlink(longest)
    assert run(["team-add", "--control", longest, "--team", "eta"]) == refusal("device")
    assert server.status(get(LIST)) == 404


class TestFalseServers:
    """How commands end where nobody listens, and by what a false server sends."""

    @pytest.fixture(scope="class", autouse=True)
    def files(self, class_folder: str) -> None:
        write({"file": "text\n"})
        os.mkdir("folder")

    @pytest.mark.parametrize("name", ["none", "file", "folder", "none/control", "s" * 108, ""], ids=name_value)
    def test_nobody_listens(self, name: str) -> None:
        assert run([*REVOKE, name]) == refusal("device")

    @pytest.mark.parametrize(
        "sent", [b"", b"d", b"done", b"gone\n", b"done\ndone\n", b"\xff\n", b"d" * 200 + b"\n"], ids=name_value
    )
    def test_reply_that_is_no_outcome(self, sent: bytes) -> None:
        assert by_false_server(REVOKE, sent) == (refusal("io"), f"key-revoke {KEY}\n".encode())

    @pytest.mark.parametrize("outcome", OUTCOMES, ids=name_value)
    @pytest.mark.parametrize(("words", "line", "own"), ORDERS, ids=name_values(words for words, _, _ in ORDERS))
    def test_outcome_of_an_order(self, words: list[str], line: bytes, own: set[str], outcome: str) -> None:
        ending = refusal(outcome if outcome in own else "io")
        if outcome in own & {"done", "stopping"}:
            ending = (0, b"", "")
        assert by_false_server([*words, "--control"], f"{outcome}\n".encode()) == (ending, line)

    @pytest.mark.parametrize(("sent", "ending"), LISTS, ids=name_values(sent for sent, _ in LISTS))
    def test_list_is_whole_only_with_its_last_line(self, sent: bytes, ending: Ending) -> None:
        assert by_false_server(["key-list", "--control"], sent) == (ending, b"key-list\n")


@pytest.mark.root
@pytest.mark.needs("setpriv")
class TestAnotherUser:
    """Another user may not use the socket."""

    @pytest.fixture(scope="class")
    def server(self, class_folder: str) -> Iterator[Server]:
        if not can_be_nobody():
            pytest.skip("no process can become nobody here")
        new_store("served.db", ("alpha", KEY))
        os.mkdir("other")
        os.chown("other", 65534, 65534)
        with Server("served.db", CONTROL) as server:
            yield server

    def test_another_user_revokes_nothing(self, server: Server) -> None:
        assert run([*REVOKE, CONTROL], before=NOBODY) == refusal("device")
        assert server.status(put("example.com/lib", "v1.0.0", GOMOD)) == 201

    @pytest.mark.parametrize("name", [CONTROL, "new"])
    def test_another_user_makes_and_takes_no_socket(self, server: Server, name: str) -> None:
        store = f"other/of-{name}.db"
        assert run(["init", "--db", store], before=NOBODY) == (0, b"", "")
        words = ["serve", "--db", store, "--port", "0", "--connections", "0", "--control", name]
        assert run(words, before=NOBODY) == refusal("io")
        assert not os.path.lexists("new")
        assert server.order(b"team-add alpha\n") == b"taken\n"
        assert server.order(b"key-add alpha livekey000000001\n") == b"done\n"
        assert server.order(b"key-revoke livekey000000001\n") == b"done\n"


class TestStop:
    """`stop` ends a server: the current request is answered, and then the store is free."""

    words = ["stop", "--control", CONTROL]

    @pytest.fixture
    def server(self, folder: str) -> Iterator[Server]:
        new_store("served.db", ("alpha", KEY))
        with Server("served.db", CONTROL) as server:
            yield server

    def test_stop_where_nobody_listens(self, folder: str) -> None:
        assert run(self.words) == refusal("device")

    def test_stop_of_a_server_that_gives_no_outcome(self, folder: str) -> None:
        assert by_false_server(["stop", "--control"], b"") == (refusal("io"), b"stop\n")

    def test_current_request_is_answered(self, server: Server) -> None:
        results: list[Ending] = []
        publish = put("example.com/lib", "v1.0.0", GOMOD)
        with server.connected() as held:
            held.sendall(publish[:-5])
            thread = threading.Thread(target=lambda: results.append(run(self.words)))
            thread.start()
            thread.join(0.5)
            assert not results, "stop does not wait for the request"
            held.sendall(publish[-5:])
            assert rest(held) == reply(201, b"published\n")
            thread.join()
        assert results == [(0, b"", "")]
        assert server.child.wait(60) == 0
        assert not os.path.lexists(CONTROL)
        assert run(["inventory", "--db", "served.db", "--key", KEY]) == (0, LISTED, "")

    def test_line_that_stops_a_server_under_load(self, server: Server) -> None:
        assert server.status(put("example.com/lib", "v1.0.0", GOMOD)) == 201
        load = Load(server, KEY, 4, is_cut=True)
        wait_until(lambda: len(load.seen) >= 20)
        assert server.order(b"stop\n") == b"stopping\n"
        assert server.child.wait(60) == 0
        load.stop()
        assert {status for _, _, status in load.seen} == {200}, f"{len(load.seen)} requests before"


# requests, one after another, to servers with a socket for operators and without
REQUESTS = [
    put("example.com/lib", "v1.0.0", GOMOD, b"zip"), put("example.com/lib", "v1.0.0", GOMOD, b"other"), get(LIST),
    get(LIST, KEYS["N"]),
    get("example.com/lib/@v/v1.0.0.zip"), get("example.com/lib/@latest"), get("-/modules"),
    b"GET /k/control HTTP/1.1\r\n\r\n",
    b"team-add alpha\n", b"PUT / HTTP/1.1\r\nContent-Length: 17825793\r\n\r\n", b"",
]  # fmt: skip


class TestSameBytes:
    """A peer gets the same bytes with a socket for operators and without."""

    @pytest.fixture(scope="class")
    def replies(self, class_folder: str) -> list[tuple[bytes, bytes]]:
        """What both servers answer to each of the requests."""
        new_store("one.db", ("alpha", KEY))
        new_store("two.db", ("alpha", KEY))
        with Server("one.db", CONTROL) as one, Server("two.db") as two:
            return [(one.exchange(request), two.exchange(request)) for request in REQUESTS]

    @pytest.mark.parametrize("number", range(len(REQUESTS)), ids=name_values(REQUESTS))
    def test_reply(self, replies: list[tuple[bytes, bytes]], number: int) -> None:
        with_socket, without = replies[number]
        assert with_socket == without


Input = int | IO[bytes] | socket.socket | None


def open_no_listeners(held: contextlib.ExitStack) -> dict[str, Input]:
    """Opens what standard input may be that is no TCP socket that listens. The stack closes it."""
    here, udp = ("127.0.0.1", 0), socket.SOCK_DGRAM

    def make(
        address: str | tuple[str, int] | None = None, family: int = socket.AF_INET, kind: int = socket.SOCK_STREAM
    ) -> socket.socket:
        made = held.enter_context(socket.socket(family, kind))
        if address:
            made.bind(address)
        return made

    fresh, bound, shut, connected = make(), make(here), make(here), make()
    datagrams, sender, local = make(here, kind=udp), make(kind=udp), make("local", socket.AF_UNIX)
    listener = held.enter_context(socket.create_server(here))
    for listening in (shut, local):
        listening.listen()
    shut.shutdown(socket.SHUT_RD)
    sender.connect(datagrams.getsockname())
    connected.connect(listener.getsockname())
    accepted, pair = held.enter_context(listener.accept()[0]), [held.enter_context(end) for end in socket.socketpair()]
    write({"file": ""})
    return {
        "a file": held.enter_context(open("file", "rb")), "a pipe": subprocess.PIPE,
        "nothing": subprocess.DEVNULL, "no descriptor": None,
        "a connection": accepted, "its other end": connected, "a pair": pair[0], "a socket without a port": fresh,
        "a socket that does not listen": bound,
        "a socket that no longer listens": shut, "a socket of UDP": datagrams, "a socket of UDP with a peer": sender,
        "a unix socket that listens": local,
    }  # fmt: skip


INPUTS = [
    "a file", "a pipe", "nothing", "no descriptor", "a connection", "its other end", "a pair",
    "a socket without a port", "a socket that does not listen", "a socket that no longer listens", "a socket of UDP",
    "a socket of UDP with a peer", "a unix socket that listens",
]  # fmt: skip


class TestInput:
    """`serve --stdin`: what standard input may not be."""

    @pytest.fixture(scope="class")
    def inputs(self, class_folder: str) -> Iterator[dict[str, Input]]:
        new_store("served.db", ("alpha", KEY))
        with contextlib.ExitStack() as held:
            yield open_no_listeners(held)

    def test_each_input_is_tried(self, inputs: dict[str, Input]) -> None:
        assert list(inputs) == INPUTS

    @pytest.mark.parametrize("way", [[], ["--control", CONTROL]], ids=["plain", "--control"])
    @pytest.mark.parametrize("name", INPUTS)
    def test_input_is_refused(self, inputs: dict[str, Input], name: str, way: list[str]) -> None:
        before = read("served.db-wal"), read("served.db")
        closes = (lambda: os.close(0)) if inputs[name] is None else None
        words = [PROGRAM, *SERVE, *way]
        ran = subprocess.run(words, stdin=inputs[name], capture_output=True, timeout=60, preexec_fn=closes)
        assert (ran.returncode, ran.stdout, ran.stderr) == (1, b"", b"goshelf: io\n")
        assert not os.path.lexists(CONTROL)
        assert (read("served.db-wal"), read("served.db")) == before

    def test_stdin_and_port(self, class_folder: str) -> None:
        assert run([*SERVE, "--port", "0"])[0] == 2


@pytest.mark.skipif(not socket.has_ipv6, reason="the machine has no IPv6")
def test_stdin_of_a_socket_of_ipv6(folder: str) -> None:
    new_store("served.db", ("alpha", KEY))
    with socket.create_server(("::1", 0), family=socket.AF_INET6) as listener:
        address = listener.getsockname()[:2]
        words = [PROGRAM, *SERVE, "--connections", "1"]
        with subprocess.Popen(words, stdin=listener, stdout=subprocess.PIPE) as server:
            found = asked_by(lambda: socket.create_connection(address, timeout=60), get(LIST))
            assert (found, server.communicate(timeout=60)[0]) == (NOT_FOUND, b"listening on standard input\n")


class Peers:
    """Four peers who ask at one address, each on and on: what they were answered, and why a connection failed."""

    def __init__(self, address: tuple[str, int]) -> None:
        self.address = address
        self.answered: list[bytes] = []
        self.failed: list[type] = []
        self.stopped, self.threads = threading.Event(), [threading.Thread(target=self.ask) for _ in range(4)]

    def ask(self) -> None:
        while not self.stopped.is_set():
            try:
                with socket.create_connection(self.address, timeout=60) as held:
                    held.sendall(get(LIST))
                    self.answered.append(rest(held))
            except OSError as error:
                self.failed.append(type(error))

    def wait_for_answers(self, more: int) -> None:
        """Waits until so many more requests were answered."""
        count = len(self.answered)
        wait_until(lambda: len(self.answered) >= count + more)

    def start(self) -> None:
        for thread in self.threads:
            thread.start()

    def stop(self) -> None:
        self.stopped.set()
        for thread in self.threads:
            thread.join()


def start_on(listener: socket.socket, *more: str) -> subprocess.Popen:
    """Starts a server on a socket that listens, and waits until it serves."""
    server = subprocess.Popen([PROGRAM, *SERVE, *more], stdin=listener, stdout=subprocess.PIPE)
    assert server.stdout and server.stdout.readline() == b"listening on standard input\n"
    return server


def kill(server: subprocess.Popen) -> None:
    server.kill()
    server.communicate()


def test_restart_over_a_socket_that_listens_on_refuses_nobody(folder: str) -> None:
    new_store("served.db", ("alpha", KEY))
    with socket.create_server(("127.0.0.1", 0)) as listener:
        peers = Peers(listener.getsockname())
        peers.start()
        try:
            # with operators and without by turns, since the mode of the socket outlives each server
            for turn in range(6):
                server = start_on(listener, *(["--control", CONTROL] if turn % 2 == 0 else []))
                peers.wait_for_answers(20)
                assert server.poll() is None, f"start {turn}"
                kill(server)
            server = start_on(listener)
            peers.wait_for_answers(20)
        finally:
            peers.stop()
            kill(server)
    assert {answer for answer in peers.answered if answer} == {NOT_FOUND}, f"{len(peers.answered)} requests"
    assert ConnectionRefusedError not in peers.failed
    lost = len(peers.failed) + peers.answered.count(b"")
    assert lost <= 6 * 2, "more than the current requests are lost"
