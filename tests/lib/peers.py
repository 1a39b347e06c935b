"""Who asks a server: on a connection of their own, on and on, and an operator whose server lies."""

import contextlib
import http.client
import http.server
import os
import socket
import threading
import time
from collections.abc import Callable, Iterable, Mapping, Sequence
from typing import Protocol

from lib.messages import get
from lib.program import run

LIST = "example.com/lib/@v/list"
GOMOD = b"module example.com/lib\n"


def asked_by(connected: Callable[[], socket.socket], sent: bytes) -> bytes:
    """Sends bytes on a new connection, shuts its side, and returns all that comes back."""
    with connected() as connection:
        connection.sendall(sent)
        connection.shutdown(socket.SHUT_WR)
        return rest(connection)


def rest(connection: socket.socket) -> bytes:
    """Returns all that comes until the other side closes or, as it does after too long an order, resets."""
    received = b""
    with contextlib.suppress(ConnectionResetError):
        while part := connection.recv(65_536):
            received += part
    return received


def rest_of(connection: socket.socket) -> bytes:
    """Returns all that comes until the other side closes. A reset raises."""
    received = b""
    while part := connection.recv(1_048_576):
        received += part
    return received


def exchanged(port: int, request: bytes, address: str = "127.0.0.1") -> bytes:
    """Returns the reply to a request on a new connection, up to the end of the connection."""
    with socket.create_connection((address, port), timeout=60) as connection:
        connection.sendall(request)
        return rest_of(connection)


def over(connection: socket.socket) -> http.client.HTTPConnection:
    """Returns a connection of http.client over one that is open."""
    conn = http.client.HTTPConnection("localhost")
    conn.sock = connection
    return conn


def fetched(
    conn: http.client.HTTPConnection,
    method: str,
    target: str,
    body: bytes | None = None,
    headers: Mapping[str, str] | None = None,
) -> tuple[int, str, bytes]:
    """Returns the status, the content type and the body of a reply, and closes the connection."""
    try:
        conn.request(method, target, body, headers or {})
        reply = conn.getresponse()
        return reply.status, reply.headers.get("Content-Type", ""), reply.read()
    finally:
        conn.close()


class NoModules(http.server.ThreadingHTTPServer):
    """A public proxy that has no module, and notes the targets of its requests in `asked`."""

    def __init__(self) -> None:
        super().__init__(("127.0.0.1", 0), NotFound)
        self.asked: list[str] = []
        self.url = f"http://127.0.0.1:{self.server_port}"
        threading.Thread(target=self.serve_forever, daemon=True).start()

    def server_close(self) -> None:
        # (a server whose socket is closed while it serves asks for connections without an end)
        self.shutdown()
        super().server_close()


class Quiet(http.server.BaseHTTPRequestHandler):
    """A connection to a server that logs no request."""

    def log_message(self, *_: object) -> None:
        pass


class NotFound(Quiet):
    """A connection to a proxy that has no module."""

    server: NoModules

    def do_GET(self) -> None:
        self.server.asked.append(self.path)
        self.send_error(404)


def by_false_server(
    words: Iterable[str], answer: bytes, before: Sequence[str] = ()
) -> tuple[tuple[int, bytes, str], bytes]:
    """Runs an operator's command whose server sends an answer. Returns how it ended, and what it sent.

    `before` is as for `run`."""
    sent: list[bytes] = []

    def respond() -> None:
        connection, _ = listener.accept()
        # (a command that sends nothing does not wait)
        with connection, contextlib.suppress(BrokenPipeError):
            connection.settimeout(60)
            sent.append(connection.recv(1_000))
            connection.sendall(answer)

    with socket.socket(socket.AF_UNIX) as listener:
        listener.bind("false")
        listener.listen()
        thread = threading.Thread(target=respond)
        thread.start()
        ran = run([*words, "false"], before=before)
        # (the thread accepts this one if the command did not connect)
        with socket.socket(socket.AF_UNIX) as nobody:
            nobody.connect("false")
        thread.join()
    os.unlink("false")
    return ran, b"".join(sent)


class Askable(Protocol):
    """A server as `Load` asks it."""

    def status(self, request: bytes) -> int:
        ...


class Load:
    """Peers who ask again and again with one key. `seen` has the start, the end and the status of each request.

    If `is_cut`, a peer stops quietly when its connection is cut off."""

    def __init__(self, server: Askable, key: str, count: int = 4, is_cut: bool = False) -> None:
        self.server, self.request, self.is_cut = server, get(LIST, key), is_cut
        self.stopped = threading.Event()
        self.seen: list[tuple[float, float, int]] = []
        self.threads = [threading.Thread(target=self.ask) for _ in range(count)]
        for thread in self.threads:
            thread.start()

    def ask(self) -> None:
        while not self.stopped.is_set():
            begun = time.monotonic()
            try:
                status = self.server.status(self.request)
            except (OSError, IndexError):
                if self.is_cut:
                    return
                raise
            self.seen.append((begun, time.monotonic(), status))

    def stop(self) -> None:
        self.stopped.set()
        for thread in self.threads:
            thread.join()
