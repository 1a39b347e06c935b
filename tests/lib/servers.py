"""`goshelf serve` over a store."""

from __future__ import annotations

import http.client
import os
import socket
import subprocess
from collections.abc import Mapping
from typing import IO

from lib.keys import KEY
from lib.modules import escaped
from lib.peers import asked_by, fetched
from lib.program import PROGRAM

# the socket for operators, in the folder of a test
CONTROL = "control"
TIME = "2024-01-31T12:00:00Z"
# what `serve` prints about a file that is missing or empty
NEW_STORE = "new store: the file of --db is missing or empty; without a key, each request gets a 404\n"


def write_failing(first: int) -> str:
    """Writes a program whose calls of `accept4` fail from this one on, and notes them in `calls`. Returns its name.

    It is goshelf under strace."""
    fails = f"-e trace=accept4 -e inject=accept4:error=ECONNABORTED:when={first}+"
    with open("failing", "w", encoding="utf-8") as file:
        file.write(f'#!/bin/sh\nexec strace -f -qq -o calls {fails} {PROGRAM} "$@"\n')
    os.chmod("failing", 0o755)
    return "./failing"


class Server:
    """A program that serves a store on a port of this host, and on a socket for operators where one is named.

    It runs once it is made. As a context manager, it is killed in the end if it still runs."""

    child: subprocess.Popen[bytes]

    def __init__(
        self,
        store: str,
        control: str | None = None,
        *more: str,
        program: str = PROGRAM,
        errors: int | IO[bytes] | None = None,
    ) -> None:
        self.store, self.control, self.program, self.errors = store, control, program, errors
        self.port, self.line = 0, ""
        self.more = [*(["--control", control] if control else []), *more]
        self.start()

    def __enter__(self) -> Server:
        return self

    def __exit__(self, *_: object) -> None:
        if self.child.poll() is None:
            self.kill()

    def start(self) -> None:
        """Starts the program, the second time on the port that it had. `line` is what it prints first, and `port` 0
        if it prints nothing."""
        words = [self.program, "serve", "--db", self.store, "--port", str(self.port), *self.more]
        self.child = subprocess.Popen(words, stdin=subprocess.DEVNULL, stdout=subprocess.PIPE, stderr=self.errors)
        assert self.child.stdout
        self.line = self.child.stdout.readline().decode()
        self.port = int(self.line.rpartition(":")[2]) if self.line else 0

    @property
    def url(self) -> str:
        return f"http://127.0.0.1:{self.port}"

    def connected(self) -> socket.socket:
        """Returns a new connection to the port."""
        connection = socket.create_connection(("127.0.0.1", self.port), timeout=60)
        connection.setsockopt(socket.IPPROTO_TCP, socket.TCP_NODELAY, 1)
        return connection

    def exchange(self, request: bytes) -> bytes:
        """Returns the whole reply to a request."""
        return asked_by(self.connected, request)

    def status(self, request: bytes) -> int:
        """Returns the status of the reply to a request."""
        return int(self.exchange(request).split()[1])

    def operator(self) -> socket.socket:
        """Returns a new connection to the socket for operators."""
        connection = socket.socket(socket.AF_UNIX)
        # (with a timeout it would fail where the queue is full)
        connection.connect(self.control or "")
        connection.settimeout(60)
        return connection

    def order(self, line: bytes) -> bytes:
        """Returns the whole reply to the line of an operator."""
        return asked_by(self.operator, line)

    def ask(
        self,
        method: str,
        target: str,
        body: bytes | None = None,
        key: str = KEY,
        headers: Mapping[str, str] | None = None,
    ) -> tuple[int, bytes]:
        """Returns the status and the body of the reply to a request by a key."""
        connection = http.client.HTTPConnection("127.0.0.1", self.port, timeout=60)
        status, _, reply = fetched(connection, method, f"/k/{key}/{target}", body, headers)
        return status, reply

    def put(
        self, key: str, path: str, version: str, gomod: bytes, zip_bytes: bytes, time: str = TIME
    ) -> tuple[int, bytes]:
        """Publishes a version, and returns the status and the body of the reply."""
        headers = {"Mod-Length": str(len(gomod)), "Version-Time": time}
        return self.ask("PUT", f"{escaped(path)}/@v/{escaped(version)}", gomod + zip_bytes, key, headers)

    def sum_line(self, key: str, path: str, version: str) -> str:
        """Returns the go.sum line of a version's go.mod."""
        return self.ask("GET", f"-/gosum/{escaped(path)}/@v/{escaped(version)}", key=key)[1].decode()

    def stop(self) -> None:
        """Ends the program by SIGTERM."""
        self.child.terminate()
        self.wait_for_end()

    def kill(self) -> None:
        """Ends the program by SIGKILL."""
        self.child.kill()
        self.wait_for_end()

    def wait_for_end(self) -> int:
        """Waits until the program has ended, and returns its exit status."""
        status = self.child.wait()
        if self.child.stdout:
            self.child.stdout.close()
        return status
