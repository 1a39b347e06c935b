"""A machine with goshelf behind nginx, by the page's commands, and its users."""

import contextlib
import hashlib
import http.client
import json
import os
import socket
import ssl
import time
from collections.abc import Callable, Iterator, Mapping
from typing import Any, NamedTuple

from lib.logins import Logins, log_in
from lib.machine import AUTHORITIES, Machine
from lib.ports import wait_for, wait_until
from lib.scratch import closed_on_failure
from lib.stores import new_store

LIB = "/example.com/lib"
AT = f"{LIB}/@v"
GOMOD, ZIP = b"module example.com/lib\n", os.urandom(3_000_000)
# name, shelf and right; the name of one begins as another's, and one shelf has the longest name
LONG = "z" * 32
# a key of alpha that nginx does not know
UNUSED = "firstkey00000001"
USERS = [
    ("ann", "alpha", "read"),
    ("ann-b", "alpha", "read"),
    ("pub", "alpha", "publish"),
    ("bob", "beta", "publish"),
    ("zoe", LONG, "publish"),
]
PATHS = {"example.com": ["alpha", "beta", LONG]}
FOLDER = "etc/nginx/goshelf"
# makes the certificate of the machine
CERTIFICATE = """openssl req -x509 -newkey ec -pkeyopt ec_paramgen_curve:P-256 -nodes -days 2 -subj /CN=localhost \\
    -addext subjectAltName=DNS:localhost -out /etc/ssl/goshelf.pem -keyout /etc/ssl/goshelf.key"""
Reply = tuple[int, bytes]


class Answer(NamedTuple):
    """An answer that has been read."""

    status: int
    headers: http.client.HTTPMessage
    body: bytes


class Client(Logins):
    """What the users of the front see of it."""

    def __init__(self, machine: Machine) -> None:
        super().__init__()
        self.machine = machine
        self.pem = f"{machine.folder}/etc/ssl/goshelf.pem"
        self.context = ssl.create_default_context(cafile=self.pem)

    def close(self) -> None:
        self.machine.close()

    def add(self, user: str, shelf: str, right: str) -> None:
        """Adds a user."""
        self.add_at(self.machine, "localhost", user, shelf, right)

    def ask(
        self,
        method: str,
        target: str,
        header: str | None,
        body: bytes | str | None = None,
        headers: Mapping[str, str] | None = None,
    ) -> Reply:
        """Returns the status and the body of the answer to a login by a header."""
        answer = self.reply(method, target, header, body, headers)
        return answer.status, answer.body

    def reply(
        self,
        method: str,
        target: str,
        header: str | None,
        body: bytes | str | None = None,
        headers: Mapping[str, str] | None = None,
    ) -> Answer:
        """Returns the answer to a login by a header."""
        sent = {**({"Authorization": header} if header else {}), **(headers or {})}
        connection = http.client.HTTPSConnection("localhost", self.machine.front, timeout=60, context=self.context)
        with contextlib.closing(connection):
            connection.request(method, target, body, sent)
            reply = connection.getresponse()
            return Answer(reply.status, reply.headers, reply.read())

    def get(self, target: str, user: str = "ann") -> Reply:
        return self.ask("GET", target, self.login(user))

    def put(self, version: str, body: bytes, user: str = "pub") -> Reply:
        """Publishes a version of example.com/lib."""
        return self.ask("PUT", f"{AT}/{version}", self.login(user), body, {"Mod-Length": str(len(GOMOD))})

    def status_of(self, key: str, target: str = "/login") -> int:
        """Returns what a login by a key gets, once nginx does not answer that strangers ask too often."""
        statuses: list[int] = []

        def is_answered() -> bool:
            statuses.append(self.ask("GET", target, log_in(key))[0])
            return statuses[-1] != 429

        wait_until(is_answered)
        return statuses[-1]

    def begin(self, sent: bytes, room: int | None = None) -> ssl.SSLSocket:
        """Returns a connection on which this is sent, with room for a number of bytes of the answer."""
        raw = socket.socket()
        raw.settimeout(60)
        if room:
            raw.setsockopt(socket.SOL_SOCKET, socket.SO_RCVBUF, room)
        raw.connect(("127.0.0.1", self.machine.front))
        connection = self.context.wrap_socket(raw, server_hostname="localhost")
        connection.sendall(sent)
        return connection

    def head(self, method: str, target: str, user: str, *lines: str) -> bytes:
        """Returns the head of a request, without the empty line at its end."""
        first = (f"{method} {target} HTTP/1.1", "Host: localhost", f"Authorization: {self.login(user)}")
        return "".join(f"{line}\r\n" for line in (*first, *lines)).encode()


class Front(Client):
    """The users of a machine with goshelf behind nginx, by the page's commands."""

    def __init__(self, folder: str) -> None:
        machine = Machine(folder)
        with closed_on_failure(machine):
            new_store(machine.store, ("alpha", UNUSED), ("beta", "firstkey00000002"), (LONG, "firstkey00000003"))
            start(machine, PATHS)
            super().__init__(machine)
            for user in USERS:
                self.add(*user)

    def order(self, words: str) -> str:
        """Runs goshelf-front, which has to end well, and returns what it prints."""
        return self.machine.does(f"goshelf-front {words}")

    def give(self, words: str, user: str = "") -> str:
        """Has goshelf-front make a key, and returns it. A user, if one is named, has it as a password."""
        key = self.order(words).splitlines()[-1].split()[5]
        self.passwords[user or f"{len(self.passwords)} {words}"] = key
        return key

    def keys(self) -> str:
        """Returns a line for each key that goshelf has."""
        return list_keys(self.machine)

    def check(self) -> list[str]:
        """Returns the faults that goshelf-front finds, but those of keys that nobody has."""
        status, printed, errors = self.machine.sh("goshelf-front check")
        assert errors == "" and status == bool(printed), (status, printed, errors)
        return [line for line in printed.splitlines() if "has no name" not in line]


def list_keys(machine: Machine) -> str:
    """Returns a line for each key that goshelf has."""
    return machine.does("goshelf key-list --control /run/goshelf/control")


def trust_own(machine: Machine) -> None:
    """Has nginx trust its own certificate alone for the public proxy: it reads all authorities for each location."""
    os.unlink(f"{machine.folder}{AUTHORITIES}")
    os.symlink(f"{machine.folder}/etc/ssl/goshelf.pem", f"{machine.folder}{AUTHORITIES}")


def start(
    machine: Machine, paths: Mapping[str, list[str]], change: Callable[[Machine], None] = lambda machine: None
) -> None:
    """Starts goshelf and nginx by the page's commands. `paths` has the company's, each with the shelves that publish
    there, and `change` changes files before nginx starts."""
    machine.does("systemctl start goshelf")
    machine.does(CERTIFICATE)
    trust_own(machine)
    machine.check_out()
    set_up_front(machine, "localhost", paths)
    change(machine)
    machine.does("systemctl restart nginx")
    wait_for(machine.front)


def set_up_front(machine: Machine, host: str, paths: Mapping[str, list[str] | tuple[str, ...]]) -> None:
    """Puts nginx's files in their places, by the command of the page."""
    words = " ".join(f"{path}={','.join(shelves)}" for path, shelves in paths.items())
    machine.does(f"goshelf-front set-up {host} {words}")


def settle(client: Client, user: str = "zoe", wanted: int = 200) -> float:
    """Waits until nginx has read its maps anew, so that a user gets what is wanted. Returns the seconds that it took.

    The processes of before go on for a moment beside the new ones, so it waits for ten such answers in a row.
    Strangers who ask often get a 429 in the place of a 401."""
    begun, row = time.time(), 0
    while row < 10:
        status = client.get(f"{AT}/v1.0.0.mod", user)[0]
        row = row + 1 if status == wanted or (status, wanted) == (429, 401) else 0
        assert time.time() - begun < 30, f"{user} does not get {wanted}"
        time.sleep(0.02)
    return time.time() - begun


def fingerprint(key: str) -> str:
    return hashlib.sha256(key.encode()).hexdigest()[:16]


def users_of(machine: Machine) -> dict[str, dict[str, Any]]:
    """Returns whom nginx lets in, by the fingerprints of their keys."""
    return json.loads(machine.read(f"{FOLDER}/goshelf.json"))["users"]


@contextlib.contextmanager
def refused_files(machine: Machine) -> Iterator[None]:
    """Has nginx refuse its files until the block ends."""
    machine.write("etc/nginx/conf.d/wrong.conf", "nonsense;\n")
    try:
        yield
    finally:
        os.unlink(f"{machine.folder}/etc/nginx/conf.d/wrong.conf")


@contextlib.contextmanager
def stopped_goshelf(machine: Machine) -> Iterator[None]:
    """Stops goshelf until the block ends."""
    machine.does("systemctl stop goshelf")
    try:
        yield
    finally:
        machine.does("systemctl start goshelf")
