"""A machine with goshelf behind nginx and the pages of its shelves, by the commands of docs/NGINX.md, and its users."""

import contextlib
import os
import socket
import struct
import threading
from collections.abc import Callable, Iterator
from http.client import HTTPException, HTTPMessage, HTTPSConnection
from typing import Any

from lib.browser import Browser, Page
from lib.catalog_store import TODAY, make_store
from lib.front import Client, start
from lib.machine import Machine
from lib.pages import block
from lib.peers import asked_by
from lib.program import PROGRAM, ROOT
from lib.scratch import closed_on_failure, read

# each user, and the user's shelf
# the folder of the pages
AT = "var/lib/goshelf-catalog"
USERS = {"ann": "alpha", "bea": "beta", "gus": "gamma", "dee": "delta", "pam": "platform", "cam": "common"}
PATHS = {"gopkg.in": ["beta"], "example.com": [*USERS.values()]}
# goshelf, which notes its words
GOSHELF = f"""#!/bin/sh
echo "$*" >> @/root/words
exec {PROGRAM} "$@"
"""
# tools/catalog, to which it is always the same day
TOOL = f"""#!/bin/sh
[ "$1" != --still ] || exec {ROOT}/tools/catalog "$@"
exec {ROOT}/tools/catalog --today {TODAY} "$@"
"""


class Reader(Client):
    """What users see of a machine with pages, each on one connection."""

    def __init__(self, machine: Machine) -> None:
        super().__init__(machine)
        self.held: dict[str | None, HTTPSConnection] = {}

    def read(
        self, target: str, user: str | None = "ann", method: str = "GET", **headers: str
    ) -> tuple[int, HTTPMessage, bytes]:
        """Returns the answer to a request of a user, or of nobody: its status, its headers and its body."""
        login = {"Authorization": self.login(user)} if user else {}
        try:
            return self.ask_as(user, method, target, {**login, **headers})
        except (HTTPException, OSError):
            # (nginx closes the connections of before when it is reloaded)
            self.held.pop(user).close()
            return self.ask_as(user, method, target, {**login, **headers})

    def ask_as(
        self, user: str | None, method: str, target: str, headers: dict[str, str]
    ) -> tuple[int, HTTPMessage, bytes]:
        """Returns the answer to a request on the connection of a user."""
        if user not in self.held:
            port = self.machine.front
            self.held[user] = HTTPSConnection("localhost", port, timeout=60, context=self.context)
        self.held[user].request(method, target, headers=headers)
        reply = self.held[user].getresponse()
        return reply.status, reply.headers, reply.read()

    def close(self) -> None:
        for connection in self.held.values():
            connection.close()
        super().close()


def lines_of(machine: Machine, store: str, key: str) -> str:
    """Returns what a key sees of a store, as goshelf prints it."""
    return machine.does(f"goshelf catalog --db {store} --key {key}")


def own_goshelf(machine: Machine, text: str) -> None:
    """Puts a script in the place of the command goshelf, which is a link to the program."""
    os.remove(f"{machine.folder}/usr/local/bin/goshelf")
    machine.command("goshelf", text)


# what is done with the words of an order, and with the number of the process that sends it. None is goshelf's reply.
Does = Callable[[list[str], int], bytes | None]


def _pass(words: list[str], sender: int) -> bytes | None:
    return None


@contextlib.contextmanager
def between(machine: Machine, does: Does = _pass) -> Iterator[list[str]]:
    """Takes the orders for a machine's goshelf meanwhile, and yields them as they come. `does` returns the reply."""
    orders: list[str] = []
    at = f"{machine.folder}/run/goshelf/control"
    os.rename(at, f"{at}.own")
    with socket.socket(socket.AF_UNIX) as listener:
        listener.bind(at)
        listener.listen()
        thread = threading.Thread(target=pass_on, args=(listener, f"{at}.own", does, orders))
        thread.start()
        try:
            yield orders
        finally:
            listener.shutdown(socket.SHUT_RDWR)
            thread.join()
            os.rename(f"{at}.own", at)


def pass_on(listener: socket.socket, own: str, does: Does, orders: list[str]) -> None:
    """Passes orders on to a socket, one after another, until nobody listens any more."""
    while True:
        try:
            held, _ = listener.accept()
        except OSError:
            return
        # (the sender may have been killed)
        with held, contextlib.suppress(OSError):
            line = held.recv(4_096)
            orders.append(line.decode().rstrip("\n"))
            sender = struct.unpack("3i", held.getsockopt(socket.SOL_SOCKET, socket.SO_PEERCRED, 12))[0]
            reply = does(orders[-1].split(" "), sender)
            held.sendall(told_at(own, line) if reply is None else reply)


def told_at(at: str, line: bytes) -> bytes:
    """Returns what the goshelf that listens at a socket replies to an order."""

    def connected() -> socket.socket:
        held = socket.socket(socket.AF_UNIX)
        held.connect(at)
        return held

    return asked_by(connected, line)


def set_up(folder: str) -> Reader:
    """Returns the users of each shelf of the store of lib/catalog_store.py, once their pages are made."""
    machine = Machine(folder)
    with closed_on_failure(machine):
        make_store(machine.store)
        own_goshelf(machine, GOSHELF)
        start(machine, PATHS)
        os.mkdir(f"{folder}/root/tools")
        machine.write("root/tools/catalog", TOOL)
        os.chmod(f"{folder}/root/tools/catalog", 0o755)
        reader = Reader(machine)
        for user, shelf in USERS.items():
            reader.add(user, shelf, "read")
        machine.does(block("sh", "/var/lib/goshelf-catalog"))
        made = machine.sh("goshelf-catalog")
        assert made == (0, MADE, ""), made
    return reader


MADE = """\
alpha: 6 pages, 6 new or changed
beta: 18 pages, 18 new or changed
common: 6 pages, 6 new or changed
delta: 8 pages, 8 new or changed
gamma: 12 pages, 12 new or changed
platform: 8 pages, 8 new or changed
"""


class Visitors:
    """A machine with pages, and the browser of those who visit them."""

    def __init__(self, folder: str) -> None:
        self.reader = set_up(folder)
        with closed_on_failure(self.reader):
            self.browser = Browser(f"{folder}/browser", self.reader.pem)
        self.url = f"https://localhost:{self.reader.machine.front}"

    def visit(self, user: str | None, target: str = "/", **look: Any) -> Page:
        """Returns a new window of a user, or of nobody, at a target."""
        page = self.browser.page((user, self.reader.passwords[user]) if user else None, **look)
        page.go(self.url + target)
        return page

    def close(self) -> None:
        self.browser.close()
        self.reader.close()


def files_below(folder: str) -> dict[str, bytes]:
    """Returns the files of the pages in a folder, by their targets. The foot of all pages has the time of the run."""
    found, top = {}, os.path.realpath(folder)
    for at, _, names in os.walk(top):
        for name in names:
            if name not in (".made", "made.css"):
                path = os.path.join(at, name)
                found[("/" + os.path.relpath(path, top)).removesuffix("index.html") or "/"] = read(path)
    return found


def pages_of(reader: Reader, shelf: str) -> dict[str, bytes]:
    """Returns the files of the pages of a shelf, by the targets that read them."""
    return files_below(f"{reader.machine.folder}/{AT}/{shelf}")


def all_pages(reader: Reader) -> dict[str, dict[str, bytes]]:
    """Returns the files of the pages of each shelf."""
    return {shelf: pages_of(reader, shelf) for shelf in USERS.values()}


def list_left(reader: Reader) -> list[str]:
    """Returns what stands beside the store, and copies and keys of it among the pages."""
    beside, among = (sorted(os.listdir(f"{reader.machine.folder}/{at}")) for at in ("var/lib/goshelf", AT))
    return [*beside, *(name for name in among if name.startswith((".goshelf-", ".goshelf.")))]
