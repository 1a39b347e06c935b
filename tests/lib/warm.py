"""A host that answers from a copy of the store of the first host, by deploy/warm.

A stand-in takes the place of ssh: it runs the command of authorized_keys on the first host, and fails 3 seconds after
the line was cut.
"""

import contextlib
import hashlib
import os
import re
import socket
import subprocess
import sys
import threading
from collections.abc import Callable, Collection, Iterator, Mapping

from lib.company import CONF, FIRST, Asking, Company, is_file, publish_own
from lib.hosts import Answer, Host, inside
from lib.machine import has_ended
from lib.pages import block
from lib.ports import wait_until
from lib.scratch import read

WARM, BOTH, PAGE = "warm.example.com", "modules.example.com", "DEPLOYMENTS.md"
# modules that are not the company's: goshelf has none of them, and nginx answers them as goshelf would, by the second
# way
ELSEWHERE = ("/golang.org/x/mod/@v/v0.1.0.mod", "/golang.org/x/mod/@v/list", "/golang.org/x/mod/@latest")
SECOND_WAY = ("js_var $goshelf_others public;\n", "js_var $goshelf_others nowhere;\n")
HOME, COPY = "var/lib/goshelf", ("shelves.db", "shelves.db-wal")
NOT_WHOLE = "no whole copy of the first host's store came"
# answers that need no other than the copy
SAMPLE = (("ann", "/example.com/lib/@v/v1.0.0.zip"), ("bob", "/example.com/base/@v/v1.0.0.mod"))
SSH = """#!{python}
import socket, sys
*options, place, word = sys.argv[1:]

def take(conn, count):
    text = b""
    while len(text) < count:
        more = conn.recv(count - len(text))
        if not more:
            raise OSError("the connection is closed")
        text += more
    return text

try:
    conn = socket.create_connection((place.partition("@")[2], 22), 3)
    conn.sendall(word.encode() + b"\\n")
    while length := int(take(conn, 8)):
        # (less than nothing is a sign of life)
        sys.stdout.buffer.write(take(conn, length))
        sys.stdout.buffer.flush()
    status, said = take(conn, 4096).rstrip(b"\\0").split(b" ", 1)
    sys.stderr.buffer.write(said)
    sys.exit(int(status))
except OSError as error:
    sys.exit(f"ssh: {{error}}")
"""


class Wire:
    """Takes the place of the first host's sshd.

    It sends `given` in place of a copy if that is not None. While `held` is an event, it waits for that behind half of
    what it sends, at most 20 seconds."""

    def __init__(self, host: Host) -> None:
        self.host = host
        self.given: bytes | None = None
        self.held: threading.Event | None = None
        with inside(host.namespace):
            self.socket = socket.create_server((host.address, 22))
        threading.Thread(target=self.accept, daemon=True).start()

    def accept(self) -> None:
        with contextlib.suppress(OSError):
            while True:
                conn, _ = self.socket.accept()
                threading.Thread(target=self.answer, args=(conn,), daemon=True).start()

    def answer(self, conn: socket.socket) -> None:
        """Sends what the command of authorized_keys prints, or bytes that are given, and then its status and its
        errors."""
        with conn, contextlib.suppress(OSError):
            word = conn.makefile().readline().strip()
            status, printed, errors = (
                (0, self.given, b"")
                if self.given is not None
                else self.copied(word, lambda: conn.sendall(b"%08d" % -1))
            )
            for begin in range(0, len(printed), 65_536):
                piece = printed[begin : begin + 65_536]
                conn.sendall(b"%08d" % len(piece) + piece)
                if (held := self.held) and begin >= len(printed) // 2:
                    held.wait(20)
            conn.sendall(b"%08d" % 0 + (b"%d %s" % (status, errors[:4_000])).ljust(4_096, b"\0"))

    def copied(self, word: str, alive: Callable[[], None] = lambda: None) -> tuple[int, bytes, bytes]:
        """Returns the status, the output and the errors of the command for this word. Each second it gives a sign of
        life."""
        keys = self.host.read("root/.ssh/authorized_keys")
        found = re.search(r'^restrict,command="([^"]+)" ssh-ed25519 ', keys)
        assert found, keys
        words = ["ip", "netns", "exec", self.host.namespace, "sh", "-c", found[1]]
        env = {"PATH": "/usr/sbin:/usr/bin:/bin", "SSH_ORIGINAL_COMMAND": word}
        child = subprocess.Popen(
            words, env=env, stdin=subprocess.DEVNULL, stdout=subprocess.PIPE, stderr=subprocess.PIPE
        )
        while True:
            try:
                printed, errors = child.communicate(timeout=1)
                return child.returncode, printed, errors
            except subprocess.TimeoutExpired:
                alive()

    @contextlib.contextmanager
    def gives(self, text: bytes) -> Iterator[None]:
        """Sends these bytes in place of a copy, until the block ends."""
        self.given = text
        try:
            yield
        finally:
            self.given = None

    @contextlib.contextmanager
    def holds(self) -> Iterator[None]:
        """Sends only half of each copy until the block ends."""
        self.held = held = threading.Event()
        try:
            yield
        finally:
            self.held = None
            held.set()

    def close(self) -> None:
        self.socket.close()


class Warm(Company):
    """A company whose second host is warm."""

    fronts, more_names = (FIRST, WARM), (BOTH,)
    wire: Wire | None = None

    def set_up(self, host: Host, certificate: str) -> None:
        """Sets both hosts up by the commands of DEPLOYMENTS, up to the first copy."""
        self.warm = host
        self.first.write("root/warm.pub", "ssh-ed25519 AAAA root@warm\n")
        self.first.does(block("sh", "authorized_keys", PAGE))
        self.wire = Wire(self.first)
        host.check_out()
        host.command("ssh", SSH.format(python=sys.executable))
        host.write("root/goshelf-first.pem", certificate)
        host.does(block("sh", "set-up --warm", PAGE))
        for front in (self.first, host):
            front.edit(CONF, SECOND_WAY)
        host.start_nginx()

    def targets(self) -> list[str]:
        return [*super().targets(), *ELSEWHERE]

    def copy(self) -> None:
        """Makes a copy and serves it, without a word."""
        ran = self.warm.sh("goshelf-warm store")
        assert ran == (0, "", ""), ran

    def files(self) -> set[Asking]:
        """Returns the requests of files that the store has."""
        return {asking for asking, answer in self.answers().items() if is_file(asking, answer)}

    def maps(self, command: str = "goshelf-warm front") -> None:
        """Fetches the files of the first host's front, which have changed, and has nginx take them."""
        before = self.warm.workers()
        ran = self.warm.sh(command)
        assert ran == (0, "", ""), ran
        self.warm.wait_for_workers(before)

    def kill(self) -> None:
        """Kills the store's goshelf, and waits for its end: until then it holds the store."""
        number = int(self.first.read("serve.pid"))
        os.kill(number, 9)
        wait_until(lambda: has_ended(number))

    def alone(
        self, wanted: Mapping[Asking, Answer], copied: Collection[Asking], kept: Collection[Asking] = ()
    ) -> list[tuple[str, str, int, bool]]:
        """Returns the warm host's answers that are not as they have to be while the first host is down, whose nginx
        may keep some. Each is the user, the target, the status that came, and whether the copy has it."""
        wrong = []
        for asking, answer in wanted.items():
            found = self.desk.ask(WARM, *asking)
            failed = found[0] == (404 if asking[1] in ELSEWHERE else 502)
            if not (found == answer if asking in copied else failed or asking in kept and found == answer):
                wrong.append((*asking, found[0], asking in copied))
        return wrong

    def tried(self, text: bytes) -> tuple[int, str, str]:
        """Returns what goshelf-warm says of a copy of these bytes."""
        assert self.wire
        with self.wire.gives(text):
            return self.warm.sh("goshelf-warm store")

    def close(self) -> None:
        if self.wire:
            self.wire.close()
        super().close()


def publishes(company: Company, version: str) -> set[tuple[int, bytes]]:
    """Publishes a version of each shelf at the warm host, of a path of its own and of one that all have. Returns the
    replies."""
    more = [("com", "shared"), ("pub", "own"), ("gil", "shared/sub")]
    return publish_own(company, version) | {company.put(user, f"example.com/{path}", version) for user, path in more}


def store_of(host: Host) -> tuple[str, bytes]:
    """Returns the sum of a store's file, and what its log has behind its head."""
    return hashlib.sha256(read(host.store)).hexdigest(), read(f"{host.store}-wal")[41:].strip(b"\0")
