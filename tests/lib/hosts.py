"""Hosts that are network namespaces on one bridge, each a machine in a folder (machine.py), and a client among them.

Nothing of it is seen outside: the bridge is in a namespace too. A host resolves the names of the others. Root only.
"""

import contextlib
import copy
import ctypes
import http.client
import itertools
import os
import shutil
import socket
import ssl
import subprocess
from collections.abc import Iterable, Iterator, Mapping

from lib.logins import Logins
from lib.machine import Machine, has_ended
from lib.peers import over
from lib.ports import is_listening, wait_until

NEW_NET = 0x40000000
LIBC = ctypes.CDLL(None, use_errno=True)
CERTIFICATE = """openssl req -x509 -newkey ec -pkeyopt ec_paramgen_curve:P-256 -nodes -days 2 -subj /CN={name} \
    -addext subjectAltName={names} -out /etc/ssl/goshelf.pem -keyout /etc/ssl/goshelf.key"""
# the networks of this process, by which the names of their namespaces differ
_NUMBERS = itertools.count()

# the status, the kind and the body of a reply
Answer = tuple[int, str, bytes]


def ip(*words: str) -> None:
    """Runs a command of iproute2, which has to end well."""
    subprocess.run(["ip", *words], check=True, capture_output=True, text=True)


@contextlib.contextmanager
def inside(namespace: str) -> Iterator[None]:
    """Has this thread in a namespace: a socket that it makes there stays there."""
    with (
        open("/proc/thread-self/ns/net", encoding="utf-8") as own,
        open(f"/run/netns/{namespace}", encoding="utf-8") as other,
    ):
        assert LIBC.setns(other.fileno(), NEW_NET) == 0, os.strerror(ctypes.get_errno())
        try:
            yield
        finally:
            assert LIBC.setns(own.fileno(), NEW_NET) == 0


class Host(Machine):
    """A machine in a folder and in a namespace. It listens on the ports that its files name."""

    def __init__(self, folder: str, namespace: str, name: str, number: int) -> None:
        super().__init__(folder)
        self.namespace, self.name, self.address = namespace, name, f"198.18.0.{number}"
        self.within = ("ip", "netns", "exec", namespace)

    def placed(self, text: str) -> str:
        return self.placed_on_host(text)

    def link(self, up: bool) -> None:
        """Takes the host's cable out, or puts it in again."""
        ip("-n", self.namespace, "link", "set", "eth0", "up" if up else "down")

    @contextlib.contextmanager
    def cut_off(self) -> Iterator[None]:
        """Takes the host's cable out until the block ends."""
        self.link(False)
        try:
            yield
        finally:
            self.link(True)

    def certificate(self, *more: str) -> str:
        """Makes a certificate for the host's name and more names, and returns it."""
        names = ",".join(f"DNS:{name}" for name in (self.name, *more))
        self.does(CERTIFICATE.format(name=self.name, names=names))
        return self.read("etc/ssl/goshelf.pem")

    def stop_nginx(self) -> None:
        """Stops nginx and waits for its end."""
        number = int(self.read("nginx.pid"))
        os.kill(number, 15)
        wait_until(lambda: has_ended(number))

    def start_nginx(self) -> None:
        """Starts nginx and waits until it takes connections."""
        self.does("nginx")
        # (who waits for a reload compares its two processes of before)
        wait_until(lambda: self.listens(443) and len(self.workers()) == 2)

    def listens(self, port: int) -> bool:
        """Whether somebody listens on a port of the host."""
        with inside(self.namespace):
            return is_listening(port)

    def reload(self) -> None:
        """Has nginx read its files anew, and waits until its processes of before take no more connections."""
        before = self.workers()
        self.does("nginx -t && nginx -s reload")
        self.wait_for_workers(before)


class Network:
    """Hosts by name, and one bridge to which each has a cable."""

    def __init__(self, folder: str, names: Iterable[str]) -> None:
        self.tag = f"goshelf{os.getpid()}x{next(_NUMBERS)}"
        self.made: list[str] = []
        self.hosts: dict[str, Host] = {}
        self.wire = self.namespace("wire")
        ip("-n", self.wire, "link", "add", "br0", "type", "bridge")
        ip("-n", self.wire, "link", "set", "br0", "up")
        for number, name in enumerate(names, 1):
            namespace = self.namespace(name.partition(".")[0])
            self.connect(namespace, number)
            os.makedirs(f"{folder}/{name}")
            self.hosts[name] = Host(f"{folder}/{name}", namespace, name, number)
        self.write_names()

    def namespace(self, name: str) -> str:
        """Makes a namespace and returns its whole name."""
        ip("netns", "add", f"{self.tag}-{name}")
        self.made.append(f"{self.tag}-{name}")
        return self.made[-1]

    def connect(self, namespace: str, number: int) -> None:
        """Gives a namespace a cable to the bridge, and its address."""
        cable = f"eth0 netns {namespace} type veth peer name to{number} netns {self.wire}"
        ip("link", "add", *cable.split())
        ip("-n", self.wire, "link", "set", f"to{number}", "master", "br0", "up")
        ip("-n", namespace, "addr", "add", f"198.18.0.{number}/24", "dev", "eth0")
        for device in ("lo", "eth0"):
            ip("-n", namespace, "link", "set", device, "up")

    def write_names(self) -> None:
        """Writes the names of the hosts. `ip netns exec` puts this file in place of /etc/hosts."""
        lines = "".join(f"{host.address} {host.name}\n" for host in self.hosts.values())
        for host in self.hosts.values():
            os.makedirs(f"/etc/netns/{host.namespace}")
            with open(f"/etc/netns/{host.namespace}/hosts", "w", encoding="utf-8") as file:
                file.write(f"127.0.0.1 localhost\n{lines}")

    def close(self) -> None:
        """Ends what was started on the hosts, and removes the namespaces."""
        for host in self.hosts.values():
            host.close()
        for name in reversed(self.made):
            subprocess.run(["ip", "netns", "del", name], capture_output=True)
            shutil.rmtree(f"/etc/netns/{name}", ignore_errors=True)


class Desk(Logins):
    """Who asks from a host: users with passwords."""

    def __init__(self, network: Network, at: str, certificates: Iterable[str]) -> None:
        super().__init__()
        self.network, self.namespace = network, network.hosts[at].namespace
        self.kept: dict[str, http.client.HTTPConnection] = {}
        self.context = ssl.create_default_context(cadata="".join(certificates))

    def another(self) -> "Desk":
        """Returns another who asks for the same users, on connections of its own."""
        desk = copy.copy(self)
        desk.kept = {}
        return desk

    def add(self, first: Host, user: str, shelf: str, right: str) -> None:
        """Adds a user of a shelf at the first host."""
        self.add_at(first, first.name, user, shelf, right)

    def connect(self, name: str, seconds: float = 30) -> ssl.SSLSocket:
        """Returns a connection to a host's port 443."""
        with inside(self.namespace):
            raw = socket.create_connection((self.network.hosts[name].address, 443), timeout=seconds)
        return self.context.wrap_socket(raw, server_hostname=name)

    def ask(
        self,
        name: str,
        user: str | None,
        target: str,
        method: str = "GET",
        body: bytes | None = None,
        headers: Mapping[str, str] | None = None,
    ) -> Answer:
        """Returns the status, the kind and the body of what a host answers; status 0 where no whole answer comes."""
        sent = {"Host": name, **({"Authorization": self.login(user)} if user else {}), **(headers or {})}
        conn = self.kept.pop(name, None)
        if conn and method == "GET":
            # the host may have closed it meanwhile
            with contextlib.suppress(OSError, http.client.HTTPException):
                return self._exchange(name, conn, method, target, body, sent)
        try:
            return self._exchange(name, over(self.connect(name)), method, target, body, sent)
        except (OSError, http.client.HTTPException) as error:
            return 0, "", repr(error).encode()

    def status(self, name: str, user: str | None, target: str) -> int:
        """Returns the status of what a host answers; 0 where no whole answer comes."""
        return self.ask(name, user, target)[0]

    def _exchange(self, name: str, conn: http.client.HTTPConnection, *request: object) -> Answer:
        """Returns the answer on a connection, which is kept for the next request."""
        conn.request(*request)  # type: ignore[arg-type]
        reply = conn.getresponse()
        answer = reply.status, reply.headers.get("Content-Type", ""), reply.read()
        if not reply.will_close:
            self.kept[name] = conn
        return answer
