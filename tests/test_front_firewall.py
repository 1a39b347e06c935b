"""The firewall of nginx's host: one address leaves nginx to others, and only root and nginx connect to goshelf.

nginx and goshelf are real, on a host that is a network namespace (lib/hosts.py), with the rules of deploy/nginx loaded
by the command of the unit.
"""

import contextlib
import os
import re
import socket
import subprocess
import sys
from collections.abc import Iterator

import pytest

from lib.company import DESK, FIRST, Company, set_up_first
from lib.developers import FIRST_WAY, SECOND_WAY
from lib.hosts import Desk, Host, inside
from lib.machine import AUTHORITIES
from lib.pages import block
from lib.program import ROOT
from lib.scratch import opened
from lib.stores import new_store

pytestmark = [
    pytest.mark.needs("ip", "nft", "nginx", "nginx-js", "nginx-stream", "openssl", "setpriv", "systemd-analyze"),
    pytest.mark.root,
]
LIST = "/example.com/lib/@v/list"
HALF = b"GET / HTTP/1.1\r\nHost: shelf.example.com\r\nX-Slow: "
# more connections than both processes of nginx have
MANY = 1_600
UNIT = f"{ROOT}/deploy/systemd/goshelf-firewall.service"
# holds connections until its input ends, and says how many
HOLD = """
import socket, sys
held = []
for _ in range(int(sys.argv[2])):
    try:
        held.append(socket.create_connection(("127.0.0.1", int(sys.argv[1])), 5))
    except OSError:
        pass
print(len(held), flush=True)
sys.stdin.read()
"""
NOBODY, NGINX, ROOT_USER = 65_534, "www-data", 0


class OneFront(Company):
    """A company with one host, a desk and two users. Its nginx asks nobody outside."""

    fronts = (FIRST,)

    def start(self) -> None:
        certificate = self.first.certificate()
        # (nginx reads the authorities of the public proxy for each location that asks it)
        authorities = f"{self.first.folder}{AUTHORITIES}"
        os.unlink(authorities)
        os.symlink(f"{self.first.folder}/etc/ssl/goshelf.pem", authorities)
        new_store(self.first.store, ("alpha", "firstkey00000001"))
        self.first.does("systemctl start goshelf")
        set_up_first(self.first)
        self.first.edit("etc/nginx/conf.d/goshelf.conf", (FIRST_WAY, SECOND_WAY))
        self.first.reload()
        self.desk = Desk(self.network, DESK, [certificate])
        for user in (("ann", "alpha", "read"), ("pub", "alpha", "publish")):
            self.desk.add(self.first, *user)


def order(host: Host, name: str) -> None:
    """Runs a command of the unit."""
    with open(UNIT, encoding="utf-8") as file:
        command = re.search(f"^Exec{name}=(.*)$", file.read(), re.M)
    assert command
    host.does(command[1])


@pytest.fixture(scope="module")
def company() -> Iterator[OneFront]:
    with opened(OneFront) as made:
        status, _, body = made.desk.ask(
            FIRST, "pub", "/example.com/lib/@v/v1.0.0", "PUT", b"module example.com/lib\n", {"Mod-Length": "23"}
        )
        assert status == 201, body
        made.first.does(block("sh", "firewall.nft", "NGINX.md"))
        made.first.edit("etc/nginx/goshelf/firewall.nft", ("8080", str(made.first.behind)))
        order(made.first, "Start")
        yield made


@pytest.fixture
def half_heads(company: OneFront) -> Iterator[list[socket.socket]]:
    """Connections from the desk to port 80 that send half a head: those that nginx's host lets in."""
    held = []
    with inside(company.hosts[DESK].namespace):
        for _ in range(MANY):
            try:
                held.append(socket.create_connection((company.first.address, 80), 5))
                held[-1].sendall(HALF)
            except OSError:
                continue
    yield held
    for connection in held:
        connection.close()


def test_half_heads_of_one_address_leave_nginx_to_others(company: OneFront, half_heads: list[socket.socket]) -> None:
    host = company.first
    words = f"curl -sk -m 5 -o /dev/null -w '%{{http_code}} ' --resolve {FIRST}:443:127.0.0.1 https://{FIRST}/login"
    assert host.sh(f"for one in $(seq 20); do {words}; done") == (0, "401 " * 20, "")
    assert len(half_heads) <= 500


@contextlib.contextmanager
def holding(host: Host, user: str | int, port: int, count: int) -> Iterator[int]:
    """Has a user of the host hold idle connections to a port. Yields how many were let in."""
    words = ["setpriv", f"--reuid={user}", "--clear-groups", sys.executable, "-c", HOLD, str(port), str(count)]
    with subprocess.Popen([*host.within, *words], stdin=subprocess.PIPE, stdout=subprocess.PIPE, text=True) as child:
        assert child.stdout
        yield int(child.stdout.readline())
        child.communicate()


@pytest.mark.parametrize("user, is_let_in", [(NOBODY, False), (NGINX, True), (ROOT_USER, True)])
def test_only_root_and_nginx_connect_to_goshelf(company: OneFront, user: str | int, is_let_in: bool) -> None:
    with holding(company.first, user, company.first.behind, 1) as count:
        assert count == int(is_let_in)


@pytest.mark.parametrize("port", [8444, 8445])
def test_nobody_connects_to_the_ports_of_nginx_itself(company: OneFront, port: int) -> None:
    with holding(company.first, NOBODY, port, 3) as count:
        assert count == 0


def test_idle_connections_of_a_user_of_the_host_stop_nobody(company: OneFront) -> None:
    with holding(company.first, NOBODY, company.first.behind, 20) as count:
        company.desk.kept.clear()
        status, _, body = company.desk.ask(FIRST, "ann", LIST)
        assert (count, status, body) == (0, 200, b"v1.0.0\n")


def test_rules_are_loaded_again_and_taken_away(company: OneFront) -> None:
    host = company.first
    rules = [line for line in host.does("nft -s list ruleset").splitlines() if "elements" not in line]
    order(host, "Reload")
    assert host.does("nft list ruleset").splitlines() == rules
    order(host, "Stop")
    try:
        assert host.does("nft list ruleset") == ""
    finally:
        order(host, "Start")


def test_unit_is_right() -> None:
    ran = subprocess.run(["systemd-analyze", "verify", UNIT], capture_output=True, text=True)
    assert (ran.returncode, ran.stderr) == (0, ""), os.path.basename(UNIT)
