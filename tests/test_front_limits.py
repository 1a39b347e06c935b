"""What one person may take of nginx, what its log has of who hangs up, and the headers of each answer.

nginx, goshelf and the public proxy are those of lib/developers.py.
"""

import contextlib
import json
import os
import resource
import signal
import socket
import ssl
import threading
import time
from collections.abc import Callable, Iterator
from concurrent.futures import ThreadPoolExecutor

import pytest

from lib.developers import PATIENCE, Developers
from lib.front import fingerprint
from lib.logins import log_in
from lib.outside import Handler
from lib.ports import wait_until
from lib.scratch import opened

pytestmark = [pytest.mark.needs("nginx", "nginx-js", "nginx-stream", "openssl", "go"), pytest.mark.root]
CORE = "/example.com/alpha/core/@v"
PUBLISHES = "var/log/goshelf/publishes.log"
SAFE = {
    "Strict-Transport-Security": ["max-age=31536000"],
    "X-Content-Type-Options": ["nosniff"],
    "Cross-Origin-Resource-Policy": ["same-origin"],
}
HALF = b"GET / HTTP/1.1\r\nHost: localhost\r\nX-Slow: "


@pytest.fixture(scope="module")
def company() -> Iterator[Developers]:
    with opened(Developers) as made:
        made.outside.add("pub.example/lib", "v1.0.0")
        assert made.publish("pat", "example.com/alpha/core")[0] == 201
        yield made


@contextlib.contextmanager
def hanging(company: Developers, begin: str) -> Iterator[threading.Event]:
    """Has the public proxy answer targets that begin so only once an event is set."""
    goes_on = threading.Event()

    def wait(handler: Handler, _: object) -> None:
        goes_on.wait(60)
        handler.reply(404, "text/plain", b"not found\n")

    company.outside.how[begin] = wait
    try:
        yield goes_on
    finally:
        goes_on.set()
        del company.outside.how[begin]


@contextlib.contextmanager
def larger_nginx(company: Developers) -> Iterator[None]:
    """Has each process of nginx take 4,096 connections until the block ends."""
    before = company.machine.read("nginx.conf")
    text = before.replace("worker_connections 768", "worker_connections 4096")
    company.machine.write("nginx.conf", f"worker_rlimit_nofile 16384;\n{text}")
    company.machine.does("systemctl restart nginx")
    yield
    company.machine.write("nginx.conf", before)
    company.machine.does("systemctl restart nginx")


@pytest.fixture(scope="class")
def patient_nginx(company: Developers) -> Iterator[None]:
    """nginx waits for the public proxy as long as its files say. (Each request that waits holds four connections.)"""
    pair = f"proxy_read_timeout {PATIENCE}s", "proxy_read_timeout 30s"
    company.machine.edit("etc/nginx/goshelf/public.conf", pair)
    with larger_nginx(company):
        yield
        company.machine.edit("etc/nginx/goshelf/public.conf", pair[::-1])


@pytest.mark.usefixtures("patient_nginx")
class TestPublicWay:
    @pytest.mark.parametrize("words, most", [("", 50), ("--machine", 150)], ids=["a person", "a machine"])
    def test_one_name_leaves_it_to_others(self, company: Developers, words: str, most: int) -> None:
        user, count = f"hog{most}", 210
        company.give(f"add {user} alpha read {words}", user)
        targets = [f"/hang.example/{user}{number}/@v/list" for number in range(count)]
        with ThreadPoolExecutor(count) as pool, hanging(company, "/hang.example/") as goes_on:
            replies = [pool.submit(company.ask, target, user) for target in targets]
            wait_until(lambda: sum(reply.done() for reply in replies) == count - most)
            assert company.ask("/pub.example/lib/@v/list", "bob")[0] == 200
            goes_on.set()
            statuses = [reply.result()[0] for reply in replies]
        assert (statuses.count(404), statuses.count(429)) == (most, count - most)


def hold_publishes(company: Developers, key: str, count: int) -> list[ssl.SSLSocket]:
    """Returns connections that each have sent the head of a publish by a key, and wait."""
    lines = (f"PUT {CORE}/v9.0.0 HTTP/1.1", "Host: localhost", f"Authorization: {log_in(key)}")
    head = "".join(f"{line}\r\n" for line in (*lines, "Mod-Length: 9", "Content-Length: 9", ""))
    return [company.client.begin(head.encode()) for _ in range(count)]


@contextlib.contextmanager
def closing_all(connections: list[ssl.SSLSocket]) -> Iterator[list[ssl.SSLSocket]]:
    yield connections
    for connection in connections:
        connection.close()


@pytest.mark.parametrize("words, status", [("--machine", 200), ("", 429)], ids=["a machine", "a person"])
def test_machine_may_ask_more_often_at_once(company: Developers, words: str, status: int) -> None:
    key = company.give(f"add {'hal' if words else 'ida'} alpha publish {words}")
    with closing_all(hold_publishes(company, key, 220)):
        wait_until(lambda: company.status(key, f"{CORE}/v1.0.0.mod") == status)


@pytest.fixture
def large_nginx(company: Developers) -> Iterator[None]:
    """nginx takes more connections, and this process may open as many."""
    soft, most = resource.getrlimit(resource.RLIMIT_NOFILE)
    if most < 4_096:
        pytest.skip(f"a process may open {most} files here")
    resource.setrlimit(resource.RLIMIT_NOFILE, (most, most))
    with larger_nginx(company):
        yield
    resource.setrlimit(resource.RLIMIT_NOFILE, (soft, most))


@pytest.mark.usefixtures("large_nginx")
def test_jobs_of_a_machine_ask_2000_times_at_once(company: Developers) -> None:
    """All jobs that share a machine's name have 2,000 requests at a time, and nobody else waits for them."""
    key, other = (company.give(f"add {name} alpha publish --machine") for name in ("ci", "ci2"))
    target = f"{CORE}/v1.0.0.mod"
    with closing_all(hold_publishes(company, key, 1_990)) as held:
        assert company.status(key, target) == 200
        held += hold_publishes(company, key, 10)
        wait_until(lambda: company.status(key, target) == 429)
        others = company.status(other, target), company.status(company.client.passwords["ann"], target)
        assert (company.status(key, target), others) == (429, (200, 200))
    wait_until(lambda: company.status(key, target) == 200)


@pytest.fixture
def asleep(company: Developers) -> Iterator[Callable[[], None]]:
    """goshelf, which does not answer until the function is called."""
    number = int(company.machine.read("serve.pid"))
    os.kill(number, signal.SIGSTOP)
    try:
        yield lambda: os.kill(number, signal.SIGCONT)
    finally:
        os.kill(number, signal.SIGCONT)


def count_connections(port: int) -> int:
    """Returns how many connections to a port of this host are established."""
    with open("/proc/net/tcp", encoding="utf-8") as file:
        rows = [line.split() for line in file.readlines()[1:]]
    return sum(row[2].endswith(f":{port:04X}") and row[3] == "01" for row in rows)


def test_publish_of_who_hangs_up_is_logged_as_it_ended(company: Developers, asleep: Callable[[], None]) -> None:
    machine, gomod = company.machine, b"module example.com/alpha/core\n"
    lines = [f"Mod-Length: {len(gomod)}", f"Content-Length: {len(gomod)}"]
    head = company.client.head("PUT", f"{CORE}/v1.4.0", "pat", *lines)
    held = company.client.begin(head + b"\r\n" + gomod)
    wait_until(lambda: count_connections(machine.behind) > 0)
    held.close()
    # (nginx sees the end of the connection, and writes its line if it gives up)
    time.sleep(0.5)
    asleep()
    wait_until(lambda: "v1.4.0" in machine.read(PUBLISHES))
    row = json.loads([line for line in machine.read(PUBLISHES).splitlines() if "v1.4.0" in line][-1])
    found = [row[name] for name in ("name", "fingerprint", "shelf", "path", "version", "status")]
    own = fingerprint(company.client.passwords["pat"])
    assert found == ["pat", own, "alpha", "example.com/alpha/core", "v1.4.0", "201"]
    assert company.ask(f"{CORE}/v1.4.0.mod") == (200, gomod)


@pytest.mark.parametrize("port", ["front", "clear"])
def test_half_a_head_is_ended_after_ten_seconds(company: Developers, port: str) -> None:
    connection = company.client.begin(HALF) if port == "front" else begin_in_clear(company.machine.clear)
    begun = time.monotonic()
    with connection:
        while connection.recv(4_096):
            pass
    assert 9 < time.monotonic() - begun < 15


def begin_in_clear(port: int) -> socket.socket:
    connection = socket.create_connection(("127.0.0.1", port), 60)
    connection.sendall(HALF)
    return connection


@pytest.mark.parametrize(
    "user, target, status",
    [
        ("ann", f"{CORE}/list", 200),
        ("ann", f"{CORE}/v1.0.0.mod", 200),
        ("ann", f"{CORE}/v1.9.9.mod", 404),
        ("ann", "/pub.example/lib/@v/list", 200),
        ("ann", "/pub.example/lib/@v/v1.0.0.zip", 200),
        ("ann", "/pub.example/none/@v/list", 404),
        ("ann", "/login", 204),
        ("ann", "/none?x=1", 404),
        ("ann", "/k/x", 404),
        ("ann", "/sumdb/sum.golang.org/lookup/example.com/alpha/core@v1.0.0", 404),
        ("ann", "/m/none.html", 404),
        ("ann", "/favicon.ico", 204),
        (None, f"{CORE}/list", 401),
        (None, "/healthz", 200),
    ],
)
@pytest.mark.parametrize("accept", ["*/*", "text/html"])
def test_answer_binds_browsers_to_tls(
    company: Developers, user: str | None, target: str, status: int, accept: str
) -> None:
    header = company.client.login(user) if user else None
    reply = company.client.reply("GET", target, header, headers={"Accept": accept})
    while reply.status == 429:
        time.sleep(0.25)
        reply = company.client.reply("GET", target, header, headers={"Accept": accept})
    assert reply.status == status
    assert {name: reply.headers.get_all(name) for name in SAFE} == SAFE


def test_refused_body_binds_browsers_to_tls(company: Developers) -> None:
    held = company.client.begin(
        company.client.head("PUT", f"{CORE}/v9.0.0", "pat", "Content-Length: 19000000") + b"\r\n"
    )
    with held:
        head = held.recv(65_536).decode()
    assert head.startswith("HTTP/1.1 413 ")
    assert [name for name in SAFE if head.count(f"{name}: {SAFE[name][0]}\r\n") != 1] == []
