"""A public proxy that is slow, dead or wrong, behind nginx by one URL: builds go on from what is kept.

The company and what is outside are those of lib/developers.py. A test that has the public proxy misbehave has a module
of its own, so that no cache helps.
"""

import contextlib
import hashlib
import os
import socket
import subprocess
import time
from collections.abc import Callable, Iterator
from concurrent.futures import ThreadPoolExecutor
from typing import NamedTuple

import pytest

from lib.developers import PATIENCE, Developers
from lib.outside import NAME, STORE, TEXT, XMOD, ZIP, Handler
from lib.ports import wait_for, wait_until
from lib.scratch import mounted, opened

pytestmark = [
    pytest.mark.needs("nginx", "nginx-js", "nginx-stream", "openssl", "go", "umount"),
    pytest.mark.root,
    pytest.mark.skipif(not os.path.isdir(XMOD), reason="the machine has no golang-golang-x-mod-dev"),
]

CORE = "/example.com/alpha/core"
AWAY = b"the public proxy does not answer: try again in a minute\n"
# files whose zip is larger than what nginx takes at once
FILES = {"a.go": "package a\n", "r": "".join(hashlib.sha256(bytes([byte])).hexdigest() for byte in range(256))}
LOCATIONS = "etc/nginx/goshelf/locations.conf"
# how the public proxy answers for a file, whose kind and bytes are given
How = Callable[[Handler, tuple[str, bytes]], None]


@pytest.fixture(scope="module")
def company() -> Iterator[Developers]:
    """A company that has published a module, beside one that is public."""
    with opened(Developers) as company:
        for version in ("v1.0.0", "v1.1.0"):
            company.outside.add("pub.example/lib", version)
        assert company.publish("pat", CORE[1:])[0] == 201
        yield company
        # no path of ours was asked outside
        assert company.leaks() == []


def says(status: int, body: bytes = b"no\n", kind: str = TEXT, *headers: tuple[str, str]) -> How:
    return lambda handler, found: handler.reply(status, kind, body, *headers)


def sends_half(has_length: bool = False, is_chunked: bool = False) -> How:
    """Sends half of a file and closes the connection."""

    def how(handler: Handler, found: tuple[str, bytes]) -> None:
        kind, body = found
        length = [("Content-Length", str(len(body)))] if has_length else []
        chunked = [("Transfer-Encoding", "chunked")] if is_chunked else []
        handler.head(200, ("Content-Type", kind), *length, *chunked)
        half = body[: len(body) // 2]
        handler.wfile.write(b"%x\r\n%s\r\n" % (len(half), half) if is_chunked else half)
        handler.wfile.flush()
        closes(handler, found)

    return how


def closes(handler: Handler, found: tuple[str, bytes]) -> None:
    handler.close_connection = True
    handler.connection.shutdown(socket.SHUT_RDWR)


def is_slow(handler: Handler, found: tuple[str, bytes]) -> None:
    time.sleep(PATIENCE * 2)
    handler.reply(200, *found)


def follows(handler: Handler, found: tuple[str, bytes]) -> None:
    """Sends the caller to the store of zips, which has the file."""
    if handler.headers["Host"].startswith(STORE):
        return handler.reply(200, *found)
    port = handler.server.outside.store_port
    place = f"https://{STORE}:{port}{handler.path}?X-Goog-Signature=abc%2Fdef"
    return handler.reply(302, TEXT, b"", ("Location", place))


# how the public proxy answers, what the go command says, and the status of its zip here; 0 where none comes whole
MISBEHAVES = {
    "404": (says(404, b"not found: gone\n"), "not found: gone", 404),
    "410": (says(410, b"gone\n"), "410", 410),
    "500": (says(500), "502", 502),
    "503 in HTML": (says(503, b"<html>", "text/html"), "502", 502),
    "401": (says(401, b"who?\n", TEXT, ("WWW-Authenticate", "Basic")), "502", 502),
    "403": (says(403), "502", 502),
    "429": (says(429), "502", 502),
    "HTML with 200": (says(200, b"<html>log in to the net</html>", "text/html; charset=utf-8"), "", 200),
    "half of a body": (sends_half(has_length=True), "", 0),
    "half of a body in chunks": (sends_half(is_chunked=True), "", 0),
    "half of a body without a length": (sends_half(), "", 200),
    "too late": (is_slow, "502", 502),
    "nothing": (closes, "502", 502),
    "a redirect to another host": (says(302, b"", TEXT, ("Location", "https://localhost/x")), "502", 502),
    "a redirect to our own path": (says(302, b"", TEXT, ("Location", f"{CORE}/@v/list")), "502", 502),
}  # fmt: skip


@pytest.mark.parametrize("name", MISBEHAVES)
def test_the_go_command_fails_and_nothing_wrong_is_kept(company: Developers, name: str) -> None:
    (how, word, wanted), path = MISBEHAVES[name], f"pub.example/m{list(MISBEHAVES).index(name)}"
    download = ("mod", "download", f"{path}@v1.0.0")
    company.outside.add(path, "v1.0.0", files=FILES)
    company.outside.how[f"/{path}/"] = how
    ended, _, said = company.go(company.work(), *download)
    status, body = company.ask(f"/{path}/@v/v1.0.0.zip")
    del company.outside.how[f"/{path}/"]
    assert not ended and word in said
    assert status == wanted
    assert body == AWAY or status != 502
    # once the answer is right, all is well; a 404 and a 410 are kept for a minute
    if wanted not in (404, 410):
        ended, _, said = company.go(company.work(), *download)
        assert ended, said


@pytest.mark.parametrize(
    ("path", "place"),
    [("/pub.example/sent-private", f"{CORE}/@v/v1.0.0.zip"), ("/pub.example/sent-location", "@ours")],
    ids=["a private zip", "a location"],
)
def test_the_public_proxy_sends_nginx_nowhere(company: Developers, path: str, place: str) -> None:
    company.outside.how[path] = says(200, b"x", TEXT, ("X-Accel-Redirect", place))
    assert company.ask(f"{path}/@v/v1.0.0.zip") == (200, b"x")


def test_no_header_of_the_public_proxy_stops_the_cache_or_arrives(company: Developers) -> None:
    """One entry serves all shelves."""
    outside, target = company.outside, "/pub.example/kept/@v/v1.0.0.mod"
    wild = (("Set-Cookie", "a=b"), ("Cache-Control", "no-store, private"), ("Vary", "*"), ("Goshelf-Part", "beta 1"))
    outside.add("pub.example/kept", "v1.0.0")
    outside.how["/pub.example/kept"] = lambda handler, found: handler.reply(200, *found, *wild)
    begun = company.asked_outside()
    replies = {company.ask(target, user) for user in ("ann", "bob", "com")}
    assert (len(replies), company.asked_outside() - begun) == (1, 1)
    reply = company.client.reply("GET", target, company.client.login("ann"))
    assert reply.headers.get_all("Set-Cookie") is None
    assert reply.headers.get_all("Goshelf-Part") == ["public alpha 1"]


def test_a_zip_behind_a_redirect_to_the_store_is_fetched_here_and_kept(company: Developers) -> None:
    company.outside.add("pub.example/sent", "v1.0.0", files=FILES)
    company.outside.how["/pub.example/sent/@v/v1.0.0.zip"] = follows
    begun = company.asked_outside()
    runs = [company.go(company.work(), "mod", "download", "pub.example/sent@v1.0.0") for _ in range(2)]
    assert [ended for ended, _, _ in runs] == [True, True], runs
    assert len([target for target in company.outside.targets(begun) if ".zip" in target]) == 2


def test_those_who_want_one_zip_at_the_same_time_ask_once(company: Developers) -> None:
    company.outside.add("pub.example/large", "v1.0.0", files=FILES)
    company.outside.how["/pub.example/large/"] = lambda handler, found: (time.sleep(0.3), handler.reply(200, *found))
    begun = company.asked_outside()
    with ThreadPoolExecutor(16) as pool:
        replies = set(pool.map(lambda _: company.ask("/pub.example/large/@v/v1.0.0.zip"), range(16)))
    assert (len(replies), company.asked_outside() - begun) == (1, 1)


def test_100_misses_go_over_few_connections(company: Developers) -> None:
    outside = company.outside
    before, begun = len(outside.servers[outside.port].taken), company.asked_outside()
    for number in range(100):
        company.ask(f"/pub.example/none{number}/@v/list")
    assert company.asked_outside() - begun == 100
    assert len(outside.servers[outside.port].taken) - before <= 16


def test_requests_that_hang_leave_room(company: Developers) -> None:
    company.outside.how["/pub.example/hang"] = is_slow
    with company.machine.edited(LOCATIONS, ("goshelf_out 200", "goshelf_out 10")):
        company.reload()
        begun = company.asked_outside()
        with ThreadPoolExecutor(30) as pool:
            targets = [f"/pub.example/hang{number}/@v/list" for number in range(30)]
            hanging = [pool.submit(company.ask, target, "bob") for target in targets]
            wait_until(lambda: company.asked_outside() - begun == 10)
            began = time.monotonic()
            assert company.ask(f"{CORE}/@v/list")[0] == 200
            assert time.monotonic() - began < 1
            statuses = [reply.result()[0] for reply in hanging]
    company.reload()
    assert (statuses.count(502), statuses.count(429)) == (10, 20)


@pytest.mark.parametrize(("name", "wanted"), [("wrong", 502), ("self", 502), ("public", 200)])
def test_only_the_certificate_of_the_public_proxy_does(company: Developers, name: str, wanted: int) -> None:
    outside, port = company.outside, company.outside.port
    outside.stop(port)
    try:
        outside.listen(name, port)
        company.reload()
        outside.add("pub.example/tls", f"v1.0.0-{name}")
        begun = company.asked_outside()
        assert company.ask(f"/pub.example/tls/@v/v1.0.0-{name}.mod")[0] == wanted
        assert company.asked_outside() - begun == (1 if wanted == 200 else 0)
    finally:
        if port in outside.servers:
            outside.stop(port)
        outside.listen("public", port)
        company.reload()


def test_the_public_proxy_is_asked_by_its_name(company: Developers) -> None:
    company.outside.add("pub.example/named", "v1.0.0", files=FILES)
    company.outside.how["/pub.example/named/@v/v1.0.0.zip"] = follows
    assert company.ask("/pub.example/named/@v/v1.0.0.zip")[0] == 200
    assert set(company.outside.names) == {NAME, STORE}


class Away(NamedTuple):
    """What came while the public proxy was down, and once it was back."""

    builds: dict[str, tuple[bool, str, str]]
    never_asked: tuple[bool, str, str]
    own: tuple[int, int]
    seconds: float
    back: list[int]


@pytest.fixture(scope="module")
def away(company: Developers) -> Away:
    outside, folder = company.outside, company.work("pub.example/lib", CORE[1:])
    assert company.go(folder, "mod", "tidy", cache=company.fresh())[0]
    outside.stop(outside.port)
    try:
        lines = ("build -o app .", "list -m -versions pub.example/lib")
        builds = {line: company.go(folder, *line.split()) for line in lines}
        never_asked = company.go(folder, "get", "pub.example/never@v1.0.0")
        begun = time.monotonic()
        own = company.ask(f"{CORE}/@v/list")[0], company.publish("pat", "example.com/alpha/meanwhile")[0]
        seconds = time.monotonic() - begun
    finally:
        outside.listen("public", outside.port)
    back = [company.ask(f"/pub.example/{end}")[0] for end in ("lib/@v/v1.0.0.info", "never/@v/list")]
    return Away(builds, never_asked, own, seconds, back)


@pytest.mark.parametrize("line", ["build -o app .", "list -m -versions pub.example/lib"])
def test_go_goes_on_with_an_empty_module_cache_while_the_public_proxy_is_down(away: Away, line: str) -> None:
    ended, _, said = away.builds[line]
    assert ended, said


def test_what_was_never_asked_ends_the_go_command(away: Away) -> None:
    ended, _, said = away.never_asked
    assert not ended and AWAY.decode().strip() in said


def test_what_is_ours_is_as_ever(away: Away) -> None:
    assert away.own == (200, 201)
    assert away.seconds < 2


def test_the_public_proxy_is_back(away: Away) -> None:
    assert away.back == [200, 404]


@contextlib.contextmanager
def no_name_server(company: Developers) -> Iterator[None]:
    """Stops the name server until the block ends, once nginx has forgotten what that said: it holds for a second."""
    server = company.outside.name_server
    server.is_on = False
    time.sleep(1.2)
    try:
        yield
    finally:
        server.is_on = True
        time.sleep(1.2)


def test_nginx_starts_and_reloads_while_no_name_server_answers(company: Developers) -> None:
    machine = company.machine
    assert company.reload() == ""
    assert company.ask("/pub.example/lib/@v/v1.1.0.mod")[0] == 200
    with no_name_server(company):
        assert company.reload() == ""
        machine.does("nginx -s stop")
        wait_until(lambda: not os.path.exists(f"{machine.folder}/nginx.pid"))
        machine.does("nginx -t && nginx")
        wait_for(machine.front)
        assert company.ask("/login")[0] == 204
        # users come and go meanwhile
        company.client.add("dan", "alpha", "read")
        assert {company.ask("/login", "dan")[0] for _ in range(10)} == {204}
        machine.does("goshelf-front remove dan")
        assert {company.ask("/login", "dan")[0] for _ in range(10)} == {401}
        # then a miss is a 502, and what is kept and ours is there
        targets = "/pub.example/other/@v/list", "/pub.example/lib/@v/v1.1.0.mod", f"{CORE}/@v/list"
        assert [company.ask(target)[0] for target in targets] == [502, 200, 200]
    assert company.ask("/pub.example/other/@v/list")[0] == 404
    # it is asked for no other names
    assert set(company.outside.name_server.asked) <= {NAME, STORE}


@pytest.fixture
def full_cache(company: Developers) -> Iterator[None]:
    """The disk of the public cache is small."""
    cache = f"{company.machine.folder}/var/cache/nginx/goshelf-public"
    if not mounted(cache, "64k"):
        pytest.skip("this machine mounts no tmpfs")
    os.chmod(cache, 0o777)
    yield
    subprocess.run(["umount", "-l", cache], check=True)


def test_the_disk_of_the_public_cache_is_full(company: Developers, full_cache: None) -> None:
    """Small files and what is ours are there. A large zip is whole or cut, never wrong."""
    huge = os.urandom(1_000_000)
    company.outside.files["/pub.example/huge/@v/v1.0.0.zip"] = ZIP, huge
    status, body = company.ask("/pub.example/huge/@v/v1.0.0.zip")
    assert status in (0, 200, 502)
    assert status != 200 or body == huge
    assert company.ask("/pub.example/lib/@v/v1.0.0.mod")[0] == 200
    assert [company.ask(f"{CORE}/@v/{end}")[0] for end in ("list", "v1.0.0.mod", "v1.0.0.zip")] == [200] * 3
    # no key is in what nginx says of it
    text = company.machine.read("var/log/nginx/goshelf-errors.log")
    assert [secret for secret in company.secrets() if secret in text] == []
