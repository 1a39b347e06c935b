"""No key is in a file or a log of nginx, whatever fails: one that it knows, one that nobody has, one that was revoked.

Each row has something fail, sends each key wherever a request has room for it (lib/leaks.py), and then reads all that
nginx has written: its logs, its files, its caches and its temporary folders. nginx and goshelf are real, on the machine
of lib/developers.py.
"""

import contextlib
import os
import secrets
import socket
import socketserver
import subprocess
import threading
import time
from collections.abc import Callable, Iterator

import pytest

from lib.developers import Developers
from lib.outside import Handler
from lib.ports import wait_until
from lib.scratch import opened
from lib.leaks import ROWS, WRITTEN, forms, heads, holders, holds, send, send_heads

pytestmark = [pytest.mark.needs("nginx", "nginx-js", "nginx-stream", "openssl", "go"), pytest.mark.root]
CONF, LOCATIONS = "etc/nginx/conf.d/goshelf.conf", "etc/nginx/goshelf/locations.conf"
FRONT, LOGIN_CONF = "etc/nginx/goshelf/goshelf.json", "etc/nginx/goshelf/login.conf"
ERRORS = "var/log/nginx/goshelf-errors.log"
CORE = "/example.com/alpha/core/@v"
# seconds that nginx waits for goshelf: here, where it waits 60 otherwise
WAIT = 1
Keys = dict[str, str]


@pytest.fixture(scope="module")
def company() -> Iterator[Developers]:
    with opened(Developers) as made:
        assert made.publish("pat", "example.com/alpha/core")[0] == 201
        made.conf(("proxy_http_version 1.1;", f"proxy_http_version 1.1;\n    proxy_read_timeout {WAIT}s;"))
        assert made.reload() == ""
        yield made


@pytest.fixture(scope="module")
def keys(company: Developers) -> Keys:
    """A key that nginx knows, one that nobody ever had, and one that was revoked."""
    revoked = company.give("add Gone alpha read")
    company.machine.does("goshelf-front remove Gone")
    return {"known": company.client.passwords["ann"], "unknown": secrets.token_hex(13), "revoked": revoked}


def connect(company: Developers) -> Callable[[], socket.socket]:
    return lambda: company.client.begin(b"")


def send_all(company: Developers, keys: Keys) -> None:
    """Sends each key wherever it may stand."""
    for key in keys.values():
        assert all(holds(form.encode(), key) for form in forms(key))
        send_heads(connect(company), key, company.client.login("ann"))


def find(company: Developers, keys: Keys) -> list[str]:
    """Returns the files that have a key."""
    company.log()
    return holders(company.machine.folder, (*WRITTEN, "serve.err", "serve.out"), keys)


@contextlib.contextmanager
def all_is_well(company: Developers) -> Iterator[None]:
    yield


@contextlib.contextmanager
def goshelf_is_stopped(company: Developers) -> Iterator[None]:
    company.machine.does("systemctl stop goshelf")
    try:
        yield
    finally:
        company.machine.does("systemctl start goshelf")


class Wrong(socketserver.ThreadingTCPServer):
    """A server in the place of goshelf, which answers with some bytes, and holds each connection if they are none."""

    allow_reuse_address = daemon_threads = True
    request_queue_size = 128

    def __init__(self, port: int, answer: bytes | None) -> None:
        super().__init__(("127.0.0.1", port), socketserver.BaseRequestHandler)
        self.answer = answer
        threading.Thread(target=self.serve_forever, kwargs={"poll_interval": 0.05}, daemon=True).start()

    def finish_request(self, request: object, client_address: object) -> None:
        assert isinstance(request, socket.socket)
        if self.answer is None:
            time.sleep(WAIT * 2)
        else:
            request.recv(65_536)
            request.sendall(self.answer)

    def handle_error(self, *_: object) -> None:
        pass


def goshelf_says(answer: bytes | None) -> Callable[[Developers], contextlib.AbstractContextManager[None]]:
    @contextlib.contextmanager
    def says(company: Developers) -> Iterator[None]:
        with goshelf_is_stopped(company):
            server = Wrong(company.machine.behind, answer)
            try:
                yield
            finally:
                server.shutdown()
                server.server_close()

    return says


@contextlib.contextmanager
def caches_cannot_be_written(company: Developers) -> Iterator[None]:
    caches = f"{company.machine.folder}/var/cache/nginx"
    folders = [at for at, _, _ in os.walk(caches)]
    for folder in folders:
        os.chmod(folder, 0o500)
        os.chown(folder, 0, 0)
    yield
    subprocess.run(["chown", "-R", "www-data", caches], check=True)
    for folder in folders:
        os.chmod(folder, 0o700)


@contextlib.contextmanager
def public_proxy_is_stopped(company: Developers) -> Iterator[None]:
    company.outside.stop(company.outside.port)
    try:
        yield
    finally:
        company.outside.listen("public", company.outside.port)


@contextlib.contextmanager
def public_proxy_has_another_certificate(company: Developers) -> Iterator[None]:
    with public_proxy_is_stopped(company):
        company.outside.listen("wrong", company.outside.port)
        assert company.reload() == ""
        yield
        company.outside.stop(company.outside.port)
    assert company.reload() == ""


def closes(handler: Handler, found: object) -> None:
    handler.close_connection = True
    handler.connection.shutdown(socket.SHUT_RDWR)


def sends_to_the_path(handler: Handler, found: object) -> None:
    handler.reply(302, "text/plain", b"", ("Location", f"https://storage.googleapis.com/{handler.path}"))


def public_proxy_does(how: Callable[[Handler, object], None]) -> Callable[..., contextlib.AbstractContextManager[None]]:
    @contextlib.contextmanager
    def does(company: Developers) -> Iterator[None]:
        company.outside.how["/"] = how
        try:
            yield
        finally:
            del company.outside.how["/"]

    return does


@contextlib.contextmanager
def name_server_is_silent(company: Developers) -> Iterator[None]:
    company.outside.name_server.is_on = False
    # (for a second nginx keeps the address that it had)
    time.sleep(1.2)
    try:
        yield
    finally:
        company.outside.name_server.is_on = True


@contextlib.contextmanager
def person_asks_too_often(company: Developers) -> Iterator[None]:
    with edited(company, LOCATIONS, ("goshelf_people 200", "goshelf_people 1")):
        held = company.client.begin(company.client.head("PUT", f"{CORE}/v9.0.0", "ann", "Content-Length: 9") + b"\r\n")
        wait_until(lambda: company.ask(f"{CORE}/list")[0] == 429)
        yield
        held.close()


@contextlib.contextmanager
def strangers_ask_too_often(company: Developers) -> Iterator[None]:
    with edited(company, LOCATIONS, ("burst=20 nodelay", "nodelay")):
        yield


@contextlib.contextmanager
def script_fails(company: Developers) -> Iterator[None]:
    """goshelf.json has users and no path of the company, which the script refuses."""
    with edited(company, FRONT, ('"deepest"', '"deepest of all"')):
        yield


@contextlib.contextmanager
def edited(company: Developers, name: str, *pairs: tuple[str, str]) -> Iterator[None]:
    """Has nginx run by a file with other texts until the block ends."""
    with company.machine.edited(name, *pairs):
        assert company.reload() == ""
        yield
    assert company.reload() == ""


FAILS = {
    "nothing fails": all_is_well,
    "goshelf is stopped": goshelf_is_stopped,
    "goshelf says nothing": goshelf_says(None),
    "goshelf closes": goshelf_says(b""),
    "goshelf sends no HTTP": goshelf_says(b"\0\1\2 not HTTP\r\n\r\n"),
    "goshelf sends too long a head": goshelf_says(b"HTTP/1.1 200 OK\r\nX: " + b"a b" * 30_000 + b"\r\n\r\n"),
    "goshelf sends half an answer": goshelf_says(b"HTTP/1.1 404 Not Found\r\nContent-Length: 9\r\n\r\nx"),
    "the caches cannot be written": caches_cannot_be_written,
    "the public proxy is stopped": public_proxy_is_stopped,
    "the public proxy has another certificate": public_proxy_has_another_certificate,
    "the public proxy closes": public_proxy_does(closes),
    "the public proxy sends to another place": public_proxy_does(sends_to_the_path),
    "the name server is silent": name_server_is_silent,
    "a person asks too often": person_asks_too_often,
    "strangers ask too often": strangers_ask_too_often,
    "the script fails": script_fails,
}


@pytest.mark.parametrize("what", FAILS)
def test_no_key_is_written(company: Developers, keys: Keys, what: str) -> None:
    with FAILS[what](company):
        send_all(company, keys)
    assert find(company, keys) == []


def asks_in_clear(company: Developers, key: str) -> None:
    for head in heads(key, company.client.login("ann")):
        send(at_port(company.machine.clear), f"{head}\r\nAccept: text/html\r\nConnection: close\r\n\r\n")


def asks_the_port_of_tls_in_clear(company: Developers, key: str) -> None:
    send(at_port(company.machine.front), f"GET /{key} HTTP/1.1\r\nHost: {key}\r\n\r\n")


def asks_the_ports_of_nginx(company: Developers, key: str) -> None:
    for port in (company.machine.says, company.machine.way):
        send(at_port(port), f"GET /{key} HTTP/1.1\r\nHost: {key}\r\nContent-Length: 20000000\r\n\r\n")


def asks_for_the_page_of_keys(company: Developers, key: str) -> None:
    """goshelf-keys is stopped, and the form is too long."""
    for target in (f"/keys/?{key}", f"/keys/{key}", f"/keys/{key}/../"):
        for length in (9, 9_000):
            head = f"POST {target} HTTP/1.1\r\nHost: localhost\r\nX-Forwarded-User: ann\r\nContent-Length: {length}"
            body = f"name={key}&" * 900
            send(connect(company), f"{head}\r\nReferer: https://login.example/?{key}\r\n\r\n{body[:length]}")


def at_port(port: int) -> Callable[[], socket.socket]:
    return lambda: socket.create_connection(("127.0.0.1", port), 9)


ASKS = (asks_in_clear, asks_the_port_of_tls_in_clear, asks_the_ports_of_nginx, asks_for_the_page_of_keys)


@pytest.fixture(scope="module")
def with_page_of_keys(company: Developers) -> Iterator[None]:
    """The page of keys behind a proxy of the company, by the page's second form, with nobody who answers."""
    lines = ("allow 127.0.0.1;", "deny all;", "set $goshelf_name $http_x_forwarded_user;")
    text = f"location /keys/ {{ {' '.join(lines)} include {company.machine.folder}/etc/nginx/goshelf/keys.conf; }}\n"
    company.machine.write(LOGIN_CONF, text)
    assert company.reload() == ""
    yield
    os.unlink(f"{company.machine.folder}/{LOGIN_CONF}")
    assert company.reload() == ""


@pytest.mark.parametrize("asks", ASKS, ids=lambda asks: asks.__name__)
@pytest.mark.parametrize("fails", ["nothing fails", "goshelf is stopped"])
def test_no_key_is_written_elsewhere(
    company: Developers, keys: Keys, with_page_of_keys: None, fails: str, asks: Callable[[Developers, str], None]
) -> None:
    with FAILS[fails](company):
        for key in keys.values():
            asks(company, key)
    assert find(company, keys) == []


@pytest.mark.parametrize(("is_read", "wrong"), ROWS, ids=lambda word: str(getattr(word, "__name__", word)))
@pytest.mark.parametrize("fails", ["nothing fails", "goshelf is stopped"])
def test_no_key_of_a_wrong_request_is_written(
    company: Developers, keys: Keys, fails: str, is_read: bool, wrong: Callable[[str, str], list[str]]
) -> None:
    with FAILS[fails](company):
        for key in keys.values():
            for text in wrong(key, company.client.login("ann")):
                send(connect(company), text, is_read)
    assert find(company, keys) == []


@pytest.mark.needs("curl")
def test_no_key_is_written_over_http_2(company: Developers, keys: Keys) -> None:
    url = f"https://localhost:{company.machine.front}"
    curl = ["curl", "-sk", "--http2", "-o", "/dev/null", "-w", "%{http_version}"]
    ssl = f"listen 127.0.0.1:{company.machine.front} ssl"
    with edited(company, CONF, (f"{ssl};", f"{ssl} http2;")), goshelf_is_stopped(company):
        for key in keys.values():
            for at in (f"/example.com/{key}/@v/list", f"/pub.example/{key}/@v/v1.0.0.mod", f"/?{key}", f"/k/{key}/x"):
                for login in (f"ann:{company.client.passwords['ann']}", f"{key}:{key}"):
                    words = ["-u", login, "-e", f"https://x.example/{key}", "-H", f"X-{key}: a", f"{url}{at}"]
                    assert subprocess.run([*curl, *words], capture_output=True, text=True).stdout == "2"
    assert find(company, keys) == []


def test_the_search_finds_a_key_in_each_form(company: Developers, keys: Keys) -> None:
    for form in forms(keys["unknown"]):
        name = f"{company.machine.folder}/var/log/nginx/planted.log"
        with open(name, "w", encoding="utf-8") as file:
            file.write(f"some GET /x/{form}/@v/list 404\n")
        try:
            assert [line.split(":")[0] for line in find(company, keys)] == ["var/log/nginx/planted.log"], form
        finally:
            os.unlink(name)


NAMES = ("KEY alpha read", "'Ann KEY' alpha read", "--machine KEY alpha read", "annKEYx alpha read", "UPPER alpha read")


@pytest.mark.parametrize("words", [*NAMES, "'PARTED' alpha read"])
def test_a_key_is_no_name(company: Developers, keys: Keys, words: str) -> None:
    key = keys["known"]
    words = (
        words.replace("KEY", key).replace("UPPER", key.upper()).replace("PARTED", f"{key[:9]} {key[9:15]}-{key[15:]}")
    )
    status, printed, errors = company.machine.sh(f"goshelf-front add {words}")
    assert (status, printed, errors) == (1, "", "goshelf-front: a key is in the name, and logs have names\n")
    assert find(company, keys) == []


LONG = "example.com/alpha/containernetworking0"


def test_the_log_has_a_long_name_once_a_module_has_it(company: Developers) -> None:
    begun, target = len(company.log()), f"/{LONG}/@v/v1.0.0.mod"
    assert company.ask(target)[0] == 404
    assert company.publish("pat", LONG)[0] == 201
    assert company.ask(target)[0] == 200
    lines = [line.split() for line in company.log(begun)]
    hidden = "/example.com/alpha/.../@v"
    wanted = [["GET", f"{hidden}/v1.0.0.mod", "404"], ["PUT", f"{hidden}/v1.0.0", "201"], ["GET", target, "200"]]
    assert [line[4:7] for line in lines] == wanted
    assert [line[-1] for line in lines] == ['"ann"', '"pat"', '"ann"']


def test_the_log_of_publishes_has_a_long_name_once_a_module_has_it(company: Developers) -> None:
    path, begun = f"{LONG}/again", len(read_publishes(company))
    assert company.publish("ann", path)[0] == 403
    assert company.publish("pat", path)[0] == 201
    assert company.publish("pat", path, files={"b.go": "package b\n"})[0] == 409
    assert read_publishes(company)[begun:] == [
        ["example.com/alpha/...", "v1.0.0", "403"],
        [path, "v1.0.0", "201"],
        [path, "v1.0.0", "409"],
    ]


def read_publishes(company: Developers) -> list[list[str]]:
    """Returns the path, the version and the status of each publish in the log."""
    company.log()
    return [line.split("\t")[4:] for line in company.machine.does("goshelf-front log").splitlines()]


# what is asked for and not found, and what the log has in its place. A key has 16 letters and digits or more.
SHOWN = {
    "/": "/",
    "/login": "/login",
    "/-/modules": "/-/modules",
    "/-/modules?a": "/-/modules?...",
    "/m/example.com/nothing/": "/m/...",
    f"{CORE}/v7.7.7.mod": f"{CORE}/v7.7.7.mod",
    "/example.com/alpha/@v/v1.0.0.info": "/example.com/alpha/@v/v1.0.0.info",
    "/example.com/alpha/core-sub/pkg/@v/list": "/example.com/alpha/core-sub/pkg/@v/list",
    "/example.com/abcdefgh/ijklmno/@latest": "/example.com/abcdefgh/ijklmno/@latest",
    "/example.com/abcdefgh/ijklmnop/@latest": "/example.com/.../@latest",
    "/example.com/abc.def_ghi~jkl-mno+p/@v/list": "/example.com/.../@v/list",
    "/example.com/a/b/c/d/e/f/g/h/i/j/k/l/m/n/o/p/@v/v1.0.0.mod": "/example.com/.../@v/v1.0.0.mod",
    "/example.com/abcdefgh/@v/v2345678.zip": "/example.com/abcdefgh/@v/....zip",
    "/example.com/abcdefgh/@v/v234567.zip": "/example.com/abcdefgh/@v/v234567.zip",
    "/example.com/abcdefghijklmnop/@v/v234567.zip": "/example.com/.../@v/v234567.zip",
    f"{CORE}/v1.0.0-20240131120000-abcdefabcdef.info": f"{CORE}/....info",
    "/example.com/!alpha!beta!gamma/@v/list": "/example.com/!alpha!beta!gamma/@v/list",
    "/example.com/!alpha!beta!gamma!d/@v/list": "/example.com/!alpha!beta!gamma!d/@v/list",
    "/example.com/!alpha!beta!gamma!de/@v/list": "/example.com/.../@v/list",
    "/example.com/a%62c/@v/list": "/example.com/.../@v/list",
    "/example.com/a:b@c/@v/list": "/example.com/a:b@c/@v/list",
    "/pub.example/other/@v/list": "/pub.example/other/@v/list",
    "/pub.example/others/@v/list": "/.../@v/list",
    "/sumdb/sum.golang.org/lookup/pub.example/none@v1.0.0": "/sumdb/...",
    "/-/gosum/example.com/alpha/core/@v/v9.9.9": "/.../@v/v9.9.9",
    "/k/short": "/k/...",
}


@pytest.mark.parametrize("target", SHOWN)
def test_the_log_has_fewer_letters_than_a_key_of_what_nobody_has(company: Developers, target: str) -> None:
    begun = len(company.log())
    company.ask(target)
    assert [line.split()[5] for line in company.log(begun)] == [SHOWN[target]]


# of refused publishes the path and the version, and what the log has
REFUSED = {
    ("example.com/beta", "v1.0.0"): ("example.com/beta", "v1.0.0"),
    ("example.com/beta/abcdefg", "v1.0.0"): ("example.com/beta/abcdefg", "v1.0.0"),
    ("example.com/beta/abcdefgh", "v1.0.0"): ("example.com/beta/abcdefgh", "..."),
    ("example.com/beta/abc.def-ghij_k~l", "v1.0.0"): ("example.com/...", "v1.0.0"),
    ("example.com/beta", "v1.0.0-20240131120000"): ("example.com/beta", "..."),
    ("pub.example/a/b/c", "v1.0.0"): ("pub.example/a/b/c", "..."),
    ("pub.example/a/b/c/def", "v1.0.0"): ("...", "v1.0.0"),
    ("pub.example", "v1.2.3"): ("pub.example", "v1.2.3"),
}


@pytest.mark.parametrize(("path", "version"), REFUSED, ids=" ".join)
def test_the_log_of_publishes_has_fewer_letters_than_a_key_of_what_was_refused(
    company: Developers, path: str, version: str
) -> None:
    begun = len(read_publishes(company))
    assert company.publish("ann", path, version) == (403, b"not your path\n")
    assert read_publishes(company)[begun:] == [[*REFUSED[path, version], "403"]]


def test_the_log_of_errors_has_the_target_of_a_plain_request(company: Developers) -> None:
    targets = (f"{CORE}/list", f"{CORE}/v7.7.7.mod", "/pub.example/plain/@v/list", "/pub.example/plain/@latest")
    with goshelf_is_stopped(company), public_proxy_is_stopped(company):
        assert {company.ask(target)[0] for target in targets} == {502}
    text = company.machine.read(ERRORS)
    assert [target for target in targets if f'request: "GET {target} HTTP/1.1"' not in text] == []


def test_a_script_that_fails_says_why_in_the_log_of_errors(company: Developers) -> None:
    with script_fails(company):
        assert company.ask("/pub.example/plain/@v/list")[0] == 500
    assert "goshelf.json names no path" in company.machine.read(ERRORS)


def test_a_key_in_capitals_or_twice_does_not_go_out(company: Developers, keys: Keys) -> None:
    begun, key = company.asked_outside(), keys["known"]
    for form in forms(key)[:5]:
        assert company.ask(f"/pub.example/{form}/@v/list")[0] == 404
    assert company.outside.targets(begun) == []
