"""Whatever goes wrong, no log and no file of nginx has a key or a login.

nginx and goshelf are real, on the machine of lib/developers.py. The log of errors is at level error.
"""

import contextlib
import http.client
import os
import subprocess
import time
import urllib.parse
from collections.abc import Callable, Iterator
from concurrent.futures import ThreadPoolExecutor

import pytest

from lib.developers import Developers
from lib.ports import wait_until
from lib.scratch import opened

pytestmark = [pytest.mark.needs("nginx", "nginx-js", "nginx-stream", "openssl", "go"), pytest.mark.root]
CORE = "/example.com/alpha/core/@v"
ERRORS = "var/log/nginx/goshelf-errors.log"
MODS = {"Mod-Length": "9"}
Ask = Callable[..., tuple[int, bytes]]


@pytest.fixture(scope="module")
def company() -> Iterator[Developers]:
    with opened(Developers) as made:
        assert made.publish("pat", "example.com/alpha/core")[0] == 201
        yield made


@pytest.fixture(autouse=True)
def no_key_is_left(company: Developers) -> Iterator[None]:
    """Whatever a test does, no log and no file of nginx has a key in the end."""
    yield
    assert find_holders(company) == []


@pytest.fixture
def ask(company: Developers) -> Ask:
    """Asks as ann."""

    def ask_as_ann(target: str, *how: object) -> tuple[int, bytes]:
        return company.ask(target, "ann", *how)

    return ask_as_ann


@pytest.fixture
def key(company: Developers) -> str:
    """The key of ann."""
    return company.client.passwords["ann"]


def find_holders(company: Developers) -> list[str]:
    """Returns the logs, the files of nginx and what goshelf prints, that have a key or a login."""
    folder = company.machine.folder
    company.log()
    secrets = [word for secret in company.secrets() for word in ("-e", secret)]
    places = [f"{folder}/{name}" for name in ("etc/nginx", "var/log", "serve.err", "serve.out")]
    ran = subprocess.run(["grep", "-rlF", *secrets, *places], capture_output=True, text=True)
    return [os.path.relpath(name, folder) for name in ran.stdout.splitlines()]


@contextlib.contextmanager
def stopped(company: Developers) -> Iterator[None]:
    """Stops goshelf meanwhile."""
    company.machine.does("systemctl stop goshelf")
    try:
        yield
    finally:
        company.machine.does("systemctl start goshelf")


def ask_in_clear(company: Developers, target: str, **headers: str) -> int:
    """Returns the status of an answer at port 80."""
    connection = http.client.HTTPConnection("127.0.0.1", company.machine.clear, timeout=30)
    with contextlib.closing(connection):
        connection.request("GET", target, headers=headers)
        return connection.getresponse().status


def read_targets(company: Developers, since: int) -> list[str]:
    """Returns the targets of the log, from a line on."""
    return [line.split()[5] for line in company.log(since)]


def test_goshelf_is_away(company: Developers, ask: Ask) -> None:
    with stopped(company):
        assert [ask(f"{CORE}/{file}")[0] for file in ("list", "v7.7.7.mod")] == [502, 502]
        assert ask(f"{CORE}/v9.0.0", "PUT", b"x" * 99, MODS)[0] == 502
    text = company.machine.read(ERRORS)
    assert "Connection refused" in text and 'upstream: "http://127' in text


def test_only_root_and_its_group_read_the_errors(company: Developers) -> None:
    assert os.stat(f"{company.machine.folder}/{ERRORS}").st_mode & 0o777 == 0o640


def test_body_is_too_large(ask: Ask) -> None:
    assert ask(f"{CORE}/v9.0.0", "PUT", bytes(19 << 20), MODS)[0] in (0, 413)


@pytest.mark.parametrize("method", ["PUT", "GET"])
@pytest.mark.parametrize("at", ["", "/favicon.ico", "/healthz", "/"])
def test_body_is_too_large_and_the_key_is_in_its_query(ask: Ask, key: str, method: str, at: str) -> None:
    assert ask(f"{at or f'{CORE}/v9.0.0'}?key={key}", method, bytes(19 << 20), MODS)[0] in (0, 413)


def test_body_is_cut(company: Developers) -> None:
    head = company.client.head("PUT", f"{CORE}/v9.0.0", "pat", "Content-Length: 99")
    company.client.begin(head + b"\r\nx").close()


def test_reply_is_not_read(company: Developers) -> None:
    company.client.begin(company.client.head("GET", f"{CORE}/v1.0.0.zip", "pat") + b"\r\n").close()


def test_header_is_too_large(ask: Ask) -> None:
    assert ask(f"{CORE}/list", "GET", None, {"X-Long": "a" * 40_000})[0] in (0, 400)


def test_target_is_too_large(ask: Ask) -> None:
    assert ask(f"/{'a' * 9_000}{CORE}/list")[0] in (0, 414)


@pytest.mark.parametrize("method", ["GET", "PUT"])
@pytest.mark.parametrize("before", ["/k/", "//k/", "/%6b/", "/x/../k/"])
def test_key_is_in_the_url(ask: Ask, key: str, method: str, before: str) -> None:
    assert ask(f"{before}{key}{CORE}/v1.0.0.mod", method, *((b"x", MODS) if method == "PUT" else ()))[0] == 404


# a path that has a key, and what the log has in its place
PATHS = {
    "/KEY": "/...",
    "/KEY/": "/...",
    f"/KEY{CORE}/list": "/.../@v/list",
    f"{CORE}/KEY": f"{CORE}/...",
    "/example.com/KEY/@v/list": "/example.com/.../@v/list",
    "/pub.example/KEY/@v/list": "/.../@v/list",
    "/ann:KEY@shelf.example.com/": "/...",
    "/password%20KEY": "/...",
    "/HIDDEN": "/...",
    "/-/KEY": "/-/...",
    "/healthz/KEY": "/healthz/...",
    "/login/KEY?x=KEY": "/login/...?...",
}


def put_in(path: str, key: str) -> str:
    """Returns a path with a key in it."""
    return path.replace("KEY", key).replace("HIDDEN", "".join(f"%{ord(letter):x}" for letter in key))


@pytest.mark.parametrize("path", PATHS)
@pytest.mark.parametrize("user", ["ann", "bob", None])
def test_key_is_elsewhere_in_the_path(company: Developers, key: str, user: str | None, path: str) -> None:
    begun, outside = len(company.log()), company.asked_outside()
    status, body = company.ask(put_in(path, key), user)
    if user:
        assert (status, body.partition(b",")[0]) == (404, b"the key does not go into the URL")
    else:
        assert status in (401, 429)
    assert read_targets(company, begun) == [PATHS[path]]
    assert company.outside.targets(outside) == []


@pytest.mark.parametrize("path", PATHS)
def test_key_is_in_a_path_in_clear(company: Developers, key: str, path: str) -> None:
    begun = len(company.log())
    assert ask_in_clear(company, put_in(path, key)) == 421
    assert read_targets(company, begun) == [PATHS[path]]


def test_key_is_in_the_path_of_a_publish(company: Developers, ask: Ask, key: str) -> None:
    begun = len(company.log())
    assert ask(f"/example.com/alpha/{key}/@v/v1.0.0", "PUT", b"x" * 99, MODS)[0] == 404
    assert read_targets(company, begun) == ["/example.com/alpha/.../@v/v1.0.0"]


def test_key_is_in_a_path_while_goshelf_is_away(company: Developers, ask: Ask, key: str) -> None:
    with stopped(company):
        assert {ask(put_in(path, key))[0] for path in PATHS} == {404}
        assert company.ask(f"/healthz?key={key}", None)[0] == 502


def test_key_is_in_a_query(company: Developers, key: str) -> None:
    paths = (f"{CORE}/v1.0.0.info", "/pub.example/lib/@v/list", "/", "/m/none")
    begun = len(company.log())
    for user in ("ann", None):
        for path in paths:
            company.ask(f"{path}?key={key}", user)
    assert ask_in_clear(company, f"{paths[0]}?key={key}") == 421
    lines = [line.split()[5:7] for line in company.log(begun)]
    assert [f"{CORE}/v1.0.0.info?...", "421"] in lines
    assert [target for target, _ in lines if "?" in target] == [target for target, _ in lines]
    assert len(lines) == 9


def test_key_is_in_a_query_while_goshelf_is_away(company: Developers, ask: Ask, key: str) -> None:
    paths = (f"{CORE}/list", f"{CORE}/v1.0.0.info", "/-/modules")
    with stopped(company):
        assert [ask(f"{path}?key={key}")[0] for path in paths] == [404] * 3


@pytest.mark.parametrize("scheme", ["Basic", "Bearer"])
def test_key_is_the_login(company: Developers, key: str, scheme: str) -> None:
    wait_until(lambda: company.client.ask("GET", "/login", f"{scheme} {key}")[0] == 401)
    assert company.client.ask("GET", "/login", f"{scheme} {urllib.parse.quote(key)}")[0] in (401, 429)


def test_key_comes_in_clear(company: Developers, key: str) -> None:
    assert ask_in_clear(company, f"/k/{key}/", Authorization=company.client.login("ann")) == 421


def test_public_proxy_is_away(company: Developers, ask: Ask) -> None:
    company.outside.stop(company.outside.port)
    try:
        assert ask("/pub.example/no/@v/list")[0] == 502
    finally:
        company.outside.listen("public", company.outside.port)


def test_name_server_is_away(company: Developers, ask: Ask) -> None:
    company.outside.name_server.is_on = False
    try:
        # (for a second nginx keeps the address that it had)
        time.sleep(1.2)
        assert ask("/pub.example/away/@v/list")[0] in (404, 502)
    finally:
        company.outside.name_server.is_on = True


def test_strangers_ask_too_often(company: Developers) -> None:
    with ThreadPoolExecutor(40) as pool:
        statuses = set(pool.map(lambda _: company.client.ask("GET", "/", None)[0], range(80)))
    assert 429 in statuses


def test_nginx_refuses_its_files(company: Developers) -> None:
    company.machine.write("etc/nginx/conf.d/wrong.conf", "nonsense;")
    try:
        assert [company.machine.sh(f"goshelf-front {words}")[0] for words in ("rotate ann", "uncache")] == [1, 1]
    finally:
        company.machine.does("rm /etc/nginx/conf.d/wrong.conf; goshelf-front sync")


def test_goshelf_ends_at_once(company: Developers, ask: Ask) -> None:
    number = int(company.machine.read("serve.pid"))
    os.kill(number, 9)
    wait_until(lambda: not os.path.exists(f"/proc/{number}/fd/0"))
    try:
        assert ask(f"{CORE}/list")[0] == 502
    finally:
        company.machine.does("systemctl start goshelf")


def test_cache_cannot_be_written(company: Developers, ask: Ask) -> None:
    cache = f"{company.machine.folder}/var/cache/nginx/goshelf"
    folders = [cache, *(os.path.join(at, name) for at, names, _ in os.walk(cache) for name in names)]
    for folder in folders:
        os.chmod(folder, 0o500)
    for number in range(4):
        company.publish("pat", f"example.com/alpha/core/err{number}")
        ask(f"/example.com/alpha/core/err{number}/@v/v1.0.0.mod")
    for folder in folders:
        os.chmod(folder, 0o700)
    assert "Permission denied" in company.machine.read(ERRORS)
