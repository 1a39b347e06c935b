"""nginx before `goshelf serve`: log in, rights, its cache, slow clients.

It is set up by deploy/nginx/ and the commands of docs/NGINX.md. The files and the commands run as they are, on a
machine in a folder (lib/machine.py). test_behind_nginx_users.py has users who come and go, limits and logs,
test_behind_nginx_go.py the go command.
"""

import base64
import contextlib
import os
import re
import ssl
import time
from collections.abc import Callable, Iterator
from concurrent.futures import ThreadPoolExecutor

import pytest

from lib.behind_nginx import Module, ask_as_stranger
from lib.front import Front, UNUSED, ZIP
from lib.peers import rest_of
from lib.scratch import opened

pytestmark = [pytest.mark.needs("nginx", "nginx-js", "nginx-stream", "openssl"), pytest.mark.root]

# more than all buffers of sockets on the way hold
LARGEST_ZIP = os.urandom(16_777_216)
CREATED, MISSING, TOO_LARGE = (201, b"published\n"), (404, b"not found\n"), (413, b"too large\n")
READERS, OTHERS = ("ann", "ann-b", "pub"), ("bob", "zoe")


@pytest.fixture(scope="module")
def front() -> Iterator[Front]:
    with opened(Front) as front:
        yield front


@pytest.fixture(scope="module")
def lib(front: Front) -> Module:
    """A module that alpha has published."""
    lib = Module(front, "lib")
    assert lib.put("v1.0.0", ZIP) == CREATED
    return lib


@pytest.fixture
def module(front: Front, request: pytest.FixtureRequest) -> Module:
    """A module that a test has for itself."""
    return Module(front, re.sub("[^a-z0-9]+", "-", request.node.name.lower()).strip("-"))


def test_only_root_may_read_who_may_log_in(front: Front) -> None:
    names = [f"{front.machine.folder}/etc/nginx/goshelf/{name}" for name in ("", "names", "goshelf.json")]
    assert [oct(os.stat(name).st_mode & 0o777) for name in names] == ["0o700", "0o600", "0o600"]


@pytest.mark.parametrize("name", ["nginx/goshelf.log", "nginx/goshelf-errors.log", "goshelf/publishes.log"])
def test_only_root_and_its_group_may_read_a_log(front: Front, name: str) -> None:
    assert oct(os.stat(f"{front.machine.folder}/var/log/{name}").st_mode & 0o777) == "0o640"


def basic(login: str) -> str:
    return "Basic " + base64.b64encode(login.encode()).decode()


# the headers of whoever is no user, each made of the text by which one logs in
BAD_LOGINS: dict[str, Callable[[str], str | None]] = {
    "no login": lambda text: None,
    "a wrong password": lambda text: basic("ann:wrong"),
    "a password in other case": lambda text: f"Basic {text[:-8] + text[-8:].swapcase()}",
    "a login in other case": lambda text: f"Basic {text.swapcase()}",
    "a scheme in other case": lambda text: f"basic {text}",
    "a login and more": lambda text: f"Basic {text}AAAA",
    "a login and what a line has behind it": lambda text: f"Basic {text} ann alpha publish",
    "a line of names": lambda text: f"{text}\tann\t",
    "half of what is compared": lambda text: f"Basic {text}={text} ann alpha publish",
    "what is compared, without a line": lambda text: "Basic ann alpha publish=Basic =Basic",
    "a beginning of a login": lambda text: f"Basic {text[:-6]}",
    "another scheme": lambda text: f"Bearer {text}",
    "an empty login": lambda text: "Basic ",
    "a regular expression": lambda text: "Basic .*",
    "the header within others": lambda text: f"^Basic {text}$",
    "a key of goshelf that nobody has": lambda text: basic(f"ann:{UNUSED}"),
    "a user without a password": lambda text: basic("ann:"),
}


@pytest.mark.parametrize("name", BAD_LOGINS)
def test_a_bad_login_gets_a_401_in_plain_text(lib: Module, name: str) -> None:
    header = BAD_LOGINS[name](lib.front.login("ann").split()[1])
    status, body = ask_as_stranger(lib.front, "GET", f"{lib.at}/list", header)
    assert status == 401
    assert body.startswith(b"log in: ")


def test_a_stranger_may_not_publish(lib: Module) -> None:
    headers = {"Mod-Length": str(len(lib.gomod))}
    assert ask_as_stranger(lib.front, "PUT", f"{lib.at}/v8.0.0", None, lib.gomod, headers)[0] == 401


def test_a_key_in_the_url_is_no_login(lib: Module) -> None:
    target = f"/k/{lib.front.passwords['ann']}{lib.at}/list"
    assert ask_as_stranger(lib.front, "GET", target)[0] == 404
    # nor is it with a login
    assert lib.front.get(target)[0] == 404


def test_a_user_who_reads_may_not_publish(module: Module) -> None:
    assert module.put("v1.9.0", user="ann") == (403, b"forbidden\n")


@pytest.mark.parametrize("file", ["v1.0.0.zip", "v1.0.0.mod", "list"])
def test_only_users_of_the_shelf_get_a_file(lib: Module, file: str) -> None:
    body = {"v1.0.0.zip": ZIP, "v1.0.0.mod": lib.gomod, "list": b"v1.0.0\n"}[file]
    assert [lib.get(file, user) == (200, body) for user in READERS] == [True] * 3
    assert [lib.get(file, user) for user in OTHERS] == [MISSING] * 2


def test_each_team_gets_its_own_bytes_cached_or_not(module: Module) -> None:
    assert module.put("v1.0.0", ZIP) == CREATED
    assert module.put("v1.0.0", b"other", "bob") == CREATED
    zips = [module.get("v1.0.0.zip", user)[1] for user in ("bob", "ann", "bob", "pub")]
    assert [body == ZIP for body in zips] == [False, True, False, True]
    assert zips[::2] == [b"other"] * 2


@pytest.mark.parametrize("spelling", ["/../k/{}", "//k/{}", "/%2e%2e/{}", "/..%2f{}", "/{}", "?/k/{}", "/./../{}"])
def test_no_spelling_of_a_target_reaches_another_shelf(lib: Module, spelling: str) -> None:
    assert lib.front.get(spelling.format(UNUSED) + f"{lib.at}/list", "bob")[0] in (400, 404)


def test_no_target_that_looks_like_a_file_is_kept(module: Module) -> None:
    """They look to nginx as what never changes, and to goshelf as what does."""
    targets = [
        f"{module.at}/x/../list",
        f"{module.at}/list?/@v/v1.0.0.info",
        f"/{module.path}/@latest?x=/@v/v1.0.0.mod",
        "/-/gosum/../modules",
        "/-/modules?/-/gosum/",
        f"{module.at}/%6cist",
        f"{module.at}/list%3f.info",
        f"{module.at}/list#.info",
    ]
    assert module.put("v1.0.0") == CREATED
    before = {target: module.front.get(target) for target in targets}
    assert module.put("v1.0.1") == CREATED
    assert Module(module.front, "new").put("v1.0.0") == CREATED
    after = {target: module.front.get(target) for target in targets}
    assert [target for target in targets if before[target] == after[target] and after[target][0] == 200] == []


@pytest.mark.parametrize("size", [17_825_793, 18 * 1_048_576 + 1], ids=["for goshelf", "for nginx"])
def test_a_body_that_is_too_large_gets_a_413_in_plain_text(module: Module, size: int) -> None:
    assert module.put_body("v7.0.0", bytes(size)) == TOO_LARGE


def test_nginx_reads_a_chunked_body(module: Module) -> None:
    lines = (f"Mod-Length: {len(module.gomod)}", "Transfer-Encoding: chunked", "Connection: close")
    head = module.front.head("PUT", f"{module.at}/v1.0.2", "pub", *lines)
    with module.front.begin(head + b"\r\n") as connection:
        connection.sendall(b"%x\r\n%s\r\n0\r\n\r\n" % (len(module.gomod), module.gomod))
        assert rest_of(connection).startswith(b"HTTP/1.1 201 ")


@contextlib.contextmanager
def four_clients(front: Front, sent: Callable[[int], bytes], room: int | None = None) -> Iterator[list[ssl.SSLSocket]]:
    """Opens four connections on which this is sent, and closes them in the end."""
    with contextlib.ExitStack() as stack:
        yield [stack.enter_context(front.begin(sent(number), room)) for number in range(4)]


def seconds_of_a_list(lib: Module) -> float:
    """Returns how long a user waits for a list, once others have stood still for a second."""
    time.sleep(1)
    begun = time.monotonic()
    assert lib.get("list")[0] == 200
    return time.monotonic() - begun


def test_clients_that_send_half_of_a_head_hold_nobody(lib: Module) -> None:
    with four_clients(lib.front, lambda _: lib.front.head("GET", f"{lib.at}/list", "ann")):
        assert seconds_of_a_list(lib) < 5


def test_clients_that_send_half_of_a_body_hold_nobody_and_publish_nothing(lib: Module, module: Module) -> None:
    body = module.gomod + ZIP
    lines = (f"Mod-Length: {len(module.gomod)}", f"Content-Length: {len(body)}")
    head = module.front.head("PUT", f"{module.at}/v9.0.0", "pub", *lines) + b"\r\n"
    with four_clients(module.front, lambda _: head + body[: len(body) // 2]):
        assert seconds_of_a_list(lib) < 5
    assert module.get("v9.0.0.mod")[0] == 404


def test_clients_that_read_nothing_hold_nobody_and_get_all_later(lib: Module, module: Module) -> None:
    assert module.put("v1.2.0", LARGEST_ZIP) == CREATED
    heads = [
        module.front.head("GET", f"{module.at}/v1.2.0.zip", user, "Connection: close") + b"\r\n"
        for user in ("ann", "pub")
    ]
    with four_clients(module.front, lambda number: heads[number % 2], 4096) as readers:
        assert seconds_of_a_list(lib) < 5
        with ThreadPoolExecutor(len(readers)) as pool:
            replies = list(pool.map(rest_of, readers))
    assert [reply.endswith(b"\r\n\r\n" + LARGEST_ZIP) for reply in replies] == [True] * 4


def test_a_404_is_not_kept(module: Module) -> None:
    assert module.get("v1.1.0.mod")[0] == 404
    assert module.put("v1.1.0") == CREATED
    assert module.get("v1.1.0.mod") == (200, module.gomod)


def test_a_list_is_not_kept(module: Module) -> None:
    assert module.put("v1.0.0") == CREATED
    assert module.get("list") == (200, b"v1.0.0\n")
    assert module.put("v1.1.0") == CREATED
    assert module.get("list") == (200, b"v1.0.0\nv1.1.0\n")


def test_goshelf_is_alive(front: Front) -> None:
    assert ask_as_stranger(front, "GET", "/healthz") == (200, b"ok\n")


@pytest.fixture(scope="module")
def while_stopped(lib: Module) -> dict[str, tuple[int, bytes]]:
    """What users and a stranger get of a module of which a zip is cached, while goshelf is stopped."""
    front = lib.front
    assert lib.get("v1.0.0.zip") == (200, ZIP)
    front.machine.does("systemctl stop goshelf")
    try:
        return {
            **{user: lib.get("v1.0.0.zip", user) for user in (*READERS, "bob")},
            "a list": lib.get("list"),
            "health": ask_as_stranger(front, "GET", "/healthz"),
            "a stranger": ask_as_stranger(front, "GET", f"{lib.at}/v1.0.0.zip"),
        }
    finally:
        front.machine.does("systemctl start goshelf")


@pytest.mark.parametrize("user", READERS)
def test_a_cached_zip_is_there_while_goshelf_is_stopped(while_stopped: dict, user: str) -> None:
    assert while_stopped[user] == (200, ZIP)


def test_another_team_does_not_get_what_is_cached(while_stopped: dict) -> None:
    assert while_stopped["bob"][0] == 502


def test_a_list_fails_in_plain_text_while_goshelf_is_stopped(while_stopped: dict) -> None:
    status, body = while_stopped["a list"]
    assert status == 502 and body.startswith(b"goshelf does not answer")


def test_goshelf_is_not_alive_while_it_is_stopped(while_stopped: dict) -> None:
    assert while_stopped["health"][0] == 502


def test_a_stranger_gets_nothing_of_the_cache(while_stopped: dict) -> None:
    assert while_stopped["a stranger"][0] == 401
