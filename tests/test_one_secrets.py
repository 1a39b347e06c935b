"""No key is in a file or a log of a site or of the first host, whatever fails between them: deploy/one.

Each row has something fail, sends each key to a site wherever a request has room for it (lib/leaks.py), and then
reads all that nginx has written at both hosts: its logs, its files, its caches and its temporary folders. What a site
keeps of logins is in memory, below /run.
"""

import contextlib
import os
import secrets
import socket
import subprocess
from collections.abc import Callable, Iterator

import pytest

from lib.company import FIRST, SITE, Company
from lib.scratch import opened
from lib.leaks import ROWS, WRITTEN, holders, send, send_heads
from lib.ports import wait_until

pytestmark = [
    pytest.mark.needs("nginx", "nginx-js", "nginx-stream", "openssl", "ip", "pgrep", "umount"),
    pytest.mark.root,
]
Keys = dict[str, str]
LONG = "example.com/containernetworking0"


@pytest.fixture(scope="module")
def company() -> Iterator[Company]:
    with opened(Company) as company:
        assert company.put("pub", "example.com/alpha/core", "v1.0.0")[0] == 201
        yield company


@pytest.fixture(scope="module")
def keys(company: Company) -> Keys:
    """A key that the first host knows, one that nobody ever had, and one that was revoked."""
    revoked = company.first.does("goshelf-front add Gone alpha read").split()[5]
    company.first.does("goshelf-front remove Gone")
    return {"known": company.key("ann"), "unknown": secrets.token_hex(13), "revoked": revoked}


def connect(company: Company) -> Callable[[], socket.socket]:
    return lambda: company.desk.connect(SITE, 9)


def find(company: Company, keys: Keys) -> list[str]:
    """Returns the files of both hosts that have a key."""
    return [found for host in (SITE, FIRST) for found in holders(company.hosts[host].folder, WRITTEN, keys)]


@contextlib.contextmanager
def nothing_fails(company: Company) -> Iterator[None]:
    yield


@contextlib.contextmanager
def goshelf_is_stopped(company: Company) -> Iterator[None]:
    company.first.does("systemctl stop goshelf")
    try:
        yield
    finally:
        company.first.does("systemctl start goshelf")


@contextlib.contextmanager
def first_host_is_stopped(company: Company) -> Iterator[None]:
    company.first.stop_nginx()
    try:
        yield
    finally:
        company.first.start_nginx()


@contextlib.contextmanager
def first_host_is_cut_off(company: Company) -> Iterator[None]:
    with company.first.cut_off():
        yield


@contextlib.contextmanager
def first_host_has_another_certificate(company: Company) -> Iterator[None]:
    site = company.hosts[SITE]
    with site.edited("etc/nginx/conf.d/goshelf.conf", ("/goshelf-first.pem", "/goshelf.pem")):
        site.reload()
        yield
    site.reload()


@contextlib.contextmanager
def cache_cannot_be_written(company: Company) -> Iterator[None]:
    cache = f"{company.hosts[SITE].folder}/var/cache/nginx/goshelf"
    subprocess.run(["chown", "-R", "root", cache], check=True)
    for at, _, _ in os.walk(cache):
        os.chmod(at, 0o500)
    yield
    for at, _, _ in os.walk(cache):
        os.chmod(at, 0o700)
    subprocess.run(["chown", "-R", "www-data", cache], check=True)


FAILS = {
    "nothing fails": nothing_fails,
    "goshelf is stopped": goshelf_is_stopped,
    "the first host is stopped": first_host_is_stopped,
    "the first host is cut off": first_host_is_cut_off,
    "the first host has another certificate": first_host_has_another_certificate,
    "the cache cannot be written": cache_cannot_be_written,
}


@pytest.mark.parametrize("fails", FAILS)
def test_no_key_is_written(company: Company, keys: Keys, fails: str) -> None:
    with FAILS[fails](company):
        for key in keys.values():
            send_heads(connect(company), key, company.desk.login("ann"))
    assert find(company, keys) == []
    company.back()


@pytest.mark.parametrize(("is_read", "wrong"), ROWS, ids=lambda word: str(getattr(word, "__name__", word)))
def test_no_key_of_a_wrong_request_is_written(
    company: Company, keys: Keys, is_read: bool, wrong: Callable[[str, str], list[str]]
) -> None:
    for key in keys.values():
        for text in wrong(key, company.desk.login("ann")):
            send(connect(company), text, is_read)
    assert find(company, keys) == []


def wait_until_logged(company: Company, *targets: str) -> None:
    """Waits until these are the targets of the last requests: nginx logs a request once its reply is sent."""
    wait_until(lambda: tuple(line.split()[4] for line in company.lines(SITE)[-len(targets) :]) == targets)


@pytest.mark.parametrize(
    ("target", "logged"),
    [
        ("/example.com/alpha/core/@v/list?a=b", "/.../@v/list?..."),
        ("/example.com/alpha/0123456789abcdef/@v/list", "/.../@v/list"),
        ("/example.com/!alpha!beta!gamma!delta/@v/v1.0.0.mod", "/.../@v/....mod"),
        ("/example.com/0123456789ABCDEF/x/0123456789abcdef/@latest", "/.../@latest"),
        ("/k/short/example.com/alpha/core/@v/list", "/k/..."),
        ("/example.com/%6cib/@v/list", "/.../@v/list"),
        ("/example.com/alpha/core/@v/v1.0.0-20240131120000-abcdefabcdef.mod", "/.../@v/....mod"),
        ("/-/gosum/example.com/alpha/core/@v/v9.9.9", "/.../@v/..."),
        ("/-/modules?a", "/-/modules?..."),
        ("/01-23.45_67~89+abcd@e", "/01-23.45_67~89+abcd@e"),
        ("/01-23.45_67~89+abcd@ef", "/..."),
    ],
)
def test_the_log_of_a_site_has_no_word_that_may_be_a_key(company: Company, target: str, logged: str) -> None:
    assert company.desk.status(SITE, "ann", target) == 404
    wait_until_logged(company, logged)


def test_the_log_of_a_site_has_a_long_name_once_a_module_has_it(company: Company) -> None:
    target = f"/{LONG}/@v/v1.0.0.mod"
    assert company.desk.status(SITE, "ann", target) == 404
    assert company.put("pub", LONG, "v1.0.0")[0] == 201
    assert [company.desk.status(SITE, "ann", target) for _ in range(2)] == [200] * 2
    wait_until_logged(company, "/.../@v/....mod", "/.../@v/...", target, target)
