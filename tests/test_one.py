"""deploy/one, broken and healed: one store behind nginx, caches at two sites, each a host of its own.

Every answer is compared with the store's. The hosts are network namespaces (lib/hosts.py). The files of deploy/ run as
they are, set up by the commands of the pages, but a site asks again after 2 seconds, not after a minute, who may log
in. test_one_users.py has users who come and go.
"""

import contextlib
import os
import shlex
import shutil
import subprocess
import time
from collections.abc import Iterator
from typing import NamedTuple

import pytest

from lib.company import DESK, FIRST, FRONTS, OTHER, READERS, SITE, USERS, Company, Wrong, ask_over_reloads, is_file
from lib.company import publish_own
from lib.hosts import Host
from lib.pages import block
from lib.scratch import fill, mounted, opened, read

pytestmark = [
    pytest.mark.needs("nginx", "nginx-js", "nginx-stream", "openssl", "ip", "pgrep", "umount"),
    pytest.mark.root,
]

CREATED = (201, b"published\n")
ZIP, LIST = "/example.com/lib/@v/v1.0.0.zip", "/example.com/lib/@v/list"
CACHE = "var/cache/nginx/goshelf"
# failures that a host may answer where it cannot ask the first one
FAILURES = (502, 504)


class Filled(NamedTuple):
    """What came of the first publishes at a site: the replies, the answers that differ by empty caches and then by
    full ones, how many entries each cache has and is to have, and what the first host is asked for a zip that another
    user of the shelf had asked for at a site."""

    replies: set[tuple[int, bytes]]
    by_empty_caches: list[Wrong]
    by_full_caches: list[Wrong]
    entries: dict[str, int]
    wanted_entries: int
    asked_again: list[str]


@pytest.fixture(scope="module")
def new_company() -> Iterator[Company]:
    with opened(Company) as company:
        yield company


@pytest.fixture(scope="module")
def filled(new_company: Company) -> Filled:
    company = new_company
    replies = publish_own(company, "v1.0.0") | publish_own(company, "v1.1.0-rc.1")
    wanted = company.answers()
    by_empty_caches, by_full_caches = company.differing(wanted), company.differing(wanted)
    files = {asking for asking, answer in wanted.items() if is_file(asking, answer)}
    # ann and pub are of one shelf
    of_shelves = {("pub" if user == "ann" else user, target) for user, target in files}
    entries = {host: len(cache_files(company.hosts[host])) for host in FRONTS}
    begun = len(company.lines(FIRST))
    company.desk.ask(SITE, "pub", ZIP)
    asked_again = [line for line in company.lines(FIRST, begun) if "/login" not in line]
    return Filled(replies, by_empty_caches, by_full_caches, entries, len(of_shelves), asked_again)


def cache_files(host: Host) -> list[str]:
    """Returns the entries of a host's cache."""
    return [name for _, _, names in os.walk(f"{host.folder}/{CACHE}") for name in names]


@pytest.fixture(scope="module")
def company(new_company: Company, filled: Filled) -> Company:
    """A company whose shelves have published, and whose caches are full."""
    return new_company


def test_each_shelf_publishes_at_a_site(filled: Filled) -> None:
    assert filled.replies == {CREATED}


def test_no_answer_by_an_empty_cache_differs(filled: Filled) -> None:
    assert filled.by_empty_caches == []


def test_no_answer_by_a_full_cache_differs(filled: Filled) -> None:
    assert filled.by_full_caches == []


@pytest.mark.parametrize("host", FRONTS)
def test_a_cache_has_one_entry_for_a_shelf_and_a_file(filled: Filled, host: str) -> None:
    assert filled.entries[host] == filled.wanted_entries > 0


def test_what_one_user_asked_for_at_a_site_is_there_for_another_of_the_shelf(filled: Filled) -> None:
    assert filled.asked_again == []


def test_a_user_who_reads_may_not_publish(company: Company) -> None:
    assert company.put("ann", "example.com/lib", "v2.0.0")[0] == 403


def test_a_version_is_not_published_with_other_bytes(company: Company) -> None:
    assert company.put("pub", "example.com/lib", "v1.0.0")[0] == 409


@pytest.mark.parametrize("target", [ZIP, LIST, "/login"])
def test_a_stranger_gets_nothing(company: Company, target: str) -> None:
    assert set(company.statuses(None, target)) <= {401, 404}


def read_files(folder: str) -> Iterator[bytes]:
    """Yields the bytes of all files below a folder but links and what is in folders of root."""
    for place, _, names in os.walk(folder):
        for name in (f"{place}/{name}" for name in names if "/root/" not in place):
            if not os.path.islink(name):
                yield read(name)


@pytest.mark.parametrize("site", [SITE, OTHER])
def test_a_site_has_no_key(company: Company, site: str) -> None:
    keys = [company.key(user).encode() for user, _, _ in USERS]
    texts = list(read_files(company.hosts[site].folder))
    assert len(texts) > 20
    assert not any(key in text for key in keys for text in texts)


@pytest.mark.parametrize("site", [SITE, OTHER])
def test_no_disk_of_a_site_has_a_login(company: Company, site: str) -> None:
    folder = company.hosts[site].folder
    logins = [company.desk.login(user).split()[1].encode() for user in READERS]
    texts = [text for part in ("var", "etc") for text in read_files(f"{folder}/{part}")]
    assert not any(login in text for login in logins for text in texts)


def test_a_publish_at_one_site_is_seen_at_each_host_at_once(company: Company) -> None:
    assert company.put("pub", "example.com/seen", "v1.1.0", at=OTHER)[0] == 201
    # what was a 404 or a list is asked again
    assert company.desk.status(OTHER, "ann", "/example.com/seen/@v/v1.2.0.mod") == 404
    assert company.desk.ask(OTHER, "ann", "/example.com/seen/@v/list")[::2] == (200, b"v1.1.0\n")
    assert company.put("pub", "example.com/seen", "v1.2.0", 3_000_000)[0] == 201
    assert company.wrong_answers() == []


@pytest.fixture
def site_is_down(company: Company) -> Iterator[None]:
    """The nginx of a site is stopped, and starts in the end with its cache."""
    company.hosts[SITE].stop_nginx()
    yield
    company.hosts[SITE].start_nginx()


def test_a_site_is_down(company: Company, site_is_down: None) -> None:
    assert company.desk.status(SITE, "ann", "/-/modules") == 0
    assert company.wrong_answers((FIRST, OTHER)) == []


def test_a_site_that_was_down_has_what_was_published_meanwhile(company: Company) -> None:
    company.hosts[SITE].stop_nginx()
    try:
        assert company.put("pub", "example.com/meanwhile", "v1.3.0", at=OTHER)[0] == 201
    finally:
        company.hosts[SITE].start_nginx()
    assert company.wrong_answers() == []


@pytest.mark.needs("go")
def test_the_go_command_asks_the_first_host_while_a_site_is_down(company: Company, site_is_down: None) -> None:
    proxies = shlex.split(block("sh", "GOPROXY=https://site", "DEPLOYMENTS.md"))[-1].removeprefix("GOPROXY=")
    desk, password = company.hosts[DESK], company.desk.passwords["ann"]
    desk.write("root/.netrc", "".join(f"machine {name} login ann password {password}\n" for name in (SITE, FIRST)))
    desk.write("etc/ssl/hosts.pem", "".join(company.hosts[name].read("etc/ssl/goshelf.pem") for name in FRONTS))
    settings = {
        "GOPROXY": proxies,
        "GONOSUMDB": "*",
        "GOFLAGS": "-modcacherw",
        "GOPATH": f"{desk.folder}/go",
        "GOCACHE": f"{desk.folder}/cache",
        "GOTOOLCHAIN": "local",
        "SSL_CERT_FILE": f"{desk.folder}/etc/ssl/hosts.pem",
    }
    status, printed, errors = desk.sh("go list -m -versions example.com/lib", **settings)
    assert (status, printed.split()[:1]) == (0, ["example.com/lib"]), errors


def test_the_nginx_of_the_first_host_reloads(company: Company) -> None:
    """As for each new user, while a site is asked without pause."""
    assert ask_over_reloads(company, SITE) == [(404, b"not found\n")]


def test_the_store_is_down(company: Company) -> None:
    wanted = company.answers()
    assert company.differing(wanted) == []
    company.first.does("systemctl stop goshelf")
    try:
        # what is answered is the store's, all else is a 502
        assert company.differing(wanted, failures=FAILURES) == []
        files = {asking: answer for asking, answer in wanted.items() if is_file(asking, answer)}
        assert company.differing(files, (SITE,)) == []
    finally:
        company.first.does("systemctl start goshelf")
    assert company.wrong_answers() == []


def test_the_first_host_is_cut_off(company: Company) -> None:
    """A site goes on with what it keeps, for users who had logged in before."""
    wanted = company.answers(("ann",))
    assert company.differing(wanted) == []
    files = {asking: answer for asking, answer in wanted.items() if is_file(asking, answer)}
    with company.first.cut_off():
        company.forget()
        begun = time.monotonic()
        assert company.differing(files, (SITE, OTHER)) == []
        assert time.monotonic() - begun < 40
        status, _, body = company.desk.ask(SITE, "ann", LIST)
        assert status in FAILURES and body.startswith(b"no answer from")
        assert company.desk.status(SITE, None, ZIP) in (401, 502)
        # nor does who has not logged in before
        assert company.desk.status(SITE, "rob", ZIP) == 502
        assert company.put("pub", "example.com/lib", "v1.4.0")[0] in FAILURES
    company.back()
    assert company.wrong_answers() == []


def test_a_publish_is_cut_in_its_middle(company: Company) -> None:
    """It is whole or not at all, and repeated it is taken."""
    head, body = b"module example.com/cut\n", company.seed.randbytes(4_000_000)
    text = f"PUT /example.com/cut/@v/v1.0.0 HTTP/1.1\r\nHost: {SITE}\r\nAuthorization: {company.desk.login('pub')}\r\n"
    text += f"Mod-Length: {len(head)}\r\nContent-Length: {len(head + body)}\r\n\r\n"
    with company.desk.connect(SITE) as connection:
        connection.sendall(text.encode() + head + body[:2_000_000])
        with company.hosts[SITE].cut_off():
            time.sleep(0.5)
    company.back()
    assert company.own("ann", "/example.com/cut/@v/v1.0.0.mod")[0] == 404
    assert company.put("pub", "example.com/cut", "v1.0.0", body=body) == CREATED
    assert company.put("pub", "example.com/cut", "v1.0.0", body=body, at=OTHER) == (200, b"already published\n")
    assert company.wrong_answers() == []


@contextlib.contextmanager
def small_cache(host: Host, size: str) -> Iterator[str]:
    """Gives the cache of a host, which is empty then, a disk of a size until the block ends."""
    cache = f"{host.folder}/{CACHE}"
    host.stop_nginx()
    shutil.rmtree(cache)
    os.mkdir(cache)
    is_mounted = mounted(cache, size)
    try:
        os.chmod(cache, 0o777)
        if not is_mounted:
            pytest.skip("this machine mounts no tmpfs")
        host.start_nginx()
        yield cache
    finally:
        # (it has no process if it did not start)
        with contextlib.suppress(OSError):
            host.stop_nginx()
        if is_mounted:
            subprocess.run(["umount", cache], check=True)
        os.chmod(cache, 0o777)
        host.start_nginx()


@pytest.mark.parametrize("name", [SITE, FIRST])
def test_the_disk_of_a_cache_is_full(company: Company, name: str) -> None:
    """An answer is the store's or fails, and all is well once there is room."""
    path, failures = f"example.com/full-{name.partition('.')[0]}", (0, 500, 502)
    with small_cache(company.hosts[name], "8m") as cache:
        fill(f"{cache}/other")
        wanted = company.answers(("ann", "com"))
        assert company.differing(wanted, (name,), failures) == []
        os.unlink(f"{cache}/other")
        assert company.differing(wanted, (name,)) == []
        # more than the disk holds
        versions = [f"v1.{number}.0" for number in range(6)]
        assert {company.put("pub", path, version, 2_500_000, at=OTHER) for version in versions} == {CREATED}
        assert company.differing(company.answers(("ann",)), (name,), failures) == []
    assert company.wrong_answers() == []
    company.published -= {(path, version) for version in versions}


def test_the_store_of_a_day_before_is_put_back(company: Company) -> None:
    """Its caches have what it lacks, until the number of the part counts up."""
    first, zip_file = company.first, "/example.com/lib/@v/v1.9.0.zip"
    first.does("systemctl stop goshelf")
    for end in ("", "-wal"):
        shutil.copyfile(first.store + end, f"{first.folder}/copy{end}")
    first.does("systemctl start goshelf")
    assert company.put("pub", "example.com/lib", "v1.9.0")[0] == 201
    assert company.statuses("ann", zip_file) == [200] * 3
    first.does("systemctl stop goshelf")
    for end in ("", "-wal"):
        shutil.copyfile(f"{first.folder}/copy{end}", first.store + end)
    first.does("systemctl start goshelf")
    # each cache still has what was published since
    assert company.statuses("ann", zip_file) == [200] * 3
    first.does("goshelf-front uncache")
    first.reload()
    company.forget()
    assert company.own("ann", zip_file)[0] == 404
    assert company.wrong_answers() == []
    # it is published with other bytes
    assert company.put("pub", "example.com/lib", "v1.9.0")[0] == 201
    assert company.wrong_answers() == []
