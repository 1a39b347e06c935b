"""The front whose passwords are keys of goshelf: keys, names, days, rotation, port 80, pages, files that are wrong.

nginx, goshelf and the go command are real, on the machine of lib/developers.py. test_front_targets.py has odd targets.
"""

import base64
import contextlib
import datetime
import http.client
import json
import os
import time
from collections.abc import Callable, Iterator

import pytest

from lib.developers import Developers
from lib.front import FOLDER, fingerprint, list_keys, refused_files, stopped_goshelf
from lib.logins import log_in
from lib.ports import wait_until
from lib.scratch import opened

pytestmark = [pytest.mark.needs("nginx", "nginx-js", "nginx-stream", "openssl", "go"), pytest.mark.root]
CORE = "example.com/alpha/core"
MOD = f"/{CORE}/@v/v1.0.0.mod"
JSON, OWNERS, NAMES = (f"{FOLDER}/{name}" for name in ("goshelf.json", "owners.json", "names"))


@pytest.fixture(scope="module")
def company() -> Iterator[Developers]:
    with opened(Developers) as made:
        made.outside.add("pub.example/lib", "v1.0.0")
        assert made.publish("pat", CORE)[0] == 201
        yield made


@contextlib.contextmanager
def changed(company: Developers, **values: object) -> Iterator[dict]:
    """Has nginx read another goshelf.json until the block ends, with these values, or as the block changes it."""
    before = company.machine.read(JSON)
    settings = {**json.loads(before), **values}
    try:
        yield settings
    finally:
        company.machine.write(JSON, before)
        assert company.reload() == ""


def put(company: Developers, settings: object) -> None:
    """Has nginx read a goshelf.json."""
    company.machine.write(JSON, json.dumps(settings))
    assert company.reload() == ""


def find_day(days: int) -> str:
    return (datetime.datetime.now(datetime.timezone.utc) + datetime.timedelta(days)).date().isoformat()


def statuses(company: Developers, *keys: str) -> list[set[int]]:
    """Returns what nginx answers to logins by these keys, each asked ten times."""
    return [{company.client.status_of(key) for _ in range(10)} for key in keys]


def test_name_of_any_characters(company: Developers) -> None:
    name = 'Ann Ö. "the $uri" \\ $(id) {x}'
    key = company.give(f"add '{name}' alpha publish")
    assert company.status(key, MOD) == 200
    line = company.log()[-1]
    assert (json.loads(line[line.index(' "') + 1 :]), line.split()[2]) == (name, fingerprint(key))
    other = company.give(f"add '{name}' beta read")
    assert (company.status(key, MOD), company.status(other, MOD)) == (200, 404), "one name, two shelves"
    assert company.machine.does("goshelf-front list").count(name) == 2
    company.machine.does(f"goshelf-front remove '{name}'")
    assert statuses(company, key, other) == [{401}] * 2, "by the end of the command"
    assert fingerprint(key) not in list_keys(company.machine)


def test_name_with_a_tab(company: Developers) -> None:
    assert company.machine.sh("goshelf-front add 'a\tb' alpha read")[0] == 1


# headers that are no login, by the key of one
STRANGE: dict[str, Callable[[str], str]] = {
    "upper case": lambda key: log_in(key.upper()),
    "a space behind": lambda key: log_in(key + " "),
    "a newline behind": lambda key: log_in(key + "\n"),
    "a NUL behind": lambda key: log_in(key + "\0"),
    "the fingerprint": lambda key: log_in(fingerprint(key)),
    "a word of every object": lambda key: log_in("constructorconstructor"),
    "the key as the login": lambda key: "Basic " + base64.b64encode(f"{key}:".encode()).decode(),
    "no colon": lambda key: "Basic " + base64.b64encode(key.encode()).decode(),
    "base64 of another alphabet": lambda key: log_in(key).replace("=", "") + "-_",
    "two logins": lambda key: log_in(key) + ", " + log_in(key),
    "no UTF-8": lambda key: "Basic " + base64.b64encode(b"\xff\xfe:" + key.encode()[:-1] + b"\xff").decode(),
}


@pytest.mark.parametrize("name", STRANGE)
def test_header_that_is_no_login(company: Developers, name: str) -> None:
    header, target = STRANGE[name](company.client.passwords["ann"]), f"/{CORE}/@v/list"
    found: list[int] = []

    def is_answered() -> bool:
        found.append(company.client.ask("GET", target, header)[0])
        return found[-1] != 429

    wait_until(is_answered)
    assert found[-1] == 401


@pytest.mark.parametrize("login", ["x y ö", ""])
def test_any_login_before_the_key(company: Developers, login: str) -> None:
    assert company.client.ask("GET", "/login", log_in(company.client.passwords["ann"], login))[0] == 204


def test_16_digits_that_agree_are_not_enough(company: Developers) -> None:
    key = company.client.passwords["ann"]
    own = fingerprint(key)
    with changed(company) as settings:
        settings["users"][own]["sha256"] = own + "0" * 48
        put(company, settings)
        assert company.status(key, MOD) == 401


def test_key_ends_with_its_last_day(company: Developers) -> None:
    key = company.give(f"add eve alpha read --until {find_day(0)}")
    assert company.status(key, MOD) == 200, "on the last day"
    with changed(company) as settings:
        end = datetime.datetime.now(datetime.timezone.utc) + datetime.timedelta(seconds=20)
        settings["users"][fingerprint(key)]["until"] = end.isoformat()[:19]
        put(company, settings)
        assert company.status(key, MOD) == 200
        # (without a reload, for what is cached too)
        wait_until(lambda: company.client.status_of(key, MOD) == 401, 60)
        assert datetime.datetime.now(datetime.timezone.utc) > end
    company.machine.does(f"sed -i 's/\\teve\\t.*/\\teve\\t{find_day(-1)}/' /{NAMES} && goshelf-front sync")
    assert "eve" not in company.machine.read(NAMES) + company.machine.does("goshelf-front list")


@pytest.mark.parametrize("day", ["2027-02-30", "soon"])
def test_wrong_last_day(company: Developers, day: str) -> None:
    assert company.machine.sh(f"goshelf-front add eva alpha read --until {day}")[0] == 1


def test_rotate_leaves_the_old_key_for_some_days(company: Developers) -> None:
    old = company.give("add kim alpha publish --machine")
    new = company.give("rotate kim --days 3")
    assert statuses(company, old, new) == [{204}] * 2, "by the end of rotate"
    assert old != new and [company.status(key, MOD) for key in (old, new)] == [200, 200]
    lines = [line.split("\t")[1:] for line in company.machine.read(NAMES).splitlines() if "kim" in line]
    assert lines == [["kim", find_day(3), "machine"], ["kim", "", "machine"]]
    third = company.give("rotate kim --days 0")
    assert [company.status(key, MOD) for key in (old, new, third)] == [200, 200, 200]
    company.machine.does("goshelf-front remove kim")
    assert [company.client.status_of(key, MOD) for key in (old, new, third)] == [401, 401, 401]


def test_check_knows_keys_without_a_name(company: Developers) -> None:
    status, printed, _ = company.machine.sh("goshelf-front check")
    assert status == 1 and "firstkey" not in printed and "has no name" in printed


def test_removal_while_goshelf_and_the_name_server_are_away(company: Developers) -> None:
    key, other = company.give("add tom alpha read"), company.client.passwords["ann"]
    assert company.status(key, MOD) == 200
    company.outside.name_server.is_on = False
    with stopped_goshelf(company.machine):
        assert (company.status(key, MOD), company.status(other, MOD)) == (200, 200), "cached"
        # (connected before, with no request yet)
        held = http.client.HTTPSConnection(
            "localhost", company.machine.front, timeout=60, context=company.client.context
        )
        held.connect()
        begun = time.time()
        found, _, errors = company.machine.sh("goshelf-front remove tom")
        assert {company.status(key, MOD) for _ in range(10)} <= {401, 429}
        assert time.time() - begun < 20
        assert found == 1 and f"the key {fingerprint(key)} of tom is not revoked" in errors, errors
        assert company.status(other, MOD) == 200
    company.machine.does("goshelf-front sync")
    assert fingerprint(key) not in list_keys(company.machine)
    company.outside.name_server.is_on = True
    time.sleep(max(0.0, begun + 32 - time.time()))
    with pytest.raises((OSError, http.client.HTTPException)):
        held.request("GET", MOD, headers={"Authorization": log_in(key)})
        held.getresponse()


def test_key_that_goshelf_alone_revoked_reads_the_cache_until_sync(company: Developers) -> None:
    key = company.give("add una alpha read")
    assert company.status(key, MOD) == 200
    company.machine.does(f"goshelf key-revoke --control /run/goshelf/control --fingerprint {fingerprint(key)}")
    assert (company.status(key, MOD), company.status(key, f"/{CORE}/@v/list")) == (200, 404)
    company.machine.does("goshelf-front sync")
    assert company.client.status_of(key, MOD) == 401


def ask_for_mark(company: Developers, key: str, target: str, method: str = "GET") -> tuple[int, str]:
    """Returns the status of an answer, and whether the log has a HIT or a MISS for it."""
    begun = len(company.log())
    status = company.status(key, target, method)
    (line,) = company.log(begun)
    return status, line.split()[9]


def test_cache_is_of_one_shelf(company: Developers) -> None:
    one, two, other = (company.give(f"add {words}") for words in ("s1 alpha read", "s2 alpha publish", "s3 beta read"))
    assert company.publish("pat", "example.com/shared/part")[0] == 201
    target = "/example.com/shared/part/@v/v1.0.0.zip"
    assert [ask_for_mark(company, key, target) for key in (one, two, other)] == [
        (200, "MISS"),
        (200, "HIT"),
        (404, "MISS"),
    ]
    company.machine.does("goshelf-front uncache")
    assert ask_for_mark(company, two, target) == (200, "MISS")


def test_head_is_of_what_may_be_cached(company: Developers) -> None:
    key, target = company.client.passwords["ann"], f"/{CORE}/@v/v0.9.0.mod"
    assert company.publish("pat", CORE, "v0.9.0")[0] == 201
    reply = company.client.reply("HEAD", target, log_in(key))
    assert (reply.status, reply.body, company.log()[-1].split()[9]) == (200, b"", "MISS")
    # (a HEAD ends before nginx has cached the body)
    wait_until(lambda: ask_for_mark(company, key, target) == (200, "HIT"))
    assert company.client.reply("GET", target, log_in(key)).body
    assert company.status(key, f"/{CORE}/@v/list", "HEAD") == 404


DEEP = "example.com/alpha/" + "/".join("abcdefghij")


@pytest.fixture(scope="module")
def deep(company: Developers) -> None:
    """Paths of twelve elements and with capitals, at which beta publishes."""
    company.machine.edit(OWNERS, ("{", f'{{"{DEEP}": ["beta"], "Example.com/alpha/UP": ["beta"], '))
    company.machine.does("goshelf-front sync")
    assert company.reload() == ""


@pytest.mark.usefixtures("deep")
@pytest.mark.parametrize(
    "user, path, status",
    [
        ("bob", DEEP, 201),
        ("bob", f"{DEEP}/k/l/m", 201),
        ("bob", DEEP[:-2], 403),
        ("bob", f"{DEEP}x", 403),
        ("bob", "example.com/alpha/Up/x", 201),
        ("bob", "example.com/alpha/AbCdEfGhIjKlMnOpQrStUvWxYzABCDEF", 403),
        ("pat", "example.com/alpha/AbCdEfGhIjKlMnOpQrStUvWxYzABCDEFGHIJKLMNOPQRSTUVWXYZ", 201),
    ],
)
def test_longest_path_counts(company: Developers, user: str, path: str, status: int) -> None:
    assert company.publish(user, path)[0] == status


@pytest.mark.parametrize(
    "text",
    [
        "{}",
        "[]",
        '{"example.com": "alpha"}',
        '{"example.com": ["-"]}',
        '{"example": []}',
        '{"a.b/../c": []}',
        '{"a.b": [], "A.b": []}',
        '{"a.b/": []}',
        '{"a.b": [],}',
    ],
)
def test_wrong_owners_are_refused(company: Developers, text: str) -> None:
    before = company.machine.read(OWNERS)
    company.machine.write(OWNERS, text)
    status, _, errors = company.machine.sh("goshelf-front sync")
    company.machine.write(OWNERS, before)
    assert status == 1 and "owners.json" in errors, errors


def test_shelf_without_a_path_reads_on(company: Developers) -> None:
    """How an operator stops the publishes of a team."""
    before = company.machine.read(OWNERS)
    company.machine.edit(OWNERS, ('"alpha"', '"beta"'))
    company.machine.write(OWNERS, company.machine.read(OWNERS).replace('"beta", "beta"', '"beta"'))
    try:
        company.machine.does("goshelf-front sync")
        assert company.publish("pat", "example.com/alpha/stopped") == (403, b"not your path\n")
        assert company.ask(f"/{CORE}/@v/list", "pat")[0] == 200
    finally:
        company.machine.write(OWNERS, before)
        company.machine.does("goshelf-front sync")
    assert company.publish("pat", "example.com/alpha/stopped")[0] == 201


def ask_in_clear(company: Developers, target: str, **headers: str) -> tuple[int, str, str | None]:
    """Returns the status, the text and the header Location of an answer at port 80."""
    connection = http.client.HTTPConnection("127.0.0.1", company.machine.clear, timeout=30)
    with contextlib.closing(connection):
        connection.request("GET", target, headers=headers)
        reply = connection.getresponse()
        return reply.status, reply.read().decode(), reply.headers["Location"]


def test_go_command_gets_a_sentence_in_clear(company: Developers) -> None:
    said = "ask https://localhost: nothing is answered without TLS.\n"
    assert ask_in_clear(company, f"/{CORE}/@v/list") == (421, said, None)


def test_browser_is_sent_on(company: Developers) -> None:
    status, _, where = ask_in_clear(company, f"/{CORE}/@v/list", Accept="text/html,*/*")
    assert (status, where) == (301, f"https://localhost/{CORE}/@v/list")


def test_log_says_whose_key_came_in_clear(company: Developers) -> None:
    begun = len(company.log())
    status, text, _ = ask_in_clear(company, f"/{CORE}/@v/list", Authorization=company.client.login("ann"))
    assert status == 421 and "have it replaced" in text
    (line,) = company.log(begun)
    assert line.endswith('"ann"') and " 421 " in line


@pytest.mark.parametrize(
    "target, is_said", [("/k/KEY", True), (f"/k/KEY/{CORE}/@v/list", True), ("/k/", False), ("/kim", False)]
)
def test_url_that_has_a_key_in_clear(company: Developers, target: str, is_said: bool) -> None:
    status, text, _ = ask_in_clear(company, target.replace("KEY", company.client.passwords["ann"]))
    assert (status, "A key came here in clear text" in text) == (421, is_said)


def test_go_command_sends_no_key_in_clear(company: Developers) -> None:
    begun, url = len(company.log()), f"http://localhost:{company.machine.clear}"
    is_done, _, errors = company.go(company.work(), "get", f"{CORE}@v1.0.0", GOPROXY=url)
    assert not is_done and "nothing is answered without TLS" in errors, errors
    lines = company.log(begun)
    assert lines and all(line.endswith('"-"') and " 421 " in line for line in lines), lines


def test_browser_is_asked_for_its_login(company: Developers) -> None:
    assert company.client.reply("GET", "/", None).headers["WWW-Authenticate"].startswith("Basic realm=")


PAGES = ("index.html", "m/example.com/lib.html", "style.css")


@pytest.fixture(scope="module")
def catalog(company: Developers) -> None:
    """Pages of two shelves."""
    for shelf in ("alpha", "beta"):
        top = f"{company.machine.folder}/var/lib/goshelf-catalog/{shelf}"
        os.makedirs(f"{top}/m/example.com")
        for name in PAGES:
            with open(f"{top}/{name}", "w", encoding="utf-8") as file:
                file.write(f"{name} of {shelf}")


@pytest.mark.usefixtures("catalog")
@pytest.mark.parametrize("user, shelf", [("ann", "alpha"), ("bob", "beta")])
@pytest.mark.parametrize(
    "target, page",
    [
        ("/", "index.html"),
        ("/index.html", "index.html"),
        ("/?x=1", "index.html"),
        ("/m/", ""),
        ("/m/example.com/lib.html", "m/example.com/lib.html"),
        ("/m/none.html", ""),
        ("/style.css", ""),
        ("/m/../../beta/index.html", ""),
        ("/m/%2e%2e/%2e%2e/beta/index.html", ""),
        ("/m/..%2f..%2fbeta/", ""),
    ],
)
def test_page_is_of_the_users_shelf(company: Developers, user: str, shelf: str, target: str, page: str) -> None:
    status, body = company.ask(target, user)
    if page:
        assert (status, body) == (200, f"{page} of {shelf}".encode())
    else:
        assert status in (400, 404), body


@pytest.mark.usefixtures("catalog")
def test_headers_of_a_page(company: Developers) -> None:
    headers = company.client.reply("GET", "/", company.client.login("ann")).headers
    found = headers["Content-Type"], headers["Cache-Control"]
    assert found == ("text/html; charset=utf-8", "private, no-cache")
    assert "frame-ancestors" in headers["Content-Security-Policy"]


def test_stranger_gets_no_page(company: Developers) -> None:
    wait_until(lambda: company.ask("/", None)[0] == 401)


def test_sync_of_nothing_new_does_not_reload(company: Developers) -> None:
    company.machine.does("goshelf-front sync")
    wait_until(lambda: len(company.workers()) <= 4)
    before = company.workers()
    company.machine.does("goshelf-front sync")
    time.sleep(1)
    assert company.workers() - before == set()


def test_nothing_is_left_of_a_key_that_nginx_does_not_take(company: Developers) -> None:
    before, keys = company.machine.read(JSON), list_keys(company.machine)
    with refused_files(company.machine):
        status, printed, errors = company.machine.sh("goshelf-front add max alpha read")
    assert (status, printed, list_keys(company.machine)) == (1, "", keys) and "nginx refuses" in errors, errors
    assert company.machine.read(JSON) == before
    company.machine.does("goshelf-front sync")
    assert not os.path.exists(f"{company.machine.folder}/{FOLDER}/unread"), "nothing waits for nginx"


@pytest.mark.parametrize("settings", [{}, {"users": {}}, [], "x"], ids=json.dumps)
@pytest.mark.parametrize("target", [MOD, "/pub.example/lib/@v/list"])
def test_broken_goshelf_json_answers_nobody(company: Developers, settings: object, target: str) -> None:
    with changed(company):
        put(company, settings)
        assert company.status(company.client.passwords["ann"], target) in (401, 429, 500)


def test_goshelf_json_that_is_no_json_is_refused(company: Developers) -> None:
    before = company.machine.read(JSON)
    company.machine.write(JSON, "{")
    status = company.machine.sh("nginx -q -t")[0]
    company.machine.write(JSON, before)
    assert status == 1


@pytest.mark.parametrize(
    "name, value, status",
    # (an empty list of paths says that all is public; goshelf-front does not write one)
    [("owners", {}, 200), ("deepest", None, 500), ("deepest", 0, 500), ("owners", None, 500)],
)
def test_goshelf_json_with_another_value(company: Developers, name: str, value: object, status: int) -> None:
    company.outside.add(CORE, "v1.0.0", files={"a.go": "package core\n"})
    with changed(company, **{name: value}) as settings:
        put(company, settings)
        assert company.status(company.client.passwords["ann"], MOD) == status
