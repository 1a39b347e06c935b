"""nginx before `goshelf serve`: users who come and go, keys that change, limits, logs, and a goshelf that stands still.

It is set up as in test_behind_nginx.py. Users are added and removed by the page's commands.
"""

import http.client
import os
import re
import signal
import threading
import time
from collections.abc import Iterator
from concurrent.futures import ThreadPoolExecutor
from typing import NamedTuple

import pytest

from lib.behind_nginx import Module, ask_as_stranger
from lib.front import Client, Front, Reply, ZIP, fingerprint, start, users_of
from lib.keys import KEY
from lib.machine import Machine
from lib.pages import block, read_page
from lib.ports import wait_until
from lib.scratch import opened
from lib.stores import new_store

pytestmark = [pytest.mark.needs("nginx", "nginx-js", "nginx-stream", "openssl"), pytest.mark.root]

CREATED = (201, b"published\n")
TOO_MANY = (429, b"too many requests at once\n")
# what a stranger gets, who asks too often or not
REFUSED = (401, 429)
LOGS = ("nginx/goshelf.log", "nginx/goshelf-errors.log", "nginx/error.log", "nginx/start.log", "goshelf/publishes.log")


@pytest.fixture(scope="module")
def front() -> Iterator[Front]:
    with opened(Front) as front:
        yield front


@pytest.fixture(scope="module")
def lib(front: Front) -> Module:
    """A module that both teams have published, each for itself, and of which alpha's zip is cached."""
    lib = Module(front, "lib")
    assert lib.put("v1.0.0", ZIP) == CREATED
    assert lib.put("v1.0.0", b"other", "bob") == CREATED
    assert lib.get("v1.0.0.zip") == lib.get("v1.0.0.zip", "pub") == (200, ZIP)
    return lib


class Removed(NamedTuple):
    """What a user gets who was removed, and others."""

    before: list[int]
    seconds: float
    lists: set[int]
    cached: set[int]
    on_old_connection: int | str
    alike: Reply
    publish: Reply
    again: list[bool]


@pytest.fixture(scope="module")
def removed(front: Front, lib: Module) -> Removed:
    """A user is removed by the page's command and added again. The name of another begins alike."""
    for user in ("eve", "eve-b"):
        front.add(user, "alpha", "read")
    files = ("v1.0.0.zip", "v1.0.0.mod", "list")
    before = [lib.get(file, "eve")[0] for file in files]
    login = {"Authorization": front.login("eve")}
    held = http.client.HTTPSConnection("localhost", front.machine.front, timeout=60, context=front.context)
    held.request("GET", f"{lib.at}/v1.0.0.mod", headers=login)
    before.append(held.getresponse().read() == lib.gomod)
    begun = time.monotonic()
    front.machine.does("goshelf-front remove eve")
    seconds, lists = time.monotonic() - begun, {lib.get("list", "eve")[0] for _ in range(10)}
    cached = {lib.get(file, "eve")[0] for file in files}
    try:
        held.request("GET", f"{lib.at}/v1.0.0.mod", headers=login)
        on_old_connection: int | str = held.getresponse().status
    except (http.client.HTTPException, OSError):
        on_old_connection = "closed"
    held.close()
    alike, publish = lib.get("v1.0.0.zip", "eve-b"), Module(front, "meanwhile").put("v1.3.0")
    front.add("eve", "alpha", "read")
    again = [lib.get("v1.0.0.zip", "eve") == (200, ZIP) for _ in range(10)]
    return Removed(before, seconds, lists, cached, on_old_connection, alike, publish, again)


def test_a_user_reads_before_the_removal(removed: Removed) -> None:
    assert removed.before == [200, 200, 200, True]


def test_a_removed_user_is_refused_once_the_command_has_ended(removed: Removed) -> None:
    assert removed.lists <= set(REFUSED)
    assert removed.seconds < 60


def test_a_removed_user_gets_nothing_that_is_cached(removed: Removed) -> None:
    assert removed.cached <= set(REFUSED)


def test_a_removed_user_gets_nothing_on_a_connection_from_before(removed: Removed) -> None:
    assert removed.on_old_connection in (*REFUSED, "closed")


def test_a_user_whose_name_begins_alike_still_reads(removed: Removed) -> None:
    assert removed.alike == (200, ZIP)


def test_others_still_publish(removed: Removed) -> None:
    assert removed.publish == CREATED


def test_a_user_who_is_added_again_reads_by_the_end_of_the_command(removed: Removed) -> None:
    assert removed.again == [True] * 10


class Rotated(NamedTuple):
    """A key was rotated: the old one and the new one, and what came of it."""

    keys: tuple[str, str]
    run: tuple[int, str, str]
    wanted: Reply
    meanwhile: list[Reply]
    by_new_key: list[Reply]
    users: tuple[dict, dict]
    old_header: str


@pytest.fixture(scope="module")
def rotated(front: Front, lib: Module) -> Rotated:
    """A key is rotated by the page's command, while its user asks on and on."""
    front.add("roy", "alpha", "read")
    line = next(line for line in block("sh", "goshelf-front rotate").splitlines() if "rotate" in line)
    before, old, header = users_of(front.machine), front.passwords["roy"], front.login("roy")
    wanted, meanwhile, is_over = lib.get("list", "roy"), [], threading.Event()

    def ask() -> None:
        while not is_over.is_set():
            meanwhile.append(front.ask("GET", f"{lib.at}/list", header))

    asking = threading.Thread(target=ask)
    asking.start()
    try:
        run = front.machine.sh(line.replace("'Ann Example'", "roy"))
    finally:
        is_over.set()
        asking.join()
    front.passwords["roy"] = new = run[1].split()[-1]
    by_new_key = [lib.get("list", "roy") for _ in range(10)]
    return Rotated((old, new), run, wanted, meanwhile, by_new_key, (before, users_of(front.machine)), header)


def test_rotate_prints_a_new_login(rotated: Rotated) -> None:
    status, printed, errors = rotated.run
    assert (status, errors) == (0, "")
    assert printed.startswith("machine localhost login roy")


def test_a_user_does_not_notice_that_a_key_is_rotated(rotated: Rotated) -> None:
    assert rotated.wanted[0] == 200
    assert len(rotated.meanwhile) > 5
    assert set(rotated.meanwhile) == {rotated.wanted}


def test_the_new_key_is_valid_at_once(rotated: Rotated) -> None:
    assert rotated.by_new_key == [rotated.wanted] * 10


def test_rotate_gives_the_old_key_a_last_day_and_changes_no_other(rotated: Rotated) -> None:
    before, after = ({**users} for users in rotated.users)
    old, new = map(fingerprint, rotated.keys)
    assert "until" not in before.pop(old)
    assert after.pop(old)["until"]
    added = after.pop(new)
    assert (added["name"], added["shelf"], added["right"]) == ("roy", "alpha", "read")
    assert after == before


def test_a_key_is_worth_nothing_after_its_last_day(rotated: Rotated, front: Front, lib: Module) -> None:
    machine = front.machine
    machine.does("sed -i 's/\\troy\\t20.*/\\troy\\t2020-01-01/' /etc/nginx/goshelf/names && goshelf-front sync")
    assert front.ask("GET", f"{lib.at}/list", rotated.old_header)[0] in REFUSED
    connection = http.client.HTTPConnection("127.0.0.1", machine.behind, timeout=60)
    connection.request("GET", f"/k/{rotated.keys[0]}{lib.at}/list")
    assert connection.getresponse().status == 404
    connection.close()
    # the front has no fault but keys that nobody has
    assert [line for line in machine.sh("goshelf-front check")[1].splitlines() if "has no name" not in line] == []


def test_strangers_who_ask_too_often_get_a_429_and_users_do_not(front: Front, lib: Module) -> None:
    first = ask_as_stranger(front, "GET", "/")
    with ThreadPoolExecutor(30) as pool:
        replies = [first, *pool.map(lambda _: front.ask("GET", "/", None), range(90))]
    assert {status for status, _ in replies} == {401, 429}
    assert {reply for reply in replies if reply[0] == 429} == {TOO_MANY}
    assert {lib.get("list")[0] for _ in range(30)} == {200}


def test_a_user_has_200_requests_at_a_time(front: Front, lib: Module) -> None:
    front.add("hog", "beta", "publish")
    lines = (f"Mod-Length: {len(lib.gomod)}", f"Content-Length: {len(lib.gomod)}")
    head = front.head("PUT", f"{lib.at}/v9.1.0", "hog", *lines) + b"\r\n"
    held = [front.begin(head) for _ in range(200)]
    wait_until(lambda: lib.get("list", "hog")[0] == 429)
    assert lib.get("list", "hog") == TOO_MANY
    assert lib.get("list")[0] == 200
    for connection in held:
        connection.close()
    wait_until(lambda: lib.get("list", "hog")[0] != 429)
    assert lib.get("list", "hog")[0] == 200


@pytest.fixture(scope="module")
def log(front: Front, lib: Module) -> str:
    """nginx's log of requests, among which are some of a stranger, some of the cache, and some that failed."""
    ask_as_stranger(front, "GET", f"{lib.at}/list")
    in_url = f"/k/{front.passwords['ann']}{lib.at}/list"
    assert ask_as_stranger(front, "GET", in_url)[0] == front.get(in_url)[0] == 404
    assert ask_as_stranger(front, "GET", f"{lib.at}/list", f"{front.login('ann')}AAAA")[0] == 401
    assert lib.get("v1.0.0.zip") == (200, ZIP)
    wait_until(lambda: front.ask("GET", "/", None) == TOO_MANY)
    front.machine.does("systemctl stop goshelf")
    assert lib.get("list")[0] == 502
    front.machine.does("systemctl start goshelf")
    return whole_log(front)


def whole_log(front: Front) -> str:
    """Returns nginx's log of requests once it grows no more: a line follows the end of its answer."""
    texts = ["", front.machine.read("var/log/nginx/goshelf.log")]

    def is_whole() -> bool:
        time.sleep(0.1)
        texts.append(front.machine.read("var/log/nginx/goshelf.log"))
        return texts[-1] == texts[-2]

    wait_until(is_whole)
    return texts[-1]


def test_the_log_has_strangers_without_a_name(log: str, lib: Module) -> None:
    assert re.search(rf"^20\S+ 127.0.0.1 - - GET {lib.at}/list 401 ", log, re.M)


def test_the_log_marks_what_came_from_the_cache(log: str, lib: Module) -> None:
    line = rf'^20\S+ 127.0.0.1 [0-9a-f]{{16}} alpha GET {lib.at}/v1.0.0.zip 200 \d+ \S+ HIT "ann"$'
    assert re.search(line, log, re.M)


@pytest.mark.parametrize(("user", "shelf"), [("pub", "alpha"), ("bob", "beta")])
def test_the_log_of_publishes_says_who_published_what(front: Front, lib: Module, user: str, shelf: str) -> None:
    lines = front.machine.does("goshelf-front log --path example.com/lib").splitlines()
    wanted = [user, fingerprint(front.passwords[user]), shelf, lib.path, "v1.0.0", "201"]
    assert wanted in [line.split("\t")[1:] for line in lines if line.startswith("20")]


@pytest.mark.parametrize("condition", ["$7 == 429", "$7 >= 500", "$9 > 5"])
def test_commands_for_trouble_find_the_requests_of_the_log(front: Front, log: str, condition: str) -> None:
    command = f"awk '{condition}' /var/log/nginx/goshelf.log"
    assert f"`{command}`" in read_page("TROUBLE.md")
    # (a request that nginx cannot read has no method and no target in its line)
    lines = [line.split() for line in whole_log(front).splitlines() if len(line.split()) >= 10]
    wanted = {
        "$7 == 429": [line for line in lines if line[6] == "429"],
        "$7 >= 500": [line for line in lines if int(line[6]) >= 500],
        "$9 > 5": [line for line in lines if float(line[8]) > 5],
    }[condition]
    printed = [line.split() for line in front.machine.does(command).splitlines()]
    assert [line for line in printed if len(line) >= 10] == wanted
    assert wanted or condition == "$9 > 5"


@pytest.fixture(scope="module")
def errors_of_cache(front: Front) -> str:
    """nginx's log of errors once it may not write into its cache."""
    module, cache = Module(front, "uncached"), f"{front.machine.folder}/var/cache/nginx/goshelf"
    folders = [cache, *(os.path.join(place, name) for place, names, _ in os.walk(cache) for name in names)]
    for folder in folders:
        os.chmod(folder, 0o500)
    try:
        for version in ("v1.4.0", "v1.4.1", "v1.4.2"):
            module.put(version)
            module.get(f"{version}.mod")
    except http.client.HTTPException:
        pass
    finally:
        for folder in folders:
            os.chmod(folder, 0o700)
    return front.machine.read("var/log/nginx/goshelf-errors.log")


def test_a_cache_that_cannot_be_written_is_named_with_the_target(errors_of_cache: str) -> None:
    assert "Permission denied" in errors_of_cache
    assert "/example.com/uncached/@v/v1.4.0.mod" in errors_of_cache


@pytest.mark.parametrize("name", LOGS)
def test_no_key_and_no_password_is_in_a_log(front: Front, log: str, errors_of_cache: str, name: str) -> None:
    secrets = [*front.passwords.values(), *(front.login(user).split()[1] for user in front.passwords)]
    text = front.machine.read(f"var/log/{name}")
    assert [secret for secret in secrets if secret in text] == []


class TestStalledGoshelf:
    """A goshelf that stands still, on a machine of its own."""

    @pytest.fixture
    def client(self) -> Iterator[Client]:
        with opened(Machine) as machine:
            new_store(machine.store, ("alpha", KEY))
            start(machine, {"example.com": ["alpha"]})
            yield Client(machine)

    def test_its_health_is_a_504_after_15_seconds(self, client: Client) -> None:
        number, begun = int(client.machine.read("serve.pid")), time.monotonic()
        os.kill(number, signal.SIGSTOP)
        try:
            status, body = client.ask("GET", "/healthz", None)
        finally:
            os.kill(number, signal.SIGCONT)
        assert status == 504 and body.startswith(b"goshelf does not answer")
        assert 14 < time.monotonic() - begun < 30
