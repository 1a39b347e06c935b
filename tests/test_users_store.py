"""No cache answers what a store lost, and the log of publishes is whole and true.

The machine, its users and its nginx are those of lib/front.py.
"""

import json
import os
import time
from collections.abc import Iterator

import pytest

from lib.front import FOLDER, Front, Reply, fingerprint, refused_files
from lib.machine import CHATTR
from lib.pages import block
from lib.peers import rest_of
from lib.ports import wait_until
from lib.scratch import opened

pytestmark = [pytest.mark.needs("nginx", "nginx-js", "nginx-stream", "openssl", "curl", "sqlite3"), pytest.mark.root]
LOG, KEPT = "var/log/goshelf/publishes.log", "var/backups/goshelf/publishes.log"
ZIP = os.urandom(100_000)
TAKEN_OUT = (403, b"taken out\n")


class Store(Front):
    """The front, whose users publish modules of a test's own."""

    def publish(self, module: str, version: str, content: bytes = b"", user: str = "pub") -> Reply:
        gomod = f"module example.com/{module}\n".encode()
        target, lengths = f"/example.com/{module}/@v/{version}", {"Mod-Length": str(len(gomod))}
        return self.ask("PUT", target, self.login(user), gomod + content, lengths)

    def file(self, module: str, file: str, user: str = "ann") -> Reply:
        return self.get(f"/example.com/{module}/@v/{file}", user)

    def log(self, words: str = "") -> list[str]:
        """Returns the lines that goshelf-front prints of the log of publishes."""
        return self.order(f"log {words}").splitlines()

    def read_json(self) -> dict:
        return json.loads(self.machine.read(f"{FOLDER}/goshelf.json"))

    def has_generation(self, number: int) -> bool:
        """Whether nginx names this generation of the caches, ten times in a row."""
        asking = self.head("GET", "/login", "ann", "Connection: close") + b"\r\n"
        wanted = f"Goshelf-Part: alpha {number}\r\n".encode()
        return all(wanted in rest_of(self.begin(asking)) for _ in range(10))


@pytest.fixture(scope="module")
def front() -> Iterator[Store]:
    with opened(Store) as made:
        yield made


def read_settings(front: Store) -> dict:
    """Returns goshelf.json but for its numbers."""
    return {name: value for name, value in front.read_json().items() if name not in ("generation", "serial")}


@pytest.mark.parametrize("is_clock_right", [True, False], ids=["by the clock", "by a clock that is set back"])
def test_uncache_takes_a_generation_that_no_host_had(front: Store, is_clock_right: bool) -> None:
    last = 1 if is_clock_right else int(time.time()) + 1_000
    front.machine.write(f"{FOLDER}/goshelf.json", json.dumps({**front.read_json(), "generation": last}))
    before = read_settings(front)
    status, printed, errors = front.machine.sh("goshelf-front uncache")
    number = front.read_json()["generation"]
    assert (status, printed, errors) == (0, f"the caches are reset: their generation is {number}\n", "")
    assert abs(time.time() - number) < 600 if is_clock_right else number == last + 1
    assert read_settings(front) == before
    assert front.has_generation(number)


def test_nginx_goes_on_while_it_refuses_its_files(front: Store) -> None:
    assert front.publish("going", "v1.0.0", ZIP)[0] == 201
    with refused_files(front.machine):
        status, printed, errors = front.machine.sh("goshelf-front uncache")
        assert (status, printed) == (1, "") and "nginx refuses" in errors, errors
        assert front.file("going", "v1.0.0.zip") == (200, ZIP)
    assert front.machine.sh("goshelf-front sync") == (0, "", "")


def test_no_cache_answers_what_a_restored_store_lost(front: Store) -> None:
    assert front.publish("lost", "v1.0.0", ZIP)[0] == 201
    assert front.publish("lost", "v1.0.0", b"other", "bob")[0] == 201
    front.machine.does("goshelf-backup")
    gomod = b"module example.com/lost\n"
    assert front.publish("lost", "v1.50.0")[0] == 201
    assert [front.file("lost", "v1.50.0.mod") for _ in range(2)] == [(200, gomod)] * 2
    status, printed, errors = front.machine.sh("goshelf-restore --yes last")
    assert status == 0 and "alpha|example.com/lost|v1.50.0|" in printed, errors
    assert "their generation is " in printed
    # (the processes of nginx from before go on for a moment)
    wait_until(lambda: {front.file("lost", "v1.50.0.mod")[0] for _ in range(10)} == {404})
    assert front.file("lost", "v1.50.0.mod") == (404, b"not found\n")
    assert front.file("lost", "v1.0.0.zip") == (200, ZIP)
    status, printed, errors = front.machine.sh("goshelf-forget --yes alpha example.com/lost v1.0.0")
    assert status == 0 and "their generation is " in printed, errors
    assert front.file("lost", "v1.0.0.zip") == TAKEN_OUT
    assert front.file("lost", "v1.0.0.zip", "bob") == (200, b"other"), "the other team has its own"
    assert "example.com/lost v1.0.0 alpha" in front.order("taken-out").splitlines()


def test_version_that_is_taken_out_of_a_shelf(front: Store) -> None:
    assert [front.publish("out", "v1.60.0", user=user)[0] for user in ("pub", "bob")] == [201, 201]
    targets = [f"/example.com/out/@v/v1.60.0.{end}" for end in ("info", "mod", "zip")]
    targets.append("/-/gosum/example.com/out/@v/v1.60.0")
    assert [front.get(target)[0] for target in targets] == [200] * 4
    front.order("take-out example.com/out v1.60.0 alpha")
    assert [front.get(target) for target in targets] == [TAKEN_OUT] * 4
    assert front.publish("out", "v1.60.0", b"other") == TAKEN_OUT
    assert front.get(targets[1], "bob") == (200, b"module example.com/out\n")
    assert front.publish("out", "v1.60.1")[0] == 201
    assert front.order("taken-out").splitlines().count("example.com/out v1.60.0 alpha") == 1


@pytest.fixture(scope="module")
def taken_out(front: Store) -> list[str]:
    """A version that is taken out for all, twice, and what is listed then."""
    for _ in range(2):
        front.order("take-out example.com/Big v1.0.0-RC.1")
    return front.order("taken-out").splitlines()


@pytest.mark.parametrize("target", ["/example.com/!big/@v/v1.0.0-!r!c.1", "/example.com/%21big/@v/v1.0.0-%21r%21c.1"])
def test_version_that_is_taken_out_for_all(front: Store, taken_out: list[str], target: str) -> None:
    assert front.get(f"{target}.mod", "bob") == TAKEN_OUT
    assert front.ask("PUT", target, front.login("bob"), b"module", {"Mod-Length": "6"}) == TAKEN_OUT


def test_version_is_listed_once(front: Store, taken_out: list[str]) -> None:
    assert taken_out.count("example.com/Big v1.0.0-RC.1") == 1
    assert front.get("/example.com/big/@v/v1.0.0-!r!c.1.mod", "bob")[0] == 404, "another path is not taken out"


def test_page_ends_a_leaked_password(front: Store) -> None:
    ends, shows = (block("sh", word, "TROUBLE.md") for word in ("goshelf-front remove", "goshelf-front log"))
    key = front.give("add 'Ann Example' alpha publish", "leaked")
    own = fingerprint(key)
    assert front.publish("leaked", "v1.60.0", user="leaked")[0] == 201
    first, *rows, last = front.machine.does(ends.replace("PASSWORD", key)).splitlines()
    assert first == own
    assert [row for row in rows if "Ann Example" in row] == [
        f"Ann Example\talpha\tpublish\t{own}\t",
        f"removed\tAnn Example\talpha\t{own}",
    ]
    front.passwords["new ann"] = last.split()[-1]
    assert [front.status_of(front.passwords[user]) for user in ("leaked", "new ann")] == [401, 204]
    ask = f"curl -s -o /dev/null -w '%{{http_code}}' http://127.0.0.1:{front.machine.behind}/k/{key}/-/modules"
    assert front.machine.does(ask) == "404"
    assert own not in front.order("list") + front.keys()
    lines = front.machine.does(shows.replace("FINGERPRINT", own)).splitlines()
    for word in ("add by root", "v1.60.0", "remove by root", f" {own} "):
        assert [line for line in lines if word in line], word


EVIL = 'x", "status": "201"} \\ Ö'


class TestLog:
    """The log of publishes: who did what, also refused."""

    @pytest.fixture(scope="class")
    def lines(self, front: Store) -> list[str]:
        """The lines of users who publish, one of whom tries to forge a line."""
        front.give(f"add '{EVIL}' beta read", "evil")
        front.give("add mallory beta read")
        begun = len(front.machine.read(LOG).splitlines())
        for target in (
            '/example.com/a"},{"x":"/@v/v1.0.0',
            "/example.com/a/@v/v1%0a.0.0",
            "/example.com/forged/@v/v1.0.0",
        ):
            front.ask("PUT", target, front.login("evil"), b"module", {"Mod-Length": "6", "X-A": 'a"}'})
        for content, user in ((b"", "pub"), (b"", "pub"), (b"x", "pub"), (b"", "ann")):
            front.publish("logged", "v1.71.0" if user == "ann" else "v1.70.0", content, user)
        key = front.passwords["pub"]
        for target in ("/golang.org/x/a/@v/v1.0.0", f"/k/{key}/a.b/@v/v1.0.0", f"//k/{key}/a.b/@v/v1.0.0"):
            front.ask("PUT", target, front.login("pub"), b"module", {"Mod-Length": "6"})
        wait_until(lambda: "golang.org/x/a" in front.machine.read(LOG))
        return front.machine.read(LOG).splitlines()[begun:]

    def test_each_publish_is_one_line(self, lines: list[str]) -> None:
        rows = [[json.loads(line)[name] for name in ("name", "path", "version", "status")] for line in lines]
        assert rows == [
            [EVIL, "example.com/forged", "v1.0.0", "403"],
            ["pub", "example.com/logged", "v1.70.0", "201"],
            ["pub", "example.com/logged", "v1.70.0", "200"],
            ["pub", "example.com/logged", "v1.70.0", "409"],
            ["ann", "example.com/logged", "v1.71.0", "403"],
            ["pub", "golang.org/x/a", "v1.0.0", "403"],
        ]

    @pytest.mark.usefixtures("lines")
    def test_it_is_printed(self, front: Store) -> None:
        printed = front.log("--path example.com/logged --name pub --since 2020-01-01")
        path = "example.com/logged"
        assert [line.split("\t")[4:] for line in printed] == [[path, "v1.70.0", word] for word in ("201", "200", "409")]

    @pytest.mark.usefixtures("lines")
    def test_what_is_below_a_path_is_printed_too(self, front: Store) -> None:
        below = {*front.log("--path example.com")}
        assert below > {*front.log("--path example.com/logged")}
        assert front.log("--path example.com/log") == [], "not what begins alike"

    @pytest.mark.usefixtures("lines")
    def test_each_order_is_printed(self, front: Store) -> None:
        front.give("add leaver beta read")
        front.order("remove leaver")
        orders = [line.split("\t")[1::5] for line in front.log() if line.endswith("by root")]
        for order in (["mallory", "add by root"], ["leaver", "add by root"], ["leaver", "remove by root"]):
            assert order in orders

    @pytest.mark.usefixtures("lines")
    def test_no_key_is_in_it(self, front: Store) -> None:
        text = front.machine.read(LOG)
        assert [user for user, key in front.passwords.items() if key in text] == []

    def test_line_that_is_none_is_counted(self, front: Store) -> None:
        text = front.machine.read(LOG)
        front.machine.write(LOG, text + "half a line\n")
        status, _, errors = front.machine.sh("goshelf-front log")
        front.machine.write(LOG, text)
        assert status == 1 and "has 1 lines" in errors, errors


def test_set_up_says_where_the_log_cannot_be_append_only(front: Store) -> None:
    assert "not append-only: chattr: Operation not supported" in front.order("set-up localhost")


class TestSealedLog:
    """A log that is append-only, where the file system can: nginx, backups and restores agree with it."""

    @pytest.fixture(scope="class")
    def sealed(self, front: Store) -> Iterator[Store]:
        log, machine = f"{front.machine.folder}/{LOG}", front.machine
        os.remove(f"{machine.folder}/usr/local/bin/chattr")
        try:
            os.chmod(log, 0o644)
            printed = front.order("set-up localhost")
            if "is append-only from now on" not in printed:
                pytest.skip(f"an append-only log: {printed}")
            assert os.stat(log).st_mode & 0o777 == 0o640
            yield front
        finally:
            machine.sh("chattr -a /var/log/goshelf/publishes.log")
            machine.command("chattr", CHATTR)

    @pytest.mark.parametrize(
        "script", ["mv LOG LOG.1", "rm -f LOG", ": > LOG", "truncate -s 0 LOG", "cp /dev/null LOG", "sed -i d LOG"]
    )
    def test_mistake_of_root_changes_nothing(self, sealed: Store, script: str) -> None:
        text = sealed.machine.read(LOG)
        status, _, _ = sealed.machine.sh(script.replace("LOG", f"{sealed.machine.folder}/{LOG}"))
        assert (status != 0, sealed.machine.read(LOG)) == (True, text)

    def test_lines_are_added(self, sealed: Store) -> None:
        text = sealed.machine.read(LOG)
        assert sealed.publish("sealed", "v1.80.0")[0] == 201
        sealed.machine.does("nginx -s reopen")
        sealed.give("add 'late one' beta read")
        assert sealed.publish("sealed", "v1.81.0")[0] == 201
        wait_until(lambda: "v1.81.0" in sealed.machine.read(LOG))
        added = [json.loads(line) for line in sealed.machine.read(LOG).removeprefix(text).splitlines()]
        assert [line.get("version") or line["order"] for line in added] == ["v1.80.0", "add", "v1.81.0"]

    def test_set_up_runs_again(self, sealed: Store) -> None:
        assert sealed.machine.sh("goshelf-front set-up localhost")[0] == 0

    def test_backup_has_the_log(self, sealed: Store) -> None:
        sealed.machine.does("goshelf-backup")
        assert sealed.publish("sealed", "v1.82.0")[0] == 201
        assert sealed.machine.sh("goshelf-backup") == (0, "", "")
        text = sealed.machine.read(LOG)
        assert sealed.machine.read(KEPT) == text
        status, _, errors = sealed.machine.sh("goshelf-restore --yes last")
        assert status == 0 and sealed.machine.read(LOG).startswith(text), errors

    def test_backup_puts_lines_back_that_were_removed(self, sealed: Store) -> None:
        for version in ("v1.83.0", "v1.84.0", "v1.85.0"):
            assert sealed.publish("sealed", version)[0] == 201
        sealed.machine.does("goshelf-backup")
        lines = sealed.machine.read(LOG).splitlines(True)
        sealed.machine.does("chattr -a /var/log/goshelf/publishes.log")
        sealed.machine.write(LOG, "".join(lines[:-3] + lines[-1:]))
        sealed.machine.does("chattr +a /var/log/goshelf/publishes.log")
        status, printed, errors = sealed.machine.sh("goshelf-backup")
        assert status == 1 and "lacked 2 lines" in printed, (printed, errors)
        assert sorted(sealed.machine.read(LOG).splitlines(True)) == sorted(lines)
        assert sealed.machine.sh("goshelf-backup") == (0, "", "")

    def test_restore_puts_the_log_on_a_new_host(self, sealed: Store) -> None:
        assert sealed.publish("sealed", "v1.86.0")[0] == 201
        sealed.machine.does("goshelf-backup")
        lines = sealed.machine.read(LOG).splitlines(True)
        sealed.machine.does("chattr -a /var/log/goshelf/publishes.log; rm -r /var/log/goshelf")
        sealed.order("set-up localhost")
        status, printed, errors = sealed.machine.sh("goshelf-restore --yes last")
        assert status == 0 and f"lacked {len(lines)} lines" in printed, (printed, errors)
        assert {*lines} - {*sealed.machine.read(LOG).splitlines(True)} == set()
        assert [line for line in sealed.log("--name pub") if "v1.86.0" in line]
        assert os.stat(f"{sealed.machine.folder}/{LOG}").st_mode & 0o777 == 0o640
