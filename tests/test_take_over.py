"""The way from the front with passwords: both go on side by side until each user has a key.

The old files are those of a commit that had them. They and the commands of docs/DEPLOYMENTS.md run on a machine in a
folder (lib/machine.py).
"""

import base64
import json
import os
import subprocess
from collections.abc import Iterator

import pytest

from lib.leaks import holders
from lib.front import FOLDER, Client, Reply, fingerprint, trust_own
from lib.machine import Machine
from lib.pages import block
from lib.ports import wait_for, wait_until
from lib.program import ROOT, done
from lib.scratch import closed_on_failure, opened
from lib.stores import new_store

BEFORE = "ee9d2b1e"
FILES = ("elsewhere.conf", "public.conf", "users.map", "keys.map", "paths.map")
OLD = {"ann": ("alpha", "read"), "pat": ("alpha", "publish"), "bob": ("beta", "publish")}
LIST, GOMOD = "/example.com/lib/@v/list", b"module example.com/lib\n"
PAGE = "DEPLOYMENTS.md"

pytestmark = [
    pytest.mark.needs("git", "nginx", "nginx-js", "nginx-stream", "openssl"),
    pytest.mark.root,
    pytest.mark.skipif(
        subprocess.run(["git", "cat-file", "-e", BEFORE], cwd=ROOT, capture_output=True).returncode != 0,
        reason="it needs the commit of before",
    ),
]


def read_before(name: str) -> str:
    """Returns a file of nginx as it was in the commit of before."""
    words = ["git", "show", f"{BEFORE}:deploy/nginx/{name}"]
    return subprocess.run(words, cwd=ROOT, capture_output=True, text=True, check=True).stdout


def old_login(user: str) -> str:
    return base64.b64encode(f"{user}:old-{user}-password".encode()).decode()


def old_key(shelf: str, right: str) -> str:
    return f"{shelf}{right}oldkey00000"


def own_lines(name: str) -> str:
    """Returns the lines that a host has of its own in a file of before."""
    if name == "users.map":
        rows = [(old_login(user), user, *rights) for user, rights in OLD.items()]
        return "".join(f'"Basic {row[0]}" "{" ".join(row)}";\n' for row in rows)
    if name == "keys.map":
        return "".join(f'"{shelf} {right}" {old_key(shelf, right)};\n' for shelf, right in OLD.values())
    return '"example.com" "alpha beta";\n"fallow.example" "-";\n' if name == "paths.map" else ""


class OldFront(Client):
    """A machine whose nginx has the front with passwords. A version is published there."""

    def __init__(self, folder: str) -> None:
        machine = Machine(folder)
        with closed_on_failure(machine):
            new_store(machine.store, ("alpha", "firstkey00000001"), ("beta", "firstkey00000002"))
            for shelf, right in OLD.values():
                words = ["--shelf", shelf, "--key", old_key(shelf, right)]
                done("key-add", "--db", machine.store, *words, *(["--read-only"] if right == "read" else []))
            machine.does("systemctl start goshelf; install -d -m 0700 /etc/nginx/goshelf")
            made = "openssl req -x509 -newkey rsa:2048 -nodes -days 2 -subj /CN=localhost"
            names = "-addext subjectAltName=DNS:localhost -out /etc/ssl/goshelf.pem -keyout /etc/ssl/goshelf.key"
            machine.does(f"{made} {names}; install -d -o www-data /var/cache/nginx/goshelf")
            trust_own(machine)
            for name in FILES:
                machine.write(f"{FOLDER}/{name}", machine.placed(read_before(name)) + own_lines(name))
            text = read_before("goshelf.conf").replace("shelf.example.com", "localhost")
            machine.write("etc/nginx/conf.d/goshelf.conf", machine.placed(text))
            machine.check_out()
            machine.does("nginx")
            wait_for(machine.front)
        super().__init__(machine)
        lengths = {"Mod-Length": str(len(GOMOD))}
        login = f"Basic {old_login('pat')}"
        self.published = self.ask("PUT", "/example.com/lib/@v/v1.0.0", login, GOMOD, lengths)[0]
        self.listed = self.get_by_password("ann")

    def get_by_password(self, user: str) -> Reply:
        """Returns what a login by a password of before gets, once nginx does not answer that strangers ask too
        often."""
        replies: list[Reply] = []

        def is_answered() -> bool:
            replies.append(self.ask("GET", LIST, f"Basic {old_login(user)}"))
            return replies[-1][0] != 429

        wait_until(is_answered)
        return replies[-1]

    def set_aside(self) -> str:
        """Sets the new front up beside the old one, by the page's commands. Returns what they print."""
        words = block("sh", "@reboot root nginx", PAGE).replace("shelf.example.com", "localhost")
        printed = self.machine.does(words)
        wait_for(self.machine.before)
        return printed

    def take_over(self) -> str:
        """Gives each user a key, by the page's command. Returns what it prints."""
        printed = self.machine.does(block("sh", "goshelf-front take-over", PAGE))
        rows = [line.split() for line in self.machine.read("root/new-keys").splitlines()]
        self.passwords.update({row[3]: row[5] for row in rows})
        return printed

    def close(self) -> None:
        self.machine.does(f"nginx -c /{FOLDER}/before/nginx.conf -s stop || :")
        super().close()


class NewFront(OldFront):
    """The same machine with both fronts, whose users all have a key."""

    def __init__(self, folder: str) -> None:
        super().__init__(folder)
        with closed_on_failure(self):
            self.said = self.set_aside(), self.take_over()
            self.mode = os.stat(f"{folder}/root/new-keys").st_mode & 0o777


@pytest.fixture(scope="module")
def front() -> Iterator[NewFront]:
    with opened(NewFront) as made:
        yield made


def test_old_front_answers(front: NewFront) -> None:
    assert (front.published, front.listed) == (201, (200, b"v1.0.0\n"))


def test_set_up_moves_the_old_front(front: NewFront) -> None:
    assert "moved the front with passwords" in front.said[0]
    folder = f"{front.machine.folder}/{FOLDER}/before"
    names = sorted(os.listdir(folder))
    assert names == sorted([*FILES, "goshelf.conf", "nginx.conf"])
    assert {os.stat(f"{folder}/{name}").st_mode & 0o77 for name in ("", *names)} == {0}, "only root reads them"


def test_paths_of_before_are_the_companys(front: NewFront) -> None:
    owners = json.loads(front.machine.read(f"{FOLDER}/owners.json"))
    assert owners == {"example.com": ["alpha", "beta"], "fallow.example": []}


def test_passwords_go_on(front: NewFront) -> None:
    assert {front.get_by_password("ann") for _ in range(10)} == {front.get(LIST, "ann")}
    assert front.get_by_password("ann")[0] == 200


@pytest.mark.parametrize("header", ["Basic YW5uOngK", None], ids=["a wrong password", "no login"])
def test_stranger_gets_nothing(front: NewFront, header: str | None) -> None:
    wait_until(lambda: front.ask("GET", LIST, header)[0] == 401)


def test_each_user_gets_a_key(front: NewFront) -> None:
    assert front.said[1] == f"3 people have a line in {front.machine.folder}/root/new-keys\n"
    assert (sorted(front.passwords), front.mode) == (sorted(OLD), 0o600)
    front.machine.does("rm /root/new-keys")
    again = front.machine.does(block("sh", "goshelf-front take-over", PAGE))
    assert again[:9] == "0 people ", "a second time nobody needs one"


def test_keys_have_the_rights_of_before(front: NewFront) -> None:
    assert {front.get(LIST, "ann")[0] for _ in range(5)} == {200}
    lengths = {"Mod-Length": str(len(GOMOD))}
    for user, status in (("ann", 403), ("pat", 201)):
        reply = front.ask("PUT", "/example.com/lib/@v/v1.1.0", front.login(user), GOMOD, lengths)
        assert (user, reply[0]) == (user, status)
    assert front.get(LIST, "bob")[0] == 404, "bob's key sees none of it"
    assert front.get_by_password("ann") == (200, b"v1.0.0\nv1.1.0\n")


def test_check_says_who_still_comes_by_a_password(front: NewFront) -> None:
    assert front.get_by_password("ann")[0] == 200

    def find_users() -> set[str]:
        lines = front.machine.sh("goshelf-front check")[1].splitlines()
        return {line.split()[0] for line in lines if "still logs in by a password of before" in line}

    wait_until(lambda: find_users() == {"ann"})


def test_no_log_of_the_old_front_has_a_key(front: NewFront) -> None:
    key, log = "mistypedkey0123456789abcdef", "var/log/nginx/goshelf-before.log"
    lines = len(front.machine.read(log).splitlines())
    for target in (f"/{key}", f"/pub.example/{key}/@v/list", f"/example.com/{key}/@v/v1.0.0.mod?{key}", f"/k/{key}/x"):
        assert front.ask("GET", target, f"Basic {old_login(key)}")[0] in (401, 404, 429)
    wait_until(lambda: len(front.machine.read(log).splitlines()) > lines)
    assert holders(front.machine.folder, ["var/log"], {"a key": key}) == []


def test_user_is_removed_from_both_and_then_the_old_front_is() -> None:
    with opened(NewFront) as front:
        front.machine.does("goshelf-front remove ann")
        wait_until(lambda: front.get_by_password("ann")[0] == 401)
        assert front.status_of(front.passwords["ann"], LIST) == 401
        assert (front.get(LIST, "pat")[0], front.get_by_password("pat")[0]) == (200, 200)
        front.machine.does(block("sh", "rm -r /etc/nginx/goshelf/before", PAGE))
        assert front.get_by_password("pat")[0] == 401
        assert front.get(LIST, "pat")[0] == 200
        printed = front.machine.sh("goshelf-front check")[1]
        keys = [old_key(*rights) for rights in OLD.values()]
        assert [key for key in keys if fingerprint(key) not in printed] == [], "check names the keys of the old front"
