"""The page of goshelf-keys: people of a list who come and go, what is away, a proxy, a browser, and the unit.

nginx, goshelf and goshelf-keys are real, on the machine of lib/own_keys.py; a small server plays the company's login.
"""

import contextlib
import http.client
import json
import os
import re
import subprocess
from collections.abc import Iterator

import pytest

from lib.browser import Browser
from lib.front import fingerprint, refused_files, stopped_goshelf
from lib.keys_unit import KeysUnit, Unable, running_unit
from lib.own_keys import ASKS, LOGIN, NAMED, OwnKeys
from lib.program import ROOT
from lib.scratch import opened

pytestmark = [pytest.mark.needs("nginx", "nginx-js", "nginx-stream", "openssl", "go"), pytest.mark.root]
EVE = "Eve Ö. <b>&\"'"
QUOTED = '"' + EVE.replace('"', '""') + '"'
PEOPLE = ("ann,alpha,read", "pat,alpha,publish", "bob,beta,publish", "com,common,publish")
UNITS = f"{ROOT}/deploy/systemd/goshelf-keys"
# the rating of systemd-analyze below which the unit has to stay
SAFE = 5.0


class Company(OwnKeys):
    """The company, whose page is turned on."""

    def start(self) -> None:
        super().start()
        self.turn_on(ASKS)

    def sync(self, *more: str) -> tuple[int, str, str]:
        """Has goshelf-front take a list of people who make their keys at the page. Returns how it ends."""
        self.machine.write("root/people.csv", "".join(f"{line}\n" for line in (*PEOPLE, *more)))
        return self.machine.sh("goshelf-front sync people.csv --page")

    def replace(self, name: str, text: str) -> "contextlib.AbstractContextManager[None]":
        """Gives a file of the front another text until the block ends."""
        return replaced(self, f"etc/nginx/goshelf/{name}", text)


@contextlib.contextmanager
def replaced(company: OwnKeys, name: str, text: str) -> Iterator[None]:
    before = company.machine.read(name)
    company.machine.write(name, text)
    try:
        yield
    finally:
        company.machine.write(name, before)


@pytest.fixture(scope="module")
def company() -> Iterator[Company]:
    with opened(Company) as made:
        yield made
        assert made.find_holders() == ""


@pytest.fixture
def ann(company: Company) -> str:
    """The session of ann, who has sent no order yet."""
    company.serve()
    return company.sessions.sign_in("ann")


class TestList:
    """A new person of a directory, who then leaves."""

    @pytest.fixture
    def eve(self, company: Company) -> Iterator[str]:
        """The session of eve, who is in the list until the test ends."""
        company.serve()
        status, printed, errors = company.sync(f"{QUOTED},alpha,publish", f"{QUOTED},beta,read,2099-01-31")
        assert (status, printed.count(f"added\t{EVE}\t"), errors) == (0, 2, "")
        yield company.sessions.sign_in(EVE)
        company.sync()

    def test_list_makes_no_key(self, company: Company, eve: str) -> None:
        assert EVE not in company.machine.does("goshelf-front list")
        again = company.sync(f"{QUOTED},alpha,publish", f"{QUOTED},beta,read,2099-01-31")
        assert again == (0, "", ""), "it is said once"
        text = company.see(eve)[1]
        assert "You have none." in text and "Eve Ö. &lt;b&gt;&amp;&quot;&#x27;" in text, text
        assert EVE not in text, "no text of hers is markup"

    def test_keys_have_the_rights_of_the_list(self, company: Company, eve: str) -> None:
        keys = company.make(eve, "one"), company.make(eve, "two", "beta")
        assert [company.status_of(key) for key in keys] == [204, 204]
        users = json.loads(company.machine.read("etc/nginx/goshelf/goshelf.json"))["users"]
        found = [{name: value for name, value in users[fingerprint(key)].items() if name != "sha256"} for key in keys]
        assert found == [
            {"name": EVE, "shelf": "alpha", "right": "publish"},
            {"name": EVE, "shelf": "beta", "right": "read", "until": "2099-01-31"},
        ]

    def test_who_revoked_the_last_key_makes_another(self, company: Company, eve: str) -> None:
        company.revoke(eve, company.make(eve, "one"))
        assert "You have none." in company.see(eve)[1]
        assert company.status_of(company.make(eve, "three")) == 204

    def test_who_leaves_the_list_has_nothing(self, company: Company, eve: str) -> None:
        key = company.make(eve, "one")
        fields = {**company.fields(eve, "make", shelf="alpha"), "machine": "late"}
        status, printed, _ = company.sync()
        assert (status, printed.count(f"removed\t{EVE}")) == (0, 2)
        assert company.status_of(key) == 401
        assert fingerprint(key) not in company.keys()
        assert (company.see(eve)[0], company.send(eve, "make", fields)[0]) == (403, 403)

    def test_who_came_back_is_removed_by_name(self, company: Company, eve: str) -> None:
        company.sync(f"{QUOTED},alpha,read,2020-01-31")
        assert company.see(eve)[0] == 403, "whose last day is over"
        company.sync(f"{QUOTED},alpha,read")
        assert company.see(eve)[0] == 200, "who came back"
        name = "'" + EVE.replace("'", "'\\''") + "'"
        assert company.machine.sh(f"goshelf-front remove {name}")[0] == 0, "without a key"
        assert company.see(eve)[0] == 403
        assert company.machine.sh(f"goshelf-front remove {name}")[0] == 1, "twice"

    @pytest.mark.parametrize("words", ["people.csv --page --keys new", "--page"])
    def test_words_that_exclude_each_other(self, company: Company, words: str) -> None:
        assert company.machine.sh(f"goshelf-front sync {words}")[0] == 2


def test_key_is_made_without_a_name_server(company: Company, ann: str) -> None:
    company.outside.name_server.is_on = False
    try:
        key = company.make(ann, "without names")
        assert company.status_of(key) == 204
        company.revoke(ann, key)
        assert company.status_of(key) == 401
    finally:
        company.outside.name_server.is_on = True


def test_goshelf_is_away(company: Company, ann: str) -> None:
    key = company.make(ann, "before")
    before = company.state_of_files()
    with stopped_goshelf(company.machine):
        status, text = company.send_make(ann, "meanwhile")
        assert status == 503 and "No key was made" in text, text
        assert company.state_of_files() == before, "nor half of one"
        status, text = company.revoke(ann, key)
        assert status == 200 and "goshelf does not answer" in text, text
        assert company.status_of(key) == 401, "at once at nginx"
    assert fingerprint(key) in company.keys()
    company.machine.does("goshelf-front sync")
    assert fingerprint(key) not in company.keys(), "and at goshelf later"


def test_nginx_refuses_its_files(company: Company, ann: str) -> None:
    before = company.keys()
    with refused_files(company.machine):
        status, text = company.send_make(ann, "refused")
    assert (status, company.keys()) == (503, before), text
    assert "refused" not in company.machine.read("etc/nginx/goshelf/names")
    assert "nginx refuses" in company.errors()
    company.machine.does("goshelf-front sync")


def test_owners_are_wrong(company: Company, ann: str) -> None:
    before = company.keys()
    with company.replace("owners.json", "{}"):
        status, text = company.send_make(ann, "no owners")
    assert (status, company.keys()) == (503, before), text


def test_list_of_people_is_wrong(company: Company, ann: str) -> None:
    company.sync()
    with company.replace("people", company.machine.read("etc/nginx/goshelf/people") + "half a line\n"):
        status, text = company.see(ann)
    assert status == 503 and "half" not in text, text
    assert "people:" in company.errors()


def test_goshelf_keys_is_away(company: Company, ann: str) -> None:
    company.end()
    os.rename(f"{company.at}/socket", f"{company.at}/away")
    status, text = company.see(ann)
    os.rename(f"{company.at}/away", f"{company.at}/socket")
    company.serve()
    assert status == 502 and "goshelf-keys does not answer" in text, text


class TestProxy:
    """The other form: a proxy of the company names the person, and nobody else may."""

    @pytest.fixture(scope="class", autouse=True)
    def proxy(self, company: Company) -> Iterator[None]:
        company.turn_on(NAMED, ("192.0.2.10", "127.0.0.1"))
        yield
        company.turn_on(ASKS)

    def test_proxy_names_a_person(self, company: Company) -> None:
        status, text = company.see(**{"X-Forwarded-User": "ann"})
        assert status == 200 and "Keys of ann" in text, text
        assert company.see()[0] == 403, "who has no name"

    def test_header_of_a_caller_does_not_count(self, company: Company) -> None:
        assert "Keys of ann" in company.see(**{"Goshelf-Name": "pat", "X-Forwarded-User": "ann"})[1]

    def test_another_address_names_nobody(self, company: Company) -> None:
        where = {"timeout": 30, "context": company.client.context, "source_address": ("127.0.0.2", 0)}
        connection = http.client.HTTPSConnection("localhost", company.machine.front, **where)
        with contextlib.closing(connection):
            connection.request("GET", "/keys/", headers={"X-Forwarded-User": "ann"})
            assert connection.getresponse().status == 403

    @pytest.mark.parametrize(
        "pair",
        [
            ("    deny all;\n", ""),
            ("deny all", "deny 192.0.2.1"),
            ("deny all;", "deny all;\n    satisfy any;"),
            ("deny all;", "auth_request /company-login;"),
            ("deny all;", "auth_request off;"),
        ],
        ids=["for all", "for all but one", "by either", "by a login that anybody may name", "by a login that is off"],
    )
    def test_check_names_one_that_is_open(self, company: Company, pair: tuple[str, str]) -> None:
        with replaced(company, LOGIN, company.machine.read(LOGIN).replace(*pair)):
            status, printed, _ = company.machine.sh("goshelf-front check")
        assert status == 1 and "anybody may name a person" in printed, printed


@pytest.mark.needs("chromium")
def test_browser_makes_a_key_and_revokes_it(company: Company) -> None:
    company.serve()
    browser = Browser(f"{company.folder}/browser", company.client.pem)
    with contextlib.closing(browser):
        page = browser.page(has_scripts=False)
        name, _, value = company.sessions.sign_in("com").partition("=")
        page.call("Network.setCookie", name=name, value=value, url=company.url, httpOnly=True, sameSite="Lax")
        page.go(f"{company.url}/keys/")
        page.click("input[name=machine]")
        page.type("browser's box")
        page.follow("form[action='/keys/make'] button")
        key = page.value("document.querySelector('pre').innerText").split()[5]
        company.client.passwords["of a browser"] = key
        assert company.status_of(key) == 204
        page.follow("a")
        assert key not in page.value("document.body.innerText"), "it does not see it again"
        page.follow(f"button[aria-label='Revoke {fingerprint(key)}']")
        assert company.status_of(key) == 401
        assert page.faults == [], "its console has nothing to say"
        assert [target for target in page.asked if key in target] == []


class TestUnit:
    """goshelf-keys as its unit runs it."""

    @pytest.fixture(scope="class")
    def unit(self) -> Iterator[KeysUnit]:
        with contextlib.ExitStack() as stack:
            try:
                unit = stack.enter_context(running_unit())
            except Unable as why:
                pytest.skip(str(why))
            yield unit

    def test_socket_is_nginxs(self, unit: KeysUnit) -> None:
        assert unit.sockets == "socket 660 root www-data inactive", "and it waits for a request"

    def test_unit_makes_a_key_and_revokes_it(self, unit: KeysUnit) -> None:
        text = unit.send("make", "shelf=alpha", "machine=box")
        found = re.search(r"password ([a-z0-9]+)<", text)
        assert found, (text, unit.log())
        key, digits = found[1], f"fingerprint={fingerprint(found[1])}"
        assert unit.status_of(key) == "204"
        assert "no form" in unit.send("revoke", digits, "x="), "a field too many"
        text = unit.send("revoke", digits)
        assert "worth nothing" in text, (text, unit.log())
        assert unit.status_of(key) == "401"
        assert key not in unit.log()

    def test_unit_is_right(self, unit: KeysUnit) -> None:
        verified = unit.copy.sh("systemd-analyze verify goshelf-keys.service goshelf-keys.socket")
        assert verified == (0, "", "")


@pytest.mark.needs("systemd-analyze")
def test_unit_is_confined() -> None:
    words = ["systemd-analyze", "security", "--offline=true", "--no-pager", f"{UNITS}.service"]
    printed = subprocess.run(words, capture_output=True, text=True).stdout
    found = re.search(r"exposure level for goshelf-keys.service: ([\d.]+)", printed)
    assert found and float(found[1]) < SAFE, printed[-200:]
