"""People see, make and revoke their own keys at the page of goshelf-keys, and nobody does so for another.

nginx, goshelf and goshelf-keys are real, on the machine of lib/own_keys.py; a small server plays the company's login.
test_front_page_logins.py has the other form of docs/NGINX.md, people who come and go, a browser and the unit.
"""

import json
import socket
import subprocess
import sys
import time
from collections.abc import Iterator

import pytest

from lib.front import fingerprint
from lib.own_keys import ASKS, Fields, OwnKeys
from lib.scratch import opened

pytestmark = [pytest.mark.needs("nginx", "nginx-js", "nginx-stream", "openssl", "go", "setpriv"), pytest.mark.root]
MISSING = "0123456789abcdef0123456789abcdef"
SCRIPT = "<script>alert(1)</script>"
OTHER = "https://evil.example"


class Company(OwnKeys):
    """The company, whose page is turned on. `before` is what the page answered until then."""

    def start(self) -> None:
        super().start()
        self.before = self.see()[0], self.ask("/keys/")[0]
        self.turn_on(ASKS)


@pytest.fixture(scope="module")
def company() -> Iterator[Company]:
    with opened(Company) as made:
        yield made
        assert made.find_holders() == ""


@pytest.fixture
def ann(company: Company) -> str:
    """The session of ann, who has sent no order yet."""
    company.serve()
    return company.sessions.sign_in("ann")


@pytest.fixture
def pat(company: Company) -> str:
    """The session of pat."""
    return company.sessions.sign_in("pat")


def test_page_is_off_at_first(company: Company) -> None:
    assert company.before == (401, 404), "also for who has a key"


@pytest.mark.parametrize("cookie", ["", f"session={MISSING}"], ids=["no cookie", "a cookie of nobody"])
def test_who_has_no_session_is_sent_to_the_login(company: Company, cookie: str) -> None:
    assert company.see(cookie)[0] == 302
    assert company.last.headers["Location"] == "https://login.example.com/?back=https://localhost/keys/"
    assert company.send(cookie, "make", "token=x&shelf=alpha&machine=x")[0] == 302


def test_check_finds_no_fault_in_the_page(company: Company) -> None:
    assert "name a person" not in company.machine.sh("goshelf-front check")[1]


def test_person_sees_the_own_keys_alone(company: Company, ann: str) -> None:
    status, text = company.see(ann)
    own, other = (company.client.passwords[user] for user in ("ann", "pat"))
    assert status == 200 and fingerprint(own) in text and "Keys of ann" in text
    assert fingerprint(other) not in text and own not in text, "no other key, and no key itself"


def test_headers_of_the_page(company: Company, ann: str) -> None:
    text, headers = company.see(ann)[1], company.last.headers
    assert headers["Cache-Control"] == "no-store"
    policy = headers["Content-Security-Policy"]
    for part in ("default-src 'none'", "base-uri 'none'", "form-action 'self'", "frame-ancestors 'none'", "'sha256-"):
        assert part in policy
    assert "script" not in text
    assert headers.get_all("X-Content-Type-Options") == ["nosniff"]
    assert headers.get_all("Strict-Transport-Security") == ["max-age=31536000"]


def test_login_is_not_asked_with_a_key(company: Company, ann: str) -> None:
    company.see(ann)
    sent = company.sessions.heads[-1]
    assert [name for name in sent if name in ("Authorization", "Content-Length")] == []


@pytest.mark.parametrize(
    "target, status", [("/keys/?key=x", 404), ("/keys/make", 404), ("/keys/x", 404), ("/keys/../keys/", 404)]
)
def test_target_that_is_no_page(company: Company, ann: str, target: str, status: int) -> None:
    assert company.see(ann, target)[0] == status


@pytest.mark.parametrize("method", ["PUT", "DELETE", "HEAD", "OPTIONS", "PATCH"])
def test_method_that_is_none(company: Company, ann: str, method: str) -> None:
    assert company.ask_page(method, "/keys/", ann, None, {})[0] == 501


@pytest.mark.parametrize(
    "header",
    [
        "Goshelf-Name",
        "goshelf-name",
        "Goshelf_Name",
        "X-Auth-Request-User",
        "x-auth-request-user",
        "X_Auth_Request_User",
        "X-Forwarded-User",
        "Remote-User",
    ],
)
def test_header_of_a_caller_names_nobody(company: Company, ann: str, header: str) -> None:
    status, text = company.see(ann, **{header: "pat"})
    assert status == 200 and "Keys of ann" in text, text
    assert company.see("", **{header: "pat"})[0] == 302, "without a session"


def ask_at_socket(company: Company, text: str) -> bytes:
    """Returns what goshelf-keys itself answers."""
    answer = b""
    with socket.socket(socket.AF_UNIX) as connection:
        connection.settimeout(30)
        connection.connect(f"{company.at}/socket")
        connection.sendall(text.encode("latin-1"))
        while part := connection.recv(65_536):
            answer += part
    return answer


HEADS = {
    "no name": "",
    "two names": "Goshelf-Name: ann\r\nGoshelf-Name: pat\r\n",
    "an empty one": "Goshelf-Name:\r\n",
    "one that is no UTF-8": "Goshelf-Name: \xff\r\n",
    "one with a tab": "Goshelf-Name: an\tn\r\n",
    "one of another": "X-Forwarded-User: ann\r\n",
}


@pytest.mark.parametrize("name", HEADS)
def test_socket_wants_one_name(company: Company, name: str) -> None:
    answer = ask_at_socket(company, f"GET /keys/ HTTP/1.0\r\nHost: localhost\r\n{HEADS[name]}\r\n")
    assert b" 403 " in answer.split(b"\r\n")[0]


def test_nobody_but_nginx_reaches_the_socket(company: Company) -> None:
    words = ["setpriv", "--reuid=65534", "--clear-groups", sys.executable, "-c"]
    code = f"import socket; socket.socket(socket.AF_UNIX).connect({f'{company.at}/socket'!r})"
    ran = subprocess.run([*words, code], capture_output=True, text=True)
    assert "PermissionError" in ran.stderr


def form(company: Company, cookie: str) -> Fields:
    """Returns a form that makes a key of alpha."""
    return {**company.fields(cookie, "make", shelf="alpha"), "machine": "m"}


@pytest.mark.parametrize(
    "headers",
    [
        {"Origin": OTHER, "Sec_Fetch_Site": "cross-site"},
        {"Origin": None},
        {"Origin": "null"},
        {"Origin": "http://localhost"},
        {"Sec_Fetch_Site": "cross-site"},
        {"Sec_Fetch_Site": "same-site"},
        {"Sec_Fetch_Site": "none"},
        {"Origin": f"https://localhost{OTHER}"},
        {"Origin": "https://localhost:1"},
        {"Origin": "", "Sec_Fetch_Site": ""},
    ],
    ids=str,
)
def test_form_of_another_site(company: Company, ann: str, headers: dict[str, str | None]) -> None:
    before = company.state()
    status, text = company.send(ann, "make", form(company, ann), **headers)
    assert status == 403 and "Another site" in text, text
    assert company.state() == before


# what is wrong in a form, and the status
WRONG_FIELDS = [
    ({"token": ""}, 403),
    ({"token": "0" * 32 + ".9999999999." + "0" * 64}, 403),
    ({"token": "é.x.ß"}, 403),
    ({"shelf": "beta"}, 403),
    ({"shelf": ""}, 403),
    ({"shelf": "common"}, 403),
    ({"shelf": "../alpha"}, 403),
    ({"machine": ""}, 400),
    ({"machine": "a\tb"}, 400),
    ({"machine": "a\nb"}, 400),
    ({"machine": "m" * 65}, 400),
    ({"machine": "a\u202eb"}, 400),
    ({"machine": "a\u200bb"}, 400),
    ({"machine": "a\u061cb"}, 400),
    ({"machine": " m"}, 400),
    ({"right": "publish"}, 400),
]


@pytest.mark.parametrize("fields, status", WRONG_FIELDS, ids=[ascii(fields)[:60] for fields, _ in WRONG_FIELDS])
def test_form_with_a_wrong_field(company: Company, ann: str, fields: Fields, status: int) -> None:
    before = company.state()
    found, text = company.send(ann, "make", {**form(company, ann), **fields})
    assert found == status and "<pre>" not in text, text
    assert company.state() == before


def test_form_with_the_token_of_another(company: Company, ann: str, pat: str) -> None:
    token = form(company, pat)["token"]
    assert company.send(ann, "make", {**form(company, ann), "token": token})[0] == 403


def test_form_with_a_later_token(company: Company, ann: str) -> None:
    fields = form(company, ann)
    assert company.send(ann, "make", {**fields, "token": fields["token"].replace(".", ".9", 1)})[0] == 403


# bodies that are no form, in which TOKEN is a token; the headers; and the status
RAW = "token=TOKEN&shelf=alpha&machine=m"
BODIES = [
    ("a field twice", f"{RAW}&shelf=alpha".encode(), {}, 400),
    ("a field less", b"token=TOKEN&shelf=alpha", {}, 400),
    ("no field", b"", {}, 400),
    ("bytes that are no text", RAW.encode() + b"\xff", {}, 400),
    ("an escape that is no text", f"{RAW}%ff".encode(), {}, 400),
    ("5,000 bytes", b"a" * 5000, {}, 413),
    ("JSON", json.dumps({"token": "TOKEN", "shelf": "alpha"}).encode(), {"Content_Type": "text/plain"}, 400),
    ("another type", RAW.encode(), {"Content_Type": "multipart/form-data; boundary=x"}, 400),
]


@pytest.mark.parametrize("body, headers, status", [row[1:] for row in BODIES], ids=[row[0] for row in BODIES])
def test_body_that_is_no_form(
    company: Company, ann: str, body: bytes, headers: dict[str, str | None], status: int
) -> None:
    before, token = company.state(), form(company, ann)["token"]
    assert company.send(ann, "make", body.replace(b"TOKEN", token.encode()), **headers)[0] == status
    assert company.state() == before


@pytest.mark.parametrize("action", ["", "drop", "make/x", "../keys/make?x=1"])
def test_action_that_is_none(company: Company, ann: str, action: str) -> None:
    assert company.send(ann, action, form(company, ann))[0] == 404


def test_form_counts_once(company: Company, pat: str) -> None:
    company.serve()
    fields = form(company, pat)
    status, text = company.send(pat, "make", fields)
    assert status == 200
    key, before = text.split("password ")[1].split("<")[0], company.keys()
    status, text = company.send(pat, "make", fields)
    assert status == 403 and "before" in text, text
    token = company.fields(pat, "revoke", fingerprint=fingerprint(key))
    assert company.send(pat, "revoke", {**token, "token": fields["token"]})[0] == 403
    assert company.keys() == before
    assert company.revoke(pat, key)[0] == 200


def test_form_ends_with_the_process(company: Company, pat: str) -> None:
    fields, before = form(company, pat), company.keys()
    company.serve()
    assert (company.send(pat, "make", fields)[0], company.keys()) == (403, before)


def test_form_is_good_for_a_while(company: Company, pat: str) -> None:
    guard, pair = "root/deploy/front_lib/guard.py", ("LIFE, HOUR = 900,", "LIFE, HOUR = 1,")
    company.machine.edit(guard, pair)
    company.serve()
    fields, before = form(company, pat), company.keys()
    time.sleep(2.1)
    assert (company.send(pat, "make", fields)[0], company.keys()) == (403, before)
    company.machine.edit(guard, pair[::-1])
    company.serve()


def test_key_for_each_machine(company: Company, ann: str) -> None:
    laptop, desk = company.make(ann, "laptop"), company.make(ann, 'desk <img src="x">')
    assert laptop != desk and [company.status_of(key) for key in (laptop, desk)] == [204, 204]
    text = company.see(ann)[1]
    assert "<td>laptop</td>" in text and "desk &lt;img src=&quot;x&quot;&gt;" in text, text
    assert laptop not in text and desk not in text, "no key is shown again"
    assert f"alpha\tread\t{fingerprint(laptop)}" in company.machine.does("goshelf-front list")
    status, text = company.revoke(ann, laptop)
    assert status == 200 and "worth nothing" in text, text
    assert [company.status_of(key) for key in (laptop, desk)] == [401, 204]
    assert fingerprint(laptop) not in company.keys()
    rows = [line.split("\t")[1:] for line in company.machine.does("goshelf-front log --name ann").splitlines()]
    orders = ((laptop, "add"), (desk, "add"), (laptop, "remove"))
    assert rows[-3:] == [["ann", fingerprint(key), "alpha", "-", "-", f"{order} by the page"] for key, order in orders]
    printed = company.machine.sh("goshelf-front check")[1].splitlines()
    assert [line for line in printed if "has no name" not in line and "can publish nothing" not in line] == []
    company.revoke(ann, desk)


def test_key_is_no_name_of_a_machine(company: Company, ann: str) -> None:
    before = company.keys()
    status, text = company.send_make(ann, f"was {company.client.passwords['ann']}", "alpha")
    assert (status, company.keys()) == (400, before) and "A key is in the name of the machine" in text, text


@pytest.mark.parametrize("whose", ["another's", "a machine's", "unknown", "all", "no fingerprint"])
def test_key_of_another_is_not_revoked(company: Company, ann: str, pat: str, whose: str) -> None:
    own, cookie = company.client.passwords["ann"], pat if whose == "another's" else ann
    digits = {"another's": fingerprint(own), "unknown": "0" * 16, "all": "", "no fingerprint": "../names"}
    if whose == "a machine's":
        digits[whose] = fingerprint(company.give("add robot alpha publish --machine"))
    token = form(company, cookie)["token"]
    before = company.keys()
    assert company.send(cookie, "revoke", {"token": token, "fingerprint": digits[whose]})[0] == 404
    assert (company.status_of(own), company.keys()) == (204, before)
    if whose == "a machine's":
        company.machine.does("goshelf-front remove robot")


NAMES = [
    SCRIPT,
    '"><img src=x>',
    "../../etc/passwd",
    "constructor",
    "__proto__",
    "ANN",
    "a" * 129,
    "a" * 4000,
    "robot",
    "ann,alpha,publish",
    "ann\u202e",
    "ann\u200b",
    "root",
    "*",
    "%",
    "ann%00",
    "ann\u00a0",
    "аnn",
    "#",
    "-x",
    "",
    b"\xff\xfe",
    b"an\xc3",
    b"ann\x7f",
]


@pytest.mark.parametrize("name", NAMES, ids=lambda name: ascii(name)[:40])
def test_login_by_a_name_that_nobody_has(company: Company, name: str | bytes) -> None:
    status, text = company.see(company.sessions.sign_in(name))
    assert status == 403 and "<form" not in text and SCRIPT not in text and "<img" not in text, text


def test_person_has_ten_keys_and_sends_twenty_orders(company: Company) -> None:
    company.serve()
    bob = company.sessions.sign_in("bob")
    keys = [company.make(bob, f"machine {number}", "beta") for number in range(9)]
    fields = {"token": company.fields(bob, "revoke")["token"], "shelf": "beta", "machine": "the eleventh"}
    status, text = company.send(bob, "make", fields)
    assert status == 409 and "the most" in text, text
    assert "the most" in company.see(bob)[1]
    for _ in range(10):
        company.send(bob, "make", {**fields, "token": company.fields(bob, "revoke")["token"]})
    assert company.send(bob, "make", {**fields, "token": company.fields(bob, "revoke")["token"]})[0] == 429
    company.make(company.sessions.sign_in("com"), "box", "common")
    company.serve()
    for key in keys:
        company.revoke(bob, key)
