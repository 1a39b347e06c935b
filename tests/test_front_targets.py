"""Odd targets, as bytes: nothing of the company goes out, no bait comes in, and nobody gets another shelf's bytes.

nginx, goshelf and the public proxy are those of lib/developers.py.
"""

import contextlib
from collections.abc import Iterator

import pytest

from lib.developers import BAIT, SPELLINGS, Developers
from lib.scratch import opened

pytestmark = [pytest.mark.needs("nginx", "nginx-js", "nginx-stream", "openssl", "go"), pytest.mark.root]
CORE = "example.com/alpha/core"
PATH = CORE.encode()
WAYS = [
    *(spelling.format(CORE).encode() for spelling in SPELLINGS.split()),
    b"/" + PATH + b"\xc3\xa9",
    b"/pub.example\xff/../" + PATH,
    b"/\x7f" + PATH,
    b"/" + PATH + b"\x0b",
    b"/\x01/" + PATH,
    b"/" + PATH + b"\r",
    b"/" + PATH + b"\t",
    b"/ " + PATH,
    b"/__proto__/" + PATH,
    b"/constructor.x/../" + PATH,
    b"/" + b"%21" * 700 + PATH,
    b"/" + b"!a" * 3000 + b"/" + PATH,
    b"/" + b"a." * 3900 + b"/x",
    b"/" + b"a/" * 3900,
    b"/pub.example/" + b"a/" * 3800 + b"@v/list/",
    b"*",
    b"",
    b"http://localhost/" + PATH,
    b"HTTP://proxy.golang.org/" + PATH,
    b"/%21%65xample.com/alpha/core",
    b"/!%65xample.com/alpha/core",
    b"/pub.example/%21%2e%2e/" + PATH,
    b"/%2121e/" + PATH,
    b"/pub.example;/" + PATH,
    b"/pub.example/x@/" + PATH,
    b"/sumdb/sum.golang.org/lookup//" + PATH,
    b"/sumdb/sum.golang.org/tile/8/" + PATH,
    b"/sumdb/sum.golang.org/tile/../lookup/" + PATH,
    b"/SUMDB/sum.golang.org/lookup/" + PATH,
    b"/sumdb/sum.golang.org/lookup/pub.example/../" + PATH,
    b"/sumdb/other.example/lookup/pub.example/x",
]
ENDS = (b"/@v/v1.0.0.mod", b"/@v/v1.9.9.zip", b"/@v/list", b"/@latest", b"@v1.9.9")
# what nginx and goshelf answer to a target of another shelf, or nothing
REFUSED = (b"400", b"403", b"404", b"405", b"414", b"421", b"")


@pytest.fixture(scope="module")
def company() -> Iterator[Developers]:
    with opened(Developers) as made:
        for version in ("v1.0.0", "v1.1.0"):
            made.outside.add("pub.example/lib", version)
        for version in ("v1.0.0", "v1.9.9"):
            made.outside.add(CORE, version, files={"a.go": f'package core\n\nconst V = "{BAIT.decode()}"\n'})
        assert made.publish("pat", CORE)[0] == 201
        yield made


def ask(company: Developers, line: bytes) -> bytes:
    """Returns what is answered to a request line of bob, as it is."""
    login = f"Authorization: {company.client.login('bob')}".encode()
    lines = (line, b"Host: localhost", b"Connection: close", login, b"", b"")
    answer = b""
    with company.client.begin(b"\r\n".join(lines)) as connection, contextlib.suppress(OSError):
        while piece := connection.recv(65_536):
            answer += piece
    return answer


@pytest.mark.parametrize(
    "method, end", [("GET", end) for end in ENDS] + [(method, ENDS[0]) for method in ("HEAD", "PUT", "POST", "get")]
)
def test_target_of_another_shelf_gets_nothing(company: Developers, method: str, end: bytes) -> None:
    """bob, of beta, sees none of alpha. (An absolute target is the path behind the host.)"""
    begun, odd = company.asked_outside(), []
    for way in WAYS:
        answer = ask(company, method.encode() + b" " + way + end + b" HTTP/1.1")
        status = answer.split(b" ")[1] if answer[:5] == b"HTTP/" else answer[:20]
        if BAIT in answer or b"module " + PATH in answer or status not in REFUSED:
            odd.append((way[:80], answer[:60]))
    assert odd == []
    assert company.leaks(begun) == []
    assert [target for target in company.outside.targets(begun) if "pub.example" not in target] == []


@pytest.mark.parametrize(
    "target", [b"/x\rGET /k/y", b"/x\nGET /k/y", b"/x HTTP/1.1\r\nA: b", b"/x%0d%0aGET%20/", b"/x\x00y"], ids=ascii
)
def test_request_to_goshelf_is_one(company: Developers, target: bytes) -> None:
    """The request line that proxy_method makes is one."""
    begun = len(company.log())
    answer = ask(company, b"GET /" + PATH + target + b" HTTP/1.1")
    assert answer.split(b" ")[1:2] in ([b"400"], [b"404"], [], [b"in:"]) and answer.count(b"HTTP/1.1 ") <= 1, answer
    lines = company.log(begun)
    assert len(lines) <= 1 and not any("/k/" in line.split("/core/x")[0] for line in lines), lines
