"""Public modules at a site of deploy/one: they cross the line once, and never in the place of what is the company's.

The hosts are those of lib/company.py. The public proxy (lib/outside.py) is on the first host, and has bait for the
paths of the company.
"""

import os
from collections.abc import Iterator
from typing import NamedTuple

import pytest

from lib.company import FIRST, SITE, Company
from lib.developers import BAIT, SPELLINGS
from lib.hosts import inside
from lib.machine import AUTHORITIES
from lib.outside import JSON, TEXT, XMOD, Outside
from lib.pages import block
from lib.ports import wait_until
from lib.scratch import opened

pytestmark = [
    pytest.mark.needs("nginx", "nginx-js", "nginx-stream", "openssl", "go", "ip", "pgrep"),
    pytest.mark.root,
    pytest.mark.skipif(not os.path.isdir(XMOD), reason="the machine has no golang-golang-x-mod-dev"),
]

LIB, OURS = "pub.example/lib", "example.com/lib"
HTML = "text/html", b"<html>log in to the net</html>"


class SiteReply(NamedTuple):
    """What a site answers, and whether it came from the cache there."""

    status: int
    body: bytes
    is_cached: bool


class WithPublic(Company):
    """The company, whose first host reaches a public proxy."""

    outside: Outside | None = None

    def __init__(self, folder: str) -> None:
        self.folder = folder
        super().__init__(folder)

    def start(self) -> None:
        with inside(self.first.namespace):
            self.outside = Outside(f"{self.folder}/outside")
        self.first.public = self.outside.port
        os.unlink(f"{self.first.folder}{AUTHORITIES}")
        os.symlink(self.outside.authority, f"{self.first.folder}{AUTHORITIES}")
        super().start()
        self.claim("forge.example/corp")
        self.fill()

    def fill(self) -> None:
        """Has public modules and the bait outside."""
        for version in ("v1.0.0", "v1.1.0"):
            self.outside.add(LIB, version)
        for path in (OURS, "example.com/alpha/core", "forge.example/corp/x"):
            self.outside.add(path, "v1.9.9", files={"a.go": 'package core\n\nconst V = "BAIT"\n'})
            self.outside.files[f"/{path}/@v/v1.9.9.mod"] = TEXT, BAIT

    def at_site(self, target: str, user: str | None = "ann") -> SiteReply:
        begun = len(self.lines(SITE))
        status, _, body = self.desk.ask(SITE, user, target)
        lines: list[str] = []

        def is_logged() -> bool:
            # (the log hides what may be a key in a target that found nothing)
            lines[:] = [line for line in self.lines(SITE, begun) if f" {target} " in line or "..." in line]
            return bool(lines)

        wait_until(is_logged)
        return SiteReply(status, body, lines[0].endswith(" HIT"))

    def claim(self, path: str) -> None:
        """Makes a path the company's, by the commands of NGINX."""
        self.first.edit("etc/nginx/goshelf/owners.json", ("{", f'{{"{path}": ["alpha"], '))
        self.first.does(block("sh", "goshelf-front uncache", "NGINX.md"))
        self.forget()

    def close(self) -> None:
        if self.outside:
            self.outside.close()
        super().close()


@pytest.fixture(scope="module")
def company() -> Iterator[WithPublic]:
    with opened(WithPublic) as company:
        yield company


@pytest.mark.parametrize("kind", ["info", "mod", "zip"])
def test_what_never_changes_is_asked_of_the_first_host_once_for_a_shelf(company: WithPublic, kind: str) -> None:
    company.outside.add("pub.example/once", "v1.0.0")
    target = f"/pub.example/once/@v/v1.0.0.{kind}"
    body = company.outside.files[target][1]
    replies = [company.at_site(target, user) for user in ("ann", "ann", "pub", "bob", "bob")]
    assert replies == [(200, body, is_cached) for is_cached in (False, True, True, False, True)]
    assert company.desk.ask(FIRST, "ann", target)[::2] == (200, body)


def short(handler, _) -> None:
    """Answers without a length, so that nobody knows whether the body is whole."""
    handler.head(200, ("Content-Type", TEXT), ("Connection", "close"))
    handler.wfile.write(b"module")


@pytest.fixture(scope="module")
def changing(company: WithPublic) -> None:
    """Outside are answers that may change, and some that may be wrong."""
    company.outside.files[f"/{LIB}/@v/master.info"] = JSON, b'{"Version":"v1.0.0"}'
    company.outside.files["/pub.example/odd/@v/v1.0.0.mod"] = HTML
    company.outside.how["/pub.example/short/"] = short


@pytest.mark.parametrize(
    ("target", "status"),
    [
        (f"/{LIB}/@v/master.info", 200),
        (f"/{LIB}/@v/list", 200),
        (f"/{LIB}/@latest", 200),
        ("/pub.example/odd/@v/v1.0.0.mod", 200),
        ("/pub.example/short/@v/v1.0.0.mod", 200),
        ("/pub.example/none/@v/v1.0.0.mod", 404),
    ],
)
def test_what_may_change_or_be_wrong_is_asked_twice(
    company: WithPublic, changing: None, target: str, status: int
) -> None:
    replies = [company.at_site(target) for _ in range(2)]
    assert [(reply.status, reply.is_cached) for reply in replies] == [(status, False)] * 2


def attack_targets() -> list[str]:
    """Returns targets that attack the map."""
    ways = [way.format(OURS) for way in SPELLINGS.split() if "fallow" not in way]
    targets = [f"{way}{end}" for way in ways for end in ("/@v/v1.9.9.mod", "/@v/v1.9.9.zip", "/@v/list", "/@latest")]
    ends = ("?", "?x=/@v/v1.0.0.mod", "%3f/@v/list")
    return targets + [f"/{path}/@v/v1.9.9.mod{end}" for path in (OURS, LIB) for end in ends]


class Attacked(NamedTuple):
    """What the attacks got, the first time and again, and which paths of the company went out."""

    turns: list[dict[str, tuple[int, bytes]]]
    leaks: list[str]


@pytest.fixture(scope="module")
def attacked(company: WithPublic) -> Attacked:
    begun = len(company.outside.asked)
    turns = [{target: company.desk.ask(SITE, "ann", target)[::2] for target in attack_targets()} for _ in range(2)]
    return Attacked(turns, company.outside.leaks(["example.com", "forge.example/corp"], begun))


@pytest.mark.parametrize("turn", [0, 1], ids=["first", "again"])
def test_no_attack_gets_the_bait(attacked: Attacked, turn: int) -> None:
    replies = attacked.turns[turn]
    assert len(replies) > 200
    assert [target for target, (_, body) in replies.items() if BAIT in body] == []
    # and nothing that is not there
    assert [target for target, (status, _) in replies.items() if status == 200 and "/@v/v1.9.9" in target] == []


def test_no_attack_goes_out(attacked: Attacked) -> None:
    assert attacked.leaks == []


def test_what_is_ours_stays_in_the_part_of_its_shelf(company: WithPublic) -> None:
    """Beside public modules that are kept."""
    target = f"/{OURS}/@v/v1.0.0.zip"
    assert company.put("pub", OURS, "v1.0.0")[0] in (200, 201)
    assert [company.own(user, target)[0] for user in ("ann", "bob")] == [200, 404]
    for _ in range(2):
        assert [company.at_site(target, user).status for user in ("ann", "bob")] == [200, 404]


def test_a_public_path_that_a_site_keeps_becomes_ours(company: WithPublic) -> None:
    target, own = "/moved.example/m/@v/v1.0.0.mod", "example.com/beside"
    company.outside.add("moved.example/m", "v1.0.0")
    assert company.put("pub", own, "v1.0.0") == (201, b"published\n")
    assert [company.at_site(target).status for _ in range(2)] == [200, 200]
    company.claim("moved.example")
    # then only goshelf answers for it
    assert [company.at_site(target).status for _ in range(2)] == [404, 404]
    # and what was ours or is public is there
    assert [company.at_site(f"/{path}/@v/v1.0.0.mod").status for path in (own, LIB)] == [200, 200]


def test_the_first_host_is_cut_off(company: WithPublic) -> None:
    """A site answers what it keeps, to users alone. (Afterwards it caches nothing for some seconds.)"""
    company.outside.add("pub.example/far", "v1.0.0")
    company.outside.add("pub.example/far", "v1.1.0")
    kept, other = (f"/pub.example/far/@v/{version}.zip" for version in ("v1.0.0", "v1.1.0"))
    assert company.at_site(kept).status == 200
    with company.first.cut_off():
        company.forget()
        assert company.at_site(kept).status == 200
        # a stranger gets nothing, nor does who asks for another
        assert {company.at_site(kept, None).status, company.at_site(other).status} <= {401, 502, 504}
    company.back()
    wait_until(company.is_trusted)
