"""deploy/warm while the first host is killed, cut off or lost.

The company is that of test_warm.py.
"""

import os
import time
from collections.abc import Callable, Iterator
from typing import NamedTuple

import pytest

from lib.company import CONF
from lib.pages import block
from lib.scratch import opened
from lib.warm import PAGE, SECOND_WAY, WARM, Warm, publishes

pytestmark = [
    pytest.mark.needs(
        "curl", "flock", "ip", "nginx", "nginx-js", "nginx-stream", "openssl", "pgrep", "setpriv", "sqlite3"
    ),
    pytest.mark.root,
]

CREATED = (201, b"published\n")


@pytest.fixture(scope="class")
def company() -> Iterator[Warm]:
    """A company whose warm host has a copy."""
    with opened(Warm) as company:
        company.maps()
        assert publishes(company, "v1.0.0") == {CREATED}
        company.copy()
        yield company


def kill(company: Warm) -> None:
    """Kills the first goshelf, which starts again."""
    company.kill()
    time.sleep(0.1)
    company.first.does("systemctl start goshelf")


def cut(company: Warm) -> None:
    """Cuts the first host off for a second."""
    with company.first.cut_off():
        time.sleep(1)


class Harm(NamedTuple):
    """What is done while a publish is under way: behind half of it, or some seconds after all of it was sent."""

    do: Callable[[Warm], None]
    is_half: bool
    wait: float

    def __str__(self) -> str:
        return f"{self.do.__name__} behind half" if self.is_half else f"{self.do.__name__} after {self.wait} s"


HARMS = (
    Harm(kill, True, 0),
    *(Harm(kill, False, wait) for wait in (0, 0.03, 0.06, 0.1, 0.2, 0.4)),
    Harm(cut, False, 0),
    Harm(cut, False, 0.03),
)


class Harmed(NamedTuple):
    """What came of a publish that was harmed: its status, that of its zip then, whether that had its bytes, the
    statuses of publishing it twice again, and whether both hosts have its bytes in the end."""

    status: int
    zip_status: int
    is_whole: bool
    again: list[int]
    at_hosts: list[bool]


class TestPublishUnderWay:
    """The first goshelf is killed, or the first host cut off, while a large publish is under way at the warm host."""

    @pytest.fixture(scope="class")
    def harmed(self, company: Warm) -> dict[Harm, Harmed]:
        harmed = {harm: self.harm_publish(company, f"example.com/large{at}", harm) for at, harm in enumerate(HARMS)}
        company.published -= {(f"example.com/large{number}", "v1.0.0") for number in range(1, len(HARMS))}
        return harmed

    def harm_publish(self, company: Warm, path: str, harm: Harm) -> Harmed:
        body, target = company.seed.randbytes(8_000_000), f"/{path}/@v/v1.0.0.zip"
        status = self.publish(company, path, body, harm)
        company.back()
        zip_status, _, found = company.own("pub", target)
        again = [company.put("pub", path, "v1.0.0", body=body)[0] for _ in range(2)]
        at_hosts = [company.desk.ask(host, "ann", target)[2] == body for host in company.fronts]
        return Harmed(status, zip_status, found == body, again, at_hosts)

    def publish(self, company: Warm, path: str, body: bytes, harm: Harm) -> int:
        """Returns the status that a publish gets during which harm is done; 0 where none comes."""
        head = f"module {path}\n".encode()
        lines = [
            f"PUT /{path}/@v/v1.0.0 HTTP/1.1",
            f"Host: {WARM}",
            f"Authorization: {company.desk.login('pub')}",
            "Connection: close",
            f"Mod-Length: {len(head)}",
            f"Content-Length: {len(head + body)}",
        ]
        whole = "".join(f"{line}\r\n" for line in (*lines, "")).encode() + head + body
        middle = len(whole) // 2 if harm.is_half else len(whole)
        with company.desk.connect(WARM, 90) as connection:
            connection.sendall(whole[:middle])
            time.sleep(harm.wait)
            harm.do(company)
            connection.sendall(whole[middle:])
            reply = connection.makefile("rb").readline().split()
        return int(reply[1]) if reply else 0

    @pytest.mark.parametrize("harm", HARMS, ids=str)
    def test_it_is_whole_or_not_there(self, harmed: dict[Harm, Harmed], harm: Harm) -> None:
        found = harmed[harm]
        assert found.status in (201, 502, 504)
        assert (found.zip_status, found.is_whole) in ((200, True), (404, False))
        assert found.status != 201 or found.is_whole

    @pytest.mark.parametrize("harm", HARMS, ids=str)
    def test_it_is_published_again(self, harmed: dict[Harm, Harmed], harm: Harm) -> None:
        assert harmed[harm].again == [200 if harmed[harm].is_whole else 201, 200]
        assert harmed[harm].at_hosts == [True, True]

    def test_some_are_lost_and_some_kept(self, harmed: dict[Harm, Harmed]) -> None:
        assert {found.zip_status for found in harmed.values()} == {200, 404}

    def test_no_answer_differs_then(self, harmed: dict[Harm, Harmed], company: Warm) -> None:
        assert company.wrong_answers() == []


class Promoted(NamedTuple):
    """What came of it that the warm host became the first."""

    old: tuple[str, str]
    is_cron_left: bool
    generation: int
    differing: list
    publish: int
    latest: int


class TestPromotion:
    """The first host is lost: the warm host becomes the first, by the commands of the page."""

    @pytest.fixture(scope="class")
    def promoted(self, company: Warm) -> Iterator[Promoted]:
        warm, wanted = company.warm, company.answers()
        with company.first.cut_off():
            before, old = warm.workers(), warm.read(CONF)
            warm.does(block("sh", "rm -f /etc/cron.d/goshelf-warm", PAGE))
            kept = warm.read("etc/nginx/conf.d/goshelf.warm")
            is_cron_left = os.path.exists(f"{warm.folder}/etc/cron.d/goshelf-warm")
            warm.edit(CONF, SECOND_WAY)
            generation = int(warm.does(block("sh", "goshelf-front uncache", PAGE)).split()[-1])
            warm.wait_for_workers(before)
            company.desk.kept.clear()
            differing = company.differing(wanted, (WARM,))
            publish = company.put("pub", "example.com/lib", "v1.99.0")[0]
            latest = company.desk.status(WARM, "ann", "/example.com/lib/@latest")
            yield Promoted((old, kept), is_cron_left, generation, differing, publish, latest)

    def test_the_old_file_of_nginx_is_kept(self, promoted: Promoted) -> None:
        before, kept = promoted.old
        assert kept == before

    def test_cron_fetches_nothing_any_more(self, promoted: Promoted) -> None:
        assert not promoted.is_cron_left

    def test_no_cache_of_the_first_host_has_its_generation(self, promoted: Promoted) -> None:
        assert promoted.generation > 1_000_000_000

    def test_it_answers_all_as_the_first_did(self, promoted: Promoted) -> None:
        assert promoted.differing == []

    def test_it_takes_publishes(self, promoted: Promoted) -> None:
        assert (promoted.publish, promoted.latest) == (201, 200)
