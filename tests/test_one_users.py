"""Users and keys at sites of deploy/one: who is removed, a key that the store alone revoked, a user of another shelf.

The company is that of test_one.py.
"""

from collections.abc import Iterator

import pytest

from lib.company import FIRST, OTHER, READERS, SITE, Company, publish_own
from lib.front import fingerprint
from lib.ports import wait_until
from lib.scratch import opened

pytestmark = [
    pytest.mark.needs("nginx", "nginx-js", "nginx-stream", "openssl", "ip", "pgrep"),
    pytest.mark.root,
]

CREATED = (201, b"published\n")
ZIP, LIST = "/example.com/lib/@v/v1.0.0.zip", "/example.com/lib/@v/list"


@pytest.fixture(scope="module")
def company() -> Iterator[Company]:
    """A company whose shelves have published, and whose caches are full."""
    with opened(Company) as company:
        assert publish_own(company, "v1.0.0") == {CREATED}
        assert company.wrong_answers() == []
        yield company


def add(company: Company, user: str, shelf: str = "alpha") -> None:
    """Adds a user who reads."""
    company.desk.add(company.first, user, shelf, "read")
    company.first.reload()


def remove(company: Company, user: str) -> None:
    company.first.does(f"goshelf-front remove {user}")
    company.first.reload()


def test_a_removed_user_is_refused_at_each_host(company: Company) -> None:
    add(company, "tom")
    assert company.statuses("tom", ZIP) == [200] * 3
    remove(company, "tom")
    assert company.desk.status(FIRST, "tom", ZIP) == 401
    # what changes, at a site
    assert company.desk.status(SITE, "tom", LIST) == 401
    # what a site keeps, once it asks again
    company.forget()
    assert company.statuses("tom", ZIP, (SITE, OTHER)) == [401] * 2
    # a site that heard of it refuses the user also when it is cut off
    with company.first.cut_off():
        company.forget()
        assert company.desk.status(SITE, "tom", ZIP) == 401
    company.back()


def test_a_user_is_removed_while_sites_are_cut_off(company: Company) -> None:
    add(company, "amy")
    assert company.statuses("amy", ZIP) == [200] * 3
    with company.first.cut_off():
        company.forget()
        remove(company, "amy")
        # what is kept is answered
        assert company.desk.status(SITE, "amy", ZIP) == 200
    company.back()
    wait_until(company.is_trusted)
    company.forget()
    assert company.statuses("amy", ZIP) == [401] * 3
    add(company, "amy")
    company.forget()
    assert company.wrong_answers(users=(*READERS, "amy")) == []


def test_the_store_alone_revokes_a_key(company: Company) -> None:
    """What is kept goes on until goshelf-front hears of it."""
    first = company.first
    add(company, "ben", "beta")
    wanted = company.answers(("ben",))
    assert company.differing(wanted) == []
    key = fingerprint(company.key("ben"))
    first.does(f"goshelf key-revoke --control /run/goshelf/control --fingerprint {key}")
    # 404 or what the shelf had before
    assert company.differing(wanted, failures=(404,)) == []
    # another user of the shelf is as before
    assert company.wrong_answers(users=("rob",)) == []
    first.does("goshelf-front sync")
    company.forget()
    statuses = {status for _, target in wanted for status in company.statuses("ben", target)}
    assert statuses <= {401, 429}
    add(company, "ben", "beta")
    company.forget()
    assert company.wrong_answers(users=(*READERS, "ben")) == []


def move(company: Company, key: str, shelf: str) -> None:
    """Has a key be of another shelf: the text of a revoked one may be added again."""
    first = company.first
    first.does(f"goshelf key-revoke --control /run/goshelf/control --key {key}")
    first.does(f"goshelf key-add --control /run/goshelf/control --shelf {shelf} --key {key} --read-only")
    first.does("goshelf-front sync")


def test_the_shelf_of_a_user_changes(company: Company) -> None:
    """A site that knows the shelf of before puts nothing into that part of the cache."""
    add(company, "max")
    key, target = company.key("max"), "/example.com/moved/@v/v1.0.0.zip"
    assert company.put("pub", "example.com/moved", "v1.0.0")[0] == 201
    # the same name on another shelf
    assert company.put("rob", "example.com/moved", "v1.0.0")[0] == 201
    company.desk.ask(SITE, "max", "/example.com/lib/@v/v1.0.0.mod")
    move(company, key, "beta")
    of_alpha, of_beta = company.own("pub", target), company.own("rob", target)
    company.desk.ask(SITE, "max", target)
    # the shelf of before has its own
    assert company.desk.ask(SITE, "pub", target) == of_alpha != of_beta
    company.forget()
    assert company.wrong_answers(users=(*READERS, "max")) == []
    move(company, key, "alpha")
    company.forget()
    assert company.wrong_answers(users=(*READERS, "max")) == []
