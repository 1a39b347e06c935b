"""Users and keys at a host that answers from a copy: who is removed, a front that does not come, a key that is revoked.

The hosts are network namespaces (lib/hosts.py). The files of deploy/ run as they are, set up by the commands of the
pages.
"""

import os
from collections.abc import Iterator
from typing import NamedTuple

import pytest

from front_lib.setup import OURS
from lib.company import FIRST, READERS, is_file
from lib.front import fingerprint
from lib.ports import wait_until
from lib.scratch import opened
from lib.warm import WARM, Warm, publishes

pytestmark = [
    pytest.mark.needs(
        "curl", "flock", "ip", "nginx", "nginx-js", "nginx-stream", "openssl", "pgrep", "setpriv", "sqlite3"
    ),
    pytest.mark.root,
]

CREATED = (201, b"published\n")
FRONT = "etc/nginx/goshelf"
USERS, PATHS = f"{FRONT}/goshelf.json", f"{FRONT}/owners.json"
FILES = sorted([*OURS, "goshelf.json", "names", "owners.json", "taken-out"])
ZIP, LIST = "/example.com/lib/@v/v1.0.0.zip", "/example.com/lib/@v/list"


@pytest.fixture(scope="module")
def company() -> Iterator[Warm]:
    """A company whose copy lacks some versions."""
    with opened(Warm) as company:
        company.maps()
        assert publishes(company, "v1.0.0") == {CREATED}
        company.copy()
        assert publishes(company, "v1.1.0") == {CREATED}
        yield company


def add(company: Warm, user: str, shelf: str = "alpha") -> None:
    """Adds a user who reads, at the first host."""
    company.desk.add(company.first, user, shelf, "read")


def remove(company: Warm, user: str) -> None:
    company.first.does(f"goshelf-front remove {user}")


class Removed(NamedTuple):
    """What a user gets at both hosts who comes and goes: before the front came and then, and once removed, by the
    first host, of what the copy lacks and of what it has, and when the front came."""

    new: list[int]
    known: list[int]
    at_first: int
    lacked: int
    copied: int
    gone: list[int]


@pytest.fixture(scope="module")
def removed(company: Warm) -> Removed:
    add(company, "tom")
    company.copy()
    new = company.statuses("tom", ZIP)
    company.maps()
    known = company.statuses("tom", ZIP)
    remove(company, "tom")
    at_first = company.desk.status(FIRST, "tom", ZIP)
    lacked, copied = (company.desk.status(WARM, "tom", target) for target in (LIST, ZIP))
    company.maps()
    gone = [company.desk.status(WARM, "tom", target) for target in (ZIP, LIST)]
    return Removed(new, known, at_first, lacked, copied, gone)


def test_a_new_user_is_known_once_the_front_came(removed: Removed) -> None:
    assert removed.new == [200, 401]
    assert removed.known == [200, 200]


def test_a_removed_user_is_refused_by_the_first_host(removed: Removed) -> None:
    assert removed.at_first == 401
    # also for what the copy lacks
    assert removed.lacked == 401


def test_a_removed_user_gets_what_the_copy_has_until_the_front_comes(removed: Removed) -> None:
    assert removed.copied == 200
    assert removed.gone == [401, 401]


def test_a_user_is_removed_while_the_warm_host_is_cut_off(company: Warm) -> None:
    warm = company.warm
    add(company, "tim")
    company.copy()
    company.maps()
    with warm.cut_off():
        remove(company, "tim")
        status, printed, _ = warm.sh("goshelf-warm front")
    assert status == 1 and "no whole copy of the first host's front came" in printed
    # until it is back and the front comes, the copy answers
    wait_until(lambda: company.desk.status(WARM, "tim", ZIP) == 200)
    company.maps()
    assert company.desk.status(WARM, "tim", ZIP) == 401


def test_a_front_that_nginx_refuses_is_named_and_the_old_one_stays(company: Warm) -> None:
    first, warm = company.first, company.warm
    good = first.read(USERS)
    assert warm.read(USERS) == good
    with first.edited(USERS, (good, good + "half a line")):
        status, printed, _ = warm.sh("goshelf-warm front")
    said = "goshelf-warm: nginx refuses the first host's front: the old one stays\n"
    assert (status, printed) == (1, said)
    assert warm.read(USERS) == good
    assert warm.sh("nginx -q -t")[0] == 0
    assert sorted(os.listdir(f"{warm.folder}/{FRONT}")) == FILES
    # the same files again
    assert warm.sh("goshelf-warm front") == (0, "", "")


def test_the_old_front_stays_where_no_nginx_runs(company: Warm) -> None:
    warm = company.warm
    good = warm.read(USERS)
    warm.stop_nginx()
    try:
        add(company, "tia")
        status, printed, _ = warm.sh("goshelf-warm front")
    finally:
        warm.start_nginx()
    assert (status, printed) == (1, "goshelf-warm: nginx does not run: the old front stays\n")
    assert warm.read(USERS) == good
    # so the next run brings the new one
    company.maps()
    company.copy()
    assert company.desk.status(WARM, "tia", ZIP) == 200
    remove(company, "tia")
    company.maps()
    assert company.wrong_answers() == []


def test_a_change_of_the_paths_alone_comes_too(company: Warm) -> None:
    first, warm = company.first, company.warm
    with first.edited(PATHS, ("{", '{"golang.org/x/mod": ["alpha"], ')):
        ran, text = warm.sh("goshelf-warm front"), first.read(PATHS)
        assert (ran, warm.read(PATHS)) == ((0, "", ""), text)
    company.maps()


def test_the_store_alone_revokes_a_key(company: Warm) -> None:
    """The copy answers it until the front has heard of it, or the next copy."""
    first, warm = company.first, company.warm
    add(company, "ben", "beta")
    company.maps()
    wanted = company.answers(("ben",))
    company.copy()
    key = fingerprint(company.key("ben"))
    first.does(f"goshelf key-revoke --control /run/goshelf/control --fingerprint {key}")
    # the copy's files as before, all else a 404
    found = {asking: company.desk.ask(WARM, *asking) for asking in wanted}
    unlike = [asking for asking, answer in found.items() if answer != wanted[asking]]
    assert [asking for asking in unlike if is_file(asking, wanted[asking]) or found[asking][0] != 404] == []
    # with a copy made since, what the first host answers
    warm.does("goshelf-warm store")
    assert company.differing({asking: company.desk.ask(FIRST, *asking) for asking in wanted}, (WARM,)) == []
    first.does("goshelf-front sync")
    company.maps()
    wait_until(lambda: company.desk.status(WARM, "ben", LIST) in (401, 429), 2)
    assert {company.desk.status(WARM, "ben", target) for _, target in wanted} <= {401, 429}
    # a new key, which the copy lacks, and then has
    add(company, "ben", "beta")
    company.maps()
    assert company.wrong_answers(users=(*READERS, "ben")) == []
    company.copy()
    assert company.wrong_answers(users=(*READERS, "ben")) == []
