"""What goshelf-forget takes out stays out: through nginx nobody gets it or publishes it again, from any store.

A machine in a folder (lib/machine.py) has goshelf behind nginx, by the page's commands.
"""

import urllib.request
from collections.abc import Iterator
from typing import NamedTuple

import pytest

from lib.behind_nginx import Module
from lib.front import Front, LONG, Reply, UNUSED, ZIP
from lib.scratch import opened

pytestmark = [pytest.mark.needs("nginx", "nginx-js", "nginx-stream", "openssl", "sqlite3"), pytest.mark.root]

CREATED, REFUSED = (201, b"published\n"), (403, b"taken out\n")
NGINX, LISTED = "/etc/nginx/goshelf", "taken out, and refused by nginx: "
COMMON = "commonkey0000001"
FILES = ("v1.0.0.info", "v1.0.0.mod", "v1.0.0.zip")
# targets that goshelf reads as that of a file of example.com/lib
AT = "/example.com/lib/@v"
ESCAPED = [f"{AT}/{name}" for name in ("v1.0.0.zi%70", "v1.0.0%2ezip", "v1%2e0.0.mod", "v1.0.0.in%66o")]
ESCAPED += [f"{AT.replace(old, new)}/v1.0.0.zip" for old, new in (("lib", "li%62"), ("@", "%40"), ("/@v", "%2f@v"))]


@pytest.fixture(scope="module")
def front() -> Iterator[Front]:
    with opened(Front) as front:
        yield front


def forget(front: Front, shelf: str, module: str, version: str) -> tuple[int, str, str]:
    return front.machine.sh(f"goshelf-forget --yes {shelf} {module} {version}")


class TakenOut(NamedTuple):
    """A version that two teams published and one had taken out: what was said of it, and what came of that."""

    before: set[Reply]
    backup: tuple[int, str, str]
    run: tuple[int, str, str]
    files: list[Reply]
    others: Reply
    of_other_team: Reply
    next_version: Reply
    doctor: tuple[int, str, str]


@pytest.fixture(scope="module")
def lib(front: Front) -> Module:
    return Module(front, "lib")


@pytest.fixture(scope="module")
def taken_out(front: Front, lib: Module) -> TakenOut:
    assert lib.put("v1.0.0", ZIP) == CREATED
    assert lib.put("v1.0.0", b"other", "bob") == CREATED
    backup = front.machine.sh("goshelf-backup")
    before = {lib.get("v1.0.0.zip") for _ in range(3)}
    run = forget(front, "alpha", lib.path, "v1.0.0")
    files, others = [lib.get(file) for file in FILES], lib.put("v1.0.0", b"new")
    of_other_team, next_version = lib.get("v1.0.0.zip", "bob"), lib.put("v1.0.1")
    doctor = front.machine.sh("goshelf-doctor")
    return TakenOut(before, backup, run, files, others, of_other_team, next_version, doctor)


def test_a_version_is_read_and_cached_before(taken_out: TakenOut) -> None:
    assert taken_out.before == {(200, ZIP)}
    assert taken_out.backup == (0, "", "")


def test_a_version_is_taken_out(taken_out: TakenOut) -> None:
    status, printed, errors = taken_out.run
    assert status == 0 and "NOT DONE" not in printed, errors


def test_who_read_it_gets_a_403(taken_out: TakenOut) -> None:
    assert taken_out.files == [REFUSED] * len(FILES)


def test_other_bytes_are_not_published_as_it(taken_out: TakenOut) -> None:
    assert taken_out.others == REFUSED


def test_the_other_team_has_its_own(taken_out: TakenOut) -> None:
    assert taken_out.of_other_team == (200, b"other")


def test_the_next_version_is_published(taken_out: TakenOut) -> None:
    assert taken_out.next_version == CREATED


def test_the_doctor_lists_it(taken_out: TakenOut) -> None:
    status, printed, errors = taken_out.doctor
    *listed, last = printed.splitlines()
    assert status == 0, errors
    assert [line for line in listed if "example.com/lib " in line] == [f"{LISTED}example.com/lib v1.0.0 alpha"]
    assert [line for line in listed if not line.startswith(LISTED)] == []
    assert last.startswith("no cause is found: ")


@pytest.fixture(scope="module")
def restored(front: Front, taken_out: TakenOut) -> tuple[int, str, str]:
    """A backup that has the version is restored."""
    front.machine.does("mv /var/backups/goshelf/aside-*/2* /var/backups/goshelf/")
    return front.machine.sh("goshelf-restore --yes last")


def test_a_backup_that_has_it_is_restored(front: Front, restored: tuple[int, str, str]) -> None:
    assert restored[0] == 0, restored
    with urllib.request.urlopen(f"http://127.0.0.1:{front.machine.behind}/k/{UNUSED}{AT}/v1.0.0.zip") as reply:
        assert reply.read() == ZIP


@pytest.mark.usefixtures("restored")
def test_who_read_it_gets_a_403_from_another_store(lib: Module) -> None:
    assert [lib.get(file) for file in FILES] == [REFUSED] * len(FILES)


@pytest.mark.usefixtures("restored")
@pytest.mark.parametrize("target", ESCAPED)
def test_an_escape_gets_a_403_from_another_store(front: Front, target: str) -> None:
    assert front.get(target) == REFUSED


@pytest.mark.usefixtures("restored")
def test_nobody_publishes_it_to_another_store(lib: Module) -> None:
    assert lib.put("v1.0.0", b"new") == REFUSED
    assert lib.get("v1.0.0.zip", "bob") == (200, b"other")


class OfCommon(NamedTuple):
    """Versions of common that were taken out, one of which a team had published before: what was said, who gets what,
    and what is listed."""

    replies: list[int]
    runs: list[tuple[int, str, str]]
    by_all: list[Reply]
    by_team: Reply
    listed: list[str]


def publish_to_common(module: Module, version: str) -> int:
    """Publishes at goshelf itself, and returns the status."""
    url = f"http://127.0.0.1:{module.front.machine.behind}/k/{COMMON}{module.at}/{version}"
    request = urllib.request.Request(url, module.gomod + b"c", module.lengths, method="PUT")
    with urllib.request.urlopen(request) as reply:
        return reply.status


@pytest.fixture(scope="module")
def of_common(front: Front) -> OfCommon:
    module = Module(front, "shared")
    front.machine.does(f"goshelf key-add --control /run/goshelf/control --shelf common --key {COMMON}")
    replies = [module.put("v1.7.0", b"own", "bob")[0]]
    replies += [publish_to_common(module, version) for version in ("v1.7.0", "v1.8.0")]
    runs = [forget(front, "common", module.path, version) for version in ("v1.7.0", "v1.8.0")]
    by_all = [module.get("v1.8.0.mod", user) for user in ("ann", "bob")]
    lines = front.machine.does("goshelf-front taken-out").splitlines()
    listed = [line for line in lines if line.startswith(module.path)]
    return OfCommon(replies, runs, by_all, module.get("v1.7.0.zip", "bob"), listed)


def test_versions_of_common_are_taken_out(of_common: OfCommon) -> None:
    assert of_common.replies == [201] * 3
    assert [status for status, _, _ in of_common.runs] == [0, 0], of_common.runs


def test_no_team_gets_what_all_saw(of_common: OfCommon) -> None:
    assert of_common.by_all == [REFUSED] * 2


def test_what_is_refused_of_common_is_listed(of_common: OfCommon) -> None:
    """To those who saw common's bytes, and to all."""
    assert of_common.listed == [f"example.com/shared v1.7.0 alpha common {LONG}", "example.com/shared v1.8.0"]


def test_who_never_saw_the_bytes_of_common_keeps_its_own(of_common: OfCommon) -> None:
    assert of_common.by_team == (200, b"own")


def test_a_refusal_that_cannot_be_written_is_left_to_do(front: Front) -> None:
    """The command ends with 1 and names what is left to do, which then does it."""
    machine, module = front.machine, Module(front, "unwritten")
    assert module.put("v1.9.0") == CREATED
    machine.does(f"cd {NGINX}; touch taken-out; mv taken-out aside; mkdir taken-out")
    status, printed, errors = forget(front, "alpha", module.path, "v1.9.0")
    machine.does(f"cd {NGINX}; rmdir taken-out; mv aside taken-out")
    order = f"goshelf-front take-out {module.path} v1.9.0 alpha"
    assert status == 1, errors
    assert f"- NOT DONE: Other bytes may be published as it: {order}\n" in printed
    machine.does(order)
    assert module.put("v1.9.0", b"new") == REFUSED
