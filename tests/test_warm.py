"""deploy/warm, broken and healed: a host that answers from a copy of the store.

Every answer is compared with the first host's store. The hosts are network namespaces (lib/hosts.py). The files of
deploy/ run as they are, set up by the commands of the pages. test_warm_lost.py has the first host lost.
"""

import itertools
import os
import shlex
import shutil
import subprocess
import time
from collections.abc import Iterator
from typing import NamedTuple

import pytest

from lib.company import CONF, DESK, FIRST, KEPT, Asking, Wrong, ask_over_reloads, is_file
from lib.hosts import Answer
from lib.modules import module
from lib.pages import block
from lib.scratch import opened, read, write
from lib.warm import BOTH, COPY, ELSEWHERE, HOME, NOT_WHOLE, PAGE, SECOND_WAY, WARM, Warm, publishes, store_of

pytestmark = [
    pytest.mark.needs(
        "curl", "flock", "ip", "nginx", "nginx-js", "nginx-stream", "openssl", "pgrep", "setpriv", "sqlite3"
    ),
    pytest.mark.root,
]

CREATED = (201, b"published\n")
ZIP, LIST = "/example.com/lib/@v/v1.0.0.zip", "/example.com/lib/@v/list"
# the lines of the page that fetch the front and make a copy, and have cron do so
FETCH = block("sh", "root $(command -v goshelf-warm) store", PAGE)
# versions that the tests publish after a copy
LATER = (f"v1.1.{number}" for number in itertools.count())


class First(NamedTuple):
    """What came before there was a copy, and of the first one."""

    publishes: set[tuple[int, bytes]]
    named_like_files: set[tuple[int, bytes]]
    differing: list[Wrong]
    run: tuple[int, str, str]
    rights: dict[str, int]
    left: list[list[str]]


@pytest.fixture(scope="module")
def new_company() -> Iterator[Warm]:
    with opened(Warm) as company:
        yield company


@pytest.fixture(scope="module")
def first(new_company: Warm) -> First:
    company, warm = new_company, new_company.warm
    company.maps(FETCH.partition("\n")[0])
    published = publishes(company, "v1.0.0")
    named_like_files = {company.put("pub", "example.com/lib", f"v1.0.0-rc.{kind}") for kind in ("zip", "mod", "info")}
    differing = company.wrong_answers()
    run = warm.sh(FETCH)
    private = (f"{HOME}/shelves.db", f"{HOME}/versions", "etc/nginx/goshelf/goshelf.json")
    rights = {name: os.stat(f"{warm.folder}/{name}").st_mode & 0o77 for name in private}
    left = [sorted(os.listdir(f"{company.first.folder}/{name}")) for name in (HOME, "var/backups/goshelf")]
    return First(published, named_like_files, differing, run, rights, left)


@pytest.fixture(scope="module")
def company(new_company: Warm, first: First) -> Warm:
    """A company whose warm host has a copy."""
    return new_company


def test_the_warm_host_takes_publishes_before_there_is_a_copy(first: First) -> None:
    assert first.publishes == {CREATED}


def test_a_version_may_be_named_like_a_file(first: First) -> None:
    assert first.named_like_files == {CREATED}


def test_the_first_host_answers_before_there_is_a_copy(first: First) -> None:
    assert first.differing == []


def test_a_copy_comes_without_a_word(first: First) -> None:
    assert first.run == (0, "", "")


def test_only_its_owner_may_read_a_copy(first: First) -> None:
    assert set(first.rights.values()) == {0}, first.rights


def test_a_copy_leaves_nothing_at_the_first_host(first: First) -> None:
    assert first.left == [["shelves.db", "shelves.db-reserve", "shelves.db-wal"], []]


def cron_lines(company: Warm) -> list[list[str]]:
    return [line.split() for line in company.warm.read("etc/cron.d/goshelf-warm").splitlines()]


def test_cron_has_a_line_for_the_store_and_one_for_the_front(company: Warm) -> None:
    script = f"{company.warm.folder}/usr/local/bin/goshelf-warm"
    assert [line[5:] for line in cron_lines(company)] == [["root", script, "store"], ["root", script, "front"]]


@pytest.mark.parametrize(("number", "word"), enumerate(["store", "front"]), ids=["store", "front"])
def test_cron_runs_without_a_word(company: Warm, number: int, word: str) -> None:
    line = cron_lines(company)[number]
    assert line[7] == word
    words = ["ip", "netns", "exec", company.warm.namespace, "sh", "-c", " ".join(line[6:])]
    env = {"PATH": "/usr/sbin:/usr/bin:/bin"}
    ran = subprocess.run(words, env=env, cwd="/", capture_output=True, text=True, timeout=60)
    assert (ran.returncode, ran.stdout, ran.stderr) == (0, "", "")


def test_files_of_a_copy_come_without_the_first_host(company: Warm) -> None:
    company.copy()
    wanted = company.answers()
    assert company.differing(wanted) == []
    files = {asking: answer for asking, answer in wanted.items() if is_file(asking, answer)}
    begun = len(company.lines(FIRST))
    assert len(files) > 50
    assert company.differing(files, (WARM,)) == []
    fields = [line.split() for line in company.lines(FIRST, begun)]
    assert [line for line in fields if KEPT.search(line[5]) and line[6] == "200"] == []


@pytest.mark.parametrize("target", [ZIP, LIST])
def test_a_stranger_gets_nothing(company: Warm, target: str) -> None:
    assert company.desk.status(WARM, None, target) == 401


@pytest.mark.parametrize("target", [ZIP, "/x"])
def test_a_user_with_another_password_gets_nothing(company: Warm, target: str) -> None:
    assert company.desk.ask(WARM, None, target, headers={"Authorization": "Basic YW5uOng="})[0] == 401


def test_a_head_is_answered_as_by_the_first_host(company: Warm) -> None:
    by_first, by_warm = (company.desk.ask(host, "ann", ZIP, "HEAD") for host in company.fronts)
    assert by_warm == by_first


@pytest.mark.parametrize("method", ["PUT", "POST", "DELETE"])
def test_other_methods_for_a_file_are_answered_as_by_the_first_host(company: Warm, method: str) -> None:
    by_first, by_warm = (company.desk.ask(host, "pub", ZIP, method, b"x") for host in company.fronts)
    assert by_warm == by_first


def test_health_is_that_of_the_copy(company: Warm) -> None:
    assert company.desk.ask(WARM, None, "/healthz")[::2] == (200, b"ok\n")


class Old(NamedTuple):
    """A copy that lacks what was published since: its files, all that the store answers, and the copy's bytes."""

    copied: set[Asking]
    wanted: dict[Asking, Answer]
    store: tuple[str, bytes]


@pytest.fixture
def old(company: Warm) -> Old:
    company.copy()
    copied = company.files()
    assert publishes(company, next(LATER)) == {CREATED}
    return Old(copied, company.answers(), store_of(company.warm))


def test_what_an_old_copy_lacks_comes_from_the_first_host(company: Warm, old: Old) -> None:
    # other bytes of a version that the copy has
    assert company.put("pub", "example.com/lib", "v1.0.0")[0] == 409
    assert company.put("ann", "example.com/lib", "v2.0.0")[0] == 403
    assert company.differing(old.wanted) == []
    assert store_of(company.warm) == old.store


def test_the_first_goshelf_is_stopped(company: Warm, old: Old) -> None:
    company.first.does("systemctl stop goshelf")
    try:
        assert company.alone(old.wanted, old.copied, old.wanted) == []
        assert company.put("pub", "example.com/lib", "v1.2.0")[0] == 502
        # also one whose name ends like a file's
        assert company.put("pub", "example.com/lib", "v1.2.0-rc.zip")[0] == 502
        company.first.stop_nginx()
        try:
            assert company.alone(old.wanted, old.copied) == []
            assert company.statuses(None, "/healthz") == [0, 200]
        finally:
            company.first.start_nginx()
    finally:
        company.first.does("systemctl start goshelf")
    company.back()
    assert company.wrong_answers() == []
    assert store_of(company.warm) == old.store


def test_the_first_host_is_cut_off(company: Warm, old: Old) -> None:
    with company.first.cut_off():
        begun = time.monotonic()
        assert company.alone(old.wanted, old.copied) == []
        assert time.monotonic() - begun < 60
        status, printed, _ = company.warm.sh("goshelf-warm store")
        assert status == 1 and NOT_WHOLE in printed
        assert company.put("pub", "example.com/lib", "v1.2.0")[0] == 502
    company.back()
    assert company.wrong_answers() == []
    # what failed left nothing
    assert company.own("ann", "/example.com/lib/@v/v1.2.0.mod")[0] == 404
    assert store_of(company.warm) == old.store


def test_the_goshelf_of_the_warm_host_is_stopped(company: Warm) -> None:
    company.warm.does("systemctl stop goshelf")
    try:
        assert company.wrong_answers() == []
        assert company.desk.status(WARM, None, "/healthz") == 502
    finally:
        company.warm.does("systemctl start goshelf")
    assert company.wrong_answers() == []


def test_the_nginx_of_the_first_host_reloads(company: Warm) -> None:
    assert ask_over_reloads(company, WARM) == [(404, b"not found\n")]


# a module that needs one of a shelf and one that is public
APP = """
mkdir -p app
cd app
printf 'module app\\n\\ngo 1.17\\n\\nrequire example.com/greet v1.0.0\\nrequire golang.example/tool v1.0.0\\n' > go.mod
go mod download all
"""


@pytest.fixture(scope="module")
def go_settings(company: Warm) -> dict[str, str]:
    """The settings of the go command at the desk: those of the page, and a folder for what is public."""
    path, version, gomod, zipped = module("example.com/greet", "v1.0.0")
    lengths = {"Mod-Length": str(len(gomod))}
    assert company.desk.ask(WARM, "pub", f"/{path}/@v/{version}", "PUT", gomod + zipped, lengths)[0] == 201
    company.copy()
    desk = company.hosts[DESK]
    public = write_proxy(f"{desk.folder}/public", *module("golang.example/tool", "v1.0.0"))
    desk.write("root/.netrc", f"machine {BOTH} login ann password {company.desk.passwords['ann']}\n")
    certificates = "".join(company.hosts[name].read("etc/ssl/goshelf.pem") for name in company.fronts)
    write({f"{desk.folder}/etc/ssl/hosts.pem": certificates})
    proxies = shlex.split(block("sh", f"GOPROXY=https://{BOTH}", PAGE))[-1].removeprefix("GOPROXY=")
    return {
        "GOPROXY": f"{proxies},file://{public}",
        "GONOSUMDB": "*",
        "GOFLAGS": "-modcacherw",
        "GOTOOLCHAIN": "local",
        "GOCACHE": f"{desk.folder}/gocache",
        "SSL_CERT_FILE": f"{desk.folder}/etc/ssl/hosts.pem",
    }


def write_proxy(folder: str, path: str, version: str, gomod: bytes, zipped: bytes) -> str:
    """Writes a folder that serves one module as a proxy, and returns its name."""
    place = f"{folder}/{path}/@v"
    os.makedirs(place)
    info = f'{{"Version":"{version}"}}'
    files = {"list": f"{version}\n", f"{version}.info": info, f"{version}.mod": gomod, f"{version}.zip": zipped}
    write({f"{place}/{name}": content for name, content in files.items()})
    return folder


@pytest.mark.needs("go")
@pytest.mark.parametrize(("down", "up"), [(FIRST, WARM), (WARM, FIRST)], ids=["first is down", "warm is down"])
def test_the_go_command_builds_while_a_host_is_down(
    company: Warm, go_settings: dict[str, str], down: str, up: str
) -> None:
    """The name of both leads to the one that is down first."""
    desk, names = company.hosts[DESK], f"/etc/netns/{company.hosts[DESK].namespace}/hosts"
    before, cache = read(names).decode(), f"{desk.folder}/go-{down}"
    write({names: before + "".join(f"{company.hosts[host].address} {BOTH}\n" for host in (down, up))})
    company.hosts[down].stop_nginx()
    try:
        download = desk.sh(APP, GOPATH=cache, **go_settings)
        versions = desk.sh("go list -m -versions example.com/greet", GOPATH=cache, **go_settings)
    finally:
        company.hosts[down].start_nginx()
        write({names: before})
        company.back()
    assert download[0] == 0, download
    for path in ("example.com/greet", "golang.example/tool"):
        assert os.path.exists(f"{cache}/pkg/mod/cache/download/{path}/@v/v1.0.0.zip")
    status, printed, errors = versions
    wanted = (1, "", True) if down == FIRST else (0, "example.com/greet v1.0.0\n", False)
    assert (status, printed, "502" in errors) == wanted


@pytest.fixture
def first_way(company: Warm) -> Iterator[None]:
    """The warm host asks the public proxy itself: here nobody, so that its text shows who asked."""
    with company.warm.edited(CONF, SECOND_WAY[::-1]):
        company.warm.reload()
        yield
    company.warm.reload()


def test_a_public_module_comes_without_the_first_host(company: Warm, first_way: None) -> None:
    begun = len(company.lines(FIRST))
    answer = company.desk.ask(WARM, "ann", ELSEWHERE[0])[::2]
    assert answer == (502, b"the public proxy does not answer: try again in a minute\n")
    assert [line for line in company.lines(FIRST, begun) if ELSEWHERE[0] in line] == []


def test_a_user_who_reads_may_not_publish(company: Warm, first_way: None) -> None:
    target = "/example.com/own/@v/v8.0.0"
    assert company.desk.ask(WARM, "bob", target, "PUT", b"x", {"Mod-Length": "1"})[0] == 403


def test_nobody_may_publish_a_path_that_is_not_the_companys(company: Warm, first_way: None) -> None:
    target = ELSEWHERE[0].removesuffix(".mod")
    answer = company.desk.ask(WARM, "pub", target, "PUT", b"x", {"Mod-Length": "1"})[::2]
    assert answer == (403, b"not your path\n")


def test_a_backup_of_the_first_store_is_put_back(company: Warm) -> None:
    """The copy has what the store then lacks, until the command of the page."""
    first, target = company.first, "/example.com/lib/@v/v1.90.0.zip"
    first.does("systemctl stop goshelf")
    for name in COPY:
        shutil.copyfile(f"{first.folder}/{HOME}/{name}", f"{first.folder}/root/{name}")
    first.does("systemctl start goshelf")
    assert company.put("pub", "example.com/lib", "v1.90.0")[0] == 201
    company.copy()
    first.does("systemctl stop goshelf")
    for name in COPY:
        shutil.copyfile(f"{first.folder}/root/{name}", f"{first.folder}/{HOME}/{name}")
    first.does("systemctl start goshelf")
    company.published -= {("example.com/lib", "v1.90.0")}
    first.does("goshelf-front uncache")
    first.reload()
    assert company.statuses("ann", target) == [404, 200]
    # the next copy is refused, and it says why
    status, printed, _ = company.warm.sh("goshelf-warm store")
    assert status == 1 and "alpha|example.com/lib|v1.90.0|" in printed
    assert company.warm.sh(block("sh", "rm /var/lib/goshelf/versions", PAGE)) == (0, "", "")
    assert company.statuses("ann", target) == [404, 404]
    assert company.wrong_answers() == []
