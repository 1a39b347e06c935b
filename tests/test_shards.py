"""tools/shards: two goshelfs behind one nginx, compared with one that has it all, and made of it.

It has missed publishes, two publishers, and files that are wrong.
"""

import contextlib
import os
import re
import subprocess
from collections.abc import Iterator
from concurrent.futures import ThreadPoolExecutor
from typing import NamedTuple

import pytest

from lib.pages import block
from lib.ports import wait_until
from lib.program import ROOT, done, run
from lib.scratch import opened, read, write
from lib.shards import CONF, FRONT, PSEUDO, RIGHTS, SEED, SHELVES, TEAMS, TOOL, Asking, Company, Ending, Goshelf
from lib.shards import Reply, add, add_keys, front, key, run_tool, write_keys, write_shards

pytestmark = [pytest.mark.needs("nginx", "nginx-js", "nginx-stream", "openssl"), pytest.mark.root]

RELEASES = ("v1.0.0", "v1.1.0-RC.1")
CREATED = (201, b"published\n")
BOTH = (CREATED, CREATED)
# a file of shards, and what is said of it; keys are those of GOOD
WRONG_FILES = {
    "": "it names no team",
    "shard first 127.0.0.1:1\n": "it names no team",
    "team alpha\n": ":1: no shard is named above",
    "shard first 127.0.0.1:1\nteam alpha\nshard second 127.0.0.1:2\nteam alpha\n": ":4: alpha is also at ",
    "shard first 127.0.0.1:1\nteam alpha\ngroup big beta alpha\n": ":3: alpha is also at ",
    "shard first 127.0.0.1:1\nteam alpha\nshard first 127.0.0.1:2\nteam beta\n": "first is the name of two shards",
    "shard first 127.0.0.1:1\nteam alpha\nshard second 127.0.0.1:1\nteam beta\n": (
        "127.0.0.1:1 is the address of two shards"
    ),
    "shard first 127.0.0.1:1\nteam alpha\nshard second 127.0.0.1:2\n": "second has no team",
    "shard first 127.0.0.1:1\nteam common\n": ":2: every shard has common",
    "shard first 127.0.0.1:1\nteam alpha beta\n": ":2: neither `shard NAME HOST:PORT`",
    "shard first 127.0.0.1\nteam alpha\n": ":1: neither `shard NAME HOST:PORT`",
    "shard first 127.0.0.1:1; }\nteam alpha\n": ":1: neither `shard NAME HOST:PORT`",
    "shard first 127.0.0.1:1\nteam Alpha;\n": ":2: neither `shard NAME HOST:PORT`",
    "shard first 127.0.0.1:1\nteam alpha\nteam omega\n": 'it has no line for "omega read"',
    "shard first 127.0.0.1:1\nteam alpha\nteam beta\ngroup platform gamma\n": "delta is at no shard",
}
# a file of shards that has other teams or groups than the store, and what is said of it
ALL = "team alpha\nteam beta\ngroup platform gamma\nteam delta\n"
NOT_THE_STORE = {
    "team alpha\n": [f"no line has {shelf}, which the store has" for shelf in ("beta", "delta", "gamma", "platform")],
    f"{ALL}team omega\n": ["the store has no team or group omega"],
    ALL.replace("alpha", "alhpa"): ["no line has alpha, which the store has", "the store has no team or group alhpa"],
    "group platform\n": ["a has no team, and goshelf extract makes no store without one"],
    ALL.replace("platform gamma\nteam", "platform gamma"): [
        "delta is in no group in the store, and in the group platform here"],
    f"{ALL.replace('platform gamma', 'platform')}shard b 127.0.0.1:2\nteam gamma\n": [
        "gamma is in the group platform in the store, and a team in no group here"],
    ALL.replace("group platform gamma", "team platform\nteam gamma"): [
        "platform is a group in the store, and a team in no group here",
        "gamma is in the group platform in the store, and a team in no group here"],
}  # fmt: skip
# words of the tool that are bad usage, beside a good file and its keys
BAD_WORDS = ("", "send", "conf", "make good", "send good", "other good keys")


def on_one_line(text: str) -> str:
    """Returns the name of a row that is a text of more lines."""
    return text.strip().replace("\n", ", ") or "nothing"


class Sent(NamedTuple):
    """What came of the first publishes: to each shelf, then to what a group and its team have, and of sending it on."""

    published: dict[tuple[str, str], tuple[Reply, Reply]]
    chained: dict[tuple[str, str], tuple[Reply, Reply]]
    late: list[tuple[Asking, int, int]]
    checks: list[Ending]
    sends: list[Ending]


def publish_and_send(company: Company) -> Sent:
    """Each shelf publishes, and what common published is sent on."""
    published, chained = {}, {}
    for shelf in SHELVES:
        for version in RELEASES:
            published[shelf, version] = company.put_both(shelf, f"example.com/{shelf}", version)
            if shelf in ("platform", "gamma"):
                chained[shelf, version] = company.put_both(shelf, "example.com/chain", version)
    late, checks = company.differing(), [company.tool("check"), company.tool("check")]
    sends = [company.tool("send"), company.tool("send")]
    return Sent(published, chained, late, [*checks, company.tool("check")], sends)


@pytest.fixture(scope="module")
def new_company() -> Iterator[Company]:
    with opened(Company) as company:
        yield company


@pytest.fixture(scope="module")
def sent(new_company: Company) -> Sent:
    return publish_and_send(new_company)


@pytest.fixture(scope="module")
def company(new_company: Company, sent: Sent) -> Company:
    """A company whose shelves have published, and whose shards agree."""
    return new_company


@contextlib.contextmanager
def stopped(goshelf: Goshelf) -> Iterator[None]:
    """Stops a goshelf until the block ends."""
    goshelf.stop()
    try:
        yield
    finally:
        goshelf.start()


def send(company: Company, *words: str) -> str:
    """Sends on what common published, and returns the closing line."""
    return company.tool("send", *words)[1][-1]


def status(company: Company, shelf: str, target: str, headers: dict[str, str] | None = None) -> int:
    """Returns the status that nginx answers to the user of a shelf."""
    return company.ask("GET", shelf, target, headers=headers)[0]


@pytest.mark.parametrize("version", RELEASES)
@pytest.mark.parametrize("shelf", SHELVES)
def test_each_shelf_publishes(sent: Sent, shelf: str, version: str) -> None:
    assert sent.published[shelf, version] == BOTH


@pytest.mark.parametrize("version", RELEASES)
def test_a_group_publishes_and_its_team_does_not(sent: Sent, version: str) -> None:
    assert sent.chained["platform", version] == BOTH
    through_nginx, at_one = sent.chained["gamma", version]
    assert (through_nginx, at_one[0]) == (at_one, 409)


def test_the_second_shard_lacks_common_before_it_is_sent_on(sent: Sent) -> None:
    late = [wrong for wrong in sent.late if not wrong[0][1].endswith(("/@v/list", "/@latest"))]
    assert {asking[0] for asking, _, _ in late} == set(TEAMS["second"]), late


def test_check_names_what_is_missing(sent: Sent) -> None:
    code, lines, _ = sent.checks[0]
    assert (code, lines[-1]) == (1, "2 compared, 2 wrong")
    assert len([line for line in lines if " lacks " in line]) == 2


def test_check_sends_nothing(sent: Sent) -> None:
    assert sent.checks[1] == sent.checks[0]


def test_send_sends_once(sent: Sent) -> None:
    assert sent.sends[0][1][-1] == "2 sent, 0 wrong"
    assert sent.sends[1] == (0, ["0 sent, 0 wrong"], "")


def test_all_shards_agree_then(sent: Sent) -> None:
    assert sent.checks[2] == (0, ["2 compared, 0 wrong"], "")


def test_no_answer_differs_then(sent: Sent, company: Company) -> None:
    assert company.differing() == []


def test_a_shard_that_is_down_gets_later_what_it_missed(company: Company) -> None:
    with stopped(company.shards["second"]):
        assert company.put_both("common", "example.com/missed", "v1.2.0") == BOTH
        code, lines, _ = company.tool("send")
        assert code == 1 and lines[0].startswith("second at ")
        assert lines[-1] == "0 sent, 1 wrong"
        assert [status(company, shelf, "/-/modules") for shelf in ("gamma", "alpha")] == [502, 200]
    assert send(company) == "1 sent, 0 wrong"
    assert company.differing() == []


def test_health_is_that_of_the_shard_of_the_login(company: Company) -> None:
    with stopped(company.shards["second"]):
        assert [status(company, shelf, "/healthz") for shelf in ("gamma", "alpha")] == [502, 200]
        # without a login, that of the first
        assert status(company, "", "/healthz", headers={"Authorization": ""}) == 200


def test_send_names_a_first_shard_that_is_down(company: Company) -> None:
    with stopped(company.shards["first"]):
        code, _, errors = company.tool("send")
    assert code == 1 and "first at " in errors


def test_one_of_two_publishers_is_first(company: Company) -> None:
    path, contents = "example.com/contested", [SEED.randbytes(200_000) for _ in range(2)]
    for version in (f"v1.10.{number}" for number in range(5)):
        with ThreadPoolExecutor(2) as pool:
            published = pool.map(lambda content: company.put("common", path, version, content)[0], contents)
            codes = list(published)
        assert sorted(codes) == [201, 409]
        assert company.put("common", path, version, contents[codes.index(201)], company.one) == CREATED
        company.published.append((path, version))
    assert send(company) == "5 sent, 0 wrong"
    assert company.differing() == []


def test_a_pseudo_version_is_sent_on_by_an_inventory(company: Company) -> None:
    assert company.put_both("common", "example.com/unlisted", PSEUDO) == BOTH
    assert send(company) == "0 sent, 0 wrong"
    first, inventory = company.shards["first"], f"{company.folder}/inventory.csv"
    with stopped(first):
        write({inventory: run(["inventory", "--db", first.store, "--key", key("common")])[1]})
    assert send(company, "--inventory", inventory) == "1 sent, 0 wrong"
    assert company.tool("check", "--inventory", inventory)[0] == 0
    assert company.differing() == []


def test_a_file_that_is_no_inventory_is_refused(company: Company) -> None:
    code, _, errors = company.tool("send", "--inventory", company.file)
    assert code == 2 and "not an inventory" in errors


def test_a_shard_without_the_key_of_common_is_named(company: Company) -> None:
    second = company.shards["second"]
    with stopped(second):
        done("key-revoke", "--db", second.store, "--key", key("common"))
    try:
        code, lines, _ = company.tool("send")
    finally:
        with stopped(second):
            done("key-add", "--db", second.store, "--shelf", "common", "--key", key("common"))
    assert (code, lines[0]) == (1, "second does not know the key that publishes to common")


class Made(NamedTuple):
    """Stores for the shards, made of the one that has it all, what `make` said, and the answers of the one then."""

    folder: str
    first: Ending
    again: Ending
    wanted: dict[str, dict[Asking, Reply]]


@pytest.fixture(scope="module")
def made(company: Company) -> Made:
    folder, one = f"{company.folder}/made", company.one
    os.mkdir(folder)
    with stopped(one):
        first, again = (company.tool("make", folder, keys=one.store) for _ in range(2))
    return Made(
        folder, first, again, {name: {asking: answer(one, asking) for asking in asks(company, name)} for name in TEAMS}
    )


def asks(company: Company, name: str) -> list[Asking]:
    """Returns what is asked of a made store."""
    shelves = ("common", *TEAMS[name])
    return [(shelf, target, right) for shelf in shelves for target in company.targets() for right in RIGHTS]


def answer(goshelf: Goshelf, asking: Asking) -> Reply:
    """Returns what a goshelf itself answers."""
    shelf, target, right = asking
    return goshelf.ask("GET", shelf, target, right=right)


def test_make_makes_a_store_for_each(made: Made) -> None:
    assert made.first == (0, [f"{name} is {made.folder}/{name}.db" for name in TEAMS], "")


def test_make_makes_none_in_place_of_one_that_is_there(made: Made) -> None:
    assert made.again == (1, [], "shards: first is not made: goshelf: not-empty\n")


@pytest.fixture
def made_shard(made: Made, name: str) -> Iterator[Goshelf]:
    shard = Goshelf(f"{made.folder}/{name}.db")
    yield shard
    shard.stop()


@pytest.mark.parametrize("name", TEAMS)
def test_no_answer_of_a_made_store_differs(made: Made, made_shard: Goshelf, name: str) -> None:
    wanted = made.wanted[name]
    assert [asking for asking, reply in wanted.items() if answer(made_shard, asking) != reply] == []


@pytest.mark.parametrize("name", TEAMS)
def test_a_made_store_has_no_key_of_another_shards_teams(made_shard: Goshelf, name: str) -> None:
    others = [shelf for shelf in SHELVES[1:] if shelf not in TEAMS[name]]
    assert {shelf: made_shard.ask("GET", shelf, "/-/modules")[0] for shelf in others} == dict.fromkeys(others, 404)


@pytest.mark.parametrize("text", NOT_THE_STORE, ids=on_one_line)
def test_make_refuses_a_file_that_does_not_fit_the_store(company: Company, folder: str, text: str) -> None:
    one = company.one
    write({"wrong": "shard a 127.0.0.1:1\n" + text})
    os.mkdir("none")
    with stopped(one):
        before = {end: os.path.getmtime(one.store + end) for end in ("", "-wal") if os.path.exists(one.store + end)}
        code, lines, errors = company.tool("make", "none", file="wrong", keys=one.store)
        is_index_left = os.path.exists(f"{one.store}-shm")
        after = {end: os.path.getmtime(one.store + end) for end in before}
    said = errors.replace("wrong: ", "").splitlines()
    assert (code, lines, said) == (2, [], [f"shards: {line}" for line in NOT_THE_STORE[text]])
    assert (os.listdir("none"), is_index_left) == ([], False)
    assert after == before


@pytest.mark.parametrize("name", ["missing.db", "shards.conf"])
def test_make_refuses_what_is_no_store(company: Company, folder: str, name: str) -> None:
    store = company.file if name == "shards.conf" else f"{folder}/{name}"
    code, lines, errors = company.tool("make", folder, keys=store)
    assert (code, lines) == (1, []) and "cannot be read" in errors


@pytest.fixture
def files(folder: str) -> None:
    """A folder with a good file of shards and one of their keys."""
    write_shards("good", 1, 2)
    write_keys("keys", SHELVES)


@pytest.mark.usefixtures("files")
class TestWrongFiles:
    """Files that are wrong: a status of 2, one line that says so, and nothing is sent."""

    @pytest.mark.parametrize("text", WRONG_FILES, ids=on_one_line)
    def test_a_file_of_shards(self, text: str) -> None:
        write({"wrong": text})
        code, lines, errors = run_tool("send", "wrong", "keys")
        assert (code, lines, errors.count("\n")) == (2, [], 1)
        assert WRONG_FILES[text] in errors

    @pytest.mark.parametrize("missing", ["common publish", "delta read"])
    def test_a_file_of_keys_without_a_line(self, missing: str) -> None:
        lines = read("keys").decode().splitlines(keepends=True)
        write({"keys": "".join(line for line in lines if not line.startswith(missing))})
        code, _, errors = run_tool("send", "good", "keys")
        assert code == 2 and f'it has no line for "{missing}"' in errors

    def test_keys_that_others_may_read(self) -> None:
        os.chmod("keys", 0o640)
        code, _, errors = run_tool("send", "good", "keys")
        assert code == 2 and "others than its owner may read it" in errors

    @pytest.mark.parametrize("line", BAD_WORDS, ids=lambda line: line or "none")
    def test_bad_words(self, line: str) -> None:
        assert run_tool(*line.split())[0] == 2

    def test_conf_of_another_file(self) -> None:
        ran = subprocess.run([TOOL, "conf", "good"], input=b"server { }", capture_output=True)
        assert ran.returncode == 2


class Changed(NamedTuple):
    """nginx's file before a team was added by the command of the page, what that said, and the file then."""

    before: str
    runs: list[tuple[int, str, str]]
    after: str


@pytest.fixture(scope="class")
def grown() -> Iterator[Company]:
    """A company whose shelves have published, to which a team comes."""
    with opened(Company) as company:
        publish_and_send(company)
        yield company


def page_command(company: Company) -> str:
    """Returns the command of the page that changes nginx's file."""
    command = block("sh", "tools/shards conf", "DEPLOYMENTS.md").replace("/root/shards.conf", company.file)
    return command.replace("/usr/share/goshelf/tools", f"{ROOT}/tools")


@pytest.fixture(scope="class")
def own_words(grown: Company) -> str:
    """nginx's file has a name and a number of an operator's own."""
    grown.machine.edit(
        CONF, ("max_size=10g", "max_size=7g"), ("server_name shelf.example.com;", "server_name own.example.com;")
    )
    return grown.machine.read(CONF)


@pytest.fixture(scope="class")
def changed(grown: Company, own_words: str) -> Changed:
    """A team is added at the second shard, to the file of the shards, to their keys and to nginx's front."""
    second, machine = grown.shards["second"], grown.machine
    with stopped(second):
        add(second.store, "zeta")
        add_keys(second.store, "zeta")
    write_keys(grown.keys, (*SHELVES, "zeta"))
    machine.write(FRONT, front((*SHELVES, "zeta"), 2))
    write({grown.file: read(grown.file) + b"team zeta\n"})
    runs = [machine.sh(page_command(grown)) for _ in range(2)]
    wait_until(lambda: status(grown, "zeta", "/-/modules") == 200)
    return Changed(own_words, runs, machine.read(CONF))


class TestNewTeam:
    """A team is added, and nginx's file is changed by the command of the page."""

    @pytest.mark.parametrize("why", ["a wrong line", "an invalid address"])
    def test_conf_leaves_the_file_as_it_was(self, grown: Company, own_words: str, why: str) -> None:
        text, before = read(grown.file).decode(), grown.machine.read(CONF)
        shards, said = {
            "a wrong line": (f"{text}junk\n", "neither `shard"),
            "an invalid address": (text.replace(":", ":9", 1), "nginx refuses"),
        }[why]
        grown.machine.write("root/wrong", shards)
        code, _, errors = grown.machine.sh(page_command(grown).replace(grown.file, "wrong"))
        assert code != 0 and said in errors
        assert grown.machine.read(CONF) == before

    def test_conf_adds_a_line_for_the_team(self, changed: Changed) -> None:
        assert changed.runs == [(0, "", ""), (0, "", "")]
        before = changed.before.splitlines()
        assert [line for line in changed.after.splitlines() if line not in before] == ["    zeta goshelf_second;"]

    def test_conf_leaves_nothing_beside_the_file(self, changed: Changed, grown: Company) -> None:
        assert os.listdir(f"{grown.machine.folder}/{os.path.dirname(CONF)}") == ["goshelf.conf"]

    def test_conf_prints_the_same_of_standard_input(self, changed: Changed, grown: Company) -> None:
        without = re.sub(r"[^\n]*zeta[^\n]*\n", "", changed.after)
        ran = subprocess.run([TOOL, "conf", grown.file], input=without.encode(), capture_output=True)
        assert ran.stdout.decode() == changed.after

    def test_the_team_publishes_at_its_shard_alone(self, changed: Changed, grown: Company) -> None:
        assert grown.put("zeta", "example.com/zeta", "v1.0.0") == CREATED
        places = [shard.ask("GET", "zeta", "/example.com/zeta/@v/list")[0] for shard in grown.shards.values()]
        assert places == [404, 200]

    def test_the_team_sees_common(self, changed: Changed, grown: Company) -> None:
        found, wanted = (grown.ask("GET", shelf, "/example.com/common/@v/list") for shelf in ("zeta", "delta"))
        assert found == wanted == (200, b"v1.0.0\nv1.1.0-RC.1\n")

    def test_send_goes_on(self, changed: Changed, grown: Company) -> None:
        assert send(grown) == "0 sent, 0 wrong"

    def test_no_answer_to_another_differs(self, changed: Changed, grown: Company) -> None:
        assert grown.differing() == []


@pytest.fixture
def own_company() -> Iterator[Company]:
    """A company whose shards a test leaves in disagreement."""
    with opened(Company) as company:
        yield company


class TestDisagreement:
    """Versions that the shards have not in common. They are named for good, and nothing is overwritten."""

    def test_a_team_publishes_a_version_before_common_comes(self, own_company: Company) -> None:
        path, company = "example.com/ahead", own_company
        assert company.put("common", path, "v1.0.0", b"common's") == CREATED
        assert company.put("delta", path, "v1.0.0", b"delta's") == CREATED
        named = f"second: delta has other bytes than common as {path} v1.0.0"
        code, lines, _ = company.tool("send")
        assert (code, lines[1:]) == (1, [named, "1 sent, 1 wrong"])
        assert company.tool("check", "--teams")[1][:-1] == [named]
        found = {shelf: company.ask("GET", shelf, f"/{path}/@v/v1.0.0.zip")[1] for shelf in SHELVES}
        assert found == {**dict.fromkeys(SHELVES, b"common's"), "delta": b"delta's"}

    def test_somebody_publishes_to_common_past_nginx(self, own_company: Company) -> None:
        path, company = "example.com/race", own_company
        second = company.shards["second"]
        assert company.put("common", path, "v1.0.0", b"first") == CREATED
        assert company.put("common", path, "v1.0.0", b"second", second) == CREATED
        assert company.put("common", path, "v1.1.0", b"alone", second) == CREATED
        alone = f"second has {path} v1.1.0 on common, and first does not"
        assert company.tool("send")[:2] == (1, [alone, "0 sent, 1 wrong"])
        code, lines, _ = company.tool("check")
        assert code == 1
        assert lines[:-1] == [alone, f"second has other bytes than first as {path} v1.0.0 of common"]
        found = [company.ask("GET", shelf, f"/{path}/@v/v1.0.0.zip")[1] for shelf in ("alpha", "gamma")]
        assert found == [b"first", b"second"]
