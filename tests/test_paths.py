"""goshelf-front and the company's paths: what it refuses in an owners.json, and what it says of a store beside one.

It runs on a machine in a folder (lib/machine.py), without an nginx.
"""

import contextlib
import json
import os
import subprocess
from collections.abc import Iterator

import pytest

from lib.keys import KEYS
from lib.machine import Machine
from lib.messages import put
from lib.program import answered, run
from lib.scratch import opened, read
from lib.stores import add_platform, new_store

pytestmark = [pytest.mark.needs("sqlite3"), pytest.mark.root]

OWNERS = "etc/nginx/goshelf/owners.json"
GOOD = {
    "example.com": ["common"],
    "example.com/alpha": ["alpha", "beta"],
    "example.com/alpha/Big~x/a.b/c_d/v2/6/7/8/9/10/11/12": ["beta"],
    "Example.org": ["alpha"],
    "forge-1.example/corp": [],
}
FORM = 'not of the form {"PATH": ["SHELF", ..], ..}'
# a path that stands beside another, and what is said of it
WRONG_PATHS = [
    "example.com/", "/example.com", "example.com//x", "example.com/.x", "example.com/x.", "example.com/../x", "example",
    "example..com", "-example.com", "https://example.com", "example.com:443/x", "example.com/x y", "example.com/x@v1",
    "*.example.com", "example.com/*", "~^example.com", "exämple.com", "example.com/\\x", "example.com\t",
    "example.com\n",
    "__proto__", "constructor", "$goshelf_shelf", "example.com?x", "example.com/x;y", "example.com/\u2028",
]  # fmt: skip
WRONG_SHELVES = {
    '[""]': "example.com: '' is no shelf; [] is a path where nobody publishes",
    '[" "]': "example.com: ' ' is no shelf; [] is a path where nobody publishes",
    '["-"]': "example.com: '-' is no shelf; [] is a path where nobody publishes",
    '["Alpha"]': "example.com: 'Alpha' is no shelf; [] is a path where nobody publishes",
    '["alpha,beta"]': "example.com: 'alpha,beta' is no shelf; [] is a path where nobody publishes",
    '["alpha beta"]': "example.com: 'alpha beta' is no shelf; [] is a path where nobody publishes",
    '["$goshelf_shelf"]': "example.com: '$goshelf_shelf' is no shelf; [] is a path where nobody publishes",
    '["alpha", "alpha"]': "example.com: alpha is listed twice",
    '"alpha"': f"example.com: {FORM}",
    "null": f"example.com: {FORM}",
    "1": f"example.com: {FORM}",
    "[1]": f"example.com: {FORM}",
    '{"alpha": 1}': f"example.com: {FORM}",
}
WRONG_TEXTS = {
    "": "Expecting value: line 1 column 1 (char 0)",
    "{": "Expecting property name enclosed in double quotes: line 1 column 2 (char 1)",
    '{"example.com": ["alpha"],}': "Expecting property name enclosed in double quotes: line 1 column 27 (char 26)",
    '{"example.com": ["alpha"]} {}': "Extra data: line 1 column 28 (char 27)",
    "{}": "it names no path, so every module would be public",
    "[]": "it names no path, so every module would be public",
    '["example.com"]': FORM,
    '"example.com"': "it names no path, so every module would be public",
    "1": "it names no path, so every module would be public",
    '{"example.com": ["alpha"], "example.com": ["beta"]}': "example.com: it is there twice",
    '{"example.com": ["alpha"], "example.COM": ["beta"]}': "example.COM: it is there twice",
}
MISUSES = "''|chek|--check|check -v|check ''|check a|conflicts|conflicts ''|conflicts --nosuch|conflicts a b".split("|")
# copies that cannot be read, with their bytes if they are files
UNREADABLE = {"none.db": None, "folder": None, "text.db": "no store", "empty.db": ""}
WRONG_STORE = """\
example.com/three v1.0.0: gamma and common have other bytes
example.com/three v1.0.0: gamma and platform have other bytes
example.com/three v1.0.0: platform and common have other bytes
example.com/two v1.1.0: alpha and common have other bytes
example.org/bigger: it is on alpha, gamma, and owners.json does not have it
"""


class Paths(Machine):
    """A machine with a running goshelf that has the shelves of GOOD."""

    def __init__(self, folder: str) -> None:
        super().__init__(folder)
        self.check_out()
        new_store(self.store, ("alpha", KEYS["A"]), ("beta", KEYS["B"]), ("common", KEYS["C"]))
        self.does("systemctl start goshelf; install -d -m 0700 /etc/nginx/goshelf")
        self.write("etc/nginx/goshelf/names", "")

    def checked(self, text: str | dict) -> tuple[int, list[str], str]:
        """Returns what `check` says of an owners.json, without the faults of a machine that has no nginx."""
        self.write(OWNERS, text if isinstance(text, str) else json.dumps(text))
        status, printed, errors = self.sh("goshelf-front check")
        return status, [line for line in printed.splitlines() if line.startswith("owners.json: ")], errors


@pytest.fixture(scope="module")
def machine() -> Iterator[Paths]:
    with opened(Paths) as machine:
        yield machine


def says(*lines: str) -> tuple[int, list[str], str]:
    """Returns how `check` ends that names these faults of an owners.json."""
    return 1, [f"owners.json: {line}" for line in lines], ""


@pytest.mark.parametrize("ends", ["\n", "\r\n"], ids=["lines", "lines of Windows"])
def test_a_good_file_has_no_fault(machine: Paths, ends: str) -> None:
    assert machine.checked(json.dumps(GOOD, indent=1).replace("\n", ends))[1] == []


def test_a_good_file_of_one_line_has_no_fault(machine: Paths) -> None:
    assert machine.checked(GOOD)[1] == []


@pytest.mark.parametrize("path", WRONG_PATHS, ids=ascii)
def test_a_path_that_is_no_module_path_is_named(machine: Paths, path: str) -> None:
    name = path if path.isprintable() else repr(path)
    assert machine.checked({"example.org": ["alpha"], path: ["alpha"]}) == says(f"{name} is not a module path")


@pytest.mark.parametrize("path", ["example.com/!big", "example.com/%21big"])
def test_an_escaped_path_is_named(machine: Paths, path: str) -> None:
    assert machine.checked({path: ["alpha"]}) == says(f"{path} is escaped: write it as in a go.mod")


def test_an_empty_path_is_named(machine: Paths) -> None:
    assert machine.checked({"": []}) == says("an empty text is not a module path")


@pytest.mark.parametrize("shelves", WRONG_SHELVES)
def test_wrong_shelves_are_named(machine: Paths, shelves: str) -> None:
    text = f'{{"example.org": ["alpha"], "example.com": {shelves}}}'
    assert machine.checked(text) == says(WRONG_SHELVES[shelves])


@pytest.mark.parametrize("text", WRONG_TEXTS, ids=lambda text: text or "empty")
def test_a_wrong_text_is_named(machine: Paths, text: str) -> None:
    assert machine.checked(text) == says(WRONG_TEXTS[text])


def test_two_faults_of_a_path_are_named(machine: Paths) -> None:
    status, lines, _ = machine.checked({"example.com/": ["Gamma"]})
    assert (status, len(lines)) == (1, 2)


def test_a_shelf_that_is_not_there_is_named(machine: Paths) -> None:
    owners = {"example.com": ["alpha", "gamma"]}
    assert machine.checked(owners) == says("example.com: there is no shelf gamma")


@pytest.mark.parametrize("words", MISUSES, ids=lambda words: words.strip("'") or "an empty word")
def test_wrong_words_get_the_usage(machine: Paths, words: str) -> None:
    status, printed, errors = machine.sh(f"goshelf-front {words}")
    assert (status, printed, errors.split()[0]) == (2, "", "usage:")


@pytest.mark.parametrize("words", ["-h", "--help", "conflicts --help"])
def test_help_says_what_it_does(machine: Paths, words: str) -> None:
    status, printed, _ = machine.sh(f"goshelf-front {words}")
    assert (status, printed.split(":")[0]) == (0, "goshelf-front")


@pytest.mark.parametrize("name", UNREADABLE)
def test_conflicts_names_a_copy_that_it_cannot_read(machine: Paths, name: str) -> None:
    machine.write(OWNERS, json.dumps(GOOD))
    if (text := UNREADABLE[name]) is not None:
        machine.write(f"root/{name}", text)
    elif name == "folder":
        os.mkdir(f"{machine.folder}/root/{name}")
    before = sorted(os.listdir(f"{machine.folder}/root"))
    status, printed, errors = machine.sh(f"goshelf-front conflicts {name}")
    assert (status, printed, errors.count("\n")) == (1, "", 1)
    assert errors.startswith(f"goshelf-front: {name}: ")
    # nothing appears beside it
    assert sorted(os.listdir(f"{machine.folder}/root")) == before


def test_conflicts_names_a_fault_of_the_paths(machine: Paths) -> None:
    machine.write(OWNERS, "{}")
    machine.write("root/text.db", "no store")
    status, _, errors = machine.sh("goshelf-front conflicts text.db")
    assert status == 1 and "owners.json: it names no path" in errors


def publish(letter: str, path: str, version: str, content: bytes = b"zip") -> bytes:
    """Returns a publish by the key of a letter."""
    return put(path.replace("B", "!b"), version, f"module {path}\n".encode(), content, KEYS[letter])


@pytest.fixture
def copy(machine: Paths, request: pytest.FixtureRequest) -> str:
    """The name of a store with shelves and a group, which has no version."""
    name = f"{request.node.name}.db"
    new_store(f"{machine.folder}/root/{name}", ("alpha", KEYS["A"]), ("common", KEYS["C"]))
    add_platform(f"{machine.folder}/root/{name}")
    machine.write(OWNERS, '{"example.com": ["common"], "example.org/big": ["alpha"]}')
    return name


def test_an_empty_store_has_no_conflict(machine: Paths, copy: str) -> None:
    assert machine.sh(f"goshelf-front conflicts {copy}") == (0, "", "")


def test_conflicts_names_other_bytes_and_paths_of_nobody(machine: Paths, copy: str) -> None:
    """A team and its group, and both and common, have other bytes of a version."""
    name, large = f"{machine.folder}/root/{copy}", bytes(70_000)
    asked = [
        publish("M", "example.com/three", "v1.0.0", b"gamma"), publish("P", "example.com/three", "v1.0.0", b"platform"),
        publish("C", "example.com/three", "v1.0.0"), publish("A", "example.com/two", "v1.1.0", large + b"a"),
        publish("C", "example.com/two", "v1.1.0", large + b"b"), publish("A", "example.com/same", "v1.0.0", large),
        publish("C", "example.com/same", "v1.0.0", large), publish("A", "example.com/apart", "v1.0.0", b"alpha"),
        publish("M", "example.com/apart", "v1.0.0", b"gamma"), publish("A", "example.org/Big/x", "v1.0.0"),
        publish("A", "example.org/bigger", "v1.0.0"), publish("M", "example.org/bigger", "v1.1.0"),
    ]  # fmt: skip
    assert [status for status, _ in answered(["--db", name], asked)] == [201] * len(asked)
    before = {end: read(name + end) for end in ("", "-wal")}
    assert machine.sh(f"goshelf-front conflicts {copy}") == (1, WRONG_STORE, "")
    # the files are as before, and goshelf opens them
    assert {end: read(name + end) for end in before} == before
    assert run(["inventory", "--db", name, "--key", KEYS["A"]])[0] == 0


@contextlib.contextmanager
def held(store: str) -> Iterator[None]:
    """Has sqlite3 hold a store alone until the block ends."""
    with subprocess.Popen(["sqlite3", store], stdin=subprocess.PIPE, stdout=subprocess.PIPE, text=True) as holder:
        holder.stdin.write("PRAGMA locking_mode = EXCLUSIVE; BEGIN EXCLUSIVE; SELECT 'held';\n")
        holder.stdin.flush()
        assert [holder.stdout.readline() for _ in range(2)] == ["exclusive\n", "held\n"]
        yield
        holder.stdin.close()


def test_conflicts_of_a_store_that_another_program_holds(machine: Paths, copy: str) -> None:
    with held(f"{machine.folder}/root/{copy}"):
        status, printed, errors = machine.sh(f"goshelf-front conflicts {copy}")
    assert (status, printed) == (1, "") and "locked" in errors
