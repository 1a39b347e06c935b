"""goshelf-front sync with a list: people are added, changed and removed as it says, and machines stay.

The machine, its users and its nginx are those of lib/front.py.
"""

import os
from collections.abc import Iterator

import pytest

from lib.front import FOLDER, GOMOD, USERS, Front, fingerprint, stopped_goshelf, users_of
from lib.scratch import opened

pytestmark = [pytest.mark.needs("nginx", "nginx-js", "nginx-stream", "openssl"), pytest.mark.root]
OWN = "".join(f"{','.join(user)}\n" for user in USERS)
# lists that are refused, and what is said
LISTS = [
    ("", "list names nobody"),
    ("# nobody\n\n", "list names nobody"),
    ("ann,alpha,read\n", "the list lacks 4 of 5 people"),
    (f"{OWN}\tbob,alpha,read,soon\n", "list:6: no day YYYY-MM-DD: soon"),
    (f"{OWN}ann,alpha,publish\n", "list:6: ann has a line for alpha already"),
    (f"{OWN}eve\n", "list:6: not of the form"),
    (f"{OWN}eve,alpha,read,2027-01-31,password\n", "list:6: not of the form"),
    (f'{OWN}"a\tb",alpha,read\n', "list:6: a name has"),
    (f"{OWN}a\u200bb,alpha,read\n", "list:6: a name has"),
    (f"{OWN}eve,alpha,write\n", "list:6: a right is read or publish, not 'write'"),
    (f"{OWN}eve,Alpha,read\n", "list:6: no shelf has the name 'Alpha'"),
    (f"{OWN}eve,alpha\n", "list:6: not of the form"),
    (f"{OWN}eve,alpha,read\n", "1 people need a key: --keys"),
]
# a list that removes one, changes one and adds two, what is printed of it, and the new passwords
CHANGED = OWN.replace("ann-b,alpha,read\n", "").replace("bob,beta,publish", "bob,beta,read,2099-01-31")
CHANGED += '"Eve, the first",beta,publish\n\ntim, alpha, read\n'
CHANGES = (
    "removed\tann-b\talpha\nchanged\tbob\tbeta\tread\nadded\tEve, the first\tbeta\tpublish\nadded\ttim\talpha\tread\n"
)
NEW = ("bob", "eve", "tim")
Ending = tuple[int, str, str]


class People(Front):
    """The people of a list."""

    def __init__(self, folder: str) -> None:
        super().__init__(folder)
        self.give("add 'build 1' beta read --machine")
        self.first = self.sync(OWN)

    def sync(self, text: str, options: str = "--keys new") -> Ending:
        """Returns how goshelf-front sync ends with a list, and keeps the passwords that it writes."""
        self.machine.write("root/list", text)
        self.machine.does("rm -f new")
        ending = self.machine.sh(f"goshelf-front sync list {options}")
        if os.path.exists(f"{self.machine.folder}/root/new"):
            self.keep(self.machine.read("root/new"))
        return ending

    def keep(self, lines: str) -> None:
        """Keeps the passwords of lines of ~/.netrc. Those before are of users whose names begin with `old`."""
        for words in map(str.split, lines.splitlines()):
            user = words[3].partition("-the-")[0].lower()
            if user in self.passwords:
                self.passwords[f"old {user}"] = self.passwords[user]
            self.passwords[user] = words[5]

    def read_files(self) -> tuple[str, str, list[str]]:
        """Returns who may log in by the files of the front, and the names of its files."""
        names, users = (self.machine.read(f"{FOLDER}/{name}") for name in ("names", "goshelf.json"))
        return names, users, sorted(os.listdir(f"{self.machine.folder}/{FOLDER}"))

    def status(self, user: str) -> int:
        return self.status_of(self.passwords[user])


@pytest.fixture(scope="module")
def front() -> Iterator[People]:
    with opened(People) as made:
        yield made


@pytest.fixture
def people(front: People) -> Iterator[People]:
    """The people, who are those of the first list again after the test."""
    yield front
    front.sync(OWN, "--keys new --yes")
    # (a key of the last list would go on beside the new one)
    front.order("remove bob")
    front.sync(OWN, "--keys new --yes")


def test_same_people_change_nothing(front: People) -> None:
    assert front.first == (0, "", "")
    before = front.read_files()
    assert front.sync(OWN) == (0, "", "")
    assert front.read_files() == before


def test_first_list_of_the_same_people_leaves_the_files(front: People) -> None:
    folder = f"{front.machine.folder}/{FOLDER}"
    os.remove(f"{folder}/people")
    names, users, files = front.read_files()
    assert front.sync(OWN) == (0, "", "")
    assert front.read_files() == (names, users, sorted([*files, "people"]))


@pytest.mark.parametrize("text, said", LISTS, ids=[text.removeprefix(OWN) or "nothing" for text, _ in LISTS])
def test_wrong_list_changes_nothing(front: People, text: str, said: str) -> None:
    before = front.read_files()
    status, _, errors = front.sync(text, "")
    assert status == 1 and said in errors, errors
    assert front.read_files() == before


def test_dry_run_only_prints(front: People) -> None:
    before = front.read_files()
    assert front.sync(CHANGED, "--dry-run") == (0, CHANGES, "")
    assert front.read_files() == before


def test_keys_never_go_into_a_file_that_is_there(people: People) -> None:
    people.machine.write("root/list", CHANGED)
    people.machine.write("root/new", "")
    status, _, errors = people.machine.sh("goshelf-front sync list --keys new")
    assert status == 1 and "File exists" in errors, errors
    assert people.machine.read("root/new") == ""


def test_list_adds_changes_and_removes(people: People) -> None:
    assert people.sync(CHANGED) == (0, CHANGES, "")
    mode, lines = os.stat(f"{people.machine.folder}/root/new").st_mode & 0o777, people.machine.read("root/new")
    assert (mode, lines.count("\n")) == (0o600, 3)
    for user, status in (("eve", 204), ("tim", 204), ("ann", 204), ("bob", 204), ("ann-b", 401)):
        assert (user, {people.status(user) for _ in range(5)}) == (user, {status})
    assert people.status("old bob") == 401, "a right that is less ends the old key"
    assert people.put("v1.0.0", GOMOD, "bob")[0] == 403
    assert [user.get("until") for user in users_of(people.machine).values() if user["name"] == "bob"] == ["2099-01-31"]
    assert "build 1" in people.order("list"), "a machine stays"


def test_departures_do_not_wait_for_goshelf(people: People) -> None:
    people.sync(CHANGED)
    gone = [("Eve, the first", "beta", "eve"), ("tim", "alpha", "tim")]
    with stopped_goshelf(people.machine):
        status, _, errors = people.sync(OWN)
        assert (status, people.status("eve"), people.status("tim")) == (1, 401, 401)
        assert "is not revoked" in errors
    ended = sorted((name, shelf, fingerprint(people.passwords[user])) for name, shelf, user in gone)
    status, printed, errors = people.machine.sh("goshelf-front sync")
    assert (status, sorted(printed.splitlines()), errors) == (0, ["\t".join(("revoked", *row)) for row in ended], "")
    lines = [line.split("\t") for line in people.order("log").splitlines() if line.endswith("\trevoke by root")]
    assert sorted((line[1], line[3], line[2]) for line in lines[-2:]) == ended
    assert [user for user in ("eve", "tim") if fingerprint(people.passwords[user]) in people.keys()] == []
    printed = people.sync(OWN)[1]
    assert sorted(printed.splitlines()) == ["added\tann-b\talpha\tread", "changed\tbob\tbeta\tpublish"]
    found = [people.status(user) for user in ("bob", "old bob", "ann-b")]
    assert found == [204, 204, 204], "a right that is more leaves the old key for 7 days"


def test_remove_prints_the_keys_that_it_ended(front: People) -> None:
    front.give("add 'build 2' beta read --machine")
    rows = [line.split("\t") for line in front.order("list").splitlines() if line.startswith("build 2\t")]
    printed = front.order("remove 'build 2'").splitlines()
    assert printed == [f"removed\tbuild 2\tbeta\t{row[3]}" for row in rows] and len(printed) == 1
