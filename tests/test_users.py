"""goshelf-front with words, names and files that are wrong: nothing changes, and no key is left.

The machine, its users and its nginx are those of lib/front.py. test_users_lists.py has lists of people, and
test_users_store.py what caches and logs have.
"""

import os
import re
from collections.abc import Iterator

import pytest

from lib.front import FOLDER, USERS, Front, fingerprint, refused_files, stopped_goshelf
from lib.program import ROOT
from lib.scratch import opened

pytestmark = [pytest.mark.needs("nginx", "nginx-js", "nginx-stream", "openssl"), pytest.mark.root]


def in_shell(octal: str) -> str:
    """Returns a word of a shell with these bytes in it."""
    return f"\"$(printf 'a{octal}b')\""


# words of goshelf-front that are refused, the status, and what is said
MISUSES = [
    ("add ann alpha read", 1, "ann has a key of alpha"),
    ("add ann alpha publish", 1, "ann has a key of alpha"),
    ("add '' alpha read", 2, "a word is empty"),
    ("add -x alpha read", 2, "-x"),
    ("add ' bob' alpha read", 1, "' bob'"),
    ("add %s alpha read" % in_shell("\\t"), 1, "a tab"),
    ("add %s alpha read" % in_shell("\\n"), 1, "'a\\nb'"),
    ("add %s alpha read" % in_shell("\\302\\205"), 1, "a name has"),
    ("add %s alpha read" % in_shell("\\342\\200\\256"), 1, "a name has"),
    # characters that do not show: a space without width, marks of direction, fillers, and bytes that are no UTF-8
    ("add %s alpha read" % in_shell("\\342\\200\\213"), 1, "one that does not show: 'a\\u200bb'"),
    ("add %s alpha read" % in_shell("\\330\\234"), 1, "one that does not show: 'a\\u061cb'"),
    ("add %s alpha read" % in_shell("\\342\\200\\216"), 1, "one that does not show: 'a\\u200eb'"),
    ("add %s alpha read" % in_shell("\\357\\273\\277"), 1, "one that does not show: 'a\\ufeffb'"),
    ("add %s alpha read" % in_shell("\\343\\205\\244"), 1, "one that does not show: 'a\\u3164b'"),
    ("add %s alpha read" % in_shell("\\357\\270\\217"), 1, "one that does not show: 'a\\ufe0fb'"),
    ("add %s alpha read" % in_shell("\\363\\240\\201\\201"), 1, "one that does not show: 'a\\U000e0041b'"),
    ("add %s alpha read" % in_shell("\\377"), 1, "one that does not show: 'a\\udcffb'"),
    ("add %s alpha read" % in_shell("\\355\\240\\200"), 1, "one that does not show: 'a\\udced\\udca0\\udc80b'"),
    ("rotate %s" % in_shell("\\377"), 1, "has no key"),
    ("remove %s" % in_shell("\\377"), 1, "there is no 'a\\udcffb'"),
    ("add eve %s read" % in_shell("\\377"), 1, "no shelf has the name 'a\\udcffb'"),
    ("add eve alpha read --until %s" % in_shell("\\377"), 1, "no day YYYY-MM-DD"),
    ("take-out example.com/%s v1.0.0" % in_shell("\\377"), 1, "is not a module path"),
    ("sync %s" % in_shell("\\377"), 1, "cannot be read"),
    (f"add {'n' * 129} alpha read", 1, "a name has 1 to 128"),
    ("add eve none read", 1, "there is no shelf 'none'"),
    ("add eve Alpha read", 1, "no shelf has the name 'Alpha'"),
    ("add eve '' read", 2, "a word is empty"),
    ("add eve alpha write", 1, "not 'write'"),
    ("add eve alpha ''", 2, "a word is empty"),
    ("add eve alpha read --until 2027-02-30", 1, "no day YYYY-MM-DD: 2027-02-30"),
    ("add eve alpha read --until soon", 1, "no day YYYY-MM-DD: soon"),
    ("add eve alpha read --till 2027-01-31", 2, "--till"),
    ("rotate eve", 1, "eve has no key"),
    ("rotate ann --shelf beta", 1, "ann has no key"),
    ("rotate ann --days -1", 2, "--days -1"),
    ("rotate ann --days 99999999999", 2, "--days 99999999999"),
    ("rotate ann --days soon", 2, "soon"),
    ("remove eve", 1, "there is no 'eve'"),
    ("remove ''", 2, "a word is empty"),
    ("remove ann 0123456789abcdef", 1, "'ann' has no key '0123456789abcdef': goshelf-front list"),
    ("remove ann one two", 2, "two"),
    ("remove ann --yes", 2, "--yes"),
    ("", 2, "usage"),
    ("add eve", 2, "usage"),
    ("add eve alpha read more", 2, "more"),
    ("remove", 2, "usage"),
    ("list ann", 2, "ann"),
    ("check names", 2, "names"),
    ("uncache 2", 2, "2"),
    ("uncache --force", 2, "--force"),
    ("uncache ''", 2, "a word is empty"),
    ("sync --force list", 2, "--force"),
    ("sync --yes", 2, "sync has no FILE"),
    ("take-out example.com/!lib v1.0.0", 1, "example.com/!lib is escaped"),
    ("take-out lib v1.0.0", 1, "lib is not a module path"),
    ("take-out example.com/lib latest", 1, "'latest' is not a version"),
    ("take-out example.com/lib v1.0.0 Alpha", 1, "'Alpha' is no shelf"),
    ("log --since soon", 1, "no day YYYY-MM-DD: soon"),
    ("take-over /root/new", 1, "users.map cannot be read"),
    ("set-up local_host", 1, "'local_host' is not the name of a host"),
    ("set-up localhost example=alpha", 1, "example is not a module path"),
    ("set-up localhost example.com=Alpha", 1, "'Alpha' is no shelf"),
    ("set-up localhost forgotten.example=alpha", 1, "owners.json is kept, and lacks forgotten.example: add a line"),
    ("drop ann", 2, "drop"),
    ("--yes", 2, "--yes"),
]
HIDDEN = "hi\u200bd"
# goshelf, which notes the digits by which it is to revoke a key
NOTING = """\
#!/bin/sh
case "$*" in
key-revoke*--fingerprint*) for word in "$@"; do :; done; echo "$word" >> "@/root/digits" ;;
esac
"""
NEWER = NOTING + 'exec "@/usr/local/bin/goshelf.own" "$@"\n'
# the same of a goshelf that knows a key by 16 digits alone
OLDER = (
    NOTING
    + """\
[ "${#word}" -lt 64 ] || { echo 'goshelf: no-key' >&2; exit 1; }
[ "$1" != key-list ] || exec sh -c '"$0" "$@" | cut -d " " -f -3' "@/usr/local/bin/goshelf.own" "$@"
exec "@/usr/local/bin/goshelf.own" "$@"
"""
)


@pytest.fixture(scope="module")
def front() -> Iterator[Front]:
    with opened(Front) as made:
        yield made


State = tuple[str, str, list[str], str]


def read_state(front: Front) -> State:
    """Returns who may log in by the files of the front, the names of its files, and goshelf's keys."""
    names, users = (front.machine.read(f"{FOLDER}/{name}") for name in ("names", "goshelf.json"))
    return names, users, sorted(os.listdir(f"{front.machine.folder}/{FOLDER}")), front.keys()


@pytest.mark.parametrize("words, status, said", MISUSES, ids=[words or "nothing" for words, _, _ in MISUSES])
def test_wrong_words_change_nothing(front: Front, words: str, status: int, said: str) -> None:
    before = read_state(front)
    found = front.machine.sh(f"goshelf-front {words}")
    assert found[:2] == (status, "") and said in found[2] and "Traceback" not in found[2], found
    assert read_state(front) == before


def test_list_has_each_user(front: Front) -> None:
    wanted = {"\t".join((*user, fingerprint(front.passwords[user[0]]), "")) for user in USERS}
    listed = front.order("list").splitlines()
    assert wanted <= {*listed} and listed == sorted(listed)


def test_check_finds_no_fault(front: Front) -> None:
    assert front.check() == []


def find_commands() -> list[str]:
    """Returns the commands of the usage."""
    with open(f"{ROOT}/deploy/goshelf-front", encoding="utf-8") as file:
        return re.findall(r"^(?:usage:|      ) goshelf-front ([a-z-]+)", file.read(), re.M)


@pytest.mark.parametrize("command", ["", *find_commands()], ids=lambda command: command or "nothing")
def test_help_prints_the_usage(front: Front, command: str) -> None:
    status, printed, errors = front.machine.sh(f"goshelf-front {command} --help")
    assert (status, errors, printed.count("usage: goshelf-front")) == (0, "", 1)
    assert printed == front.order("--help")


def test_check_says_how_a_key_without_a_name_ends(front: Front) -> None:
    key = front.machine.does("goshelf key-add --control /run/goshelf/control --shelf beta --new").strip()

    def find_lines() -> list[str]:
        lines = front.machine.sh("goshelf-front check")[1].splitlines()
        return [line for line in lines if fingerprint(key) in line]

    (line,) = find_lines()
    front.machine.does(line.partition(", ")[2].partition(", ")[2])
    assert (find_lines(), fingerprint(key) in front.keys()) == ([], False)


def test_nobody_is_added_while_nginx_refuses_its_files(front: Front) -> None:
    before, keys = front.machine.read(f"{FOLDER}/names"), front.keys()
    with refused_files(front.machine):
        status, printed, errors = front.machine.sh("goshelf-front add eve beta read")
    assert (status, printed) == (1, "") and "nginx refuses its files" in errors, errors
    assert (front.machine.read(f"{FOLDER}/names"), front.keys()) == (before, keys)
    front.order("sync")


def test_link_stays(front: Front) -> None:
    place, aside = (f"{front.machine.folder}/{name}" for name in (f"{FOLDER}/names", "root/names"))
    keys = front.keys()
    os.rename(place, aside)
    os.symlink(aside, place)
    try:
        status, _, errors = front.machine.sh("goshelf-front add eve beta read")
        assert status == 1 and "names is a link" in errors and os.path.islink(place), errors
        assert front.keys() == keys
    finally:
        os.replace(aside, place)


def test_file_of_a_killed_run_is_in_nobodys_way(front: Front) -> None:
    before = front.machine.read(f"{FOLDER}/names")
    front.machine.write(f"{FOLDER}/names.new", "half")
    front.order("sync")
    assert front.machine.read(f"{FOLDER}/names") == before


def test_no_key_is_made_while_goshelf_is_stopped(front: Front) -> None:
    before = front.machine.read(f"{FOLDER}/names")
    with stopped_goshelf(front.machine):
        found = front.machine.sh("goshelf-front add eve beta read")
    assert found == (1, "", "goshelf-front: goshelf is stopped: start it, then run goshelf-front sync\n")
    assert front.machine.read(f"{FOLDER}/names") == before


def test_rotate_asks_for_the_shelf(front: Front) -> None:
    front.machine.does("for shelf in alpha beta; do goshelf-front add 'Jane Roe' $shelf read; done")
    said = "goshelf-front: Jane Roe has keys of the shelves alpha, beta: say which one by --shelf SHELF\n"
    assert front.machine.sh("goshelf-front rotate 'Jane Roe'") == (1, "", said)
    status, printed, errors = front.machine.sh("goshelf-front rotate 'Jane Roe' --shelf beta")
    assert (status, errors) == (0, "") and "login Jane-Roe password " in printed, printed
    front.order("remove 'Jane Roe'")


def test_one_key_of_a_name_is_removed(front: Front) -> None:
    old, new = front.give("add Ned alpha read"), front.give("rotate Ned")
    assert (front.status_of(old), front.status_of(new)) == (204, 204)
    assert front.order(f"remove Ned {fingerprint(old)}") == f"removed\tNed\talpha\t{fingerprint(old)}\n"
    assert (front.status_of(old), {front.status_of(new) for _ in range(5)}) == (401, {204})
    assert (fingerprint(old) in front.keys(), fingerprint(new) in front.keys()) == (False, True)
    front.order("remove Ned")
    assert front.status_of(new) == 401


def test_removal_while_goshelf_is_stopped_says_what_was_done(front: Front) -> None:
    digits = fingerprint(front.give("add Ivy alpha read"))
    with stopped_goshelf(front.machine):
        status, printed, errors = front.machine.sh("goshelf-front remove Ivy")
        assert (status, printed) == (1, f"removed at nginx\tIvy\talpha\t{digits}\n")
        why = f"but the key {digits} of Ivy is not revoked: goshelf is stopped"
        assert errors.endswith(
            f"goshelf-front: nginx answers it with a 401 from now on, {why}\n"
            "goshelf-front: goshelf itself takes it until goshelf-front sync revokes it\n"
        )
    assert front.order("sync") == f"revoked\tIvy\talpha\t{digits}\n"


def test_name_that_does_not_show_is_named_and_removed(front: Front) -> None:
    key = front.give("add hid alpha read")
    front.machine.edit(f"{FOLDER}/names", ("\thid\t", f"\t{HIDDEN}\t"))
    front.order("sync")
    assert front.status_of(key) == 204
    assert [line for line in front.check() if "'hi\\u200bd'" in line and "does not show" in line]
    front.order("remove \"$(printf 'hi\\342\\200\\213d')\"")
    assert (front.status_of(key), fingerprint(key) in front.keys()) == (401, False)


@pytest.mark.parametrize("script, digits", [(NEWER, 64), (OLDER, 16)], ids=["prints the SHA-256", "prints 16 digits"])
def test_key_ends_by_what_goshelf_prints_of_it(front: Front, script: str, digits: int) -> None:
    """Of a goshelf that prints the SHA-256 a key is named by that, of an older one by the fingerprint."""
    keys = front.keys()
    with front.machine.instead(script.replace("@/", f"{front.machine.folder}/")):
        key = front.give(f"add old{digits} alpha read")
        front.order(f"remove old{digits}")
        assert front.status_of(key) == 401
        with refused_files(front.machine):
            assert front.machine.sh(f"goshelf-front add new{digits} alpha read")[0] == 1
        front.machine.sh("goshelf-front sync")
    noted = front.machine.read("root/digits").split()
    front.machine.write("root/digits", "")
    assert {len(word) for word in noted} == {digits} and fingerprint(key) in {word[:16] for word in noted}
    assert front.keys() == keys
