"""The pages of shelves behind nginx: each user sees those of the user's shelf, and goshelf-catalog makes them.

nginx and goshelf are real, on a machine in a folder (lib/machine.py), set up by the commands of docs/NGINX.md. What
each user gets is compared with the pages of a store that was extracted for the team.
"""

import contextlib
import grp
import os
import re
import shlex
import subprocess
from collections.abc import Iterator

import pytest

from lib.catalog_front import (
    AT,
    GOSHELF,
    MADE,
    USERS,
    Reader,
    all_pages,
    between,
    files_below,
    lines_of,
    list_left,
    own_goshelf,
    pages_of,
    set_up,
)
from lib.catalog_store import TODAY, tool
from lib.catalog_zips import published
from lib.front import list_keys
from lib.keys import KEYS
from lib.machine import Machine
from lib.peers import exchanged
from lib.program import done
from lib.scratch import opened, read, write

pytestmark = [pytest.mark.root, pytest.mark.needs("flock", "nginx", "nginx-js", "nginx-stream", "openssl", "sqlite3")]

# the header of each answer with a page, a part of one, or the text that there is no page
POLICY = (
    "default-src 'none'; img-src 'self'; script-src 'self'; style-src 'self'; "
    "base-uri 'none'; form-action 'none'; frame-ancestors 'none'"
)
KINDS = {"html": "text/html; charset=utf-8", "css": "text/css", "js": "text/javascript", "svg": "image/svg+xml"}
# targets by which somebody of alpha might reach the pages of beta, or what is beside those of alpha
ODD = """
/../beta/ /../beta/index.html /m/../../beta/index.html /%2e%2e/beta/index.html /m/%2e%2e/%2e%2e/beta/index.html
/m/..%2f..%2fbeta/index.html /m/%2e%2e%2f%2e%2e%2fbeta/index.html /m//..//..//beta/index.html //beta/index.html
/beta/ /beta/index.html /m/beta/index.html /m/./../../beta/health/ /m/x/../../../beta/health/ /health/../../beta/
/m/%252e%252e/%252e%252e/beta/index.html /m/..;/..;/beta/index.html /m/..%5c..%5cbeta%5cindex.html /m/%00/../beta/
/index.html/../../beta/index.html /index.html?/../../beta/index.html /?shelf=beta /#/../beta/
/.made /m/../.made /parts/../.made /.alpha.lock /../.alpha.lock /m/../../.alpha.lock /../goshelf.state
/m/../../goshelf.state /health/.made /health/ /m/ /m /parts/ /parts /parts/../../../goshelf/shelves.db
""".split()


UNCHANGED = re.sub(" .*", " nothing changed", MADE)
NAMES = {
    "Ann O'Neil": "Ann-O-Neil",
    "<script>alert(1)</script>": "-script-alert-1-script-",
    '"&lt;$goshelf_key\\': "-lt-goshelf_key-",
    "Jörg Müller-Ω": "J-rg-M-ller--",
    "<!--# echo var='goshelf_key' -->": "----echo-var-goshelf_key----",
}
# each user whose pages are compared with those of an extract: the team, and the letters of the keys of its chain
EXTRACTS = {"ann": ("alpha", "AC"), "gus": ("gamma", "MPC"), "pam": ("gamma", "PC")}


@pytest.fixture(scope="module")
def reader() -> Iterator[Reader]:
    """Users of each shelf, on a machine with their pages."""
    with opened(set_up) as made:
        yield made


@pytest.fixture
def unmade(reader: Reader) -> Iterator[Machine]:
    """The machine, whose next goshelf-catalog makes all pages, and whose pages are up to date in the end."""
    reader.machine.does(f"rm -f /{AT}/goshelf.state")
    yield reader.machine
    made = reader.machine.sh("goshelf-catalog")
    assert made[::2] == (0, ""), made


def named(content: bytes, user: str) -> bytes:
    """Returns a page with the name of its reader in the line of ~/.netrc."""
    return content.replace(b'<var class="login">YOUR-NAME</var>', f'<var class="login">{user}</var>'.encode())


def make_extracted(reader: Reader, user: str) -> dict[str, bytes]:
    """Returns the files of the pages of a user's shelf, made of the store that was extracted for a team."""
    team, letters = EXTRACTS[user]
    shelf, folder = USERS[user], f"{reader.machine.folder}/root"
    copy = f"{folder}/{shelf}.db"
    done("extract", "--db", f"{folder}/whole.db", "--team", team, "--to", copy)
    names = {letter: f"{folder}/{shelf}-{letter}" for letter in letters}
    write({name: lines_of(reader.machine, copy, KEYS[letter]) for letter, name in names.items()})
    own, *above = names.values()
    write({f"{folder}/{shelf}-key": KEYS[letters[0]]})
    words = ["--common", above[-1], "--paths", f"{reader.machine.folder}/etc/nginx/goshelf/owners.json"]
    words += ["--host", "localhost", "--store", copy, "--key-file", f"{folder}/{shelf}-key"]
    words += [f"--group=platform={above[0]}"] if len(above) == 2 else []
    commands = f"{reader.machine.folder}/usr/local/bin"
    words = ["--to", f"{folder}/{shelf}", "--shelf", shelf, "--today", TODAY, *words, own]
    made = tool(*words, commands=commands)
    assert made[0] == 0, made
    return files_below(f"{folder}/{shelf}")


@pytest.mark.parametrize(("name", "shown"), NAMES.items(), ids=NAMES)
def test_reader_finds_the_own_name(reader: Reader, name: str, shown: str) -> None:
    line = reader.machine.does(f"goshelf-front add {shlex.quote(name)} alpha read").strip()
    key = reader.passwords[name] = line.split()[5]
    status, _, body = reader.read("/", name)
    reader.machine.does(f"goshelf-front remove {shlex.quote(name)}")
    found = re.findall(b"machine localhost login (.*) password YOUR-KEY", body)
    assert (status, found) == (200, [f'<var class="login">{shown}</var>'.encode()])
    assert line == f"machine localhost login {shown} password {key}", "the line of goshelf-front has the same name"
    assert key.encode() not in body


class TestExtracts:
    """Teams and a group see catalogs of their own, each that of the store that was extracted for the team."""

    @pytest.fixture(scope="class")
    def wanted(self, reader: Reader) -> dict[str, dict[str, bytes]]:
        """The files of the pages of each user, made of an extract."""
        reader.machine.does("rm -f /root/whole.db*")
        reader.machine.does("goshelf copy --control /run/goshelf/control --to /root/whole.db")
        return {user: make_extracted(reader, user) for user in EXTRACTS}

    @pytest.mark.parametrize("user", EXTRACTS)
    def test_user_gets_these_files(self, reader: Reader, wanted: dict[str, dict[str, bytes]], user: str) -> None:
        answers = {target: reader.read(target, user) for target in wanted[user]}
        unlike = [it for it, page in wanted[user].items() if answers[it][::2] != (200, named(page, user))]
        assert unlike == []
        assert sorted(pages_of(reader, USERS[user])) == sorted(wanted[user]), "nothing else is in the folder"

    def test_no_two_are_the_same(self, wanted: dict[str, dict[str, bytes]]) -> None:
        assert len({pages["/"] for pages in wanted.values()}) == len(EXTRACTS)


@pytest.mark.parametrize(("user", "shelf"), USERS.items(), ids=USERS)
def test_user_gets_the_own_shelf_alone(reader: Reader, user: str, shelf: str) -> None:
    folders = all_pages(reader)
    own, targets = folders[shelf], sorted({target for pages in folders.values() for target in pages})
    answers = {target: reader.read(target, user) for target in targets}
    assert [it for it, page in own.items() if answers[it][::2] != (200, named(page, user))] == []
    others = [(target, *answers[target][::2]) for target in targets if target not in own]
    assert [row for row in others if row[1] != 404 or not row[2].startswith(b"no such page; ")] == []


@pytest.mark.parametrize("target", ODD)
def test_no_spelling_leads_out_of_the_folder(reader: Reader, target: str) -> None:
    own = [named(page, "ann") for page in pages_of(reader, "alpha").values()]
    status, _, body = reader.read(target)
    assert status in (400, 404) or (status == 200 and body in own), body[:200]


def test_folder_without_its_slash_leads_to_it(reader: Reader) -> None:
    status, headers, _ = reader.read("/m/example.com/log")
    assert (status, headers["Location"]) == (301, "/m/example.com/log/")


@pytest.mark.parametrize("method", ["PUT", "POST", "DELETE", "PROPFIND"])
def test_other_methods_are_refused(reader: Reader, method: str) -> None:
    assert reader.read("/", method=method)[0] in (400, 403, 404, 405)


def test_head_has_no_body(reader: Reader) -> None:
    status, headers, body = reader.read("/", method="HEAD")
    assert (status, headers["Content-Type"], body) == (200, KINDS["html"], b"")


PAGES = ["/", "/health/", "/m/example.com/log/", "/parts/catalog.css", "/parts/catalog.js", "/parts/icon.svg"]


@pytest.mark.parametrize("target", PAGES)
def test_headers_say_what_a_page_may_load(reader: Reader, target: str) -> None:
    status, headers, _ = reader.read(target)
    kind = KINDS[target.rpartition(".")[2] if "." in target.rpartition("/")[2] else "html"]
    found = [headers[name] for name in ("Content-Type", "Content-Security-Policy", "Cache-Control", "Referrer-Policy")]
    assert (status, found) == (200, [kind, POLICY, "private, no-cache", "no-referrer"])


SAME_ORIGIN = ["/", "/m/nosuch/", "/example.com/log/@v/list", "/example.com/log/@v/v1.2.0.mod", "/-/nosuch"]


@pytest.mark.parametrize("target", SAME_ORIGIN)
def test_other_sites_see_no_answer(reader: Reader, target: str) -> None:
    headers = reader.read(target)[1]
    found = headers["Cross-Origin-Resource-Policy"], headers["X-Content-Type-Options"], headers["ETag"]
    assert found == ("same-origin", "nosniff", None)


def test_cached_page_is_never_still_good(reader: Reader) -> None:
    then = reader.read("/parts/catalog.css")[1]["Last-Modified"]
    assert reader.read("/", **{"If-Modified-Since": then, "If-None-Match": "*"})[0] == 200


@pytest.mark.parametrize("target", ["/", "/m/example.com/log/", "/parts/catalog.css", "/nosuch/", "/m/nosuch/"])
def test_stranger_gets_no_page(reader: Reader, target: str) -> None:
    status, headers, body = reader.read(target, None)
    found = status, headers["WWW-Authenticate"], body[:8], headers["Content-Security-Policy"]
    assert found == (401, 'Basic realm="goshelf"', b"log in: ", None)


def test_removed_user_gets_no_page(reader: Reader) -> None:
    reader.add("eve", "alpha", "publish")
    assert reader.read("/", "eve")[::2] == (200, named(pages_of(reader, "alpha")["/"], "eve")), "who publishes reads"
    reader.machine.does("goshelf-front remove eve")
    # (nginx may have had enough of a stranger who asks again and again)
    assert reader.read("/", "eve")[0] in (401, 429)


def test_new_shelf_gets_pages_by_the_next_run(reader: Reader) -> None:
    machine = reader.machine
    machine.does("goshelf team-add --control /run/goshelf/control --team omega")
    reader.add("oda", "omega", "publish")
    status, _, body = reader.read("/", "oda")
    assert (status, body[:13]) == (404, b"no such page;")
    made = machine.sh("goshelf-catalog")
    assert made[0] == 0 and "\nomega: 6 pages, 6 new" in made[1], made
    assert reader.read("/", "oda")[0] == 200
    machine.does("goshelf-front remove oda")
    assert machine.sh("goshelf-catalog")[0] == 0


def take_words(reader: Reader) -> list[str]:
    """Returns the words of the commands `goshelf` since the last call."""
    lines = reader.machine.read("root/words").splitlines()
    reader.machine.write("root/words", "")
    return lines


def find_processes(text: str) -> list[bytes]:
    """Returns the words of the processes that show a text to `ps`."""
    found = []
    for pid in filter(str.isdigit, os.listdir("/proc")):
        with contextlib.suppress(OSError):
            found.append(read(f"/proc/{pid}/cmdline"))
    return [words for words in found if text.encode() in words]


def publish(reader: Reader, letter: str, path: str) -> None:
    assert exchanged(reader.machine.behind, published(letter, path, "v1.0.0", {})).startswith(b"HTTP/1.1 201 ")


def test_run_asks_by_keys_of_its_own(reader: Reader, unmade: Machine) -> None:
    keys, shown = [*KEYS.values(), *reader.passwords.values()], []
    take_words(reader)
    before = list_keys(unmade)

    def look(order: list[str], _: int) -> None:
        shown.extend(find_processes(order[-1]) if order[0] == "catalog" else [])

    with between(unmade, look) as asked:
        made = unmade.sh("goshelf-catalog")
    assert made == (0, UNCHANGED, "")
    assert asked[:2] == ["ping", "shelf-list"]
    orders = [order.split() for order in asked[2:]]
    own = [order[-1] for order in orders if order[0] == "reader-add"]
    spans = sorted([order[0] for order in orders if order[-1] == key] for key in own)
    verbs = sorted([["reader-add", "catalog", "key-revoke"], ["reader-add", "key-revoke"]] * len(USERS))
    assert spans == verbs, "each shelf has a key for its lines, and one for its zips"
    assert sorted(order[1] for order in orders if order[0] == "reader-add") == sorted([*USERS.values()] * 2)
    assert len({*own}) == len(own) and not {*own} & {*keys}, "no two of them are the same"
    assert list_keys(unmade) == before, "the keys are revoked again"
    assert shown == [], "`ps` shows no key"
    assert [words for words in take_words(reader) if any(key in words for key in (*keys, *own))] == []
    assert own and not [page for page in all_files(unmade) if any(key.encode() in page for key in (*keys, *own))]


def all_files(machine: Machine) -> list[bytes]:
    """Returns the content of each file at the pages."""
    places = os.walk(f"{machine.folder}/{AT}")
    return [read(os.path.join(at, name)) for at, _, names in places for name in names]


def test_same_store_is_asked_nothing(reader: Reader) -> None:
    reader.machine.does("goshelf-catalog")
    with between(reader.machine) as asked:
        made = reader.machine.sh("goshelf-catalog")
    assert (made, asked) == ((0, "nothing has changed\n", ""), ["ping", "shelf-list"])


def test_version_more_has_a_page(reader: Reader) -> None:
    machine, path, before = reader.machine, "/m/example.com/alpha/new/", all_pages(reader)
    publish(reader, "A", "example.com/alpha/new")
    made = machine.sh("goshelf-catalog")
    count = sum(name.endswith(("/", ".html")) for name in before["alpha"]) + 3
    wanted = [f"alpha: {count} pages, 4 new or changed", *UNCHANGED.splitlines()[1:]]
    assert (made[0], made[1].splitlines(), made[2]) == (0, wanted, "")
    assert reader.read(path)[0] == 200
    assert {reader.read(path, user)[0] for user in ("bea", "gus")} == {404}, "nobody else sees it"
    after = all_pages(reader)
    assert {**after, "alpha": {}} == {**before, "alpha": {}}, "other pages are as they were"
    assert list_left(reader) == ["shelves.db", "shelves.db-reserve", "shelves.db-wal"]


def test_run_by_cron_prints_nothing(unmade: Machine) -> None:
    line = unmade.read("etc/cron.d/goshelf-catalog").split(maxsplit=6)[6]
    ran = subprocess.run(["env", "-i", "PATH=/usr/bin:/bin", "sh", "-c", line], capture_output=True, text=True)
    assert (ran.returncode, ran.stdout, ran.stderr) == (0, "", "")


def test_group_of_nginx_alone_reads_the_pages(reader: Reader) -> None:
    group, modes = grp.getgrnam("www-data").gr_gid, set()
    for at, folders, names in os.walk(f"{reader.machine.folder}/{AT}"):
        files = [os.stat(os.path.join(at, name)) for name in (*folders, *names) if not name.endswith(".lock")]
        modes |= {(status.st_gid == group, oct(status.st_mode & 0o7)) for status in files}
    assert modes == {(True, "0o0")}


# a goshelf that fails as soon as it is asked for what beta sees in a file
FAILS_AT_BETA = """asked="SELECT shelf FROM access WHERE token = '${5-}'"
case "$1 $(sqlite3 -readonly "${3-}" "$asked" 2> /dev/null)" in
"catalog beta") echo 'goshelf: device' >&2; exit 1 ;;
esac
"""


class TestBackups:
    """`last` takes the last backup, and asks goshelf nothing."""

    @pytest.fixture
    def backed_up(self, reader: Reader, unmade: Machine) -> Iterator[Machine]:
        """A machine with one backup, which is removed in the end."""
        unmade.does("goshelf-catalog && goshelf-backup")
        yield unmade
        unmade.does("rm -rf /var/backups/goshelf/*")

    def test_without_a_backup_it_fails(self, unmade: Machine) -> None:
        made = unmade.sh("goshelf-catalog last")
        assert made[:2] == (1, "") and "there is no backup in " in made[2], made

    def test_pages_are_those_of_the_backup(self, reader: Reader, backed_up: Machine) -> None:
        target = "/m/example.com/alpha/later/"
        publish(reader, "A", "example.com/alpha/later")
        take_words(reader)
        with between(backed_up) as asked:
            made, again = backed_up.sh("goshelf-catalog last"), backed_up.sh("goshelf-catalog last")
        assert (made, asked) == ((0, UNCHANGED, ""), [])
        assert again == (0, "nothing has changed\n", "")
        keys = [*KEYS.values(), *reader.passwords.values()]
        assert [words for words in take_words(reader) if any(key in words for key in keys)] == []
        assert reader.read(target)[0] == 404, "the backup does not have the version"
        made = backed_up.sh("goshelf-catalog")
        assert made[0] == 0 and re.match("alpha: [0-9]+ pages, 4 new", made[1]), made
        assert reader.read(target)[0] == 200, "the store has it"

    def test_shelf_that_fails_stops_no_other(self, reader: Reader, backed_up: Machine) -> None:
        before = list_left(reader)
        own_goshelf(backed_up, f"#!/bin/sh\n{FAILS_AT_BETA}{GOSHELF}")
        made = backed_up.sh("goshelf-catalog last")
        own_goshelf(backed_up, GOSHELF)
        assert made[0] == 1 and "beta: goshelf does not" in made[2], made
        assert made[1] == re.sub("beta.*\n", "", UNCHANGED)
        assert list_left(reader) == before
