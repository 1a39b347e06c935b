"""goshelf-adopt takes versions over from a module cache, a static proxy, an Athens, and another proxy.

They are imported or published, and fetched by the go command with the sums that they had. The module cache is filled by
the go command from a static proxy, whose zips are made here. The other proxy is a server of this file, which wants a
login, leads elsewhere for zips, and fails as a test has it. The commands of docs/OPERATING.md are run as the page has
them.
"""

import base64
import csv
import http.server
import io
import os
import re
import shutil
import subprocess
import threading
from collections.abc import Iterator
from typing import NamedTuple

import pytest

from lib.modules import escaped, h1, zipped
from lib.pages import blocks
from lib.peers import Quiet
from lib.ports import free_port
from lib.program import PROGRAM, run
from lib.repositories import ADOPT, KEY, READER, TIME, Ran, Room, module, shell
from lib.scratch import entered_folder, read, write
from lib.servers import Server
from lib.stores import new_store

pytestmark = pytest.mark.needs("go")

MIB = 1_048_576
USER = "Basic " + base64.b64encode(b"reader:secret").decode()
# each version, and the time of its .info
VERSIONS = [
    ("example.com/greet", "v1.0.0", TIME),
    ("example.com/greet", "v1.1.0-rc.1", TIME),
    ("example.com/greet/v2", "v2.0.0", ""),
    ("example.com/Greet/Words", "v1.0.0-RC.1", TIME),
    ("example.com/greetings", "v0.0.0-20240131120000-abcdefabcdef", TIME),
    ("example.org/old", "v2.0.0+incompatible", TIME),
]
# what is listed of each version: a pseudo-version needs no time
LISTED = {(path, version): "" if "2024" in version else stamp for path, version, stamp in VERSIONS}
EACH = pytest.mark.parametrize(("path", "version"), LISTED, ids=[" ".join(row) for row in LISTED])
NO_TIME = "adopt: 1 versions have no time: `go get -u` cannot compare them with pseudo-versions\n"
# logins that the proxy does not take: the line, and the sentence
LOGINS = {
    "a wrong password": (
        "127.0.0.1 login reader password wrong",
        "{url} does not take the password of reader: mend the line for 127.0.0.1 in {netrc}, or ask the operator"
        " whether it still holds",
    ),
    "no line for the host": (
        "localhost login reader password wrong",
        "{netrc} has no line with a login for 127.0.0.1: add one, with the name and the key from the operator",
    ),
}
STOPPED = "stopped there: run this again, and it goes on"


def files_of(path: str, version: str) -> dict[str, str]:
    """Returns the files of a version."""
    return {"old.go": "package old\n"} if "+" in version else module(path)


def sum_of(path: str, version: str) -> str:
    """Returns the sum of the zip of a version."""
    return h1([(f"{path}@{version}/{name}", text.encode()) for name, text in files_of(path, version).items()])


def make_proxy(tree: str) -> str:
    """Makes the folder of a static proxy with each version."""
    for path, version, stamp in VERSIONS:
        files, stem = files_of(path, version), f"{tree}/{escaped(path)}/@v/{escaped(version)}"
        os.makedirs(os.path.dirname(stem), exist_ok=True)
        info = '{"Version":"%s"%s}' % (version, stamp and f',"Time":"{stamp}"')
        gomod = files.get("go.mod", f"module {path}\n")
        write({f"{stem}.info": info, f"{stem}.mod": gomod, f"{stem}.zip": zipped(path, version, files)})
    return tree


class Listing(NamedTuple):
    """What goshelf-adopt lists: its status, its rows, its errors and its text."""

    status: int
    rows: list[list[str]]
    errors: str
    text: str

    def times(self) -> dict[tuple[str, str], str]:
        """Returns the time of each version."""
        return {(row[0], row[1]): row[2] for row in self.rows[1:]}


def list_versions(room: Room, *words: str) -> Listing:
    """Has goshelf-adopt list versions."""
    ran = subprocess.run([ADOPT, *words], capture_output=True, text=True, env=room.env, timeout=60)
    return Listing(ran.returncode, list(csv.reader(io.StringIO(ran.stdout))), ran.stderr, ran.stdout)


def adopt(room: Room, *words: str, stdin: str = "", **settings: str) -> tuple[int, list[str], list[str]]:
    """Has goshelf-adopt publish versions. Returns its status, the lines of its output, and those of its errors without
    its name."""
    env = {**room.env, "NETRC": f"{room.folder}/netrc", **settings}
    ran = subprocess.run([ADOPT, *words], input=stdin, capture_output=True, text=True, env=env, timeout=120)
    assert [secret for secret in (KEY, READER, "secret") if secret in ran.stdout + ran.stderr] == []
    return ran.returncode, ran.stdout.splitlines(), [line.removeprefix("adopt: ") for line in ran.stderr.splitlines()]


def fetch_sum(room: Room, server: Server, name: str, path: str, version: str) -> str | None:
    """Has a user's go command download a version, and returns the sum of its zip."""
    os.makedirs(f"{room.folder}/{name}", exist_ok=True)
    ran = room.go(name, f"{server.url}/k/{READER}", "mod", "download", "-json", f"{path}@{version}")
    found = re.search(r'"Sum": "(.*)"', ran.stdout)
    return found[1] if found else None


@pytest.fixture(scope="module")
def room() -> Iterator[Room]:
    with entered_folder() as folder:
        yield Room(folder)


@pytest.fixture(scope="module")
def tree(room: Room) -> str:
    """The folder of a static proxy."""
    return make_proxy(f"{room.folder}/proxy")


@pytest.fixture(scope="module")
def listing(room: Room, tree: str) -> Listing:
    """What is listed of the static proxy."""
    return list_versions(room, tree)


def new_server(room: Room, name: str) -> Iterator[Server]:
    """Serves a new store until its tests have run."""
    new_store(f"{room.folder}/{name}.db", ("alpha", KEY, READER))
    server = Server(f"{room.folder}/{name}.db")
    yield server
    server.kill()


class TestModuleCache:
    """The module cache of a user who fetched each version."""

    @pytest.fixture(scope="class")
    def fetched(self, room: Room, tree: str) -> dict[tuple[str, str], subprocess.CompletedProcess[str]]:
        """How the go command took each version into the cache."""
        os.mkdir(f"{room.folder}/user")
        words = ["user", f"file://{tree}", "mod", "download", "-json"]
        return {(path, version): room.go(*words, f"{path}@{version}") for path, version in LISTED}

    @pytest.fixture(scope="class")
    def cache(self, room: Room, fetched: dict[tuple[str, str], subprocess.CompletedProcess[str]]) -> str:
        return f"{room.folder}/user-path/pkg/mod"

    @EACH
    def test_the_go_command_takes_a_version(
        self, path: str, version: str, fetched: dict[tuple[str, str], subprocess.CompletedProcess[str]]
    ) -> None:
        ran = fetched[path, version]
        assert ran.returncode == 0 and sum_of(path, version) in ran.stdout, ran

    def test_its_versions_are_listed(self, room: Room, cache: str) -> None:
        listing = list_versions(room, cache)
        assert (listing.status, listing.rows[0]) == (0, ["path", "version", "time", "mod", "zip"])
        assert sorted(listing.times()) == sorted(LISTED)
        others = {row: stamp for row, stamp in listing.times().items() if stamp not in ("", LISTED[row])}
        assert others == {}, listing.errors

    @pytest.fixture(scope="class")
    def by_page(self, room: Room, cache: str) -> Ran:
        """The commands of OPERATING, which take the versions of example.com into a store."""
        new_store(f"{room.folder}/cache.db", ("alpha", KEY, READER))
        script = blocks("docs/OPERATING.md", "sh", 'goshelf-adopt "')[0]
        replaced = {"goshelf-adopt": ADOPT, "goshelf import": f"{PROGRAM} import", "--key KEY": f"--key {KEY}"}
        replaced["/var/lib/goshelf/shelves.db"] = f"{room.folder}/cache.db"
        return shell(room, room.folder, script, replaced, GOMODCACHE=cache)

    @pytest.fixture(scope="class")
    def server(self, room: Room, by_page: Ran) -> Iterator[Server]:
        server = Server(f"{room.folder}/cache.db")
        yield server
        server.kill()

    def test_the_commands_of_the_page_import_them(self, by_page: Ran) -> None:
        few = [path for path, _ in LISTED if path.startswith("example.com/")]
        assert (by_page[0], by_page[1].count(" 201 published\n")) == (0, len(few)), by_page

    @EACH
    def test_an_imported_version_has_its_sum(self, path: str, version: str, room: Room, server: Server) -> None:
        wanted = sum_of(path, version) if path.startswith("example.com/") else None
        assert fetch_sum(room, server, "by-page", path, version) == wanted


class TestFolders:
    """The folder of a static proxy, and those of other layouts."""

    def test_each_version_is_listed_with_its_time(self, listing: Listing) -> None:
        assert (listing.status, listing.times()) == (0, LISTED)

    def test_versions_without_a_time_are_counted(self, listing: Listing) -> None:
        assert listing.errors == NO_TIME

    def test_paths_choose_among_the_versions(self, room: Room, tree: str) -> None:
        listing = list_versions(room, tree, "example.com/greet", "example.com/gree")
        assert listing.status == 0
        assert {row[0] for row in listing.rows[1:]} == {"example.com/greet", "example.com/greet/v2"}

    def test_a_folder_is_published_while_goshelf_serves(self, room: Room, tree: str) -> None:
        words = [tree, "--key-file", "-", "example.com/greet"]
        of_path = [row for row in LISTED if f"{row[0]}/".startswith("example.com/greet/")]
        for server in new_server(room, "direct"):
            status, output, _ = adopt(room, *words, "--to", server.url, stdin=KEY)
            again = adopt(room, *words, "--to", server.url, stdin=KEY)
            assert (status, sorted(output)) == (0, sorted(f"published {path} {version}" for path, version in of_path))
            assert again[:2] == (0, []), again

    @pytest.fixture(scope="class")
    def athens(self, room: Room, listing: Listing) -> Listing:
        """What is listed of an Athens on a disk, which has a folder for each version, and names with capitals."""
        for path, version, _, mod, zip_file in listing.rows[1:]:
            folder = f"{room.folder}/athens/{path}/{version}"
            os.makedirs(folder)
            shutil.copy(mod, f"{folder}/go.mod")
            shutil.copy(zip_file, f"{folder}/source.zip")
            write({f"{folder}/{version}.info": '{"Version":"%s","Time":"2024-01-31T14:00:00.5+02:00"}' % version})
        return list_versions(room, f"{room.folder}/athens")

    def test_an_athens_is_listed(self, athens: Listing) -> None:
        wanted = {(path, version): "" if "2024" in version else TIME for path, version in LISTED}
        assert (athens.status, athens.errors, athens.times()) == (0, "", wanted)

    @pytest.fixture(scope="class")
    def moved(self, room: Room, athens: Listing) -> Iterator[tuple[Ran, Server]]:
        """The list of the Athens is imported, and the store served."""
        new_store(f"{room.folder}/moved.db", ("alpha", KEY, READER))
        write({f"{room.folder}/moved.csv": athens.text})
        words = ["import", "--db", f"{room.folder}/moved.db", "--key", KEY, "--list", f"{room.folder}/moved.csv"]
        ran = run(words)
        server = Server(f"{room.folder}/moved.db")
        yield ran, server
        server.kill()

    def test_the_list_of_an_athens_is_imported(self, moved: tuple[Ran, Server]) -> None:
        status, output, _ = moved[0]
        assert (status, output.count(b" 201 published\n")) == (0, len(LISTED)), moved[0]

    @EACH
    def test_a_version_of_an_athens_has_its_sum(
        self, path: str, version: str, room: Room, moved: tuple[Ran, Server]
    ) -> None:
        assert fetch_sum(room, moved[1], "moved", path, version) == sum_of(path, version)

    def test_versions_that_would_be_refused_are_left_out(self, room: Room) -> None:
        tree, gomod = f"{room.folder}/tree/example.com/x/@v", "module example.com/x\n"
        os.makedirs(tree)
        good = zipped("example.com/x", "v1.0.0", {"go.mod": gomod})
        stray = zipped("example.com/y", "v1.1.0", {"go.mod": gomod})
        entry = zipped("example.com/x", "v1.2.0", {"go.mod": gomod, "sub/": ""})
        for minor, content in enumerate((good, stray, entry, b"rubbish", bytes(16 * MIB + 1))):
            write({f"{tree}/v1.{minor}.0.zip": content, f"{tree}/v1.{minor}.0.mod": gomod})
        write({f"{tree}/v1.5.0.zip": good, f"{tree}/v1.6.0.mod": gomod, f"{tree}/list": "v1.0.0\n"})
        listing = list_versions(room, f"{room.folder}/tree")
        row = ["example.com/x", "v1.0.0", "", f"{tree}/v1.0.0.mod", f"{tree}/v1.0.0.zip"]
        assert (listing.status, listing.rows[1:]) == (1, [row])
        named = [f"left out example.com/x v1.{minor}.0: " for minor in (1, 2, 3, 4, 5)]
        named += ["1 versions have a go.mod and no zip", "1 versions have no time"]
        assert [words for words in named if words not in listing.errors] == [], listing.errors
        assert listing.errors.count("\n") == len(named)

    def test_an_empty_folder_has_no_version(self, room: Room) -> None:
        os.mkdir(f"{room.folder}/empty")
        listing = list_versions(room, f"{room.folder}/empty")
        assert (listing.status, listing.errors) == (1, f"adopt: {room.folder}/empty has no version to list\n")

    def test_a_missing_folder_is_refused(self, room: Room) -> None:
        listing = list_versions(room, f"{room.folder}/nosuch")
        assert (listing.status, listing.errors) == (1, f"adopt: {room.folder}/nosuch is not a folder\n")

    def test_no_words_are_bad_usage(self, room: Room) -> None:
        assert list_versions(room).status == 2


class Proxy(http.server.ThreadingHTTPServer):
    """A proxy as a company has one: it wants a login, lists no pseudo-version, and leads to another address for zips,
    which must not see the login. It notes what it is asked, and with which login."""

    def __init__(self, tree: str, other: "Proxy | None" = None) -> None:
        super().__init__(("127.0.0.1", 0), Handler)
        self.tree, self.other, self.url = tree, other, f"http://127.0.0.1:{self.server_port}"
        self.asked: list[tuple[str, str | None]] = []
        threading.Thread(target=self.serve_forever, args=(0.02,), daemon=True).start()

    def server_close(self) -> None:
        # (a server whose socket is closed while it serves asks for connections without an end)
        self.shutdown()
        super().server_close()


class Handler(Quiet):
    """A connection to a proxy."""

    def do_GET(self) -> None:
        proxy, login, file = self.server, self.headers.get("Authorization"), self.server.tree + self.path
        proxy.asked.append((self.path, login))
        if proxy.other and login != USER:
            self.reply(401)
        elif self.path == "/example.com/odd/@v/v1.3.0.zip":
            self.reply(500, b"a fault\n")
        elif not os.path.exists(file):
            self.reply(404, b"no such file")
        elif proxy.other and self.path.endswith(".zip"):
            self.reply(302, b"", ("Location", f"http://localhost:{proxy.other.server_port}{self.path}"))
        else:
            self.reply(200, read(file))

    def reply(self, status: int, body: bytes = b"", *headers: tuple[str, str]) -> None:
        self.send_response(status)
        for name, text in (("Content-Length", str(len(body))), *headers):
            self.send_header(name, text)
        self.end_headers()
        self.wfile.write(body)


def write_lists(tree: str) -> None:
    """Gives a static proxy the lists and the latest that a server of it has. The paths of pseudo-versions list none."""
    for path in {path for path, _ in LISTED}:
        at, own = f"{tree}/{escaped(path)}", [version for of, version in LISTED if of == path]
        released = [version for version in own if "2024" not in version]
        write({f"{at}/@v/list": "".join(f"{version} 2024-01-31T12:00:00Z\n" for version in released)})
        write({f"{at}/@latest": '{"Version":"%s"}' % own[0]})


def write_odd(tree: str) -> None:
    """Gives a static proxy versions of example.com/odd, of which v1.4.0 can be published, and v1.6.0 is not listed."""
    at, gomod = f"{tree}/example.com/odd/@v", "module example.com/odd\n"
    os.makedirs(at)
    large = zipped("example.com/odd", "v1.1.0", {"go.mod": gomod, "data.bin": os.urandom(17 * MIB)})
    bad = zipped("example.com/odd", "v1.5.0", {"go.mod": "frobnicate\n"})
    for version, content in (("v1.0.0", b"rubbish"), ("v1.1.0", large), ("v1.3.0", b""), ("v1.5.0", bad)):
        write({f"{at}/{version}.zip": content, f"{at}/{version}.mod": gomod, f"{at}/{version}.info": "{}"})
    for version in ("v1.4.0", "v1.6.0"):
        good = zipped("example.com/odd", version, {"go.mod": gomod})
        write({f"{at}/{version}.zip": good, f"{at}/{version}.mod": gomod})
    write({f"{at}/v1.4.0.info": '{"Time":"2024-01-31T13:00:00.7+01:00"}', f"{at}/v1.2.0.mod": gomod})
    write({f"{at}/v1.5.0.mod": gomod + "frobnicate\n", f"{at}/list": "".join(f"v1.{minor}.0\n" for minor in range(6))})


class Adoption(NamedTuple):
    """The versions of another proxy are published to goshelf: one, then all by the command of the page, and again."""

    proxy: Proxy
    elsewhere: Proxy
    server: Server
    words: list[str]
    one: tuple[int, list[str], list[str]]
    by_page: Ran
    again: tuple[int, list[str], list[str]]


class TestOtherProxy:
    """The versions of another proxy are published to goshelf."""

    @pytest.fixture(scope="class")
    def proxies(self, room: Room) -> Iterator[tuple[Proxy, Proxy]]:
        """A proxy, and where it leads to."""
        tree = make_proxy(f"{room.folder}/other-proxy")
        write_lists(tree)
        write_odd(tree)
        elsewhere = Proxy(tree)
        proxy = Proxy(tree, elsewhere)
        yield proxy, elsewhere
        for server in (proxy, elsewhere):
            server.shutdown()
            server.server_close()

    @pytest.fixture(scope="class")
    def adoption(self, room: Room, proxies: tuple[Proxy, Proxy]) -> Iterator[Adoption]:
        proxy, elsewhere = proxies
        paths = "".join(f"{path}\n" for path in sorted({path for path, _ in LISTED}))
        write({f"{room.folder}/netrc": "machine 127.0.0.1 login reader password secret\n"})
        write({f"{room.folder}/modules": paths})
        for server in new_server(room, "there"):
            words = ["--from", proxy.url, "--netrc", "--to", server.url, "--key-file", f"{room.folder}/key"]
            one = adopt(room, *words, "example.com/greet@v1.0.0")
            script = blocks("docs/OPERATING.md", "sh", "goshelf-adopt --from")[0]
            replaced = {"goshelf-adopt": ADOPT, "https://artifacts.example.com/api/go/modules": proxy.url}
            replaced["http://127.0.0.1:8080"] = server.url
            by_page = shell(room, room.folder, script, replaced, NETRC=f"{room.folder}/netrc")
            again = adopt(room, *words, "-", stdin=paths)
            yield Adoption(proxy, elsewhere, server, words, one, by_page, again)

    def test_one_version_is_published(self, adoption: Adoption) -> None:
        counts = ["1 published, 0 there before, 0 left out"]
        assert adoption.one == (0, ["published example.com/greet v1.0.0"], counts)

    def test_the_command_of_the_page_publishes_the_others(self, adoption: Adoption) -> None:
        status, output, errors = adoption.by_page
        others = [f"published {path} {version}" for path, version in list(LISTED)[1:]]
        assert (status, sorted(output.splitlines())) == (0, sorted(others))
        assert errors == f"adopt: 5 published, 1 there before, 0 left out\n{NO_TIME}"

    def test_a_second_run_publishes_nothing(self, adoption: Adoption) -> None:
        assert adoption.again == (0, [], ["0 published, 6 there before, 0 left out"])

    def test_no_login_is_shown_elsewhere(self, adoption: Adoption) -> None:
        assert {login for _, login in adoption.elsewhere.asked} == {None}
        assert len(adoption.proxy.asked) + len(adoption.elsewhere.asked) > 20

    @EACH
    def test_a_version_has_its_sum(self, path: str, version: str, room: Room, adoption: Adoption) -> None:
        assert fetch_sum(room, adoption.server, "fetched", path, version) == sum_of(path, version)

    @pytest.fixture(scope="class")
    def partial(self, room: Room, adoption: Adoption) -> tuple[int, list[str], list[str]]:
        """A run over versions of which one can be published."""
        return adopt(room, *adoption.words, "example.com/odd", "example.com/nosuch", "example.com/a b")

    def test_a_run_that_leaves_out_versions_takes_the_others(self, partial: tuple[int, list[str], list[str]]) -> None:
        assert partial[:2] == (1, ["published example.com/odd v1.4.0"])

    def test_a_run_says_why_it_leaves_out_versions(
        self, partial: tuple[int, list[str], list[str]], adoption: Adoption
    ) -> None:
        url, front = adoption.proxy.url, "left out example.com/odd v1."
        assert partial[2] == [
            f"{front}0.0: example.com/odd/@v/v1.0.0.zip cannot be read: zip: not a valid zip file",
            f"{front}1.0: example.com/odd/@v/v1.1.0.zip has more than 16777216 bytes, which goshelf does not take",
            f"{front}2.0: there is no example.com/odd/@v/v1.2.0.zip",
            f"{front}3.0: its files cannot be read: {url} answers 500 (a fault)",
            f"{front}5.0: line 2 of the go.mod is not valid: mend it, and tag a new version (frobnicate)",
            f"left out example.com/nosuch: {url} has no version of example.com/nosuch",
            "left out example.com/a b: example.com/a b is not a module path, perhaps with @ and a version",
            "1 published, 0 there before, 7 left out",
        ]

    def test_a_key_of_nobody_ends_a_run(self, room: Room, adoption: Adoption) -> None:
        words = [*adoption.words[:-1], f"{room.folder}/nobody", "example.com/greet"]
        unknown = f"{adoption.server.url} has no such key: check the key and the URL"
        assert adopt(room, *words) == (1, [], [unknown])

    def test_a_login_without_a_key_ends_a_run(self, room: Room, adoption: Adoption) -> None:
        lost = f"{adoption.server.url} has lost the key of your user: ask the operator"
        assert adopt(room, *adoption.words[:-2], "example.com/greet") == (1, [], [lost])

    def test_a_key_that_only_reads_ends_a_run(self, room: Room, adoption: Adoption) -> None:
        paths = "example.com/greet@v1.0.0", "example.com/odd@v1.6.0", "a.com/b"
        reads = "left out example.com/odd v1.6.0: the key only reads: use a key that was added without --read-only"
        wanted = 1, [], [reads, "0 published, 1 there before, 1 left out", STOPPED]
        assert adopt(room, *adoption.words[:-1], f"{room.folder}/reader", *paths) == wanted

    @pytest.mark.parametrize(("line", "sentence"), LOGINS.values(), ids=LOGINS)
    def test_a_login_that_the_proxy_does_not_take_ends_a_run(
        self, line: str, sentence: str, room: Room, adoption: Adoption
    ) -> None:
        netrc = f"{room.folder}/wrong"
        write({netrc: f"machine {line}\n"})
        found = adopt(room, *adoption.words, "example.com/greet", "example.com/Greet/Words", NETRC=netrc)
        left_out = "left out example.com/greet: " + sentence.format(url=adoption.proxy.url, netrc=netrc)
        assert found == (1, [], [left_out, "0 published, 0 there before, 1 left out", STOPPED])

    def test_a_proxy_where_nobody_listens_ends_a_run(self, room: Room, adoption: Adoption) -> None:
        nobody = f"http://127.0.0.1:{free_port()}"
        gone = f"left out a.com/b: nobody listens at {nobody}: check the URL, and that goshelf serves"
        found = adopt(room, "--from", nobody, *adoption.words[2:], "a.com/b", "a.com/c")
        assert found == (1, [], [gone, "0 published, 0 there before, 1 left out", STOPPED])

    def test_no_password_goes_in_clear(self, room: Room, adoption: Adoption) -> None:
        clear = "http://artifacts.example would show the password to everybody on the way: give --from a URL with"
        found = adopt(room, "--from", "http://artifacts.example", *adoption.words[2:], "a.com/b")
        assert found == (1, [], [f"{clear} https://"])

    @pytest.mark.parametrize(
        "words",
        [
            "--from http://localhost a.com/b",
            "--from http://localhost --to http://localhost --key-file key",
            "--from http://localhost --to http://localhost a.com/b",
            ". --netrc",
        ],
    )
    def test_bad_usage(self, words: str, room: Room) -> None:
        status, output, errors = adopt(room, *words.split())
        assert (status, output) == (2, [])
        assert "usage: goshelf-adopt" in errors[1]
