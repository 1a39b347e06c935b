"""goshelf-publish: versions of git repositories, as the go command has them from the shelf.

Expected sums are made from what git has at the commit. The README's command is run as the page has it; only the server
and the repository are put in.
"""

import json
import os
import re
from collections.abc import Iterator
from typing import NamedTuple

import pytest

from lib.modules import escaped
from lib.pages import blocks
from lib.program import run
from lib.repositories import KEY, PUBLISH, READER, TIME, UNASKED, Ran, Repository, Room, code, greet_of, module, shell
from lib.scratch import entered_folder, write
from lib.servers import Server
from lib.stores import new_store

pytestmark = pytest.mark.needs("git", "go")

# lines of a go.sum that no release has
OTHER_SUMS = "".join(f"example.com/greet v1.0.0{end} h1:{'A' * 43}=\n" for end in ("", "/go.mod"))


class Row(NamedTuple):
    """A version: its path, what stands for REF, its name, its repository, its commit there, and its folder. The commit
    is put in for COMMIT, and its first letters for SHORT."""

    path: str
    ref: str
    version: str
    repository: str
    commit: str
    folder: str

    def __str__(self) -> str:
        return f"{self.path} {self.ref}"


VERSIONS = [
    Row("example.com/greet", "v1.0.0", "v1.0.0", "greet", "first", ""),
    Row("example.com/greet", "v1.0.1", "v1.0.1", "greet", "first", ""),
    Row("example.com/greet/sub", "sub/v0.1.0", "v0.1.0", "greet", "first", "sub"),
    Row("example.com/greet/sub/v3", "v3.0.0", "v3.0.0", "greet", "first", "sub/v3"),
    Row("example.com/greet/v2", "v2.0.0", "v2.0.0", "greet", "first", "v2"),
    Row("example.com/greet/Words", "Words/v1.0.0-RC.1", "v1.0.0-RC.1", "greet", "first", "Words"),
    Row("example.com/greet", "main", "v1.0.2-0.20240131120000-SHORT", "greet", "last", ""),
    Row("example.com/greet/sub", "COMMIT", "v0.1.1-0.20240131120000-SHORT", "greet", "last", "sub"),
    Row("example.com/old", "v2.0.0", "v2.0.0+incompatible", "old", "first", ""),
    Row("example.com/early", "HEAD", "v0.0.0-20240131120000-SHORT", "early", "first", ""),
    Row("github.com/acme/early.go", "HEAD", "v0.0.0-20240131120000-SHORT", "early", "last", ""),
]


@pytest.fixture(scope="module")
def room() -> Iterator[Room]:
    with entered_folder() as folder:
        yield Room(folder)


@pytest.fixture(scope="module")
def repositories(room: Room) -> dict[str, Repository]:
    greet, old, early = greet_of(room), Repository(room, "old"), Repository(room, "early")
    old.first = old.commit({"old.go": code("old")}, "v2.0.0")
    early.first = early.commit(module("example.com/early"))
    early.last = early.commit(module("github.com/acme/early.go"))
    return {"greet": greet, "old": old, "early": early}


@pytest.fixture(scope="module")
def greet(repositories: dict[str, Repository]) -> Repository:
    return repositories["greet"]


def read_state(repository: Repository) -> tuple[bytes, bytes, bytes]:
    """Returns the changes, the names and the settings of a clone."""
    status = repository.git("status", "--porcelain", "--ignored")
    return status, repository.git("for-each-ref"), repository.git("config", "-l", "--local")


@pytest.fixture(scope="module")
def state(greet: Repository) -> tuple[bytes, bytes, bytes]:
    return read_state(greet)


@pytest.fixture(autouse=True)
def unchanged(greet: Repository, state: tuple[bytes, bytes, bytes]) -> Iterator[None]:
    """No run changes the clone."""
    yield
    assert read_state(greet) == state


def new_server(room: Room, name: str) -> Iterator[Server]:
    """Serves a new store with a socket for operators until its tests have run."""
    new_store(f"{room.folder}/{name}.db", ("alpha", KEY, READER))
    server = Server(f"{room.folder}/{name}.db", f"{room.folder}/{name}.control")
    yield server
    server.kill()


def read_versions(server: Server) -> set[tuple[str, str]]:
    """Returns the paths and versions of a store."""
    status, output, errors = run(["catalog", "--control", server.control, "--key", KEY])
    assert (status, errors) == (0, "")
    rows = [json.loads(line) for line in output.splitlines()]
    return {(row["Path"], row["Version"]) for row in rows}


class TestVersions:
    """Each version is checked and published, with the sums and the time that it has in its repository."""

    @pytest.fixture(scope="class")
    def server(self, room: Room) -> Iterator[Server]:
        yield from new_server(room, "versions")

    @pytest.mark.parametrize("row", VERSIONS, ids=str)
    def test_a_version_is_published(
        self, row: Row, room: Room, server: Server, repositories: dict[str, Repository]
    ) -> None:
        path, repository = row.path, repositories[row.repository]
        commit = getattr(repository, row.commit)
        ref, version = row.ref.replace("COMMIT", commit), row.version.replace("SHORT", commit[:12])
        if ref == "HEAD":
            repository.git("checkout", "-q", commit)
        words = ["--repository", repository.folder, path, ref, *(["--pseudo"] if row.version != version else [])]
        there, before = ["--to", server.url, "--key-file", f"{room.folder}/key"], read_versions(server)
        lines = repository.lines(path, version, commit, row.folder)
        assert room.publish("--check", *words) == (0, f"checked {lines}", UNASKED)
        note = f"publish: {server.url} accepts the go.mod and the key, and has no {path} {version} yet\n"
        assert room.publish("--check", *there, *words) == (0, f"checked {lines}", note)
        assert read_versions(server) == before
        assert room.publish(*there, *words) == (0, f"published {lines}", "")
        assert read_versions(server) == before | {(path, version)}
        status, info = server.ask("GET", f"{escaped(path)}/@v/{escaped(version)}.info")
        assert status == 200 and f'"{TIME}"'.encode() in info
        assert self.download(room, server, path, version) == lines

    @staticmethod
    def download(room: Room, server: Server, path: str, version: str) -> str:
        """Has a user's go command download a version, and returns its lines of go.sum."""
        os.makedirs(f"{room.folder}/user", exist_ok=True)
        ran = room.go("user", f"{server.url}/k/{READER}", "mod", "download", "-json", f"{path}@{version}")
        found = [re.search(rf'"{name}": "(.*)"', ran.stdout) for name in ("Sum", "GoModSum")]
        sums = [line[1] if line else None for line in found]
        return f"{path} {version}\n{path} {version} {sums[0]}\n{path} {version}/go.mod {sums[1]}\n"


class TestWays:
    """Other ways to name a version that is there, its key and its repository."""

    @pytest.fixture(scope="class")
    def server(self, room: Room, greet: Repository) -> Iterator[Server]:
        """A server that has versions of greet."""
        for server in new_server(room, "ways"):
            words = ["--to", server.url, "--key-file", f"{room.folder}/key", "--repository", greet.folder]
            for path, ref in (
                ("example.com/greet", "v1.0.0"),
                ("example.com/greet", "v1.0.1"),
                ("example.com/greet/v2", "v2.0.0"),
                ("example.com/greet/Words", "Words/v1.0.0-RC.1"),
                ("example.com/greet/sub", "sub/v0.1.0"),
            ):
                assert room.publish(*words, path, ref)[0] == 0
            assert room.publish(*words, "--pseudo", "example.com/greet/sub", greet.last)[0] == 0
            yield server

    @pytest.fixture
    def words(self, room: Room, greet: Repository, server: Server) -> list[str]:
        return [f"--to={server.url}/", f"--repository={greet.folder}/sub", f"--key-file={room.folder}/key"]

    @pytest.fixture
    def there(self, greet: Repository) -> Ran:
        """How a publish of greet v1.0.0 ends."""
        return 0, "already published " + greet.lines("example.com/greet", "v1.0.0", greet.first), ""

    def test_options_stand_behind_and_a_folder_of_the_clone_is_named(
        self, room: Room, words: list[str], there: Ran
    ) -> None:
        assert room.publish("example.com/greet", "v1.0.0", *words) == there

    def test_a_key_is_read_from_standard_input(self, room: Room, words: list[str], there: Ran) -> None:
        stdin = KEY.encode() + b"\r\n"
        assert room.publish(*words[:2], "--key-file", "-", "example.com/greet", "v1.0.0", stdin=stdin) == there

    def test_a_version_stands_for_a_tag(self, room: Room, greet: Repository, words: list[str]) -> None:
        lines = greet.lines("example.com/greet/sub", "v0.1.0", greet.first, "sub")
        assert room.publish(*words, "example.com/greet/sub", "v0.1.0") == (0, f"already published {lines}", "")

    def test_a_pseudo_version_is_named(self, room: Room, greet: Repository, words: list[str]) -> None:
        version = f"v0.1.1-0.20240131120000-{greet.last[:12]}"
        lines = greet.lines("example.com/greet/sub", version, greet.last, "sub")
        assert room.publish(*words, "example.com/greet/sub", version) == (0, f"already published {lines}", "")

    def test_a_commit_stands_for_its_tag(self, room: Room, greet: Repository, words: list[str]) -> None:
        lines = greet.lines("example.com/greet", "v1.0.1", greet.first)
        assert room.publish(*words, "example.com/greet", greet.first) == (0, f"already published {lines}", "")

    def test_a_check_finds_what_is_there(self, room: Room, greet: Repository, words: list[str], server: Server) -> None:
        lines = greet.lines("example.com/greet", "v1.0.0", greet.first)
        note = f"publish: {server.url} has example.com/greet v1.0.0 already, with the same files, sums and time\n"
        assert room.publish("--check", "example.com/greet", "v1.0.0", *words) == (0, f"checked {lines}", note)

    def test_the_command_of_the_readme(self, room: Room, greet: Repository, server: Server, there: Ran) -> None:
        found = re.findall(r'^"\$clone/tools/goshelf-publish" .*', "".join(blocks("README.md", "sh run")), re.M)
        replaced = {'"$clone/tools/goshelf-publish"': PUBLISH, "http://127.0.0.1:8080": server.url}
        replaced["--repository greet "] = f"--repository '{greet.folder}' "
        assert len(found) == 1
        assert shell(room, room.folder, found[0], replaced) == there

    def test_a_user_builds_with_versions(self, room: Room, server: Server) -> None:
        os.makedirs(f"{room.folder}/builder")
        names = {"one": "example.com/greet", "two": "example.com/greet/v2", "three": "example.com/greet/Words"}
        imports = "".join(f'import {name} "{path}"\n' for name, path in names.items())
        main = f"package main\n\n{imports}\nfunc main() {{ print(one.Name, two.Name, three.Name) }}\n"
        gomod = "module example.com/user\n\ngo 1.17\n"
        write({f"{room.folder}/builder/main.go": main, f"{room.folder}/builder/go.mod": gomod})
        for words in (["mod", "tidy"], ["mod", "verify"], ["build", "-o", "user"]):
            ran = room.go("builder", f"{server.url}/k/{READER}", *words)
            assert ran.returncode == 0, ran


# settings of users of git and go, which another repository may need, but not the copy that go reads. SETTINGS stands
# for their folder, and ODD for one of odd letters.
SETTINGS: dict[str, dict[str, str | None]] = {
    "a hook of git": {"GIT_DIR": "/nosuch", "GIT_INDEX_FILE": "/nosuch"},
    "a job for another system": {"GOOS": "plan9", "GOARCH": "386", "GOFLAGS": "-mod=vendor", "GOPROXY": "off"},
    "no home": {"HOME": None, "GOCACHE": None},
    "GIT_CONFIG_GLOBAL": {"GIT_CONFIG_GLOBAL": "SETTINGS/other"},
    "GIT_CONFIG_GLOBAL that allows no files": {"GIT_CONFIG_GLOBAL": "SETTINGS/never"},
    "GIT_CONFIG_SYSTEM": {"GIT_CONFIG_SYSTEM": "SETTINGS/other", "GIT_CONFIG_NOSYSTEM": None},
    "GIT_CONFIG_PARAMETERS": {"GIT_CONFIG_PARAMETERS": "'protocol.file.allow'='never'"},
    "GIT_ALLOW_PROTOCOL": {"GIT_ALLOW_PROTOCOL": "https"},
    "GIT_NAMESPACE": {"GIT_NAMESPACE": "other"},
    "GIT_DEFAULT_HASH": {"GIT_DEFAULT_HASH": "sha256"},
    "GOENV": {"GOENV": "SETTINGS/go"},
    "git as on Windows": {"GIT_CONFIG_GLOBAL": "SETTINGS/windows"},
    "a relative GOPATH and TMPDIR": {"GOPATH": "go-path", "TMPDIR": "tmp"},
    "a TMPDIR of odd letters": {"TMPDIR": "ODD"},
    "a TMPDIR below an invalid go.mod": {"TMPDIR": "SETTINGS/garbage/tmp"},
    "a TMPDIR below a go.sum with other sums": {"TMPDIR": "SETTINGS/sums/tmp"},
}


class TestSettings:
    """Settings of users change nothing of a check."""

    @pytest.fixture(scope="class")
    def places(self, room: Room) -> dict[str, str]:
        """The folders of settings, by the words that stand for them."""
        at, odd = f"{room.folder}/settings", f'{room.folder}/a,b "c" #d%e'
        other = '[url "https://other.invalid/"]\n\tinsteadOf = https://example.com/greet\n'
        os.makedirs(f"{at}/tmp")
        os.mkdir(odd)
        write({f"{at}/other": f"[user]\n\tname = me\n{other}", f"{at}/never": '[protocol "file"]\n\tallow = never\n'})
        write({f"{at}/go": "GOFLAGS=-mod=mod\nGOOS=plan9\nGOPROXY=off\n"})
        # (others may write to the folder that holds the temporary ones, as to /tmp)
        for name, text in (("garbage", "no go.mod\n"), ("sums", "module example.com/other\n")):
            os.makedirs(f"{at}/{name}/tmp")
            files = {"go.mod": text, "go.sum": OTHER_SUMS, "go.work": "no go.work\n"}
            write({f"{at}/{name}/{file}": content for file, content in files.items()})
        write({f"{at}/windows": "[core]\n\tautocrlf = true\n\teol = crlf\n"})
        return {"SETTINGS": at, "ODD": odd}

    @pytest.mark.parametrize("name", SETTINGS)
    def test_a_check_with_settings(self, name: str, room: Room, greet: Repository, places: dict[str, str]) -> None:
        settings = dict(SETTINGS[name])
        for setting, text in settings.items():
            for word, place in places.items():
                text = text and text.replace(word, place)
            settings[setting] = text
        words = ["--check", "--repository", greet.folder, "example.com/greet", "v1.0.0"]
        lines = greet.lines("example.com/greet", "v1.0.0", greet.first)
        assert room.publish(*words, at=places["SETTINGS"], **settings) == (0, f"checked {lines}", UNASKED)


class TestHost:
    """Without a clone, the go command fetches from the host of the path, here by the insteadOf of a user."""

    @pytest.fixture(scope="class")
    def server(self, room: Room) -> Iterator[Server]:
        yield from new_server(room, "host")

    @pytest.fixture(scope="class")
    def hosted(self, room: Room) -> Repository:
        hosted = Repository(room, "hosted")
        files = {**module("github.com/acme/tool"), **module("github.com/acme/tool/sub", "sub")}
        hosted.first = hosted.commit(files, "v1.0.0", "sub/v0.1.0")
        return hosted

    @pytest.mark.parametrize(
        ("path", "ref", "folder"),
        [("github.com/acme/tool", "v1.0.0", ""), ("github.com/acme/tool/sub", "sub/v0.1.0", "sub")],
        ids=["at the top", "in a folder"],
    )
    def test_a_version_is_fetched_from_its_host(
        self, path: str, ref: str, folder: str, room: Room, server: Server, hosted: Repository
    ) -> None:
        settings = {"GIT_CONFIG_COUNT": "1", "GIT_CONFIG_VALUE_0": "https://github.com/acme/tool"}
        settings["GIT_CONFIG_KEY_0"] = f"url.{hosted.folder}.insteadOf"
        words = ["--to", server.url, "--key-file", f"{room.folder}/key", path, ref]
        lines = hosted.lines(path, ref.rpartition("/")[2], hosted.first, folder)
        assert room.publish(*words, **settings) == (0, f"published {lines}", "")
        note = f"publish: takes {path} from its host: give --repository . to take it from the clone that you are in\n"
        in_clone = room.publish(*words, at=f"{hosted.folder}/sub", **settings)
        assert in_clone == (0, f"already published {lines}", note)


# a commit that HEAD is at, a path and its tag, and how many commits to the module the version lacks
PAST = [
    ("after a commit to another module", "inner", "example.com/past", "v0.1.0", 0),
    ("a module in a folder", "inner", "example.com/past/in", "in/v0.1.0", 1),
    ("after the folder of a module became its own", "outer", "example.com/past", "v0.1.0", 2),
    ("a major version in a folder", "outer", "example.com/past/v2", "v2.0.0", 0),
    ("a major version in a folder, after a commit", "major", "example.com/past/v2", "v2.0.0", 1),
    ("at the tag", "v0.2.0", "example.com/past", "v0.2.0", 0),
    ("on another branch", "other", "example.com/past", "v0.1.1", 0),
]


class TestPastTags:
    """Whoever publishes a tag that HEAD is past is told how many commits to its module the version lacks."""

    @pytest.fixture(scope="class")
    def past(self, room: Room) -> Repository:
        """A repository whose commits have names, beside the tags of versions."""
        past, path = Repository(room, "past"), "example.com/past"
        files = {**module(path), **module(f"{path}/in", "in"), **module(f"{path}/v2", "v2")}
        past.commit(files, "v0.1.0", "in/v0.1.0", "v2.0.0", "v0.1.1")
        past.commit({"in/in.go": code("in", "\n// changed\n")}, "inner")
        past.git("rm", "-q", "in/go.mod")
        past.commit({"past.go": code("past", "\n// changed\n")}, "outer")
        past.commit({"v2/past.go": code("past", "\n// changed\n")}, "major")
        past.commit({}, "v0.2.0")
        past.git("checkout", "-q", "--orphan", "unrelated")
        past.commit({"past.go": code("past")}, "other")
        return past

    @pytest.fixture
    def server(self, room: Room) -> Iterator[Server]:
        with entered_folder() as folder:
            new_store(f"{folder}/past.db", ("alpha", KEY, READER))
            server = Server(f"{folder}/past.db")
            yield server
            server.kill()

    def check_note(self, room: Room, server: Server, past: Repository, path: str, ref: str, count: int) -> None:
        """A check, a publish and another one say how many commits the version lacks."""
        commit = past.git("rev-parse", f"{ref}^0").decode().strip()
        folder, version = path.removeprefix("example.com/past").strip("/"), ref.rpartition("/")[2]
        lines = past.lines(path, version, commit, folder)
        words = ["--to", server.url, "--key-file", f"{room.folder}/key", "--repository", past.folder, path, ref]
        commits, them = ("commit", "it") if count == 1 else ("commits", "them")
        note = f"publish: HEAD has {count} {commits} to {path} that {version} does not have: make a new tag for {them}"
        for result, check in (("checked", ["--check"]), ("published", []), ("already published", [])):
            status, output, errors = room.publish(*check, *words)
            notes = [line for line in errors.splitlines() if "HEAD" in line]
            assert (status, output, notes) == (0, f"{result} {lines}", [note] if count else [])

    @pytest.mark.parametrize(("head", "path", "ref", "count"), [row[1:] for row in PAST], ids=[row[0] for row in PAST])
    def test_commits_after_the_tag_are_counted(
        self, head: str, path: str, ref: str, count: int, room: Room, server: Server, past: Repository
    ) -> None:
        past.git("checkout", "-q", head)
        self.check_note(room, server, past, path, ref, count)

    def test_nothing_is_counted_without_a_working_tree(self, room: Room, server: Server, past: Repository) -> None:
        past.git("checkout", "-q", "v0.2.0")
        past.git("config", "core.bare", "true")
        try:
            self.check_note(room, server, past, "example.com/past", "v0.1.1", 0)
        finally:
            past.git("config", "core.bare", "false")
