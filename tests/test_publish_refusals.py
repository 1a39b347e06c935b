"""What goshelf-publish says against a version: of its repository, its words, its shape and the lines of its go.mod.

Each cause ends with status 1 and a sentence, and nothing is published: nobody listens at the URL, but for checks.
tests/test_publish_servers.py has what keys and servers say.
"""

import os
import re
import shutil
import signal
import subprocess
from collections.abc import Callable, Iterator

import pytest

from lib.ports import free_port
from lib.publishing import Refusal, has_sentence, read_phrases, refused
from lib.repositories import KEY, PUBLISH, READER, UNASKED, Ran, Repository, Room, gomod, greet_of, module
from lib.scratch import entered_folder, write
from lib.servers import Server
from lib.stores import new_store

pytestmark = pytest.mark.needs("git", "go")

MIB = 1_048_576
FETCH = "fetch it by git fetch --tags"
GO_MODS = "; ".join(
    f"{folder}go.mod names example.com/greet/{folder}".rstrip("/")
    for folder in ("Words/", "", "sub/", "sub/v3/", "v2/")
)
NO_VERSION = (
    "{ref} is not a version: make a tag {front}vMAJOR.MINOR.PATCH and give that, or give --pseudo to publish {version}"
)
# names that the repository does not have, and some that nobody has: the path and REF
NAMES = [
    Refusal("a tag that does not exist", "example.com/greet|v9.9.9",
            f"{{greet}} has no tag v9.9.9 for example.com/greet: make it by git tag, or {FETCH}"),
    Refusal("a branch that does not exist", "example.com/greet|nosuch",
            f"{{greet}} has no tag, branch or commit nosuch: check the name, or {FETCH}"),
    Refusal("a tag that is no version", "example.com/greet|v1.1",
            "v1.1 is not a version: name the tag vMAJOR.MINOR.PATCH"),
    Refusal("a tag of another module", "example.com/greet|sub/v0.1.0",
            "the tag sub/v0.1.0 is of a module in sub, not of example.com/greet: name the module of the tag; "
            "a folder v2 is no part of one"),
    Refusal("another path", "example.com/hello|v1.0.0",
            "no go.mod of v1.0.0 names example.com/hello where the path ends with its folder, and capitals count; "
            + GO_MODS),
    Refusal("an escaped path", "example.com/greet/!words|v1.0.0",
            "example.com/greet/!words is not a module path: write it as the go.mod does, with capitals and without !"),
    Refusal("no go.mod", "command-line-arguments|v1.0.0",
            "command-line-arguments is no module, but what `go list -m` prints where no go.mod is: run it in the "
            "repository, in the folder of the module's go.mod"),
    Refusal("a path with a space", "example.com/a b|v1.0.0",
            "example.com/a b is not a module path: write it as the go.mod does"),
]  # fmt: skip
CHANGES = "{greet} has changes that no commit has, and a version holds commits: {mend} ({files})"
NO_REPOSITORY = (
    "{folder} is not a git repository that can be read: name the one of the module by --repository (not a git"
    " repository (or any of the parent directories): .git)"
)
LARGE_ZIP = (
    "the zip has {size} bytes, and goshelf takes 16777216: move large files to a folder with a go.mod of its own"
)
LARGE_GO_MOD = "the go.mod has {size} bytes, and goshelf takes 1048576: shorten it"
NO_ZIP = "the go command makes no zip of {path} at {ref}:"
SHALLOW = (
    "{folder}/shallow is a shallow clone, and the version of a commit depends on the tags before it: git fetch"
    " --unshallow --tags"
)
PARTIAL = "{folder}/partial is a partial clone, which lacks files of its commits: clone it without --filter"
NO_FOLDER = "no folder can be made in {folder}: name another by TMPDIR"
NO_COMMAND = "there is no command {name}: install it"
NOT_VERIFIED = "go mod verify fails: it was modified"
OTHER_PATH = (
    "the go.mod at v1.0.0 names github.com/acme/tool, not github.com/acme/wrong: publish it by that path; "
    "capitals count"
)
SENTENCES = [
    *(row.sentence for row in NAMES), NO_VERSION, CHANGES, NO_REPOSITORY, LARGE_ZIP, LARGE_GO_MOD, NO_ZIP, SHALLOW,
    PARTIAL, NO_FOLDER, NO_COMMAND, NOT_VERIFIED, OTHER_PATH,
]  # fmt: skip


@pytest.fixture(scope="module")
def room() -> Iterator[Room]:
    with entered_folder() as folder:
        yield Room(folder)


@pytest.fixture(scope="module")
def greet(room: Room) -> Repository:
    return greet_of(room)


@pytest.fixture
def login(room: Room) -> list[str]:
    """A URL at which nobody listens, so that nothing of what is refused was sent, and a key."""
    return ["--to", f"http://127.0.0.1:{free_port()}", "--key-file", f"{room.folder}/key"]


class TestRepositories:
    """Names that a repository lacks, and changes that no commit has."""

    @pytest.fixture
    def words(self, greet: Repository, login: list[str]) -> list[str]:
        return [*login, "--repository", greet.folder]

    @pytest.mark.parametrize("row", NAMES, ids=str)
    def test_a_name_is_refused(self, row: Refusal, room: Room, greet: Repository, words: list[str]) -> None:
        assert room.publish(*words, *row.words.split("|")) == refused(row.sentence.format(greet=greet.folder))

    def test_other_capitals_are_refused(self, room: Room, words: list[str]) -> None:
        status, output, errors = room.publish(*words, "example.com/greet/words", "v1.0.0")
        assert (status, output) == (1, "")
        assert "names example.com/greet/words" in errors and "capitals count" in errors

    @pytest.mark.parametrize("check", [False, True], ids=["publish", "check"])
    @pytest.mark.parametrize(
        ("path", "front", "version"),
        [("example.com/greet", "", "v1.0.2"), ("example.com/greet/sub", "sub/", "v0.1.1")],
        ids=["at the top", "in a folder"],
    )
    def test_a_branch_is_refused(
        self, path: str, front: str, version: str, check: bool, room: Room, greet: Repository, words: list[str]
    ) -> None:
        words = ["--check", *words[4:]] if check else words
        version = f"{version}-0.20240131120000-{greet.last[:12]}"
        wanted = NO_VERSION.format(ref="main", front=front, version=version)
        assert room.publish(*words, path, "main") == refused(wanted)

    @pytest.mark.parametrize(
        ("files", "mend", "named"),
        [
            (["greet.go"], "commit or stash them", "greet.go"),
            (["greet.go", "a.go"], "commit or stash them", "greet.go"),
            (["new0.go", "new1.go", "new2.go", "new3.go"], "commit, ignore or remove them", "new0.go new1.go new2.go"),
        ],
        ids=["changed", "changed and new", "new"],
    )
    def test_changes_that_no_commit_has_are_refused(
        self, files: list[str], mend: str, named: str, room: Room, greet: Repository, words: list[str]
    ) -> None:
        write({f"{greet.folder}/{name}": "package greet\n" for name in files})
        found = room.publish(*words, "example.com/greet", "v1.0.0")
        greet.git("clean", "-fq")
        greet.git("checkout", "-q", "greet.go")
        assert found == refused(CHANGES.format(greet=greet.folder, mend=mend, files=named))

    def test_a_folder_without_a_repository_is_refused(self, room: Room, login: list[str]) -> None:
        found = room.publish(*login, "--repository", room.folder, "example.com/greet", "v1.0.0")
        assert found == refused(NO_REPOSITORY.format(folder=room.folder))


class TestShapes:
    """What the go command and the limits say against a version, before anything is sent."""

    @pytest.fixture(scope="class")
    def odd(self, room: Room) -> Repository:
        """A repository of versions that are odd, but for the last."""
        odd = Repository(room, "odd")
        odd.commit({**module("example.com/odd"), "data.bin": os.urandom(17 * MIB)}, "v1.0.0")
        odd.git("rm", "-q", "data.bin")
        odd.commit({"go.mod": gomod("example.com/odd") + "// " + "a" * MIB}, "v1.0.1")
        odd.commit({"go.mod": gomod("example.com/odd"), "a:b": "no name of a file in a zip"}, "v1.0.2")
        odd.git("rm", "-q", "a:b")
        odd.last = odd.commit({"elsewhere/go.mod": gomod("example.com/odd/inner")}, "v1.0.3", "v2.0.0")
        return odd

    @pytest.fixture
    def errors_of(self, room: Room, odd: Repository, login: list[str]) -> Callable[..., str]:
        """Publishes a version, which has to be refused in a line, and returns that."""

        def publish(ref: str, path: str = "example.com/odd") -> str:
            status, output, errors = room.publish(*login, "--repository", odd.folder, path, ref)
            assert (status, output, errors.count("\n")) == (1, "", 1)
            return errors.removeprefix("publish: ").rstrip("\n")

        return publish

    def test_a_zip_over_16_mib_is_refused(self, errors_of: Callable[..., str]) -> None:
        errors = errors_of("v1.0.0")
        size = int(re.findall(r"\d+", errors)[0])
        assert errors == LARGE_ZIP.format(size=size)
        assert size > 17 * MIB

    def test_a_go_mod_over_1_mib_is_refused(self, errors_of: Callable[..., str]) -> None:
        errors = errors_of("v1.0.1")
        size = int(re.findall(r"\d+", errors)[0])
        assert errors == LARGE_GO_MOD.format(size=size)
        assert size > MIB

    def test_a_name_that_no_zip_may_have_is_refused(self, errors_of: Callable[..., str]) -> None:
        assert errors_of("v1.0.2").startswith(NO_ZIP.format(path="example.com/odd", ref="v1.0.2"))

    def test_a_major_version_without_its_path_is_refused(self, errors_of: Callable[..., str]) -> None:
        assert "example.com/odd" in errors_of("v2.0.0")

    def test_a_folder_with_which_the_path_does_not_end_is_refused(self, errors_of: Callable[..., str]) -> None:
        errors = errors_of("main", "example.com/odd/inner")
        assert "elsewhere/go.mod names example.com/odd/inner" in errors

    @pytest.fixture(scope="class")
    def shallow(self, room: Room, odd: Repository) -> str:
        """A clone without its history, which has tags."""
        words = ["git", "clone", "-q", "--depth", "1", f"file://{odd.folder}", f"{room.folder}/shallow"]
        subprocess.run(words, env=room.env, check=True)
        return f"{room.folder}/shallow"

    def test_a_tag_of_a_shallow_clone_is_taken(self, room: Room, odd: Repository, shallow: str) -> None:
        lines = odd.lines("example.com/odd", "v1.0.3", odd.last)
        found = room.publish("--check", "--repository", shallow, "example.com/odd", "v1.0.3")
        assert found == (0, f"checked {lines}", UNASKED)

    def test_a_commit_of_a_shallow_clone_is_refused(self, room: Room, shallow: str) -> None:
        found = room.publish("--check", "--repository", shallow, "example.com/odd", "HEAD")
        assert found == refused(SHALLOW.format(folder=room.folder))

    def test_a_partial_clone_is_refused(self, room: Room, odd: Repository) -> None:
        odd.git("config", "uploadpack.allowFilter", "true")
        words = ["git", "clone", "-q", "--filter=blob:none", f"file://{odd.folder}", f"{room.folder}/partial"]
        subprocess.run(words, env=room.env, check=True)
        found = room.publish("--check", "--repository", f"{room.folder}/partial", "example.com/odd", "v1.0.3")
        assert found == refused(PARTIAL.format(folder=room.folder))


class TestMachines:
    """A machine without a folder for temporary files, without git, and without go."""

    @pytest.fixture
    def words(self, greet: Repository) -> list[str]:
        return ["--check", "--repository", greet.folder, "example.com/greet", "v1.0.0"]

    def test_a_missing_folder_for_files_is_refused(self, room: Room, words: list[str]) -> None:
        folder = f"{room.folder}/nosuch"
        assert room.publish(*words, TMPDIR=folder) == refused(NO_FOLDER.format(folder=folder))

    @pytest.mark.parametrize(("name", "other"), [("git", "go"), ("go", "git")])
    def test_a_missing_command_is_named(self, name: str, other: str, room: Room, words: list[str]) -> None:
        with entered_folder() as path:
            os.symlink(shutil.which(other), f"{path}/{other}")
            assert room.publish(*words, PATH=path) == refused(NO_COMMAND.format(name=name))

    def test_no_file_is_left_where_nobody_reads_what_it_says(self, room: Room, words: list[str]) -> None:
        ends, begins = os.pipe()
        os.close(ends)
        ran = subprocess.run([PUBLISH, *words], stdout=begins, stderr=begins, env=room.env, timeout=300)
        os.close(begins)
        assert ran.returncode in (0, 128 + signal.SIGPIPE)
        assert os.listdir(room.tmp) == []

    @pytest.mark.parametrize(
        "words",
        ["", "--check", "--check a", "--check a b c", "a b", "--to http://x a b", "--nosuch a b", "--to",
         "--check --wait x a b", "--check --to http://x a b", "--check --key-file x a b", "--check --netrc a b"],
    )  # fmt: skip
    def test_bad_usage(self, words: str, room: Room) -> None:
        status, output, errors = room.publish(*words.split())
        assert (status, output) == (2, "")
        assert "usage: goshelf-publish" in errors

    def test_help(self, room: Room) -> None:
        status, output, errors = room.publish("--help")
        assert (status, errors) == (0, "")
        assert output.startswith("goshelf-publish: publishes a version")
        assert output.endswith("changes nothing in DIR.\n")


# lines that goshelf refuses in a go.mod, and whether a check without a server finds them; and others, which it takes
FAULTS = [
    "require example.com/y v1", "frobnicate y", "exclude example.com/y v1.0", "retract v1",
    "require example.com/y v2.0.0", "require example.com/y/v2 v1.0.0", "require ( )",
    "replace example.com/y => example.com/z v2.0.0",
    "replace example.com/y => C:\\y", "retract [v1.1.0, v1.0.0]", "retract v2.0.0", "require example.com/con v1.0.0",
    'require "example.com/y" v1', "replace example.com/y => mymod v1.0.0",
]  # fmt: skip
TAKEN = """require(
\texample.com/x v1.0.0
)
require example.com/y v1.0.0 // indirect\r
require "example.com/z" v1.0.0
require gopkg.in/y.v2 v2.0.0
require (
\texample.com/w v2.0.0+incompatible // require
\t// toolchain (
)
replace example.com/y => ../y
exclude v2 v1.0.0
replace example.com/y v1.0.0 => example.com/v/v3 v3.0.0-rc.1
retract [v1.1.0,v1.2.0]
retract(
\tv1.0.0 // (
\t[v1.3.0, v1.4.0]
)
toolchain go1.21.0
tool example.com/x/cmd
godebug default=go1.21
ignore ./static
"""
LINES, LONG = "example.com/lines", "example.com/" + "/".join(["a" * 60] * 4)[:243]


class TestChecks:
    """A check finds what goshelf refuses in a go.mod, names the line, and stores nothing."""

    @pytest.fixture(scope="class")
    def server(self, room: Room) -> Iterator[Server]:
        new_store(f"{room.folder}/shelves.db", ("alpha", KEY, READER))
        server = Server(f"{room.folder}/shelves.db")
        yield server
        server.kill()

    @pytest.fixture(autouse=True)
    def stored(self, server: Server) -> Iterator[None]:
        """No check publishes anything."""
        yield
        assert server.ask("GET", "-/modules") == (200, b"")

    @pytest.fixture(scope="class")
    def lines(self, room: Room) -> Repository:
        """A repository with a version for each fault, and with versions that are taken."""
        lines = Repository(room, "lines")
        for minor, line in enumerate(FAULTS):
            lines.commit({**module(LINES), "go.mod": f"{gomod(LINES)}{line}\n"}, f"v0.{minor}.0")
        lines.commit({"go.mod": gomod(LINES) + TAKEN}, "v1.0.0")
        lines.commit({"go.mod": gomod("gopkg.in/lines.v2")}, "v2.0.0")
        lines.commit({"go.mod": gomod(LONG)}, "v1.1.0")
        return lines

    @pytest.fixture
    def words(self, lines: Repository) -> list[str]:
        return ["--check", "--repository", lines.folder]

    @pytest.fixture
    def there(self, room: Room, server: Server) -> list[str]:
        return ["--to", server.url, "--key-file", f"{room.folder}/key"]

    @pytest.mark.parametrize("line", FAULTS)
    def test_a_fault_is_found_with_and_without_a_server(
        self, line: str, room: Room, words: list[str], there: list[str]
    ) -> None:
        wanted = refused(f"line 4 of the go.mod is not valid: mend it, and tag a new version ({line})")
        version = f"v0.{FAULTS.index(line)}.0"
        assert room.publish(*words, LINES, version, *there) == wanted
        assert room.publish(*words, LINES, version) == wanted

    def test_other_lines_are_taken(self, room: Room, lines: Repository, words: list[str]) -> None:
        lines.git("checkout", "-q", "v1.0.0")
        wanted = 0, "checked " + lines.lines(LINES, "v1.0.0", "v1.0.0"), UNASKED
        assert room.publish(*words, LINES, "v1.0.0") == wanted

    @pytest.mark.parametrize(
        ("path", "version"),
        [(LINES, "v1.0.0"), ("gopkg.in/lines.v2", "v2.0.0"), (LONG, "v1.1.0")],
        ids=["a path", "a path of gopkg.in", "a long path"],
    )
    def test_goshelf_accepts_a_version(
        self, path: str, version: str, room: Room, server: Server, lines: Repository, words: list[str], there: list[str]
    ) -> None:
        lines.git("checkout", "-q", version)
        note = f"publish: {server.url} accepts the go.mod and the key, and has no {path} {version} yet\n"
        wanted = 0, "checked " + lines.lines(path, version, version), note
        assert room.publish(*words, path, version, *there) == wanted

    def test_a_version_that_the_go_command_does_not_verify_is_refused(self, room: Room, words: list[str]) -> None:
        go = shutil.which("go")
        with entered_folder() as path:
            script = f'#!/bin/sh\n[ "$2" != verify ] || {{ echo it was modified; exit 1; }}\nexec {go} "$@"\n'
            write({f"{path}/go": script})
            os.chmod(f"{path}/go", 0o755)
            found = room.publish(*words, LINES, "v1.0.0", PATH=f"{path}:{room.env['PATH']}")
        assert found == refused(NOT_VERIFIED)


class TestHosts:
    """What stands against a version without a clone, which the go command fetches from the host of the path: a user's
    insteadOf here."""

    @pytest.fixture(scope="class")
    def hosted(self, room: Room) -> Repository:
        hosted = Repository(room, "hosted")
        hosted.commit(module("github.com/acme/tool"), "v1.0.0")
        hosted.commit({"tool.go": "package tool\n"})
        return hosted

    @pytest.fixture
    def publish(self, room: Room, hosted: Repository, login: list[str]) -> Callable[[str, str], Ran]:
        """Publishes a version by a path, whose host has the repository."""

        def publish(path: str, ref: str) -> Ran:
            settings = {"GIT_CONFIG_COUNT": "1", "GIT_CONFIG_VALUE_0": f"https://{path}"}
            settings["GIT_CONFIG_KEY_0"] = f"url.{hosted.folder}.insteadOf"
            return room.publish(*login, path, ref, **settings)

        return publish

    def test_another_path_is_refused(self, publish: Callable[[str, str], Ran]) -> None:
        assert publish("github.com/acme/wrong", "v1.0.0") == refused(OTHER_PATH)

    def test_a_branch_is_refused(self, publish: Callable[[str, str], Ran]) -> None:
        status, output, errors = publish("github.com/acme/tool", "main")
        assert (status, output) == (1, "")
        assert errors.startswith("publish: " + NO_VERSION.format(ref="main", front="", version="v1.0.1-0."))

    def test_what_is_no_version_is_refused(self, publish: Callable[[str, str], Ran]) -> None:
        wanted = "v1.0 is not a version: name the tag vMAJOR.MINOR.PATCH"
        assert publish("github.com/acme/wrong", "v1.0") == refused(wanted)

    def test_a_missing_tag_is_refused(self, publish: Callable[[str, str], Ran]) -> None:
        status, output, errors = publish("github.com/acme/wrong", "v9.9.9")
        assert (status, output) == (1, "")
        assert errors.startswith("publish: " + NO_ZIP.format(path="github.com/acme/wrong", ref="v9.9.9"))


def test_the_table_is_long() -> None:
    assert len(read_phrases()[0]) > 15


@pytest.mark.parametrize("phrase", read_phrases()[0])
def test_each_sentence_of_the_table_is_tested(phrase: str) -> None:
    assert has_sentence(phrase, SENTENCES)
