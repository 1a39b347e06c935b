"""The go command against `goshelf serve`: what it downloads, lists, gets and builds.

The store has two teams, and a third in a group. Versions are published by PUT. Expected values are Go's own rules (Go
Modules Reference) and sums that are made here from the zips.
"""

import os
from collections.abc import Iterator

import pytest

from lib.go_sessions import (
    ALPHA,
    BETA,
    COMMON,
    GETS,
    GREET,
    LISTINGS,
    NOT_ALPHAS,
    NOT_BETAS,
    ON_ALPHA,
    ON_BETA,
    ON_COMMON,
    PRINTED,
    PUBLISHED,
    READER,
    REQUIRED,
    Built,
    Developer,
    Gets,
    Listing,
    build_program,
    find_sums,
    get_all,
)
from lib.keys import KEYS
from lib.modules import Version, module, sums
from lib.program import done, run
from lib.scratch import entered_folder, read, write
from lib.servers import Server
from lib.stores import new_store

pytestmark = pytest.mark.needs("go")

GROUP, MEMBER = KEYS["P"], KEYS["M"]
ENTRIES = [(key, entry) for key, entries in PUBLISHED for entry in entries]
Replies = dict[tuple[str, str, str], tuple[int, bytes]]


def name_entry(entry: object) -> str | None:
    """Names a version by its path and version, and no other parameter."""
    return f"{entry[0]} {entry[1]}" if isinstance(entry, tuple) else None


def each_of(entries: list[Version]) -> pytest.MarkDecorator:
    """Makes a test for each of these versions."""
    return pytest.mark.parametrize("entry", entries, ids=name_entry)


def fill(folder: str) -> str:
    """Makes a store with two teams, a group and its team, and their keys."""
    store = os.path.join(folder, "shelves.db")
    shelves = ("alpha", ALPHA, READER), ("beta", BETA), ("common", COMMON), ("gamma", MEMBER, "", "platform")
    new_store(store, *shelves, groups=[("platform", GROUP)])
    return store


def publish_all(server: Server) -> Replies:
    """Publishes each version by PUT, and returns the replies."""
    return {(key, *entry[:2]): server.put(key, *entry) for key, entry in ENTRIES}


@pytest.fixture(scope="module")
def server() -> Iterator[Server]:
    """A server of the store. Each developer has a folder beside it."""
    with entered_folder() as folder:
        server = Server(fill(folder))
        yield server
        server.kill()


@pytest.fixture(scope="module")
def replies(server: Server) -> Replies:
    return publish_all(server)


def new_developer(server: Server, name: str, key: str) -> Developer:
    return Developer(server, os.path.join(os.path.dirname(server.store), name), key)


@pytest.fixture(scope="module")
def alpha(server: Server, replies: Replies) -> Developer:
    """A developer of alpha, whose key only reads."""
    return new_developer(server, "alpha", READER)


@pytest.fixture(scope="module")
def beta(server: Server, replies: Replies) -> Developer:
    return new_developer(server, "beta", BETA)


class TestPublishes:
    """Versions are published by PUT."""

    def test_the_server_prints_its_port(self, server: Server) -> None:
        assert server.line.startswith("listening on 127.0.0.1:")

    @pytest.mark.parametrize(("key", "entry"), ENTRIES, ids=name_entry)
    def test_a_version_is_published(self, key: str, entry: Version, replies: Replies) -> None:
        assert replies[key, *entry[:2]] == (201, b"published\n")

    def test_a_second_publish_finds_it(self, server: Server, replies: Replies) -> None:
        assert server.put(ALPHA, *GREET[0])[0] == 200

    def test_other_bytes_are_refused(self, server: Server, replies: Replies) -> None:
        assert server.put(ALPHA, *GREET[0][:3], b"other")[0] == 409

    def test_a_key_that_reads_is_refused(self, server: Server, replies: Replies) -> None:
        assert server.put(READER, *GREET[0])[0] == 403

    def test_a_path_that_is_not_the_go_mods_is_refused(self, server: Server) -> None:
        assert server.put(ALPHA, "example.com/greeT", *GREET[0][1:])[0] == 422

    def test_too_much_is_refused(self, server: Server) -> None:
        assert server.put(ALPHA, *GREET[0][:3], bytes(18_874_368))[0] == 413

    def test_the_store_is_locked_meanwhile(self, server: Server) -> None:
        status, _, errors = run(["key-revoke", "--db", server.store, "--key", READER])
        assert (status, errors) == (1, "goshelf: device\n")


class TestDownloads:
    """Two teams download from their own shelves and common, with the sums of what was published, and not from each
    other's."""

    @each_of([*ON_ALPHA, *ON_COMMON])
    def test_alpha_downloads(self, entry: Version, alpha: Developer) -> None:
        assert alpha.download(*entry[:2]) == find_sums(entry)

    @each_of([*ON_BETA, *ON_COMMON])
    def test_beta_downloads(self, entry: Version, beta: Developer) -> None:
        assert beta.download(*entry[:2]) == find_sums(entry)

    @pytest.mark.parametrize("query", NOT_ALPHAS)
    def test_alpha_misses(self, query: str, alpha: Developer) -> None:
        assert alpha.misses(query)

    @pytest.mark.parametrize("query", NOT_BETAS)
    def test_beta_misses(self, query: str, beta: Developer) -> None:
        assert beta.misses(query)

    @pytest.mark.parametrize("listing", LISTINGS, ids=str)
    def test_go_list(self, listing: Listing, alpha: Developer) -> None:
        ran = alpha.list(listing.words)
        assert (ran.status, ran.output) == (0, listing.wanted), ran.errors

    def test_beta_lists_its_own_version_of_a_path(self, beta: Developer) -> None:
        ran = beta.list("-versions example.com/words@latest")
        assert (ran.status, ran.output) == (0, "example.com/words v0.9.0"), ran.errors


class TestGets:
    """What `go get` writes into a go.mod."""

    @pytest.fixture(scope="class")
    def gets(self, server: Server, replies: Replies) -> Gets:
        return get_all(new_developer(server, "gets", READER))

    @pytest.mark.parametrize("query", GETS)
    def test_a_query_requires_a_version(self, query: str, gets: Gets) -> None:
        ran, version = gets.each[query]
        assert (ran.status, version) == (0, GETS[query]), ran

    def test_an_update_requires_the_latest(self, gets: Gets) -> None:
        assert gets.update.status == 0, gets.update
        assert gets.updated["example.com/base"] == "v1.1.0"

    def test_none_requires_it_no_more(self, gets: Gets) -> None:
        assert gets.none.status == 0, gets.none
        assert "example.com/greet" not in gets.rest

    def test_all_is_verified(self, gets: Gets) -> None:
        assert gets.verify[:2] == (0, "all modules verified"), gets.verify


class TestBuilds:
    """A program with dependencies on two shelves is tidied, verified, built and run."""

    @pytest.fixture(scope="class")
    def built(self, server: Server, replies: Replies) -> Built:
        return build_program(new_developer(server, "builds", READER))

    def test_it_is_tidied(self, built: Built) -> None:
        assert built.tidy.status == 0, built.tidy
        assert built.required == REQUIRED

    def test_it_is_built_and_run(self, built: Built) -> None:
        assert built.build.status == 0, built.build
        assert built.printed == PRINTED

    def test_it_is_verified(self, built: Built) -> None:
        assert built.verify[:2] == (0, "all modules verified"), built.verify

    def test_why_it_requires_a_module(self, built: Built) -> None:
        assert built.why[:2] == (0, "# example.com/base\nexample.com/app\nexample.com/base"), built.why

    def test_its_go_sum_has_the_lines_of_a_version(self, built: Built) -> None:
        path, version, gomod, zip_bytes = ON_COMMON[1]
        of_gomod, of_zip = sums(gomod, zip_bytes)
        assert {f"{path} {version} {of_zip}", f"{path} {version}/go.mod {of_gomod}"} <= set(built.sums)

    def test_goshelf_has_the_lines_of_each_go_mod(self, built: Built, server: Server) -> None:
        lines = [line for line in built.sums if "/go.mod h1:" in line]
        assert len(lines) > 2
        for line in lines:
            path, version = line.partition("/go.mod h1:")[0].split(" ")
            assert server.sum_line(READER, path, version) == line + "\n"


class TestTwoContents:
    """A version that `common` publishes after a team did: the team has its own, and a go.sum of one fails at the
    other."""

    PATH = "example.com/shared"
    OF_ALPHA, OF_COMMON = module(PATH, "v1.5.0"), module(PATH, "v1.5.0", more="// of common\n")
    NEXT, OTHER_NEXT = module(PATH, "v1.5.1"), module(PATH, "v1.5.1", more="// of alpha\n")

    @pytest.fixture(scope="class")
    def statuses(self, server: Server) -> list[int]:
        """The statuses of the publishes."""
        rows = (ALPHA, self.OF_ALPHA), (COMMON, self.OF_COMMON), (COMMON, self.NEXT), (ALPHA, self.OTHER_NEXT)
        return [server.put(key, *entry)[0] for key, entry in rows]

    @pytest.fixture(scope="class", params=["alpha", "beta"])
    def developer(self, request: pytest.FixtureRequest, server: Server, statuses: list[int]) -> Developer:
        key = {"alpha": READER, "beta": BETA}[request.param]
        return new_developer(server, f"shared-{request.param}", key)

    def test_alpha_cannot_publish_what_common_has(self, statuses: list[int]) -> None:
        assert statuses == [201, 201, 201, 409]

    def test_each_downloads_its_own(self, developer: Developer) -> None:
        own = self.OF_ALPHA if developer.key == READER else self.OF_COMMON
        assert developer.download(self.PATH, "v1.5.0") == find_sums(own)

    def test_both_download_the_next(self, developer: Developer) -> None:
        assert developer.download(self.PATH, "v1.5.1") == find_sums(self.NEXT)

    def test_a_module_builds_over_alphas_go_sum_by_alpha_alone(self, developer: Developer) -> None:
        path, is_alpha = self.PATH, developer.key == READER
        gomod = f"module example.com/app\n\ngo 1.17\n\nrequire {path} v1.5.0\n"
        developer.module("app", gomod, f'package main\n\nimport _ "{path}"\n\nfunc main() {{}}\n')
        of_gomod, of_zip = sums(*self.OF_ALPHA[2:])
        file = f"{developer.folder}/app/go.sum"
        write({file: f"{path} v1.5.0 {of_zip}\n{path} v1.5.0/go.mod {of_gomod}\n"})
        ran = developer.go("build", at="app")
        is_refused = "checksum mismatch" in ran.errors and "SECURITY ERROR" in ran.errors
        assert (ran.status == 0, is_refused) == (is_alpha, not is_alpha), ran
        developer.go("mod", "edit", f"-require={path}@v1.5.1", at="app")
        os.remove(file)
        ran = developer.go("mod", "tidy", at="app")
        assert ran.status == 0, ran
        assert b"v1.5.1 h1:" in read(file) and b"v1.5.0" not in read(file)


class TestGroups:
    """A team sees the versions of its group beside its own and common's. The group sees none of the team's, and
    another team sees neither."""

    PATH = "example.com/tools"
    FIRST, SECOND, OWN = (module("example.com/tools", version) for version in ("v1.0.0", "v1.1.0", "v1.2.0"))

    @pytest.fixture(scope="class")
    def statuses(self, server: Server, replies: Replies) -> list[int]:
        """The statuses of the publishes."""
        other = *self.FIRST[:3], b"other bytes"
        rows = (GROUP, self.FIRST), (GROUP, self.SECOND), (MEMBER, self.OWN), (MEMBER, other)
        return [server.put(key, *entry)[0] for key, entry in rows]

    @pytest.fixture(scope="class")
    def member(self, server: Server, statuses: list[int]) -> Developer:
        return new_developer(server, "gamma", MEMBER)

    @pytest.fixture(scope="class")
    def of_group(self, server: Server, statuses: list[int]) -> Developer:
        return new_developer(server, "platform", GROUP)

    def test_a_group_and_its_team_publish(self, statuses: list[int]) -> None:
        assert statuses == [201, 201, 201, 409]

    @each_of([FIRST, SECOND, OWN, *ON_COMMON])
    def test_the_team_downloads(self, entry: Version, member: Developer) -> None:
        assert member.download(*entry[:2]) == find_sums(entry)

    @each_of([FIRST, SECOND, *ON_COMMON])
    def test_the_group_downloads(self, entry: Version, of_group: Developer) -> None:
        assert of_group.download(*entry[:2]) == find_sums(entry)

    def test_the_team_lists_versions_along_its_chain(self, member: Developer) -> None:
        ran = member.list(f"-versions {self.PATH}@latest")
        assert (ran.status, ran.output) == (0, f"{self.PATH} v1.0.0 v1.1.0 v1.2.0"), ran.errors

    def test_the_group_lists_its_own_versions(self, of_group: Developer) -> None:
        ran = of_group.list(f"-versions {self.PATH}@latest")
        assert (ran.status, ran.output) == (0, f"{self.PATH} v1.0.0 v1.1.0"), ran.errors

    def test_the_group_misses_what_its_team_has(self, of_group: Developer) -> None:
        assert of_group.misses(f"{self.PATH}@v1.2.0")

    def test_another_team_misses_what_the_group_has(self, alpha: Developer, statuses: list[int]) -> None:
        assert alpha.misses(f"{self.PATH}@v1.0.0")

    def test_the_team_misses_what_another_has(self, member: Developer) -> None:
        assert member.misses("example.com/greet@v1.0.0")


class TestRestart:
    """A server is stopped, a key is revoked, and the server is started again."""

    @pytest.fixture(scope="class")
    def restarted(self) -> Iterator[Server]:
        with entered_folder() as folder:
            server = Server(fill(folder))
            publish_all(server)
            server.stop()
            done("key-revoke", "--db", server.store, "--key", READER)
            server = Server(server.store)
            yield server
            server.kill()

    @pytest.fixture(scope="class")
    def anew(self, restarted: Server) -> Developer:
        return new_developer(restarted, "anew", ALPHA)

    def test_the_server_prints_its_port(self, restarted: Server) -> None:
        assert restarted.line.startswith("listening on 127.0.0.1:")

    def test_the_revoked_key_misses_what_it_saw(self, restarted: Server) -> None:
        assert new_developer(restarted, "late", READER).misses("example.com/greet@v1.0.0")

    @each_of([*ON_ALPHA, *ON_COMMON])
    def test_another_key_downloads(self, entry: Version, anew: Developer) -> None:
        assert anew.download(*entry[:2]) == find_sums(entry)
