"""The worked rows over a file, by runs, in one stream and by `serve`, and over `--mem`."""

import base64
import functools
import hashlib
from collections.abc import Callable, Iterator, Sequence
from dataclasses import dataclass
from typing import NamedTuple

import pytest

from lib.keys import KEY, KEYS, MEMORY, PLATFORM, SHELVES
from lib.messages import Dialogue, Exchange, put, raw_replies
from lib.peers import exchanged
from lib.program import answered, refusal, run
from lib.scratch import entered_folder
from lib.servers import Server
from lib.shelves import answer
from lib.stores import add_platform, new_store
from lib.worked import copy_store
from lib.worked_rows import CHAIN_REQUESTS, GROUP_REQUESTS, MEMBER_REQUESTS, REQUESTS, STREAMS, SUMS, SWEPT, read_rows


@dataclass(frozen=True, eq=False)
class Session:
    """Rows that are asked of a store: a copy of one of STORES, or `--mem`."""

    name: str
    store: str
    rows: Sequence[Exchange]

    def __str__(self) -> str:
        return self.name


def make_requested(file: str) -> None:
    """Makes a store that has what REQUESTS publish, and the group platform."""
    new_store(file, *SHELVES)
    answered(["--db", file], [request for row in read_rows(REQUESTS) for request in row.requests])
    add_platform(file)


def make_grouped(file: str) -> None:
    """Makes a store of no version that has the group platform."""
    new_store(file, *SHELVES)
    add_platform(file)


def make_swept(file: str) -> None:
    """Makes the store of SWEPT."""
    new_store(file, ("alpha", KEY, "", "platform"), ("beta", KEYS["B"]), ("common", KEYS["C"]), groups=[PLATFORM])
    of_alpha = put("example.com/lib", "v1.0.0", b"module example.com/lib\n", b"Z")
    of_common = put("example.com/x", "v1.0.0", b"module example.com/x\n", b"X", KEYS["C"])
    assert answered(["--db", file], [of_alpha, of_common]) == [(201, b"published\n")] * 2


STORES: dict[str, Callable[[str], None]] = {
    "new": lambda file: new_store(file, *SHELVES),
    "requested": make_requested,
    "grouped": make_grouped,
    "swept": make_swept,
}
FILES = [
    Session("requests", "new", read_rows(REQUESTS)),
    Session("sums", "new", read_rows(SUMS)),
    Session("swept", "swept", read_rows(SWEPT)),
]
STREAMED = Session("streams", "new", read_rows(STREAMS))
GROUPS = [
    Session("groups", "requested", read_rows(GROUP_REQUESTS)),
    Session("chain", "grouped", read_rows(CHAIN_REQUESTS)),
    Session("members", "grouped", read_rows(MEMBER_REQUESTS)),
]
IN_MEMORY = [
    Session("--mem requests", "--mem", read_rows(REQUESTS, True)),
    Session("--mem groups", "--mem", read_rows(GROUP_REQUESTS, True)),
    Session("--mem sums", "--mem", read_rows(SUMS, True)),
]
STREAMED_IN_MEMORY = Session("--mem streams", "--mem", read_rows(STREAMS))


def parametrize_rows(sessions: Sequence[Session]) -> pytest.MarkDecorator:
    """Has a test look at each row of sessions: at its session, and at its number there."""
    cases = [(session, number) for session in sessions for number in range(len(session.rows))]
    return pytest.mark.parametrize(
        "session, number", cases, ids=[f"{session}, {session.rows[number]}" for session, number in cases]
    )


def parametrize_sessions(sessions: Sequence[Session]) -> pytest.MarkDecorator:
    return pytest.mark.parametrize("session", sessions, ids=str)


Opener = Callable[[Session], list[str]]


@pytest.fixture(scope="module")
def stores() -> Iterator[Callable[[str], str]]:
    """Returns the file of one of STORES, which is made when it is first wanted."""
    with entered_folder() as folder:

        @functools.cache
        def store(name: str) -> str:
            file = f"{folder}/{name}.db"
            STORES[name](file)
            return file

        yield store


@pytest.fixture(scope="class")
def open_store(stores: Callable[[str], str]) -> Iterator[Opener]:
    """Returns the words that open the store of a session, which no other session has."""
    with entered_folder() as folder:

        def words(session: Session) -> list[str]:
            if session.store == "--mem":
                return MEMORY
            file = f"{folder}/{session.name}.db"
            copy_store(stores(session.store), file)
            return ["--db", file]

        yield words


@pytest.fixture(scope="class")
def dialogues(open_store: Opener) -> Callable[[Session], Dialogue]:
    """Returns the dialogue of a session, of which each row is asked in a run of its own."""

    @functools.cache
    def dialogue(session: Session) -> Dialogue:
        words = open_store(session)
        return Dialogue(session.rows, lambda requests: answer(words, requests))

    return dialogue


class TestRuns:
    @parametrize_rows([*FILES, STREAMED, STREAMED_IN_MEMORY])
    def test_reply(self, dialogues: Callable[[Session], Dialogue], session: Session, number: int) -> None:
        assert not dialogues(session).find_difference(number)


class TestRunsOfGroups:
    @parametrize_rows(GROUPS)
    def test_reply(self, dialogues: Callable[[Session], Dialogue], session: Session, number: int) -> None:
        assert not dialogues(session).find_difference(number)


class Stream(NamedTuple):
    """The rows of a session in one stream: the status, the errors and the number of replies, and each reply."""

    ending: tuple[int, str, int]
    dialogue: Dialogue


class TestOneStream:
    """All rows are asked in one stream."""

    @pytest.fixture(scope="class")
    def streams(self, open_store: Opener) -> Callable[[Session], Stream]:
        @functools.cache
        def stream(session: Session) -> Stream:
            requests = b"".join(row.requests[0] for row in session.rows)
            status, output, errors = run(["answer", *open_store(session)], requests)
            found = raw_replies(output)
            replies = iter(found)
            return Stream((status, errors, len(found)), Dialogue(session.rows, lambda _: next(replies)))

        return stream

    @parametrize_sessions([*FILES, *GROUPS, *IN_MEMORY])
    def test_stream_ends_well_with_a_reply_to_each_request(
        self, streams: Callable[[Session], Stream], session: Session
    ) -> None:
        assert streams(session).ending == (0, "", len(session.rows))

    @parametrize_rows([*FILES, *GROUPS, *IN_MEMORY])
    def test_reply(self, streams: Callable[[Session], Stream], session: Session, number: int) -> None:
        assert not streams(session).dialogue.find_difference(number)


class Served(NamedTuple):
    """The rows of a session, and the server that they are asked of, which ends after as many connections."""

    server: Server
    dialogue: Dialogue


class TestServe:
    """Each row is asked of `serve`, on a connection of its own."""

    @pytest.fixture(scope="class")
    def served(self, open_store: Opener, module_serve: Callable[..., Server]) -> Callable[[Session], Served]:
        @functools.cache
        def serve(session: Session) -> Served:
            _, file = open_store(session)
            server = module_serve(file, None, "--connections", str(len(session.rows)))
            return Served(server, Dialogue(session.rows, lambda requests: exchanged(server.port, b"".join(requests))))

        return serve

    @parametrize_rows(GROUPS)
    def test_reply(self, served: Callable[[Session], Served], session: Session, number: int) -> None:
        assert not served(session).dialogue.find_difference(number)

    @parametrize_sessions(GROUPS)
    def test_server_ends_well_after_all_rows(self, served: Callable[[Session], Served], session: Session) -> None:
        server, dialogue = served(session)
        dialogue.find_difference(len(session.rows) - 1)
        assert server.child.wait(60) == 0


# team-is-no-group and name-shared
@pytest.mark.parametrize(
    "line, word",
    [
        ("team-add --db store.db --team eps --group alpha", "no-group"),
        ("group-add --db store.db --group gamma", "taken"),
    ],
)
def test_a_name_has_one_kind(folder: str, stores: Callable[[str], str], line: str, word: str) -> None:
    copy_store(stores("requested"), "store.db")
    assert run(line.split()) == refusal(word)


@pytest.mark.parametrize(
    "path, version",
    [
        ("example.com/lib", "v1.0.0"),
        ("example.com/x", "v1.0.0"),
        ("example.com/Lib", "v1.0.0-a.mod"),
        ("example.com/t", "v1.5.0"),
    ],
)
def test_sum_of_the_rows_is_that_of_hashlib(path: str, version: str) -> None:
    hash_of_gomod = hashlib.sha256(f"module {path}\n".encode()).hexdigest()
    hash_of_list = hashlib.sha256(f"{hash_of_gomod}  go.mod\n".encode()).digest()
    line = f"{path} {version}/go.mod h1:{base64.b64encode(hash_of_list).decode()};"
    assert f" | 200 {line}\n" in SUMS + GROUP_REQUESTS
