"""Stores that programs of schemas 1 and 2 made themselves answer as before once they are migrated.

So it is with what the go command asks. OLD_GOSHELF names a program of schema 2, and OLDEST_GOSHELF one of schema 1. The
first serves a store to the go command, behind a recorder that keeps each request and each reply; then the migrated
store is asked the same, and each reply has the same bytes. The second answers no port, so both are asked on standard
input. Tests of a program that is not named are skipped. These build them:

    for commit in 3075c4d c37c80c; do
        git clone -q . /tmp/$commit && git -C /tmp/$commit checkout -q $commit
        (cd /tmp/$commit && ./goshelf --help > /dev/null)
    done
    export OLDEST_GOSHELF=/tmp/3075c4d/crates/goshelf/out/goshelf OLD_GOSHELF=/tmp/c37c80c/crates/goshelf/out/goshelf
    tests/all tests/test_migrate_programs.py
"""

import os
import socketserver
import subprocess
import threading
from collections.abc import Sequence

import pytest

from lib.go_sessions import ALPHA, BETA, COMMON, PUBLISHED, READER, Developer, ask_all
from lib.keys import KEYS, SHELVES
from lib.messages import get, put, raw_replies
from lib.modules import escaped
from lib.needs import is_found
from lib.peers import exchanged
from lib.program import PROGRAM, run
from lib.scratch import entered_folder, read, write
from lib.servers import Server
from lib.worked import FILES, everything

# the programs of schemas 2 and 1
OLD, OLDEST = os.environ.get("OLD_GOSHELF", ""), os.environ.get("OLDEST_GOSHELF", "")
needs_old = pytest.mark.skipif(not OLD, reason="OLD_GOSHELF names no program of schema 2")
needs_oldest = pytest.mark.skipif(not OLDEST, reason="OLDEST_GOSHELF names no program of schema 1")
# a request and its reply
Exchange = tuple[bytes, bytes]


class Recorder(socketserver.ThreadingTCPServer):
    """Passes connections on to a server, and keeps the request and the reply of each."""

    allow_reuse_address, daemon_threads = True, True

    def __init__(self, port: int) -> None:
        self.behind = port
        self.kept: list[Exchange] = []
        super().__init__(("127.0.0.1", 0), Passing)
        threading.Thread(target=self.serve_forever, daemon=True).start()

    @property
    def port(self) -> int:
        return self.server_address[1]

    def sum_line(self, key: str, path: str, version: str) -> str:
        """Returns the go.sum line of a version's go.mod, as test_go_client asks for it."""
        request = get(f"-/gosum/{escaped(path)}/@v/{escaped(version)}", key)
        return exchanged(self.behind, request).partition(b"\r\n\r\n")[2].decode()


class Passing(socketserver.BaseRequestHandler):
    """One connection of a recorder."""

    server: Recorder

    def handle(self) -> None:
        request = b""
        while not request.endswith(b"\r\n\r\n"):
            if not (more := self.request.recv(65_536)):
                return
            request += more
        reply = exchanged(self.server.behind, request)
        self.server.kept.append((request, reply))
        self.request.sendall(reply)


# the shelves of test_go_client that schema 2 has, with their keys
OF_GO = (("beta", BETA), ("alpha", ALPHA, READER), ("common", COMMON))


def done_by(program: str, *words: str) -> None:
    """Runs a command of a program, which has to end well."""
    ran = subprocess.run([program, *words], capture_output=True)
    assert ran.returncode == 0, (words, ran)


def make_by(program: str, file: str, shelves: Sequence[tuple[str, ...]]) -> None:
    """Makes a store with these shelves by a program of its own."""
    done_by(program, "init", "--db", file)
    for shelf, *keys in shelves:
        if shelf != "common":
            done_by(program, "team-add", "--db", file, "--team", shelf)
        for number, key in enumerate(keys):
            words = ["key-add", "--db", file, "--shelf", shelf, "--key", key]
            done_by(program, *words, *(["--read-only"] if number else []))


def publish_by(program: str, file: str) -> None:
    """Publishes what test_go_client publishes."""
    requests = [
        put(escaped(path), escaped(version), gomod, zip_bytes, key, "2024-01-31T12:00:00Z")
        for key, entries in PUBLISHED
        for path, version, gomod, zip_bytes in entries
    ]
    assert {reply.split()[1] for reply in answers_by(program, file, requests)} == {b"201"}


def answers_by(program: str, file: str, requests: Sequence[bytes]) -> list[bytes]:
    """Returns what a program answers of a store, over its standard input and output."""
    ran = subprocess.run([program, "answer", "--db", file], input=b"".join(requests), capture_output=True, timeout=900)
    assert (ran.returncode, ran.stderr) == (0, b""), (ran.returncode, ran.stderr)
    return raw_replies(ran.stdout)


def check_as_before(program: str, old: str, new: str, requests: Sequence[bytes]) -> None:
    """Migrates the store of an older program, and checks that each answer has the same bytes."""
    wanted, before = answers_by(program, old, requests), read(old)
    assert len(wanted) > 20
    assert any(reply.split()[1] == b"200" for reply in wanted)
    assert run(["migrate", "--from", old, "--to", new]) == (0, b"", "")
    is_kept = read(old) == before
    assert is_kept, "the old file was changed"
    found = answers_by(PROGRAM, new, requests)
    assert len(found) == len(wanted)
    assert [number for number, pair in enumerate(zip(found, wanted)) if pair[0] != pair[1]] == []


def record_go(program: str, file: str) -> list[Exchange]:
    """Has the go command ask an older program for what it published, and returns what was asked and answered."""
    make_by(program, file, OF_GO)
    publish_by(program, file)
    with Server(file, program=program) as server, Recorder(server.port) as recorder:
        alpha, beta = (
            Developer(recorder, os.path.abspath(name), key) for name, key in (("alpha", READER), ("beta", BETA))
        )
        ask_all(alpha, beta)
        recorder.shutdown()
        return recorder.kept


@pytest.fixture(scope="module")
def traffic() -> list[Exchange]:
    """What the go command asked a program of schema 2 and was answered; nothing where one of both is missing."""
    if not OLD or not is_found("go"):
        return []
    with entered_folder():
        return record_go(OLD, "go.db")


@needs_old
def test_store_of_schema_2_answers_as_before(folder: str) -> None:
    write(FILES)
    make_by(OLD, "two.db", SHELVES)
    for letter, lines in (("B", "beta.csv"), ("A", "alpha.csv"), ("C", "common.csv")):
        done_by(OLD, "import", "--db", "two.db", "--key", KEYS[letter], "--list", lines)
    requests = [get(target, KEYS[letter]) for letter in "ARBCN" for target in everything()]
    check_as_before(OLD, "two.db", "two-new.db", requests)


@needs_old
@pytest.mark.needs("go")
def test_go_command_gets_the_bytes_that_schema_2_answered(folder: str, traffic: list[Exchange]) -> None:
    assert len(traffic) > 50
    make_by(OLD, "go.db", OF_GO)
    publish_by(OLD, "go.db")
    check_as_before(OLD, "go.db", "go-new.db", [request for request, _ in traffic])
    with Server("go-new.db") as server:
        unlike = [number for number, (request, reply) in enumerate(traffic) if exchanged(server.port, request) != reply]
    assert unlike == []


@needs_oldest
def test_store_of_schema_1_answers_as_before(folder: str, traffic: list[Exchange]) -> None:
    make_by(OLDEST, "one.db", OF_GO)
    publish_by(OLDEST, "one.db")
    paths = [(escaped(path), escaped(version)) for _, entries in PUBLISHED for path, version, _, _ in entries]
    files = ("@v/list", "@v/{}.info", "@v/{}.mod", "@v/{}.zip", "@latest")
    targets = sorted({f"{path}/{file}".format(version) for path, version in paths for file in files})
    keys = (ALPHA, READER, BETA, COMMON, KEYS["N"])
    requests = [get(target, key) for key in keys for target in (*targets, "-/modules")]
    check_as_before(OLDEST, "one.db", "one-new.db", [*requests, *(request for request, _ in traffic)])
