"""What keys and servers say against a publish by goshelf-publish: goshelf, others, and those that never answer.

Each cause ends with status 1 and a sentence, and nothing is published. The answers of servers that are not goshelf are
those of a server in this file.
"""

import base64
import contextlib
import os
import re
import shutil
import signal
import socket
import subprocess
import threading
import time
from collections.abc import Callable, Iterator
from concurrent.futures import ThreadPoolExecutor
from typing import NamedTuple

import pytest

from lib.modules import escaped, h1, zipped
from lib.ports import free_port, wait_until
from lib.publish_sentences import (
    ANOTHER_TIME,
    ANSWERS,
    ANSWERS_TO_CHECKS,
    ANSWERS_TO_USERS,
    BAD_LINE,
    BUSY_ANSWERS,
    CLOSED,
    DEAF_PROXY,
    FORBIDDEN,
    IN_CLEAR,
    LOGINS,
    NO_ANSWER,
    NO_ANSWER_TO_CHECK,
    NO_HOST,
    NO_KEY,
    NO_NETRC,
    NO_PROXY,
    NO_TLS,
    NOBODY,
    OTHER_BYTES,
    REFUSED_KEYS,
    SENTENCES,
)
from lib.publishing import Answering, Refusal, has_sentence, read_phrases, refused
from lib.repositories import KEY, PUBLISH, READER, TIME, Ran, Repository, Room, greet_of, module
from lib.scratch import entered_folder, read, write
from lib.servers import Server
from lib.stores import new_store
from lib.terminal import OnTerminal, screen

pytestmark = pytest.mark.needs("git", "go", "ps")


@pytest.fixture(scope="module")
def room() -> Iterator[Room]:
    with entered_folder() as folder:
        yield Room(folder)


@pytest.fixture(scope="module")
def greet(room: Room) -> Repository:
    return greet_of(room)


@pytest.fixture
def publish(room: Room, greet: Repository) -> Callable[..., Ran]:
    """Publishes example.com/greet v1.0.0 with these words, by a key in a file unless they name a login."""

    def publish(*words: str, **how: object) -> Ran:
        login = [] if {"--key-file", "--netrc"} & set(words) else ["--key-file", f"{room.folder}/key"]
        return room.publish(*words, *login, "--repository", greet.folder, "example.com/greet", "v1.0.0", **how)

    return publish


class TestGoshelf:
    """What goshelf says."""

    @pytest.fixture(scope="class")
    def server(self, room: Room) -> Iterator[Server]:
        new_store(f"{room.folder}/shelves.db", ("alpha", KEY, READER))
        server = Server(f"{room.folder}/shelves.db")
        yield server
        server.kill()

    @pytest.fixture(scope="class")
    def other(self, room: Room, server: Server) -> Repository:
        """A repository, of which four versions are published without goshelf-publish: one as it makes them, one with
        changed files, one with another time, and one that is no zip."""
        other, path = Repository(room, "other"), "example.com/other"
        other.first = other.commit(module(path), "v1.0.0", "v1.1.0", "v1.2.0", "v1.3.0")
        files = other.files(other.first, "")
        for version, zip_bytes, stamp in (
            ("v1.0.0", zipped(path, "v1.0.0", files), TIME),
            ("v1.1.0", zipped(path, "v1.1.0", {**files, "other.go": b"package other\n"}), TIME),
            ("v1.2.0", zipped(path, "v1.2.0", files), "2024-02-01T12:00:00Z"),
            ("v1.3.0", b"rubbish", TIME),
        ):
            assert server.put(KEY, path, version, files["go.mod"], zip_bytes, stamp)[0] == 201
        return other

    @pytest.fixture(autouse=True)
    def stored(self, server: Server, other: Repository) -> Iterator[None]:
        """No test publishes anything."""
        yield
        paths = server.ask("GET", "-/modules")[1].decode().split()
        found = {path: server.ask("GET", f"{escaped(path)}/@v/list")[1].decode().split() for path in paths}
        assert found == {"example.com/other": ["v1.0.0", "v1.1.0", "v1.2.0", "v1.3.0"]}

    @pytest.mark.parametrize("row", REFUSED_KEYS, ids=str)
    def test_a_key_or_a_url_is_refused(
        self, row: Refusal, room: Room, server: Server, publish: Callable[..., Ran]
    ) -> None:
        to = [] if "--to " in row.words else ["--to", server.url]
        words = row.words.format(url=server.url, folder=room.folder).split()
        assert publish(*to, *words) == refused(row.sentence.format(url=server.url))

    def test_two_keys_are_refused(self, server: Server, publish: Callable[..., Ran]) -> None:
        keys = f"{KEY}\n{READER}\n".encode()
        assert publish("--to", server.url, "--key-file", "-", stdin=keys) == refused(NO_KEY)

    def publish_other(self, room: Room, server: Server, other: Repository, version: str, *words: str) -> Ran:
        words = (*words, "--to", server.url, "--key-file", f"{room.folder}/key", "--repository", other.folder)
        return room.publish(*words, "example.com/other", version)

    def test_the_same_files_in_another_zip_are_there(self, room: Room, server: Server, other: Repository) -> None:
        note = "publish: the zip there has other bytes, but the same files and sums\n"
        wanted = 0, "already published " + other.lines("example.com/other", "v1.0.0", other.first), note
        assert self.publish_other(room, server, other, "v1.0.0") == wanted

    @pytest.mark.parametrize("check", [[], ["--check"]], ids=["publish", "check"])
    def test_other_files_are_refused(self, check: list[str], room: Room, server: Server, other: Repository) -> None:
        files = {**other.files(other.first, ""), "other.go": b"package other\n"}
        there = h1([(f"example.com/other@v1.1.0/{name}", content) for name, content in files.items()])
        _, here, gomod = other.lines("example.com/other", "v1.1.0", other.first).splitlines()
        wanted = OTHER_BYTES.format(version="v1.1.0", there=there, here=here, gomod=gomod)
        assert self.publish_other(room, server, other, "v1.1.0", *check) == refused(wanted)

    @pytest.mark.parametrize("check", [[], ["--check"]], ids=["publish", "check"])
    def test_another_time_is_refused(self, check: list[str], room: Room, server: Server, other: Repository) -> None:
        assert self.publish_other(room, server, other, "v1.2.0", *check) == refused(ANOTHER_TIME)

    def test_what_is_there_may_be_rubbish(self, room: Room, server: Server, other: Repository) -> None:
        _, here, gomod = other.lines("example.com/other", "v1.3.0", other.first).splitlines()
        there = "(the go command reads no such zip)"
        wanted = OTHER_BYTES.format(version="v1.3.0", there=there, here=here, gomod=gomod)
        assert self.publish_other(room, server, other, "v1.3.0") == refused(wanted)

    def test_an_invalid_go_mod_is_refused(self, room: Room, server: Server) -> None:
        bad = Repository(room, "bad")
        bad.commit({**module("example.com/bad"), "go.mod": "module example.com/bad\n\nfrobnicate y\n"}, "v1.0.0")
        words = ["--to", server.url, "--key-file", f"{room.folder}/key", "--repository", bad.folder]
        assert room.publish(*words, "example.com/bad", "v1.0.0") == refused(BAD_LINE)


@pytest.fixture
def answering() -> Iterator[Answering]:
    server = Answering()
    yield server
    server.shutdown()
    server.server_close()


def name_answer(row: object) -> str | None:
    """Names a row of a table of answers by its status and the first line of its body."""
    return f"{row[0]} {row[1].partition(chr(10))[0]}".strip() if isinstance(row, tuple) else None


class TestAnswers:
    """What servers answer that are not goshelf, and what goshelf answers that is hard to bring about."""

    @pytest.mark.parametrize("row", ANSWERS, ids=name_answer)
    def test_an_answer_is_refused(self, row: tuple, answering: Answering, publish: Callable[..., Ran]) -> None:
        status, body, sentence = row
        answering.answer = status, body.replace("KEY", KEY).encode()
        code, output, errors = publish("--to", answering.url)
        found = code, output, re.sub(r"of \d+ bytes", "of SIZE bytes", errors)
        assert found == refused(sentence.format(url=answering.url))
        assert answering.commands and answering.shown_keys() == []

    @pytest.mark.parametrize("row", ANSWERS_TO_CHECKS, ids=name_answer)
    def test_an_answer_to_a_check_is_refused(
        self, row: tuple, answering: Answering, publish: Callable[..., Ran]
    ) -> None:
        status, body, sentence = row
        answering.answer = status, body.encode()
        assert publish("--check", "--to", answering.url) == refused(sentence.format(url=answering.url))
        assert answering.commands and answering.shown_keys() == []

    def test_a_server_without_tls_is_refused(self, answering: Answering, publish: Callable[..., Ran]) -> None:
        url = answering.url.replace("http", "https")
        status, output, errors = publish("--to", url)
        assert (status, output) == (1, "")
        assert errors.startswith("publish: " + NO_TLS.format(url=url))


class Tries(NamedTuple):
    """How a publish ended, what its server was asked, which keys stood among the words of a process meanwhile, and
    after how many seconds it ended."""

    url: str
    ran: Ran
    asked: list[tuple[str, str, str | None]]
    shown: list[str]
    seconds: float


# statuses before a server publishes, by how often it is asked again
FIRST = {"once": [429], "twice": [502, 503], "four times": [504, 429, 502, 503]}


class TestBusyServers:
    """A server that is busy is asked again, five times in all, and at most for half a minute."""

    @pytest.fixture(scope="class")
    def tries(self, room: Room, greet: Repository) -> dict[str, Tries]:
        """Publishes to servers that are busy first, and to others that stay so, all at once."""
        answers = {
            name: ([(status, b"unavailable\n") for status in first], (201, b"published\n"))
            for name, first in FIRST.items()
        }
        answers.update({str(status): ([], (status, body.encode())) for status, body, _ in BUSY_ANSWERS})
        with ThreadPoolExecutor(len(answers)) as pool:
            running = {name: pool.submit(self.publish, room, greet, name, *row) for name, row in answers.items()}
        return {name: run.result() for name, run in running.items()}

    @staticmethod
    def publish(room: Room, greet: Repository, name: str, first: list, answer: tuple[int, bytes]) -> Tries:
        """Publishes to a server that gives these answers, from a folder of its own."""
        os.mkdir(f"{room.folder}/busy {name}")
        own, server, begun = Room(f"{room.folder}/busy {name}"), Answering(), time.monotonic()
        server.first, server.answer = first, answer
        words = ["--to", server.url, "--key-file", f"{own.folder}/key", "--repository", greet.folder]
        ran = own.publish(*words, "example.com/greet", "v1.0.0")
        server.shutdown()
        server.server_close()
        return Tries(server.url, ran, server.asked, server.shown_keys(), time.monotonic() - begun)

    @pytest.mark.parametrize("name", FIRST)
    def test_a_busy_server_is_asked_again(self, name: str, tries: dict[str, Tries]) -> None:
        status, _, errors = tries[name].ran
        assert (status, errors) == (0, "")
        wanted = [("PUT", f"/k/{KEY}/example.com/greet/@v/v1.0.0", None)] * (len(FIRST[name]) + 1)
        assert tries[name].asked == wanted
        assert tries[name].shown == []

    @pytest.mark.parametrize("row", BUSY_ANSWERS, ids=name_answer)
    def test_a_server_that_stays_busy_is_asked_five_times(self, row: tuple, tries: dict[str, Tries]) -> None:
        found = tries[str(row[0])]
        assert found.ran == refused(row[2].format(url=found.url))
        assert len(found.asked) == 5
        assert found.shown == []
        assert found.seconds < 40

    def test_a_server_that_fails_is_asked_once(self, answering: Answering, publish: Callable[..., Ran]) -> None:
        answering.answer = 500, b""
        assert publish("--to", answering.url)[:2] == (1, "")
        assert len(answering.asked) == 1

    def test_progress_and_another_try_show_on_a_terminal(self, room: Room, answering: Answering) -> None:
        large = Repository(room, "large")
        large.commit({**module("example.com/large"), "data.bin": os.urandom(3_000_000)}, "v1.0.0")
        words = ["--to", answering.url, "--key-file", f"{room.folder}/key", "--repository", large.folder]
        answering.first, answering.answer = [(503, b"unavailable\n")], (201, b"published\n")
        run = OnTerminal(*words, "example.com/large", "v1.0.0", program=PUBLISH, env=room.env)
        status, output, shown = run.end()
        lines, _ = screen(shown.replace("\r\n", "\n\r"))
        assert status == 0 and output.startswith(b"published ")
        assert re.fullmatch(r"publish: sent (29\d\d) of \1 KiB", lines[0])
        assert lines[1:3] == [f"publish: {answering.url} answers 503, and is asked again in 500ms", lines[0]]


class TestLogins:
    """With --netrc the user stands in a header and no key in the path."""

    @pytest.fixture
    def netrc(self, room: Room) -> str:
        """A file with a login for the server."""
        write({f"{room.folder}/netrc": f"machine 127.0.0.1 login alpha password {KEY}\n"})
        return f"{room.folder}/netrc"

    def test_a_user_publishes(self, netrc: str, answering: Answering, publish: Callable[..., Ran]) -> None:
        answering.answer = 201, b"published\n"
        status, output, errors = publish("--to", answering.url, "--netrc", NETRC=netrc)
        assert (status, errors) == (0, "")
        assert output.startswith("published example.com/greet v1.0.0\n")
        user = "Basic " + base64.b64encode(f"alpha:{KEY}".encode()).decode()
        assert answering.asked == [("PUT", "/example.com/greet/@v/v1.0.0", user)]

    @pytest.mark.parametrize(
        ("words", "status", "body", "sentence"),
        [row[1:] for row in ANSWERS_TO_USERS],
        ids=[row[0] for row in ANSWERS_TO_USERS],
    )
    def test_a_user_is_refused(
        self,
        words: str,
        status: int,
        body: str,
        sentence: str,
        netrc: str,
        answering: Answering,
        publish: Callable[..., Ran],
    ) -> None:
        answering.answer = status, body.encode()
        found = publish(*words.split(), "--to", answering.url, "--netrc", NETRC=netrc)
        assert found == refused(sentence.format(url=answering.url, netrc=netrc))

    @pytest.mark.parametrize(("line", "sentence"), [row[1:] for row in LOGINS], ids=[row[0] for row in LOGINS])
    def test_a_login_is_refused(
        self, line: str, sentence: str, netrc: str, answering: Answering, publish: Callable[..., Ran]
    ) -> None:
        answering.answer = 401, b""
        write({netrc: f"machine {line}\n"})
        found = publish("--to", answering.url, "--netrc", NETRC=netrc)
        assert found == refused(sentence.format(url=answering.url, netrc=netrc))

    def test_a_missing_netrc_is_refused(self, room: Room, answering: Answering, publish: Callable[..., Ran]) -> None:
        netrc = f"{room.folder}/nosuch"
        found = publish("--to", answering.url, "--netrc", NETRC=netrc)
        assert found == refused(NO_NETRC.format(url=answering.url, netrc=netrc))

    def test_no_child_has_the_key_in_its_words_or_settings(
        self, room: Room, answering: Answering, publish: Callable[..., Ran]
    ) -> None:
        answering.answer = 201, b"published\n"
        with entered_folder() as at:
            for name in ("git", "go"):
                text = f'#!/bin/sh\n{{ env; echo "$@"; }} >> "{at}/seen"\nexec {shutil.which(name)} "$@"\n'
                write({f"{at}/{name}": text})
                os.chmod(f"{at}/{name}", 0o755)
            own = {"PATH": f"{at}:{room.env['PATH']}", "GOSHELF_KEY": KEY, "OTHER": "x"}
            own["URL"] = f"https://shelf.example/k/{KEY}"
            ran = publish("--to", answering.url, "--key-file", "-", stdin=KEY.encode(), **own)
            seen = read(f"{at}/seen").decode()
        assert ran[0] == 0
        assert KEY not in seen
        assert "OTHER=x" in seen and seen.count("LC_ALL=C") > 5


class TestTransfers:
    """A server that never answers, and a run that is stopped meanwhile."""

    @pytest.fixture
    def silent(self) -> Iterator[socket.socket]:
        """A server that takes connections and says nothing."""
        with socket.create_server(("127.0.0.1", 0), backlog=8) as listener:
            yield listener

    @pytest.mark.parametrize(
        ("check", "sentence"), [([], NO_ANSWER), (["--check"], NO_ANSWER_TO_CHECK)], ids=["publish", "check"]
    )
    def test_a_server_that_does_not_answer(
        self, check: list[str], sentence: str, silent: socket.socket, publish: Callable[..., Ran]
    ) -> None:
        url = url_of(silent)
        assert publish(*check, "--to", url, "--wait", "2") == refused(sentence.format(url=url))

    def test_a_stopped_run_leaves_no_file(self, room: Room, greet: Repository, silent: socket.socket) -> None:
        words = ["--to", url_of(silent), "--key-file", f"{room.folder}/key", "--repository", greet.folder]
        child = start_publish(room, *words, "example.com/greet", "v1.0.0", start_new_session=True)
        silent.settimeout(60)
        silent.accept()
        os.killpg(child.pid, signal.SIGTERM)
        child.communicate(timeout=60)
        assert (child.returncode, os.listdir(room.tmp)) == (143, [])

    def test_a_run_is_stopped_while_it_waits_for_a_key(
        self, room: Room, greet: Repository, silent: socket.socket
    ) -> None:
        words = ["--to", url_of(silent), "--key-file", "-", "--repository", greet.folder]
        child = start_publish(room, *words, "example.com/greet", "v1.0.0", stdin=subprocess.PIPE)
        wait_until(lambda: reads_input(child.pid))
        child.send_signal(signal.SIGINT)
        assert child.wait(timeout=30) == 130
        assert child.communicate() == (b"", b"")

    def test_a_server_that_hangs_up(self, silent: socket.socket, publish: Callable[..., Ran]) -> None:
        threading.Thread(target=lambda: silent.accept()[0].close(), daemon=True).start()
        status, output, errors = publish("--to", url_of(silent))
        assert (status, output) == (1, "")
        assert CLOSED in errors


def url_of(listener: socket.socket) -> str:
    return f"http://127.0.0.1:{listener.getsockname()[1]}"


def start_publish(room: Room, *words: str, **how: object) -> subprocess.Popen[bytes]:
    """Starts goshelf-publish."""
    return subprocess.Popen([PUBLISH, *words], env=room.env, stdout=subprocess.PIPE, stderr=subprocess.PIPE, **how)


def reads_input(pid: int) -> bool:
    """Whether a thread of a process waits for its standard input: in the system call 0, a read, of the file 0."""
    found = []
    for thread in os.listdir(f"/proc/{pid}/task"):
        with contextlib.suppress(OSError):
            found.append(read(f"/proc/{pid}/task/{thread}/syscall").split()[:2])
    return [b"0", b"0x0"] in found


class TestNames:
    """Names that no host has, proxies, and what goes in clear."""

    def test_nobody_listens(self, publish: Callable[..., Ran]) -> None:
        url = f"http://127.0.0.1:{free_port()}"
        assert publish("--to", url) == refused(NOBODY.format(url=url))

    def test_no_host_has_the_name(self, publish: Callable[..., Ran]) -> None:
        assert publish("--to", "https://nosuch.invalid") == refused(NO_HOST)

    def test_no_host_has_the_name_of_the_proxy(self, publish: Callable[..., Ran]) -> None:
        url = "https://shelf.example"
        found = publish("--to", url, https_proxy="http://nosuch.invalid:3128")
        assert found == refused(NO_PROXY.format(url=url))

    def test_nobody_listens_at_the_proxy(self, publish: Callable[..., Ran]) -> None:
        url = "https://shelf.example"
        found = publish("--to", url, https_proxy=f"http://127.0.0.1:{free_port()}")
        assert found == refused(DEAF_PROXY.format(url=url))

    def test_a_proxy_that_refuses(self, publish: Callable[..., Ran]) -> None:
        url = "https://shelf.example"
        with socket.create_server(("127.0.0.1", 0)) as listener:
            threading.Thread(target=lambda: forbid(listener.accept()[0]), daemon=True).start()
            found = publish("--to", url, https_proxy=url_of(listener))
        assert found == refused(FORBIDDEN.format(url=url))

    @pytest.mark.parametrize("login", ["--key-file", "--netrc"], ids=["by a key", "by a login"])
    # (net/http takes LOCALHOST for another machine, and asks a proxy for it)
    @pytest.mark.parametrize(
        "host", ["shelf.example", "10.0.0.1:8080", "127.0.0.1.shelf.example", "localhost.shelf.example", "LOCALHOST"]
    )
    def test_no_key_or_password_goes_in_clear(
        self, host: str, login: str, room: Room, publish: Callable[..., Ran]
    ) -> None:
        netrc = f"{room.folder}/default"
        write({netrc: f"default login alpha password {KEY}\n"})
        words = ["--to", f"http://{host}", *(["--netrc"] if login == "--netrc" else [])]
        assert publish(*words, NETRC=netrc) == refused(IN_CLEAR.format(host=host))


def forbid(connection: socket.socket) -> None:
    """Answers a request to a proxy, whatever it is, with a 403."""
    connection.recv(4096)
    connection.sendall(b"HTTP/1.1 403 Forbidden\r\n\r\n")
    connection.close()


def test_the_table_is_long() -> None:
    assert len(read_phrases()[1]) > 15


@pytest.mark.parametrize("phrase", read_phrases()[1])
def test_each_sentence_of_the_table_is_tested(phrase: str) -> None:
    assert has_sentence(phrase, SENTENCES)
