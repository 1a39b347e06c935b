"""Shelves in memory and in a file, which answer the same requests with the same bytes."""

import base64
import hashlib
import socket
import subprocess
import threading
from collections.abc import Iterable, Sequence

from lib.keys import KEY, MEMORY
from lib.messages import replies, reply
from lib.program import PROGRAM, run
from lib.stores import Group, Shelf, new_store

PUBLISHED = reply(201, b"published\n")
AGAIN = reply(200, b"already published\n")
BAD = reply(400, b"bad request\n")
FORBIDDEN = reply(403, b"forbidden\n")
NOT_FOUND = reply(404, b"not found\n")
CONFLICT = reply(409, b"conflict\n")
TOO_LARGE = reply(413, b"too large\n")
FULL = reply(507, b"full\n")
# to a GET of `-/modules` by a shelf that sees no module
NO_MODULE = reply(200, b"")


def zipped(body: bytes) -> bytes:
    """Returns the reply to a GET of a zip."""
    return reply(200, body, ".zip")


def info(version: str, time: str = "") -> bytes:
    """Returns the reply to a GET of an info or of @latest."""
    text = f'{{"Time":"{time}","Version":"{version}"}}' if time else f'{{"Version":"{version}"}}'
    return reply(200, text.encode(), ".info")


def gomod_sum(path: str, version: str, gomod: bytes) -> bytes:
    """Returns the line of go.sum for a go.mod file."""
    text = f"{hashlib.sha256(gomod).hexdigest()}  go.mod\n".encode()
    return f"{path} {version}/go.mod h1:{base64.b64encode(hashlib.sha256(text).digest()).decode()}\n".encode()


def answer(words: Sequence[str], requests: Iterable[bytes]) -> bytes:
    """Returns what one run of `goshelf answer` writes for these requests. It has to end well."""
    status, written, errors = run(["answer", *words], b"".join(requests), 600)
    assert (status, errors) == (0, ""), (status, errors)
    return written


class Memory:
    """Shelves in memory. Each run begins without any version, so it first publishes again what was taken before."""

    name, words, reader = "--mem", MEMORY, KEY

    def __init__(self) -> None:
        self.taken: list[bytes] = []

    def answer(self, requests: Sequence[bytes]) -> bytes:
        """Returns the bytes that answer these requests."""
        written, before = answer(self.words, [*self.taken, *requests]), PUBLISHED * len(self.taken)
        assert written.startswith(before), f"what was taken before is answered {written[: len(before)][:1000]!r}"
        written = written[len(before) :]
        self.taken += [request for request, (status, _) in zip(requests, replies(written)) if status == 201]
        return written


class File:
    """A store in a file with these groups and shelves, of which the first has a reader. Each run opens it."""

    name = "--db"

    def __init__(self, file: str, *shelves: Shelf, groups: Iterable[Group] = ()) -> None:
        self.file, self.words, self.reader = file, ["--db", file], shelves[0][2]
        new_store(file, *shelves, groups=groups)

    def answer(self, requests: Sequence[bytes]) -> bytes:
        """Returns the bytes that answer these requests."""
        return answer(self.words, requests)


def run_in_reads(words: Sequence[str], pieces: Iterable[bytes], timeout: float = 600) -> tuple[int, bytes, str]:
    """Runs goshelf as `run` does, on a standard input of which each read gives one piece. A piece is shorter than a
    read may be."""
    ours, theirs = socket.socketpair(socket.AF_UNIX, socket.SOCK_SEQPACKET)
    with theirs:
        program = subprocess.Popen(
            [PROGRAM, *words], stdin=theirs.fileno(), stdout=subprocess.PIPE, stderr=subprocess.PIPE
        )
    sender = threading.Thread(target=send, args=(ours, pieces))
    sender.start()
    written, errors = program.communicate(timeout=timeout)
    sender.join()
    return program.returncode, written, errors.decode()


def send(to: socket.socket, pieces: Iterable[bytes]) -> None:
    """Sends each piece, and then the end; ends early if the program reads no more."""
    with to:
        try:
            for piece in pieces:
                to.send(piece)
        except (BrokenPipeError, ConnectionResetError):
            pass
