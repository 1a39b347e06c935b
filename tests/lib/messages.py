"""Requests to goshelf and its replies, as bytes."""

from collections.abc import Callable, Iterable, Sequence
from typing import NamedTuple

from lib.keys import KEY


def get(target: str, key: str = KEY) -> bytes:
    """Returns a GET request of a target below the key, as `example.com/lib/@v/list`."""
    return f"GET /k/{key}/{target} HTTP/1.1\r\n\r\n".encode()


def put(path: str, version: str, gomod: bytes, zip_bytes: bytes = b"", key: str = KEY, time: str = "") -> bytes:
    """Returns a publish. The path and the version are sent as they are, unescaped."""
    lines = [
        f"PUT /k/{key}/{path}/@v/{version} HTTP/1.1",
        f"Mod-Length: {len(gomod)}",
        f"Content-Length: {len(gomod) + len(zip_bytes)}",
        *([f"Version-Time: {time}"] if time else []),
    ]
    return "".join(f"{line}\r\n" for line in [*lines, ""]).encode() + gomod + zip_bytes


def raw_replies(stream: bytes) -> list[bytes]:
    """Returns the replies of a stream, each as its bytes."""
    found, at = [], 0
    while at < len(stream):
        end = stream.index(b"\r\n\r\n", at) + 4
        lines = stream[at:end].split(b"\r\n")
        length = next(int(line.split(b":")[1]) for line in lines if line.lower().startswith(b"content-length:"))
        found.append(stream[at : end + length])
        at = end + length
    return found


def replies(stream: bytes) -> list[tuple[int, bytes]]:
    """Returns the replies of a stream, each as its status and its body."""
    return [(int(raw.split()[1]), raw.partition(b"\r\n\r\n")[2]) for raw in raw_replies(stream)]


PHRASES: dict[int, str] = {
    200: "OK", 201: "Created", 400: "Bad Request", 403: "Forbidden", 404: "Not Found", 409: "Conflict",
    413: "Payload Too Large",
    422: "Unprocessable Entity", 503: "Service Unavailable", 507: "Insufficient Storage",
}  # fmt: skip
KINDS: dict[str, str] = {".zip": "application/zip", ".info": "application/json", "@latest": "application/json"}


def reply(status: int, body: bytes, target: str = "") -> bytes:
    """Returns the bytes of a reply. The target of a GET decides the type of the body of a 200."""
    kinds = [kind for end, kind in KINDS.items() if status == 200 and target.endswith(end)]
    head = f"HTTP/1.1 {status} {PHRASES[status]}\r\nContent-Type: {(kinds or ['text/plain; charset=utf-8'])[0]}\r\n"
    return head.encode() + f"Content-Length: {len(body)}\r\nConnection: close\r\n\r\n".encode() + body


def find_difference(found: bytes, wanted: bytes) -> str:
    """Returns how bytes differ from those that were wanted, from a little before the first; nothing if they do not.

    Many megabytes are compared at once, where pytest's own comparison takes minutes."""
    if found == wanted:
        return ""
    unlike = (at for at, (one, other) in enumerate(zip(found, wanted)) if one != other)
    start = max(0, next(unlike, min(len(found), len(wanted))) - 100)
    return f"from byte {start} on: found {shorten(found[start:])}, wanted {shorten(wanted[start:])}"


def shorten(content: bytes, most: int = 300) -> str:
    """Returns bytes as Python writes them, cut to a length."""
    return repr(content) if len(content) <= most else f"{content[:most]!r}.. ({len(content)} bytes)"


class Exchange(NamedTuple):
    """A named row: requests to a store, and the bytes of all replies to them."""

    name: str
    requests: list[bytes]
    wanted: bytes

    def __str__(self) -> str:
        return self.name


# an exchange as tables have it: its name, the requests, and the reply to each
Row = tuple[str, list[bytes], list[bytes]]


def read_exchanges(rows: Iterable[Row]) -> list[Exchange]:
    return [Exchange(name, requests, b"".join(wanted)) for name, requests, wanted in rows]


class Dialogue:
    """Exchanges with one store, made in order. A test of one exchange makes those before it first."""

    def __init__(self, exchanges: Sequence[Exchange], answer: Callable[[list[bytes]], bytes]) -> None:
        self.exchanges, self.answer = exchanges, answer
        self.differences: list[str] = []

    def find_difference(self, number: int) -> str:
        """Returns what is wrong with the replies of an exchange, behind its requests; nothing if they are right."""
        while len(self.differences) <= number:
            made = self.exchanges[len(self.differences)]
            difference = find_difference(self.answer(made.requests), made.wanted)
            if difference:
                difference = f"{made.name}: asked {shorten(b''.join(made.requests))}: {difference}"
            self.differences.append(difference)
        return self.differences[number]


def number_exchanges(exchanges: Sequence[Exchange]) -> dict:
    """Returns the words of `parametrize` for tests of a dialogue: a number for each exchange, named by its row."""
    return {"argnames": "number", "argvalues": range(len(exchanges)), "ids": [row.name for row in exchanges]}
