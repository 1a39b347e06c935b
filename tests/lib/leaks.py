"""Keys in requests: where a key may stand and in which form, and a search of files for it in any of these."""

import base64
import contextlib
import os
import re
import socket
import urllib.parse
from collections.abc import Callable, Iterable, Iterator, Mapping
from concurrent.futures import ThreadPoolExecutor

from lib.logins import log_in

# all that nginx writes on a machine
WRITTEN = ("var/log", "etc/nginx", "var/cache", "var/lib/nginx")
# where a key may stand in a target
TARGETS = (
    "/k/{}/example.com/alpha/core/@v/list",
    "/{}",
    "/example.com/{}/@v/list",
    "/example.com/alpha/{}/@v/v1.0.0.mod",
    "/example.com/alpha/core/@v/{}.info",
    "/example.com/alpha/core/@v/v1.0.0-{}.zip",
    "/pub.example/{}/@v/list",
    "/pub.example/{}/@v/v1.0.0.mod",
    "/pub.example/{}/@v/v1.0.0.zip",
    "/pub.example/lib/@v/{}.info",
    "/sumdb/sum.golang.org/lookup/pub.example/{}@v1.0.0",
    "/-/gosum/example.com/{}/@v/v1.0.0",
    "/m/{}/",
    "/{}/../login",
    "/{}/../example.com/alpha/core/@v/list",
    "/example.com/alpha/core/@v/list?key={}",
    "/?{}",
    "/healthz?{}",
    "/x#{}",
)
# of these, where each form of a key stands
FORMED = ("/example.com/{}/@v/list", "/pub.example/{}/@v/v1.0.0.mod")
HEADERS = (
    "Referer: https://x.example/{}",
    "Referer: |localhost|localhost|few|GET /{} HTTP/1.1",
    "User-Agent: {}",
    "Cookie: key={}",
    "Range: {}",
    "Host: {}.example.com",
    "Host: localhost:{}",
    "Host: localhost|few|GET /{}",
)
# heads that nginx cannot read, or does not want
BAD = (
    "GET {} HTTP/1.1\r\nHost: localhost",
    "GET /%zz{} HTTP/1.1\r\nHost: localhost",
    "GET /%00{} HTTP/1.1\r\nHost: localhost",
    "GET /../../{} HTTP/1.1\r\nHost: localhost",
    "GET / {} HTTP/1.1\r\nHost: localhost",
    "GET /{} HTTP/9.1\r\nHost: localhost",
    "GET /{} HTTP/1.1\r\nA: b",
    "GET /x HTTP/1.1\r\nHost: {}/",
    "GET /x HTTP/1.1\r\nHost: a\r\nHost: {}",
    "GET https://ann:{}@localhost/ HTTP/1.1\r\nHost: localhost",
    "GET https://{}.example.com/ HTTP/1.1\r\nHost: localhost",
    "{} /x HTTP/1.1\r\nHost: localhost",
    "CONNECT {}:443 HTTP/1.1\r\nHost: localhost",
    "GET /{}",
)
# what may part the words of a path, and so a key
MARKS = "-._~+@:/"
# the letters of a key as a method, which has no digit
LETTERS = str.maketrans("0123456789", "ABCDEFGHIJ")


def forms(key: str) -> list[str]:
    """Returns a key in each form in which somebody may put it into a target."""
    escaped = "".join(f"%{ord(letter):02x}" for letter in key)
    marked = re.sub("([a-z])", r"!\1", key)
    login = base64.urlsafe_b64encode(f"ann:{key}".encode()).decode()
    first = f"%{ord(key[0]):02X}{key[1:]}"
    forms = [key, key * 2, key.upper(), marked, marked.replace("!", "%21"), escaped, escaped.replace("%", "%25"), first]
    # with a space of no width, as a text on a page may have it
    spaced = f"{key[:13]}\xc2\xa0{key[13:]}"
    return [*forms, login, key.encode().hex(), f"{key}x", f"x-{key}.x", spaced, *parted(key)]


def parted(key: str) -> list[str]:
    """Returns a key in parts of fewer letters and digits than any key has."""
    halves = [f"{key[:13]}{mark}{key[13:]}" for mark in MARKS]
    many = [mark.join(key[at : at + 4] for at in range(0, len(key), 4)) for mark in "-./"]
    one_by_one = "".join(letter + MARKS[at % 7] for at, letter in enumerate(key))
    return [*halves, *many, one_by_one, f"{key[:11]}/@v/{key[11:]}", f"{key[:9].upper()}-!{key[9:]}"]


def heads(key: str, login: str) -> Iterator[str]:
    """Yields heads of requests that have a key somewhere, without their last two ends of lines. Most log in by a
    header, others by the key."""
    own = f"Host: localhost\r\nAuthorization: {login}"
    for target in (*TARGETS, *(f.replace("{}", form) for f in FORMED for form in forms(key))):
        yield f"GET {target.replace('{}', key)} HTTP/1.1\r\n{own}"
    for form in (key, *parted(key)):
        for method, target in (("HEAD", FORMED[0]), ("PUT", "/example.com/alpha/{}/@v/v1.0.0"), ("PUT", FORMED[1])):
            yield f"{method} {target.replace('{}', form)} HTTP/1.1\r\n{own}"
    for at in (12, 13, 14):
        yield f"PUT /example.com/alpha/{key[:at]}/@v/{key[at:]} HTTP/1.1\r\n{own}"
        yield f"GET /example.com/alpha/{key[:at]}/@v/{key[at:]}.mod HTTP/1.1\r\n{own}"
    yield f"{key.upper().translate(LETTERS)} /example.com/alpha/core/@v/v1.0.0 HTTP/1.1\r\n{own}"
    yield f"{key[:13].upper().translate(LETTERS)} /{key[13:]} HTTP/1.1\r\n{own}"
    for header in HEADERS:
        header = header.replace("{}", key)
        lines = header if header.startswith("Host") else f"Host: localhost\r\n{header}"
        for target in ("/example.com/alpha/core/@v/v7.7.7.mod", "/pub.example/none/@v/list"):
            yield f"GET {target} HTTP/1.1\r\n{lines}\r\nAuthorization: {login}"
    for word in (log_in(key), f"Basic {key}", f"Bearer {key}", key, log_in("x", key)):
        yield f"GET {TARGETS[0].replace('{}', key)} HTTP/1.1\r\nHost: localhost\r\nAuthorization: {word}"
    for head in BAD:
        yield head.replace("{}", key)


def placed(key: str, login: str, method: str) -> list[str]:
    """Returns heads of requests that log in and have a key in their targets."""
    places = (
        f"example.com/alpha/{key}/@v/v1.0.0",
        f"pub.example/{key}/@v/list",
        f"?{key}",
        f"healthz?{key}",
        f"k/{key}/x",
    )
    return [f"{method} /{place} HTTP/1.1\r\nHost: localhost\r\nAuthorization: {login}\r\n" for place in places]


def too_large_a_body(key: str, login: str) -> list[str]:
    return [f"{head}Content-Length: 20000000\r\n\r\n{key * 40}" for head in placed(key, login, "PUT")]


def too_large_a_chunk(key: str, login: str) -> list[str]:
    return [f"{head}Transfer-Encoding: chunked\r\n\r\n1400000\r\n{key * 40}" for head in placed(key, login, "PUT")]


def wrong_chunks(key: str, login: str) -> list[str]:
    return [f"{head}Transfer-Encoding: chunked\r\n\r\n{key}\r\n" for head in placed(key, login, "PUT")]


def large_body(key: str, login: str) -> list[str]:
    """A body that nginx writes into a file until it was sent on."""
    body = "module example.com/alpha/x\n" + key * 40_000
    lines = f"Mod-Length: 27\r\nContent-Length: {len(body)}\r\n\r\n{body}"
    return [head + lines for head in placed(key, login, "PUT")]


def half_a_body(key: str, login: str) -> list[str]:
    return [f"{head}Content-Length: 99\r\n\r\n{key}" for head in placed(key, login, "PUT")]


def too_long_a_header(key: str, login: str) -> list[str]:
    return [f"{head}X-Long: {key * 2000}\r\n\r\n" for head in placed(key, login, "GET")]


def too_long_a_target(key: str, login: str) -> list[str]:
    lines = f"HTTP/1.1\r\nHost: localhost\r\nAuthorization: {login}\r\n\r\n"
    return [f"GET {at}{key * 2000} {lines}" for at in ("/", "/?", "/k/", "/example.com/")]


def wrong_header(key: str, login: str) -> list[str]:
    lines = (f"{key}", f": {key}", f"Content-Length: {key}", f"A\0: {key}", f"Expect: {key}", f"{key}: a\0b")
    return [f"{head}{line}\r\n\r\n" for line in lines for head in placed(key, login, "GET")]


# requests that are wrong, each with a key, and whether the answer is awaited
WRONG = (
    too_large_a_body, too_large_a_chunk, wrong_chunks, large_body, too_long_a_header, too_long_a_target, wrong_header,
)  # fmt: skip
ROWS = (*((True, wrong) for wrong in WRONG), *((False, wrong) for wrong in (*WRONG, half_a_body)))


def send(connect: Callable[[], socket.socket], text: str, is_read: bool = True) -> None:
    """Sends a text on a connection of its own, and waits for the beginning of what comes back, or hangs up at once."""
    with contextlib.suppress(OSError), connect() as connection:
        connection.sendall(text.encode("latin-1"))
        if is_read:
            connection.settimeout(9)
            connection.recv(64)


def send_heads(connect: Callable[[], socket.socket], key: str, login: str) -> None:
    """Sends a key wherever it may stand, in requests that nginx reads, and in heads that it cannot."""
    with ThreadPoolExecutor(8) as pool:
        for head in heads(key, login):
            pool.submit(send, connect, f"{head}\r\nConnection: close\r\n\r\n")


def holders(folder: str, places: Iterable[str], keys: Mapping[str, str]) -> list[str]:
    """Returns the files below places of a folder that have one of these keys, each with the line that has it first."""
    found = []
    for name, text in read_below(f"{folder}/{place}" for place in places):
        for kind, key in keys.items():
            if holds(text, key):
                line = next((line for line in text.splitlines() if holds(line, key)), b"")
                found.append(f"{os.path.relpath(name, folder)}: {kind}: {line[:300]!r}")
    return found


def read_below(places: Iterable[str]) -> Iterator[tuple[str, bytes]]:
    """Yields the names and bytes of these files, and of all below these folders."""
    for place in places:
        names = [place] if os.path.isfile(place) else [f"{at}/{name}" for at, _, all in os.walk(place) for name in all]
        for name in names:
            if os.path.isfile(name):
                with open(name, "rb") as file:
                    yield name, file.read()


def holds(text: bytes, key: str) -> bool:
    """Whether a text has a key: as it is, in capitals, with their marks, percent-encoded, in base64, in hexadecimal, or
    parted by what is neither a letter nor a digit."""
    texts = [re.sub(rb"[\x80-\xff]|\\x[0-9a-f]{2}", b"", text.lower())]
    for _ in range(3):
        texts.append(urllib.parse.unquote_to_bytes(texts[-1]).lower())
    words = [key, key.encode().hex(), key.translate(LETTERS).lower(), key[:13].translate(LETTERS).lower() + key[13:]]
    joined = [re.sub(rb"/@v/|[^a-z0-9]", b"", one) for one in texts]
    if any(word.encode() in one for one in joined for word in words):
        return True
    return any(word in text for word in in_base64(key))


def in_base64(key: str) -> Iterator[bytes]:
    """Yields what base64 makes of a key, whatever stands before and behind it."""
    for before in range(3):
        word = base64.b64encode(b"\0" * before + key.encode())
        yield word[(before * 4 + 2) // 3 : -4]
