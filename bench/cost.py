#!/usr/bin/env python3
"""What a request costs `goshelf answer --mem`, and a GET `goshelf serve`.

Instructions are valgrind's count, reads strace's; peak memory is measured too. Build the program first (`./goshelf
--version`); it wants valgrind and strace. With --program FILE it measures that program. With --gets it measures GETs
alone, with --changes what opens, changes or misses in a file alone.
"""

import argparse
import fcntl
import os
import re
import socket
import subprocess
import sys
import tempfile
import termios
import time
from collections.abc import Callable, Iterator
from typing import IO

from answer import KEY, WORDS, Request, ask, get, publish
from shared import MIB, add_program, need, parser_of, run

ZIP = 16 * MIB
PATH, VERSION = "example.com/lib", "v1.0.0"
KINDS = {
    "a .mod": f"{PATH}/@v/{VERSION}.mod",
    "a .info": f"{PATH}/@v/{VERSION}.info",
    "a .zip": f"{PATH}/@v/{VERSION}.zip",
    "a list": f"{PATH}/@v/list",
    "@latest": f"{PATH}/@latest",
    "a .mod that is not there": f"{PATH}/@v/v9.9.9.mod",
    "a .mod of a path that is not there": "example.org/public/@v/v1.0.0.mod",
    "a list of a path that is not there": "example.org/public/@v/list",
    "@latest of a path that is not there": "example.org/public/@latest",
}


def stream_of(*requests: Request) -> IO[bytes]:
    """A file with these requests, at its start."""
    source = tempfile.TemporaryFile()
    for request in requests:
        source.writelines(request)
    source.seek(0)
    return source


def collected(text: bytes) -> int:
    """Returns the instructions that valgrind counted, by what it printed."""
    found = re.search(rb"Collected : (\d+)", text)
    if not found:
        sys.exit(f"valgrind counts nothing: {text.decode()}")
    return int(found.group(1))


def instructions(
    program: str,
    source: IO[bytes] | int,
    feed: Callable[[], None] | None = None,
    words: list[str] = WORDS,
) -> int:
    """How many instructions the program takes to answer what it reads, in memory unless other words are given."""
    with tempfile.TemporaryDirectory() as folder:
        line = ["valgrind", "--tool=callgrind", f"--callgrind-out-file={folder}/out", program, *words]
        child = subprocess.Popen(line, stdin=source, stdout=subprocess.DEVNULL, stderr=subprocess.PIPE)
        if feed:
            feed()
        return collected(child.communicate()[1])


def made(program: str, folder: str) -> str:
    """A new store in a file of the folder, with a team and a key."""
    store = os.path.join(tempfile.mkdtemp(dir=folder), "store.db")
    for words in (["team-add", "--team", "alpha"], ["key-add", "--shelf", "alpha", "--key", KEY]):
        subprocess.run([program, *words, "--db", store], check=True)
    return store


def of_a_get(program: str, rest: str, words: Callable[[], list[str]]) -> int:
    """How many instructions a GET takes of a store with one version. `words` gives the words of each run."""
    few, many = (
        instructions(program, stream_of(publish(PATH, VERSION), *(ask(rest) for _ in range(n))), words=words())
        for n in (1_000, 2_000)
    )
    return (many - few) // 1_000


def served(program: str, folder: str, count: int) -> int:
    """How many instructions `serve` takes, with its opening, to answer so many GETs of a small .mod, each on a
    connection of its own."""
    store = made(program, folder)
    with stream_of(publish(PATH, VERSION)) as source:
        subprocess.run([program, "answer", "--db", store], stdin=source, stdout=subprocess.DEVNULL, check=True)
    words = ["serve", "--db", store, "--port", "0", "--connections", str(count)]
    line = ["valgrind", "--tool=callgrind", f"--callgrind-out-file={folder}/out", program, *words]
    child = subprocess.Popen(line, stdout=subprocess.PIPE, stderr=subprocess.PIPE)
    assert child.stdout
    port = int(child.stdout.readline().rsplit(b":", 1)[1])
    request = b"".join(get(PATH, VERSION, "mod"))
    for _ in range(count):
        with socket.create_connection(("127.0.0.1", port)) as peer:
            peer.sendall(request)
            if not peer.makefile("rb").readline().startswith(b"HTTP/1.1 200 "):
                sys.exit("a GET was not answered 200")
    return collected(child.communicate()[1])


def byte_by_byte(program: str, stream: bytes) -> int:
    """How many instructions the program takes to answer a stream of which each read brings one byte."""
    reading, writing = os.pipe()

    def feed() -> None:
        left = bytearray(4)
        for byte in stream:
            while int.from_bytes(fcntl.ioctl(reading, termios.FIONREAD, bytes(left)), sys.byteorder):
                time.sleep(0.00001)
            os.write(writing, bytes([byte]))
        os.close(writing)

    count = instructions(program, reading, feed)
    os.close(reading)
    return count


def reads(program: str, source: IO[bytes]) -> int:
    """How often the program reads its input."""
    with tempfile.NamedTemporaryFile() as trace:
        words = ["strace", "-e", "trace=read", "-o", trace.name, program, *WORDS]
        subprocess.run(words, stdin=source, stdout=subprocess.DEVNULL)
        return sum(line.startswith(b"read(0,") for line in trace)


def peak(program: str, source: IO[bytes]) -> tuple[float, list[str]]:
    """The peak of the program's memory, in MiB, and the statuses of its first replies."""
    with tempfile.TemporaryFile() as target:
        took = run([program, *WORDS], source, target)
        target.seek(0)
        statuses = re.findall(rb"HTTP/1.1 (\d+) ", target.read(4096))
    return took.peak, [status.decode() for status in statuses]


def put(key: str = KEY, path: str = PATH, module: str = PATH) -> Iterator[bytes]:
    parts = publish(path, VERSION, ZIP)
    head = next(parts).replace(KEY.encode(), key.encode())
    yield head.replace(f"module {path}".encode(), f"module {module}".encode())
    yield from parts


def long_heads() -> Iterator[tuple[str, bytes]]:
    """Heads of 16,384 bytes: one long value, 60 headers, one long target."""
    start, end = b"GET /k/x HTTP/1.1\r\n", b"\r\n\r\n"
    yield "one value", start + b"A: " + b"x" * (16_384 - len(start) - len(end) - 3) + end
    rows = b"".join(b"Header-%02d: " % n + b"y" * 256 + b"\r\n" for n in range(60))
    yield "60 headers", start + rows + b"Z: " + b"x" * (16_384 - len(start) - len(rows) - len(end) - 3) + end
    yield "one target", b"GET /" + b"x" * (16_384 - 5 - 9 - 4) + b" HTTP/1.1" + end


def changes(program: str, folder: str) -> Iterator[tuple[str, int]]:
    """What an opening, a publish of a new path and a first GET of a path that is not there take, of a store in a file:
    names and instructions."""

    def of(*requests: Request) -> int:
        return instructions(program, stream_of(*requests), words=["answer", "--db", made(program, folder)])

    def each(request: Callable[[int], Request]) -> int:
        few, many = (of(publish(PATH, VERSION), *map(request, range(100, last))) for last in (300, 500))
        return (many - few) // 200

    yield "an opening and a closing", of()
    yield "a publish of a new path", each(lambda number: publish(f"example.com/new{number}", VERSION))
    yield "a first GET of a path that is not there", each(
        lambda number: ask(f"example.org/public{number}/@v/v1.0.0.mod")
    )


def options() -> argparse.Namespace:
    parser = parser_of(__doc__)
    add_program(parser)
    alone = parser.add_mutually_exclusive_group()
    alone.add_argument("--gets", action="store_true", help="measure GETs alone")
    alone.add_argument("--changes", action="store_true", help="measure what opens, changes or misses alone")
    return parser.parse_args()


def main() -> None:
    words = options()
    program = words.program
    need(program)
    with tempfile.TemporaryDirectory() as folder:
        if words.changes:
            for name, count in changes(program, folder):
                print(f"{name}: {count:,} instructions")
            return
        for name, rest in KINDS.items():
            memory = of_a_get(program, rest, lambda: WORDS)
            file = of_a_get(program, rest, lambda: ["answer", "--db", made(program, folder)])
            print(f"a GET of {name}: {memory:,} instructions in memory, {file:,} in a file")
        counts = [served(program, folder, n) for n in (100, 300)]
    print(f"a GET of a .mod by serve, on a connection of its own: {(counts[1] - counts[0]) // 200:,} instructions")
    if words.gets:
        return
    nothing = instructions(program, stream_of())
    for name, head in long_heads():
        whole = instructions(program, stream_of([head])) - nothing
        print(
            f"a head of {len(head):,} bytes, {name}: {whole:,} instructions at once,"
            f" {byte_by_byte(program, head) - nothing:,} byte by byte"
        )
    print(f"a first PUT with a zip of 16 MiB: {reads(program, stream_of(put())):,} reads")
    for name, requests in {
        "a first PUT": [put()],
        "the same PUT again": [put(), put()],
        "a PUT with an unknown key": [put(key="alphakey00000002")],
        "a PUT that is refused": [put(module="example.com/bil")],
        "a GET of the zip": [put(), get(PATH, VERSION, "zip")],
    }.items():
        most, statuses = peak(program, stream_of(*requests))
        times = f"{most * MIB / ZIP:.2f} times the zip"
        print(f"{name}: {most:.1f} MiB at the peak, {times} ({', '.join(statuses)})")


if __name__ == "__main__":
    main()
