#!/usr/bin/env python3
"""Speed and memory of `goshelf answer --mem`: makes streams of requests and runs the built program on them.

Build the program first (`./goshelf --version`); GOSHELF names another program. Each line has requests a second, bytes
a second in and out, and the peak memory of the run. With --quick the streams are a tenth as long.
"""

import itertools
import os
import subprocess
import sys
import tempfile
import time
from collections.abc import Iterable, Iterator

from shared import MIB, PROGRAM, add_quick, need, parser_of, place, run

from lib.keys import KEY, MEMORY

BLOCK = bytes(range(256)) * 256
WORDS = ["answer", *MEMORY]
# the parts of a request, in order
Request = Iterable[bytes]


def publish(path: str, version: str, zip_length: int = 0) -> Iterator[bytes]:
    """Yields the parts of a PUT with a zip of that many bytes."""
    gomod = f"module {path}\n".encode()
    yield (
        f"PUT /k/{KEY}/{path}/@v/{version} HTTP/1.1\r\n"
        f"Mod-Length: {len(gomod)}\r\nContent-Length: {len(gomod) + zip_length}\r\n\r\n"
    ).encode() + gomod
    while zip_length > 0:
        yield BLOCK[: min(zip_length, len(BLOCK))]
        zip_length -= len(BLOCK)


def ask(rest: str) -> Iterator[bytes]:
    yield f"GET /k/{KEY}/{rest} HTTP/1.1\r\n\r\n".encode()


def get(path: str, version: str, kind: str) -> Iterator[bytes]:
    return ask(f"{path}/@v/{version}.{kind}")


def answered(requests: Iterable[Request]) -> tuple[float, float, int, int]:
    """Runs the program on a stream, and returns the seconds, the peak in MiB, and the bytes that it read and wrote.

    The stream is written to a file part by part so that this process stays small: a child's peak memory begins at its
    parent's.
    """
    with tempfile.TemporaryFile() as source, tempfile.TemporaryFile() as target:
        for request in requests:
            source.writelines(request)
        sent = source.tell()
        source.seek(0)
        took = run([PROGRAM, *WORDS], source, target)
        return took.seconds, took.peak, sent, os.fstat(target.fileno()).st_size


def measure(name: str, count: int, requests: Iterable[Request]) -> float:
    """Prints what a stream takes, and returns the peak in MiB."""
    seconds, peak, sent, got = answered(requests)
    print(
        f"{name}: {count / seconds:,.0f} requests/s, {sent / seconds / 1e6:,.1f} MB/s in, "
        f"{got / seconds / 1e6:,.1f} MB/s out, {seconds:.2f} s, peak {peak:,.1f} MiB"
    )
    return peak


def gets_on_a_store(entries: int, gets: int) -> float:
    """Returns the seconds of this many GETs on a store of this many versions, without the time of making the store."""
    publishes = lambda: (publish(*place(n)) for n in range(entries))
    # The asked versions are spread over the store.
    asked = (get(*place(n * 7919 % entries), "mod") for n in range(gets))
    before, *_ = answered(publishes())
    after, peak, *_ = answered(itertools.chain(publishes(), asked))
    seconds = max(after - before, 1e-9)
    print(
        f"{gets:,} GETs of a .mod on a store of {entries:,} versions: {gets / seconds:,.0f} requests/s "
        f"({seconds:.2f} s beside {before:.2f} s for the store), peak {peak:,.1f} MiB"
    )
    return seconds


def on_one_path(name: str, versions: int, count: int, rest: str) -> None:
    """Prints requests a second of one question about a path of this many versions, without the time of publishes."""
    publishes = lambda: (publish("example.com/many", f"v1.{n // 64}.{n % 64}") for n in range(versions))
    before, *_ = answered(publishes())
    after, peak, *_ = answered(itertools.chain(publishes(), (ask(rest) for _ in range(count))))
    seconds = max(after - before, 1e-9)
    print(f"{count:,} {name} of {versions:,} versions: {count / seconds:,.0f} requests/s, peak {peak:,.1f} MiB")


def in_pieces(length: int, requests: Iterable[Request]) -> None:
    """Prints the speed and the peak of the program on a stream that comes through a pipe in pieces of many bytes."""
    stream = b"".join(itertools.chain.from_iterable(requests))
    with tempfile.TemporaryFile() as target:
        started = time.monotonic()
        child = subprocess.Popen([PROGRAM, *WORDS], stdin=subprocess.PIPE, stdout=target, bufsize=0)
        assert child.stdin
        for at in range(0, len(stream), length):
            child.stdin.write(stream[at : at + length])
        child.stdin.close()
        _, status, usage = os.wait4(child.pid, 0)
        seconds = time.monotonic() - started
    if status != 0:
        sys.exit(f"the program ended with wait status {status}")
    print(
        f"a stream of {len(stream):,} bytes in pieces of {length:,}: {len(stream) / seconds / 1e6:,.2f} MB/s, "
        f"peak {usage.ru_maxrss / 1024:,.1f} MiB"
    )


def streams(scale: int) -> None:
    """Prints the speed of one stream in pieces of several lengths, and the peaks of a short and a long stream."""
    one = lambda: publish("example.com/lib", "v1.0.0")
    asked = lambda count: (get("example.com/lib", "v1.0.0", "mod") for _ in range(count))
    for length in (1, 1_000, 65_536):
        in_pieces(length, itertools.chain([one()], asked(10_000 // scale)))
    short = answered(itertools.chain([one()], asked(1_000 // scale)))[1]
    long = answered(itertools.chain([one()], asked(100_000 // scale)))[1]
    print(f"peak memory of {100_000 // scale:,} requests: {long:,.1f} MiB; of {1_000 // scale:,}: {short:,.1f} MiB")


def main() -> None:
    parser = parser_of(__doc__)
    add_quick(parser)
    scale = parser.parse_args().scale
    need()

    gets = 100_000 // scale
    one = [publish("example.com/lib", "v1.0.0")]
    asked = (get("example.com/lib", "v1.0.0", "mod") for _ in range(gets))
    measure(f"{gets:,} GETs of one .mod", gets, itertools.chain(one, asked))

    puts = 10_000 // scale
    measure(f"{puts:,} PUTs with 1 KiB zips", puts, (publish(*place(n), 1024) for n in range(puts)))

    length = 16 * MIB
    large = [publish("example.com/big", "v1.0.0", length), get("example.com/big", "v1.0.0", "zip")]
    peak = measure("a PUT of a 16 MiB zip and its GET", 2, large)
    print(f"  that is {peak * MIB / length:.1f} times the zip")

    # So many that what making the store takes more or less from run to run hardly counts.
    few = gets_on_a_store(1_000, 10 * gets)
    many = gets_on_a_store(100_000 // scale, 10 * gets)
    print(f"  the larger store costs {many / few:.2f} times the smaller")

    asked = (get("example.com/lib", "v1.0.0", "info") for _ in range(gets))
    measure(f"{gets:,} GETs of one .info", gets, itertools.chain([publish("example.com/lib", "v1.0.0")], asked))
    on_one_path("lists", 4_096 // scale, 100, "example.com/many/@v/list")
    on_one_path("latest versions", 4_096 // scale, 100, "example.com/many/@latest")
    streams(scale)


if __name__ == "__main__":
    main()
