#!/usr/bin/env python3
"""What a store in a file keeps, in instructions by valgrind's count.

It asks for `list` and `@latest` of 200 and 2,000 paths, in turn once and again; `@latest` of a path whose go.mod has as
many retractions as one may; a `.zip` of each size, fetched once and again, where another was before; a GET of each
other kind of a path with one version.

Build the program first (`./goshelf --version`); it wants valgrind. With --program FILE it measures that program. The
opening of a store does not count. With --gomods it asks only for the first `@latest` of paths whose go.mod files are as
costly to read as one may be, and prints the processor time too, the best of nine runs less the best of nine openings.
"""

import functools
import itertools
import os
import random
import subprocess
import tempfile
from collections.abc import Callable, Iterable, Iterator, Sequence

from answer import Request
from cost import instructions, stream_of
from groups import KEYS, answered, copied, copied_in, done, get
from shared import add_program, need, parser_of, run

PATHS = 2_000
ZIPS = (1_024, 65_536, 1_048_576, 16_777_216)
WORST, GOMOD = "example.com/worst", 1_048_576
VERSIONS, RUNS = 4_096, 9
LETTERS = "abcdefghijklmnopqrstuvwxyzABCDEFGHIJKLMNOPQRSTUVWXYZ"


def put(path: str, version: str, gomod: bytes, size: int) -> Iterator[bytes]:
    head = (
        f"PUT /k/{KEYS['alpha']}/{path}/@v/{version} HTTP/1.1\r\nMod-Length: {len(gomod)}\r\nContent-Length:"
        f" {len(gomod) + size}\r\n\r\n"
    )
    yield head.encode() + gomod + bytes(size)


def gomod_of(lines: Iterable[str], keyword: str = "retract") -> tuple[bytes, int]:
    """The go.mod with a block of these lines, as many as one may have, and how many they are."""
    start, end = f"module {WORST}\n{keyword} (\n".encode(), b")\n"
    room, taken = GOMOD - len(start) - len(end), []
    for line in lines:
        room -= len(line) + 1
        if room < 0:
            break
        taken.append(f"{line}\n".encode())
    return start + b"".join(taken) + end, len(taken)


def retractions() -> bytes:
    """The go.mod with the most retractions: one for each line of seven bytes."""
    return gomod_of(itertools.repeat("v0.0.0"))[0]


def named(n: int) -> str:
    """The nth identifier of letters."""
    return (named(n // 52 - 1) if n >= 52 else "") + LETTERS[n % 52]


def shuffled(line: Callable[[int], str]) -> Iterator[str]:
    """The lines of the first numbers, as many as a go.mod may have, in no order, but always in the same one."""
    numbers = list(range(gomod_of(map(line, itertools.count()))[1]))
    random.Random(1).shuffle(numbers)
    return map(line, numbers)


def gomods() -> Iterator[tuple[str, str, Iterable[str], Callable[[int], str] | None]]:
    """What the worst go.mod files hold, each with a keyword, its lines, and the version that a number names there,
    if a path is to have many."""
    release, alike = "v0.0.{}".format, lambda n: f"v0.0.0-0.0.0.{named(n)}"
    pre, interval = lambda n: f"v0.0.0-{named(n)}", lambda n: f"[v0.0.{n},v0.0.{n + 1}]"
    yield "equal retractions", "retract", itertools.repeat("v0.0.0"), None
    yield "versions in order", "retract", map(release, itertools.count()), None
    yield "intervals that meet", "retract", map(interval, itertools.count()), release
    yield "wide intervals", "retract", (f"[v0.0.{n % 50},v0.0.{4_050 + n % 46}]" for n in itertools.count()), release
    yield "versions in no order", "retract", shuffled(release), release
    yield "the versions of the path, again and again", "retract", map(
        release, random.Random(1).choices(range(VERSIONS), k=GOMOD)
    ), release
    yield "pre-releases in no order", "retract", shuffled(pre), pre
    yield "pre-releases that begin alike, in no order", "retract", shuffled(alike), alike
    yield "requirements of pre-releases", "require", (f"a {pre(n)}" for n in itertools.count()), None


def made(program: str, file: str, requests: Iterable[Request]) -> None:
    """A store of one team, to which these publishes were sent."""
    done(program, "init", "--db", file)
    done(program, "team-add", "--db", file, "--team", "alpha")
    done(program, "key-add", "--db", file, "--shelf", "alpha", "--key", KEYS["alpha"])
    answered(program, file, requests)
    copied_in(file)


def small(path: str) -> Request:
    return put(path, "v1.0.0", f"module {path}\n".encode(), 16)


def zips() -> Iterator[Request]:
    yield put(WORST, "v1.0.0", retractions(), 16)
    for size in ZIPS:
        yield put(f"example.com/z{size}", "v1.0.0", f"module example.com/z{size}\n".encode(), size)


@functools.cache
def counted(program: str, file: str, stream: tuple[bytes, ...]) -> int:
    """Instructions of these requests, with the opening of a copy of the store."""
    with stream_of(stream) as source:
        return instructions(program, source, words=["answer", "--db", copied(file)])


def asked(program: str, file: str, rests: tuple[str, ...], times: int, before: tuple[str, ...]) -> int:
    """Instructions of these questions of a team, asked in turn this many times behind others, with the opening."""
    stream = tuple(b"".join(get("alpha", rest)) for rest in before + rests * times)
    return counted(program, file, stream)


def show(program: str, file: str, what: str, rests: Sequence[str], before: Sequence[str] = ()) -> None:
    """Prints what one of these questions costs that is asked first, and what one that is asked again."""
    opening, once, again = (asked(program, file, tuple(rests), times, tuple(before)) for times in (0, 1, 2))
    print(
        f"{what}: {(once - opening) // len(rests):,} instructions at first, {(again - once) // len(rests):,} again",
        flush=True,
    )


def processor_ms(program: str, file: str, requests: Request) -> float:
    """The least processor time of nine runs that answer these requests, in milliseconds."""
    times = []
    for _ in range(RUNS):
        with stream_of(requests) as source:
            times.append(run([program, "answer", "--db", copied(file)], source, subprocess.DEVNULL).processor)
    return min(times) * 1e3


def show_worst(program: str, folder: str) -> None:
    """Prints what the first `@latest` of each of the worst go.mod files costs, on a path of one version and of many."""
    question = f"{WORST}/@latest"
    for number, (name, keyword, lines, version) in enumerate(gomods()):
        gomod, count = gomod_of(lines, keyword)
        for versions in (1, VERSIONS) if version else (1,):
            file = os.path.join(folder, f"worst{number}-{versions}.db")
            names = [version(n) for n in range(versions - 1)] if version else []
            below = (put(WORST, name, f"module {WORST}\n".encode(), 16) for name in names)
            made(program, file, itertools.chain(below, [put(WORST, "v1.0.0", gomod, 16)]))
            opening, first = (processor_ms(program, file, asks) for asks in ((), tuple(get("alpha", question))))
            path = f"{count:,} {name}, {versions:,} version{'s' * (versions > 1)}"
            show(program, file, f"{path}: {first - opening:.0f} ms of the processor; by valgrind's count", [question])


def main() -> None:
    parser = parser_of(__doc__)
    add_program(parser)
    parser.add_argument("--gomods", action="store_true", help="ask only for the most expensive go.mod files")
    words = parser.parse_args()
    program = words.program
    need(program)
    with tempfile.TemporaryDirectory(prefix="goshelf-kept-") as folder:
        if words.gomods:
            return show_worst(program, folder)
        file = os.path.join(folder, "zips.db")
        made(program, file, zips())
        show(program, file, "`@latest`, with the most retractions", [f"{WORST}/@latest"])
        path = f"example.com/z{ZIPS[0]}"
        for rest in ("@v/v1.0.0.mod", "@v/v1.0.0.info", "@v/list", "@latest"):
            name = f"`{rest.rpartition('/')[2]}` of a path with one version"
            show(program, file, name, [f"{path}/{rest}"], [f"{WORST}/@v/v1.0.0.mod"])
        for size in ZIPS:
            zip_of = f"example.com/z{size}/@v/v1.0.0.zip"
            show(program, file, f"a `.zip` of {size:,} bytes", [zip_of], [f"{WORST}/@v/v1.0.0.zip"])
        file = os.path.join(folder, "lists.db")
        made(program, file, (small(f"example.com/p{n}") for n in range(PATHS)))
        for name, rest in (("list", "@v/list"), ("@latest", "@latest")):
            for paths in (200, PATHS):
                rests = [f"example.com/p{n}/{rest}" for n in range(paths)]
                show(program, file, f"`{name}`, of {paths:,} paths in turn", rests)
    return None


if __name__ == "__main__":
    main()
