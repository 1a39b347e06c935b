#!/usr/bin/env python3
"""What groups cost: instructions of a request over a file by a team in a group.

Beside it stand those of a team in none, and of an older program. Build the program first (`./goshelf --version`); it
wants valgrind. With --program FILE it measures that program. With --beside FILE it also measures a program from before
groups, whose stores have schema 2; each program makes its own store, by the same requests. The opening of a store does
not count. A list that is asked again is kept by the store, one that is asked first is not.
"""

import functools
import os
import shutil
import sqlite3
import subprocess
import tempfile
from collections.abc import Callable, Iterable, Iterator

from answer import Request
from cost import instructions, stream_of
from shared import add_program, file_named, need, parser_of, remove_stores

KEYS = {
    "alpha": "alphakey00000001",
    "gamma": "gammakey00000001",
    "platform": "platformkey00001",
    "common": "commonkey0000001",
}
PATHS, VERSIONS = 20, 4
ZIP = bytes(1024)
# a question's name, how many requests ask it, and the nth of them
Question = tuple[str, int, Callable[[int], Request]]
# what makes so many rows of a kind in a store, by a program
Fill = Callable[[str, str, int], None]


def get(shelf: str, rest: str) -> Iterator[bytes]:
    yield f"GET /k/{KEYS[shelf]}/{rest} HTTP/1.1\r\n\r\n".encode()


def put(shelf: str, path: str, version: str) -> Iterator[bytes]:
    gomod = f"module {path}\n".encode()
    head = (
        f"PUT /k/{KEYS[shelf]}/{path}/@v/{version} HTTP/1.1\r\nMod-Length: {len(gomod)}\r\nContent-Length:"
        f" {len(gomod) + len(ZIP)}\r\n\r\n"
    )
    yield head.encode() + gomod + ZIP


def path_of(shelf: str, n: int) -> str:
    """The nth path that only this shelf has."""
    return f"example.com/{shelf}{n}"


def done(program: str, *words: str) -> None:
    subprocess.run([program, *words], check=True)


def answered(program: str, file: str, requests: Iterable[Request]) -> None:
    """Sends requests, each of which has to be answered 200 or 201."""
    with stream_of(*requests) as source:
        ran = subprocess.run([program, "answer", "--db", file], stdin=source, stdout=subprocess.PIPE, check=True)
    bad = [
        line
        for line in ran.stdout.split(b"\r\n")
        if line.startswith(b"HTTP/1.1 ") and line[9:12] not in (b"200", b"201")
    ]
    assert not bad, bad[0]


def copied_in(file: str) -> None:
    """Has sqlite3 copy a store's log into its file, so that an opening reads no log."""
    conn = sqlite3.connect(file)
    conn.execute("PRAGMA wal_checkpoint(TRUNCATE)")
    conn.close()


def made(program: str, file: str, groups: bool) -> None:
    """A store whose shelves have their paths, made by the program. With groups there are also platform, and gamma in
    it."""
    done(program, "init", "--db", file)
    done(program, "team-add", "--db", file, "--team", "alpha")
    if groups:
        done(program, "group-add", "--db", file, "--group", "platform")
        done(program, "team-add", "--db", file, "--team", "gamma", "--group", "platform")
    shelves = [*KEYS] if groups else ["alpha", "common"]
    for shelf in shelves:
        done(program, "key-add", "--db", file, "--shelf", shelf, "--key", KEYS[shelf])
    answered(
        program,
        file,
        (
            put(shelf, path_of(shelf, n), f"v1.{v}.0")
            for shelf in shelves
            for n in range(PATHS)
            for v in range(VERSIONS)
        ),
    )
    copied_in(file)


def copied(file: str) -> str:
    """The name of a copy of a store, in place of the last one."""
    remove_stores(f"{file}.copy")
    for end in ("", "-wal"):
        if os.path.exists(file + end):
            shutil.copy(file + end, f"{file}.copy{end}")
    return f"{file}.copy"


@functools.cache
def opened(program: str, file: str) -> int:
    """Instructions of an opening."""
    with stream_of() as source:
        return instructions(program, source, words=["answer", "--db", copied(file)])


def cost(program: str, file: str, count: int, request: Callable[[int], Request]) -> int:
    """Instructions of one of this many requests, the nth of which is `request(n)`, without the opening."""
    return counted(program, file, tuple(b"".join(request(n)) for n in range(count)))


@functools.cache
def counted(program: str, file: str, requests: tuple[bytes, ...]) -> int:
    """Instructions of one of these requests, without the opening."""
    answered(program, copied(file), ([request] for request in requests))
    with stream_of(requests) as source:
        whole = instructions(program, source, words=["answer", "--db", copied(file)])
    return (whole - opened(program, file)) // len(requests)


def questions(team: str, at: str) -> Iterator[Question]:
    """Each question of a team about what a shelf has: its name, a number of requests, and the nth of them."""
    yield "a GET of a .mod", 200, lambda n: get(team, f"{path_of(at, n % PATHS)}/@v/v1.{n // PATHS % VERSIONS}.0.mod")
    yield "`list`, asked again", 200, lambda n: get(team, f"{path_of(at, 0)}/@v/list")
    yield "`list`, asked first", PATHS, lambda n: get(team, f"{path_of(at, n)}/@v/list")
    yield "`@latest`, asked again", 200, lambda n: get(team, f"{path_of(at, 0)}/@latest")
    yield "`@latest`, asked first", PATHS, lambda n: get(team, f"{path_of(at, n)}/@latest")


def publishes(team: str) -> Iterator[Question]:
    """Publishes by a team, as `questions` yields them."""
    yield "a publish of a new path", PATHS, lambda n: put(team, f"example.com/new{n}", "v1.0.0")
    yield "a publish of a next version", PATHS, lambda n: put(team, path_of(team, n), f"v1.{VERSIONS}.0")


def opening(program: str, folder: str, rows: int, fill: Fill) -> int:
    """Instructions of an opening for each row of a kind that a store has more."""
    counts = []
    for count in (rows, 2 * rows):
        file = os.path.join(folder, f"rows{count}.db")
        done(program, "init", "--db", file)
        done(program, "team-add", "--db", file, "--team", "alpha")
        done(program, "key-add", "--db", file, "--shelf", "alpha", "--key", KEYS["alpha"])
        fill(program, file, count)
        copied_in(file)
        with stream_of() as source:
            counts.append(instructions(program, source, words=["answer", "--db", file]))
        remove_stores(file)
    return (counts[1] - counts[0]) // rows


def more_versions(program: str, file: str, count: int) -> None:
    answered(program, file, (put("alpha", path_of("alpha", n // 100), f"v1.0.{n % 100}") for n in range(count)))


def more_teams(program: str, file: str, count: int) -> None:
    for n in range(count):
        done(program, "team-add", "--db", file, "--team", f"team{n}")


def more_keys(program: str, file: str, count: int) -> None:
    for n in range(count):
        done(program, "key-add", "--db", file, "--shelf", "alpha", "--key", f"{n:016}")


ROWS = (("a version with its zip", 200, more_versions), ("a team", 50, more_teams), ("a key", 50, more_keys))


def show(name: str, found: int, beside: int, whose: str) -> None:
    print(f"{name}: {found:,} instructions, {found / beside:.3f} times the {beside:,} {whose}", flush=True)


def beside_another(program: str, other: str, folder: str) -> None:
    """A team in no group, on stores of the same requests, each by its program."""
    files = [os.path.join(folder, name) for name in ("ours.db", "theirs.db")]
    for side, file in zip((program, other), files):
        made(side, file, False)
    asked: list[Question] = [
        (f"{name}, {'own' if at == 'alpha' else 'on common'}", count, request)
        for at in ("alpha", "common")
        for name, count, request in questions("alpha", at)
    ]
    for name, count, request in [*asked, *publishes("alpha")]:
        ours, theirs = (cost(side, file, count, request) for side, file in zip((program, other), files))
        show(name, ours, theirs, "before")
    for name, rows, fill in ROWS:
        ours, theirs = (opening(side, folder, rows, fill) for side in (program, other))
        show(f"an opening, for {name}", ours, theirs, "before")


def beside_no_group(program: str, folder: str) -> None:
    """A team in a group beside a team in none, on one store."""
    file = os.path.join(folder, "groups.db")
    made(program, file, True)
    for at, beside in (("gamma", "alpha"), ("common", "common"), ("platform", "common")):
        where = {"gamma": "own", "common": "on common", "platform": "on the group, beside one on common"}[at]
        pairs = zip(questions("gamma", at), questions("alpha", beside))
        for (name, count, of_member), (_, _, of_alone) in pairs:
            member, alone = (cost(program, file, count, request) for request in (of_member, of_alone))
            show(f"{name}, {where}", member, alone, "by a team in no group")
    for (name, count, of_member), (_, _, of_alone) in zip(publishes("gamma"), publishes("alpha")):
        member, alone = (cost(program, file, count, request) for request in (of_member, of_alone))
        show(name, member, alone, "by a team in no group")


def main() -> None:
    parser = parser_of(__doc__)
    add_program(parser)
    parser.add_argument("--beside", metavar="FILE", type=file_named, help="a program from before groups")
    words = parser.parse_args()
    need(words.program)
    need(words.beside or words.program)
    with tempfile.TemporaryDirectory(prefix="goshelf-groups-") as folder:
        print("a team in a group, beside a team in none:", flush=True)
        beside_no_group(words.program, folder)
        if words.beside:
            print("a team in no group, beside the older program:", flush=True)
            beside_another(words.program, words.beside, folder)


if __name__ == "__main__":
    main()
