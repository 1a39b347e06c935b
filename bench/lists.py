#!/usr/bin/env python3
"""What the lists of a whole shelf cost: `-/modules`, `inventory` and `catalog`.

The shelves have 1,000, 10,000 and 100,000 paths with a version each, or with --versions V as many. Build the program
first (`./goshelf --version`). With --program FILE it measures that program, with --zip BYTES each zip has this many
(1,024), with --requires R each go.mod has as many requirements (none), and with --paths N there is one store, of this
many paths. Each line has the bytes of the text, the processor time beside that of opening the store, and the peak of
memory beside the opening's. With --count it has instructions too, by valgrind's count, less the opening's, for all
but the largest store.
"""

import os
import statistics
import tempfile
from collections.abc import Iterator

import shared
from cost import instructions, stream_of
from shared import add_program, add_sizes, need, parser_of
from store import KEY, gomod, made, put_version

PATHS = (1_000, 10_000, 100_000)
COUNTED = 10_000
ROUNDS = 3


def requiring(path: str, at: int, paths: int, count: int) -> bytes:
    """A go.mod that requires this many of the other paths, in a block as the go command writes it."""
    others = ((at * 7 + n * 13 + 1) % paths for n in range(count))
    lines = b"".join(b"\texample.com/team/module%d v1.0.0\n" % other for other in others)
    return gomod(path) + (b"\ngo 1.21\n\nrequire (\n%s)\n" % lines if count else b"")


def filled(file: str, paths: int, versions: int, zip_length: int, requires: int) -> None:
    """A store of this many paths, each with as many versions, made by sqlite3 in one transaction."""
    conn = made(file)
    conn.execute("BEGIN")
    zip = bytes(zip_length)
    for n in range(paths * versions):
        path, version = f"example.com/team/module{n // versions}", f"v1.{n % versions}.0"
        put_version(conn, "alpha", path, version, requiring(path, n // versions, paths, requires), zip)
    conn.execute("COMMIT")
    conn.close()


def questions(file: str) -> Iterator[tuple[str, list[str], bytes]]:
    """Of each question the words of the program and the stream that it reads; the first only opens the store."""
    modules = f"GET /k/{KEY}/-/modules HTTP/1.1\r\n\r\n".encode()
    yield "opening", ["answer", "--db", file], b""
    yield "`-/modules`", ["answer", "--db", file], modules
    for command in ("inventory", "catalog"):
        yield f"`{command}`", [command, "--db", file, "--key", KEY], b""


def run(program: str, words: list[str], stream: bytes) -> tuple[float, float, int]:
    """The processor seconds, the peak in MiB and the bytes written."""
    with stream_of([stream]) as source, tempfile.TemporaryFile() as target:
        took = shared.run([program, *words], source, target)
        return took.processor, took.peak, target.seek(0, os.SEEK_END)


def measured(program: str, file: str, is_counted: bool) -> None:
    """Prints what each question costs beside the opening."""
    opening = None
    for name, words, stream in questions(file):
        runs = [run(program, words, stream) for _ in range(ROUNDS)]
        seconds, peak, size = (statistics.median(figures) for figures in zip(*runs))
        count = 0
        if is_counted:
            with stream_of([stream]) as source:
                count = instructions(program, source, words=words)
        if opening is None:
            opening = seconds, peak, count
            print(f"  opening: {seconds:.3f} s, {peak:.1f} MiB")
            continue
        line = (
            f"  {name}, {size:,.0f} bytes: {seconds - opening[0]:.3f} s more, {peak:.1f} MiB,"
            f" {peak - opening[1]:.1f} more"
        )
        print(line + (f", {count - opening[2]:,} instructions" if is_counted else ""), flush=True)


def main() -> None:
    parser = parser_of(__doc__)
    add_program(parser)
    sizes = (("zip", 1_024, "bytes of a zip"), ("versions", 1, "versions of a path"))
    add_sizes(parser, *sizes, ("requires", 0, "requirements of a go.mod"))
    parser.add_argument("--paths", type=int, metavar="N", help="one store, of this many paths")
    parser.add_argument("--count", action="store_true", help="count instructions too")
    words = parser.parse_args()
    need(words.program)
    with tempfile.TemporaryDirectory(prefix="goshelf-lists-") as folder:
        for paths in [words.paths] if words.paths else PATHS:
            file = os.path.join(folder, f"{paths}.db")
            filled(file, paths, words.versions, words.zip, words.requires)
            each = f"versions of each: {words.versions}, requirements of each: {words.requires}"
            print(f"{paths:,} paths, {each}, zips of {words.zip:,} bytes:", flush=True)
            measured(words.program, file, words.count and paths <= COUNTED)
            os.remove(file)


if __name__ == "__main__":
    main()
