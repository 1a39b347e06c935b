#!/usr/bin/env python3
"""Memory and time of `list` and `@latest` on a path with as many versions as there may be.

It has them on each of two shelves, with large go.mod files. Build the program first (`./goshelf --version`). The store
is made by sqlite3, with the tables of bench/store.py. With numbers: how many versions on each shelf (4,096), and how
many bytes a go.mod has (1,048,576); the disk needs room for all of them.
"""

import os
import tempfile

from shared import MIB, need, parser_of
from store import KEY, answered, made, put_version

PATH = "example.com/lib"


def gomod(length: int) -> bytes:
    """A go.mod of this many bytes, most of which are a comment."""
    head = f"module {PATH}\n//".encode()
    return head + b"a" * (length - len(head) - 1) + b"\n"


def filled(file: str, count: int, length: int) -> None:
    """A store with this many versions on `alpha`, and as many others on `common`, without zips."""
    conn = made(file)
    conn.execute("PRAGMA synchronous = OFF")
    text = gomod(length)
    conn.execute("BEGIN")
    for shelf, minor in (("common", 0), ("alpha", 1)):
        for n in range(count):
            put_version(conn, shelf, PATH, f"v1.{minor}.{n}", text)
    conn.execute("COMMIT")
    conn.close()


def ask(rest: str) -> bytes:
    return f"GET /k/{KEY}/{PATH}/{rest} HTTP/1.1\r\n\r\n".encode()


def main() -> None:
    parser = parser_of(__doc__)
    parser.add_argument("count", nargs="?", type=int, default=4096, metavar="VERSIONS", help="on each shelf (4,096)")
    parser.add_argument("length", nargs="?", type=int, default=MIB, metavar="BYTES", help="of a go.mod (1,048,576)")
    words = parser.parse_args()
    count, length = words.count, words.length
    need()
    with tempfile.TemporaryDirectory(prefix="goshelf-full-", dir=os.environ.get("STORES")) as folder:
        file = os.path.join(folder, "shelves.db")
        filled(file, count, length)
        seconds, opened = answered(file, [])
        print(
            f"{count:,} versions on each of two shelves, go.mod files of {length:,} bytes:"
            f" {os.path.getsize(file) / MIB:,.0f} MiB, opened in {seconds:.2f} s with {opened:,.1f} MiB"
        )
        for name, rest in (("list", "@v/list"), ("latest version", "@latest")):
            took, peak = answered(file, [ask(rest)])
            print(
                f"the {name}: {took - seconds:.3f} s more, {peak:,.1f} MiB,"
                f" {(peak - opened) * MIB / length:+.1f} go.mod files beside the opened store"
            )


if __name__ == "__main__":
    main()
