#!/usr/bin/env python3
"""Memory and time of the program on stores of several sizes.

It opens one, fetches its largest zip, publishes the largest one, and serves. Build the program first (`./goshelf
--version`). The stores are made by sqlite3, with the tables of bench/store.py. With numbers, the stores of this many
MiB alone (100, 500).
"""

import os
import re
import subprocess
import tempfile

from shared import MIB, PROGRAM, need, parser_of, place
from store import KEY, answered, get, insert, made, publish

LARGEST = 16 * MIB
# from how many bytes on the C library maps a block by itself, as deploy/systemd/goshelf.service sets it
SETTING = {"MALLOC_MMAP_THRESHOLD_": "32768"}
# the bytes of a zip: small, middle and the largest
ZIPS = (1024, MIB, LARGEST)


def filled(file: str, size: int, zip_length: int) -> int:
    """A store of about this many bytes with zips of this length, made in one transaction: how many versions it has."""
    conn = made(file)
    conn.execute("BEGIN")
    # a small version takes about 1,480 bytes in the tables, a larger one hardly more than its zip
    count = size // (1480 if zip_length == 1024 else zip_length + 300)
    for n in range(count):
        insert(conn, n, zip_length)
    conn.execute("COMMIT")
    conn.close()
    return count


def zip_of(n: int) -> bytes:
    path, version = place(n)
    return f"GET /k/{KEY}/{path}/@v/{version}.zip HTTP/1.1\r\n\r\n".encode()


def held(file: str, setting: dict[str, str]) -> float:
    """The MiB that `serve` holds once it has opened a store, with these settings of the C library."""
    child = subprocess.Popen(
        [PROGRAM, "serve", "--db", file, "--port", "0"], stdout=subprocess.PIPE, env={**os.environ, **setting}
    )
    assert child.stdout
    child.stdout.readline()
    with open(f"/proc/{child.pid}/status", encoding="ascii") as status:
        kib = int(re.findall(r"VmRSS:\s+(\d+)", status.read())[0])
    child.terminate()
    child.wait()
    return kib / 1024


def main() -> None:
    parser = parser_of(__doc__)
    parser.add_argument("sizes", nargs="*", type=int, metavar="MIB", help="sizes of stores (100 500)")
    sizes = parser.parse_args().sizes or [100, 500]
    need()
    for size in sizes:
        for zip_length in ZIPS:
            with tempfile.TemporaryDirectory(prefix="goshelf-memory-") as folder:
                file = os.path.join(folder, "shelves.db")
                count = filled(file, size * MIB, zip_length)
                mib = os.path.getsize(file) / MIB
                seconds, opened = answered(file, [])
                _, fetched = answered(file, [zip_of(0)])
                plain, returned = held(file, {}), held(file, SETTING)
                _, published = answered(file, [publish(count, LARGEST), get(0)])
                print(
                    f"{count:,} versions with zips of {zip_length:,} bytes, {mib:,.0f} MiB: opened in {seconds:.2f} s"
                    f" with {opened:,.0f} MiB; {fetched:,.0f} MiB to fetch a zip, {published:,.0f} MiB to publish one"
                    f" of 16 MiB; serve holds {plain:,.0f} MiB, and {returned:,.0f} MiB as the unit starts it"
                )


if __name__ == "__main__":
    main()
