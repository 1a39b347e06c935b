#!/usr/bin/env python3
"""Seconds in which tools/shards finds and mends what a shard missed of `common`.

It also measures a comparison of two whole shards. Build the program first (`./goshelf --version`). With a number: how
many versions common has (1,000, four to a path).
"""

import argparse
import http.client
import os
import subprocess
import sys
import tempfile
import time

from company import Store, write_shards
from company_plan import Company
from shared import ROOT, need, parser_of

ROUNDS = 5


def tool(folder: str, command: str) -> tuple[float, str]:
    """The seconds that tools/shards takes, and its last line."""
    begun = time.monotonic()
    words = [os.path.join(ROOT, "tools", "shards"), command, f"{folder}/shards.conf", f"{folder}/shards.keys"]
    ran = subprocess.run(words, capture_output=True, text=True)
    return time.monotonic() - begun, (ran.stdout or ran.stderr).splitlines()[-1]


def write_files(folder: str, company: Company, stores: list[Store]) -> None:
    write_shards(company, stores, f"{folder}/shards.conf")
    keys = [
        f"{shelf} {right} {key}"
        for shelf in company.shelves
        for right, key in (("read", company.reader(shelf)), ("publish", company.key(shelf)))
    ]
    with open(os.open(f"{folder}/shards.keys", os.O_WRONLY | os.O_CREAT, 0o600), "w", encoding="utf-8") as file:
        file.write("\n".join(keys) + "\n")


def publish(company: Company, store: Store, number: int) -> None:
    """A publish to common that only the first shard gets."""
    path = "example.com/common/missed"
    headers, body = company.publish(path, f"v1.{number}.0", company.sizes.zip)
    fields = dict(line.split(": ", 1) for line in headers.decode().strip().split("\r\n"))
    conn = http.client.HTTPConnection("127.0.0.1", store.port)
    conn.request("PUT", f"/k/{company.key('common')}/{path}/@v/v1.{number}.0", body, fields)
    if conn.getresponse().status != 201:
        sys.exit("the publish failed")
    conn.close()


def main() -> None:
    parser = parser_of(__doc__)
    parser.add_argument("count", nargs="?", type=int, default=1_000, metavar="VERSIONS", help="of common (1,000)")
    count = parser.parse_args().count
    need()
    company = Company(argparse.Namespace(seed=1, teams=2, groups=0, modules=max(1, count // 4), versions=4, zip=8_000))
    with tempfile.TemporaryDirectory(prefix="goshelf-shards-") as folder:
        stores = [Store(company, tempfile.mkdtemp(dir=folder), shelves).start() for shelves in company.share(2)]
        try:
            write_files(folder, company, stores)
            for number in range(ROUNDS):
                publish(company, stores[0], number)
                print("send: {:.2f} s, {}".format(*tool(folder, "send")), flush=True)
            print("check: {:.2f} s, {}".format(*tool(folder, "check")))
        finally:
            for store in stores:
                store.stop()


if __name__ == "__main__":
    main()
