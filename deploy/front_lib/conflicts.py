"""What is wrong in a copy of the store, beside the company's paths. The copy is only read; SQLite makes COPY-shm."""

import hashlib
import os
import sqlite3
import urllib.parse
from collections.abc import Collection, Iterator

from front_lib.files import Refused

CHAINS = """SELECT low.id, high.id, low.path, low.version, low.shelf, high.shelf
    FROM version AS low JOIN shelf AS own ON own.name = low.shelf
    JOIN version AS high ON high.path = low.path AND high.version = low.version
    WHERE low.shelf <> high.shelf AND low.shelf <> 'common' AND high.shelf IN ('common', own.parent)
    ORDER BY low.path, low.order_key, low.version, low.shelf, high.shelf"""


def opened(name: str) -> sqlite3.Connection:
    """Opens a copy of a store, read-only."""
    if not os.path.isfile(name):
        raise Refused(f"{name}: no such file")
    return sqlite3.connect(f"file:{urllib.parse.quote(os.path.abspath(name))}?mode=ro", uri=True)


def digest(store: sqlite3.Connection, number: int) -> bytes:
    """Returns the hash of what a version has."""
    [(gomod,)] = store.execute("SELECT mod FROM version WHERE id = ?", (number,))
    found = hashlib.sha256(b"%d " % len(gomod) + gomod)
    for (piece,) in store.execute("SELECT bytes FROM piece WHERE version = ? ORDER BY number", (number,)):
        found.update(piece)
    return found.digest()


def is_ours(path: str, ours: Collection[str]) -> bool:
    """Whether a path is at or below one of the company's."""
    elements = path.lower().split("/")
    return any("/".join(elements[:count]) in ours for count in range(1, len(elements) + 1))


def found(copy: str, ours: Collection[str]) -> Iterator[str]:
    """Yields the versions that have other bytes on two shelves of a chain, and the paths that are not the company's."""
    try:
        store = opened(copy)
        for low, high, path, version, *shelves in store.execute(CHAINS):
            if digest(store, low) != digest(store, high):
                yield f"{path} {version}: {' and '.join(shelves)} have other bytes"
        for path, shelves in store.execute("SELECT path, group_concat(DISTINCT shelf) FROM version GROUP BY path"):
            if not is_ours(path, ours):
                yield f"{path}: it is on {shelves.replace(',', ', ')}, and owners.json does not have it"
    except sqlite3.Error as error:
        raise Refused(f"{copy}: {error}") from None
