"""What the tests of tools/catalog share: a store with hostile go.mods, and the tool's runs over its lines."""

import base64
import hashlib
import json
import os
import subprocess

from lib import catalog_lines
from lib.keys import KEYS, SHELVES
from lib.messages import put
from lib.modules import escaped
from lib.program import ROOT, answered
from lib.stores import add_platform, new_store

TOOL = os.path.join(ROOT, "tools", "catalog")
TODAY = "2026-11-28"
EVIL = '"><script>alert(1)</script>'
# each shelf, and the letter of its key
SHELF_KEYS = {"alpha": "A", "beta": "B", "gamma": "M", "delta": "D", "platform": "P", "common": "C"}
# What is published, in order: the letter of a key, the path, the version, the day of its time, and the zip's length.
# Indented below it stand the lines of its go.mod behind `module`, or a line `module` itself.
STORE = f"""
C example.com/log v1.0.0 2026-01-01 1
    go 1.19
C example.com/log v1.1.0 2026-02-01 1024
    go 1.20
C example.com/log v1.2.0 2026-11-01 1048576
    go 1.21
    retract v1.1.0 // {EVIL}
C example.com/log v1.3.0-rc.1 2026-11-20 1500
    go 1.21
C example.com/both v1.0.0 - 10
    // {EVIL}
A example.com/both v1.0.1 2026-11-27 0
C example.com/both v1.0.1 2026-11-27 1
M example.com/rpc v1.0.0 2026-03-01 21
P example.com/rpc v1.0.0 2026-03-01 20
    require example.com/log v1.0.0
P example.com/rpc v1.1.0 2026-10-29 20
    require (
    example.com/log v1.1.0 // indirect {EVIL}
    `example.org/other` "v0.1.0"
    )
M example.com/gamma/app v0.1.0 2026-04-01 30
    require example.com/rpc v1.0.0
M example.com/gamma/app v0.2.0 2026-05-01 30
    require example.com/rpc v1.0.0
M example.com/gamma/app v0.3.0 2026-06-01 30
    require example.com/rpc v1.1.0
    require example.com/nosuch v1.0.0
    require example.com/log v1.3.0-rc.1
M example.com/gamma/pseudo v0.0.0-20261110120000-abcdefabcdef - 30
    require example.com/log v1.2.0
B example.com/beta v1.0.0 - 5
    retract v1.0.0
B example.com/Beta/UI/v2 v2.0.0 2026-11-28 5
    module "example.com/Beta/UI/v2" // {EVIL}
    retract ( // {EVIL}
    [v2.1.0, v2.3.0]
    )
B gopkg.in/yaml.v2 v2.0.0 2026-11-28 5
B example.com/index.html v1.0.0 - 5
B example.com/index.html/index.html v1.0.0 - 5
B example.com/mark v2.0.0+incompatible 2026-10-28 5
"""
SUM = "h1:" + base64.b64encode(hashlib.sha256(b"").digest()).decode()


# the company's paths, and who publishes there
OWNERS = {"example.com": ["common"], "gopkg.in": ["beta", "omega"], "forge.test/Gamma": ["gamma"], "forge.test/no": []}
HOST = "shelf.example.com"


def rows_of(text: str) -> list[tuple[str, list[str]]]:
    """Returns the rows of a text, each with the lines that stand indented below it."""
    rows: list[tuple[str, list[str]]] = []
    for line in filter(str.strip, text.split("\n")):
        if line.startswith("    "):
            rows[-1][1].append(line[4:])
        else:
            rows.append((line, []))
    return rows


def published(row: str, lines: list[str]) -> bytes:
    """Returns the publish of a row of STORE."""
    letter, path, version, day, size = row.split()
    first = [] if any(line.startswith("module ") for line in lines) else [f"module {path}"]
    gomod = "".join(f"{line}\n" for line in (*first, *lines)).encode()
    when = "" if day == "-" else f"{day}T12:00:00Z"
    return put(escaped(path), escaped(version), gomod, bytes(int(size)), KEYS[letter], when)


def make_store(name: str) -> None:
    """Makes a store of STORE."""
    new_store(name, *SHELVES)
    add_platform(name)
    rows = rows_of(STORE)
    replies = answered(["--db", name], [published(*row) for row in rows])
    assert replies == [(201, b"published\n")] * len(rows), replies


def tool(*words: str, lines: str | None = None, commands: str = "bin") -> tuple[int, str, str]:
    """Runs the tool on lines, with the commands of a folder. Returns its status, what it prints, and the last line of
    its errors."""
    where = {**os.environ, "PATH": f"{os.path.abspath(commands)}:{os.environ['PATH']}"}
    ran = subprocess.run([TOOL, *words], input=lines, capture_output=True, text=True, timeout=600, env=where)
    return ran.returncode, ran.stdout, (ran.stderr.splitlines() or [""])[-1]


def make(shelf: str, *words: str) -> str:
    """Makes the pages of a shelf of the store store.db, in a folder of its name. Returns what the tool prints."""
    lines = catalog_lines.lines("store.db", shelf)
    status, printed, errors = tool("--to", shelf, "--shelf", shelf, "--today", TODAY, *words, lines=lines)
    assert (status, errors) == (0, ""), errors
    return printed


def write_lines() -> None:
    """Writes the lines of each shelf of the store, and the company's paths."""
    for shelf in SHELF_KEYS:
        with open(f"{shelf}.lines", "w", encoding="utf-8") as file:
            file.write(catalog_lines.lines("store.db", shelf))
    with open("owners.json", "w", encoding="utf-8") as file:
        json.dump(OWNERS, file)


def line_of(**fields: object) -> str:
    """Returns a line that is right, but for these fields. One that is None is left out."""
    right = {"Path": "example.com/a", "Version": "v1.0.0", "Require": [], "Shelf": "own", "GoModSum": SUM, "ZipSize": 1}
    return json.dumps({name: value for name, value in {**right, **fields}.items() if value is not None}) + "\n"
