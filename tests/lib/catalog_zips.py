"""Zips of modules for the tests of tools/catalog: right ones, and such as no tool makes."""

import io
import os
import re
import struct
import zipfile
import zlib
from collections.abc import Mapping
from functools import lru_cache

from lib.catalog_store import SHELF_KEYS, TODAY, tool
from lib.keys import KEYS
from lib.messages import put
from lib.modules import escaped
from lib.program import run
from lib.scratch import read, write

# what the style sheet of a shelf says about the making of its pages
MADE_AT = re.compile(rb"(?<=Made at )\d{4}-\d\d-\d\d \d\d:\d\d")
# an entry of a zip: its name, its packed content, its method, and the size and the sum that it claims
Entry = tuple[str | bytes, bytes, int, int, int]
SHELF_OF = {letter: shelf for shelf, letter in SHELF_KEYS.items()}


def zipped(path: str, version: str, files: Mapping[str, str | bytes]) -> bytes:
    """The zip of a module with these files."""
    made = io.BytesIO()
    with zipfile.ZipFile(made, "w", zipfile.ZIP_DEFLATED) as held:
        for name, content in files.items():
            entry = zipfile.ZipInfo(f"{path}@{version}/{name}", (2026, 1, 1, 0, 0, 0))
            held.writestr(entry, content, zipfile.ZIP_DEFLATED)
    return made.getvalue()


def raw(entries, count=None, comment=b""):
    """A zip of entries that say of themselves what they like: name, packed content, method, size and sum."""
    body, heads = b"", b""
    for name, packed, method, size, crc in entries:
        name = name if isinstance(name, bytes) else name.encode()
        fields = struct.pack("<HHIIIIHH", 0, method, 0, crc, len(packed), size & 0xFFFFFFFF, len(name), 0)
        heads += b"PK\1\2\x14\0\x14\0" + fields + struct.pack("<HHHII", 0, 0, 0, 0, len(body)) + name
        body += b"PK\3\4\x14\0" + fields + name + packed
    number = len(entries) if count is None else count
    end = struct.pack("<HHHHIIH", 0, 0, number, number, len(heads), len(body), len(comment))
    return body + heads + b"PK\5\6" + end + comment


def stored(name: str | bytes, content: bytes) -> Entry:
    """An entry whose content is not packed."""
    return name, content, 0, len(content), zlib.crc32(content)


def deflated(name, content, size=None, crc=None):
    """An entry whose content is packed, with the size and the sum that it is to claim."""
    packed, own = packed_of(content)
    return name, packed, 8, len(content) if size is None else size, own if crc is None else crc


@lru_cache(maxsize=8)
def packed_of(content: bytes) -> tuple[bytes, int]:
    """A content that is packed, and its sum."""
    packer = zlib.compressobj(6, zlib.DEFLATED, -15)
    return packer.compress(content) + packer.flush(), zlib.crc32(content)


def published(
    letter: str, path: str, version: str, files: Mapping[str, str | bytes], gomod: str | None = None
) -> bytes:
    """The publish of a module with these files. Its go.mod is among them, unless it is named by itself."""
    gomod = gomod or str(files.get("go.mod") or f"module {path}\n")
    content = zipped(path, version, {"go.mod": gomod, **files})
    return put(escaped(path), escaped(version), gomod.encode(), content, KEYS[letter])


def lines_of(letter: str, store: str) -> str:
    """What a key sees of a store."""
    status, lines, told = run(["catalog", "--db", store, "--key", KEYS[letter]])
    assert (status, told) == (0, ""), told
    return lines.decode()


def made_pages(to: str, letter: str, lines: str, *words: str) -> str:
    """Makes the pages of a key's shelf of these lines, and of the zips. Returns what the tool prints."""
    write({"key": KEYS[letter]})
    own = ("--to", to, "--shelf", SHELF_OF[letter], "--today", TODAY, "--key-file", "key")
    status, printed, errors = tool(*own, *words, lines=lines)
    assert (status, errors) == (0, ""), errors
    return printed


def read_pages(folder: str) -> dict[str, bytes]:
    """Returns the content of each file of pages, by its name, without the minute at which they were made."""
    top, pages = os.path.realpath(folder), {}
    for at, _, names in os.walk(top):
        for name in names:
            if name != ".made":
                content = read(os.path.join(at, name))
                pages[os.path.relpath(os.path.join(at, name), top)] = MADE_AT.sub(b"", content)
    return pages
