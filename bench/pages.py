#!/usr/bin/env python3
"""What the pages of a large shelf cost: tools/catalog over 10,000 modules with 10 versions each, and their zips.

Each zip has a README of 10 KiB and two packages, and each go.mod requires six others. goshelf serves the store, so
build the program first (`./goshelf --version`); GOSHELF names another program. It makes the pages from nothing, again
with nothing new, and after ten publishes. Each line tells the tool's processor time, the time that passed, and its peak
of memory; behind them stand how large the pages are. With --quick the shelf is a tenth as large. STORES names the
folder.
"""

import os
import random
import subprocess
import sys
import tempfile
import time
import zlib

from shared import PROGRAM, ROOT, add_quick, need, parser_of
from store import KEY, made, put_version

from lib.catalog_zips import raw
from lib.messages import put
from lib.peers import exchanged

MODULES, VERSIONS, NEW = 10_000, 10, 10
WORDS = [f"{a}{b}" for a in "read write open close join part find keep".split() for b in range(200)]


def path_of(at):
    return f"example.com/team{at % 40:02}/module{at:05}"


def gomod_of(at, version, modules):
    needs = [((at * 7 + it * 131 + 1) % modules, max(0, version - it % 3)) for it in range(6)]
    lines = "".join(f"\t{path_of(it)} v1.{number}.0\n" for it, number in needs if it != at)
    return f"module {path_of(at)}\n\ngo 1.21\n\nrequire (\n{lines})\n".encode()


def texts(count):
    """READMEs of 10 KiB, each with its packed content and its sum."""
    found = []
    for at in range(count):
        words = random.Random(at).choices(WORDS, k=1_600)
        lines = "\n\n".join(" ".join(words[it : it + 80]) for it in range(0, len(words), 80))
        text = f"# Module\n\n{lines}".encode()[: 10 << 10]
        packer = zlib.compressobj(6, zlib.DEFLATED, -15)
        found.append((packer.compress(text) + packer.flush(), 8, len(text), zlib.crc32(text)))
    return found


def zip_of(at, version, gomod, readmes):
    root = f"{path_of(at)}@v1.{version}.0/"
    doc = f"// Package module{at} keeps the {WORDS[at % len(WORDS)]} of a {WORDS[at * 7 % len(WORDS)]}.\npackage m\n"
    files = {"go.mod": gomod, "a.go": doc.encode(), "sub/b.go": b"// Package sub helps.\npackage sub\n"}
    entries = [(f"{root}{name}", it, 0, len(it), zlib.crc32(it)) for name, it in files.items()]
    return raw([*entries, (f"{root}README.md", *readmes[(at + version) % len(readmes)])])


def filled(file, modules, readmes):
    """Makes the store, by sqlite3 in one transaction."""
    conn = made(file)
    conn.execute("BEGIN")
    for at in range(modules):
        for version in range(VERSIONS):
            gomod = gomod_of(at, version, modules)
            put_version(conn, "alpha", path_of(at), f"v1.{version}.0", gomod, zip_of(at, version, gomod, readmes))
    conn.execute("COMMIT")
    conn.close()


def make(name, port, *words):
    """Makes the pages, and prints what that cost."""
    # (`env` may find a shim of pyenv first, which takes a tenth of a second)
    tool = [sys.executable, os.path.join(ROOT, "tools", "catalog"), "--to", "pages", "--shelf", "alpha"]
    tool += ["--today", "2026-11-30", "--port", str(port), "--key-file", "key"]
    began = time.monotonic()
    child = subprocess.Popen([*tool, *words, "lines"], stdout=subprocess.PIPE)
    told = child.stdout.read().decode().strip()
    _, status, usage = os.wait4(child.pid, 0)
    if status != 0:
        sys.exit(f"{name}: the tool failed")
    seconds, peak = usage.ru_utime + usage.ru_stime, usage.ru_maxrss / 1024
    print(
        f"{name}: {seconds:.1f} s of the processor, {time.monotonic() - began:.1f} s, {peak:.0f} MiB: {told}",
        flush=True,
    )


def lines():
    with open("lines", "wb") as file:
        subprocess.run([PROGRAM, "catalog", "--control", "control", "--key", KEY], stdout=file, check=True)


def sizes():
    """How large the pages are."""
    files = [os.path.join(at, it) for at, _, names in os.walk(os.path.realpath("pages")) for it in names]
    bytes_of = {name: os.path.getsize(f"pages/{name}") for name in ("index.html", "parts/modules.js")}
    print(f"{len(files):,} files, {sum(map(os.path.getsize, files)) >> 20:,} MiB; {bytes_of}; ", end="")
    print(f"kept {os.path.getsize('.pages.kept') >> 20:,} MiB", flush=True)


def main():
    parser = parser_of(__doc__)
    add_quick(parser)
    words = parser.parse_args()
    need()
    modules = MODULES // words.scale
    with tempfile.TemporaryDirectory(dir=os.environ.get("STORES")) as folder:
        os.chdir(folder)
        readmes = texts(40)
        filled("store.db", modules, readmes)
        with open("key", "w", encoding="ascii") as file:
            file.write(KEY)
        words = [PROGRAM, "serve", "--db", "store.db", "--port", "0", "--control", "control"]
        server = subprocess.Popen(words, stdin=subprocess.DEVNULL, stdout=subprocess.PIPE)
        try:
            port = int(server.stdout.readline().decode().rpartition(":")[2])
            lines()
            make("from nothing", port)
            sizes()
            make("nothing new", port)
            for at in range(NEW):
                gomod = gomod_of(at * 97 % modules, VERSIONS, modules)
                content = zip_of(at * 97 % modules, VERSIONS, gomod, readmes)
                told = exchanged(port, put(path_of(at * 97 % modules), f"v1.{VERSIONS}.0", gomod, content, KEY))
                assert told.startswith(b"HTTP/1.1 201 "), told
            lines()
            make(f"{NEW} new versions", port)
        finally:
            server.kill()
            server.wait()


if __name__ == "__main__":
    main()
