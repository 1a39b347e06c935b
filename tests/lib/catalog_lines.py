#!/usr/bin/env python3
"""Prints what a shelf sees, one JSON object a line, from a copy of a store: the lines that tools/catalog reads.

usage: tests/lib/catalog_lines.py STORE SHELF

It stands on the documents alone: the tables of docs/REFERENCE.md, SemVer 2.0.0, and the Go Modules Reference with the
profile of go.mod files at the top of crates/gomod. It uses neither goshelf nor the sort keys of the store.
"""

import base64
import contextlib
import hashlib
import json
import re
import sqlite3
import sys
import urllib.parse
from datetime import datetime

VERSION = re.compile(r"v(\d+)\.(\d+)\.(\d+)(?:-([0-9A-Za-z.-]+))?(\+incompatible)?")
STAMP = re.compile(r"(\d{14})-[0-9a-f]{12}")
# the tokens of a line of a go.mod: a comment, a space, a string, one of five signs, the arrow or a name
TOKEN = re.compile(
    r"""(?P<skip>//.*|[ \t\r]+)|"(?P<quoted>(?:\\.|[^"\\])*)"|`(?P<raw>[^`]*)`|(?P<sign>[()\[\],])"""
    r"""|(?P<name>(?:(?!//)[^\x00-\x20\x7f()\[\],"`{}])+)"""
)
RELEASE, PRE, PSEUDO = 2, 1, 0


class Version:
    """A version, with its precedence and its rank as values that compare."""

    def __init__(self, text):
        numbers = VERSION.fullmatch(text)
        self.text, self.core = text, tuple(int(it) for it in numbers.groups()[:3])
        self.parts = numbers[4].split(".") if numbers[4] else []
        self.precedence = self.core, not self.parts, [identifier(it) for it in self.parts]
        self.stamp = self.stamp_of()
        self.kind = PSEUDO if self.stamp else PRE if self.parts else RELEASE
        self.rank = self.kind, int(self.stamp or 0), self.precedence

    def stamp_of(self):
        """The 14 digits of a pseudo-version, or None."""
        *before, last = self.parts or [""]
        found = STAMP.fullmatch(last)
        _, minor, patch = self.core
        forms = (
            not before and (minor, patch) == (0, 0),
            before == ["0"] and patch >= 1,
            len(before) >= 2 and before[-1] == "0",
        )
        return found[1] if found and any(forms) and is_time(found[1]) else None


def identifier(text):
    """An identifier of a pre-release, as a value that compares: numbers as numbers, below all others."""
    return (0, int(text), "") if text.isdigit() else (1, 0, text)


def is_time(stamp):
    """Whether 14 digits are a date that exists and a time of day. (Python has no year 0, a leap year as 2000 was.)"""
    try:
        datetime.strptime("2000" + stamp[4:] if stamp.startswith("0000") else stamp, "%Y%m%d%H%M%S")
    except ValueError:
        return False
    return stamp[12:] <= "59"


def tokens(line):
    """The tokens of a line, each as its kind and its text."""
    found, at = [], 0
    while at < len(line):
        token = TOKEN.match(line, at)
        at = token.end()
        if token["quoted"] is not None:
            found.append(("string", re.sub(r"\\(.)", r"\1", token["quoted"])))
        elif token["skip"] is None:
            kind = "string" if token["raw"] is not None else token.lastgroup
            found.append((kind, token[token.lastgroup]))
    return found


def entries(text):
    """Yields the entries of a go.mod, each as its directive and the tokens behind it."""
    keyword = None
    for line in filter(None, map(tokens, text.split("\n"))):
        if keyword and line == [("sign", ")")]:
            keyword = None
        elif keyword:
            yield keyword, [it for _, it in line]
        elif line[1:] == [("sign", "(")]:
            keyword = line[0][1]
        else:
            yield line[0][1], [it for _, it in line[1:]]


class GoMod:
    """What a go.mod says of Go, of what it requires, and of what it retracts."""

    def __init__(self, content):
        self.go, self.requires, self.retracts = None, [], []
        for directive, words in entries(content.decode()):
            if directive == "go":
                self.go = words[0]
            elif directive == "require":
                self.requires.append({"Path": words[0], "Version": words[1]})
            elif directive == "retract":
                bounds = [it for it in words if it not in "[],"]
                self.retracts.append(tuple(Version(it).precedence for it in (bounds[0], bounds[-1])))

    def does_retract(self, version):
        return any(low <= version.precedence <= high for low, high in self.retracts)


def chain(store, shelf):
    """The names of the shelves that a shelf sees, the shelf itself first, each with what `Shelf` calls it."""
    found = store.execute("SELECT parent FROM shelf WHERE name = ?", (shelf,)).fetchone()
    if found is None:
        raise LookupError(f"no shelf has the name {shelf}")
    (parent,) = found
    above = [] if shelf == "common" else [("common", "common")]
    group = [(parent, "group")] if parent not in (None, "common") else []
    return {name: word for name, word in [(shelf, "own"), *group, *above]}


def seen(store, shelf):
    """Yields each path that a shelf sees, by its bytes, with its versions: of each version the first of the chain."""
    names = chain(store, shelf)
    for (path,) in store.execute("SELECT DISTINCT path FROM version ORDER BY CAST(path AS BLOB)").fetchall():
        rows = store.execute("SELECT shelf, version, time, mod, id FROM version WHERE path = ?", (path,)).fetchall()
        found = {}
        for name, word in names.items():
            for _, version, *rest in (it for it in rows if it[0] == name):
                found.setdefault(version, (word, *rest))
        if found:
            yield path, found


def size(store, number):
    [(count,)] = store.execute("SELECT coalesce(sum(length(bytes)), 0) FROM piece WHERE version = ?", (number,))
    return count


def gomod_sum(content):
    """The hash of go.sum for a go.mod."""
    line = f"{hashlib.sha256(content).hexdigest()}  go.mod\n"
    return "h1:" + base64.b64encode(hashlib.sha256(line.encode()).digest()).decode()


def objects(store, shelf):
    """Yields the objects that the lines have."""
    for path, found in seen(store, shelf):
        versions = sorted(map(Version, found), key=lambda it: it.precedence)
        ruling = GoMod(found[max(versions, key=lambda it: it.rank).text][2])
        left = [it for it in versions if not ruling.does_retract(it)]
        latest = max(left, key=lambda it: it.rank, default=None)
        for version in versions:
            word, time, content, number = found[version.text]
            gomod = GoMod(content)
            yield {
                "Path": path,
                "Version": version.text,
                "Time": time,
                "Retracted": ruling.does_retract(version),
                "Latest": version is latest,
                "GoVersion": gomod.go,
                "Require": gomod.requires,
                "Shelf": word,
                "GoModSum": gomod_sum(content),
                "ZipSize": size(store, number),
            }


def line_of(fields):
    """The line of an object: what has no value, or is false, is left out."""
    kept = {name: value for name, value in fields.items() if value is not None and value is not False}
    return json.dumps(kept, ensure_ascii=False, separators=(",", ":")) + "\n"


def lines(name, shelf):
    """The lines of a shelf of the store in a file, which is only read."""
    with contextlib.closing(sqlite3.connect(f"file:{urllib.parse.quote(name)}?mode=ro", uri=True)) as store:
        return "".join(map(line_of, objects(store, shelf)))


def main(words):
    if len(words) != 2 or any(it.startswith("-") for it in words):
        print(__doc__.strip(), file=sys.stderr)
        return 2
    try:
        sys.stdout.write(lines(*words))
    except (sqlite3.Error, LookupError) as error:
        print(f"catalog_lines: {words[0]}: {error}", file=sys.stderr)
        return 1
    return 0


if __name__ == "__main__":
    sys.exit(main(sys.argv[1:]))
