"""Compares the table of docs/DIFFERENCES-FROM-GO.md with what golang.org/x/mod and goshelf answer to each input.

It needs Debian's golang-go and golang-golang-x-mod-dev. A test that fails shows the line that the page lacks.
"""

import os
import re
import subprocess
from typing import NamedTuple

import pytest

from lib.keys import KEY, MEMORY
from lib.modules import escaped
from lib.pages import read_page
from lib.program import ROOT, answered
from lib.scratch import entered_folder

PACKAGES = "/usr/share/gocode/src/golang.org/x/mod"
pytestmark = [
    pytest.mark.needs("go"),
    pytest.mark.skipif(not os.path.isdir(PACKAGES), reason="golang-golang-x-mod-dev is not installed"),
]

LONG_PATH = "example.com/" + "a" * 244
LONG_VERSION = "v1.0.0-" + "a" * 122


class Row(NamedTuple):
    """A row of the table: what it is about, the kind of its input, and the input."""

    about: str
    kind: str
    inputs: tuple[str, ...]

    def __str__(self) -> str:
        return self.about


def row(about: str, kind: str, *inputs: str) -> Row:
    return Row(about, kind, inputs)


def row_of_lines(about: str, lines: str) -> Row:
    """Returns a row about the lines behind the module line of a go.mod."""
    return row(about, "gomod", rf"module example.com/x\n{lines}\n")


# The input is a path, a path and a version, or the text of a go.mod, in which \n ends a line, and <C2 A0> has the bytes
# that it names, as `read_bytes` returns them.
ROWS = [
    row("`gopkg.in` with `-unstable`", "path", "gopkg.in/yaml.v2-unstable"),
    row("a path of 256 bytes", "path", LONG_PATH),
    row("`+incompatible` on a path with a suffix", "version", "example.com/x/v2", "v2.0.0+incompatible"),
    row("`+incompatible` on major 1", "version", "example.com/x", "v1.0.0+incompatible"),
    row("`+incompatible` on major 0", "version", "example.com/x", "v0.1.0+incompatible"),
    row("another build part", "version", "example.com/x", "v1.0.0+meta"),
    row("a version of 129 bytes", "version", "example.com/x", LONG_VERSION),
    row("a revision in upper case", "version", "example.com/x", "v0.0.0-20240131120000-ABCDEFABCDEF"),
    row("a revision that is not hex", "version", "example.com/x", "v0.0.0-20240131120000-ghijklghijkl"),
    row("a date that does not exist", "version", "example.com/x", "v0.0.0-20240230120000-abcdefabcdef"),
    row("a time of day that does not exist", "version", "example.com/x", "v0.0.0-20240131250000-abcdefabcdef"),
    row("an empty go.mod", "gomod", r""),
    row_of_lines("`go 0.0`", "go 0.0"),
    row_of_lines("`go` with three numbers", "go 1.21.0"),
    row_of_lines("`toolchain`", "toolchain go1.21.0"),
    row_of_lines("`tool`", "tool example.com/x/cmd"),
    row_of_lines("`godebug`", "godebug default=go1.21"),
    row_of_lines("`ignore`", "ignore ./static"),
    row_of_lines("an unknown directive", "frobnicate y"),
    row("a raw string as a value", "gomod", r"module `example.com/x`\n"),
    row("an escape in a value", "gomod", r'module "example.com\u002fx"' + r"\n"),
    row("a keyword in quotation marks", "gomod", r'"module" example.com/x\n'),
    row_of_lines("a required version that is not canonical", "require example.com/y v1"),
    row_of_lines("a retracted interval from high to low", "retract [v1.1.0, v1.0.0]"),
    row_of_lines("a retraction of another major", "retract v2.0.0"),
    row_of_lines("a replacement by a Windows path", r"replace example.com/y => C:\y"),
    row_of_lines("an empty block on one line", "require ( )"),
    row("a comment that is not UTF-8", "gomod", r"module example.com/x // <FF>\n"),
    row_of_lines("a required path with a reserved name", "require example.com/con v1.0.0"),
    row_of_lines("a required path with a plus sign", "require a+b v1.0.0"),
    row_of_lines("a replacement by a path without a dot in its first element", "replace example.com/y => mymod v1.0.0"),
    row_of_lines("a replacement by a version of another major", "replace example.com/y => example.com/z v2.0.0"),
    row_of_lines("a replacement by `..`", "replace example.com/y => .."),
    row_of_lines("`go` with a release candidate", "go 1.21rc1"),
    row_of_lines("a no-break space in a file path", "replace example.com/y => ./a<C2 A0>b"),
    row_of_lines("a zero-width space in a file path", "replace example.com/y => ./a<E2 80 8B>b"),
    row_of_lines(
        "a required path without a dot in its first element", r"require mymod v0.0.0\nreplace mymod => ./mymod"
    ),
]


@pytest.fixture(scope="module")
def said_by_go() -> dict[str, str]:
    """What golang.org/x/mod says of each row."""
    settings = {"GO111MODULE": "off", "GOPATH": "/usr/share/gocode", "GOFLAGS": ""}
    with entered_folder():
        source = os.path.join(ROOT, "tests", "departures.go")
        subprocess.run(["go", "build", "-o", "departures", source], check=True, env={**os.environ, **settings})
        text = "".join("\t".join([row.kind, *row.inputs]) + "\n" for row in ROWS)
        ran = subprocess.run(["./departures"], input=text, capture_output=True, text=True, check=True)
    return {row.about: said for row, said in zip(ROWS, ran.stdout.splitlines(), strict=True)}


@pytest.fixture(scope="module")
def table() -> list[str]:
    """The lines of the page."""
    return read_page("DIFFERENCES-FROM-GO.md").splitlines()


def read_bytes(text: str) -> bytes:
    """Returns the bytes of a go.mod, as a row writes it."""
    text_bytes = text.encode().replace(rb"\n", b"\n")
    return re.sub(rb"<([0-9A-F ]+)>", lambda named: bytes.fromhex(named[1].decode()), text_bytes)


def put(row: Row) -> bytes:
    """Returns the bytes of a publish of a row."""
    path, version = row.inputs[0], "v1.0.0"
    if row.kind == "gomod":
        path, gomod = "example.com/x", read_bytes(row.inputs[0])
    else:
        gomod = f"module {path}\n".encode()
        version = row.inputs[1] if row.kind == "version" else "v2.0.0" if path.startswith("gopkg.in/") else version
    lengths = f"Mod-Length: {len(gomod)}\r\nContent-Length: {len(gomod) + 3}"
    head = f"PUT /k/{KEY}/{escaped(path)}/@v/{escaped(version)} HTTP/1.1\r\n{lengths}\r\n\r\n"
    return head.encode() + gomod + b"zip"


def show_answer(row: Row) -> str:
    """Returns the status and the body that goshelf answers to a publish of a row."""
    [(status, body)] = answered(MEMORY, [put(row)])
    return f"{status} `{body.decode().strip()}`"


def show_input(row: Row) -> str:
    """Returns the input of a row as code of the table. Two grave accents enclose a text that has one."""
    text = " ".join(row.inputs) or "(nothing)"
    text = text if len(text) <= 80 else text[:24] + ".." + text[-4:]
    fence = "``" if "`" in text else "`"
    return fence + text.replace("|", "\\|") + fence


@pytest.mark.parametrize("row", ROWS, ids=str)
def test_the_page_has_the_line_of_an_input(row: Row, said_by_go: dict[str, str], table: list[str]) -> None:
    line = f"| {row.about} | {show_input(row)} | {said_by_go[row.about]} | {show_answer(row)} |"
    assert line in table, line
