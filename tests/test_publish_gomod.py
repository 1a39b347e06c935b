"""goshelf-publish --check, without a server, finds the line that goshelf finds, in listed go.mods and in random ones.

The package by which it does reads each go.mod, and goshelf gets it as a publish. The list is that of the proved
reader's own tests, which names the fault of each. The seed is fixed.
"""

import os
import random
import re
import subprocess
from collections.abc import Iterator
from typing import NamedTuple

import pytest

from lib.keys import KEY
from lib.program import ROOT, answered
from lib.scratch import entered_folder, write

pytestmark = pytest.mark.needs("go")

COUNT = 6_000
PACKAGE = os.path.join(ROOT, "tools", "publish", "internal", "gomod", "gomod.go")
# prints a line for each go.mod that it is given, with the number of its fault if it has one
MAIN = """package main

import (
	"fmt"
	"os"
)

func main() {
	for _, name := range os.Args[1:] {
		text, err := os.ReadFile(name)
		if err != nil {
			os.Exit(1)
		}
		if line := Fault(string(text)); line >= 0 {
			fmt.Print(line)
		}
		fmt.Println()
	}
}
"""
DIRECTIVES = "module go toolchain require exclude replace retract tool godebug ignore".split()
PATHS = "example.com/y example.com/y/v2 gopkg.in/yaml.v2 gopkg.in/yaml.v1 mymod example.com/x".split()
MODULES = ["example.com/x"] * 6 + ["gopkg.in/x.v1", "gopkg.in/x.v2", "example.com/x/v2"]
VERSIONS = """v1.0.0 v2.0.0 v2.0.0+incompatible v0.0.0-a v1.0.0-rc.1 v1.0.0-rc.10 v1.0.0-rc.9 v1.0.0-a.b v1.0.0-a v0.1.0
    v1.0.0-1 v1.0.0-z.99999999999999999999 v1.0.0-z.100000000000000000000""".split()
# words of a line, most of which are wrong in most places
WORDS = [
    *DIRECTIVES, *PATHS, *VERSIONS,
    *r"""frob => =>x ( ) [ ] , // /* { } "a\"b" `raw` "require" "" `` " ` . .. ./x ../y /z ~ C:\y //c a//c a/*b a=b a+b
    example.com/y/v1 example.com/y/v02 example.com/y/v2.3 gopkg.in/yaml.v0 gopkg.in/yaml gopkg.in gopkg.in/v2
    gopkg.in/a.v2-unstable example.com/con example.com/CON.b example.com/a~1 example.com/a~ example.com/~1.b
    Example.com/x -a.com/x example.com/.a example.com/a. example.com//a /a a/ example.com/lpt9 example.com/com0
    example.com/v18446744073709551616 example.com/v18446744073709551615 "example.com/y" `example.com/y` "example.com\/y"
    v1 v1.0 v0.0.0-20240131120000-abcdefabcdef v1.0.0+incompatible v1.0.0-rc.01 v1.0.0-a..b v1.0.0- v01.0.0 v1.2.3-0a
    v18446744073709551615.0.0 v18446744073709551616.0.0 v1.0.0+meta 1.0.0 v2.0.0-x+incompatible "v1.0.0" `v1.0.0` "1.21"
    1.21 1.21.3 1.21rc1 1.21beta2 1.021 1 1.21rc 01.2 1.21.x 1.2-x""".split(),
    '"a b"', "v1.0.0-" + "a" * 121, "v1.0.0-" + "a" * 122, "example.com/" + "a" * 243, "example.com/" + "a" * 244,
    "\x7f", "\x01", "\xa0", "\xe9", "\u200b",
]  # fmt: skip
# an escape of a literal of Rattle
ESCAPE, ESCAPED = re.compile(r"\\(?:u\{(\w+)\}|(.))"), {"t": "\t", "r": "\r", "n": "\n"}
# two paths in a block of `module`, which may have one
TWO = "example.com/x\n\nexample.com/y"
# bytes that are put anywhere
BYTES = [b"\xff", b"\xc3", b"(", b")", b'"', b" ", b"\r", b"\x00", b"/", b"*", b"[", b"\\", b"`", b"\n"]


class Writer:
    """Writes go.mods at random. The seed is fixed."""

    def __init__(self) -> None:
        self.random = random.Random(20261128)

    def choose(self, words: list[str]) -> str:
        """Returns one of these words, or now and then any."""
        return self.random.choice(words if self.random.random() < 0.9 else WORDS)

    def write_line(self) -> str:
        """Returns a line, or a few, most of which are valid."""
        path, other, low, high = map(self.choose, (PATHS, PATHS, VERSIONS, VERSIONS))
        words = " ".join(self.random.choices(WORDS, k=self.random.randint(0, 7)))
        block = self.random.choice(["", "example.com/x", TWO])
        return self.random.choice([
            f"require {path} {low}", f"exclude {path} {low}", f"replace {path} => ./a", f"replace {path} {low} => ../a",
            f"replace {path} => {other} {high}", f"replace {path} {low} => {other} {high}", f"retract {low}",
            f"retract [{low}, {high}]", f"retract [{low},{high}] // why", f"retract (\n\t[{low}, {high}]\n\t{high}\n)",
            f"require (\n\t{path} {low}\n)", "go 1.21", "toolchain x", "tool a", "godebug a=b", "ignore ./x", "",
            "\t// why", "module example.com/x", f"module (\n{block}\n)", self.random.choice(WORDS), words,
            f"{self.random.choice(DIRECTIVES)} {words}", f"{self.random.choice(DIRECTIVES)} (",
        ])  # fmt: skip

    def write_gomod(self) -> bytes:
        """Returns a go.mod of a few lines, perhaps with a byte too many or too few."""
        lines = [self.write_line() for _ in range(self.random.randint(0, 4))]
        if self.random.random() < 0.9:
            lines.insert(self.random.choice([0, 0, 0, len(lines)]), f"module {self.random.choice(MODULES)}")
        text = ("\n".join(lines) + self.random.choice(["", "\n", "\n\n", "\r\n"])).encode()
        at, odd = self.random.randint(0, len(text)), self.random.random()
        if odd < 0.2:
            return text[:at] + self.random.choice(BYTES) + text[at:]
        return text[:at] + text[at + 1 :] if odd < 0.3 else text


def unescape(text: str) -> str:
    """Returns what a literal of Rattle holds."""
    return ESCAPE.sub(lambda found: chr(int(found[1], 16)) if found[1] else ESCAPED.get(found[2], found[2]), text)


def read_listed() -> Iterator[tuple[bytes, str]]:
    """Yields the go.mods of the reader's own tests, each with the line of its fault as a text, or with ''."""
    with open(os.path.join(ROOT, "crates", "test_formats", "src", "gomod_faults.rt"), encoding="utf-8") as file:
        rows = re.findall(r"^read\|(.*)\|(\w+)(?:\((\d+)\))?$", file.read(), re.M)
    for text, fault, line in rows:
        gomod = b"\xff".join(part.encode() for part in unescape(text).replace(";", "\n").split("\xff"))
        yield gomod, "" if fault in ("bare", "more") else line or "0"


LISTED = list(read_listed())


def publish(texts: list[bytes]) -> list[str]:
    """Returns the line that goshelf names for each go.mod, or nothing."""
    head = "PUT /k/{}/example.com/x/@v/v1.0.{} HTTP/1.1\r\nMod-Length: {}\r\nContent-Length: {}\r\n\r\n"
    requests = [head.format(KEY, at, len(text), len(text)).encode() + text for at, text in enumerate(texts)]
    replies = answered(["--mem", "--team", "alpha", "--key", KEY], requests)
    return [body.decode().split()[1] if body.startswith(b"bad-gomod ") else "" for _, body in replies]


def check(texts: list[bytes], folder: str) -> list[str]:
    """Returns the line that the package of goshelf-publish names for each, or nothing."""
    with open(PACKAGE, encoding="utf-8") as file:
        package = file.read()
    assert "\npackage gomod\n" in package
    write({f"{folder}/gomod.go": package.replace("\npackage gomod\n", "\npackage main\n"), f"{folder}/main.go": MAIN})
    names = [f"{folder}/{at}.mod" for at in range(len(texts))]
    write(dict(zip(names, texts)))
    env = {**os.environ, "GO111MODULE": "off", "GOFLAGS": ""}
    words = ["go", "build", "-o", f"{folder}/check", f"{folder}/gomod.go", f"{folder}/main.go"]
    subprocess.run(words, env=env, check=True)
    ran = subprocess.run([f"{folder}/check", *names], capture_output=True, text=True, check=True)
    return ran.stdout.split("\n")[:-1]


class Lines(NamedTuple):
    """Go.mods, and the lines that goshelf-publish and goshelf name for them."""

    texts: list[bytes]
    checked: list[str]
    published: list[str]


@pytest.fixture(scope="module")
def lines() -> Lines:
    """The lines of the listed go.mods, and of those at random behind them."""
    writer = Writer()
    texts = [*(text for text, _ in LISTED), *(writer.write_gomod() for _ in range(COUNT))]
    with entered_folder() as folder:
        return Lines(texts, check(texts, folder), publish(texts))


def test_listed_faults_and_valid_files_are_many() -> None:
    faults = [line for _, line in LISTED]
    assert len(faults) > 100 and faults.count("") > 30


@pytest.mark.parametrize("number", range(len(LISTED)), ids=[ascii(text)[2:-1][:60] for text, _ in LISTED])
def test_the_line_of_a_listed_go_mod(number: int, lines: Lines) -> None:
    text, line = LISTED[number]
    assert (text, lines.checked[number], lines.published[number]) == (text, line, line)


def test_faults_and_valid_files_are_among_those_at_random(lines: Lines) -> None:
    valid = lines.published[len(LISTED) :].count("")
    assert COUNT // 5 < valid < COUNT // 2


def test_the_lines_of_go_mods_at_random_are_the_same(lines: Lines) -> None:
    rows = list(zip(*lines, strict=True))[len(LISTED) :]
    assert len(rows) == COUNT
    assert [row for row in rows if row[1] != row[2]][:3] == []
