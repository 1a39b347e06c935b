"""What the go command downloads, lists, gets and builds from a store of two teams.

Expected values are Go's own rules (Go Modules Reference) and sums that are made here from the zips.
"""

import json
import os
import subprocess
from collections.abc import Iterable
from typing import NamedTuple, Protocol

from lib.go_command import build_cache
from lib.keys import KEYS
from lib.modules import Version, module, sums
from lib.scratch import read, write

ALPHA, READER, BETA, COMMON = (KEYS[letter] for letter in "ARBC")
PSEUDO = "v0.0.0-20240131120000-abcdefabcdef"
RETRACTED = "retract (\n\tv1.1.0 // lost a file\n\tv1.3.0 // published too early\n)\n"
USES_BASE = 'package words\n\nimport "example.com/base"\n\nconst Version = "words over " + base.Version\n'
GREET = [module("example.com/greet", version) for version in ("v1.0.0", "v1.1.0", "v1.2.0", "v1.4.0-rc.1")]
GREET.append(module("example.com/greet", "v1.3.0", more=RETRACTED))
ON_ALPHA = [
    *GREET,
    module("example.com/greet/v2", "v2.0.0"),
    module("example.com/old", "v1.0.0"),
    module("example.com/old", "v2.0.0+incompatible", more="bare"),
    module("example.com/early", PSEUDO),
    module("example.com/Upper/CaseD", "v1.0.0"),
    module("example.com/words", "v1.0.0", ["example.com/base v1.0.0"], code=USES_BASE),
]
ON_COMMON = [module("example.com/base", version) for version in ("v1.0.0", "v1.1.0")]
ON_BETA = [module("example.com/secret", "v1.0.0"), module("example.com/words", "v0.9.0")]
# what each key publishes
PUBLISHED = ((ALPHA, ON_ALPHA), (COMMON, ON_COMMON), (BETA, ON_BETA))


class Listing(NamedTuple):
    """What `go list -m` prints to a developer of alpha: the words behind that, and the output."""

    name: str
    words: str
    wanted: str

    def __str__(self) -> str:
        return self.name


LISTINGS = [
    Listing("versions", "-versions example.com/greet@v1.0.0", "example.com/greet v1.0.0 v1.2.0 v1.4.0-rc.1"),
    Listing("versions with the retracted", "-retracted -versions example.com/greet@v1.0.0",
            "example.com/greet v1.0.0 v1.1.0 v1.2.0 v1.3.0 v1.4.0-rc.1"),
    Listing("the latest", "example.com/greet@latest", "example.com/greet v1.2.0"),
    Listing("the latest with the retracted", "-retracted example.com/greet@latest",
            "example.com/greet v1.3.0 (retracted)"),
    Listing("why a version is retracted", "-retracted -f {{.Version}}{{.Retracted}} example.com/greet@v1.1.0",
            "v1.1.0[lost a file]"),
    Listing("a time", "-f {{.Time}} example.com/greet@v1.0.0", "2024-01-31 12:00:00 +0000 UTC"),
    Listing("a range", "example.com/greet@<v1.2.0", "example.com/greet v1.0.0"),
    Listing("a front of a version", "example.com/greet@v1.2", "example.com/greet v1.2.0"),
    Listing("another major version", "example.com/greet/v2@latest", "example.com/greet/v2 v2.0.0"),
    Listing("a path with capitals", "example.com/Upper/CaseD@latest", "example.com/Upper/CaseD v1.0.0"),
    Listing("a pseudo-version", "example.com/early@latest", f"example.com/early {PSEUDO}"),
    Listing("+incompatible", "-versions example.com/old@v1.0.0", "example.com/old v1.0.0 v2.0.0+incompatible"),
    Listing("versions of common", "-versions example.com/base@latest", "example.com/base v1.0.0 v1.1.0"),
    Listing("versions that another team has too", "-versions example.com/words@latest", "example.com/words v1.0.0"),
]  # fmt: skip
# what `go get` is asked in turn, and the version that the go.mod requires then
GETS = {
    "example.com/greet@latest": "v1.2.0",
    "example.com/greet@v1.0.0": "v1.0.0",
    "example.com/greet@upgrade": "v1.2.0",
    "example.com/greet@v1.4.0-rc.1": "v1.4.0-rc.1",
    "example.com/greet/v2@latest": "v2.0.0",
    "example.com/old@v1.0.0": "v1.0.0",
    "example.com/old@v2.0.0+incompatible": "v2.0.0+incompatible",
    "example.com/early@latest": PSEUDO,
    "example.com/Upper/CaseD@latest": "v1.0.0",
    "example.com/base@v1.0.0": "v1.0.0",
    "example.com/base@patch": "v1.0.0",
    "example.com/words@latest": "v1.0.0",
}
# a program with dependencies on two shelves, what it requires once it is tidied, and what it prints
PROGRAM = """package main

import (
	"example.com/base"
	"example.com/greet/v2"
	"example.com/words"
)

func main() { println(greet.Version, base.Version, words.Version) }
"""
REQUIRED = {"example.com/base": "v1.1.0", "example.com/greet/v2": "v2.0.0", "example.com/words": "v1.0.0"}
PRINTED = "example.com/greet/v2 v2.0.0 example.com/base v1.1.0 words over example.com/base v1.1.0"
# versions that each does not see
NOT_BETAS = ("example.com/greet@v1.0.0", "example.com/early@latest", "example.com/words@v1.0.0")
NOT_ALPHAS = ("example.com/secret@v1.0.0", "example.com/words@v0.9.0", "example.com/none@latest")


class Proxy(Protocol):
    """A server of modules on a port of this host."""

    @property
    def port(self) -> int:
        ...


class Ran(NamedTuple):
    """How a command ended."""

    status: int
    output: str
    errors: str


class Developer:
    """A developer: a key, a cache of modules and a folder of its own."""

    def __init__(self, server: Proxy, folder: str, key: str) -> None:
        self.folder, self.server, self.key = folder, server, key
        os.makedirs(os.path.join(folder, "home"))

    def go(self, *words: str, at: str = "home") -> Ran:
        """Runs the go command in a folder of the developer's."""
        env = {
            "PATH": os.environ["PATH"],
            "HOME": os.path.join(self.folder, "home"),
            "GOPATH": os.path.join(self.folder, "path"),
            "GOCACHE": build_cache(),
            "GOPROXY": f"http://127.0.0.1:{self.server.port}/k/{self.key}",
            "GOSUMDB": "off",
            "GOFLAGS": "-modcacherw",
            "CGO_ENABLED": "0",
        }
        folder = os.path.join(self.folder, at)
        ran = subprocess.run(["go", *words], cwd=folder, env=env, capture_output=True, text=True)
        return Ran(ran.returncode, ran.stdout.strip(), ran.stderr.strip())

    def list(self, words: str) -> Ran:
        """Runs `go list -m` with these words."""
        return self.go("list", "-m", *words.split())

    def download(self, path: str, version: str) -> tuple[str | None, str | None, str | None]:
        """Downloads a version, and returns its name and the sums of its go.mod and its zip."""
        ran = self.go("mod", "download", "-json", f"{path}@{version}")
        found = json.loads(ran.output) if ran.status == 0 else {}
        return found.get("Version"), found.get("GoModSum"), found.get("Sum")

    def misses(self, query: str) -> bool:
        """Whether a version is to the developer as one that does not exist."""
        ran = self.go("mod", "download", query)
        return ran.status != 0 and "404 Not Found" in ran.errors + ran.output

    def module(self, name: str, text: str, code: str) -> None:
        """Makes a main module in a folder of its own."""
        os.makedirs(os.path.join(self.folder, name))
        write({f"{self.folder}/{name}/go.mod": text, f"{self.folder}/{name}/main.go": code})

    def required(self, name: str) -> dict[str, str]:
        """Returns the versions of the modules that a main module requires."""
        found = json.loads(self.go("mod", "edit", "-json", at=name).output)
        return {row["Path"]: row["Version"] for row in found.get("Require") or []}


def find_sums(entry: Version) -> tuple[str, str, str]:
    """Returns what `Developer.download` has to return of a version."""
    _, version, gomod, zip_bytes = entry
    return version, *sums(gomod, zip_bytes)


class Gets(NamedTuple):
    """How `go get` ended for each of GETS in turn, and what the go.mod required then; and what came after those."""

    each: dict[str, tuple[Ran, str | None]]
    update: Ran
    updated: dict[str, str]
    none: Ran
    rest: dict[str, str]
    verify: Ran


def get_all(developer: Developer) -> Gets:
    """Makes a main module, in which `go get` is run for each of GETS in turn, then with `-u`, and then `@none`."""
    developer.module("got", "module example.com/got\n\ngo 1.17\n", "package got\n")
    each = {}
    for query in GETS:
        ran = developer.go("get", query, at="got")
        each[query] = ran, developer.required("got").get(query.partition("@")[0])
    update = developer.go("get", "-u", "example.com/words", at="got")
    updated = developer.required("got")
    none = developer.go("get", "example.com/greet@none", at="got")
    rest = developer.required("got")
    return Gets(each, update, updated, none, rest, developer.go("mod", "verify", at="got"))


class Built(NamedTuple):
    """How the commands ended that build PROGRAM and run it, and what is required and summed then."""

    tidy: Ran
    required: dict[str, str]
    build: Ran
    printed: str
    verify: Ran
    why: Ran
    sums: list[str]


def build_program(developer: Developer) -> Built:
    """Makes a main module with PROGRAM, which is tidied, built, run and verified."""
    developer.module("app", "module example.com/app\n\ngo 1.17\n", PROGRAM)
    tidy = developer.go("mod", "tidy", at="app")
    required = developer.required("app")
    build = developer.go("build", "-o", "app", at="app")
    printed = subprocess.run([f"{developer.folder}/app/app"], capture_output=True, text=True).stderr.strip()
    verify = developer.go("mod", "verify", at="app")
    why = developer.go("mod", "why", "example.com/base", at="app")
    lines = read(f"{developer.folder}/app/go.sum").decode().splitlines()
    return Built(tidy, required, build, printed, verify, why, lines)


def ask_all(alpha: Developer, beta: Developer) -> None:
    """Has a developer of alpha and one of beta ask all of the above, and checks what they get."""
    for developer, entries in ((alpha, [*ON_ALPHA, *ON_COMMON]), (beta, [*ON_BETA, *ON_COMMON])):
        check_downloads(developer, entries)
    for listing in LISTINGS:
        ran = alpha.list(listing.words)
        assert (ran.status, ran.output) == (0, listing.wanted), (listing, ran)
    gets = get_all(alpha)
    for query, version in GETS.items():
        assert gets.each[query][1] == version, (query, gets.each[query])
    built = build_program(alpha)
    assert (built.required, built.printed) == (REQUIRED, PRINTED), built
    for developer, queries in ((alpha, NOT_ALPHAS), (beta, NOT_BETAS)):
        for query in queries:
            assert developer.misses(query), query


def check_downloads(developer: Developer, entries: Iterable[Version]) -> None:
    """Has a developer download versions, and checks their sums."""
    for entry in entries:
        found = developer.download(*entry[:2])
        assert found == find_sums(entry), (entry[:2], found)
