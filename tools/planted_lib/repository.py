"""The crates of the repository in which the tool runs, and its files."""
import functools
import hashlib
import os
import subprocess
import sys
from dataclasses import dataclass, field

from common import crate_lines

RT = os.environ.get("RT", "rt").split()
TOOL = os.path.basename(sys.argv[0])
PARTS = ("src", "specs", "proofs")


class Unusable(Exception):
    """Why an edit, or a crate, cannot be tried."""


def read(path: str) -> str:
    with open(path, encoding="utf-8", errors="replace") as file:
        return file.read()


def write(path: str, text: str) -> None:
    with open(path, "w", encoding="utf-8") as file:
        file.write(text)


def root_above(folder: str) -> str:
    """Returns the nearest folder at or above with a crates.txt."""
    while not os.path.isfile(f"{folder}/crates.txt"):
        if folder == os.path.dirname(folder):
            sys.exit(f"{TOOL}: no crates.txt stands here or above: run it in the repository")
        folder = os.path.dirname(folder)
    return folder


ROOT = root_above(os.getcwd())


@functools.lru_cache(maxsize=None)
def kit() -> str:
    """Returns the name of the kit that checks would use, a line."""
    return subprocess.run([*RT, "version"], stdin=subprocess.DEVNULL, capture_output=True, text=True).stdout


@dataclass
class Crate:
    """A crate of crates.txt, with the repository's crates below it, lowest first."""

    name: str
    line: str
    below: "list[Crate]" = field(default_factory=list)

    @property
    def folder(self) -> str:
        return f"{ROOT}/crates/{self.name}"

    def files(self) -> list[str]:
        """Returns the paths of the files that a check reads, within the crate's folder."""
        found = []
        for part in PARTS:
            for at, _, names in os.walk(f"{self.folder}/{part}"):
                found += [os.path.relpath(f"{at}/{name}", self.folder) for name in names]
        return sorted(found)

    def sum(self) -> str:
        """Returns a sum of all that a check of the crate reads."""
        made = hashlib.sha256(kit().encode())
        for crate in [*self.below, self]:
            made.update(crate.line.encode())
            for path in crate.files():
                made.update(f"{crate.name}/{path}\n{read(f'{crate.folder}/{path}')}".encode())
        return made.hexdigest()


def crates_of_repository() -> dict[str, Crate]:
    """Returns the crates of crates.txt by name, each after those below it."""
    rows = crate_lines(read(f"{ROOT}/crates.txt"))
    found: dict[str, Crate] = {}

    def add(name: str) -> Crate:
        if name not in found:
            uses = [add(used) for used in rows[name].partition(":")[2].split() if used in rows]
            below = {low.name: low for used in uses for low in [*used.below, used]}
            found[name] = Crate(name, rows[name], [*below.values()])
        return found[name]

    for name in rows:
        add(name)
    return found


def changed_since(rev: str, crates: list[Crate]) -> list[Crate]:
    """Returns the crates whose folder, or that of a crate below, differs from the revision."""
    touched: set[str] = set()
    for words in (["diff", "--name-only", rev, "--"], ["ls-files", "-o", "--exclude-standard"]):
        ran = subprocess.run(["git", "-C", ROOT, *words, "crates"], capture_output=True, text=True)
        if ran.returncode:
            sys.exit(f"{TOOL}: {ran.stderr.strip()}")
        touched |= {path.split("/")[1] for path in ran.stdout.split("\n") if path.count("/") > 1}
    return [crate for crate in crates if touched & {crate.name, *[low.name for low in crate.below]}]
