"""Pages of tools/catalog that are made step by step, from run to run, are those that a run from nothing makes.

Each step publishes versions with other requirements, retractions, deprecations and READMEs, or goes back to a copy.
"""

import contextlib
import importlib.machinery
import importlib.util
import json
import os
import random
import shutil
import sqlite3
import sys
import traceback
from collections.abc import Callable
from types import ModuleType

import pytest

from catalog_lib import folder as folders
from catalog_lib import search
from lib.catalog_store import TODAY, TOOL
from lib.catalog_zips import lines_of, published, read_pages
from lib.keys import KEYS, SHELVES
from lib.program import PROGRAM, answered
from lib.scratch import write
from lib.stores import add_platform, new_store

STORE, COPY = "store.db", "copy.db"
PATHS = [
    f"example.com/{it}"
    for it in ("app", "App", "App/v2", "base", "cmd/tool", "data", "edge", "flow", "index.html", "x")
]
WORDS = [f"{a}{b}" for a in ("read", "write", "open", "close", "keep") for b in ("er", "ing", "able", "s")]
STEPS = 9
# a company whose shelf has few pages and words, and one whose pages have a spare and whose search leaves words out
SIZES = {"few": (folders.SPARE_LEAST, search.BYTES_MOST), "many": (10, 1_300)}


class Company:
    """Modules of a company, which publish by chance."""

    def __init__(self, seed: int) -> None:
        self.random = random.Random(seed)
        self.versions: dict[str, int] = {}
        self.log: list[str] = []

    def publish(self) -> bytes:
        """Returns the publish of the next version of a module."""
        path = self.random.choice(PATHS)
        letter = "C" if path.endswith("base") else "A"
        minor = self.versions[path] = self.versions.get(path, -1) + 1
        version = f"v{2 if path.endswith('/v2') else 1}.{minor}.0" + self.random.choice(["", "", "", "-rc.1"])
        files = {"go.mod": self.gomod(path), "a.go": f"// Package p {self.text(4)}.\npackage p\n"}
        if self.random.random() < 0.7:
            files["README.md"] = f"# {path}\n\n{self.text(12)}\n"
        if self.random.random() < 0.3:
            files[f"sub{minor % 3}/s.go"] = "package s\n"
        shelf = "common" if letter == "C" else "alpha"
        told = {"time": f"2026-11-{minor % 28 + 1:02}T10:00:00+00:00", "name": "ada", "shelf": shelf, "status": "201"}
        self.log.append(json.dumps({**told, "path": path, "version": version}))
        return published(letter, path, version, files)

    def gomod(self, path: str) -> str:
        """A go.mod that requires others by chance, also some that are not there."""
        needed = self.random.sample([it for it in PATHS if it != path], self.random.randrange(4))
        lines = [f"\t{it} v{2 if it.endswith('/v2') else 1}.{self.random.randrange(4)}.0" for it in needed]
        deprecated = f"// Deprecated: {self.text(3)}\n" if self.random.random() < 0.2 else ""
        retracts = self.random.random() < 0.2 and not path.endswith("/v2")
        retract = f"retract v1.{self.random.randrange(3)}.0 // {self.text(2)}\n" if retracts else ""
        requires = "require (\n" + "\n".join(lines) + "\n)\n" if lines else ""
        return f"{deprecated}module {path}\n\ngo 1.{self.random.randrange(18, 22)}\n\n{requires}{retract}"

    def text(self, count: int) -> str:
        return " ".join(self.random.choices(WORDS, k=count))


@pytest.fixture
def tool() -> ModuleType:
    """The tool, as a module."""
    loader = importlib.machinery.SourceFileLoader("catalog_tool", TOOL)
    spec = importlib.util.spec_from_loader("catalog_tool", loader)
    assert spec
    found = importlib.util.module_from_spec(spec)
    loader.exec_module(found)
    return found


def kept(name: str) -> list[tuple[str, ...]]:
    """Returns the versions of which it is kept what was read for the pages in a folder."""
    with contextlib.closing(sqlite3.connect(f".{name}.kept")) as file:
        return file.execute("SELECT path, version FROM reading_2 ORDER BY 1, 2").fetchall()


def status_of(run: Callable[[], int]) -> int:
    """Returns the status of a run in a process of its own, which gives back the lock of its folder."""
    child = os.fork()
    if child == 0:
        status = 70
        try:
            status = run()
        except BaseException:
            traceback.print_exc()
        finally:
            sys.stdout.flush()
            sys.stderr.flush()
            os._exit(status)
    return os.waitstatus_to_exitcode(os.waitpid(child, 0)[1])


@pytest.fixture
def make(tool: ModuleType, folder: str, monkeypatch: pytest.MonkeyPatch) -> Callable[[str, str], dict[str, bytes]]:
    """Makes the pages of alpha, of the lines of a store, in a folder. Returns their files."""
    os.mkdir("bin")
    os.symlink(PROGRAM, "bin/goshelf")
    monkeypatch.setenv("PATH", f"{os.path.abspath('bin')}:{os.environ['PATH']}")
    write({"key": KEYS["A"], "owners.json": json.dumps({"example.com": ["alpha", "common"]})})

    def made(to: str, store: str) -> dict[str, bytes]:
        write({"lines": lines_of("A", store), "common.lines": lines_of("C", store)})
        above = ["--common", "common.lines", "--paths", "owners.json", "--host", "shelf.example.com", "--log", "log"]
        zips = ["--store", store, "--key-file", "key"]
        words = ["--to", to, "--shelf", "alpha", "--today", TODAY, *above, *zips, "lines"]
        assert status_of(lambda: tool.main(words)) == 0
        return read_pages(to)

    return made


@pytest.mark.parametrize("size", SIZES)
@pytest.mark.parametrize("seed", range(2))
def test_pages_by_steps_are_those_made_anew(
    make: Callable[[str, str], dict[str, bytes]], monkeypatch: pytest.MonkeyPatch, size: str, seed: int
) -> None:
    monkeypatch.setattr(folders, "SPARE_LEAST", SIZES[size][0])
    monkeypatch.setattr(search, "BYTES_MOST", SIZES[size][1])
    new_store(STORE, *SHELVES)
    add_platform(STORE)
    company = Company(seed)
    for step in range(STEPS):
        if step == STEPS - 3:
            shutil.copyfile(COPY, STORE)
        requests = [company.publish() for _ in range(8 if step == 0 else company.random.randrange(1, 4))]
        assert answered(["--db", STORE], requests) == [(201, b"published\n")] * len(requests)
        # (nginx may write its line of a publish after the run that shows it)
        write({"log": "".join(f"{line}\n" for line in company.log[: len(company.log) - step % 2])})
        assert make("steps", STORE) == make(f"anew{step}", STORE), f"step {step}"
        assert kept("steps") == kept(f"anew{step}"), f"step {step}"
        if step == 3:
            shutil.copyfile(STORE, COPY)
