"""What the go settings of docs/NGINX.md tell the proxy behind the shelf.

Of a module that the shelf sees it is nothing, of others their names. The proxy behind is one that has no module and
notes what it is asked; nothing else is reached.
"""

import os
import re
import subprocess
from collections.abc import Iterator
from typing import NamedTuple

import pytest

from lib.go_command import settings
from lib.keys import KEY, KEYS
from lib.modules import zipped
from lib.pages import blocks, read_page
from lib.peers import NoModules
from lib.scratch import entered_folder, write
from lib.servers import Server
from lib.stores import new_store

pytestmark = pytest.mark.needs("go")

READER = KEYS["R"]
GREET, VERSION = "example.com/greet", "v1.0.0"
GREET_FILES = {
    "go.mod": "module example.com/greet\n",
    "greet.go": "package greet\n\nconst Text = 1\n",
    "sub/sub.go": "package sub\n\nconst Text = 1\n",
}
PAGES = ("docs/TUTORIAL.md", "docs/NGINX.md")
SCRIPTS = [script for page in PAGES for script in blocks(page, "sh", "go env -w GOPROXY=")]
NAMES = ("GOPROXY", "GONOSUMDB", "GONOPROXY")


class Row(NamedTuple):
    """What the go command is run for in a module that imports a package, whether it ends well, and the paths that the
    proxy behind is asked."""

    name: str
    imported: str
    words: str
    ends_well: bool
    asked: set[str]
    more: dict[str, str] = {}

    def __str__(self) -> str:
        return self.name


ROWS = [
    Row("a module that the shelf sees", GREET, f"get {GREET}@{VERSION}", True, set()),
    Row("a package below it", f"{GREET}/sub", "mod tidy", True, set()),
    Row("a package that it lacks", f"{GREET}/nosub", "mod tidy", False, set()),
    Row("an import that no module fits", "example.com/nosuch/pkg", "mod tidy", False,
        {"example.com", "example.com/nosuch", "example.com/nosuch/pkg"}),
    Row("a version that does not exist", GREET, f"get {GREET}@v9.9.9", False, {"example.com", GREET}),
    Row("GOPRIVATE and GONOPROXY=none", GREET, f"get {GREET}@{VERSION}", True, set(),
        {"GOPRIVATE": "example.com", "GONOPROXY": "none", "GONOSUMDB": ""}),
]  # fmt: skip


@pytest.fixture(scope="module")
def shelf() -> Iterator[str]:
    """The URL of a shelf that has a module."""
    with entered_folder() as folder:
        new_store(f"{folder}/shelves.db", ("alpha", KEY, READER))
        server = Server(f"{folder}/shelves.db")
        zip_bytes = zipped(GREET, VERSION, GREET_FILES)
        assert server.put(KEY, GREET, VERSION, GREET_FILES["go.mod"].encode(), zip_bytes)[0] == 201
        yield f"{server.url}/k/{READER}"
        server.kill()


@pytest.fixture(scope="module")
def proxy() -> Iterator[NoModules]:
    proxy = NoModules()
    yield proxy
    proxy.shutdown()
    proxy.server_close()


@pytest.fixture
def behind(proxy: NoModules) -> NoModules:
    """The proxy behind the shelf, which was asked nothing."""
    proxy.asked.clear()
    return proxy


def run_go(proxies: str, row: Row) -> bool:
    """Runs the go command in a module that imports a package, with no module cache. Returns whether it ended well."""
    with entered_folder() as folder:
        main = f'package main\n\nimport it "{row.imported}"\n\nfunc main() {{ println(it.Text) }}\n'
        write({"go.mod": "module example.com/hello\n\ngo 1.19\n", "main.go": main})
        env = settings(folder, **{"GOPROXY": proxies, "GONOSUMDB": "example.com", **row.more})
        return subprocess.run(["go", *row.words.split()], env=env, capture_output=True, timeout=120).returncode == 0


@pytest.mark.parametrize("row", ROWS, ids=str)
def test_what_the_proxy_behind_is_asked(row: Row, shelf: str, behind: NoModules) -> None:
    ends_well = run_go(f"{shelf},{behind.url}", row)
    asked = {target.split("/@v/")[0].strip("/") for target in behind.asked}
    assert (ends_well, asked) == (row.ends_well, row.asked)


def test_the_shelf_alone_asks_nobody_else(shelf: str, behind: NoModules) -> None:
    row = Row("", "example.com/nosuch/pkg", "mod tidy", False, set())
    assert (run_go(shelf, row), behind.asked) == (False, [])


class TestPages:
    """The commands of the pages set what they say, and that of NGINX undoes it."""

    @pytest.fixture
    def home(self) -> Iterator[str]:
        """A home with a login, whose mode one of the blocks changes."""
        with entered_folder() as folder:
            write({".netrc": ""})
            yield folder

    def read_settings(self, home: str, script: str = "") -> list[str]:
        """Returns the settings of the go command after a script."""
        clean = {name: text for name, text in os.environ.items() if not name.startswith("GO")}
        words = ["sh", "-euc", f"{script}\ngo env {' '.join(NAMES)}"]
        ran = subprocess.run(words, env={**clean, "HOME": home}, capture_output=True, text=True)
        return ran.stdout.splitlines() or [ran.stderr]

    def test_three_blocks_set_the_go_command(self) -> None:
        assert len(SCRIPTS) == 3

    @pytest.mark.parametrize("script", SCRIPTS, ids=lambda script: re.search(r"GOPROXY=(\S+)", script)[1])
    def test_settings_are_made_and_undone(self, script: str, home: str) -> None:
        before = self.read_settings(home)
        proxies = re.search(r"GOPROXY=(\S+)", script)[1]
        assert self.read_settings(home, script) == [proxies, "example.com", "none"]
        undo = re.search(r"`(go env -u [A-Z ]*)`", read_page("NGINX.md"))[1]
        assert self.read_settings(home, undo) == before
