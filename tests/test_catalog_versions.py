"""What the pages of tools/catalog show of versions: what changed, what is deprecated or retracted, and what is wrong.

What they say about retractions and deprecation is compared with what the go command prints.
"""

import os
import re
import subprocess
from collections.abc import Iterator

import pytest

from lib.catalog_pages import Page
from lib.catalog_store import line_of, tool
from lib.catalog_zips import lines_of, made_pages, published
from lib.go_command import settings
from lib.keys import KEYS, SHELVES
from lib.messages import put
from lib.program import PROGRAM, answered
from lib.scratch import entered_folder, write
from lib.servers import Server
from lib.stores import add_platform, new_store

pytestmark = pytest.mark.needs("go")

TOLD, OLD, USER, MANY = "example.com/told", "example.com/old", "example.com/user", "example.com/many"
A, B = "package told\n", "package told // other\n"
# the versions of a module, each with its go.mod behind the first line, and its files
VERSIONS = (
    ("v1.0.0", "go 1.18\nrequire example.com/old v1.0.0\n", {"a.go": A, "old.go": A}),
    ("v1.1.0", "go 1.18\nrequire example.com/old v1.0.0\n", {"a.go": A, "old.go": A}),
    ("v1.2.0-rc.1", "go 1.18\n", {"rc.go": A}),
    ("v1.2.0", "go 1.19\nrequire (\nexample.com/old v1.1.0\nexample.com/user v1.0.0\n)\n", {"a.go": B, "new.go": A}),
    ("v1.3.0", "go 1.19\nretract (\n// loses <b>lines\n// and more\nv1.1.0\nv1.3.0 // by mistake\n)\n", {}),
)
OTHERS = (
    (OLD, "v1.0.0", f"module {OLD}\n"),
    (OLD, "v1.1.0", f"// Deprecated: use <i>example.com/told.\n//\n// Later.\nmodule {OLD}\n"),
    (
        USER,
        "v1.0.0",
        f"module {USER}\nrequire {OLD} v1.1.0\nreplace (\nexample.com/x => example.com/y v1.0.0\n"
        "example.com/y => example.com/z v1.0.0\nexample.com/z => example.com/x v1.0.0\n)\n",
    ),
    ("example.com/longest", "v1.0.0", "// Deprecated: " + "long " * 120 + "\nmodule example.com/longest\n"),
    *((MANY, f"v1.{at}.0", f"module {MANY}\ngo 1.{max(12, 11 + at)}\n") for at in range(5)),
)
TABLES = {
    f"m/{TOLD}/versions.html v1.2.0": [f"{OLD}|v1.1.0|v1.0.0", f"{USER}|v1.0.0|–"],
    "health/index.html unusable": ["example.com/broken|v1.0.0|it is no zip"],
    "health/index.html gomods": ["example.com/other|v1.0.0"],
    "health/index.html deprecated": [
        f"{TOLD}|v1.2.0|{OLD}|use <i>example.com/told.",
        f"{USER}|v1.0.0|{OLD}|use <i>example.com/told.",
    ],
    "health/index.html cycles": [f"{USER}|v1.0.0|example.com/x example.com/y example.com/z example.com/x"],
}
# the sections of the page of versions: what each says about its files, by the version
FILES = {
    "v1.3.0": "Changed since v1.2.0|2 files gone a.go new.go|1 file changed go.mod",
    "v1.2.0": "Changed since v1.1.0|1 file new new.go|1 file gone old.go|2 files changed a.go go.mod",
    "v1.1.0": "Changed since v1.0.0|No file.",
    "v1.0.0": "",
}


@pytest.fixture(scope="module", autouse=True)
def printed() -> Iterator[str]:
    """What the tool prints as it makes the pages of the store, which the tests read."""
    with entered_folder():
        new_store("store.db", *SHELVES)
        add_platform("store.db")
        requests = [
            published("A", TOLD, version, {"go.mod": f"module {TOLD}\n{more}", **files})
            for version, more, files in VERSIONS
        ]
        requests += [published("A", path, version, {"go.mod": lines}) for path, version, lines in OTHERS]
        requests.append(put("example.com/broken", "v1.0.0", b"module example.com/broken\n", b"no zip", KEYS["A"]))
        other = "module example.com/other\n"
        requests.append(published("A", "example.com/other", "v1.0.0", {"go.mod": "module x\n"}, other))
        assert answered(["--db", "store.db"], requests) == [(201, b"published\n")] * len(requests)
        os.mkdir("bin")
        os.symlink(PROGRAM, "bin/goshelf")
        yield made_pages("alpha", "A", lines_of("A", "store.db"), "--store", "store.db")


def test_tool_says_how_many_pages_are_new(printed: str) -> None:
    assert " new or changed" in printed


@pytest.mark.parametrize(("name", "rows"), TABLES.items(), ids=TABLES)
def test_table(name: str, rows: list[str]) -> None:
    page, heading = name.split()
    assert Page(f"alpha/{page}").table_of(heading) == rows


def read_sections(text: str) -> dict[str, str]:
    """Returns the sections of the page of versions, by their versions, as a person reads them."""
    found = {}
    for part in text.split("<section ")[1:]:
        version = re.search('id="([^"]*)"', part)[1]
        begin = part.find("<h3>")
        part = part[begin : part.find("<details><summary>go.mod")] if begin > 0 else ""
        part = re.sub("<div.*?</div>", "", part, flags=re.S)
        lines = re.sub("</h3>|</details>|</p>", "|", part)
        words = " ".join(re.sub("<[^>]*>", "", lines).split())
        found[version] = "|".join(line.strip() for line in words.split("|") if line.strip())
    return found


@pytest.fixture
def page() -> Page:
    """The page of the versions of the module that has several."""
    return Page(f"alpha/m/{TOLD}/versions.html")


def test_each_version_has_a_section(page: Page) -> None:
    assert list(read_sections(page.text)) == [version for version, _, _ in VERSIONS[::-1]]


@pytest.mark.parametrize(("version", "files"), FILES.items(), ids=FILES)
def test_section_shows_which_files_changed(page: Page, version: str, files: str) -> None:
    section = read_sections(page.text)[version]
    assert re.sub(r"Go 1\.\d+ in place of 1\.\d+\.\|", "", section) == files


def test_section_says_that_files_of_older_zips_are_not_compared() -> None:
    found = read_sections(Page(f"alpha/m/{MANY}/versions.html").text)
    assert found["v1.4.0"] == "Changed since v1.3.0|Go 1.15 in place of 1.14.|1 file changed go.mod"
    assert found["v1.2.0"].startswith("Changed since v1.1.0|Go 1.13 in place of 1.12.|Files are not compared")
    assert found["v1.1.0"].startswith("Changed since v1.0.0|Nothing that is required.|Files are not compared")


def test_first_release_and_first_version_are_called_so(page: Page) -> None:
    parts = page.text.split("<section ")
    first = [re.search('id="([^"]*)"', part)[1] for part in parts if "<p>The first release on this shelf.</p>" in part]
    assert first == ["v1.0.0"]


def test_section_has_the_reason_of_a_retraction(page: Page) -> None:
    assert re.findall('<p>Retracted: <span dir="auto">(.*)</span></p>', page.text) == [
        "by mistake",
        "loses &lt;b&gt;lines",
    ]


def test_section_shows_the_go_version_that_changed(page: Page) -> None:
    assert "Go 1.19 in place of 1.18." in read_sections(page.text)["v1.2.0"]


@pytest.mark.parametrize("kind", ["zip", "mod"])
def test_section_links_to_its_files(page: Page, kind: str) -> None:
    assert f"../../../{TOLD}/@v/v1.2.0.{kind}" in page.links


def test_section_says_how_to_get_the_version(page: Page) -> None:
    assert page.pre["get-v1.1.0"] == f"go get {TOLD}@v1.1.0"


def test_gomod_has_links(page: Page) -> None:
    assert f'<a href="../../../m/{OLD}/">' in page.text[page.text.index("<summary>go.mod") :]


class TestGoAgrees:
    """The go command prints the same reasons of retractions and deprecations."""

    @pytest.fixture(scope="class")
    def went(self, printed: str) -> tuple[str, str]:
        """What `go get` says about three modules, and what `go list` lists of two."""
        with Server("store.db") as server:
            proxy = f"{server.url}/k/{KEYS['A']}"
            where = settings(os.getcwd(), GOPROXY=proxy, GONOSUMDB="*", GOFLAGS="-mod=mod -modcacherw")
            os.mkdir("main")
            write({"main/go.mod": "module example.com/main\n"})
            how = {"cwd": "main", "env": where, "capture_output": True, "text": True}
            got = subprocess.run(["go", "get", f"{TOLD}@v1.1.0", f"{OLD}@v1.1.0", "example.com/longest@v1.0.0"], **how)
            form = "{{.Path}}|{{.Deprecated}}|{{range .Retracted}}{{.}};{{end}}"
            listed = subprocess.run(["go", "list", "-m", "-u", "-retracted", "-f", form, TOLD, OLD], **how)
            return got.stderr, listed.stdout

    def test_reason_of_a_retraction(self, went: tuple[str, str]) -> None:
        reason = re.search(rf"{TOLD}@v1\.1\.0: retracted by module author: (.*)", went[0])
        rows = Page(f"alpha/m/{TOLD}/index.html").table_of("versions")
        assert reason and [row for row in rows if row.startswith(f"v1.1.0|retracted {reason[1]}|")], (went[0], rows)

    def test_reason_of_a_version_that_retracts_itself(self) -> None:
        rows = Page(f"alpha/m/{TOLD}/index.html").table_of("versions")
        assert rows[0].startswith("v1.3.0|retracted by mistake|")

    @pytest.mark.parametrize("path", [OLD, "example.com/longest"])
    def test_deprecation(self, went: tuple[str, str], path: str) -> None:
        says = re.search(rf"module {path} is deprecated: (.*)", went[0])
        assert says, went[0]
        shown = says[1].replace("<", "&lt;").replace(">", "&gt;")
        assert f"<b>Deprecated:</b> {shown}" in Page(f"alpha/m/{path}/index.html").text

    @pytest.mark.parametrize("text", ["use <i>example.com/told.", "loses <b>lines"])
    def test_go_list_has_the_text(self, went: tuple[str, str], text: str) -> None:
        assert text in went[1]


# what alpha and common have of modules, each with its fields, and the finding if there is one
LATEST = {
    "ahead": (
        [("v1.0.0", "common", ""), ("v1.1.0", "own", "Latest")],
        "v1.0.0",
        "v1.1.0|alpha|v1.0.0|common|a lower version",
    ),
    "moved": ([("v1.1.0", "own", ""), ("v1.2.0", "common", "Latest")], "v1.2.0", ""),
    "retracted": (
        [("v1.0.0", "own", "Latest"), ("v1.1.0", "common", "Retracted"), ("v1.1.1", "own", "Retracted")],
        "v1.1.0",
        "v1.0.0|alpha|v1.1.0|common|retracted here",
    ),
    "same": ([("v1.0.0", "own", "Latest")], "v1.0.0", ""),
}


def test_health_says_which_of_two_shelves_answers(folder: str) -> None:
    """A module's latest version may be another on common, until common has that of the shelf, or a higher one."""

    def made(to: str, more: str) -> list[str]:
        own = [
            line_of(Path=name, Version=version, Shelf=shelf, **({mark: True} if mark else {}))
            for name, (versions, *_) in LATEST.items()
            for version, shelf, mark in versions
        ]
        there = [(name, version, not more or name != "ahead") for name, (_, version, _) in LATEST.items()]
        there[1:1] = [("ahead", more, True)] if more else []
        above = [line_of(Path=name, Version=version, Latest=is_latest or None) for name, version, is_latest in there]
        write({"common.lines": "".join(above)})
        status, _, errors = tool("--to", to, "--shelf", "alpha", "--common", "common.lines", lines="".join(own))
        assert (status, errors) == (0, "")
        return Page(f"{to}/health/index.html").table_of("latest")

    wanted = [f"{name}|{row}" for name, (*_, row) in LATEST.items() if row]
    assert made("alpha", "") == wanted
    assert made("alpha", "v1.1.0") == made("anew", "v1.1.0") == wanted[1:]
