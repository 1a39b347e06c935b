"""tools/catalog: the pages that it makes of what a shelf sees, read row by row.

The lines are those of tests/lib/catalog_lines.py, which is compared with what goshelf answers. With --long it also
makes the pages of 10,000 modules with 100,000 versions.
"""

import contextlib
import json
import os
import re
import resource
import sqlite3
import subprocess
from collections.abc import Iterator
from functools import cache

import pytest

from lib import catalog_lines
from lib.catalog_pages import Page, pages_in
from lib.catalog_store import HOST, OWNERS, SHELF_KEYS, STORE, line_of, make, make_store, rows_of, tool, write_lines
from lib.keys import KEYS, SHELVES
from lib.messages import get, put
from lib.modules import escaped
from lib.program import PROGRAM, answered, done, run
from lib.scratch import entered_folder, read, write
from lib.stores import add_platform, new_store

pytestmark = pytest.mark.needs("go", "tidy")

# a page, and the id of a heading; indented below it, the rows of the table of that heading
TABLES = """
gamma/index.html modules
    example.com/both|v1.0.1|2026-11-27|2|common
    example.com/gamma/app|v0.3.0|2026-06-01|3|gamma
    example.com/gamma/pseudo|v0.0.0-20261110120000-abcdefabcdef|2026-11-10|1|gamma
    example.com/log|v1.2.0|2026-11-01|4|common
    example.com/rpc|v1.1.0|2026-10-29|2|platform
platform/index.html modules
    example.com/both|v1.0.1|2026-11-27|2|common
    example.com/log|v1.2.0|2026-11-01|4|common
    example.com/rpc|v1.1.0|2026-10-29|2|platform
alpha/index.html modules
    example.com/both|v1.0.1|2026-11-27|2|alpha
    example.com/log|v1.2.0|2026-11-01|4|common
beta/index.html modules
    example.com/beta|all retracted||1|
    example.com/Beta/UI/v2|v2.0.0|2026-11-28|1|beta
    example.com/both|v1.0.1|2026-11-27|2|common
    example.com/index.html|v1.0.0|no time|1|beta
    example.com/index.html/index.html|v1.0.0|no time|1|beta
    example.com/log|v1.2.0|2026-11-01|4|common
    example.com/mark|v2.0.0+incompatible|2026-10-28|1|beta
    gopkg.in/yaml.v2|v2.0.0|2026-11-28|1|beta
gamma/m/example.com/log/index.html versions
    v1.3.0-rc.1|pre-release|2026-11-20|1.5 KiB|1.21|common|go.mod of v1.3.0-rc.1
    v1.2.0|latest|2026-11-01|1.0 MiB|1.21|common|go.mod of v1.2.0
    v1.1.0|retracted|2026-02-01|1.0 KiB|1.20|common|go.mod of v1.1.0
    v1.0.0||2026-01-01|1 B|1.19|common|go.mod of v1.0.0
gamma/m/example.com/log/index.html users
    example.com/gamma/app|v0.3.0 latest|v1.3.0-rc.1|
    example.com/gamma/pseudo|v0.0.0-20261110120000-abcdefabcdef latest|v1.2.0|
    example.com/rpc|v1.1.0 latest|v1.1.0|retracted
platform/m/example.com/log/index.html users
    example.com/rpc|v1.1.0 latest|v1.1.0|retracted
    v1.0.0|v1.0.0|behind v1.2.0
alpha/m/example.com/log/index.html users
gamma/m/example.com/rpc/index.html users
    example.com/gamma/app|v0.3.0 latest|v1.1.0|
    v0.2.0 and 1 older|v1.0.0|behind v1.1.0
gamma/m/example.com/rpc/index.html requires
    example.com/log|v1.1.0|retracted
    example.org/other|v0.1.0|
gamma/m/example.com/rpc/index.html versions
    v1.1.0|latest|2026-10-29|20 B||platform|go.mod of v1.1.0
    v1.0.0||2026-03-01|21 B||gamma|go.mod of v1.0.0
gamma/m/example.com/gamma/app/index.html requires
    example.com/rpc|v1.1.0|
    example.com/nosuch|v1.0.0|not on this shelf
    example.com/log|v1.3.0-rc.1|
beta/m/example.com/mark/index.html versions
    v2.0.0+incompatible|latest|2026-10-28|5 B||beta|go.mod of v2.0.0+incompatible
gamma/health/index.html retracted
    example.com/rpc|v1.1.0|example.com/log|v1.1.0
gamma/health/index.html missing
    example.com/gamma/app|v0.3.0|example.com/nosuch|v1.0.0
gamma/health/index.html differing
    example.com/rpc|v1.0.0|gamma|platform
gamma/health/index.html unreleased
    example.com/gamma/pseudo|v0.0.0-20261110120000-abcdefabcdef|pseudo-versions
gamma/health/index.html changed
    example.com/both|v1.0.1|2026-11-27|1
    example.com/log|v1.3.0-rc.1|2026-11-20|2
    example.com/gamma/pseudo|v0.0.0-20261110120000-abcdefabcdef|2026-11-10|1
    example.com/rpc|v1.1.0|2026-10-29|1
alpha/health/index.html differing
    example.com/both|v1.0.1|alpha|common
beta/health/index.html changed
    example.com/Beta/UI/v2|v2.0.0|2026-11-28|1
    gopkg.in/yaml.v2|v2.0.0|2026-11-28|1
    example.com/both|v1.0.1|2026-11-27|1
    example.com/log|v1.3.0-rc.1|2026-11-20|2
beta/health/index.html retired
    example.com/beta|1
delta/health/index.html differing
"""
# a page, and a text that it has
TEXTS = """
gamma/index.html
    5 modules · 12 versions · 1 retracted
gamma/health/index.html
    4 findings
platform/health/index.html
    1 finding</p>
gamma/m/example.com/rpc/index.html
    <code>go get example.com/rpc@v1.1.0</code>
beta/m/example.com/beta/index.html
    All versions are retracted, so there is no latest version.
beta/m/example.com/!index.html/index.html
    <title>example.com/index.html · beta</title>
beta/m/example.com/!index.html/!index.html/index.html
    <title>example.com/index.html/index.html · beta</title>
beta/m/example.com/Beta/UI/v2/index.html
    <a href="../../../../../example.com/%21beta/%21u%21i/v2/@v/v2.0.0.mod">
"""
# what only other shelves see
HIDDEN = {
    "alpha": "/rpc|/gamma/|/[Bb]eta", "beta": "/rpc|/gamma/", "gamma": "/[Bb]eta", "delta": "/gamma/|/[Bb]eta",
    "platform": "/gamma/|/[Bb]eta", "common": "/rpc|/gamma/|/[Bb]eta",
}  # fmt: skip
# attributes that tidy 5.6 does not know: a newer one, and those of links in an SVG
UNKNOWN = tuple(f'<a> proprietary attribute "{it}"' for it in ("aria-current", "href", "tabindex"))
# what stands behind `module` in go.mods that have `go` in odd places, or none
ODD = (
    "require (\ngo v1.0.0\n)\n",
    "require (\n)\ngo 1.21 // go 1.22\n",
    'go "1.20"\n',
    "go\t1.21rc1\r\n",
    "exclude go v1.1.0\nrequire go v1.2.0\nrequire (\ngo v1.3.0\n)\n",
    "replace (\ngo => ./x\n) // go 1.20\ngo `1.18`",
    "// go 1.17\nretract (\n[v1.0.0, v1.2.0]\nv1.4.0\n)\n",
)
LOADED = [
    f"parts/{it}"
    for it in ("catalog.css", "catalog.js", "icon.svg", "made.css", "narrow.css", "prose.css", "search.js")
]
# the paths that the set-up of each shelf names: no path where only others publish
NAMED = {
    "alpha": "example.com", "beta": "example.com,gopkg.in", "gamma": "example.com,forge.test/Gamma",
    "delta": "example.com", "platform": "example.com", "common": "example.com",
}  # fmt: skip
# what would load something else than the modules of the search, or make HTML of a text
LOADS = re.compile(
    r"url\(|@import|https?:|fetch|XMLHttp|import\((?!\"\./modules\.js\"\))|eval|innerHTML|document\.write"
)


def find_dead_links(page: Page, shelf: str, pages: dict[str, Page]) -> list[str]:
    """Returns the links of a page that lead to no page, no part of one, and no go.mod."""
    bad = []
    for link in page.links:
        name, part = page.target(link)
        at = os.path.relpath(name, shelf)
        is_gomod = re.fullmatch(r"[a-z0-9.-]+/[^?#]*@v/v[^/]*\.mod", at)
        if not is_gomod and (at not in pages or (part and part not in pages[at].ids)):
            bad.append(link)
    return bad


def find_faults(page: Page) -> list[str]:
    """Returns what a screen reader or a strict policy finds wrong with a page."""
    tags = [tag for tag, _ in page.tags]
    # (each box of a graph has a title)
    counts = {"main": tags.count("main"), "h1": tags.count("h1"), "title": tags.count("title") - tags.count("rect")}
    bad = [tag for tag in ("header", "nav", "footer") if tag not in tags]
    bad += [f"{count} of {tag}" for tag, count in counts.items() if count != 1]
    bad += [f"id {name}" for name in set(page.ids) if page.ids.count(name) > 1]
    bad += [f"{name} of {tag}" for tag, values in page.tags for name in values if re.match("style$|on", name)]
    bad += [f"{tag} without a scope" for tag, values in page.tags if tag == "th" and "scope" not in values]
    bad += ["a script in the page"] * len(page.scripts) + ["a style in the page"] * tags.count("style")
    named = [values["aria-labelledby"] for _, values in page.tags if "aria-labelledby" in values]
    return bad + [f"no heading {name}" for name in named if name not in page.ids]


def ask_tidy(page: Page) -> list[str]:
    """Returns what tidy says is wrong with a page."""
    ran = subprocess.run(["tidy", "-q", "-e", "--show-info", "no", page.name], capture_output=True, text=True)
    return [line for line in ran.stderr.splitlines() if not line.endswith(UNKNOWN)]


COMMON = ("--common", "common.lines", "--paths", "owners.json", "--host", HOST)
GROUP = ("--group", "platform=platform.lines")
# each shelf, the words with which its pages are made, and how many they are
MADE: dict[str, tuple[tuple[str, ...], int]] = {
    "gamma": ((*GROUP, *COMMON), 7),
    "delta": ((*GROUP, *COMMON), 5),
    "platform": (COMMON, 5),
    "alpha": (COMMON, 4),
    "beta": (COMMON, 10),
    "common": (COMMON[2:], 4),
}
STORES = [(name, shelf) for name in ("store.db", "odd.db") for shelf in SHELF_KEYS]
ALL_TABLES = [(*place.split(), rows) for place, rows in rows_of(TABLES)]
ALL_TEXTS = [(page, text) for page, texts in rows_of(TEXTS) for text in texts]


@pytest.fixture(scope="module", autouse=True)
def printed() -> Iterator[dict[str, str]]:
    """What the tool prints as it makes the pages of each shelf of a store, which the tests read."""
    with entered_folder():
        make_store("store.db")
        make_odd("odd.db")
        write_lines()
        yield {shelf: make(shelf, *words) for shelf, (words, _) in MADE.items()}


def make_odd(name: str) -> None:
    """Makes a store of one path with the go.mods of ODD, the last of which is the highest."""
    new_store(name, *SHELVES)
    add_platform(name)
    gomods = [f"module example.com/odd\n{lines}".encode() for lines in ODD]
    requests = [put("example.com/odd", f"v1.{at}.0", gomod, b"", KEYS["A"]) for at, gomod in enumerate(gomods)]
    assert answered(["--db", name], requests) == [(201, b"published\n")] * len(requests)


def fetch(letter: str, targets: list[str]) -> list[str]:
    """Returns the bodies of these targets; that of a 404 is empty."""
    replies = answered(["--db", "store.db"], [get(target, KEYS[letter]) for target in targets]) if targets else []
    return [body.decode() if status == 200 else "" for status, body in replies]


@pytest.mark.parametrize(("shelf", "letter"), SHELF_KEYS.items(), ids=SHELF_KEYS)
class TestReference:
    """The lines of tests/lib/catalog_lines.py say what goshelf answers."""

    @pytest.fixture
    def rows(self, shelf: str) -> list[dict]:
        """The lines of a shelf."""
        return [json.loads(line) for line in catalog_lines.lines("store.db", shelf).splitlines()]

    def test_inventory(self, shelf: str, letter: str, rows: list[dict]) -> None:
        _, inventory, _ = run(["inventory", "--db", "store.db", "--key", KEYS[letter]])
        found = [line.split(",") for line in inventory.decode().splitlines()[1:]]
        mine = [[row["Path"], row["Version"], row.get("Time", ""), str(row["ZipSize"])] for row in rows]
        assert [[line[0], line[1], line[4], line[6]] for line in found] == mine
        names = {"own": shelf, "group": "platform", "common": "common"}
        assert [line[2] for line in found] == [names[row["Shelf"]] for row in rows], "whose they are"

    def test_requires(self, shelf: str, letter: str, rows: list[dict]) -> None:
        for row in rows:
            words = ["--key", KEYS[letter], "--module", row["Path"], "--version", row["Version"]]
            status, lines, _ = run(["requires", "--db", "store.db", *words])
            assert status == 0, row
            found = [dict(zip(("Path", "Version"), line.split())) for line in lines.decode().splitlines()]
            assert found == row["Require"], row

    def test_sums(self, shelf: str, letter: str, rows: list[dict]) -> None:
        targets = [f"-/gosum/{escaped(row['Path'])}/@v/{escaped(row['Version'])}" for row in rows]
        assert [body.split()[-1] for body in fetch(letter, targets)] == [row["GoModSum"] for row in rows]

    def test_latest(self, shelf: str, letter: str, rows: list[dict]) -> None:
        paths = sorted({row["Path"] for row in rows})
        bodies = fetch(letter, [f"{escaped(path)}/@latest" for path in paths])
        found = {path: json.loads(body)["Version"] if body else None for path, body in zip(paths, bodies)}
        mine = {row["Path"]: row["Version"] for row in rows if "Latest" in row}
        assert found == {path: mine.get(path) for path in paths}


@pytest.mark.parametrize(("name", "shelf"), STORES, ids=[" ".join(row) for row in STORES])
def test_command_prints_these_lines(name: str, shelf: str) -> None:
    printed = run(["catalog", "--db", name, "--key", KEYS[SHELF_KEYS[shelf]]])
    assert printed == (0, catalog_lines.lines(name, shelf).encode(), "")


def test_command_fails_if_its_output_is_full() -> None:
    with open("/dev/full", "wb") as full:
        words = [PROGRAM, "catalog", "--db", "odd.db", "--key", KEYS["A"]]
        ran = subprocess.run(words, stdout=full, stderr=subprocess.PIPE, timeout=120)
    assert (ran.returncode, ran.stderr) == (1, b"goshelf: io\n")


def test_command_refuses_an_unknown_key() -> None:
    assert run(["catalog", "--db", "odd.db", "--key", "z" * 16]) == (1, b"", "goshelf: no-key\n")


def test_go_reads_each_gomod_so() -> None:
    with contextlib.closing(sqlite3.connect("file:store.db?mode=ro", uri=True)) as store:
        gomods = [gomod for (gomod,) in store.execute("SELECT DISTINCT mod FROM version ORDER BY mod")]
    assert len(gomods) > len(rows_of(STORE)) // 2
    for gomod in gomods:
        # (the go command takes no raw string here)
        write({"go.mod": gomod.replace(b"`", b'"')})
        ran = subprocess.run(["go", "mod", "edit", "-json", "go.mod"], capture_output=True, text=True, check=True)
        by_go, mine = json.loads(ran.stdout), catalog_lines.GoMod(gomod)
        requires = [{name: entry[name] for name in ("Path", "Version")} for entry in by_go["Require"] or []]
        spans = [(span["Low"], span["High"]) for span in by_go["Retract"] or []]
        retracts = [tuple(catalog_lines.Version(bound).precedence for bound in span) for span in spans]
        assert (mine.go, mine.requires, mine.retracts) == (by_go.get("Go"), requires, retracts), gomod


@pytest.mark.parametrize("shelf", MADE)
def test_tool_counts_the_pages(printed: dict[str, str], shelf: str) -> None:
    count = MADE[shelf][1]
    assert printed[shelf] == f"{count} pages, {count} new or changed\n"


@pytest.mark.parametrize(("page", "heading", "rows"), ALL_TABLES, ids=[" ".join(row[:2]) for row in ALL_TABLES])
def test_table(page: str, heading: str, rows: list[str]) -> None:
    assert Page(page).table_of(heading) == rows


@pytest.mark.parametrize(("page", "text"), ALL_TEXTS, ids=[" ".join(row) for row in ALL_TEXTS])
def test_text(page: str, text: str) -> None:
    assert text in Page(page).text


class TestSetUp:
    """The first page says how a machine is set up, and that of a module how its next version is published."""

    RUN = f"goshelf-publish --to https://{HOST} --netrc --repository . {{}} TAG"
    OFFERED = line_of(Path="example.com/tools/goshelf-publish", Shelf="common", Latest=True)
    ELSEWHERE = line_of(Path="example.com/a/goshelf-publish", Latest=True)
    WAYS = f"https://{HOST},https://proxy.golang.org,direct"

    @pytest.mark.parametrize("shelf", NAMED)
    def test_lines_to_copy(self, shelf: str) -> None:
        lines = f"GOPROXY=https://{HOST}", f"GONOSUMDB={NAMED[shelf]}", "GONOPROXY=none"
        texts = Page(f"{shelf}/index.html").pre
        assert texts["setup-go"] == "".join(f"go env -w {line}\n" for line in lines)
        assert texts["setup-unset"] == "go env -u GOPROXY GONOSUMDB GONOPROXY"
        assert texts["setup-netrc"] == f"machine {HOST} login YOUR-NAME password YOUR-KEY"
        assert texts["setup-run"] == self.RUN.format("MODULE")

    @pytest.mark.parametrize("shelf", NAMED)
    def test_module_to_try(self, shelf: str) -> None:
        text = Page(f"{shelf}/index.html").pre["setup-try"]
        rows = [row.split("|") for row in Page(f"{shelf}/index.html").table_of("modules")]
        first = next(path for path, latest, *_ in rows if latest != "all retracted")
        assert text == f"go list -m -versions {first}"

    @pytest.mark.parametrize("shelf", NAMED)
    def test_paths_at_which_the_shelf_publishes(self, shelf: str) -> None:
        owned = ", ".join(f"<code>{path}</code>" for path, who in OWNERS.items() if shelf in who)
        rest = f"publishes at and below: {owned}, but not below" if owned else "has no path yet to publish at"
        assert f"<p>The shelf {shelf} {rest}" in Page(f"{shelf}/index.html").text

    @pytest.mark.parametrize(("shelf", "path"), [("common", "log"), ("gamma", "gamma/app"), ("platform", "rpc")])
    def test_publish_of_a_module(self, shelf: str, path: str) -> None:
        whole = f"example.com/{path}"
        assert Page(f"{shelf}/m/{whole}/index.html").pre["setup-run"] == self.RUN.format(whole)

    @pytest.mark.parametrize(("shelf", "path", "above"), [("gamma", "log", "common"), ("gamma", "rpc", "platform")])
    def test_module_of_a_shelf_above_says_who_publishes_it(self, shelf: str, path: str, above: str) -> None:
        page = Page(f"{shelf}/m/example.com/{path}/index.html")
        assert "setup-run" not in page.pre
        assert f"This module is on the shelf <b>{above}</b>" in page.text

    @pytest.mark.parametrize("shelf", NAMED)
    def test_explained_answers(self, shelf: str) -> None:
        rows = Page(f"{shelf}/index.html").table_of("setup-answers")
        codes = [row.split("|")[0].split()[0].strip(",") for row in rows]
        assert codes == "401 403 403 403 404 404 409 429 502".split()

    @pytest.mark.parametrize(
        ("lines", "get"),
        [(ELSEWHERE + OFFERED, "go install example.com/tools/goshelf-publish@latest"), (ELSEWHERE, None)],
        ids=["offered on common", "on a team's shelf"],
    )
    def test_publisher(self, lines: str, get: str | None) -> None:
        words = ["--to", "offer", "--shelf", "alpha", "--paths", "owners.json", "--host", HOST, "--goproxy", self.WAYS]
        assert tool(*words, lines=lines)[0] == 0
        texts = Page("offer/index.html").pre
        assert texts.get("setup-get") == get
        assert texts["setup-go"].split("\n")[0] == f"go env -w GOPROXY={self.WAYS}"

    def test_without_a_host_there_is_no_box(self) -> None:
        assert tool("--to", "bare", "--shelf", "alpha", lines=self.OFFERED)[0] == 0
        assert list(Page("bare/index.html").pre) == []
        assert list(Page("bare/m/example.com/tools/goshelf-publish/index.html").pre) == ["get"]


class TestOrder:
    """Modules are sorted as people read them: capitals stand beside small letters."""

    PATHS = ["example.com/a", "example.com/B", "example.com/b", "example.com/c", "example.com/Z"]

    @pytest.fixture(scope="class", autouse=True)
    def made(self, printed: dict[str, str]) -> None:
        """The pages of modules of which all but one require that one."""
        need = [{"Path": "example.com/c", "Version": "v1.0.0"}]
        paths = sorted(self.PATHS)
        lines = [line_of(Path=path, Latest=True, Require=need if path != "example.com/c" else []) for path in paths]
        assert tool("--to", "sorted", "--shelf", "alpha", lines="".join(lines))[0] == 0

    def test_modules(self) -> None:
        assert [row.split("|")[0] for row in Page("sorted/index.html").table_of("modules")] == self.PATHS

    def test_users(self) -> None:
        rows = Page("sorted/m/example.com/c/index.html").table_of("users")
        assert [row.split("|")[0] for row in rows] == [path for path in self.PATHS if path != "example.com/c"]


@pytest.mark.parametrize("team", ["alpha", "beta", "gamma"])
def test_lines_are_those_of_the_extracted_store(team: str) -> None:
    done("extract", "--db", "store.db", "--team", team, "--to", f"{team}.db")
    assert catalog_lines.lines(f"{team}.db", team) == catalog_lines.lines("store.db", team)


@cache
def pages_of(shelf: str) -> dict[str, Page]:
    """Returns the pages of a shelf, by their files."""
    return pages_in(shelf)


@pytest.mark.parametrize("shelf", SHELF_KEYS)
class TestEachPage:
    def test_names_nothing_that_only_others_see(self, shelf: str) -> None:
        texts = {name: page.text.replace("<wbr>", "") for name, page in pages_of(shelf).items()}
        assert [name for name, text in texts.items() if re.search(HIDDEN[shelf], text)] == []

    def test_links_lead_somewhere(self, shelf: str) -> None:
        pages = pages_of(shelf)
        for name, page in pages.items():
            assert find_dead_links(page, shelf, pages) == [], name

    def test_suits_screen_readers_and_the_policy(self, shelf: str) -> None:
        for name, page in pages_of(shelf).items():
            assert find_faults(page) == [], name

    def test_is_valid_html(self, shelf: str) -> None:
        for name, page in pages_of(shelf).items():
            assert ask_tidy(page) == [], name

    def test_loads_what_stands_beside_it_alone(self, shelf: str) -> None:
        loads = {
            os.path.relpath(page.target(load)[0], shelf) for page in pages_of(shelf).values() for load in page.loads
        }
        assert sorted(loads) == LOADED

    def test_shows_no_comment_of_a_hostile_gomod(self, shelf: str) -> None:
        assert [name for name, page in pages_of(shelf).items() if "alert" in page.text] == []


@pytest.mark.parametrize("name", LOADED)
def test_part_loads_nothing(name: str) -> None:
    assert not LOADS.search(read(f"gamma/{name}").decode().replace("http://www.w3.org/2000/svg", ""))


@pytest.mark.parametrize("count", [1, 39, 40])
def test_graph_has_fewer_than_40_users(count: int) -> None:
    need = [{"Path": "example.com/z", "Version": "v1.0.0"}]
    paths = [f"example.com/{number:02}" for number in range(count)]
    lines = "".join(line_of(Path=path, Require=need, Latest=True) for path in paths)
    made = tool("--to", "graph", "--shelf", "alpha", lines=lines + line_of(Path="example.com/z", Latest=True))
    assert made[0] == 0, made
    page = Page("graph/m/example.com/z/index.html")
    assert len([tag for tag, _ in page.tags if tag == "rect"]) == (count + 1 if count < 40 else 0)
    assert len(page.table_of("users")) == count


def large_line(module: int, version: int) -> tuple[str, str]:
    """Returns the path and a line of a large shelf, by the numbers of the module and of its version."""
    needs = [((module * 7 + at * 131) % 10_000, max(0, version - at % 3)) for at in range(6)]
    require = [{"Path": large_path(needed), "Version": f"v1.{number}.0"} for needed, number in needs]
    path, day = large_path(module), f"2026-{version + 1:02}-01T12:00:00Z"
    is_latest = True if version == 9 else None
    return path, line_of(Path=path, Version=f"v1.{version}.0", Time=day, Latest=is_latest, Require=require)


def large_path(module: int) -> str:
    return f"example.com/team{module % 40:02}/m{module:05}"


@pytest.mark.long
def test_large_shelf(folder: str) -> None:
    """10,000 modules with 100,000 versions take 60 seconds of processor time and 200 MiB."""
    rows = [large_line(module, version) for module in range(10_000) for version in range(10)]
    with open("large.lines", "w", encoding="utf-8") as file:
        # (a sort keeps the versions of a path in order)
        file.writelines(line for _, line in sorted(rows, key=lambda row: row[0]))
    for wanted in ("10002 pages, 10002 new or changed\n", "nothing changed\n"):
        before = resource.getrusage(resource.RUSAGE_CHILDREN)
        assert tool("--to", "large", "--shelf", "alpha", "large.lines") == (0, wanted, "")
        after = resource.getrusage(resource.RUSAGE_CHILDREN)
        assert after.ru_utime + after.ru_stime - before.ru_utime - before.ru_stime < 60
        assert after.ru_maxrss < 200 * 1024
