"""tools/catalog, misused: words and lines that it refuses, and its folder after a killed run or beside another run.

And what asks goshelf for these lines, where none answers.
"""

import fcntl
import hashlib
import json
import os
import shlex
import subprocess
import sys
from collections.abc import Iterator
from contextlib import ExitStack

import pytest

from catalog_lib.held import Held
from catalog_lib.lines import Refused
from catalog_lib.markup import html
from lib import catalog_lines
from lib.catalog_pages import Page
from lib.catalog_store import EVIL, TODAY, TOOL, line_of, make, make_store, tool, write_lines
from lib.program import ROOT, columns
from lib.scratch import entered_folder, read, write

COMMON = ("--common", "common.lines", "--paths", "owners.json")
# what a field may not be
WRONG = {
    "Path": ("../a", "a/../b", "/etc", "a//b", "a/", "a.", "a b", "<b>", 'a"', "a\0", "a\n", "é", "", 1, "x" * 256),
    "Version": ("1.0.0", "v1.0", "v1.0.0+meta", "v1.0.0/..", "v1.0.0\n", "v١.0.0", EVIL, 1, "v1.0.0-" + "a" * 128),
    "Time": ("today", "2026-01-01", EVIL, 1),
    "Retracted": (False, "true", 1),
    "Latest": (False, "true", 1),
    "GoVersion": (EVIL, "1", 1.21),
    "Require": ({}, [1], [{"Path": "a"}], [{"Path": EVIL, "Version": "v1.0.0"}], [{"Path": "a", "Version": EVIL}]),
    "Shelf": ("alpha", EVIL, 1),
    "GoModSum": ("h1:", EVIL),
    "ZipSize": (-1, "1", True, 1.5),
}
# lines that are refused, and what is said
LINES = (
    ("no JSON\n", "not a JSON object"),
    ("[]\n", "not a JSON object"),
    ("[" * 100_000 + "\n", "not a JSON object"),
    ("\n", "not a JSON object"),
    (line_of(More=1), "not a JSON object with the fields"),
    (line_of(Shelf=None), "not a JSON object with the fields"),
    (line_of() + line_of(), ":2: not above the line before"),
    (line_of(Version="v1.10.0") + line_of(Version="v1.9.0"), ":2: not above the line before"),
    (line_of(Path="example.com/b") + line_of(), ":2: not above the line before"),
    (line_of(Latest=True, Retracted=True), "cannot be the latest"),
    (line_of(Latest=True) + line_of(Latest=True, Version="v1.1.0"), "cannot be the latest"),
)
# words that are bad usage
WORDS = """
--to x
--shelf alpha
--to x --shelf
--to= --shelf alpha
--to x --shelf Alpha
--to x --shelf ../a
--to x --shelf alpha --nosuch
--to x --shelf alpha one two
--to x --to y --shelf alpha
--to x --shelf alpha --today 28.11.2026
--to x --shelf alpha --group platform
--to x --shelf alpha --group =file
--to x --shelf alpha --anew=1
--to x --shelf alpha --host shelf.example.com
--to x --shelf alpha --paths owners.json --goproxy https://shelf.example.com
--to x --shelf alpha --paths owners.json --host https://shelf.example.com
--to x --shelf alpha --paths owners.json --host "><b>
--to x --shelf alpha --paths owners.json --host shelf --goproxy https://a|https://b
--to x --shelf alpha --paths owners.json --host shelf --goproxy $(reboot)
--to x --shelf alpha -
--help more
-x
"""
# words that are refused, and what is said
REFUSED = """
--to alpha --shelf alpha nosuch | No such file
--to alpha --shelf alpha --common nosuch alpha.lines | No such file
--to alpha --shelf alpha --paths nosuch alpha.lines | No such file
--to alpha --shelf alpha --paths alpha.lines alpha.lines | alpha.lines: 
--to alpha --shelf alpha --paths listed.json alpha.lines | listed.json: not of the form
--to alpha --shelf alpha --paths evil.json --host shelf alpha.lines | no module path: 
--to no/such --shelf alpha alpha.lines | there is no folder
--to store.db --shelf alpha alpha.lines | was not made by
--to . --shelf alpha alpha.lines | was not made by
--to mine --shelf alpha alpha.lines | was not made by
--to alpha --shelf alpha --common beta.lines alpha.lines | not of the shelf `common`
--to gamma --shelf gamma --group platform=alpha.lines gamma.lines | not of the shelf `group`
"""


# words of tests/lib/catalog_lines.py, its status, and what is said
PRINTS = """
store.db | 2 | usage:
store.db alpha beta | 2 | usage:
store.db --help | 2 | usage:
nosuch.db alpha | 1 | unable to open
mine alpha | 1 | catalog_lines: mine: 
alpha.lines alpha | 1 | not a database
store.db nosuch | 1 | no shelf has the name
store.db Alpha | 1 | no shelf has the name
"""


# words of deploy/shelf_lines.py, its status, and what is said
ASKS = """
 | 2 | usage:
control | 2 | usage:
control kept '' more | 2 | usage:
--nosuch kept | 2 | usage:
'' kept alpha | 2 | usage:
control '' | 2 | usage:
control kept '' | 2 | usage:
nosuch kept | 0 |
nosuch no/such/kept alpha | 1 | No such file
nosuch kept alpha | 1 | the key in kept is not revoked: goshelf does not answer: No such file
nosuch kept | 1 | the key in kept is not revoked: goshelf does not answer: No such file
alpha kept | 1 | the key in kept is not revoked: goshelf does not answer: Connection refused
"""


MADE = "4 pages, 4 new or changed\n"
WRONG_LINES = [
    *LINES,
    *((line_of(**{name: value}), f"{name} is not of its form") for name, values in WRONG.items() for value in values),
]
# where each program is
LINES_OF = os.path.join(ROOT, "tests/lib/catalog_lines.py")
SHELF_LINES = os.path.join(ROOT, "deploy", "shelf_lines.py")


def rows_in(table: str) -> list[str]:
    """Returns the rows of a table, of which an empty one is a row too."""
    return table.split("\n")[1:-1]


def shorten(text: str) -> str:
    """Returns the name of a row for a text that may be long."""
    return text.strip() if len(text) < 90 else f"{text[:60]}..{len(text)} letters"


Files = dict[str, tuple[int, int, str]]


def files_below(folder: str) -> Files:
    """Returns each file below a folder, by its name: its number, its time and the sum of its content. The mark of the
    run is left out, and so is the time at the foot of the pages."""
    found, top = {}, os.path.realpath(folder)
    for at, _, names in os.walk(top):
        for path in (os.path.join(at, name) for name in names):
            name, status = os.path.relpath(path, top), os.stat(path)
            if name not in (".made", "parts/made.css"):
                found[name] = status.st_ino, status.st_mtime_ns, hashlib.sha256(read(path)).hexdigest()
    return found


@pytest.fixture(scope="module")
def store() -> Iterator[None]:
    """A folder with a store, the lines of its shelves, and files that are none."""
    with entered_folder():
        make_store("store.db")
        write_lines()
        evil = json.dumps({f"a.com/{EVIL}": ["alpha"]})
        write({"listed.json": '{"example.com": "common"}', "evil.json": evil})
        os.mkdir("mine")
        make("gamma")
        assert make("alpha", *COMMON) == MADE
        yield


@pytest.fixture
def pages(store: None) -> Iterator[Files]:
    """The pages of alpha, which stay as they are: each file, by its name."""
    before, beside = files_below("alpha"), set(os.listdir("."))
    yield before
    assert files_below("alpha") == before, "the pages are as they were"
    left = [name for name in os.listdir(".") if name not in beside and not name.endswith(".lock")]
    assert left == [], "nothing is beside the pages"


@pytest.mark.parametrize("row", rows_in(PRINTS))
def test_lines_of_no_store_are_refused(store: None, row: str) -> None:
    words, status, error = row.split(" | ")
    before = sorted(os.listdir("."))
    ran = subprocess.run([sys.executable, LINES_OF, *words.split()], capture_output=True, text=True)
    assert (ran.returncode, ran.stdout) == (int(status), ""), ran
    assert error in ran.stderr and "Traceback" not in ran.stderr
    assert sorted(os.listdir(".")) == before, "no file is made"


def ask(words: str) -> subprocess.CompletedProcess[str]:
    """Asks a goshelf for lines, where none answers."""
    command = [sys.executable, "-I", SHELF_LINES, *shlex.split(words)]
    return subprocess.run(command, capture_output=True, text=True)


@pytest.mark.parametrize("row", rows_in(ASKS), ids=[row.partition(" | 1")[0] or "no word" for row in rows_in(ASKS)])
def test_lines_of_no_goshelf_are_refused(store: None, row: str) -> None:
    words, status, error = columns(row, 3)
    if words.endswith(" kept") and words != "nosuch kept" or error.startswith("the key"):
        # (a key that an earlier run left)
        write({"kept": "0" * 32})
    ran = ask(words)
    assert (ran.returncode, ran.stdout) == (int(status), ""), ran
    assert error in ran.stderr and "Traceback" not in ran.stderr
    if os.path.exists("kept"):
        os.remove("kept")


def test_key_of_a_goshelf_that_is_away_is_kept(store: None) -> None:
    assert ask("nosuch secret alpha").returncode == 1
    assert len(read("secret")) == 32
    assert os.stat("secret").st_mode & 0o777 == 0o600
    os.remove("secret")


def test_shelf_lines_has_a_help() -> None:
    ran = ask("--help")
    assert ran.returncode == 0 and "\nusage: " in ran.stdout, ran


@pytest.mark.parametrize("words", WORDS.split("\n")[:-1], ids=lambda words: words or "no word")
def test_wrong_words_are_bad_usage(pages: Files, words: str) -> None:
    status, printed, errors = tool(*words.split(), lines="")
    assert (status, printed) == (2, "") and errors.startswith("catalog: "), errors


@pytest.mark.parametrize(("lines", "error"), WRONG_LINES, ids=[shorten(lines) for lines, _ in WRONG_LINES])
def test_wrong_lines_are_refused(pages: Files, lines: str, error: str) -> None:
    status, printed, errors = tool("--to", "alpha", "--shelf", "alpha", lines=lines)
    assert (status, printed) == (1, "") and error in errors, errors


@pytest.mark.parametrize("row", rows_in(REFUSED))
def test_words_are_refused(pages: Files, row: str) -> None:
    words, _, error = row.partition(" | ")
    status, printed, errors = tool(*words.split())
    assert (status, printed) == (1, "") and error in errors, errors


def test_closed_standard_input_is_refused(pages: Files) -> None:
    script = 'exec "$0" --to alpha --shelf alpha <&-'
    ran = subprocess.run(["sh", "-c", script, TOOL], capture_output=True, text=True)
    assert (ran.returncode, ran.stdout, ran.stderr) == (1, "", "catalog: standard input is closed\n")


class TestSamePages:
    """What did not change keeps its file, also in a new folder."""

    @pytest.fixture
    def before(self, folder: str) -> Files:
        """The files of the pages of alpha, in a folder of the test's own."""
        make_store("store.db")
        write_lines()
        assert make("alpha", *COMMON) == MADE
        return files_below("alpha")

    def test_same_lines_change_nothing(self, before: Files) -> None:
        folder = os.readlink("alpha")
        assert make("alpha", *COMMON) == "nothing changed\n"
        assert (files_below("alpha"), os.readlink("alpha")) == (before, folder)

    def test_pages_anew_are_the_same_files_in_another_folder(self, before: Files) -> None:
        folder = os.readlink("alpha")
        assert make("alpha", *COMMON, "--anew") == "4 pages, 0 new or changed\n"
        assert files_below("alpha") == before
        assert os.readlink("alpha") != folder and not os.path.exists(folder)

    def test_module_more_changes_three_pages(self, before: Files) -> None:
        need = [{"Path": "example.com/log", "Version": "v1.2.0"}]
        lines = catalog_lines.lines("store.db", "alpha") + line_of(Path="example.com/new", Latest=True, Require=need)
        made = tool("--to", "alpha", "--shelf", "alpha", "--today", TODAY, *COMMON, lines=lines)
        assert made == (0, "5 pages, 3 new or changed\n", "")
        name = "m/example.com/both/index.html"
        assert files_below("alpha")[name] == before[name], "the page of another module is the same file"
        assert make("alpha", *COMMON) == "4 pages, 2 new or changed\n", "the module is gone"
        assert not os.path.exists("alpha/m/example.com/new")

    def test_page_that_was_cut_off_is_made_again(self, before: Files) -> None:
        os.truncate("alpha/index.html", 10)
        assert make("alpha", *COMMON, "--anew") == "4 pages, 1 new or changed\n"

    def test_folders_of_a_killed_run_are_removed(self, before: Files) -> None:
        for name in (".alpha.0123456789abcdef", ".alpha.fedcba9876543210", ".alpha.mine"):
            os.mkdir(name)
        os.mkdir(".alpha.0123456789abcdef/m")
        write({".alpha.0123456789abcdef/.made": "{}\n"})
        os.symlink("nowhere", ".alpha.link")
        assert make("alpha", *COMMON, "--anew") == "4 pages, 0 new or changed\n"
        left = sorted(name for name in os.listdir(".") if name.startswith(".alpha."))
        assert left == sorted([os.readlink("alpha"), ".alpha.lock", ".alpha.mine"])

    def test_second_run_is_refused_meanwhile(self, before: Files) -> None:
        with open(".alpha.lock", "rb") as held:
            fcntl.flock(held, fcntl.LOCK_EX)
            status, printed, errors = tool("--to", "alpha", "--shelf", "alpha", "alpha.lines")
        assert (status, printed) == (1, "") and "another run" in errors


class TestSpare:
    """A folder of many files has a spare, which the next run changes: it gives the pages that a run from nothing
    gives."""

    COUNT = 2_100
    # the pages of the list of so many modules
    LISTS = 6

    def lines(self, latest: int, left_out: int = -1) -> str:
        """Returns lines of many modules, each of which requires the next. The first has versions up to a number."""
        rows = []
        for number in range(self.COUNT):
            need = [{"Path": f"example.com/m{number + 1:04}", "Version": "v1.0.0"}]
            versions = range(latest + 1) if number == 0 else range(1)
            for version in versions if number != left_out else ():
                is_latest = version == versions[-1]
                fields = {"Path": f"example.com/m{number:04}", "Version": f"v1.{version}.0", "Require": need}
                rows.append(line_of(**fields, **({"Latest": True} if is_latest else {})))
        return "".join(rows)

    @pytest.fixture(scope="class")
    def first(self, class_folder: str) -> str:
        """What the first of four runs prints. The others have a version more, a module less, and one that was killed
        before."""
        printed = tool("--to", "many", "--shelf", "alpha", "--today", TODAY, lines=self.lines(0))
        assert printed[::2] == (0, ""), printed
        return printed[1]

    def folders(self) -> list[str]:
        return sorted(name for name in os.listdir(".") if name.startswith(".many.") and os.path.isdir(name))

    def run(self, lines: str) -> str:
        """Makes the pages in the folder and in an empty one, which have to be the same. Returns what the first run
        prints."""
        status, printed, errors = tool("--to", "many", "--shelf", "alpha", "--today", TODAY, lines=lines)
        assert (status, errors) == (0, "")
        assert tool("--to", "apart", "--shelf", "alpha", "--today", TODAY, "--anew", lines=lines)[0] == 0
        both = [{name: entry[2] for name, entry in files_below(folder).items()} for folder in ("many", "apart")]
        assert both[0] == both[1]
        assert len(self.folders()) == 2, "the folder and its spare"
        spare = next(name for name in self.folders() if name != os.readlink("many"))
        assert files_below(spare) == files_below("many"), "the spare holds the same files"
        return printed

    def test_runs_touch_what_changed_alone(self, first: str) -> None:
        count = self.COUNT + 7
        assert first == f"{count} pages, {count} new or changed\n"
        before = files_below("many")
        # (each page of the list says how many versions there are; the module, and the one that it requires)
        assert self.run(self.lines(1)) == f"{count} pages, {self.LISTS + 2} new or changed\n"
        name = f"m/example.com/m{self.COUNT - 1:04}/index.html"
        assert files_below("many")[name] == before[name], "a page that did not change is the same file"
        printed = self.run(self.lines(1, left_out=7))
        assert printed.startswith(f"{count - 1} pages, "), printed
        assert not os.path.exists("many/m/example.com/m0007")
        spare = next(name for name in self.folders() if name != os.readlink("many"))
        write({f"{spare}/.made": "{}\n", f"{spare}/index.html": "half a page"})
        assert self.run(self.lines(2)).startswith(f"{count} pages, "), "after a run that was killed"


def test_empty_shelf(folder: str) -> None:
    assert tool("--to", "empty", "--shelf", "alpha", lines="") == (0, "2 pages, 2 new or changed\n", "")
    assert "Nothing is published here yet." in Page("empty/index.html").text


def test_longest_path(folder: str) -> None:
    line = line_of(Path="example.com/" + "x" * 243, Require=[{"Path": "Con_x~a", "Version": "v0.0.0"}])
    assert tool("--to", "long", "--shelf", "alpha", lines=line) == (0, "3 pages, 3 new or changed\n", "")


def test_gomod_that_requires_the_same_twice(folder: str) -> None:
    need = {"Path": "example.com/b", "Version": "v1.0.0"}
    # (and other spaces than goshelf prints)
    lines = line_of(Require=[need, need], Latest=True).replace(" ", "\r") + line_of(Path="example.com/b", Latest=True)
    assert tool("--to", "twice", "--shelf", "alpha", lines=lines) == (0, "4 pages, 4 new or changed\n", "")
    assert Page("twice/m/example.com/b/index.html").table_of("users") == ["example.com/a|v1.0.0 latest|v1.0.0|"]


def test_any_value_is_escaped_once() -> None:
    wanted = '<a title="&quot;&gt;&lt;script&gt;alert(1)&lt;/script&gt;">&lt;<b>&amp;&#x27;</b></a>'
    assert html('<a title="{}">{}</a>', EVIL, ["<", html("<b>{}</b>", "&'")]) == wanted


def test_lines_of_a_pipe_are_taken(folder: str) -> None:
    write({"lines": line_of(Latest=True)})
    words = "--shelf alpha --today 2026-11-28"
    subprocess.run(
        f"cat lines | {TOOL} --to pipe {words} /dev/stdin && {TOOL} --to file {words} lines", shell=True, check=True
    )
    assert read("pipe/index.html") == read("file/index.html")


def test_lines_that_change_meanwhile_are_refused(folder: str) -> None:
    write({"lines": line_of()})
    with ExitStack() as stack:
        held = Held("lines", stack)
        held.check()
        write({"lines": line_of(Version="v1.1.0") * 2})
        with pytest.raises(Refused, match="^lines: it changed while it was read$"):
            held.check()
