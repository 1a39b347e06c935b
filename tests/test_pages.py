"""The pages of the repository, each *.md file that git knows or would add, cite what exists, and their examples run.

Links lead to files and headings that exist; commits, files, crates, items and names with an underscore that stand in
backticks exist; a line has at most 100 characters, a table cell 120, and the README 120 lines. The blocks marked
`sh run` of a page run one after another in one shell, in a folder of their own that looks like the top of a clone, with
the built program and tools/ on the path. A block marked `output` is what the last block before it that runs has to
print. A sheet of docs/theorems/ is what tools/theorems prints. `tools/pages PAGE..` runs the tests of some pages.
"""

import functools
import os
import re
import shutil
import signal
import subprocess
import tempfile
from typing import NamedTuple

import pytest

from lib.ports import free_port
from lib.program import PROGRAM, ROOT
from lib.repositories import built

pytestmark = pytest.mark.needs("git")

LONGEST_README = 120
LONGEST_CELL = 120
LONGEST_LINE = 100
SHEETS = "docs/theorems/"
# what runs printed, with the names of their day
RUNS = "bench/runs/"
# folders and files at the top whose names pages cite in backticks
PLACES = re.compile(r"(?:\.ci|bench|crates|deploy|docs|examples|tests|tools)/[\w./*-]+|[\w-]+\.(?:md|txt)")
COMMIT = re.compile(r"(?=.*\d)(?=.*[a-f])[0-9a-f]{7,12}")
ITEM = re.compile(r"\w+(?:::\w+)+")
NAME = re.compile(r"[A-Za-z]\w*_\w+")
# files of crates, which pages cite from a crate's folder on, or by their own name
SOURCE = re.compile(r"(?:[a-z]\w*/)*\w+\.(?:rt|antt)")
FENCE = re.compile(r"^```([^\n]*)\n(.*?)^```$", re.M | re.S)
MARK = "---- the end of a block ----"
# `./goshelf` where a block runs: the built program, which --unproved too runs
GOSHELF = '#!/bin/sh\n[ "$1" != --unproved ] || shift\nexec \'{program}\' "$@"\n'
# how long the blocks of a page may take
SECONDS = 300


def read(name: str) -> str:
    with open(os.path.join(ROOT, name), encoding="utf-8") as file:
        return file.read()


def read_lines(*words: str) -> list[str]:
    """Returns the lines that a command prints at the top of the repository."""
    return subprocess.run(words, cwd=ROOT, capture_output=True, text=True, check=True).stdout.splitlines()


@functools.cache
def list_files(*patterns: str) -> list[str]:
    """Returns the files that git knows or would add."""
    return read_lines("git", "ls-files", "-co", "--exclude-standard", *patterns) if shutil.which("git") else []


PAGES = list_files("*.md")


def remove_blocks(text: str) -> str:
    """Returns the prose of a page."""
    return FENCE.sub("", text)


def find_codes(text: str) -> set[str]:
    """Returns what stands in backticks in the prose of a page."""
    return set(re.findall(r"(?<!`)`([^`]+)`(?!`)", remove_blocks(text)))


def find_anchors(text: str) -> set[str]:
    """Returns the anchor of each heading, as GitHub makes it."""
    heads = re.findall(r"^#+ (.*)$", remove_blocks(text), re.M)
    return {re.sub(r"[^\w\- ]", "", head.lower()).replace(" ", "-") for head in heads}


def has_anchor(name: str, anchor: str) -> bool:
    """Whether a page has this anchor; of any other file, whether it has this line, as `L12`."""
    text = read(name)
    if name.endswith(".md"):
        return anchor in find_anchors(text)
    return bool(re.fullmatch(r"L[1-9]\d*", anchor)) and int(anchor[1:]) <= text.count("\n")


def leads_nowhere(page: str, target: str) -> bool:
    """Whether a link of a page leads to no file, or to no heading. Links to other hosts are not tried."""
    if re.match(r"\w+:", target):
        return False
    name, _, anchor = target.partition("#")
    there = os.path.normpath(os.path.join(os.path.dirname(page), name)) if name else page
    return not os.path.exists(os.path.join(ROOT, there)) or bool(anchor) and not has_anchor(there, anchor)


@pytest.mark.parametrize("page", PAGES)
def test_links_lead_somewhere(page: str) -> None:
    targets = re.findall(r"\]\(([^)\s]+)\)", remove_blocks(read(page)))
    assert [target for target in targets if leads_nowhere(page, target)] == []


def is_commit(name: str) -> bool:
    return (
        subprocess.run(["git", "cat-file", "-e", f"{name}^{{commit}}"], cwd=ROOT, capture_output=True).returncode == 0
    )


@pytest.mark.parametrize("page", PAGES)
def test_commits_exist(page: str) -> None:
    cited = [code for code in find_codes(read(page)) if COMMIT.fullmatch(code)]
    assert [name for name in cited if not is_commit(name)] == []


def is_there(name: str) -> bool:
    """Whether a file or a folder exists, at the top or in a folder of pages; a star stands for any name."""
    if "*" in name:
        pattern = re.compile(re.escape(name).replace(r"\*", "[^/]*"))
        return any(pattern.fullmatch(file) for file in list_files())
    names = [name] if "/" in name else [name, os.path.join("docs", name)]
    return any(os.path.exists(os.path.join(ROOT, found)) for found in names)


@pytest.mark.parametrize("page", PAGES)
def test_files_exist(page: str) -> None:
    cited = {word for code in find_codes(read(page)) for word in code.split()}
    places = {word for word in cited if PLACES.fullmatch(word)}
    bad = {place for place in places if "/out/" not in place and not is_there(place)}
    sources = "\n".join(list_files("crates")) + "\n"
    bad |= {word for word in cited - places if SOURCE.fullmatch(word) and f"/{word}\n" not in sources}
    assert sorted(bad) == []


@functools.cache
def read_crates() -> tuple[set[str], set[str]]:
    """Returns the crates of the repository, and the libraries that they use."""
    rows = [line.partition(":") for line in read("crates.txt").splitlines() if re.match(r"\w+:", line)]
    return {name for name, _, _ in rows}, {word for _, _, used in rows for word in used.split()}


@functools.cache
def read_words(crate: str) -> set[str]:
    """Returns each word of the code and the definitions of a crate, or of all crates by the name `*`."""
    files = read_lines("git", "ls-files", f":(glob)crates/{crate}/src/**", f":(glob)crates/{crate}/specs/**")
    return {word for file in files for word in re.findall(r"\w+", read(file))}


@functools.cache
def list_tests() -> set[str]:
    """Returns the names of the files of tests, and of the tests."""
    files = {os.path.basename(file).removesuffix(".py") for file in list_files("tests/*.py")}
    defined = read_lines("git", "grep", "--untracked", "-hoE", r"def test_\w+", "--", "tests")
    return files | {line.removeprefix("def ") for line in defined}


@functools.cache
def read_names_beside_pages() -> set[str]:
    """Returns each word with an underscore of the files that are no pages."""
    return set(read_lines("git", "grep", "--untracked", "-hIoE", r"\w+_\w+", "--", ":!*.md"))


def is_unknown_item(item: str) -> bool:
    """Whether no crate has an item, as `wire::area::Area`. Those of libraries are not looked for."""
    own, used = read_crates()
    first, *_, last = item.split("::")
    return first not in used - own and first != "std" and last not in read_words(first if first in own else "*")


@pytest.mark.parametrize("page", [page for page in PAGES if not page.startswith(RUNS)])
def test_crates_items_and_names_exist(page: str) -> None:
    text, (own, used) = read(page), read_crates()
    cited = find_codes(text)
    bad = [code for code in cited if re.fullmatch(r"(?:test|bench)_\w+", code) and code not in own | list_tests()]
    bad += [name for name in re.findall(r"\bcrate `(\w+)`", remove_blocks(text)) if name not in own | used]
    names = {code for code in cited if NAME.fullmatch(code)}
    bad += names - read_names_beside_pages() - list_tests()
    bad += [code for code in cited if ITEM.fullmatch(code) and is_unknown_item(code)]
    assert sorted(bad) == []


@pytest.mark.parametrize("page", PAGES)
def test_table_cells_are_short(page: str) -> None:
    rows = [line for line in remove_blocks(read(page)).splitlines() if line.startswith("|")]
    cells = [cell.strip() for row in rows for cell in re.split(r"(?<!\\)\|", row)]
    assert [cell for cell in cells if len(cell) > LONGEST_CELL] == []


@pytest.mark.parametrize("page", PAGES)
def test_lines_are_short(page: str) -> None:
    lines = [line for line in remove_blocks(read(page)).splitlines() if not line.startswith(("|", "#"))]
    # a line of one word, as a link, can't be wrapped
    assert [line for line in lines if len(line) > LONGEST_LINE and len(line.split()) > 1] == []


@pytest.mark.parametrize("page", ["README.md"])
def test_the_readme_is_short(page: str) -> None:
    assert read(page).count("\n") <= LONGEST_README


@functools.cache
def find_wrong_sheets() -> list[str]:
    """Returns the lines in which tools/theorems says what is wrong with the sheets."""
    tool = os.path.join(ROOT, "tools", "theorems")
    ran = subprocess.run([tool, "--check"], capture_output=True, text=True)
    return [*ran.stdout.splitlines(), *ran.stderr.splitlines()[-1:]]


@pytest.mark.parametrize("page", [page for page in PAGES if page.startswith(SHEETS) and page != f"{SHEETS}README.md"])
def test_sheet_is_what_the_tool_prints(page: str) -> None:
    # what names no sheet, such as a traceback, is wrong with each
    wrong = find_wrong_sheets()
    assert [line for line in wrong if line.startswith(f"{page}: ") or not line.startswith(SHEETS)] == []


class Block(NamedTuple):
    """A block of a page that runs, and what it has to print, or None where the page does not say."""

    page: str
    number: int
    script: str
    wanted: str | None

    def __str__(self) -> str:
        return f"{self.page}-{self.number}: {self.script.strip().splitlines()[0]}"


def find_blocks(page: str) -> list[Block]:
    """Returns the blocks of a page that run."""
    found: list[Block] = []
    for kind, body in FENCE.findall(read(page)):
        if kind == "sh run":
            found.append(Block(page, len(found) + 1, body, None))
        elif kind == "output":
            found[-1] = found[-1]._replace(wanted=body)
    return found


def wait_for(child: subprocess.Popen) -> int:
    """Waits for a script, ends whatever it left running, and returns its exit status."""
    try:
        child.wait(SECONDS)
    except subprocess.TimeoutExpired:
        print(f"the script did not end in {SECONDS} seconds")
    try:
        os.killpg(child.pid, signal.SIGKILL)
    except ProcessLookupError:
        pass
    return child.wait()


def lay_out(room: str) -> dict[str, str]:
    """Makes a folder that looks like the top of a clone, and returns the settings of a shell there."""
    for name in ("bin", "work"):
        os.mkdir(f"{room}/{name}")
    os.symlink(PROGRAM, f"{room}/bin/goshelf")
    os.symlink(os.path.join(ROOT, "tools"), f"{room}/work/tools")
    with open(f"{room}/work/goshelf", "w", encoding="utf-8") as file:
        file.write(GOSHELF.format(program=PROGRAM))
    os.chmod(f"{room}/work/goshelf", 0o755)
    path = f"{room}/bin:{ROOT}/tools:{os.environ['PATH']}"
    settings = dict(os.environ, HOME=room, TMPDIR=room, PATH=path, goshelf="goshelf")
    return settings | dict(GOPATH=f"{room}/go", GOCACHE=f"{room}/cache", GOFLAGS="-modcacherw", GOTOOLCHAIN="local")


class Ran(NamedTuple):
    """How the blocks of a page ran: the status of the shell, what each block printed that ended, and the errors."""

    status: int
    printed: list[str]
    errors: str


@functools.cache
def run_blocks(page: str) -> Ran:
    """Runs the blocks of a page, one after another in one shell."""
    script = "".join(f"{block.script}printf '%s\\n' '{MARK}'\n" for block in find_blocks(page))
    if "goshelf-publish" in script:
        built()
    script = script.replace("8080", str(free_port()))
    with tempfile.TemporaryDirectory(prefix="goshelf-pages-") as room:
        settings = lay_out(room)
        with open(f"{room}/printed", "wb") as printed, open(f"{room}/errors", "wb") as errors:
            how = {"stdin": subprocess.DEVNULL, "stdout": printed, "stderr": errors, "start_new_session": True}
            shell = subprocess.Popen(["bash", "-euc", script], cwd=f"{room}/work", env=settings, **how)
            status = wait_for(shell)
        *parts, _ = read(f"{room}/printed").split(f"{MARK}\n")
        return Ran(status, parts, read(f"{room}/errors"))


def mark_needs(block: Block) -> list[pytest.MarkDecorator]:
    """Returns the marker of a block's test that names the commands which the blocks of its page call."""
    script = "".join(other.script for other in find_blocks(block.page))
    return [pytest.mark.needs(*(word for word in ("curl", "git", "go", "python3") if calls(script, word)))]


def calls(script: str, command: str) -> bool:
    return bool(re.search(rf"(?<![\w.-]){command} ", script))


class TestBlocks:
    """The blocks of pages that run."""

    BLOCKS = [block for page in PAGES for block in find_blocks(page)]

    @pytest.mark.parametrize("block", [pytest.param(block, marks=mark_needs(block), id=str(block)) for block in BLOCKS])
    def test_block_prints_what_the_page_says(self, block: Block) -> None:
        ran = run_blocks(block.page)
        assert len(ran.printed) >= block.number, f"status {ran.status}: {ran.errors[-300:]}"
        if block.wanted is not None:
            assert ran.printed[block.number - 1].rstrip("\n") == block.wanted.rstrip("\n")
