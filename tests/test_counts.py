"""tools/counts counts the crates, functions, names, errors and files of a small tree as its usage says."""

import os
import subprocess
import sys
from collections.abc import Callable

import pytest

from lib.program import ROOT
from lib.scratch import read, write

TREE = {
    "crates.txt": "# leaves\nleaf:\nmiddle: leaf hex\ngoshelf: middle\ntest_leaf: leaf\n",
    "crates/leaf/src/lib.rt": """
pub mod inner;
// pub fn in_a_comment() {}
pub enum LeafFault { Away }
pub struct Link;
type Both = (u8, LeafFault);
pub trait Reads { fn read(&self) -> u8; fn twice(&self) -> u8 { 2 } }
impl Link {
    pub const fn new(of: [u8; 2]) -> Result<Link, LeafFault> ensures { only_in_a_clause of } { todo!("fn text() {") }
    fn own(&self) -> Result<(u8, Vec<u8>), Link> { Ok(1) }
}
""",
    "crates/leaf/src/inner.rt": """
pub enum ReadError { Io(std::io::Error) }
pub fn kept(held: &str) -> Result<fn(u8) -> u8, io::Error> { let shelf = "shelf-list"; }
""",
    "crates/middle/src/lib.rt": """
pub fn new() -> Result<Option<u8>, Option<ReadError>> {}
pub fn kept() -> Result<Vec<Result<u8, middle::MiddleFault<'static>>>, bool> {}
pub enum MiddleFault<'a> { Leaf(&'a LeafFault) }
""",
    "crates/middle/specs/Lib.antt": "kept = shelf-list and -/modules",
    "crates/middle/proofs/kept/Answers.antt": "kept = Modules",
    "crates/statements/src/lib.rt": "struct ShelfList;",
    "crates/goshelf/src/main.rt": "fn main() {}\n// Go Modules Reference\n",
    "crates/test_leaf/src/lib.rt": "pub fn new() {}\nfn row() { let row = -/modules; }\n",
    "crates/leaf/planted.edits": "",
    "crates/leaf/must-fail/other.edit": "shelf-list",
    "docs/ARCHITECTURE.md": "\n## The way of a GET\n\n| 1 | `main` |\n| | `by` |\n| 2 | `run` |\n\n## The way\n| 3 |\n",
    "tests/test_row.py": "shelf-list",
}
# what a line of the tool counts, and the number behind it
FIGURES = {
    "crates of the program": 3,
    "levels on which these stand": 3,
    "functions of the program": 7,
    "functions of leaf": 4,
    "names of public items": 7,
    "names that stand in two crates": 2,
    "names that stand there in two senses": 1,
    "types of errors": 2,
    "nouns of these types": 1,
    "sources that name shelf-list": 1,
    "files that name shelf-list": 3,
    "files that name modules": 3,
    "steps of a GET in ARCHITECTURE": 2,
    "src of crates": 6,
    "wrong bodies of crates": 2,
}
# what the tool prints for a word
LISTS = {
    "crates": ["leaf 1 2 4", "middle 2 1 2", "goshelf 3 1 1"],
    "names": ["kept *: leaf middle", "new: leaf middle"],
    "errors": ["Fault: LeafFault MiddleFault"],
    "shelf-list": [
        "crates/leaf/must-fail/other.edit",
        "crates/leaf/src/inner.rt",
        "crates/middle/specs/Lib.antt",
    ],
    "modules": [
        "crates/middle/proofs/kept/Answers.antt",
        "crates/middle/specs/Lib.antt",
        "crates/test_leaf/src/lib.rt",
    ],
}
Counts = Callable[..., tuple[int, list[str]]]


@pytest.fixture
def counts(folder: str) -> Counts:
    """Runs the tool over a small tree, and returns its status and lines."""
    tools = {name: read(os.path.join(ROOT, name)) for name in ("tools/counts", "tools/common.py", "deploy/words.py")}
    for name in (*TREE, *tools):
        os.makedirs(os.path.dirname(name) or ".", exist_ok=True)
    write(TREE | tools)
    subprocess.run(["git", "init", "-q"], check=True)
    subprocess.run(["git", "add", *TREE], check=True)

    def run(*words: str) -> tuple[int, list[str]]:
        ran = subprocess.run([sys.executable, "tools/counts", *words], capture_output=True, text=True)
        assert not ran.stderr
        return ran.returncode, ran.stdout.splitlines()

    return run


def test_figures_are_those_of_the_tree(counts: Counts) -> None:
    status, lines = counts()
    printed = dict(line[:73].strip().rsplit(maxsplit=1) for line in lines[1:])
    assert (status, {what: int(printed[what]) for what in FIGURES}) == (0, FIGURES)


def test_check_fails_if_a_figure_misses_its_aim(counts: Counts) -> None:
    status, lines = counts("--check")
    missed = [" ".join(line.split()) for line in lines if line.endswith("missed")]
    assert (status, missed) == (1, ["names that stand there in two senses 1 0 missed"])
    write({"crates/middle/src/lib.rt": "pub fn new() {}\n"})
    assert counts("--check")[0] == 0


@pytest.mark.parametrize("word", LISTS)
def test_list_prints_what_a_figure_counts(counts: Counts, word: str) -> None:
    status, lines = counts(word)
    assert (status, [" ".join(line.split()) for line in lines]) == (0, LISTS[word])
