"""docs/PROOFS.md names only promises of the sources, and these have a comment, say something and are of code that runs.

It and README say where the theorems stop.
"""

import glob
import importlib.machinery
import importlib.util
import os
import re
import subprocess
import sys
from types import ModuleType

import pytest

from lib.program import ROOT

STEPS = "From these functions to the program"
# what a page claims too much by: the text of today, the text in its place, and how it is refused
TOO_MUCH = {
    "a function that is gone": ("laws::isolation`", "laws::silence`", "`engine::laws::silence` promises nothing"),
    "a crate that is gone": ("older::laws::answers", "elder::answers", "`elder::answers` promises nothing"),
    "what has no clause": ("store::laws::restart", "cli::VERSION", "`cli::VERSION` promises nothing"),
    "a clause that is gone": ("as_far", "as_near", "no function of its row has the clause `as_near`"),
    "a page that lacks a sheet": (
        "theorems/latest",
        "theorems/machine",
        "no row links docs/theorems/latest.md to `engine::laws::latest_version`",
    ),
}
# a program that reaches some functions of a crate, by the ways that there are
MAIN = """
use leaf::{Basket, Holds, inner, named as renamed};
use leaf::sub::twice;

/// Calls `leaf::only_named()`.
fn main() {
    renamed(1);
    let basket = Basket::made();
    basket.counted();
    basket.put_in(|a, b| (a, b), [1, 2], leaf::Basket { a, b },);
    let text = "leaf::in_a_text()";
    inner::deep::far(basket.into_iter().map(twice));
}
"""
LEAF = """
pub mod inner;
pub use crate::sub::again;

const SIZE: usize = sized();

pub const fn sized() -> usize { 3 }
pub fn named(n: [u8; 4]) -> u8
    ensures clause { result ≡ only_in_a_clause n }
{
    beside(n)
}
pub fn beside(n: [u8; 4]) -> u8 { let c = '{'; n[0] }
pub fn only_in_a_clause(n: u8) -> u8 { n }
pub fn only_named() {}
pub fn in_a_text() {}
pub fn by_itself() { by_itself() }
impl<T: Holds<u8>> Basket<T> {
    pub fn made() -> Basket<T> { Self::filled() }
    pub fn filled() -> Basket<T> { Basket }
    pub fn counted(&self) -> usize { SIZE }
    pub fn put_in<F: Fn(u8, u8)>(&mut self, how: F, what: [u8; 2], of: Result<u8, u8>) {}
    pub fn never(&self) {}
}
impl Bag {
    pub fn put_in(&self, how: u8) {}
}
impl<T> Holds<T> for Basket<T> {
    fn holds(&self) { again::<T>() }
}
"""
SUB = "pub fn twice(n: u8) {}\npub fn again() {}\npub fn another() {}\n"
LAWS = "pub fn law() ensures { ⊤ } {}\n"
DEEP = "pub fn far(n: u8) {}\npub fn twice(n: u8) {}\n"


def load_tool(name: str) -> ModuleType:
    """Returns a tool of tools/ as a module."""
    loader = importlib.machinery.SourceFileLoader(name, os.path.join(ROOT, "tools", name))
    sys.dont_write_bytecode = True
    module = importlib.util.module_from_spec(importlib.util.spec_from_loader(name, loader))
    loader.exec_module(module)
    return module


def run_tool(*words: str) -> tuple[int, str, str]:
    ran = subprocess.run([os.path.join(ROOT, "tools", words[0]), *words[1:]], capture_output=True, text=True)
    return ran.returncode, ran.stdout, ran.stderr


@pytest.mark.parametrize(
    "words",
    [["proofs", "--check"], ["unknown"], ["unreached"]],
    ids=[
        "the sources promise what PROOFS names",
        "no ghost member is None but the system's own",
        "the program reaches each public function",
    ],
)
def test_the_tool_finds_nothing(words: list[str]) -> None:
    status, found, _ = run_tool(*words)
    assert (status, found) == (0, "")


@pytest.fixture(scope="module")
def proofs() -> ModuleType:
    return load_tool("proofs")


@pytest.fixture(scope="module")
def known(proofs: ModuleType) -> tuple:
    """What the sheets state, and what the crates have."""
    return proofs.stated_by_sheets(), proofs.crates()


@pytest.mark.parametrize("name", TOO_MUCH)
def test_a_page_that_claims_too_much_is_refused(proofs: ModuleType, known: tuple, name: str) -> None:
    old, new, wanted = TOO_MUCH[name]
    page = proofs.read(proofs.PAGE)
    assert old in page
    assert f"docs/PROOFS.md: {wanted}" in list(proofs.faults(page.replace(old, new), *known))


class TestSteps:
    """docs/PROOFS.md names the functions between the theorems and `main`, and README says that they are tested."""

    @pytest.fixture(scope="class")
    def names(self, proofs: ModuleType) -> set[str]:
        page = proofs.read(proofs.PAGE).partition(f"### {STEPS}\n")[2].partition("\n#")[0]
        rows = re.findall(r"^\| (`.*?) \|", page, re.M)
        return {item.rpartition("::")[2] for row in rows for item in re.findall(r"`([\w:]+)`", row)}

    def test_the_page_names_functions(self, names: set[str]) -> None:
        assert "serve_both" in names

    def test_the_sources_have_each_of_them(self, proofs: ModuleType, names: set[str]) -> None:
        files = glob.glob("crates/*/src/**/*.rt", root_dir=ROOT, recursive=True)
        defined = re.findall(r"\b(?:fn|trait|struct) (\w+)", "\n".join(map(proofs.read, files)))
        assert names - set(defined) - set(os.listdir(os.path.join(ROOT, "crates"))) == set()

    def test_the_readme_says_so(self, proofs: ModuleType) -> None:
        assert "docs/PROOFS.md#from-these-functions-to-the-program" in proofs.read("README.md")


class TestUnreached:
    """tools/unreached finds the functions that nothing reaches, and no others."""

    UNREACHED = [
        "leaf::Bag::put_in",
        "leaf::Basket::never",
        "leaf::by_itself",
        "leaf::in_a_text",
        "leaf::inner::deep::twice",
        "leaf::only_in_a_clause",
        "leaf::only_named",
        "leaf::sub::another",
    ]

    def test_it_lists_what_nothing_reaches(self) -> None:
        sources = {("goshelf",): MAIN, ("leaf",): LEAF, ("leaf", "sub"): SUB, ("leaf", "laws"): LAWS}
        sources |= {("leaf", "inner"): "pub mod deep;", ("leaf", "inner", "deep"): DEEP}
        program = load_tool("unreached").Program(sources.items())
        assert program.unreached() == self.UNREACHED
        assert program.unreached(self.UNREACHED[2:]) == self.UNREACHED[:2], "without those that may stand"

    @pytest.mark.parametrize(
        "words, wanted",
        [(["--help"], 0), (["-h"], 0), (["--nosuch"], 2), (["goshelf"], 2), ([""], 2)],
        ids=["--help", "-h", "--nosuch", "goshelf", "an empty word"],
    )
    def test_it_prints_its_usage(self, words: list[str], wanted: int) -> None:
        status, output, errors = run_tool("unreached", *words)
        assert status == wanted
        assert "\nusage, in the rep" in (output if status == 0 else errors)


def test_a_sheet_does_not_take_the_name_of_a_variant_for_a_type() -> None:
    lines = ["pub enum Area {", "    Shelf,", "    At(Text),", "}"]
    definition = load_tool("theorems").Definition(("wire", "", "Area"), "wire/src/area.rt", 1, lines)
    assert definition.words() == ["pub", "enum", "Area", "Text"]
