"""docs/TRUSTED.md has each function that calls the system, and tools/trusted finds these in a small tree."""

import os
import subprocess
import sys
from collections.abc import Callable

import pytest

from lib.program import ROOT
from lib.scratch import read, write

LEAF = """
use std::fs::{self, File};

/// Calls `fs::read(rt)` in a comment.
pub struct Leaf { file: File }

impl<'a> Reads for Leaf {
    fn read_next(&mut self, buf: &mut [u8]) -> io::Result<usize> {
        // a comment is no line
        let got = self.file.read(buf)?;

        Ok(got)
    }

    fn accept(&self) -> u8 { 1 }

    fn next(&self) -> u8 { self.accept() }
}

pub trait Opens { fn open_at(&self, rt: &HostRuntime); }

fn read_all<R: Read>(reader: &mut R) { reader.read(&mut []) }

pub fn size(rt: &HostRuntime, name: &str) -> u64
    ensures { fs::metadata(rt, name) }
{
    let text = "fs::metadata(rt)";
    match fs::metadata(rt, name) {
        Ok(found) => found.len(),
        Err(_) => 0,
    }
}

pub fn hand(rt: &HostRuntime) -> u64 {
    size(rt, "name")
}

pub fn memory(alloc: Global) -> u64 { rt.alloc() }
"""
TREE = {
    "crates.txt": "leaf:\ngoshelf: leaf\ntest_leaf: leaf\n",
    "crates/leaf/src/inner.rt": LEAF,
    "crates/goshelf/src/main.rt": "fn main(rt: HostRuntime) {\n    leaf::inner::hand(&rt);\n    rt.stdout();\n}\n",
    "crates/test_leaf/src/lib.rt": "fn row(rt: &HostRuntime) { fs::rename(rt) }\n",
}
ROWS = {"leaf::inner::Leaf::read_next": 2, "leaf::inner::size": 5, "goshelf::main": 2}
LISTED = [
    "leaf::inner::Leaf::read_next 2 files",
    "leaf::inner::size 5 files",
    "goshelf::main 2 words and streams",
    "aim",
    "functions that call the system 3 12",
    "lines of these 9 300",
    "functions that only hand the runtime on 1",
]
HANDING = "\n| functions | what no clause refuses |\n| `leaf::inner::hand`, `leaf::inner::Leaf` | anything |\n"
Trusted = Callable[..., tuple[int, list[str]]]


def page_of(rows: dict[str, int]) -> str:
    return "".join(f"| `{path}` | {lines} | a belief | none |\n" for path, lines in rows.items()) + HANDING


@pytest.fixture
def trusted(folder: str) -> Trusted:
    """Runs the tool over a small tree, and returns its status and lines."""
    tools = {name: read(os.path.join(ROOT, name)) for name in ("tools/trusted", "tools/common.py", "deploy/words.py")}
    files = TREE | tools | {"docs/TRUSTED.md": page_of(ROWS)}
    for name in files:
        os.makedirs(os.path.dirname(name) or ".", exist_ok=True)
    write(files)

    def run(*words: str) -> tuple[int, list[str]]:
        ran = subprocess.run([sys.executable, "tools/trusted", *words], capture_output=True, text=True)
        assert not ran.stderr
        return ran.returncode, ran.stdout.splitlines()

    return run


def test_page_has_the_functions_of_the_sources() -> None:
    ran = subprocess.run([os.path.join(ROOT, "tools", "trusted"), "--check"], capture_output=True, text=True)
    assert (ran.returncode, ran.stdout, ran.stderr) == (0, "", "")


def test_functions_are_those_whose_bodies_call_the_system(trusted: Trusted) -> None:
    status, lines = trusted()
    assert (status, [" ".join(line.split()) for line in lines]) == (0, LISTED)


def test_a_right_page_passes(trusted: Trusted) -> None:
    assert trusted("--check") == (0, [])


@pytest.mark.parametrize(
    ("page", "wanted"),
    [
        (
            page_of({path: ROWS[path] for path in ROWS if path != "leaf::inner::size"}),
            "lacks `leaf::inner::size`, of 5 lines",
        ),
        (page_of(ROWS | {"leaf::inner::gone": 1}), "`leaf::inner::gone` is gone, or calls nothing"),
        (page_of(ROWS | {"leaf::inner::hand": 1}), "`leaf::inner::hand` is gone, or calls nothing"),
        (page_of(ROWS | {"goshelf::main": 3}), "`goshelf::main` has 2 lines, not 3"),
        (page_of(ROWS).replace("inner::hand", "inner::lend"), "`leaf::inner::lend` is gone"),
    ],
    ids=["a function is missing", "one is gone", "one only hands on", "other lines", "what hands on is gone"],
)
def test_a_wrong_page_is_refused(trusted: Trusted, page: str, wanted: str) -> None:
    write({"docs/TRUSTED.md": page})
    status, lines = trusted("--check")
    assert status == 1
    assert [line.removeprefix("docs/TRUSTED.md").removeprefix(": ").strip() for line in lines] == [wanted]


def test_a_call_that_nobody_knows_is_refused(trusted: Trusted) -> None:
    main = TREE["crates/goshelf/src/main.rt"]
    write({"crates/goshelf/src/main.rt": main.replace("rt.stdout();", "rt.stdout(); Pipe::new(&rt);")})
    wanted = "tools/trusted does not know `Pipe::new`, which `goshelf::main` hands the runtime"
    assert trusted("--check") == (1, [wanted])
