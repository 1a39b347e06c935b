"""What the tools of contributors share: the top of the clone, its crates with their sources, and how they take words.

`take` and `wrong` are those of the scripts that are installed.
"""
import glob
import os
import re
import sys
from collections.abc import Callable, Iterator

ROOT = os.path.dirname(os.path.dirname(os.path.realpath(__file__)))
sys.path.append(os.path.join(ROOT, "deploy"))

from words import take, wrong  # noqa: E402

__all__ = [
    "ROOT",
    "code_of",
    "crate_lines",
    "end_of",
    "functions_of",
    "is_of_tests",
    "owners_in",
    "read",
    "sources_of",
    "take",
    "without_angles",
    "wrong",
]

# comments, texts, characters, and what only the prover reads
SILENT = re.compile(r"//[^\n]*|b?\"(?:\\.|[^\"\\])*\"|b?'(?:\\(?:x..|u\{\w+\}|.)|[^'\\])'|\bghost use [^;]+;", re.S)
CLAUSE = re.compile(r"\b(?:(?:ensures|requires)(?: \w+)?|ghost \w+ =) (?=\{)")
# the type or the trait of a qualified path, and the type arguments of a call
QUALIFIED = re.compile(r"<[^<>;]* as [^;{}()]*?>(?=::)")
ARGUMENTS = re.compile(r"::<[^;{}()]*?>(?=\(|::)")
FUNCTION = re.compile(r"(\bpub )?(?:\bconst )?\bfn (\w+)")
BLOCK = re.compile(r"^(?:pub(?:\(crate\))? )?(impl|trait)\b([^{]*)(?=\{)", re.M)


def read(name: str) -> str:
    """Returns the text of a file, by its path from the top."""
    with open(os.path.join(ROOT, name), encoding="utf-8") as file:
        return file.read()


def crate_lines(text: str) -> dict[str, str]:
    """Returns the line of each crate in the text of crates.txt, by the crate's name and in order."""
    lines = [line.partition("#")[0].strip() for line in text.split("\n")]
    return {line.partition(":")[0].split()[0]: line for line in lines if line}


def is_of_tests(crate: str) -> bool:
    """Returns whether a crate is one of tests or benches."""
    return crate.startswith(("test_", "bench_"))


def sources_of(crate: str) -> Iterator[tuple[str, tuple[str, ...]]]:
    """Yields each source of a crate, by its path from the top, with its module. That of lib.rt or main.rt is ()."""
    top = os.path.join(ROOT, "crates", crate, "src")
    for path in sorted(glob.glob(os.path.join(top, "**", "*.rt"), recursive=True)):
        below = os.path.relpath(path, top)[: -len(".rt")].split(os.sep)
        yield os.path.relpath(path, ROOT), tuple(part for part in below if part not in ("lib", "main"))


def end_of(text: str, at: int) -> int:
    """The index behind the block that begins with the brace at `at`."""
    depth = 0
    for brace in re.finditer(r"[{}]", text[at:]):
        depth += 1 if brace.group() == "{" else -1
        if depth == 0:
            return at + brace.end()
    return len(text)


def code_of(text: str) -> str:
    """What runs of a source."""
    text = SILENT.sub(" ", text)
    while clause := CLAUSE.search(text):
        text = text[: clause.start()] + text[end_of(text, clause.end()) :]
    return ARGUMENTS.sub("", QUALIFIED.sub("Qualified", text))


def functions_of(code: str) -> Iterator[tuple[re.Match[str], int, int]]:
    """Yields each function of a source that `code_of` returned: the match of its name, where its body begins, and where
    it ends. For a function without a body, as a trait has, both are the index of its semicolon."""
    for found in FUNCTION.finditer(code):
        begin = found.end() + length_of_head(code[found.end() :])
        yield found, begin, end_of(code, begin) if code[begin : begin + 1] == "{" else begin


def length_of_head(text: str) -> int:
    """Returns how long the head of a function is: up to its brace, or to its semicolon if it has no body."""
    depth = 0
    for found in re.finditer(r"[][(){;]", text):
        depth += {"(": 1, "[": 1, ")": -1, "]": -1}.get(found.group(), 0)
        if depth == 0 and found.group() in "{;":
            return found.start()
    return len(text)


def owners_in(code: str) -> Callable[[int], tuple[str, bool]]:
    """Returns what tells of a place in a source that `code_of` returned the name of the type or trait in whose block it
    stands, or "", and whether a trait says which functions that block has."""
    blocks = [(head.end(), end_of(code, head.end()), owner_of(*head.groups())) for head in BLOCK.finditer(code)]
    return lambda at: next((named for first, last, named in blocks if first <= at < last), ("", False))


def owner_of(kind: str, head: str) -> tuple[str, bool]:
    """Returns the name of the type or trait of a block, and whether a trait says which functions it has."""
    head = without_angles(head).split(" where ")[0]
    owner = re.search(r"\w+", head.split(" for ")[-1].split("::")[-1])
    return owner.group() if owner else "", kind == "trait" or " for " in head


def without_angles(text: str) -> str:
    """Returns a text without the arguments of types and the arrows in it."""
    while (shorter := re.sub(r"<[^<>]*>", "", text.replace("->", ""))) != text:
        text = shorter
    return text
