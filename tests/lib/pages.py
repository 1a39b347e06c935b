"""The blocks of code of the pages."""

import os
import re

from lib.program import ROOT

# the pages for operators
OPERATORS = ("OPERATING.md", "NGINX.md", "TROUBLE.md")


def read_page(name: str) -> str:
    """Returns the text of a page of docs/."""
    with open(os.path.join(ROOT, "docs", name), encoding="utf-8") as file:
        return file.read()


def block(kind: str, word: str, *pages: str) -> str:
    """Returns the block of code of these pages of docs/ that has a word. Without pages, of those for operators."""
    found = _find_blocks("".join(map(read_page, pages or OPERATORS)), kind, word)
    assert len(found) == 1, (kind, word, len(found))
    return found[0]


def blocks(page: str, kind: str, word: str = "") -> list[str]:
    """Returns the blocks of code of a page that have a word. The page is named from the top of the repository."""
    with open(os.path.join(ROOT, page), encoding="utf-8") as file:
        return _find_blocks(file.read(), kind, word)


def _find_blocks(text: str, kind: str, word: str) -> list[str]:
    return [found for found in re.findall(rf"```{kind}\n(.*?)```", text, re.S) if word in found]
