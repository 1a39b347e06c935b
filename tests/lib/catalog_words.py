"""Modules whose READMEs have words by chance, for the search of a large shelf."""

import random
from typing import Any

from catalog_lib import search
from catalog_lib.shelf import Module

# words that many READMEs have, and such as few have, some of them with letters that UTF-16 writes as two
OFTEN = [f"{a}{b}" for a in ("server", "client", "option", "error", "table") for b in "abcdefghijklmnopqrst"]
SELDOM = [f"{a}{b}{c}" for a in ("zebra", "öffnen", "\U0001d4b3qx") for b in "abcdefghij" for c in "klmnopqrstuvwxyz"]


def modules_of(count: int, words: int) -> tuple[list[Module], dict[str, int]]:
    """Returns modules with words of READMEs, which are ranked, and in how many of them each word is."""
    # (mypy does not see the names of their fields)
    found: list[Any] = []
    chance, counts = random.Random(count), search.Counts({})
    for number in range(count):
        module: Any = Module((f"example.com/team{number % 7}/m{number:05}", "", 0, 1, 0, "v1.0.0"))
        module.deprecated = None
        module.synopsis, module.packages = f"Says {chance.choice(SELDOM)} | what it is for.", "m sub"
        own = chance.sample(OFTEN, words) + [f"own{number:x}q", chance.choice(SELDOM)]
        module.words = " ".join(own)
        counts.add(module.words, 1)
        found.append(module)
    assert counts.moved() == {word for module in found for word in module.words.split()}
    for module in found:
        module.words = counts.ranked(module.words)
    return found, counts.counts
