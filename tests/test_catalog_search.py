"""What the search of the pages knows: all words of READMEs while they fit, and otherwise of each the rarest.

Browsers search in test_catalog_browser.py.
"""

import json
from collections import Counter

import pytest

from catalog_lib import search
from catalog_lib.listing import search as box
from catalog_lib.markup import Place
from catalog_lib.readings import words_of
from catalog_lib.shelf import Module, Shelf
from lib.catalog_words import SELDOM, modules_of

PLAIN = '"' + "".join(chr(it) for it in range(32, 127) if chr(it) not in '"\\') + '"'


def utf16(text: str) -> list[bytes]:
    """The letters of a text as JavaScript counts them."""
    content = text.encode("utf-16-le")
    return [content[at : at + 2] for at in range(0, len(content), 2)]


def found_by(script: bytes) -> dict[str, list[int]]:
    """Returns the words of a script, each with the numbers of its modules, as a browser reads them."""
    line = script.decode().splitlines()[-1]
    text = json.loads(line.removeprefix("export const MODULES = ").removesuffix(";"))
    parts = text.partition("\n\n")[2].split(" ")
    found, before = {}, ""
    for first, numbers in zip(parts[::2], parts[1::2], strict=True):
        before = b"".join(utf16(before)[: int(first[0], 36)]).decode("utf-16-le") + first[1:]
        found[before] = numbers_in(numbers)
    return found


def numbers_in(text: str) -> list[int]:
    digits = PLAIN[2:-1]
    found, number, more = [], -1, 0
    for letter in text:
        digit = digits.index(letter)
        if digit < 46:
            number, more = number + more * 46 + digit + 1, 0
            found.append(number)
        else:
            more = more * 46 + digit - 46
    return found


def test_small_shelf_is_found_by_all_words() -> None:
    modules, counts = modules_of(300, 20)
    script, most = search.script(modules, counts)
    found = found_by(script)
    assert most is None
    for number, module in enumerate(modules):
        assert all(number in found[word] for word in module.words.split()), module.path
    assert {word: len(them) for word, them in found.items()} == counts


class TestLargeShelf:
    """10,000 modules have more words than fit."""

    @pytest.fixture(scope="class")
    def shelf(self) -> tuple[list[Module], dict[str, list[int]], int | None, int]:
        modules, counts = modules_of(10_000, 60)
        script, most = search.script(modules, counts)
        return modules, found_by(script), most, len(script)

    def test_script_has_at_most_1_mb(self, shelf: tuple[list[Module], dict[str, list[int]], int | None, int]) -> None:
        assert 700_000 < shelf[3] <= 1_000_000

    def test_each_module_is_found_by_its_own_word(
        self, shelf: tuple[list[Module], dict[str, list[int]], int | None, int]
    ) -> None:
        modules, found, _, _ = shelf
        assert [number for number in range(len(modules)) if found[f"own{number:x}q"] != [number]] == []

    def test_rare_words_stand_before_common_ones(
        self, shelf: tuple[list[Module], dict[str, list[int]], int | None, int]
    ) -> None:
        modules, found, most, _ = shelf
        assert most and 2 <= most < 62
        seldom = sum(len(them) for word, them in found.items() if word in SELDOM)
        assert seldom == Counter(word for module in modules for word in module.words.split() if word in SELDOM).total()
        assert sum(map(len, found.values())) == most * len(modules)


@pytest.mark.parametrize(
    ("words", "text"),
    [(None, "and READMEs</label>"), (1, "the 1 rarest word of"), (8, "and the 8 rarest words of each README</label>")],
)
def test_box_says_what_is_searched(words: int | None, text: str) -> None:
    shelf = Shelf(None, "alpha", None, set())
    assert text in box(Place("", "alpha"), shelf, words)


@pytest.mark.parametrize(
    ("readme", "words"),
    [
        ("# Kafka\n\nThe `consumer` of [our guide](https://x.test/path) and <img src=a.png>.", "kafka consumer guide"),
        ("See https://example.org/secret for 2024 and http2.", "http2"),
        ("Größe größe GRÖSSE", "größe grösse"),
    ],
)
def test_words_of_a_readme_say_something(readme: str, words: str) -> None:
    assert words_of(readme) == words
