"""What the search of the first page reads: a script that holds a line for each module, and the words of READMEs.

It is a module of JavaScript, so a page of another site that names it as a script gets an error, and none of its words.
"""
import json
from bisect import bisect_right
from collections import Counter, defaultdict
from itertools import chain

from catalog_lib.text import COMMON, shortened

# The whole file has at most as many bytes, if the paths leave room, and the lines of modules at most as many of them
BYTES_MOST, LINES_MOST = 1_000_000, 650_000
# letters of a synopsis and of the names of packages: the first row that fits is taken
CUTS = (120, 300), (90, 150), (60, 80), (40, 40), (20, 0), (0, 0)
SYNOPSIS_MOST, PACKAGES_MOST = CUTS[0]
# letters of the words of a README: as many as all modules may have together, so that those of many are ranked soon
README_CUTS, READMES_MOST = (3_000, 2_000, 1_500, 1_000, 750, 500, 350, 250, 150, 100, 50), 3_500_000
# how the numbers of modules are written: the digits that are a last one, and those behind which others follow
DIGITS = "".join(chr(it) for it in range(33, 127) if chr(it) not in '"\\')
BASE = len(DIGITS) // 2
LAST, MORE = DIGITS[:BASE], DIGITS[BASE:]
# the words that the index of READMEs leaves out
COMMON_LINE = f'export const COMMON = "{" ".join(sorted(COMMON))}";\n'


def words_most(count):
    """How many letters of the words of a README are ranked, of so many modules."""
    return next((it for it in README_CUTS if it * count <= READMES_MOST), README_CUTS[-1])


class Counts:
    """In how many modules each word is. A module has its rare words first, by classes each of which is twice as large
    as the one before, so that few modules change as words do."""

    def __init__(self, counts):
        self.counts, self.before = counts, {}

    def add(self, words, step):
        """Counts the words of a module that is new, or of one that is gone."""
        for word in words.split():
            count = self.counts.get(word, 0)
            self.before.setdefault(word, count)
            self.counts[word] = count + step

    def moved(self):
        """Returns the words that are in another class than before."""
        moved = {it for it, count in self.before.items() if count.bit_length() != self.counts[it].bit_length()}
        for word in [it for it in self.before if not self.counts[it]]:
            del self.counts[word]
        return moved

    def ranked(self, words):
        """The words of a module, those first that few others have."""
        return " ".join(sorted(words.split(), key=lambda it: self.counts[it].bit_length()))


def script(modules, counts, guess=0):
    """Returns the bytes of the script, and how many words of a README it has at most, or None if it has all. `guess` is
    what the last run found, or 0."""
    lines = lines_of(modules)
    ranked = [it.words.split(" ") if it.words else [] for it in modules]
    rounds = rounds_that_fit(ranked, counts, BYTES_MOST - len(literal(lines)) - 2, guess)
    longest = max(map(len, ranked), default=0)
    while len(made := literal(f"{lines}\n\n{words_of(ranked, rounds)}")) > BYTES_MOST and rounds:
        rounds -= 1
    return made, rounds if rounds < longest else None


def literal(text):
    return f"{COMMON_LINE}export const MODULES = {json.dumps(text, ensure_ascii=False)};\n".encode()


def lines_of(modules):
    """The lines of the modules, with as much of what they are for, and of the names of packages, as fits."""
    begins = begins_of(modules)
    # (a newline is two letters of the script)
    left = LINES_MOST - sum(map(len, begins)) - 2 * len(begins)
    lengths = [Counter(len(it.synopsis) for it in modules), Counter(len(it.packages) for it in modules)]
    for cut in CUTS:
        if cut == CUTS[-1] or least_length(*lengths, *cut) <= left:
            made = joined(modules, begins, *cut)
            if len(literal(made)) <= LINES_MOST:
                break
    return made


def begins_of(modules):
    """What each line begins with: the path, as far as it differs from the one before, and the latest version, with a
    mark if the module is deprecated."""
    found, before = [], ""
    for module in modules:
        shared = shared_by(before, module.path)
        mark = "" if module.deprecated is None else "!"
        found.append(f"{base36(shared)}{module.path[shared:]}|{module.latest or ''}{mark}")
        before = module.path
    return found


def least_length(synopses, names, synopsis, packages):
    """Returns a number of bytes that the rest of the lines exceeds with these cuts, of how many synopses and names of
    packages there are of each length."""
    # (two signs stand before a synopsis)
    told = sum((min(it, synopsis) + 2) * count for it, count in synopses.items() if it and synopsis)
    return told + sum(min(it, packages) * count for it, count in names.items())


def joined(modules, begins, synopsis, packages):
    """The lines, with synopses and names of packages of at most these letters. A synopsis, which may have any letter,
    stands last."""
    lines = []
    for begin, module in zip(begins, modules):
        words = shortened(module.synopsis, synopsis) if synopsis else ""
        line = f"{begin}|{module.packages[:packages]}|{words}"
        lines.append(line if words else line.rstrip("|"))
    return "\n".join(lines)


def shared_by(one, other):
    """Returns how many letters two texts begin with alike, as far as one digit says it."""
    least, most = 0, min(len(one), len(other), 35)
    while least < most:
        half = (least + most + 1) // 2
        if one[:half] == other[:half]:
            least = half
        else:
            most = half - 1
    # (JavaScript counts a letter beyond U+FFFF as two)
    return least if one.isascii() else next((at for at, it in enumerate(one[:least]) if it > "\uffff"), least)


def base36(number):
    return "0123456789abcdefghijklmnopqrstuvwxyz"[number]


def rounds_that_fit(ranked, counts, left, guess):
    """Returns how many words of each README fit into these bytes, as far as that is known before they are written. It
    is found soon if it is the guess."""
    lengths = {it: length_of(len(ranked), count) for it, count in counts.items()}
    longest = max(map(len, ranked), default=0)

    def is_too_long(rounds):
        found = counts if rounds == longest else Counter(chain.from_iterable(words[:rounds] for words in ranked))
        # (a word shares some letters with the one before)
        return sum(len(it) + 1 + count * lengths[it] for it, count in found.items()) > left

    if not is_too_long(longest):
        return longest
    if 0 < guess < longest - 1 and is_too_long(guess + 1) and not is_too_long(guess):
        return guess
    return bisect_right(range(1, longest), False, key=is_too_long)


def length_of(modules, count):
    """Returns how many digits the numbers of the modules that have a word mostly have."""
    return 1 if count * BASE > 2 * modules else 2 if count * BASE * BASE > 2 * modules else 3


def words_of(ranked, rounds):
    """The words, each with the numbers of the modules that have it among their first ones."""
    places = defaultdict(list)
    for number, words in enumerate(ranked):
        for word in words[:rounds]:
            places[word].append(number)
    texts = [digits(number) for number in range(len(ranked))]
    found, before = [], ""
    for word in sorted(places):
        shared = shared_by(before, word)
        # (each number as how much it is above the one before)
        numbers = [texts[it - above - 1] for above, it in zip([-1, *places[word]], places[word])]
        found.append(f"{base36(shared)}{word[shared:]} {''.join(numbers)}")
        before = word
    return " ".join(found)


def digits(number):
    """A number, its lowest digit last."""
    text, number = LAST[number % BASE], number // BASE
    while number:
        text, number = MORE[number % BASE] + text, number // BASE
    return text
