"""How scripts in Python refuse their words: by name, below their usage, with status 2."""

import os
import sys
from collections.abc import Sequence
from typing import NoReturn


def wrong(usage: str, said: str) -> NoReturn:
    """Prints the usage and what is wrong with the words of a script, and ends it."""
    print(f"{usage.strip()}\n\n{os.path.basename(sys.argv[0])}: {said}", file=sys.stderr)
    sys.exit(2)


def take(usage: str, words: Sequence[str], least: int = 0, *names: str) -> Sequence[str]:
    """Returns the words of a script if they are one for each name, of which the first ones are needed. Otherwise it
    ends the script, and also if they ask for help, which it prints."""
    if words in (["-h"], ["--help"]):
        print(usage.strip())
        sys.exit(0)
    for word in words:
        if word.startswith("-"):
            wrong(usage, f"there is no option {word}")
    if len(words) < least:
        wrong(usage, f"{names[len(words)]} is missing")
    for name, word in zip(names, words):
        if not word:
            wrong(usage, f"{name} is empty")
    if len(words) > len(names):
        wrong(usage, f"one word too many: {words[len(names)]}")
    return words
