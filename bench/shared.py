"""What the benches share: the program that they measure, their words, and what a run takes.

It puts tests/ on the path, so that a bench that imports it may import from the tests' lib too. It imports little,
because the peak memory of a child begins at that of the bench.
"""

import argparse
import os
import subprocess
import sys
import time
from typing import IO, NamedTuple

ROOT = os.path.dirname(os.path.dirname(os.path.abspath(__file__)))
# (behind this folder: a suite may have the name of a bench)
sys.path.insert(1, os.path.join(ROOT, "tests"))
from lib.program import PROGRAM

MIB = 1_048_576


def need(program: str = PROGRAM) -> None:
    """Ends the bench unless the program is there."""
    if not os.path.isfile(program):
        sys.exit(f"there is no {program}; build the program first: ./goshelf --version")


def read(name: str) -> str:
    """Returns the text of a file, whatever bytes it has."""
    with open(name, encoding="utf-8", errors="replace") as file:
        return file.read()


def parser_of(doc: str | None) -> argparse.ArgumentParser:
    """Returns a parser that shows the docstring of a bench as its help, and refuses words that it does not know."""
    return argparse.ArgumentParser(
        description=doc, formatter_class=argparse.RawDescriptionHelpFormatter, allow_abbrev=False
    )


def add_program(parser: argparse.ArgumentParser) -> None:
    parser.add_argument("--program", default=PROGRAM, metavar="FILE", type=file_named, help="the program to measure")


def file_named(name: str) -> str:
    """Returns the path of a file, or refuses an empty name."""
    if not name:
        raise argparse.ArgumentTypeError("a name is empty")
    return os.path.abspath(name)


def add_quick(parser: argparse.ArgumentParser) -> None:
    parser.add_argument("--quick", dest="scale", action="store_const", const=10, default=1, help="a tenth of it all")


def add_sizes(parser: argparse.ArgumentParser, *sizes: tuple[str, int, str]) -> None:
    """Adds options that take a whole number, each by its name, its default, and what it counts."""
    for name, default, text in sizes:
        parser.add_argument(f"--{name}", type=int, default=default, metavar="N", help=f"{text} ({default:,})")


def place(n: int) -> tuple[str, str]:
    """Returns the path and the version of the nth entry, with at most 4,000 versions to a path."""
    return f"example.com/m{n // 4000}", f"v1.0.{n % 4000}"


class Took(NamedTuple):
    """What a run took: seconds of the clock and of the processor, and the most MiB that it held."""

    seconds: float
    processor: float
    peak: float


def run(
    words: list[str],
    source: IO[bytes] | int = subprocess.DEVNULL,
    target: IO[bytes] | int | None = None,
    settings: dict[str, str] | None = None,
) -> Took:
    """Runs a program on a stream, and returns what that took. It ends the bench if the run fails."""
    begun = time.monotonic()
    child = subprocess.Popen(words, stdin=source, stdout=target, env=settings)
    _, status, usage = os.wait4(child.pid, 0)
    seconds = time.monotonic() - begun
    if status:
        sys.exit(f"{' '.join(words[:2])} ended with wait status {status}")
    return Took(seconds, usage.ru_utime + usage.ru_stime, usage.ru_maxrss / 1024)


def head() -> str:
    """Returns the short name of the commit that is checked out, or '' where git knows none."""
    words = ["git", "-C", ROOT, "rev-parse", "--short", "HEAD"]
    return subprocess.run(words, capture_output=True, text=True, check=False).stdout.strip()


def remove_stores(*files: str) -> None:
    """Removes stores, each with its log, where they are."""
    for name in (f"{file}{end}" for file in files for end in ("", "-wal", "-shm")):
        if os.path.exists(name):
            os.remove(name)
