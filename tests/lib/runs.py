"""Tables of runs: the words of commands, and how each run is to end."""

import contextlib
import os
import shlex
from collections.abc import Iterator, Mapping
from dataclasses import dataclass

from lib.keys import KEYS
from lib.messages import get, reply
from lib.program import columns, run, words_of
from lib.scratch import entered_folder, write

Ending = tuple[int, bytes, str]


@dataclass(frozen=True)
class Run:
    """A run of a table: its line, the words, what it reads, and the status, output and errors that it is to have."""

    line: str
    words: tuple[str, ...]
    requests: bytes
    wanted: Ending

    def __str__(self) -> str:
        """Returns what stands before `|`: a row keeps its name where what it wants changes."""
        return self.line.partition(" | ")[0]


def read_runs(table: str) -> list[Run]:
    """Returns the runs of a table.

    A line has the words; behind `<` the letter of a key and the target that the input asks for; behind `|` the exit
    status, and the word on standard error where there is one. Indented below it stand the lines that are printed. Of
    a run that asks for a target these are one reply: its status and its body."""
    rows: list[tuple[str, list[str]]] = []
    for line in filter(str.strip, table.split("\n")):
        if line.startswith("    "):
            rows[-1][1].append(line[4:] + "\n")
        else:
            rows.append((line, []))
    return [_read_run(line, "".join(printed)) for line, printed in rows]


def _read_run(line: str, printed: str) -> Run:
    command, ending = columns(line, 2)
    command, _, asked = command.partition(" < ")
    status, _, word = ending.partition(" ")
    requests, output = b"", printed.encode()
    if asked:
        letter, target = asked.split()
        code, _, body = output.partition(b" ")
        requests, output = get(target, KEYS[letter]), reply(int(code), body, target) if code else b""
    words = tuple(words_of(command))
    return Run(line, words, requests, (int(status), output, f"goshelf: {word}\n" if word else ""))


class Story:
    """Runs of a table on one store, made in order. A test of one run makes those before it first."""

    def __init__(self, runs: list[Run], folder: str) -> None:
        self.runs, self.folder = runs, folder
        self.endings: list[Ending] = []

    def ending(self, number: int) -> Ending:
        """Returns how a run of the table ended."""
        while len(self.endings) <= number:
            made = self.runs[len(self.endings)]
            self.endings.append(run(list(made.words), made.requests, cwd=os.path.abspath(self.folder)))
        return self.endings[number]

    def check(self, number: int) -> None:
        """Asserts that a run of the table ends as it is to."""
        __tracebackhide__ = True
        made, found = self.runs[number], self.ending(number)
        what = f"ran:    goshelf {shlex.join(made.words)}\ncame:   {found}\nwanted: {made.wanted}"
        assert found == made.wanted, what


@contextlib.contextmanager
def begun(runs: list[Run], files: Mapping[str, str | bytes] | None = None) -> Iterator[Story]:
    """Begins a story in a new folder that has some files."""
    with entered_folder() as folder:
        write(files or {})
        yield Story(runs, folder)


def name_rows(names: list[str]) -> list[str]:
    """Returns a name for each row: of rows with one name, the second and those behind it get a number."""
    named = []
    for at, name in enumerate(names):
        count = names[: at + 1].count(name)
        named.append(f"{name} ({count})" if count > 1 else name)
    return named


def number_runs(runs: list[Run]) -> dict:
    """Returns the words of `parametrize` for tests of a story: a number for each run, named by its words."""
    return {"argnames": "number", "argvalues": range(len(runs)), "ids": name_rows([str(made) for made in runs])}


def number_stories(stories: Mapping[str, list[Run]]) -> dict:
    """Returns the words of `parametrize` for tests of several stories: the name of one, and the number of a run."""
    rows = [(name, number) for name, runs in stories.items() for number in range(len(runs))]
    names = name_rows([f"{name}: {stories[name][number]}" for name, number in rows])
    return {"argnames": ("story", "number"), "argvalues": rows, "ids": names}
