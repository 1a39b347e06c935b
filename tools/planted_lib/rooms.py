"""Checks of copies of a crate with wrong bodies in it."""
import os
import shutil
import threading

from planted_lib.bodies import Body
from planted_lib.goals import Goal, false_goals, open_goals, questions
from planted_lib.libraries import is_left_by_gate, prove, words_of
from planted_lib.messages import Said, last_of
from planted_lib.repository import PARTS, Crate, Unusable, read, write
from planted_lib.running import copy, run
from planted_lib.sources import Function

# One for each check that may run at once; main gives it the number that --jobs says.
SLOTS = threading.Semaphore(1)


def only(crate: Crate, functions: list[Function]) -> list[str]:
    """Returns the words that have a check prove these functions, and what they call, alone."""
    return [word for function in dict.fromkeys(functions) for word in ("--only", function.name_in(crate.name))]


class ProvedCrate:
    """A crate that is proved as it stands, with the libraries below it and what its checks have in common.

    Over libraries that rt ci left, only the functions that bodies change are proved first, as they stand.
    """

    def __init__(self, crate: Crate, root: str, keep: str | None, bodies: list[Body]) -> None:
        self.crate, self.root, self.keep, self.sum = crate, root, keep, crate.sum()
        self.kept, self.text = f"{root}/kept", f"{root}/text"
        # whether the checker knows each function by the name that it gets here
        self.has_names = True
        is_left = is_left_by_gate(crate)
        with SLOTS:
            if not is_left:
                prove(crate)
        self.words = words_of(crate)
        for part in PARTS:
            if os.path.isdir(f"{crate.folder}/{part}"):
                copy(f"{crate.folder}/{part}", f"{self.text}/{part}")
        if is_left:
            self.prove_functions(bodies)
        else:
            copy(f"{crate.folder}/out/incremental", self.kept)

    def prove_functions(self, bodies: list[Body]) -> None:
        """Has the functions that bodies change proved as they stand, and keeps that work."""
        os.mkdir(self.kept)
        functions = [function for body in bodies if not body.is_wide for function in body.functions]
        if functions:
            said = self.check(self.text, self.kept, functions, "as-it-stands")
            if not said.is_proved:
                raise Unusable(f"its functions are not proved as they stand: {last_of(said.text)}")

    def check(self, folder: str, kept: str, functions: list[Function], name: str, *flags: str) -> Said:
        """Checks functions of a copy of the crate, or all of it if none is given, over a folder of kept work."""
        words = [*self.words, *flags, "--incremental", kept]
        with SLOTS:
            status, text = run([*words, *(only(self.crate, functions) if self.has_names else [])], folder)
            if status == 2 and functions and self.has_names:
                self.has_names = False
                status, text = run(words, folder)
        if self.crate.sum() != self.sum:
            raise Unusable("its files, or those below, were changed meanwhile: run this again")
        if self.keep:
            write(f"{self.keep}/{self.crate.name}-{name}.txt", text)
        return Said(self.crate.name, status, text)


class Room:
    """A copy of a crate and of its kept work, both made anew for each round of bodies."""

    def __init__(self, proved: ProvedCrate, number: int) -> None:
        self.proved, self.crate, self.number, self.checks = proved, proved.crate, number, 0

    def check(self, bodies: list[Body], is_whole: bool) -> Said:
        """Checks the crate with these bodies in it, or only the functions that they change."""
        root = f"{self.proved.root}/{self.number}"
        shutil.rmtree(root, ignore_errors=True)
        copy(self.proved.text, f"{root}/text")
        copy(self.proved.kept, f"{root}/kept")
        for path in {path for body in bodies for path, _ in body.lines}:
            rows = read(f"{root}/text/{path}").split("\n")
            for file, at, line in [(*place, line) for body in bodies for place, line in body.lines.items()]:
                if file == path:
                    rows[at - 1] = line
            write(f"{root}/text/{path}", "\n".join(rows))
        return self.run(bodies, is_whole)

    def run(self, bodies: list[Body], is_whole: bool, *flags: str) -> Said:
        """Checks the copy as it stands."""
        root = f"{self.proved.root}/{self.number}"
        self.checks += 1
        functions = [] if is_whole else [function for body in bodies for function in body.functions]
        name = f"{self.number}-{self.checks}"
        said = self.proved.check(f"{root}/text", f"{root}/kept", functions, name, *flags)
        if self.proved.keep:
            path = f"{self.proved.keep}/{self.crate.name}-{name}.txt"
            write(path, "".join(f"{body.name}\n" for body in bodies) + f"\n{read(path)}")
        return said

    def false_goals(self, bodies: list[Body], is_whole: bool, said: Said) -> list[Goal]:
        """Returns which goals of the bodies are false, of those that the last check left open."""
        text = f"{self.proved.root}/{self.number}/text"
        goals = open_goals(said, text, bodies)
        if not goals:
            return []
        for path, answers in [*questions(said, text, goals)]:
            os.makedirs(os.path.dirname(f"{text}/{path}"), exist_ok=True)
            write(f"{text}/{path}", answers)
        return false_goals(self.run(bodies, is_whole, "--allow-holes"), goals)
