"""Goals that a check leaves open, and what a second check says of them.

In the second check the answer to such a goal is a hole, so that the checker prints the goal, and behind it stands a
lemma: the goal contradicts what is known at its place. If the checker proves that lemma, the goal is false.
"""
import os
import re
from collections.abc import Iterator
from dataclasses import dataclass

from planted_lib.bodies import Body
from planted_lib.messages import NAME_IS_LOST, OPEN, Said, kind_of
from planted_lib.repository import read

ANSWERS = "Answers.antt"
# what the checker says of goals without an answer: the file to write, and its lines
ASKED = re.compile(rf"^help: (?:write|add these lines to) \./(proofs/\S+/{ANSWERS})\b.*\n((?:    .*\n| *\n)*)", re.M)
HOLE = re.compile(r"^ *([\w'-]+) (g )?c = \?$", re.M)
GOALS = re.compile(r"^ *(use \S+\.Goals as goal)$", re.M)
# an answer by hand that the checker refuses
REFUSED = re.compile(r"error: `([\w'-]+)`")
HEAD = """use Rattle.std.proofs.Common as planted-std
use Rattle.std.proofs.lemmas.Grind as planted-grind
"""
LEMMAS = """
abbrev Denied {ℓ κ} : {A : Type ℓ} {B : A → Type κ} → ((a : A) → B a) → Type ℓ
Denied {A} f = (a : A) → ⊥

abbrev Denied-g {ℓ κ μ} : {G : Type ℓ} {A : G → Type κ} {B : (g : G) → A g → Type μ} → ((g : G) (a : A g) → B g a)
    → Type (ℓ ⊔ κ)
Denied-g {G} {A} f = (g : G) (a : A g) → ⊥
"""
DENIAL = """
denied-{name} : (h : goal.{name}) → Denied{kind} h
denied-{name} h {arguments} = let f = h {arguments} in grind (planted-std.arith, planted-grind.common_steps, f)
"""


@dataclass(frozen=True)
class Goal:
    """An open goal: the file with its answer, its name, and whether its answer takes `g` before `c`."""

    path: str
    name: str
    is_generic: bool

    @property
    def arguments(self) -> str:
        return "g c" if self.is_generic else "c"

    @property
    def hole(self) -> str:
        return f"pub {self.name} : goal.{self.name}\n{self.name} {self.arguments} = ?\n"

    @property
    def denial(self) -> str:
        return DENIAL.format(name=self.name, kind="-g" if self.is_generic else "", arguments=self.arguments)

    def is_of(self, body: Body) -> bool:
        return body.is_wide or any(function.is_at(self.path.split("/")[1:-1]) for function in body.functions)


def answer_to(name: str, text: str) -> re.Match[str] | None:
    """Returns where a text answers a goal: its signature and the clauses behind it, up to what is not indented."""
    word = re.escape(name)
    clause = rf"{word} (?:(g|_)(?= [c_]\b))?.*\n(?: +.*\n)*"
    return re.search(rf"^pub {word} : goal\.{word}\n(?:{clause})+", text, re.M)


def open_goals(said: Said, folder: str, bodies: list[Body]) -> list[Goal]:
    """Returns the goals of the bodies' functions that a check leaves open: those without an answer, and those whose
    answer by hand it refuses, in files below a folder."""
    found = [Goal(path, name, bool(g)) for path, rows in ASKED.findall(said.text) for name, g in HOLE.findall(rows)]
    for path, _, _, message in said.messages:
        refused = REFUSED.search(message)
        if refused and path.endswith(f"/{ANSWERS}") and kind_of(message) in (OPEN, NAME_IS_LOST):
            answer = answer_to(refused[1], read(f"{folder}/{path}"))
            found += [Goal(path, refused[1], bool(answer[1]))] if answer else []
    return [goal for goal in dict.fromkeys(found) if any(goal.is_of(body) for body in bodies)]


def questions(said: Said, folder: str, goals: list[Goal]) -> Iterator[tuple[str, str]]:
    """Yields each file of answers that a second check reads, with its text: each goal has a hole and the lemma that
    denies it."""
    uses = {path: GOALS.findall(rows) for path, rows in ASKED.findall(said.text)}
    for path in dict.fromkeys(goal.path for goal in goals):
        text = read(f"{folder}/{path}") if os.path.isfile(f"{folder}/{path}") else ""
        own = [goal for goal in goals if goal.path == path]
        for answer in filter(None, (answer_to(goal.name, text) for goal in own)):
            text = text.replace(answer[0], "")
        head = "".join(f"{line}\n" for line in uses.get(path, []) if f"{line}\n" not in text) + HEAD
        yield path, head + text + LEMMAS + "".join(f"\n{goal.hole}{goal.denial}" for goal in own)


def false_goals(said: Said, goals: list[Goal]) -> list[Goal]:
    """Returns the goals whose denial a second check proved: it prints their holes, and refuses nothing of the lemma."""

    def says(goal: Goal, words: str) -> bool:
        return any(path == goal.path and words in message for path, _, _, message in said.messages)

    shown = [goal for goal in goals if says(goal, f"goal ? in `{goal.name}`")]
    return [goal for goal in shown if not says(goal, f"`denied-{goal.name}`")]
