"""What a check prints, and what it says against a wrong body."""
import re

from planted_lib.bodies import Body
from planted_lib.repository import Unusable

# What a message says of a body.
REFUTED = "values make the goal false"
OPEN = "an obligation stays open"
UNREADABLE = "BAD EDIT: it cannot be read"
OF_THE_CHECKER = "the fault is the checker's"
NAME_IS_LOST = "a proof file names what the edit takes away"
CALLS = "it calls what is not proved"

PLACED = re.compile(r"(?:note: )?(?:\./)?((?:src|specs|proofs)/\S+?):(\d+):\d+: (.*)")
VERDICT = re.compile(r"(?:fn|impl|struct|enum|trait|const|static) (\S+): (.*)")
OF_CHECKER = re.compile(
    r"could not tell|bug in (?:rattle|antt)|bug or a limit of antt|fault of rattle's own|please report"
)
# (of an error with Q for what stands in quotes; before 'has no field' stand the names that the record has)
LOST_NAME = re.compile(
    r": (?:Q: )*(?:record Q.* has no field|.{,60}(?:is not in scope|has no Q|was not admitted|is no name))"
)
STALE = re.compile(r"module .Rattle-\w+-.*Run the lower steps again")
# the last line of a check that came to an end, of a whole crate or under --only
ENDS = re.compile(r"^(logic=not-proved|rattle: no verdict|only=\d+ )", re.M)


class Said:
    """What a check printed: its messages, each with the path and line, and rattle's name of the function, where it
    has them."""

    def __init__(self, crate: str, status: int, text: str) -> None:
        if STALE.search(text):
            raise Unusable("the kept work of a library cannot be used: remove its out/")
        self.status, self.text, self.is_proved = status, text, status == 0
        self.messages: list[tuple[str, int, list[str], str]] = []
        self.judges = self.is_proved or bool(ENDS.search(text))
        for message in re.split(r"\n(?!  )", text):
            at, verdict = PLACED.match(message), VERDICT.match(message)
            if at:
                names = at[1].split("/")[1:-1] if at[1].startswith("proofs/") else []
                self.messages.append((at[1], int(at[2]), names, message))
            elif verdict and verdict[2] != "proved" and verdict[1].startswith(f"{crate}::"):
                self.messages.append(("", 0, verdict[1].split("::")[1:], message))

    def of(self, body: Body) -> list[str]:
        """Returns the messages about the body's functions; of a wide body all."""
        return [
            message
            for path, line, names, message in self.messages
            if body.is_wide or any(one.holds(path, line) or one.is_at(names) for one in body.functions)
        ]

    def spoilt(self, bodies: list[Body]) -> list[tuple[Body, str]]:
        """Returns the bodies at whose lines a source could not be read, each with the message."""
        errors = [(path, line, text) for path, line, _, text in self.messages if kind_of(text) == UNREADABLE]
        return [(body, text) for body in bodies for path, line, text in errors if (path, line) in body.lines]


def kind_of(message: str) -> str:
    """Returns what a message says against a body, or '' if it says nothing against it."""
    said = re.sub(r"`[^`]*`", "Q", re.sub(r"\s+", " ", message))
    place, is_error, error = said.partition(" error")
    is_of_a_place = bool(is_error) and " " not in place
    if OF_CHECKER.search(message):
        return OF_THE_CHECKER
    if is_of_a_place and "src/" in place:
        return UNREADABLE
    if is_of_a_place and LOST_NAME.match(error):
        return NAME_IS_LOST
    if "at which this goal is false" in said:
        return REFUTED
    if is_of_a_place or re.search(r"it is not proved that|did not prove", said):
        return OPEN
    return CALLS if re.search(r"it calls|it passes|a call of", said) else ""


def clause_of(message: str) -> str:
    """Returns the clause of the goal that a message names: `ensures` for one without a name, or '' if it is none."""
    goal = re.search(r"`(returns[\w-]*)`", message)
    clause = re.search(r"-clause-(\w+)$", goal[1]) if goal else None
    return clause[1] if clause else "ensures" if goal else ""


def short(message: str) -> str:
    """Returns the beginning of a message in one line."""
    return re.sub(r"\s+", " ", message).removeprefix("note: ").removeprefix("./")[:240]


def last_of(text: str) -> str:
    """Returns the line of a check's output that best says why it ended."""
    lines = [line for line in text.split("\n") if line.strip()] or ["it printed nothing"]
    return short(next((line for line in lines if re.search(r"error|not proved|no proof|killed", line)), lines[-1]))
