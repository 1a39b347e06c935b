"""The wrong bodies of a crate: what they change, and which can be tried together."""
from dataclasses import dataclass, field

from planted_lib.edits import Change, Edit, edits_of
from planted_lib.repository import Crate, Unusable, read
from planted_lib.sources import Function, functions_named, functions_of

FALSE, OPEN = "refused: the goal is false", "refused: open goal, no counterexample"
THROUGH, NO_COUNT = "LET THROUGH", "DOES NOT COUNT"
REFUSED = (FALSE, OPEN)


@dataclass
class Body:
    """A wrong body: the lines that it changes, by file and number, and the functions that these belong to."""

    name: str
    lines: dict[tuple[str, int], str] = field(default_factory=dict)
    functions: list[Function] = field(default_factory=list)
    # whether it changes anything but what stands between the braces of functions
    is_wide: bool = True
    # the clause that refuses it by its file, or ''
    clause: str = ""
    verdict: str = ""
    why: str = ""


def applied(change: Change, text: str, was: str) -> str:
    """Returns the text of a file with a change made, or raises why it cannot be made. Functions stand where the file
    had them at first, since no change adds a line."""
    rows = text.split("\n")
    first, last, place = 0, len(rows), change.file
    if change.function:
        place = f"{change.function} of {change.file}"
        named = functions_named(change.file, was, change.function)
        if len(named) != 1:
            raise Unusable(f"{change.file} has {len(named)} functions {change.function}, and not one")
        first, last = named[0].first - 1, named[0].last
    within = "\n".join(rows[first:last])
    if within.count(change.old) != 1:
        raise Unusable(f"an 'old:' text is in {place} {within.count(change.old)} times, and not once")
    return "\n".join([*rows[:first], within.replace(change.old, change.new), *rows[last:]])


def texts_of(crate: Crate, edit: Edit) -> dict[str, str]:
    """Returns the changed files of a wrong body, or raises why it cannot be applied."""
    texts: dict[str, str] = {}
    if edit.fault:
        raise Unusable(edit.fault)
    for change in edit.changes:
        was = read(f"{crate.folder}/{change.file}")
        texts[change.file] = applied(change, texts.get(change.file, was), was)
    return texts


def body_with(crate: Crate, name: str, texts: dict[str, str]) -> Body:
    """Returns the body that makes these texts: a pair changes a line in its place, so other numbers stay."""
    body = Body(name, is_wide=False)
    for file, text in texts.items():
        was = read(f"{crate.folder}/{file}")
        rows = zip(was.split("\n"), text.split("\n"))
        changed = {at: new for at, (old, new) in enumerate(rows, 1) if old != new}
        body.lines.update({(file, at): new for at, new in changed.items()})
        for at in changed:
            functions = functions_of(file, was) if file.startswith("src/") else ()
            around = [function for function in functions if function.holds(file, at)]
            body.functions += [function for function in around if function not in body.functions]
            body.is_wide = body.is_wide or not around or at < around[0].opens
    if not body.lines:
        raise Unusable("it changes nothing")
    return body


def body_of(crate: Crate, edit: Edit) -> Body:
    """Returns the body of an edit, judged already if it cannot be applied."""
    try:
        body = body_with(crate, edit.name, texts_of(crate, edit))
        body.clause = edit.clause
        return body
    except Unusable as why:
        return Body(edit.name, verdict=NO_COUNT, why=f"BAD EDIT: {why}")


def bodies_of(crate: Crate) -> list[Body]:
    """Returns the crate's bodies; those that cannot be applied are judged already."""
    return [body_of(crate, edit) for edit in edits_of(crate)]


def rounds_of(bodies: list[Body], most: int) -> list[list[Body]]:
    """Returns the bodies in rounds of at most this many. No two of a round change one function, and a wide body is
    alone."""
    rounds: list[list[Body]] = []
    for body in bodies:
        open_rounds = (one for one in rounds if not one[0].is_wide and len(one) < most)
        fits = (one for one in open_rounds if not any({*body.functions} & {*other.functions} for other in one))
        place = None if body.is_wide else next(fits, None)
        rounds.append([body]) if place is None else place.append(body)
    return rounds
