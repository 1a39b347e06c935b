"""The functions of a Rattle source: where they stand, and what rattle calls them."""
import functools
import re
from dataclasses import dataclass

from planted_lib.repository import Unusable

FUNCTION = re.compile(r"( *)(?:pub(?:\([^)]*\))? )?(?:(?:const|unsafe|default) )*fn (\w+)")
HOLDER = re.compile(
    r" *(?:pub(?:\([^)]*\))? )?(?:unsafe )?(?:impl(?:<(?:[^<>]|<[^<>]*>)*>)?|trait(?= \w+)) ([^:{]\w*[^{]*)"
)


REFERENCE = re.compile(r"^Ref(?:Mut)?(?=[A-Z])")


@dataclass(frozen=True)
class Function:
    """A function of a source: its lines from the first of its head, the line that opens its body, and its last."""

    path: str
    name: str
    holder: str
    # of an impl of a type with arguments that are no parameters, those
    arguments: str
    first: int
    opens: int
    last: int

    @property
    def label(self) -> str:
        """Its name in its file, as checks print it: `Type::name` or `TypeTrait::name` for a method."""
        return f"{self.holder}::{self.name}" if self.holder else self.name

    @property
    def module(self) -> list[str]:
        parts = self.path[len("src/") : -len(".rt")].split("/")
        return [part for part in parts if part not in ("lib", "main", "mod")]

    def name_in(self, crate: str) -> str:
        """Returns the name by which rattle finds the function: whole, or of a method its end, because a method is named
        by the module of its type, which may be another than that of its source."""
        if self.holder:
            return f"{self.holder}{self.arguments}::{self.name}"
        return "::".join([crate, *self.module, self.name])

    def is_at(self, names: list[str]) -> bool:
        """Returns whether rattle's name, without the crate's, is of this function or of a closure in it."""
        if self.holder:
            before = next((at for at, name in enumerate(names) if name.partition("+")[0] == self.holder), len(names))
            rest = names[before + 1 :]
        else:
            rest = names[len(self.module) :] if names[: len(self.module)] == self.module else []
        return rest == [self.name] or rest[:2] == ["fn", self.name]

    def holds(self, path: str, line: int) -> bool:
        return path == self.path and self.first <= line <= self.last


@functools.lru_cache(maxsize=None)
def functions_of(path: str, text: str) -> tuple[Function, ...]:
    """Returns the outermost functions of a source that rt fmt has laid out."""
    lines, found, after = text.split("\n"), [], 0
    for at, line in enumerate(lines):
        head = FUNCTION.match(line)
        if not head or at < after:
            continue
        (opens, last), first = body_of(lines, at, head[1]), at
        while (
            first > after
            and lines[first - 1].startswith(f"{head[1]}#[")
            or lines[first - 1].startswith(f"{head[1]}///")
        ):
            first -= 1
        holder, arguments = holder_of(lines, at, head[1])
        found.append(Function(path, head[2], holder, arguments, first + 1, opens + 1, last + 1))
        after = last + 1
    return tuple(found)


def functions_named(path: str, text: str, name: str) -> list[Function]:
    """Returns the functions of a source with this name: `name`, `Type::name`, or as checks print it."""
    of_type, _, last = name.rpartition("::")
    exact = [one for one in functions_of(path, text) if one.label == name]
    some = [one for one in functions_of(path, text) if one.name == last]
    return exact or [one for one in some if REFERENCE.sub("", one.holder).startswith(of_type)]


def body_of(lines: list[str], at: int, indent: str) -> tuple[int, int]:
    """Returns the rows that open and close the body of the function that begins at a row: what stands as deep as its
    head.

    A trait's method without a body ends with its contract, which stands deeper.
    """
    opens, depth = None, 0
    for row in range(at, len(lines)):
        line = lines[row]
        depth += line.count("{") - line.count("}")
        if not line.startswith(indent) or line[len(indent) : len(indent) + 1] in ("", " "):
            if opens is None and depth == 0 and line.endswith("};"):
                return row, row
            continue
        if line.endswith("{}") or line.endswith(";") or opens is None and line.endswith("}"):
            return row, row
        if opens is not None:
            return opens, row
        if line.endswith("{"):
            opens = row
    raise Unusable(f"no end is found of {lines[at].strip()}")


def holder_of(lines: list[str], at: int, indent: str) -> tuple[str, str]:
    """Returns what rattle calls the impl or trait around a row, and the arguments of its type: a type or a trait, or
    both as in MapShelvesShelves; else ''."""
    for row in range(at, -1, -1):
        head = head_at(lines, row)
        found = HOLDER.match(head)
        if found and len(lines[row]) - len(lines[row].lstrip()) < len(indent):
            trait, _, of_type = found[1].partition("{")[0].rpartition(" for ")
            if not trait:
                return last_word(of_type), arguments_of(head.partition(found[1])[0], of_type)
            reference = re.match(r"&(?:'\w+ )?(mut )?", of_type)
            prefix = f"Ref{'Mut' if reference[1] else ''}" if reference else ""
            return prefix + types_in(of_type) + types_in(trait), ""
    return "", ""


def arguments_of(declared: str, of_type: str) -> str:
    """Returns what rattle adds to the name of a type for its arguments: nothing if all are parameters of the impl."""
    parameters = {part.partition(":")[0] for part in items_of(declared)}
    arguments = [part for part in items_of(of_type) if not part.startswith("'")]
    return "" if {*arguments} <= parameters else "".join(f"+{last_word(part)}" for part in arguments)


def items_of(text: str) -> list[str]:
    """Returns what stands between commas in the first angle brackets of a text."""
    inner, depth, items = text.partition("<")[2].rpartition(">")[0], 0, [""]
    for letter in inner:
        depth += (letter in "<([") - (letter in ">)]")
        if letter == "," and depth == 0:
            items.append("")
        else:
            items[-1] += letter
    return [item.strip() for item in items if item.strip()]


def head_at(lines: list[str], row: int) -> str:
    """Returns the head that begins at a row without its bounds, in one line: that of an impl may stand on several."""
    last = row
    while lines[row].lstrip().startswith(("impl", "unsafe impl")) and "{" not in lines[last] and last + 1 < len(lines):
        last += 1
    return " ".join(line.strip() for line in lines[row : last + 1]).partition(" where ")[0]


def last_word(path: str) -> str:
    """Returns the last name of a path, without its arguments."""
    return "".join(re.findall(r"\w+", path.partition("<")[0])[-1:])


def types_in(head: str) -> str:
    """Returns the types and the trait that a head names, as one word, without those of one letter."""
    return "".join(re.findall(r"\b[A-Z]\w+", head))
