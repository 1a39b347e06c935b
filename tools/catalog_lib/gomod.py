"""What a go.mod says beside its requirements: that its module is deprecated, why it retracts versions, and what it
replaces. goshelf has read each go.mod before, so what is no go.mod says nothing here."""
import re
from dataclasses import dataclass, field

from catalog_lib.lines import VERSION, precedence

# a comment, a space, a string, a sign or a word of a line
TOKEN = re.compile(
    r"""(?P<comment>//.*)|(?P<space>[ \t\r]+)|"(?P<quoted>(?:\\.|[^"\\])*)"|`(?P<raw>[^`]*)`"""
    r"""|(?P<word>=>|[()\[\],]|(?:(?!//)[^\s()\[\],"`])+)|(?P<other>.)"""
)
# https://go.dev/ref/mod#go-mod-file-module-deprecation
DEPRECATED = re.compile(r"(?:^|\n\n)Deprecated: *(.*?)(?:$|\n\n)", re.DOTALL)
# longer messages the go command omits
MESSAGE_MOST = 500


@dataclass
class GoMod:
    """`deprecated` is None without such a comment. A retraction is its lowest and highest version and its reason; a
    replacement the path and version that are replaced, the latter perhaps empty, and those in their place."""

    deprecated: str | None = None
    retractions: list = field(default_factory=list)
    replacements: list = field(default_factory=list)

    def reasons_of(self, version):
        """The reasons for which a version is retracted."""
        now = precedence(version)
        return [why for low, high, why in self.retractions if precedence(low) <= now <= precedence(high)]


# what a go.mod has that says more than what it requires
MORE = re.compile("Deprecated:|retract|replace")


def read(text):
    """The GoMod of a text."""
    found = GoMod()
    for words, comment in directives(text) if MORE.search(text) else ():
        if words[0] == "module":
            deprecated = DEPRECATED.search(comment)
            found.deprecated = deprecated[1] if deprecated else None
        elif words[0] == "retract":
            bounds = [it for it in words[1:] if VERSION.fullmatch(it)]
            if bounds:
                found.retractions.append((bounds[0], bounds[-1], comment))
        elif words[0] == "replace" and "=>" in words:
            at = words.index("=>")
            old, new = [*words[1:at], "", ""], [*words[at + 1 :], "", ""]
            found.replacements.append((*old[:2], *new[:2]))
    return found


def directives(text):
    """Yields each directive, as its words, and its comment: the lines above it and behind it."""
    keyword, block, above = None, [], []
    for line in text.split("\n"):
        words, comment = tokens_of(line)
        behind = [comment] if comment is not None else []
        if not words:
            above = above + behind if behind or keyword else []
        elif keyword and words == [")"]:
            keyword, above = None, []
        elif keyword:
            yield [keyword, *words], "\n".join(above + behind or block)
            above = []
        elif words[1:] == ["("]:
            # (a comment behind the parenthesis is that of no directive)
            keyword, block, above = words[0], above, []
        else:
            yield words, "\n".join(above + behind)
            above = []


def tokens_of(line):
    """The words of a line, and its comment without its mark, or None."""
    words, comment = [], None
    for found in TOKEN.finditer(line):
        if found["comment"] is not None:
            comment = found["comment"][2:].strip()
        elif found["quoted"] is not None:
            words.append(re.sub(r"\\(.)", r"\1", found["quoted"]))
        elif found["space"] is None:
            words.append(found["raw"] if found["raw"] is not None else found[0])
    return words, comment


def message(text, default):
    """A message of a go.mod as the go command prints it: its first line, unless that is too long or shows nothing."""
    line = text.split("\n")[0].strip()
    if not line:
        return default
    if len(line.encode()) > MESSAGE_MOST:
        return "(message omitted: too long)"
    if not all(it.isprintable() or it.isspace() for it in line):
        return "(message omitted: contains non-printable characters)"
    return line
