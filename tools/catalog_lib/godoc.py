"""What the files of a Go package say of it: its name and its comment, as `go doc` reads them."""
import re

# the tokens that may stand before a package clause, and the clause
HEAD = re.compile(r"[ \t\r;]+|\n|//[^\n]*|/\*.*?\*/|package[ \t\r\n]+(?P<name>[^\W\d]\w*)", re.DOTALL)
# a comment that is for tools, as //go:build, which is no part of what people read
DIRECTIVE = re.compile(r"//(?:line |extern |export |[a-z0-9]+:[a-z0-9])")
# as many comments and ends of lines are read before a package clause
TOKENS_MOST = 20_000
# words with which a comment begins that says nothing of its package
LEGAL = ("copyright", "all rights", "author")


def package_of(text):
    """The name and the comment of the package of a Go file, or None if its head holds no package clause."""
    text = text.removeprefix("\ufeff")
    comments, at, ends = [], 0, 0
    for _ in range(TOKENS_MOST):
        found = HEAD.match(text, at)
        if not found:
            return None
        token, at = found[0], found.end()
        if found["name"]:
            # (a comment that ends in the line above, or in that of the clause itself, is that of the package)
            return found["name"], comment_of(comments) if ends < 2 else ""
        if token == "\n":
            ends += 1
        elif token.startswith("/"):
            comments, ends = [*comments, token] if ends < 2 else [token], 0
    return None


def comment_of(comments):
    """The text of comments that stand below one another, without their marks, and with the quotes of `go doc`."""
    lines = []
    for comment in comments:
        if comment.startswith("/*"):
            lines += comment[2:-2].split("\n")
        elif not DIRECTIVE.match(comment):
            lines.append(comment[2:].removeprefix(" "))
    lines = [it.rstrip() for it in lines]
    kept = [it for it, before in zip(lines, ["", *lines]) if it or before]
    return "\n".join(kept).rstrip("\n").replace("``", "“").replace("''", "”")


def first_sentence(text):
    """The first sentence of a comment, in a line, or nothing if it is a legal notice."""
    paragraph = " ".join(text.strip("\n").split("\n\n")[0].split())
    found = re.search(r"(?<!\b[^\W\d_])\.(?= )|[。．]", paragraph)
    sentence = paragraph[: found.end()] if found else paragraph
    return "" if sentence.lower().startswith(LEGAL) else sentence


def blocks(text):
    """Yields the parts of a comment, each as its kind and its lines: `heading`, `list`, `code` or `text`."""
    for part in parts_of(text.split("\n")):
        lines = part.split("\n")
        if all(it[:1] in (" ", "\t") for it in lines if it):
            is_list = ITEM.match(lines[0])
            yield ("list", items_of(lines)) if is_list else ("code", unindented(lines))
        elif len(lines) == 1 and re.match("# .", part):
            yield "heading", [part[2:].strip()]
        else:
            yield "text", lines


ITEM = re.compile(r"[ \t]+(?:[-*+•]|[0-9]+[.)])[ \t]")


def parts_of(lines):
    """Yields the parts of a comment: an empty line ends a paragraph, and lines that are indented are one part."""
    part, indented = [], False
    for line in [*lines, ""]:
        is_indented = line[:1] in (" ", "\t") if line else None
        ends = not line and not indented or line and part and is_indented != indented
        if ends and part:
            yield "\n".join(part).strip("\n")
            part = []
        if line or part:
            part.append(line)
        indented = indented if is_indented is None else is_indented
    if "".join(part):
        yield "\n".join(part).strip("\n")


def items_of(lines):
    """The items of a list, each in a line."""
    found = []
    for line in filter(None, lines):
        mark = ITEM.match(line)
        if mark:
            found.append(line[mark.end() :].strip())
        else:
            found[-1] += " " + line.strip()
    return found


def unindented(lines):
    """Lines of code without the indentation that they share."""
    prefix = None
    for line in filter(None, lines):
        own = line[: len(line) - len(line.lstrip(" \t"))]
        prefix = own if prefix is None else shared(prefix, own)
    return [it.removeprefix(prefix or "") for it in lines]


def shared(one, other):
    """What two texts begin with alike."""
    count = next((at for at, (a, b) in enumerate(zip(one, other)) if a != b), min(len(one), len(other)))
    return one[:count]
