"""A README as HTML: a subset of Markdown, in which each letter of the file is escaped.

It knows headings, lists, quotes, code, tables, rules, emphasis and links. An image is its text. Tags of HTML that only
lay out a text are left out, and all others are shown.
"""
import re
from html import unescape

from catalog_lib.inline import inline
from catalog_lib.markup import Html, cell, html
from catalog_lib.text import shortened

# blocks in each other are read so deep, a table has as many columns, and the name of one on a phone as many letters
DEPTH_MOST, COLUMNS_MOST, NAME_MOST = 6, 30, 20
HEADING = re.compile(r" {0,3}(#{1,6})[ \t]+(.*)")
UNDERLINE = re.compile(r" {0,3}(?:=+|-+) *")
RULE = re.compile(r" {0,3}([*_-])(?: *\1){2,} *")
FENCE = re.compile(r" {0,3}(`{3,}|~{3,})[^`]*")
ITEM = re.compile(r" {0,3}([-*+]|[0-9]{1,9}[.)])(?: {1,4}|$)")
DASHES = re.compile(r"[ |:-]*-[ |:-]*")
DEFINITION = re.compile(r" {0,3}\[([^\[\]]{1,200})\]:[ \t]+<?([^\s<>]{1,1000})>?.*")
COMMENT = re.compile(r"<!--.*?(?:-->|\Z)", re.DOTALL)
# tags that only lay out a text, of one line
TAG = re.compile(
    r"</?(?:a|abbr|b|br|center|dd|details|div|dl|dt|em|font|h[1-6]|hr|i|img|kbd|li|ol|p|picture|small|source|span|"
    r"strong|sub|summary|sup|table|tbody|td|th|thead|tr|u|ul)(?:\s[^<>\n]{0,1000})?/?>",
    re.IGNORECASE,
)


def rendered(text):
    """The HTML of a README in Markdown."""
    text = COMMENT.sub("", text)
    lines, links = [], {}
    for line in text.split("\n"):
        defined = DEFINITION.fullmatch(line)
        if defined:
            links.setdefault(defined[1].lower(), defined[2])
        else:
            lines.append(line)
    return Blocks(links).all(lines)


def plain(text):
    """The HTML of a README that is no Markdown."""
    return html('<pre class="readme">{}</pre>\n', text)


class Blocks:
    """The blocks of a README. `links` has the URLs of the names that it defines."""

    def __init__(self, links):
        self.links = links

    def all(self, lines, depth=0):
        """The HTML of lines."""
        found, at = [], 0
        while at < len(lines):
            block, at = self.block(lines, at, depth)
            found.append(block)
        return found

    def block(self, lines, at, depth):
        """The block that begins in a line, and the line behind it."""
        line = lines[at]
        if not line.strip():
            return "", at + 1
        if FENCE.fullmatch(line):
            return fenced(lines, at)
        if line.startswith("    "):
            return indented(lines, at)
        if RULE.fullmatch(line):
            return Html("<hr>\n"), at + 1
        if heading := HEADING.fullmatch(line):
            return self.heading(len(heading[1]), heading[2].rstrip("# \t")), at + 1
        if depth < DEPTH_MOST and line.lstrip(" ").startswith(">"):
            return self.quote(lines, at, depth)
        if depth < DEPTH_MOST and ITEM.match(line):
            return self.list(lines, at, depth)
        if "|" in line and at + 1 < len(lines) and "|" in lines[at + 1] and DASHES.fullmatch(lines[at + 1]):
            return self.table(lines, at)
        return self.paragraph(lines, at, depth)

    def words(self, text):
        return inline(TAG.sub("", text), self.links)

    def heading(self, level, text):
        """A heading. (The page has a heading above those of the README.)"""
        tag = Html(f"h{min(level + 1, 6)}")
        return html("<{}>{}</{}>\n", tag, self.words(text), tag)

    def quote(self, lines, at, depth):
        end = next((it for it in range(at, len(lines)) if not lines[it].lstrip(" ").startswith(">")), len(lines))
        inner = [it.lstrip(" ")[1:].removeprefix(" ") for it in lines[at:end]]
        return html("<blockquote>\n{}</blockquote>\n", self.all(inner, depth + 1)), end

    def list(self, lines, at, depth):
        """A list: each item has the lines behind its mark and those that are indented below it."""
        is_ordered = ITEM.match(lines[at])[1][0].isdigit()
        items = []
        while at < len(lines):
            mark = ITEM.match(lines[at])
            if not mark or mark[1][0].isdigit() != is_ordered or RULE.fullmatch(lines[at]):
                break
            item, at = item_of(lines, at, mark)
            items.append(html("<li>{}</li>\n", self.item(item, depth + 1)))
        tag = Html("ol" if is_ordered else "ul")
        return html("<{}>\n{}</{}>\n", tag, items, tag), at

    def item(self, lines, depth):
        """What an item holds. One line is no paragraph of its own."""
        if len(lines) == 1:
            return self.words(lines[0])
        first = next((it for it, line in enumerate(lines) if not line.strip() or ITEM.match(line)), len(lines))
        return [self.words("\n".join(lines[:first])), "\n", self.all(lines[first:], depth)]

    def table(self, lines, at):
        """A table: its heads, and each row with as many cells."""
        heads = [self.words(it) for it in cells_of(lines[at])]
        end = next((it for it in range(at + 2, len(lines)) if "|" not in lines[it]), len(lines))
        top, names = [html('<th scope="col">{}</th>', it) for it in heads], [name_of(it) for it in heads]
        rows = [self.row(cells_of(it), names) for it in lines[at + 2 : end]]
        return html(TABLE, top, rows), end

    def row(self, cells, names):
        """A row, in which each cell that has a text has the name of its column too, for a phone."""
        cells = zip(cells + [""] * len(names), names)
        return html("<tr>{}</tr>\n", [cell(self.words(it), name if it else "") for it, name in cells])

    def paragraph(self, lines, at, depth):
        """A paragraph, or the heading that a line below it makes of it."""
        end = at + 1
        while end < len(lines) and not self.ends_paragraph(lines[end], depth):
            if UNDERLINE.fullmatch(lines[end]):
                level = 1 if "=" in lines[end] else 2
                return self.heading(level, " ".join(lines[at:end])), end + 1
            end += 1
        words = self.words("\n".join(it.strip() for it in lines[at:end]))
        return html("<p>{}</p>\n", words) if any(words) else "", end

    @staticmethod
    def ends_paragraph(line, depth):
        if UNDERLINE.fullmatch(line):
            return False
        forms = [HEADING, RULE, FENCE]
        begins = depth < DEPTH_MOST and (line.lstrip(" ").startswith(">") or ITEM.match(line))
        return not line.strip() or begins or any(it.fullmatch(line) for it in forms)


def name_of(head):
    """The text of the head of a column."""
    return shortened(unescape(re.sub("<[^<>]*>", "", html("{}", head))), NAME_MOST)


TABLE = """<div class="wide" role="region" aria-labelledby="readme" tabindex="0">
<table>
<thead><tr>{}</tr></thead>
<tbody>
{}</tbody>
</table>
</div>
"""


def fenced(lines, at):
    """Code between two fences, or up to the end."""
    fence = FENCE.fullmatch(lines[at])[1]
    end = at + 1
    while end < len(lines) and not lines[end].strip().startswith(fence):
        end += 1
    return code(lines[at + 1 : end]), end + 1


def indented(lines, at):
    """Code that is indented by four spaces."""
    end = at
    while end < len(lines) and (lines[end].startswith("    ") or not lines[end].strip()):
        end += 1
    return code([it[4:] for it in lines[at:end]]), end


def code(lines):
    return html('<pre tabindex="0"><code>{}</code></pre>\n', "\n".join(lines).strip("\n"))


def item_of(lines, at, mark):
    """The lines of an item without its mark, and the line behind it."""
    width = mark.end()
    found, at = [lines[at][width:]], at + 1
    while at < len(lines):
        line = lines[at]
        is_empty = not line.strip()
        inside = line[:width].isspace() and len(line) > width or len(line) - len(line.lstrip(" ")) >= 2 and line.strip()
        if not is_empty and not inside and (ITEM.match(line) or not found[-1] or HEADING.fullmatch(line)):
            break
        if is_empty and (at + 1 == len(lines) or not lines[at + 1].startswith("  ")):
            break
        found.append(line[width:] if line[:width].isspace() else line.lstrip(" "))
        at += 1
    while at < len(lines) and not lines[at].strip() and at + 1 < len(lines) and ITEM.match(lines[at + 1]):
        at += 1
    return found, at


def cells_of(line):
    """The cells of a line of a table."""
    inner = line.strip().removeprefix("|").removesuffix("|")
    return [it.strip().replace("\\|", "|") for it in re.split(r"(?<!\\)\|", inner)][:COLUMNS_MOST]
