"""HTML whose every value is escaped, and the frame that all pages share."""
import html as escapes
import re
from collections import namedtuple
from functools import lru_cache

SPECIAL = re.compile("[&<>\"']")
# where a page stands, and what its header says
Place = namedtuple("Place", "root shelf")


class Html(str):
    """A text that is HTML already. Any other value is escaped where it is put in."""


def escaped(value):
    """A value as HTML: an Html as it is, a list or tuple as its values one after another, any other as its text."""
    kind = type(value)
    if kind is Html:
        return value
    if kind is str:
        return escapes.escape(value) if SPECIAL.search(value) else value
    if kind is list or kind is tuple:
        return "".join([it if type(it) is Html else escaped(it) for it in value])
    return escaped(str(value))


def html(template, *values):
    """The template with the values in the places of its `{}`."""
    return Html(template.format(*[it if type(it) is Html else escaped(it) for it in values]))


FRAME = """<!DOCTYPE html>
<html lang="en">
<head>
<meta charset="utf-8">
<meta name="viewport" content="width=device-width, initial-scale=1">
<meta name="color-scheme" content="light dark">
<title>{}</title>
<link rel="icon" href="{}parts/icon.svg" type="image/svg+xml">
<link rel="stylesheet" href="{}parts/catalog.css">
<link rel="stylesheet" href="{}parts/prose.css">
<link rel="stylesheet" href="{}parts/narrow.css">
<link rel="stylesheet" href="{}parts/made.css">
<script src="{}parts/catalog.js" defer></script>
</head>
<body>
<a class="skip" href="#main">Skip to the content</a>
<header>
<nav aria-label="Catalog">
<a class="brand" href="{}">{}</a>
<ul>
<li><a href="{}"{}>Modules</a></li>
<li><a class="findings" href="{}health/"{}>Health</a></li>
</ul>
</nav>
</header>
<main id="main" tabindex="-1">
{}
</main>
<footer>
<p class="made">What the shelf <b>{}</b> sees. Dates are UTC.</p>
</footer>
</body>
</html>
"""
HERE = Html(' aria-current="page"')


def page(place, title, main, here=""):
    """A whole page. `here` is `modules` or `health` if the page is the one of that name in its header."""
    root, top = place.root, place.root or "./"
    on_modules, on_health = (HERE if here == it else "" for it in ("modules", "health"))
    # (how many findings there are stands in the style that all pages share: `stamped` of folder.py)
    links = top, place.shelf, top, on_modules, root, on_health
    return html(FRAME, title, *[root] * 6, *links, main, place.shelf).encode()


# the pages of a module by their files, and what their links say
TABS = (
    ("index.html", "Overview"),
    ("readme.html", "README"),
    ("packages.html", "Packages"),
    ("files.html", "Files"),
    ("versions.html", "Versions"),
)


def module_folder(path):
    """The folder of a module's pages. No two paths have the same, and no element of one is one of these pages."""
    if ".html" not in path:
        return path
    names = {name for name, _ in TABS}
    return "/".join(f"!{it}" if it in names else it for it in path.split("/"))


def link(place, path):
    """A link to the page of a module that the shelf sees."""
    return link_from(place.root, path)


@lru_cache(maxsize=16_384)
def link_from(root, path):
    return html('<a href="{}m/{}/">{}</a>', root, module_folder(path), broken(path))


@lru_cache(maxsize=16_384)
def broken(path):
    """A path that may be broken behind each slash."""
    return Html(escaped(path).replace("/", "/<wbr>"))


def gomod_link(place, path, version):
    """A link to a go.mod, which goshelf serves on the same host."""
    return gomod_link_from(place.root, path, version)


@lru_cache(maxsize=256)
def gomod_link_from(root, path, version):
    words = html('go.mod<span class="unseen"> of {}</span>', version)
    return html('<a href="{}{}/@v/{}.mod">{}</a>', root, cased(path), cased(version), words)


def zip_link(place, line):
    """A link to a zip, which goshelf serves on the same host."""
    words = html('zip<span class="unseen"> of {}</span>', line.version)
    return html('<a href="{}{}/@v/{}.zip">{}</a>', place.root, cased(line.path), cased(line.version), words)


CAPITAL = re.compile("[A-Z]")


@lru_cache(maxsize=256)
def cased(text):
    """A path or a version as URLs of goshelf have it: with `!` and the small letter for each capital."""
    return CAPITAL.sub(lambda it: f"%21{it[0].lower()}", text.replace("!", "%21"))


@lru_cache(maxsize=1_024)
def date(time):
    if time is None:
        return Html('<span class="quiet">no time</span>')
    return html('<time datetime="{}">{}</time>', time, time[:10])


@lru_cache(maxsize=4_096)
def size(count):
    """A number of bytes, as people read it."""
    units = ((1 << 20, "MiB"), (1 << 10, "KiB"))
    told = next((f"{count / unit:.1f} {name}" for unit, name in units if count >= unit), f"{count} B")
    return html('<span title="{} bytes">{}</span>', f"{count:,}", told)


@lru_cache(maxsize=1_024)
def chip(word, text=None):
    """A short word about a row. Its class is the word."""
    return html('<span class="chip {}">{}</span>', word, text or word)


TABLE = """<div class="wide" role="region" aria-labelledby="{}" tabindex="0">
<table>
<thead><tr>{}</tr></thead>
<tbody>
{}</tbody>
</table>
</div>
"""
NUMBER = Html(' class="number"')


def table(name, heads, rows):
    """A table that may be wider than a phone. `name` is the id of its heading; a `#` marks the head of numbers."""
    return html(TABLE, name, heads_of(heads), rows)


@lru_cache(maxsize=64)
def heads_of(names):
    """The heads of a table."""
    heads = [html('<th scope="col"{}>{}</th>', NUMBER if it.startswith("#") else "", it.lstrip("#")) for it in names]
    return Html("".join(heads))


def count(number, one, many=None):
    """`1 module`, `2 modules`."""
    return f"{number:,} {one if number == 1 else many or one + 's'}"


def row(first, *cells):
    cells = "".join([it if type(it) is Html else escaped(it) for it in cells])
    return Html(f'<tr><th scope="row">{first if type(first) is Html else escaped(first)}</th>{cells}</tr>\n')


def cell(value, word=""):
    """A cell. On a phone, which shows no heads, `word` says what its value is."""
    return Html(f"<td{labelled(word)}>{value if type(value) is Html else escaped(value)}</td>")


def code(value, word=""):
    return (
        code_of(value, word) if type(value) is str else Html(f'<td class="code"{labelled(word)}>{escaped(value)}</td>')
    )


@lru_cache(maxsize=4_096)
def code_of(text, word):
    return html('<td class="code"{}>{}</td>', labelled(word), text)


def number(value, word=""):
    return html('<td class="number"{}>{}</td>', labelled(word), f"{value:,}")


@lru_cache(maxsize=64)
def labelled(word):
    return html(' data-is="{}"', word) if word else Html("")


def section(name, title, body):
    return html('<section aria-labelledby="{}">\n<h2 id="{}">{}</h2>\n{}</section>\n', name, name, title, body)


def linked(place, shelf, path):
    """A path, as a link if the shelf sees the module."""
    return link(place, path) if path in shelf.modules else broken(path)
