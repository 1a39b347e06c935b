"""The list of modules, in pages that a browser shows at once, and the search over all of them."""
from catalog_lib.markup import HERE, Html, Place, cell, chip, code, count, date, html, link, number, row, table
from catalog_lib.text import shortened

# as many modules, and bytes of them, are on a page
ROWS_MOST, BYTES_MOST = 400, 220_000
SYNOPSIS_MOST = 120
HEADS = ("Module", "Latest", "Date", "#Versions", "Shelf")
SEARCH = """<form class="search" role="search" hidden>
<label for="search">Search paths, packages, what modules are for, and {}</label>
<input id="search" name="q" type="search" autocomplete="off" spellcheck="false" placeholder="Press / to search" \
aria-describedby="found">
<p id="found" role="status">{}</p>
</form>
<p id="unlisted" class="quiet" hidden>Here is what this shelf sees. Public modules are not listed, though the go \
command gets them; nor are modules of other teams, and those of the last minutes.</p>
<div id="results" class="wide" role="region" aria-labelledby="found" tabindex="0" hidden></div>
<script src="{}parts/search.js" type="module"></script>
"""


def pages_of(shelf):
    """The rows of all modules, page by page."""
    found, size = [[]], 0
    for module in shelf.modules.values():
        made = module.row
        size += len(made)
        if len(found[-1]) == ROWS_MOST or (size > BYTES_MOST and found[-1]):
            found.append([])
            size = len(made)
        found[-1].append(Html(made if len(found) > 1 else made.replace(BELOW, AT_TOP, 1)))
    return found


def file_of(number):
    """The file of a page of the list, by its number from 1. (No path has an element that begins with `!`.)"""
    return "index.html" if number == 1 else f"m/!{number}.html"


def root_of(number):
    """Where the first page is, seen from a page of the list."""
    return "" if number == 1 else "../"


def search(place, shelf, words):
    """The box that finds modules, by so many words of each README, or all for None. Without scripts it is not shown."""
    of_readmes = "READMEs" if words is None else f"the {count(words, 'rarest word')} of each README"
    return html(SEARCH, of_readmes, count(len(shelf.modules), "module"), place.root)


def listing(place, rows, here, pages):
    """A page of the list, and links to the others."""
    # (on the first page other tables stand above it)
    title = Html("<h2>All modules</h2>\n") if here == 1 else ""
    body = table("modules", HEADS, rows)
    return html('<div id="list">\n{}{}{}</div>\n', title, body, pager(place, here, pages) if pages > 1 else "")


def pager(place, here, pages):
    """Links to the pages of the list."""
    items = [
        html('<li><a href="{}{}"{}>{}</a></li>\n', place.root or "./", target(it), HERE if it == here else "", it)
        for it in range(1, pages + 1)
    ]
    return html('<nav class="pager" aria-label="Pages of the list"><ul>\n{}</ul></nav>\n', items)


def target(number):
    return "" if number == 1 else file_of(number)


# how the link of a row begins on a page below the first one, and on that
BELOW, AT_TOP = '<a href="../m/', '<a href="m/'


def module_row(shelf, module, names):
    """The row of a module, on a page below the first one: what it is for, and its latest version and when that was
    made."""
    words = module.told.get("synopsis", "")
    synopsis = html(' <span class="below" dir="auto">{}</span>', shortened(words, SYNOPSIS_MOST)) if words else ""
    remark = [" ", chip("deprecated")] if module.deprecated is not None else ""
    first = [link(Place(root_of(2), shelf.name), module.path), remark, synopsis]
    versions = number(module.count, "versions")
    if module.latest is None:
        none = Html('<span class="quiet">all retracted</span>')
        return row(first, cell(none), cell(""), versions, cell(""))
    taken = shelf.taken.get((module.shelf, module.path, module.latest))
    where = chip(module.shelf, names[module.shelf])
    return row(first, code(module.latest), cell(date(module.time or (taken and taken.time))), versions, cell(where))
