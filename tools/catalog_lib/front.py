"""The first page of a shelf: its modules."""
from catalog_lib.listing import file_of, listing, pages_of, root_of, search
from catalog_lib.markup import Html, cell, code, count, html, link, number, page, row, section, table
from catalog_lib.setup import box
from catalog_lib.taken import by, minute

# how many modules `fresh` shows
MOST = 10
NOTHING = Html("<p>Nothing is published here yet.</p>\n")


def shelf_pages(place, shelf, words):
    """Yields the pages of all modules, each with its file. The first one has what they share, and the search, which
    knows so many words of a README, or all for None."""
    pages = pages_of(shelf)
    for at, rows in enumerate(pages, 1):
        here = place(root_of(at))
        shown = listing(here, rows, at, len(pages)) if rows else NOTHING
        main = [head(shelf), *(first(here, shelf, words) if at == 1 else []), shown]
        title = f"{shelf.name}: modules" + (f", page {at}" if at > 1 else "")
        yield file_of(at), page(here, title, main, "modules")


def head(shelf):
    told = [count(len(shelf.modules), "module"), count(shelf.version_count, "version")]
    if shelf.retracted_count:
        told.append(f"{shelf.retracted_count:,} retracted")
    facts = " · ".join(told)
    return html('<h1 id="modules">Modules of {}</h1>\n<p class="facts">{}</p>\n', shelf.name, facts)


def first(place, shelf, words):
    """What the first page has above the list."""
    return [search(place, shelf, words) if shelf.modules else "", box(place, shelf), fresh(place, shelf)]


def fresh(place, shelf):
    """The versions that goshelf took this week, a row for each module. Without a log of publishes nothing is known."""
    found = shelf.fresh()
    rows = [
        row(
            link(place, it.path),
            code(them[0][1]),
            cell([minute(them[0][0]), " ", by(them[0][2])]),
            number(len(them), "versions"),
        )
        for it, them in found[:MOST]
    ]
    if not rows:
        return ""
    more = html('<p><a href="health/#changed">{} more, and those of 30 days</a></p>\n', f"{len(found) - MOST:,}")
    shown = table("fresh", ("Module", "Newest version", "Published", "#Versions"), rows)
    return section("fresh", "New this week", [shown, more if len(found) > MOST else ""])
