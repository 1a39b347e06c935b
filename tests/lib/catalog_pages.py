"""Reads the pages that tools/catalog makes, as a browser or a screen reader finds its way in them."""

import os
from html.parser import HTMLParser
from typing import Any

EMPTY = {"meta", "link", "input", "wbr", "img", "br", "hr"}
# what a link to another host says, so that the host learns nothing
OUTWARD = "noopener noreferrer"


class Page(HTMLParser):
    """A page: its title, its headings, the rows of each table by the id of its heading, its links and what it loads."""

    def __init__(self, name: str) -> None:
        super().__init__()
        self.name, self.title = name, ""
        self.open: list[tuple[str, dict[str, Any]]] = []
        self.tags: list[tuple[str, dict[str, Any]]] = []
        self.tables: dict[str, list[list[str]]] = {}
        self.headings: list[list[str]] = []
        self.ids: list[str] = []
        self.links: list[str] = []
        self.outward: list[str] = []
        self.loads: list[str] = []
        self.scripts: list[str] = []
        self.table = ""
        # each text to copy, by its id
        self.pre: dict[Any, str] = {}
        with open(name, encoding="utf-8") as file:
            self.text = file.read()
        self.feed(self.text)
        self.close()
        assert not self.open, (name, self.open)

    def handle_starttag(self, tag, attrs):
        values = dict(attrs)
        self.tags.append((tag, values))
        if tag not in EMPTY and not (tag in ("path", "rect") and self.is_in("svg")):
            self.open.append((tag, values))
        if "id" in values:
            self.ids.append(values["id"])
        if tag == "pre":
            self.pre[values.get("id", len(self.pre))] = ""
        if tag == "a":
            is_outward = values.get("rel") == OUTWARD and values["href"].startswith(("https://", "http://"))
            (self.outward if is_outward else self.links).append(values["href"])
        if tag in ("link", "script", "img"):
            self.loads.append(values.get("href") or values.get("src"))
        if values.get("role") == "region":
            self.table = values["aria-labelledby"]
            self.tables[self.table] = []
        if tag == "tr":
            self.tables[self.table].append([])
        if tag in ("td", "th"):
            self.tables[self.table][-1].append("")
        if tag in ("h1", "h2"):
            self.headings.append([tag, ""])

    def handle_endtag(self, tag):
        if tag in EMPTY or (tag in ("path", "rect") and self.is_in("svg")):
            return
        found, _ = self.open.pop()
        assert found == tag, (self.name, found, tag)

    def is_in(self, *tags):
        return any(it in tags for it, _ in self.open)

    def handle_data(self, data):
        if self.is_in("td", "th"):
            self.tables[self.table][-1][-1] += data
        if self.is_in("h1", "h2"):
            self.headings[-1][1] += data
        if self.is_in("pre"):
            self.pre[[*self.pre][-1]] += data
        if self.is_in("title") and not self.is_in("svg"):
            self.title += data
        if self.is_in("script") and data.strip():
            self.scripts.append(data)

    def table_of(self, name: str) -> list[str]:
        """The rows of a table without its heads, each as its cells, joined by `|`."""
        return ["|".join(" ".join(it.split()) for it in row) for row in self.tables.get(name, [])[1:]]

    def target(self, link: str) -> tuple[str, str]:
        """The file to which a link leads, and the part of it."""
        name, _, part = link.partition("#")
        if not name:
            return self.name, part
        whole = os.path.join(os.path.dirname(self.name), name)
        return os.path.normpath(f"{whole}index.html" if name.endswith("/") else whole), part


def pages_in(folder: str) -> dict[str, Page]:
    """Each page below a folder, by its name there."""
    found = {}
    for at, _, names in os.walk(folder):
        for name in (it for it in names if it.endswith(".html")):
            whole = os.path.join(at, name)
            found[os.path.relpath(whole, folder)] = Page(whole)
    return found
