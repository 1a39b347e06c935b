"""The page of a module's versions: how to get each, and what changed against the one before."""
import re

from catalog_lib.lines import is_before, kind
from catalog_lib.markup import (
    Html,
    broken,
    chip,
    code,
    count,
    gomod_link,
    html,
    linked,
    row,
    section,
    size,
    table,
)
from catalog_lib.markup import zip_link
from catalog_lib.setup import COPIED
from catalog_lib.taken import when

# so many versions are on the page, the highest first, and so many files are named of each
VERSIONS_MOST, FILES_MOST = 50, 100
# a path in a go.mod
WORD = re.compile(r"[A-Za-z0-9._~/-]+")


def versions_page(place, shelf, module, lines, read, reasons):
    """The versions, the highest first. `read` returns what was read of a version, and `reasons` has why some are
    retracted."""
    told = [
        version_section(place, shelf, it, before_of(at, lines), read, reasons.get(it.version))
        for at, it in enumerate(lines[:VERSIONS_MOST])
    ]
    rest = len(lines) - VERSIONS_MOST
    more = html('<p>Of {} older ones the <a href="./#versions">list of versions</a> tells.</p>\n', f"{rest:,}")
    return [ABSENT, told, more if rest > 0 else ""]


FIRST = "<p>The first {} on this shelf.</p>\n"
# (catalog.js shows it where a link, such as one of the search, names a version that is not on the page)
ABSENT = Html('<p id="absent" class="notice" hidden>The version that was asked for is not on this page.</p>\n')


def before_of(at, lines):
    """The version before one of these, or None if it is the first."""
    return next((it for it in lines[at + 1 :] if is_before(it, lines[at])), None)


def version_section(place, shelf, line, before, read, reason):
    """The section of a version. `reason` is why it is retracted, or None."""
    marks = [[" ", chip(it)] for it, holds in (("latest", line.is_latest), ("retracted", line.is_retracted)) if holds]
    facts = [when(line.time, shelf.taken_at(line)), html(" · Go {}", line.go) if line.go else ""]
    facts += [" · ", zip_link(place, line), " "]
    facts += [size(line.size), " · ", gomod_link(place, line.path, line.version)]
    found = read(line.version)
    body = [html('<p class="facts">{}</p>\n', facts)]
    if reason:
        body.append(html('<p>Retracted: <span dir="auto">{}</span></p>\n', reason))
    name = f"get-{line.version}"
    body.append(html(COPIED, name, f"go get {line.path}@{line.version}", name))
    if before:
        body.append(html("<h3>Changed since {}</h3>\n", before.version))
        body.append(changes(place, shelf, line, before, found, read(before.version)))
    else:
        body.append(html(FIRST, "release" if kind(line.version) == "release" else "version"))
    if found.get("gomod"):
        body.append(gomod_of(place, shelf, line, found["gomod"]))
    return section(line.version, [line.version, marks], body)


def changes(place, shelf, line, before, found, earlier):
    """What changed from a version to the next: what is required, Go, and the files."""
    told = []
    if line.go != before.go:
        told.append(html("<p>Go {} in place of {}.</p>\n", line.go or "unnamed", before.go or "unnamed"))
    if rows := required_rows(place, shelf, dict(line.requires), dict(before.requires)):
        told.append(table(line.version, ("Requires", "Now", "Before"), rows))
    if "files" in found and "files" in earlier and "bad" not in found and "bad" not in earlier:
        return [told, files_changed(found["files"], earlier["files"])]
    return [told or NOTHING, NOT_COMPARED]


NOTHING = Html("<p>Nothing that is required.</p>\n")
NOT_COMPARED = Html('<p class="quiet">Files are not compared: these pages read few zips of older versions.</p>\n')


def required_rows(place, shelf, now, before):
    """A row for each path of which another version is required than before."""
    paths = [it for it in sorted({*now, *before}) if now.get(it) != before.get(it)]
    return [
        row(linked(place, shelf, it), code(now.get(it, "–"), "now"), code(before.get(it, "–"), "before"))
        for it in paths
    ]


def files_changed(now, before):
    """The files that are new, gone, or have other content: their names, up to a number."""
    now, before = ({name: tuple(rest) for name, *rest in it} for it in (now, before))
    kinds = (
        ("new", sorted(now.keys() - before.keys())),
        ("gone", sorted(before.keys() - now.keys())),
        ("changed", sorted(it for it in now.keys() & before.keys() if now[it] != before[it])),
    )
    if not any(them for _, them in kinds):
        return Html("<p>No file.</p>\n")
    return [files_of(word, them) for word, them in kinds if them]


def files_of(word, names):
    items = [html("<li>{}</li>\n", broken(it)) for it in names[:FILES_MOST]]
    rest = html("<li>and {} more</li>\n", f"{len(names) - FILES_MOST:,}") if len(names) > FILES_MOST else ""
    head = html("<summary>{} {}</summary>\n", count(len(names), "file"), word)
    is_open = Html(" open" if len(names) <= 20 else "")
    return html('<details class="files"{}>{}<ul>\n{}{}</ul>\n</details>\n', is_open, head, items, rest)


def gomod_of(place, shelf, line, text):
    """The go.mod, in which each path of a module that the shelf sees is a link."""
    found, at = [], 0
    for word in WORD.finditer(text):
        if word[0] in shelf.modules and word[0] != line.path:
            found += [text[at : word.start()], linked(place, shelf, word[0])]
            at = word.end()
    body = html('<pre tabindex="0"><code>{}</code></pre>\n', [*found, text[at:]])
    return html("<details><summary>go.mod</summary>\n{}</details>\n", body)
