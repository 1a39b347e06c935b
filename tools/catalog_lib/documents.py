"""What a module says of itself: the pages of its README, of its packages and of its files."""
import re

from catalog_lib import godoc, readme
from catalog_lib.inline import BEHIND, outward
from catalog_lib.markup import Html, broken, chip, count, html, row, section, size, table

# as many rows has the table of files
FILES_SHOWN = 2_000
URL = re.compile(r"\bhttps?://[^\s<>\"']{1,1000}")


def readme_of(found):
    """The README, as HTML of the form that its name says."""
    name, text = found["readme"]
    is_markdown = name.lower().endswith((".md", ".markdown"))
    body = readme.rendered(text) if is_markdown else readme.plain(text)
    rest = Html('<p class="quiet">This is its beginning. The rest is in the zip.</p>\n') if found.get("is_cut") else ""
    return html('<h2 id="readme">{}</h2>\n<div class="prose" dir="auto">\n{}</div>\n{}', name, body, rest)


def packages_of(path, version, found):
    """The packages of a version: a table of them, and the comment of each."""
    rows = [package_row(path, *it) for it in found["packages"]]
    title = '<h2 id="packages">{}</h2>\n'
    told = [html(title, count(len(rows), "package")), table("packages", ("Package", "What it is for"), rows)]
    return [*told, *(package_section(path, version, *it) for it in found["packages"])]


def package_row(path, folder, name, doc):
    link = html('<a href="#{}">{}</a>', anchor(folder), broken(folder or path))
    kinds = [chip("command")] if name == "main" else []
    kinds += [chip("internal")] if "internal" in folder.split("/") else []
    remarks = [[it, " "] for it in kinds]
    return row(link, html('<td dir="auto">{}{}</td>', remarks, godoc.first_sentence(doc)))


def anchor(folder):
    """The id of the section of a package."""
    return f"pkg/{folder}".rstrip("/")


def package_section(path, version, folder, name, doc):
    """The section of a package: how it is imported or run, and its comment."""
    whole = f"{path}/{folder}".rstrip("/")
    how = f"go run {whole}@{version}" if name == "main" else f'import "{whole}"'
    body = html('<pre tabindex="0"><code>{}</code></pre>\n', how)
    text = [block(*it) for it in godoc.blocks(doc)] if doc else Html('<p class="quiet">It has no comment.</p>\n')
    return section(
        anchor(folder), broken(folder or path), [body, html('<div class="prose" dir="auto">\n{}</div>\n', text)]
    )


def block(kind, lines):
    """A part of a package's comment, as HTML."""
    if kind == "heading":
        return html("<h3>{}</h3>\n", lines[0])
    if kind == "code":
        return html('<pre tabindex="0"><code>{}</code></pre>\n', "\n".join(lines))
    if kind == "list":
        return html("<ul>\n{}</ul>\n", [html("<li>{}</li>\n", linked(it)) for it in lines])
    return html("<p>{}</p>\n", linked("\n".join(lines)))


def linked(text):
    """A text whose URLs are links."""
    found, at = [], 0
    for part in URL.finditer(text):
        url = part[0].rstrip(BEHIND)
        found += [text[at : part.start()], outward(url, url)]
        at = part.start() + len(url)
    return [*found, text[at:]]


def files_of(found):
    """The files of the zip, by their names."""
    files = found["files"]
    rows = [
        row(broken(name), html('<td class="number">{}</td>', size(length))) for name, length, _ in files[:FILES_SHOWN]
    ]
    total = html("{}, {}", count(len(files), "file"), size(sum(length for _, length, _ in files)))
    rest = html("<p>The zip has {} more.</p>\n", f"{len(files) - FILES_SHOWN:,}") if len(files) > FILES_SHOWN else ""
    return [html('<h2 id="files">{}</h2>\n', total), table("files", ("File", "#Size"), rows), rest]
