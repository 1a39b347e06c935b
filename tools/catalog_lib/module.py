"""The page of a module: what it is, what it requires, who uses it, and its versions."""
import re
from functools import lru_cache
from itertools import groupby

from catalog_lib import changes, checks, documents, gomod
from catalog_lib.graph import MOST, graph
from catalog_lib.lines import kind
from catalog_lib.markup import (
    HERE,
    TABS,
    Html,
    broken,
    cell,
    chip,
    code,
    date,
    gomod_link,
    html,
    link,
    linked,
    module_folder,
    page,
    row,
    section,
    size,
    table,
)
from catalog_lib.setup import box
from catalog_lib.taken import published, when

STATES = {
    "behind": "behind the latest",
    "retracted": "retracted",
    "missing": "not on this shelf",
}


# what each page of a module is made of: the zip of its latest version, its versions and which modules are there, or
# also what is to be said of these modules
MADE_OF = {"readme.html": 0, "packages.html": 0, "files.html": 0, "versions.html": 1, "index.html": 2}


def folder_of(module):
    """Returns the folder of a module's pages."""
    return f"m/{module_folder(module.path)}"


def files_of(module):
    """Returns the names of the files of a module's pages."""
    told = module.told
    are_there = {
        "index.html": True,
        "readme.html": told.get("has_readme"),
        "packages.html": told.get("packages"),
        "files.html": told.get("has_files"),
        "versions.html": module.about,
    }
    return [name for name, is_there in are_there.items() if is_there]


def module_pages(place, shelf, module, names, read, files):
    """Yields the pages of a module: the name of the file of each, and its content. `read` returns what was read of a
    version, and `files` are those that are made."""
    shown = module.latest or module.highest
    bodies = {
        "index.html": lambda: overview(place, shelf, module, names, reasons_of(module, read)),
        "readme.html": lambda: documents.readme_of(read(shown)),
        "packages.html": lambda: documents.packages_of(module.path, shown, read(shown)),
        "files.html": lambda: documents.files_of(read(shown)),
        "versions.html": lambda: versions_of(place, shelf, module, read),
    }
    tabs = tuple((name, words) for name, words in TABS if name in files_of(module))
    for name, words in tabs:
        if name in files:
            title = module.path if name == "index.html" else f"{module.path}: {words}"
            yield name, page(place, f"{title} · {shelf.name}", [head(module, tabs, name), bodies[name]()])


def versions_of(place, shelf, module, read):
    """The page of a module's versions."""
    return changes.versions_page(place, shelf, module, shelf.lines(module)[::-1], read, reasons_of(module, read))


def head(module, tabs, here):
    """What all pages of a module begin with."""
    told = module.told
    synopsis = html('<p class="synopsis" dir="auto">{}</p>\n', told["synopsis"]) if told.get("synopsis") else ""
    return [html("<h1>{}</h1>\n", broken(module.path)), synopsis, notices(told), links_of(tabs, here)]


@lru_cache(maxsize=256)
def links_of(tabs, here):
    """Links to the pages of a module, if they are several."""
    items = [
        html('<li><a href="{}"{}>{}</a></li>\n', "./" if it == "index.html" else it, HERE if it == here else "", words)
        for it, words in tabs
    ]
    return html('<nav class="tabs" aria-label="Of this module"><ul>\n{}</ul></nav>\n', items) if len(tabs) > 1 else ""


NOTICE = '<p class="notice" dir="auto">{}</p>\n'


def notices(told):
    """What a reader is warned of."""
    found = []
    if "deprecated" in told:
        found.append(html("<b>Deprecated:</b> {}", told["deprecated"]))
    if "bad" in told:
        found.append(checks.UNUSABLE.format(told["bad"]))
    if "differs" in told:
        found.append(checks.DIFFERS)
    return [html(NOTICE, it) for it in found]


def reasons_of(module, read):
    """Why versions are retracted, by the go.mod of the highest: of each the first reason, as the go command says it."""
    if not module.retracted:
        return {}
    ruling = gomod.read(read(module.highest).get("gomod", ""))
    found = {
        it: [why for why in ruling.reasons_of(it) if why]
        for it, is_retracted in module.versions.items()
        if is_retracted
    }
    return {it: gomod.message(whys[0], "") for it, whys in found.items() if whys}


def overview(place, shelf, module, names, reasons):
    """The first page of a module: what it is, what it requires, who uses it, and its versions."""
    lines = shelf.lines(module)[::-1]
    shown = next((it for it in lines if it.is_latest), lines[0])
    users = shelf.users_of(module.path)
    parts = (
        ("requires", "Requires", len(shown.requires), requires(place, shelf, shown)),
        ("users", "Used by", len({it.module.path for it in users}), used_by(place, shelf, module, users)),
        ("versions", "Versions", len(lines), versions(place, shelf, module, lines, names, reasons)),
    )
    jumps = [
        html('<li><a href="#{}">{} <span class="count">{}</span></a></li>\n', it, name, f"{number:,}")
        for it, name, number, _ in parts
    ]
    return [
        about(place, shelf, module, shown, names),
        box(place, shelf, module, names),
        html('<nav class="jumps" aria-label="On this page"><ul>\n{}</ul></nav>\n', jumps),
        [section(it, name, body) for it, name, _, body in parts],
    ]


def about(place, shelf, module, shown, names):
    """What a module is at its latest version, and how to get it."""
    if module.latest is None:
        return Html('<p class="facts">All versions are retracted, so there is no latest version.</p>\n')
    facts = [html('<b class="code">{}</b> ', shown.version), when(shown.time, shelf.taken_at(shown))]
    if shown.go:
        facts.append(html(" · Go {}", shown.go))
    if licence := module.told.get("licence"):
        name = licence[1] or ["see ", licence[0]]
        facts.append(html(' · licence <span title="by the file {}">{}</span>', licence[0], name))
    command = module.told.get("command")
    get = f"go get {module.path}" if command is None else f"go install {f'{module.path}/{command}'.rstrip('/')}"
    where = chip(shown.shelf, names[shown.shelf])
    return [
        html('<p class="facts">{} {}</p>\n{}{}', facts, where, majors(place, shelf, module), repository(module.path)),
        html(
            (
                '<div class="get"><pre id="get" tabindex="0"><code>{}</code></pre>\n'
                '<button type="button" class="copy" data-from="get" hidden>Copy</button></div>\n'
            ),
            f"{get}@{shown.version}",
        ),
    ]


def majors(place, shelf, module):
    """Links to the other major versions of a module, which are modules of their own."""
    links = [[", " if at else "", link(place, it)] for at, it in enumerate(shelf.majors_of(module.path))]
    return html('<p class="facts">Other major versions: {}</p>\n', links) if links else ""


# hosts whose paths name a repository by two elements
HOSTS = ("github.com", "gitlab.com", "bitbucket.org", "codeberg.org")


def repository(path):
    """A link to where a path says that its module is from. Nothing tells whether it is there."""
    host, *rest = path.split("/")
    if "." not in host:
        return ""
    short = "/".join([host, *rest[:2]]) if host in HOSTS else re.sub("/v[0-9]+$", "", path)
    url = f"https://{short}"
    return html(
        '<p class="facts">Its repository, if its path leads to it: <a href="{}" rel="noopener noreferrer">{}</a></p>\n',
        url,
        broken(url),
    )


def requires(place, shelf, shown):
    """What the latest version requires."""
    told = html("<p>{} of {}</p>\n", gomod_link(place, shown.path, shown.version), shown.version)
    if not shown.requires:
        return html("<p>Nothing. See its {}.</p>\n", gomod_link(place, shown.path, shown.version))
    rows = [required_row(place, shelf, *it) for it in shown.requires]
    return [told, table("requires", ("Module", "Version", "Remark"), rows)]


def required_row(place, shelf, path, version):
    remarks = [remark(shelf, path, shelf.state(path, version))]
    if is_deprecated(shelf, path):
        remarks += [" ", chip("deprecated")]
    return row(linked(place, shelf, path), code(version), cell(remarks))


def remark(shelf, path, state):
    """What is to be said of a required version."""
    if not state:
        return ""
    text = f"behind {shelf.modules[path].latest}" if state == "behind" else STATES[state]
    return chip(state, text)


def is_deprecated(shelf, path):
    """Whether the go.mod of a module's latest version says that the module is deprecated."""
    return path in shelf.modules and shelf.modules[path].deprecated is not None


def used_by(place, shelf, module, users):
    """Who requires the module: a graph if there are few, and a table."""
    if not users:
        return Html("<p>No module that this shelf sees requires it.</p>\n")
    states = [shelf.state(module.path, it.required) for it in users]
    groups = [list(it) for _, it in groupby(zip(users, states), key=lambda it: it[0].module.path)]
    heights = [len(group) if it is group[0] else 0 for group in groups for it in group]
    rows = [user_row(place, shelf, module, *it) for it in zip(users, states, heights)]
    firsts = [(it.module.path, it.version, it.required, state) for (it, state), *_ in groups]
    drawn = graph(place, module, firsts) if len(groups) < MOST else ""
    return [drawn, table("users", ("Module", "Its version", "Requires", "Remark"), rows)]


def user_row(place, shelf, module, user, state, height):
    """The row of a user; the first of `height` rows names it."""
    span = f' rowspan="{height}"' if height > 1 else ""
    name = f'<th scope="row"{span}>{link(place, user.module.path)}</th>' if height else ""
    is_latest = f" {chip('latest')}" if user.version == user.module.latest else ""
    others = f' <span class="quiet">and {user.others:,} older</span>' if user.others else ""
    requires = f"{code(user.required, 'requires')}<td>{remark(shelf, module.path, state)}</td>"
    return Html(f"<tr>{name}<td>{in_code(user.version)}{is_latest}{others}</td>{requires}</tr>\n")


@lru_cache(maxsize=4_096)
def in_code(text):
    return html('<span class="code">{}</span>', text)


def versions(place, shelf, module, lines, names, reasons):
    """The versions, the highest first. `reasons` has why some are retracted."""
    told = changes.VERSIONS_MOST if module.about else 0
    rows = [version_row(place, shelf, it, names, reasons.get(it.version), at < told) for at, it in enumerate(lines)]
    dates = ("Own date", "Published") if shelf.taken else ("Date",)
    return table("versions", ("Version", "Remark", *dates, "#Zip", "Go", "Shelf", "go.mod"), rows)


def version_row(place, shelf, line, names, reason, is_told):
    """The row of a version. If the page of versions tells of it, it leads there."""
    words = [it for it, holds in (("latest", line.is_latest), ("retracted", line.is_retracted)) if holds]
    if kind(line.version) != "release":
        words.append(kind(line.version))
    remarks = [[chip(it), " "] for it in words]
    if reason:
        remarks.append(html('<span class="quiet" dir="auto">{}</span>', reason))
    length = html('<td class="number">{}</td>', size(line.size))
    where = chip(line.shelf, names[line.shelf])
    taken = shelf.taken_at(line)
    dates = [cell(date(line.time), "own date" if taken else "") if line.time or not taken else cell("")]
    if shelf.taken:
        dates.append(cell(published(taken), "published" if taken else ""))
    go = cell(line.go or "", "Go" if line.go else "")
    gomod = gomod_link(place, line.path, line.version)
    name = html('<a href="versions.html#{}">{}</a>', line.version, line.version) if is_told else line.version
    return row(name, cell(remarks), *dates, length, go, cell(where), cell(gomod))
