"""The page of what needs attention on a shelf, and of what changed."""
from catalog_lib import checks
from catalog_lib.markup import Html, cell, code, count, date, html, link, linked, number, page, row, section, table
from catalog_lib.setup import unbroken
from catalog_lib.taken import by


REQUIRED = ("Module", "Latest", "Requires", "Version")
# the findings of the health page: the name of each, its title, what to do, and the heads of its table
FINDINGS = (
    ("retracted", "Requires a retracted version", "Require a version that is not retracted.", REQUIRED),
    (
        "missing",
        "Requires a version that is not on this shelf",
        "Publish it to a shelf that this one sees, or require another.",
        REQUIRED,
    ),
    (
        "differing",
        "The same version with other content on two shelves",
        "Publish the next version to one shelf only. Compared are go.mod, time and the zip's size.",
        ("Module", "Version", "Here", "And on"),
    ),
    (
        "latest",
        "Another latest version on a shelf above",
        "Who does not see this shelf gets the other one. Publish the next version to that shelf.",
        ("Module", "Latest here", "From", "Latest there", "On", "Why not here"),
    ),
    (
        "retired",
        "All versions are retracted",
        "Publish a version that is not retracted: @latest is a 404.",
        ("Module", "#Versions"),
    ),
    (
        "unreleased",
        "No release",
        "Tag a release: users get a pre-release or a pseudo-version.",
        ("Module", "Latest", "Has only"),
    ),
)


def found_in(shelf, module):
    """What is found in a module: rows behind its name, by the name of the finding."""
    found = checks.found_in(shelf, module)
    for path, version in module.requires:
        state = shelf.state(path, version)
        if state in ("retracted", "missing"):
            found.setdefault(state, []).append((path, version))
    if module.latest is None:
        found["retired"] = [()]
    if "release" not in (kinds := module.kinds()):
        found["unreleased"] = [(" and ".join(f"{it}s" for it in sorted(kinds)),)]
    return found


def latest_row(module, names, there, name):
    """Returns the row of a module whose latest version is another than on a shelf above, which is its own; no row if it
    is the same. A shelf sees what those above it have, so it passes a latest version over only for these reasons."""
    if there in (None, module.latest):
        return []
    why = "retracted here" if module.versions.get(there) else "a lower version"
    return [(module.path, module.latest or "all retracted", names.get(module.shelf, ""), there, name, why)]


def findings(shelf, differences):
    """The findings of the health page, each as in FINDINGS, and its rows: the module, and what was found in it.
    `differences` has those of findings that compare shelves."""
    rows = {name: [] for name, *_ in (*FINDINGS, *checks.FINDINGS)}
    for module in shelf.modules.values():
        for name, found in module.found.items():
            rows[name] += [(module, *it) for it in found]
    rows |= differences
    # (where nothing was read there is no finding)
    is_read = any("versions.html" in it.files for it in shelf.modules.values())
    return [(*it, rows[it[0]]) for it in (*FINDINGS, *(checks.FINDINGS if is_read else ()))]


def finding_rows(place, shelf, name, found):
    """The rows of the table of a finding."""
    if name in ("retracted", "missing"):
        return [
            row(link(place, it.path), code(it.latest), code(linked(place, shelf, path), "requires"), code(version))
            for it, path, version in found
        ]
    if name == "differing":
        return [
            row(link(place, path), code(version), cell(own, "here"), cell(above, "and on"))
            for path, version, own, above in found
        ]
    if name == "latest":
        return [
            row(link(place, path), *latest_cells(here, unbroken(own), there, unbroken(above), why))
            for path, here, own, there, above, why in found
        ]
    if name == "retired":
        return [row(link(place, it.path), number(it.count, "versions")) for (it,) in found]
    if name == "unreleased":
        return [row(link(place, it.path), code(it.latest or ""), cell(kinds, "has only")) for it, kinds in found]
    return checks.rows(place, shelf, name, found)


def latest_cells(here, own, there, above, why):
    return code(here, "here"), cell(own, "of"), code(there, "but"), cell(above, "on"), cell(why, "why")


def health_page(place, shelf, found):
    """The page of what needs attention, and of what changed."""
    number_of_findings = count(sum(len(rows) for *_, rows in found), "finding")
    main = [
        html('<h1>Health of {}</h1>\n<p class="facts">{}</p>\n', shelf.name, number_of_findings),
        [finding_section(place, shelf, *it) for it in found],
        changed_section(place, shelf),
    ]
    return page(place, f"{shelf.name}: health", main, "health")


def changed_section(place, shelf):
    """The section of the versions of the last days, a row for each module."""
    rows = [
        row(
            link(place, it.path),
            code(them[0][1]),
            cell([date(them[0][0]), " ", by(them[0][2])]),
            number(len(them), "versions"),
        )
        for it, them in shelf.lately()
    ]
    heads = ("Module", "Newest version", "Published", "#Versions")
    told = html(
        "<p>Versions that goshelf took in the 30 days before {}. Where no log says when that was, the date that the "
        "publisher gave counts.</p>\n",
        date(shelf.today.isoformat()),
    )
    body = [told, table("changed", heads, rows)] if rows else Html("<p>Nothing.</p>\n")
    return section("changed", "Changed in the last 30 days", body)


def finding_section(place, shelf, name, title, advice, heads, found):
    """The section of a finding. What is well has a line."""
    words = html('{} <span class="count {}">{}</span>', title, "bad" if found else "good", f"{len(found):,}")
    rows = finding_rows(place, shelf, name, found)
    body = [html("<p>{}</p>\n", advice), table(name, heads, rows)] if rows else ""
    return section(name, words, body)
