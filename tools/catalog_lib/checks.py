"""What the health page finds in what was read of the latest version of each module."""
from catalog_lib.markup import broken, cell, code, link, linked, row

# as many replacements of a go.mod are followed
REPLACES_MOST = 100
UNUSABLE, DIFFERS = "No go command takes the zip of this version: {}", "The zip has another go.mod than goshelf serves"


FINDINGS = (
    (
        "unusable",
        "A zip that no go command takes",
        "Publish the next version by goshelf-publish, which makes the zip with the go command.",
        ("Module", "Latest", "Why"),
    ),
    (
        "gomods",
        "Another go.mod in the zip than goshelf serves",
        "Publish the next version by goshelf-publish. The go command takes the go.mod that goshelf serves.",
        ("Module", "Latest"),
    ),
    (
        "deprecated",
        "Requires a deprecated module",
        "Require what its comment names in its place.",
        ("Module", "Latest", "Requires", "Which says"),
    ),
    (
        "cycles",
        "Replaces paths in a cycle",
        "Take one of the replacements out: the go command follows one of them alone.",
        ("Module", "Latest", "Cycle"),
    ),
)


def found_in(shelf, module):
    """What is found in a module whose zip was read: rows behind its name, by the name of the finding."""
    told, found = module.told, {}
    if "bad" in told:
        found["unusable"] = [(told["bad"],)]
    if "differs" in told:
        found["gomods"] = [()]
    needed = [(path, shelf.modules[path].deprecated) for path, _ in module.requires if path in shelf.modules]
    if rows := [(path, text or "Deprecated") for path, text in needed if text is not None]:
        found["deprecated"] = rows
    if cycle := cycle_of(told.get("replaces", ())):
        found["cycles"] = [(cycle,)]
    return found


def rows(place, shelf, name, found):
    """The rows of the table of a finding."""
    if name == "unusable":
        return [row(*first(place, it), cell(why, "why")) for it, why in found]
    if name == "deprecated":
        return [
            row(*first(place, it), code(linked(place, shelf, path), "requires"), cell(text)) for it, path, text in found
        ]
    if name == "cycles":
        return [row(*first(place, it), code([[broken(path), " "] for path in cycle], "cycle")) for it, cycle in found]
    return [row(*first(place, it)) for (it,) in found]


def first(place, module):
    return link(place, module.path), code(module.latest or module.highest)


def cycle_of(replaces):
    """The first cycle of paths of which each is replaced by the next, or None."""
    follows = {}
    for old, new in replaces[:REPLACES_MOST]:
        follows.setdefault(old, new)
    for begin in follows:
        path, seen = begin, []
        while path in follows and path not in seen:
            seen.append(path)
            path = follows[path]
        # (a path may be replaced by another version of itself)
        if path == begin and len(seen) > 1:
            return [*seen, begin]
    return None
