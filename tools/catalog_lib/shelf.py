"""What the pages say of a shelf: its modules, who requires whom, and what needs attention."""
import json
import re
from dataclasses import dataclass
from datetime import timedelta

from catalog_lib.lines import Refused, chosen, kind, line_of, lines_in, parts, precedence, rank

# a major version at the end of a path
MAJOR = re.compile(r"[/.]v[0-9]+$")
# how far back `changed` and `fresh` look
RECENT, WEEK = timedelta(days=30), timedelta(days=7)


# what the next run takes of a module as it is, and what it reads only if it makes a page of it
KEPT = (
    *("path", "sum", "length", "count", "retracted", "latest", "newest", "named", "deprecated", "is_read", "taken"),
    *("made_of", "files", "row", "found", "synopsis", "packages", "words"),
)
DETAILS = ("versions", "time", "shelf", "requires", "needs", "times", "zips")


class Module:
    """A module of the shelf. What the last run left is taken from its lines, and details only once they are asked for.

    `sum` is that of its lines, which stand at `place` and have `length` bytes. It has `count` versions, of which some
    are `retracted`, and `newest` is the latest time of one. `named` has the paths that its go.mods name. `is_read` says
    whether each zip was there, and `deprecated` is what its go.mod says of that, or None. `taken` is the sum of what
    the log says of it, `made_of` has those of what its pages are made of, and `files` are the pages. The last five are
    what the pages of all modules show.

    `versions` has each version, the lowest first, with whether it is retracted. `needs` has for each path that it
    requires a text: `REQUIRED VERSION OTHERS` for each required version, the highest version that requires it and how
    many others do. `times` has the shelf and the own time of each version. `zips` are the versions that are read, each
    with whether it is read whole and what tells its content from any other. `about` has what was read of them."""

    __slots__ = (*KEPT, *DETAILS, "place", "about", "readings", "lines")

    def __init__(self, fields=(), lines=(None, None)):
        for name, value in zip(KEPT, fields):
            setattr(self, name, value)
        # (what it is for the next run, unless it has changed)
        self.lines, self.readings = lines, None

    def __getattr__(self, name):
        """Reads what was not asked for before."""
        if name in DETAILS:
            for detail, value in zip(DETAILS, json.loads(self.lines[1])):
                setattr(self, detail, value)
        elif name == "about":
            self.about = self.readings.about_of(self) if self.readings else {}
        else:
            raise AttributeError(name)
        return getattr(self, name)

    def forget(self):
        """Forgets what was read of its zips, which all modules have too much of. It is there again once asked for."""
        del self.about

    @property
    def told(self):
        """What was read of the latest version, or of the highest if there is none; empty if nothing was."""
        return self.about.get(self.latest or self.highest, {})

    @property
    def highest(self):
        """The version that is the highest by rank, whose go.mod says which are retracted."""
        return max(self.versions, key=rank)

    def is_behind(self, version):
        """Whether a version is below the latest."""
        return self.latest is not None and precedence(version) < precedence(self.latest)

    def kinds(self):
        return {kind(version) for version in self.versions}

    def texts(self):
        """Returns what the next run takes, and the details, as lines of JSON."""
        first, details = self.lines
        values = [getattr(self, name) for name in KEPT] if first is None else None
        first = as_line(values) if first is None else first
        return first, details or as_line([getattr(self, name) for name in DETAILS])


def as_line(values):
    return json.dumps(values, separators=(",", ":")).encode()


def module_of(part, lines, source):
    """Returns the Module of a part and its lines."""
    module = Module((part.path, part.sum, part.length, len(lines), sum(line.is_retracted for line in lines), None))
    module.is_read = True
    module.versions = {line.version: line.is_retracted for line in lines}
    module.time, module.shelf, module.requires = None, None, []
    for line in lines:
        if line.is_latest and (module.latest or line.is_retracted):
            raise Refused(f"{source}: {line.path} {line.version} cannot be the latest version")
        if line.is_latest:
            module.latest, module.time, module.shelf = line.version, line.time, line.shelf
            module.requires = line.requires
    module.needs = needs_of(lines)
    module.times = [(line.shelf, line.time) for line in lines]
    module.newest = max((line.time or "" for line in lines), default="")
    module.zips = [(line.version, is_whole, content_of(line)) for line, is_whole in chosen(lines)]
    return module


def needs_of(lines):
    """Returns what the versions of a module require: `Module.needs`."""
    found = {}
    for line in lines:
        # (a go.mod may require the same twice)
        for path, required in dict.fromkeys(line.requires):
            rows = found.setdefault(path, {})
            rows[required] = line.version, rows[required][1] + 1 if required in rows else 0
    places = {line.version: at for at, line in enumerate(lines)}
    return {path: joined(rows, places) for path, rows in found.items()}


def joined(rows, places):
    """Returns the text of a path in `Module.needs`. The highest version stands first."""
    order = sorted(rows.items(), key=lambda row: (-places[row[1][0]], row[0]))
    return ";".join(f"{required} {version} {others}" for required, (version, others) in order)


def content_of(line):
    """Returns what tells the content of a version on a shelf from any other."""
    return f"{line.shelf} {line.sum} {line.size} {line.time}"


def sum_in(content):
    """Returns the sum of the go.mod in what `content_of` returned."""
    return content.split(" ")[1]


@dataclass(slots=True)
class User:
    """A module that requires a version of another. `version` is its highest that does, and `others` counts the rest."""

    module: Module
    version: str
    required: str
    others: int


class Shelf:
    """What a shelf sees. The lines stay in a file; of each module it keeps what other pages need."""

    def __init__(self, file, name, today, ours):
        self.file, self.name, self.today, self.ours = file, name, today, ours
        self.modules, self.recent, self.users, self.majors = {}, {}, {}, None
        # the paths whose lines are not those of the last run, also of modules that are gone
        self.changed = set()
        self.held = None, []
        # how to set a machine up for the shelf, and which versions were taken when and by whom, as far as that is known
        self.setup, self.taken = None, {}
        self.version_count = self.retracted_count = 0

    def fill(self, source, known):
        """Reads the lines. `source` names them in a refusal, and `known` has the modules of the last run by their
        paths: one whose lines have the same sum is taken from there."""
        found = []
        for part in list(parts(self.file, source, known)):
            module = known.get(part.path)
            if not module or module.sum != part.sum:
                module = module_of(part, lines_in(self.file, part, source), source)
                self.changed.add(part.path)
            module.place = part.place
            found.append(module)
            self.version_count += module.count
            self.retracted_count += module.retracted
        # (as people read them)
        self.modules = {it.path: it for it in sorted(found, key=lambda it: as_read(it.path))}
        self.changed |= known.keys() - self.modules.keys()
        self.note_recent()

    def note_users(self, paths):
        """Notes who requires the modules of some paths."""
        self.users |= {path: [] for path in paths}
        is_all = len(paths) == len(self.modules)
        for module in self.modules.values():
            for needed in module.needs if is_all else paths.intersection(module.named.split(" ")):
                if needed in paths and needed in module.needs:
                    self.users[needed].append(module)

    def requiring(self, path):
        """The modules that require a module."""
        if path not in self.users:
            self.note_users({path})
        return self.users[path]

    def majors_of(self, path):
        """The paths of the other major versions of a module."""
        if self.majors is None:
            self.majors = {}
            for it in self.modules:
                if (base := base_of(it)) != it:
                    self.majors.setdefault(base, []).append(it)
        base = base_of(path)
        found = [base] if base in self.modules else []
        return [it for it in found + sorted(self.majors.get(base, []), key=lambda it: (len(it), it)) if it != path]

    def note_recent(self):
        """Notes the versions of the last days."""
        first, last = (self.today - RECENT).isoformat(), self.today.isoformat()
        taken = {path for (_, path, _), it in self.taken.items() if it.time >= first}
        for path, module in self.modules.items():
            if module.newest >= first or path in taken:
                rows = [it for it in self.versions_of(module) if it[0] and first <= it[0][:10] <= last]
                if rows:
                    self.recent[path] = rows

    def versions_of(self, module):
        """Yields each version of a module: when it was made or taken, its name, and by whom."""
        for version, (shelf, own) in zip(module.versions, module.times):
            taken = self.taken.get((shelf, module.path, version))
            yield (taken.time, version, taken.name) if taken else (own, version, "")

    def taken_at(self, line):
        """When goshelf took a version and from whom, or None."""
        return self.taken.get((line.shelf, line.path, line.version))

    def lines(self, module):
        """The Lines of a module, the lowest version first. Those of the last module are kept."""
        if self.held[0] is not module:
            self.file.seek(module.place)
            self.held = module, [line_of(text) for text in self.file.read(module.length).split(b"\n") if text]
        return self.held[1]

    def users_of(self, path):
        """The users of a module by their paths, and of each the highest version first."""
        return [
            User(module, version, required, int(others))
            for module in self.requiring(path)
            for required, version, others in (row.split(" ") for row in module.needs[path].split(";"))
        ]

    def is_ours(self, path):
        """Whether a module is the company's: the shelf sees some version of it, or a line of the map has it."""
        elements = path.lower().split("/")
        return path in self.modules or any("/".join(elements[:it]) in self.ours for it in range(1, len(elements) + 1))

    def state(self, path, version):
        """What is to be said of a required version: `missing`, `retracted`, `behind` or nothing."""
        module = self.modules.get(path)
        if module is None or version not in module.versions:
            return "missing" if self.is_ours(path) else ""
        if module.versions[version]:
            return "retracted"
        return "behind" if module.is_behind(version) else ""

    def lately(self):
        """The modules with a version of the last days, the latest first, each with those versions, the latest first."""
        return self.latest_of(self.recent)

    def fresh(self):
        """The same of the versions that goshelf took in the last week."""
        first = (self.today - WEEK).isoformat()
        rows = {path: [it for it in them if it[2] and it[0][:10] >= first] for path, them in self.recent.items()}
        return self.latest_of({path: them for path, them in rows.items() if them})

    def latest_of(self, rows_of):
        found = [(self.modules[path], sorted(rows, reverse=True)) for path, rows in rows_of.items()]
        return sorted(sorted(found, key=lambda it: as_read(it[0].path)), key=lambda it: it[1][0][0], reverse=True)


def base_of(path):
    """A path without its major version."""
    return MAJOR.sub("", path) if path[-1].isdigit() else path


def as_read(path):
    """What a path is sorted by: capitals stand beside small letters."""
    return path.lower(), path


def differing(shelf, above, word, source, known):
    """Returns for each path of a shelf: the sums of its lines there and on a shelf above, the versions that both have
    with another go.mod, size of the zip or time, and the latest version above if it is on that shelf itself.

    `word` is what `Shelf` calls that shelf, and `known` has what this returned before: a path of the same sums is taken
    from there. Refuses lines of another shelf: they lack a version that is seen there."""
    upper = {part.path: part for part in parts(above, source)}
    found = {}
    for path, module in shelf.modules.items():
        other = upper.get(path)
        sums = [module.sum, other.sum if other else ""]
        before = known.get(path, [])
        if before[:2] != sums:
            lines = {line.version: line for line in lines_in(above, other, source)} if other else {}
            versions = differing_versions(shelf.lines(module), lines, word, source)
            before = [*sums, versions, next((it.version for it in lines.values() if is_own_latest(it)), None)]
        found[path] = before
    return found


def is_own_latest(line):
    return line.is_latest and line.shelf == "own"


def differing_versions(lines, above, word, source):
    """Returns the versions of a path that have other content among the lines above."""
    found = []
    for line in lines:
        other = above.get(line.version)
        is_same = other is not None and other.content() == line.content()
        if line.shelf == word and not (is_same and other.shelf == "own"):
            raise Refused(f"{source}: not of the shelf `{word}` of these lines, which has {line.path} {line.version}")
        if other is not None and not is_same:
            found.append(line.version)
    return found


def owners_of(name):
    """nginx's owners.json: the company's paths, each with the names of the shelves that publish there."""
    try:
        with open(name, encoding="utf-8") as file:
            told = json.load(file)
    except (OSError, ValueError) as error:
        raise Refused(f"{name}: {error}") from None
    if not isinstance(told, dict) or not all(map(is_list_of_texts, told.values())):
        raise Refused(f'{name}: not of the form {{"PATH": ["SHELF", ..], ..}}')
    return told


def is_list_of_texts(value):
    return isinstance(value, list) and all(isinstance(it, str) for it in value)
