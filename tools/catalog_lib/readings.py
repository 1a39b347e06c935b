"""Reads what the pages need of the modules of a shelf: the zips of a few versions of each."""
import re
from collections import namedtuple
from functools import cache

from catalog_lib import changes, godoc, gomod, reading
from catalog_lib.checks import REPLACES_MOST
from catalog_lib.kept import is_mark_of, mark_of
from catalog_lib.shelf import sum_in
from catalog_lib.text import COMMON, shortened

SYNOPSIS_MOST = 200
# as many bytes of the names of its packages are searched
PACKAGES_MOST = 2_000
# as many letters of the words of its README
WORDS_MOST = 3_000


# a version that is read, and the sum of its go.mod
Wanted = namedtuple("Wanted", "path version sum")


class Readings:
    """What was read of the versions of a shelf. Without a source nothing is."""

    def __init__(self, kept=None, source=None):
        self.kept, self.source = kept, source

    @property
    def state(self):
        """What names all that is kept, or None if nothing is."""
        return self.kept.name_of_state if self.kept else None

    def fill(self, shelf, state):
        """Reads each version that the pages tell of and that was not read before. If what is kept is in the state in
        which the last run left it, that can be one of a module that has changed alone."""
        for module in shelf.modules.values():
            module.readings = self
        if state != self.state:
            shelf.changed |= shelf.modules.keys()
        shelf.changed |= {it.path for it in shelf.modules.values() if not it.is_read}
        for module in shelf.modules.values():
            if module.path in shelf.changed:
                module.is_read = True
                self.read_all(module)
        if not self.kept:
            return
        for path in shelf.changed if state == self.state else self.kept.paths():
            zips = {version for version, *_ in shelf.modules[path].zips} if path in shelf.modules else ()
            self.kept.forget(path, self.kept.marks_of(path).keys() - zips)
        self.kept.commit()

    def read_all(self, module):
        """Reads the versions of a module that the pages tell of."""
        marks = self.marks_of(module.path)
        for version, is_whole, content in module.zips if self.kept else ():
            if not is_mark_of(marks.get(version), content, is_whole):
                wanted = Wanted(module.path, version, sum_in(content))
                module.is_read &= self.read(wanted, is_whole, mark_of(content, is_whole))

    def read(self, wanted, is_whole, mark):
        """Reads a version. Returns whether goshelf has it: one that it does not have any more is asked for again by the
        next run."""
        path, version, _ = wanted
        content = self.source.get(path, version, "zip")
        if content is not None:
            served = lambda: self.source.get(path, version, "mod") or b""  # noqa: E731
            found = reading.read(content, wanted, served, is_whole)
            self.kept.put(path, version, mark, found, about_of(found), words_of(texts_of(found)))
        return content is not None

    def about_of(self, module):
        """What lists tell of the versions of a module."""
        found = self.kept.abouts_of(module.path) if self.kept else {}
        return {version: found[version] for version, *_ in module.zips if version in found}

    def marks_of(self, path):
        """What tells what was read of the versions of a module from any other."""
        return self.kept.marks_of(path) if self.kept else {}

    def of(self, module):
        """A function that returns what was read of a version of a module, or {} if nothing was."""
        versions = module.about
        return cache(lambda it: self.kept.get(module.path, it) if it in versions else {})

    def words_of(self, module):
        """The words of the README of a module."""
        return self.kept.words_of(module.path, module.latest or module.highest) if self.kept else ""


def about_of(found):
    """What lists and the search tell of what was read."""
    told, about = gomod.read(found["gomod"]), {}
    packages = found.get("packages", [])
    names = [folder or name for folder, name, _ in packages]
    about["synopsis"] = shortened(synopsis_of(found), SYNOPSIS_MOST)
    about["packages"] = " ".join(names)[:PACKAGES_MOST]
    about["has_readme"], about["has_files"] = "readme" in found, bool(found.get("files"))
    about["names"] = sorted(set(changes.WORD.findall(found["gomod"])))
    about["licence"] = found.get("licence")
    about["command"] = command_of(packages)
    if told.deprecated is not None:
        about["deprecated"] = gomod.message(told.deprecated, "")
    if replaces := [[old, new] for old, _, new, version in told.replacements if version]:
        about["replaces"] = replaces[:REPLACES_MOST]
    for name in ("bad", "unread", "differs"):
        if name in found:
            about[name] = found[name]
    return about


def command_of(packages):
    """The folder of the command that a module is, or None if it is several, or has packages that others import."""
    shown = [(folder, name) for folder, name, _ in packages if "internal" not in folder.split("/")]
    return shown[0][0] if len(shown) == 1 and shown[0][1] == "main" else None


def texts_of(found):
    """What the search reads: the README, and the comments of the packages."""
    readme = found["readme"][1] if "readme" in found else ""
    return "\n".join([readme, *(doc for *_, doc in found.get("packages", []))])


# what is none of a README's words: the targets of links, addresses and tags
NO_WORDS = re.compile(r"\]\([^()]{0,1000}\)|https?://[^\s)>\"']{1,1000}|<[^<>]{1,1000}>")
WORD = re.compile(r"[^\W_]{3,30}")


def words_of(text):
    """The words of a text that say something, each once, as long as they fit."""
    has_others = "](" in text or "<" in text or "://" in text
    plain = (NO_WORDS.sub(" ", text) if has_others else text).lower()
    # (most READMEs have more words than fit)
    found, length = {}, 0
    for match in WORD.finditer(plain):
        word = match[0]
        if word not in found and word not in COMMON and not word.isdigit():
            length += len(word) + 1
            if length > WORDS_MOST:
                break
            found[word] = True
    return " ".join(found)


def synopsis_of(found):
    """What a module is for, in a sentence: that of its root package, or the first of its README."""
    packages = found.get("packages", [])
    root = next((doc for folder, _, doc in packages if not folder), "")
    if sentence := godoc.first_sentence(root):
        return sentence
    return first_words(found["readme"][1]) if "readme" in found else ""


def first_words(readme):
    """The first sentence of a README that is no heading, picture, list or code."""
    for part in readme.split("\n\n"):
        line = MARKS.sub(r"\1", " ".join(part.split()))
        is_code = part.strip("\n").startswith("    ")
        if line[:1].isalnum() and line.count(" ") > 1 and not is_code and not line.endswith(("==", "--")):
            return godoc.first_sentence(line)
    return ""


# a link, of which the words stay, and the marks of emphasis and code
MARKS = re.compile(r"!?\[([^\[\]]{0,300})\]\([^()]{0,1000}\)|[`*]")
