"""What a run leaves for the next one, and the sums of what pages are made of: a page is made again if its sum is new.

It stands in the mark of the folder, behind the line that names the inputs: the other files, what differs from the
shelves above, in how many modules each word of a README is, and two lines for each module, of which the second one is
read only if a page needs it.
"""
import hashlib
import json
import os

from catalog_lib.folder import MADE
from catalog_lib.shelf import Module, as_line

BOOT = "/proc/sys/kernel/random/boot_id"
# how many lines stand before those of modules
FIRST = 4


def boot():
    """Returns what names this start of the machine. After a power cut files may lack what was written before, so all
    pages are made again."""
    try:
        with open(BOOT, encoding="ascii") as file:
            return file.read().strip()
    except OSError:
        return None


class Past:
    """What the last run left: its modules by their paths, what differs from the shelves above, in how many modules each
    word is, and the files that are no pages of a module. Empty if another form of this tool ran, or before the machine
    started."""

    def __init__(self, folder=None, form=None):
        self.modules, self.differing, self.counts, self.others, self.is_there = {}, {}, {}, [], False
        self.mark = folder.mark() if folder and folder.old and form else {}
        if self.mark.get("form") != form:
            self.mark = {}
        elif form:
            try:
                self.read(os.path.join(folder.old, MADE))
            except (OSError, ValueError, TypeError, IndexError):
                self.__init__()

    def read(self, name):
        with open(name, "rb") as file:
            lines = file.read().removesuffix(b"\n").split(b"\n")
        self.others, self.differing, self.counts = map(json.loads, lines[1:FIRST])
        firsts, details = lines[FIRST::2], lines[FIRST + 1 :: 2]
        for fields, *texts in zip(json.loads(b"[%s]" % b",".join(firsts)), firsts, details, strict=True):
            module = Module(fields, texts)
            self.modules[module.path] = module
        self.is_there = True


def lines_of(shelf, others, differing, counts):
    """Yields the lines that the next run reads. `others` are the files that are no pages of a module."""
    yield from map(as_line, (others, differing, counts))
    for module in shelf.modules.values():
        yield from module.texts()


class Sums:
    """The sums of what the pages of each module are made of."""

    def __init__(self, shelf, names, readings):
        self.shelf, self.readings = shelf, readings
        self.common = sum_of(
            repr((shelf.name, sorted(names.items()), shelf.setup, bool(shelf.taken), sorted(shelf.ours)))
        )
        taken = {}
        for key, it in shelf.taken.items():
            taken.setdefault(key[1], []).append((key, it))
        self.taken = {path: sum_of(repr(them)) for path, them in taken.items()}

    def others_of(self, before):
        """Returns the paths of the modules of whose pages some may be others than in the last run: those that changed,
        those that name one of them, those that it requires, or required, and their other major versions. Without a last
        run that made its pages of the same these are all."""
        shelf = self.shelf
        changed = {
            path for path, it in shelf.modules.items() if path in shelf.changed or it.taken != self.taken_of(path)
        }
        if before.mark.get("common") != self.common:
            return set(shelf.modules)
        near = set(changed)
        for path in shelf.changed:
            found = before.modules.get(path), shelf.modules.get(path)
            near.update(*(it.needs for it in found if it), shelf.majors_of(path))
        changed |= shelf.changed
        return {
            path for path, it in shelf.modules.items() if path in near or not changed.isdisjoint(it.named.split(" "))
        }

    def taken_of(self, path):
        return self.taken.get(path, "")

    def of(self, module):
        """Returns the sums of what its pages are made of, by `MADE_OF`: a zip, also its versions, and also others."""
        path, modules = module.path, self.shelf.modules
        marks = self.readings.marks_of(path)
        of_zip = f"{self.common}\n{path}\n{module.latest}\n{[(it, marks[it]) for it in module.about]}"
        named = sorted({*module.needs, *module.named.split(" ")})
        links = [it for it in named if it in modules]
        of_versions = f"{of_zip}\n{module.sum}\n{links}\n{self.taken_of(path)}"
        faces = [face(modules[it]) if it in modules else it for it in named]
        users = [f"{user.path} {user.latest} {user.needs[path]}" for user in self.shelf.requiring(path)]
        of_rest = f"{of_versions}\n{faces}\n{users}\n{self.shelf.majors_of(path)}"
        return [sum_of(it) for it in (of_zip, of_versions, of_rest)]


def face(module):
    """Returns what the pages of other modules say of a module."""
    return f"{module.path} {module.sum} {module.deprecated is not None}"


def sum_of(text):
    return hashlib.blake2b(text.encode(), digest_size=12).hexdigest()
