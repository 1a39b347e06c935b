"""What the pages of all modules show of each: its row in the list, its findings, and what the search finds it by."""
from collections import Counter
from itertools import chain

from catalog_lib import health, search
from catalog_lib.listing import module_row
from catalog_lib.module import files_of
from catalog_lib.text import shortened


def note_own(shelf):
    """Notes what the pages of other modules need of those that changed."""
    for path in shelf.changed & shelf.modules.keys():
        module = shelf.modules[path]
        # (the names of a go.mod are more than what it requires)
        names = (it for about in module.about.values() for it in about["names"])
        module.named = " ".join(sorted({*module.needs, *names}))
        module.deprecated = module.told.get("deprecated")
        module.forget()


def show(shelf, module, names):
    """Notes what the pages of all modules show of one."""
    told = module.told
    module.lines = None, module.lines[1]
    module.files = " ".join(files_of(module))
    module.row = module_row(shelf, module, names)
    module.found = health.found_in(shelf, module)
    module.synopsis = shortened(told.get("synopsis", ""), search.SYNOPSIS_MOST)
    module.packages = told.get("packages", "")[: search.PACKAGES_MOST]
    module.forget()


def rank_words(shelf, readings, before, most):
    """Notes the words of READMEs that the search may find modules by, of each at most so many letters. Returns in how
    many modules each is. `before` has the modules of the last run, and in how many of them each word was."""
    is_known = before.mark.get("words") == most
    changed = shelf.changed if is_known else shelf.modules.keys()
    words = {it: cut_words(readings.words_of(shelf.modules[it]), most) for it in changed if it in shelf.modules}
    counts = search.Counts(before.counts if is_known else Counter(chain.from_iterable(map(str.split, words.values()))))
    for path in changed if is_known else ():
        counts.add(before.modules[path].words if path in before.modules else "", -1)
        counts.add(words.get(path, ""), 1)
    moved = counts.moved()
    for path, module in shelf.modules.items():
        if path in words or (moved and not moved.isdisjoint(module.words.split())):
            module.lines = None, module.lines[1]
            module.words = counts.ranked(words.get(path) or cut_words(readings.words_of(module), most))
    return counts.counts


def cut_words(words, most):
    """The first words, of at most so many letters."""
    return words if len(words) <= most else words[: most + 1].rpartition(" ")[0]
