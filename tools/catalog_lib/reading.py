"""What the pages read of a version: its go.mod, its files, its README, its licence and the comments of its packages."""
import base64
import hashlib
import re

from catalog_lib import godoc, licence, text
from catalog_lib.zips import BadZip, Unread, Zip

# a change of what is read: what was kept of an older reading is read again
FORM = 4
# bytes that are read of a README, a licence, a go.mod, the head of a Go file, and all of them of a zip
README_MOST, LICENCE_MOST, GOMOD_MOST, HEAD_MOST, ALL_MOST = 64 << 10, 64 << 10, 1 << 20, 64 << 10, 16 << 20
# as many packages and Go files are read, and bytes of a package's comment kept
PACKAGES_MOST, GO_FILES_MOST, DOC_MOST = 500, 4_000, 16 << 10
READMES = ("readme.md", "readme.markdown", "readme", "readme.txt", "readme.rst", "readme.org", "readme.adoc")
# folders that an import may name, and those that the go command does not take for packages
IMPORTABLE = re.compile(r"[A-Za-z0-9._~+/-]*")
NO_PACKAGES = re.compile(r"(?:^|/)(?:testdata|vendor|[._][^/]*)(?:/|$)")


class Counted:
    """A zip of which no more than some bytes are read."""

    def __init__(self, opened):
        self.opened, self.left = opened, ALL_MOST

    def read(self, name, most):
        """The content of a file, or the first `most` bytes of it."""
        if self.left <= 0:
            raise Unread("larger files than these pages read")
        found = self.opened.read(name, min(most, self.left))
        self.left -= len(found)
        return found


def read(content, line, served, is_whole):
    """What the zip of a version says, as values of JSON. `served` returns the go.mod that goshelf serves. Unless
    `is_whole`, it is only what changes are told of: the go.mod and the files."""
    found = {"gomod": None, "files": []}
    try:
        opened = Zip(content, line.path, line.version)
        files = Counted(opened)
        found["files"] = [[it.name, it.size, it.crc] for it in sorted(opened.entries.values())]
        own = files.read("go.mod", GOMOD_MOST + 1) if "go.mod" in opened.entries else None
        found["gomod"] = gomod_of(own, line, served, found)
        if is_whole:
            read_texts(files, opened.entries, found)
    except BadZip as bad:
        found["bad"] = text.seen(str(bad))
    except Unread as much:
        found["unread"] = text.seen(str(much))
    if found["gomod"] is None:
        found["gomod"] = text.clean(served(), GOMOD_MOST)
    return found


def gomod_of(own, line, served, found):
    """The text of the go.mod, and whether the zip has another than goshelf serves."""
    if own is not None and sum_of(own) == line.sum:
        return text.clean(own, GOMOD_MOST)
    # (a module without a go.mod is published with one that has its path alone)
    if own is not None:
        found["differs"] = True
    return text.clean(served(), GOMOD_MOST)


def sum_of(content):
    """The hash of go.sum for a go.mod."""
    line = f"{hashlib.sha256(content).hexdigest()}  go.mod\n"
    return "h1:" + base64.b64encode(hashlib.sha256(line.encode()).digest()).decode()


def read_texts(files, entries, found):
    """Reads the README, the licence and the packages."""
    at_root = sorted(it for it in entries if "/" not in it)
    ranks = {name: at for at, name in enumerate(READMES)}
    readmes = sorted((it for it in at_root if it.lower() in ranks), key=lambda it: ranks[it.lower()])
    for name in readmes[:1]:
        found["readme"] = [name, text.clean(files.read(name, README_MOST), README_MOST)]
        found["is_cut"] = entries[name].size > README_MOST
    for name in [it for it in at_root if licence.FILE.fullmatch(it)][:1]:
        content = text.clean(files.read(name, LICENCE_MOST), LICENCE_MOST)
        found["licence"] = [name, licence.name_of(content)]
    found["packages"] = packages_of(files, entries)


def packages_of(files, entries):
    """The packages, by their folders: each with its name and its comment."""
    found, count = {}, 0
    for name in sorted(entries):
        folder, _, last = name.rpartition("/")
        if not last.endswith(".go") or last.endswith("_test.go") or last[0] in "._":
            continue
        if not IMPORTABLE.fullmatch(folder) or NO_PACKAGES.search(folder):
            continue
        count += 1
        if count > GO_FILES_MOST or (folder not in found and len(found) == PACKAGES_MOST):
            break
        told = godoc.package_of(text.clean(files.read(name, HEAD_MOST), HEAD_MOST))
        if told and told[0] != "documentation":
            found.setdefault(folder, []).append(told)
    return [[folder, told[0][0], joined(told)] for folder, told in sorted(found.items())]


def joined(told):
    """The comments of the files of a package, as one. A legal notice is none."""
    docs = [doc for _, doc in told if godoc.first_sentence(doc)]
    return "\n\n".join(docs).encode()[:DOC_MOST].decode(errors="ignore")
