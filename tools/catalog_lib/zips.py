"""The zips of modules, which anybody may have made: their entries, and the content of a few of them.

Nothing is unpacked to a disk. A zip is read by its central directory alone, as the go command reads it, and each
content is inflated up to a limit, whatever its entry says of its size.
"""
import re
import struct
import unicodedata
import zlib
from collections import namedtuple

# what goshelf takes, so a larger answer is none of its own
ZIP_MOST = 16 << 20
# as many entries of a zip, bytes of all their names and of one, and folders in each other are read
ENTRIES_MOST, NAMES_MOST, NAME_MOST, DEPTH_MOST = 20_000, 1 << 20, 512, 40
# what the go command refuses: https://go.dev/ref/mod#zip-path-size-constraints
TOTAL_MOST, GOMOD_MOST = 500 << 20, 16 << 20
# the end of a central directory, and a head in it and before a content
END, HEAD, LOCAL = b"PK\5\6", b"PK\1\2", b"PK\3\4"
STORED, DEFLATED = 0, 8
# what Go's module.CheckFilePath takes besides letters, and the names that it refuses
SIGNS = frozenset("!#$%&()+,-.=@[]^_{}~ 0123456789")
WINDOWS = re.compile("(?i:con|prn|aux|nul|com[1-9]|lpt[1-9])(?:[.].*)?")

Entry = namedtuple("Entry", "name size crc packed method at")


class Unread(Exception):
    """Why the pages say nothing of a zip: it exceeds their limits."""


class BadZip(Unread):
    """Why no go command takes a zip."""


class Zip:
    """A zip of a module. `entries` has each file by its name below the module's root, in the order of the zip."""

    def __init__(self, content, path, version):
        self.content = content
        listed = list(entries_of(content))
        self.entries = checked(listed, f"{path}@{version}/")

    def read(self, name, most):
        """The content of a file, or of its first `most` bytes. Refuses one that is not what its entry says."""
        entry = self.entries[name]
        found = inflated(self.content, entry, most)
        if len(found) > entry.size:
            raise BadZip(f"{name} has more bytes than its entry says")
        if len(found) < most and len(found) != entry.size:
            raise BadZip(f"{name} has fewer bytes than its entry says")
        if len(found) == entry.size and zlib.crc32(found) != entry.crc:
            raise BadZip(f"{name} is not what its sum says")
        return found


def entries_of(content):
    """Yields the entries of a zip, as its central directory has them."""
    at, count, length, begin = directory_of(content)
    if count > ENTRIES_MOST:
        raise Unread("more files than these pages read")
    place = at - length
    # (bytes in front of a zip move every place in it)
    moved = place - begin
    if place < 0 or moved < 0:
        raise BadZip("no zip: its directory is not where it says")
    names = 0
    for _ in range(count):
        head = content[place : place + 46]
        if head[:4] != HEAD or len(head) < 46:
            raise BadZip("no zip: its directory is cut off")
        flags, method, _, crc, packed, size, name, extra, comment = struct.unpack_from("<HHIIIIHHH", head, 8)
        raw = content[place + 46 : place + 46 + name]
        names += name
        if flags & 1:
            raise BadZip("a file is encrypted")
        if name > NAME_MOST or names > NAMES_MOST:
            raise Unread("longer file names than these pages read")
        yield Entry(text_of(raw), size, crc, packed, method, struct.unpack_from("<I", head, 42)[0] + moved)
        place += 46 + name + extra + comment
    if content[place : place + 4] == HEAD:
        raise BadZip("no zip: its directory has more files than it says")


def directory_of(content):
    """Where the record behind the central directory stands, and what that says of the directory: how many entries it
    has, how long it is, and where it begins."""
    if len(content) > ZIP_MOST:
        raise Unread(f"more than {ZIP_MOST:,} bytes")
    first, at = max(0, len(content) - 22 - 0xFFFF), len(content)
    while (at := content.rfind(END, first, at)) >= 0:
        if at + 22 <= len(content):
            count, length, begin, comment = struct.unpack_from("<HIIH", content, at + 10)
            if at + 22 + comment <= len(content):
                return at, count, length, begin
    raise BadZip("it is no zip")


def text_of(raw):
    try:
        return raw.decode()
    except UnicodeDecodeError:
        raise BadZip(f"a file name is not UTF-8: {raw[:80]!r}") from None


def inflated(content, entry, most):
    """At most `most` bytes of a content, or one more than its entry says, so that more is seen."""
    head = content[entry.at : entry.at + 30]
    if head[:4] != LOCAL or len(head) < 30:
        raise BadZip(f"{entry.name} is not where its entry says")
    begin = entry.at + 30 + sum(struct.unpack_from("<HH", head, 26))
    packed = content[begin : begin + entry.packed]
    if len(packed) < entry.packed:
        raise BadZip(f"{entry.name} is cut off")
    wanted = min(most, entry.size + 1)
    if entry.method == STORED:
        return packed[:wanted]
    if entry.method != DEFLATED:
        raise BadZip(f"{entry.name} is packed by an unknown method")
    try:
        return zlib.decompressobj(-15).decompress(packed, wanted)
    except zlib.error:
        raise BadZip(f"{entry.name} cannot be unpacked") from None


def checked(entries, prefix):
    """The files of a module by their names, once they are what the go command takes."""
    found, folded, total = {}, {}, 0
    for entry in entries:
        if not entry.name.startswith(prefix):
            raise BadZip(f"{entry.name!r} is not below {prefix}")
        name = entry.name[len(prefix) :]
        if not name:
            continue
        is_folder, name = name.endswith("/"), name.removesuffix("/")
        check_name(name)
        check_case(name, is_folder, folded)
        if is_folder:
            continue
        if name.rpartition("/")[2].lower() == "go.mod" and name != "go.mod":
            raise BadZip(f"{name!r} is a go.mod below the root, or has capitals")
        total += entry.size
        if total > TOTAL_MOST or (name in ("go.mod", "LICENSE") and entry.size > GOMOD_MOST):
            raise BadZip(f"{name!r} is larger than the go command takes, by itself or with the files before it")
        found[name] = entry._replace(name=name)
    return found


def check_name(name):
    """Refuses a name that Go's module.CheckFilePath refuses."""
    elements = name.split("/")
    if len(elements) > DEPTH_MOST:
        raise Unread("more folders in each other than these pages read")
    for element in elements:
        if not element.strip(".") or element.endswith(".") or WINDOWS.fullmatch(element):
            raise BadZip(f"{name!r} is no file name of a module")
        if not all(map(is_taken, element)):
            raise BadZip(f"{name!r} is no file name of a module")


def is_taken(letter):
    return letter in SIGNS or (letter.isalpha() if letter.isascii() else unicodedata.category(letter)[0] == "L")


def check_case(name, is_folder, folded):
    """Refuses a name that is there twice, as another kind, or with other capitals, and so for each folder above."""
    while name:
        now = name, is_folder
        before = folded.setdefault(folded_of(name), now)
        if before is not now:
            if before != now or not is_folder:
                raise BadZip(f"{name!r} is there twice, or with other capitals")
            return
        name, is_folder = name.rpartition("/")[0], True


def folded_of(name):
    """A name without case, as Go folds it: letter by letter."""
    return name.lower() if name.isascii() else "".join(map(folded_letter, name))


def folded_letter(letter):
    above = letter.upper()
    return above.lower() if len(above) == 1 else letter.lower()
