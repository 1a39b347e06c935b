"""The pages of a store's file: which have a wrong sum, and which versions are on them. goshelf-doctor asks it.

In a file with sums the last eight bytes of each page are those of SQLite's cksumvfs: two running sums of the words
before them. goshelf gives them to each file that it makes. sqlite3 leaves them as they were when it writes a page.

It only reads, and takes no lock, so goshelf may have the file open. The log has the newer form of a page.
"""

import os
import re
import struct
import time

# bytes 20 to 23 of a file whose pages end in sums
WITH_SUMS = b"\x08\x40\x20\x20"
# how many pages are tested at once, and how often one with a wrong sum is read again: goshelf may just write it
AT_ONCE, TRIES = 256, 5
# the lengths of the values of a record, by those of their types that are below 12
LENGTHS = (0, 1, 2, 3, 4, 6, 8, 8, 0, 0, 0, 0)
# the kinds of a page of a tree
INNER_INDEX, INNER_TABLE, LEAF_INDEX, LEAF_TABLE = 2, 5, 10, 13


# how many versions on damaged pages are named
NAMED = 20


class Unreadable(Exception):
    """A file that is no database, or a page that is not what it should be."""


def wrong_among(chunk, size):
    """Returns which pages of a chunk have a wrong sum, from 0. It sums all at once: each has 64 bits of a number."""
    count, step = len(chunk) // size, size // 8
    words = memoryview(chunk).cast("Q")
    low = int.from_bytes(b"\xff\xff\xff\xff\0\0\0\0" * count, "little")
    first = second = 0
    for at in range(step - 1):
        pair = int.from_bytes(words[at::step].tobytes(), "little")
        first = first + second + (pair & low) & low
        second = second + first + (pair >> 32 & low) & low
    sums = int.from_bytes(words[step - 1 :: step].tobytes(), "little")
    differ = (sums ^ (first | second << 32)).to_bytes(8 * count, "little")
    return [it for it in range(count) if any(differ[8 * it : 8 * it + 8])]


def varint(page, at):
    """Returns the number that stands somewhere in a page, and where the next byte is."""
    value = 0
    for byte in page[at : at + 8]:
        value, at = value << 7 | byte & 127, at + 1
        if byte < 128:
            return value, at
    return value << 8 | page[at], at + 1


def values_of(record, count):
    """Returns the first values of a record, each a number or bytes."""
    (start, at), types = varint(record, 0), []
    while at < start and len(types) < count:
        kind, at = varint(record, at)
        types.append(kind)
    found = []
    for kind in types:
        length = LENGTHS[kind] if kind < 12 else kind - 12 >> 1
        held, start = record[start : start + length], start + length
        found.append(held if kind >= 12 else int(kind == 9) or int.from_bytes(held, "big", signed=True))
    return found


class Pages:
    """The pages of a database file, and of its log if it has one."""

    def __init__(self, name):
        self.file = os.open(name, os.O_RDONLY)
        head = os.pread(self.file, 100, 0)
        if head[:16] != b"SQLite format 3\0":
            raise Unreadable(f"{name} is not a database")
        size = struct.unpack(">H", head[16:18])[0]
        self.size = 65_536 if size == 1 else size
        if self.size < 512 or self.size & self.size - 1:
            raise Unreadable(f"{name} names no size of a page")
        self.room = self.size - head[20]
        self.has_sums = head[20:24] == WITH_SUMS
        self.count = os.path.getsize(name) // self.size
        self.log, self.logged = None, {}
        if os.path.exists(f"{name}-wal"):
            self.log = os.open(f"{name}-wal", os.O_RDONLY)
            self.read_log()

    def close(self):
        for it in (self.file, self.log):
            if it is not None:
                os.close(it)

    def read_log(self):
        """Notes where the log has the newest committed form of each page."""
        head, at, begun = os.pread(self.log, 32, 0), 32, {}
        while len(frame := os.pread(self.log, 24, at)) == 24 and frame[8:16] == head[16:24]:
            number, ends = struct.unpack(">II", frame[:8])
            begun[number] = at + 24
            if ends:
                self.logged.update(begun)
                begun = {}
            at += 24 + self.size

    def read(self, number):
        """Returns a page as the log has it, or the file."""
        at, file = (number - 1) * self.size, self.file
        if number in self.logged:
            at, file = self.logged[number], self.log
        page = os.pread(file, self.size, at) if number > 0 else b""
        if len(page) != self.size:
            raise Unreadable(f"there is no page {number}")
        return page

    def wrong(self):
        """Returns the numbers of the file's pages with a wrong sum. What the log has is not tested."""
        found = []
        for first in range(0, self.count, AT_ONCE):
            chunk = os.pread(self.file, min(AT_ONCE, self.count - first) * self.size, first * self.size)
            chunk = chunk[: len(chunk) // self.size * self.size]
            found += [first + 1 + it for it in wrong_among(chunk, self.size)]
        return [it for it in found if it not in self.logged and self.stays_wrong(it)]

    def stays_wrong(self, number):
        for _ in range(TRIES):
            if not wrong_among(os.pread(self.file, self.size, (number - 1) * self.size), self.size):
                return False
            time.sleep(0.05)
        return True

    def nodes(self, root):
        """Yields each page of a tree that can be reached, with its number and where its header begins."""
        left, seen = [root], set()
        while left:
            number = left.pop()
            if number in seen:
                continue
            seen.add(number)
            try:
                page, at = self.read(number), 100 if number == 1 else 0
                kind, cells = page[at], struct.unpack(">H", page[at + 3 : at + 5])[0]
                if kind in (INNER_INDEX, INNER_TABLE):
                    starts = struct.unpack(f">{cells}H", page[at + 12 : at + 12 + 2 * cells])
                    left += [struct.unpack(">I", page[it : it + 4])[0] for it in starts]
                    left.append(struct.unpack(">I", page[at + 8 : at + 12])[0])
            except (Unreadable, struct.error, IndexError):
                continue
            yield number, page, at

    def rows(self, root):
        """Yields the rows of a table: the pages that each is on, its number, and its first values."""
        for number, page, at in self.nodes(root):
            if page[at] != LEAF_TABLE:
                continue
            cells = struct.unpack(">H", page[at + 3 : at + 5])[0]
            for start in struct.unpack(f">{cells}H", page[at + 8 : at + 8 + 2 * cells]):
                try:
                    length, start = varint(page, start)
                    row, start = varint(page, start)
                    held = self.held_of(length)
                    pages = [number, *self.chain(page, start + held, length - held)]
                    values = values_of(page[start : start + held], 4)
                except (struct.error, IndexError):
                    continue
                yield pages, row, values

    def held_of(self, length):
        """Returns how much of a record of this length is in its leaf."""
        if length <= self.room - 35:
            return length
        least = (self.room - 12) * 32 // 255 - 23
        held = least + (length - least) % (self.room - 4)
        return held if held <= self.room - 35 else least

    def chain(self, page, at, length):
        """Yields the pages on which the rest of a record is."""
        following = page[at : at + 4]
        for _ in range(min(-(-length // (self.room - 4)), self.count)):
            (number,) = struct.unpack(">I", following)
            yield number
            try:
                following = self.read(number)[:4]
            except Unreadable:
                return

    def tables(self):
        """Returns the root of each table and index, by its name."""
        found = {}
        for _, _, values in self.rows(1):
            if len(values) == 4 and isinstance(values[1], bytes):
                found[values[1].decode(errors="replace")] = values[3]
        return found


def versions(pages, table, numbers):
    """Returns the versions of a store with these row numbers: shelf, path and version."""
    found = set()
    for _, row, values in pages.rows(table):
        if row in numbers:
            found.add(" ".join(it.decode(errors="replace") for it in values[1:] if isinstance(it, bytes)))
    return found


def on(pages, wrong):
    """Returns what is on some pages of a store: the versions, sorted, and whether there is more than these."""
    wrong, found, rest = set(wrong), set(), set(wrong)
    tables = pages.tables()
    if "version" not in tables or "piece" not in tables:
        return [], True
    for name in ("version", "piece"):
        for places, row, values in pages.rows(tables[name]):
            if not wrong.isdisjoint(places):
                found.add(row if name == "version" else next(iter(values), None))
                rest.difference_update(places)
    return sorted(versions(pages, tables["version"], found)), bool(rest)


def damage(file, copy):
    """Returns which pages of a file, or of a copy of it, are damaged, and the versions on them. None if none is."""
    pages = Pages(copy)
    wrong = pages.wrong() if pages.has_sums else []
    found, has_more = on(pages, wrong) if wrong else ([], False)
    pages.close()
    if not wrong:
        return None
    named = [re.sub("[^ -~]", "?", it) for it in found[:NAMED]]
    if len(found) > NAMED:
        named.append(f"{len(found) - NAMED} more versions")
    if has_more:
        named.append("what no version has alone, such as an index")
    return f"{file} has damaged pages ({len(wrong)}, the first is {wrong[0]}), with parts of {', '.join(named)}"


def lacks_sums(file):
    """Whether the pages of a file have no sums, as those that an older goshelf made."""
    try:
        with open(file, "rb") as held:
            head = held.read(24)
    except OSError:
        return False
    return len(head) == 24 and head[20:] != WITH_SUMS
