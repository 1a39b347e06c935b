"""The sums at the end of each page of a file that goshelf made, as SQLite's cksumvfs computes them.

sqlite3 leaves them as they were when it writes a page, and goshelf then refuses the file. So the pages that a test
writes by sqlite3 get their sums here.
"""

import os
import struct

PAGE = 4096
# bytes 20 to 23 of a file with sums: eight bytes of each page are reserved
WITH_SUMS = b"\x08\x40\x20\x20"


def sum_of(body: bytes) -> bytes:
    """Returns the sum of the bytes of a page before it."""
    first = second = 0
    words = struct.unpack(f"<{len(body) // 4}I", body)
    for one, other in zip(words[::2], words[1::2]):
        first = first + one + second & 0xFFFFFFFF
        second = second + other + first & 0xFFFFFFFF
    return struct.pack("<II", first, second)


def has_sums(name: str) -> bool:
    """Whether the pages of a file end in sums."""
    with open(name, "rb") as file:
        return file.read(24)[20:] == WITH_SUMS


def wrong_sums(name: str) -> list[int]:
    """Returns the numbers of the pages of a file that do not end in their sums."""
    with open(name, "rb") as file:
        pages = [file.read(PAGE) for _ in range(os.path.getsize(name) // PAGE)]
    return [number for number, page in enumerate(pages, 1) if page[-8:] != sum_of(page[:-8])]


def seal(name: str) -> None:
    """Writes the sum of each page of a file with sums. The file holds all that its log held."""
    if not has_sums(name):
        return
    with open(name, "r+b") as file:
        for number in wrong_sums(name):
            file.seek((number - 1) * PAGE)
            body = file.read(PAGE - 8)
            file.seek(0, os.SEEK_CUR)
            file.write(sum_of(body))
