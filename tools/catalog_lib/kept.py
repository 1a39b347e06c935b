"""What was read of versions, kept from run to run in a file beside the pages, so that each zip is asked for once.

The file holds nothing that a goshelf could not be asked for again: a broken one is made anew.
"""
import contextlib
import json
import os
import secrets
import sqlite3
import zlib

from catalog_lib.reading import FORM

# (a version may be forgotten because it holds a secret)
FORGETS = "PRAGMA secure_delete = ON"
# (`about` is what each run needs of all versions; `words` are those of a README, which a large shelf leaves out)
TABLE = """CREATE TABLE IF NOT EXISTS reading_2 (
    path TEXT NOT NULL, version TEXT NOT NULL, mark TEXT NOT NULL, about TEXT NOT NULL, words TEXT NOT NULL,
    content BLOB NOT NULL, UNIQUE (path, version))"""
# (each run that changes what is kept gives it another name, which its pages have too)
NAMED = "CREATE TABLE IF NOT EXISTS state (name TEXT NOT NULL)"
OLDER = "DROP TABLE IF EXISTS reading"


class Kept:
    """The file of what was read."""

    def __init__(self, name):
        self.name = name
        try:
            self.open()
        except sqlite3.DatabaseError:
            for it in (name, f"{name}-wal", f"{name}-shm"):
                with contextlib.suppress(FileNotFoundError):
                    os.remove(it)
            self.open()

    def open(self):
        os.close(os.open(self.name, os.O_RDWR | os.O_CREAT, 0o600))
        self.held = sqlite3.connect(self.name, isolation_level=None)
        for order in ("PRAGMA journal_mode = WAL", "PRAGMA synchronous = OFF", FORGETS, "BEGIN", OLDER, TABLE, NAMED):
            self.held.execute(order)
        self.name_of_state = next((name for (name,) in self.held.execute("SELECT name FROM state")), None)
        self.is_changed = False

    def rows(self, columns, path):
        """Returns columns of the versions of a module, by the versions."""
        order = f"SELECT version, {columns} FROM reading_2 WHERE path = ?"
        return {version: value for version, value in self.held.execute(order, (path,))}

    def marks_of(self, path):
        """What tells the content of the versions of a module from any other."""
        return self.rows("mark", path)

    def put(self, path, version, mark, found, about, words):
        """Keeps what was read of a version, what lists tell of it, and the words of its README."""
        content = zlib.compress(json.dumps(found).encode(), 1)
        row = path, version, mark, json.dumps(about), words, content
        self.held.execute("INSERT OR REPLACE INTO reading_2 VALUES (?, ?, ?, ?, ?, ?)", row)
        self.is_changed = True

    def abouts_of(self, path):
        """What lists tell of the versions of a module."""
        return {version: json.loads(about) for version, about in self.rows("about", path).items()}

    def words_of(self, path, version):
        """The words of the README of a version."""
        order = "SELECT words FROM reading_2 WHERE path = ? AND version = ?"
        return next((words for (words,) in self.held.execute(order, (path, version))), "")

    def get(self, path, version):
        """What was read of a version, or None."""
        order = "SELECT content FROM reading_2 WHERE path = ? AND version = ?"
        row = self.held.execute(order, (path, version)).fetchone()
        return json.loads(zlib.decompress(row[0])) if row else None

    def paths(self):
        """The paths of which something is kept."""
        return [path for (path,) in self.held.execute("SELECT DISTINCT path FROM reading_2")]

    def forget(self, path, versions):
        """Forgets versions of a module."""
        for version in versions:
            self.held.execute("DELETE FROM reading_2 WHERE path = ? AND version = ?", (path, version))
            self.is_changed = True

    def commit(self):
        """Keeps it also if no page is made."""
        if self.is_changed or not self.name_of_state:
            self.name_of_state = secrets.token_hex(8)
            self.held.execute("DELETE FROM state")
            self.held.execute("INSERT INTO state VALUES (?)", (self.name_of_state,))
        self.held.execute("COMMIT")
        self.held.execute("BEGIN")

    def close(self):
        """Closes the file. What was read stays, also if no page was made of it."""
        self.held.execute("COMMIT")
        self.held.close()


def mark_of(content, is_whole):
    """What tells the content of a version on a shelf from any other, and what was read of it."""
    return f"{FORM} {'whole' if is_whole else 'brief'} {content}"


def is_mark_of(mark, content, is_whole):
    """Whether a mark is that of a content, of which all was read if `is_whole`."""
    return mark == mark_of(content, True) or (not is_whole and mark == mark_of(content, False))
