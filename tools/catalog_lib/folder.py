"""The folder of a shelf: made anew beside the old one, with its files that did not change, and swapped by a rename.

A folder of many files has a spare beside it, which holds the same files. The next run changes the spare where pages
change, swaps the two, and then brings the other one up to date: it touches no other file.
"""
import contextlib
import fcntl
import json
import os
import re
import secrets
import shutil
from datetime import datetime, timezone
from itertools import chain

from catalog_lib.lines import Refused

# the file in each folder made here that says of what it was made
MADE = ".made"
# the style that says on each page how old it is and how much needs attention: a page that did not change stays the same
# file
STAMP = "parts/made.css"
# as many bytes are written at once
BUFFER = 1 << 20
# a folder of as many files has a spare
SPARE_LEAST = 2_000


def stamped(versions, findings):
    """Returns the style that says when the pages were made, of how many versions, and how many findings there are."""
    now = datetime.now(timezone.utc).strftime("%Y-%m-%d %H:%M")
    words = f"Made at {now} of {versions:,} {'version' if versions == 1 else 'versions'}."
    style = f'.made::after {{ content: " {words}"; }}\n'
    if not findings:
        return style
    # (the second form says to a screen reader what the number is)
    badge, spoken = f"{findings:,}", f" {findings:,} {'finding' if findings == 1 else 'findings'}"
    return f'{style}.findings::after {{ content: "{badge}"; content: "{badge}" / "{spoken}"; }}\n'


class Folder:
    """The name `at` is a link to the folder of the last run, which stands beside it under a name of its own."""

    def __init__(self, at):
        self.at = os.path.abspath(at)
        self.parent, self.name = os.path.split(self.at)
        self.made = re.compile(re.escape(f".{self.name}.") + "[0-9a-f]{16}")
        self.new = self.old = self.spare = None
        # the files that were written, those that differ from the folder of the last run, how many files there are in
        # all, and the folders that are there
        self.names, self.changed, self.count, self.folders = [], [], 0, set()

    def lock(self):
        """Takes the lock of the folder, refuses names that are something else, and removes what killed runs left."""
        if not os.path.isdir(self.parent):
            raise Refused(f"there is no folder {self.parent}")
        self.held = os.open(os.path.join(self.parent, f".{self.name}.lock"), os.O_RDWR | os.O_CREAT, 0o600)
        try:
            fcntl.flock(self.held, fcntl.LOCK_EX | fcntl.LOCK_NB)
        except BlockingIOError:
            raise Refused(f"another run makes {self.at}") from None
        self.old = self.before()
        self.spare = self.spare_of()
        self.clean()

    def beside(self, name):
        """The file of a name beside the folder, which outlives it."""
        return os.path.join(self.parent, f".{self.name}.{name}")

    def before(self):
        """The folder of the last run, or None if there is none."""
        if not os.path.lexists(self.at):
            return None
        target = os.readlink(self.at) if os.path.islink(self.at) else ""
        if not self.made.fullmatch(target):
            raise Refused(f"{self.at} was not made by this command: name another folder, or move it away")
        return os.path.join(self.parent, target)

    def spare_of(self):
        """Returns the folder that holds the same files as that of the last run, or None."""
        name = self.mark().get("spare") if self.old else None
        at = os.path.join(self.parent, name) if isinstance(name, str) and self.made.fullmatch(name) else None
        is_same = at and marked(at).get("same") == os.path.basename(self.old) and not os.path.islink(at)
        return at if is_same else None

    def clean(self):
        """Removes the folders and the link that a killed run left."""
        for name in os.listdir(self.parent):
            at = os.path.join(self.parent, name)
            is_other = self.made.fullmatch(name) and at not in (self.old, self.spare)
            if is_other and os.path.isdir(at) and not os.path.islink(at):
                remove(at)
        link = os.path.join(self.parent, f".{self.name}.link")
        if os.path.islink(link):
            os.unlink(link)

    def is_made_of(self, inputs):
        """Whether the folder of the last run was made of these inputs."""
        return bool(self.old) and self.mark().get("inputs") == inputs

    def mark(self):
        """Returns what the folder of the last run says of itself."""
        return marked(self.old)

    def stamp(self):
        """Says at the foot of all pages that they are of now, by a style that they share. Nothing else changes."""
        mark = self.mark() if self.old else {}
        count, findings = mark.get("versions"), mark.get("findings", 0)
        if not isinstance(count, int) or not isinstance(findings, int):
            raise Refused(f"{self.at} has no pages")
        replace(os.path.join(self.old, STAMP), stamped(count, findings).encode())

    def begin(self, is_known):
        """Begins the new folder: the spare, or an empty one unless it `is_known` which files the last run made."""
        if self.spare and not is_known:
            remove(self.spare)
            self.spare = None
        self.is_known = is_known
        self.new = self.spare or os.path.join(self.parent, f".{self.name}.{secrets.token_hex(8)}")
        if not self.spare:
            os.mkdir(self.new)
        replace(os.path.join(self.new, MADE), b"{}\n")

    def put(self, name, content):
        """Writes a file, or keeps that of the last run if its content is the same. Returns whether it is another."""
        at = f"{self.new}/{name}"
        self.names.append(name)
        self.count += 1
        self.make(os.path.dirname(at))
        if self.old and self.keeps(os.path.join(self.old, name), at, content):
            return False
        self.changed.append(name)
        if self.spare:
            replace(at, content)
        else:
            write(at, content)
        return True

    def make(self, folder):
        """Makes a folder, unless it was made before."""
        if folder not in self.folders:
            os.makedirs(folder, exist_ok=True)
            self.folders.add(folder)

    def keeps(self, before, at, content):
        """Gives an old file a name in the new folder, if it has the content and this disk has hard links."""
        try:
            with open(before, "rb") as file:
                is_same = file.read() == content
            if is_same and not self.spare:
                os.link(before, at)
            return is_same
        except OSError:
            return False

    def keep(self, folder, names):
        """Keeps files of the last run that are below a folder. Returns whether they are there."""
        if not self.spare and names:
            self.make(os.path.join(self.new, folder))
            try:
                for name in names:
                    share(os.path.join(self.old, folder, name), os.path.join(self.new, folder, name))
            except OSError:
                return False
        self.count += len(names)
        return True

    def swap(self, mark, lines, gone):
        """Puts the new folder in the place of the old one, at once. `mark` says of what it was made, `lines` hold what
        the next run takes from this one, and `gone` are files of the last run that this one does not have."""
        if self.spare:
            drop(self.new, gone)
        replace(os.path.join(self.new, STAMP), stamped(mark["versions"], mark["findings"]).encode())
        spare = self.spare_name() if self.count >= SPARE_LEAST else None
        first = json.dumps({**mark, "spare": spare}).encode()
        replace_by(os.path.join(self.new, MADE), (line + b"\n" for line in chain([first], lines)))
        link = os.path.join(self.parent, f".{self.name}.link")
        os.symlink(os.path.basename(self.new), link)
        os.rename(link, self.at)
        old, self.old, self.new = self.old, self.new, None
        if spare:
            self.follow(os.path.join(self.parent, spare), gone)
        if old and os.path.basename(old) != spare:
            remove(old)

    def spare_name(self):
        """Returns the name of the folder that becomes the spare: the old one, if it is known which files it has."""
        return os.path.basename(self.old) if self.old and self.is_known else f".{self.name}.{secrets.token_hex(8)}"

    def follow(self, spare, gone):
        """Brings the spare up to date with the folder that is shown now."""
        is_new = not os.path.exists(spare)
        if is_new:
            os.mkdir(spare)
        replace(os.path.join(spare, MADE), b"{}\n")
        drop(spare, gone)
        self.folders = set()
        for name in files_below(self.old) if is_new else self.changed:
            at = os.path.join(spare, name)
            self.make(os.path.dirname(at))
            if not is_new:
                with contextlib.suppress(FileNotFoundError):
                    os.unlink(at)
            share(os.path.join(self.old, name), at)
        replace(os.path.join(spare, MADE), json.dumps({"same": os.path.basename(self.old)}).encode())

    def give_up(self):
        """Removes what was begun. The folder of the last run stays."""
        if self.new and os.path.isdir(self.new):
            remove(self.new)


def marked(folder):
    """Returns what a folder says of itself in the first line of its mark."""
    try:
        with open(os.path.join(folder, MADE), encoding="utf-8") as file:
            mark = json.loads(file.readline())
            return mark if isinstance(mark, dict) else {}
    except (OSError, ValueError):
        return {}


def files_below(folder):
    """Yields the files of pages in a folder."""
    for at, _, names in os.walk(folder):
        below = os.path.relpath(at, folder)
        for name in names:
            if below != "." or name != MADE:
                yield os.path.normpath(os.path.join(below, name))


def write(at, content):
    """Writes a new file, of which a large shelf has many."""
    file = os.open(at, os.O_WRONLY | os.O_CREAT | os.O_TRUNC, 0o666)
    try:
        while content:
            content = content[os.write(file, content) :]
    finally:
        os.close(file)


def replace(at, content):
    """Writes a file beside its name and renames it, because another folder may share the file that has the name."""
    replace_by(at, [content])


def replace_by(at, parts):
    """The same of a content in parts."""
    with open(f"{at}.new", "wb", BUFFER) as file:
        file.writelines(parts)
    os.replace(f"{at}.new", at)


def share(before, at):
    """Gives a file another name, or copies it where this disk has no hard links."""
    try:
        os.link(before, at)
    except OSError:
        shutil.copyfile(before, at)


def drop(folder, names):
    """Removes files of a folder, and the folders that are empty then."""
    for name in names:
        with contextlib.suppress(OSError):
            os.unlink(os.path.join(folder, name))
        above = os.path.dirname(name)
        with contextlib.suppress(OSError):
            while above:
                os.rmdir(os.path.join(folder, above))
                above = os.path.dirname(above)


def remove(folder):
    """Removes a folder of pages, its mark last, so that a run that is killed meanwhile leaves one that is known."""
    if not os.path.exists(os.path.join(folder, MADE)):
        os.rmdir(folder)
        return
    for name in os.listdir(folder):
        at = os.path.join(folder, name)
        if name == MADE:
            continue
        if os.path.isdir(at) and not os.path.islink(at):
            shutil.rmtree(at)
        else:
            os.unlink(at)
    os.unlink(os.path.join(folder, MADE))
    os.rmdir(folder)
