"""The keys of the front: names, goshelf's keys, and what nginx reads of them."""

import hashlib
import os
import re
import sys
from collections.abc import Callable

from front_lib import files, nginx, orders, publishes
from front_lib.files import Known, Name, Refused


class Keys:
    """The lines of names, what goshelf says of their keys, or what nginx has of them while goshelf is away."""

    def __init__(self, is_needed: bool = True) -> None:
        self.lines, self.why = files.names(), ""
        # those that ended before this command, and of them those that it revoked: name, shelf and fingerprint
        self.waiting = [line for line in self.lines if line.is_over()]
        self.revoked: list[tuple[str, str, str]] = []
        self.known: Known
        try:
            self.known = orders.keys({line.fingerprint: line.digest for line in self.lines})
        except Refused as why:
            if is_needed:
                raise
            self.why = str(why)
            users = files.front().get("users", {}).items()
            self.known = {digits: (user["shelf"], user["right"], user.get("sha256", "")) for digits, user in users}
        # (an older goshelf prints 16 digits of it, and knows a key by no more)
        self.has_sums = bool(self.known) and not self.why and all(digest for _, _, digest in self.known.values())

    def of(self, name: str, shelf: str | None = None) -> list[Name]:
        """Returns the lines of a name, and of a shelf, whose keys are valid."""
        found = [line for line in self.lines if line.name == name and not line.is_over()]
        found = [line for line in found if line.fingerprint in self.known]
        return [line for line in found if shelf in (None, self.known[line.fingerprint][0])]

    def shelf_of(self, line: Name) -> str:
        """Returns the shelf of the key of a line, or `-` if nobody has it."""
        return self.known[line.fingerprint][0] if line.fingerprint in self.known else "-"

    def digits(self, line: Name) -> str:
        """Returns what names the key of a line to goshelf: its SHA-256 if goshelf prints it, since another key may have
        the fingerprint."""
        known = "" if self.why else self.known.get(line.fingerprint, ("", "", line.digest))[2]
        return known or line.fingerprint

    def make(
        self,
        name: str,
        shelf: str,
        right: str,
        until: str = "",
        machine: str | None = None,
        label: str | None = None,
    ) -> tuple[str, Name]:
        """Makes a key of goshelf. Returns it and its line, which is one of the lines from now on. Refuses a name that
        has a key in it."""
        if self.has_key(f"{name} {label}"):
            raise Refused("a key is in the name, and logs have names")
        key = orders.new_key(shelf, right)
        line = Name(hashlib.sha256(key.encode()).hexdigest(), name, until, machine, label)
        self.lines.append(line)
        self.known[line.fingerprint] = shelf, right, line.digest if self.has_sums else ""
        return key, line

    def has_key(self, text: str) -> bool:
        """Whether a text has a key of goshelf, also in capitals, inside a word, or in parts."""
        text = re.sub("[^a-z0-9]", "", text.lower())
        parts = (text[at:end] for at in range(len(text)) for end in range(at + 16, min(at + 64, len(text)) + 1))
        return any(hashlib.sha256(part.encode()).hexdigest()[:16] in self.known for part in parts)

    def put(self, generation: int | None = None) -> None:
        """Writes names and goshelf.json, and has nginx read it if it is another. A wrong owners.json is refused at the
        end: until then its last right form counts, so that a name can be removed."""
        wrong, paths = "", files.front().get("owners")
        try:
            paths = files.owners()
        except Refused as why:
            if not paths:
                raise
            wrong = str(why)
        settings = files.made(self.lines, self.known, paths, generation)
        files.put_names(self.lines)
        if settings != files.front() or os.path.exists(f"{files.FOLDER}/{files.UNREAD}"):
            files.write(files.UNREAD, "nginx has not read goshelf.json yet\n")
            files.put_front(settings)
            try:
                nginx.reload(settings["serial"])
            finally:
                # (behind it, because a name server that is silent takes seconds)
                for fault in nginx.faults():
                    print(f"goshelf-front: {fault}", file=sys.stderr)
        if wrong:
            raise Refused(wrong)

    def finish(self) -> None:
        """Revokes the keys whose day is over, and drops their lines. Names those that goshelf still has."""
        left, wrong = [], []
        for line in self.lines:
            why = orders.revoke(self.digits(line)) if line.is_over() else ""
            if why or not line.is_over():
                left.append(line)
            elif line in self.waiting and line.fingerprint in self.known:
                self.note_revoked(line)
            if why:
                key, why = (
                    f"the key {line.fingerprint} of {line.name}",
                    "goshelf is stopped" if why == "device" else why,
                )
                wrong.append(f"nginx answers it with a 401 from now on, but {key} is not revoked: {why}")
        self.lines = left
        files.put_names(left)
        if wrong:
            raise Refused(
                "\ngoshelf-front: ".join([*wrong, "goshelf itself takes it until goshelf-front sync revokes it"])
            )

    def note_revoked(self, line: Name) -> None:
        """Notes that a key that waited for it was revoked."""
        shelf = self.shelf_of(line)
        self.revoked.append((line.name, shelf, line.fingerprint))
        publishes.note("revoke", name=line.name, fingerprint=line.fingerprint, shelf=shelf)

    def settle(self) -> None:
        """Has nginx read what changed, and revokes what is over, the one also if the other fails."""
        steps: tuple[Callable[[], None], ...] = self.put, self.finish
        wrong = []
        for step in steps:
            try:
                step()
            except (Refused, OSError) as why:
                wrong.append(str(why))
        if wrong:
            raise Refused("\ngoshelf-front: ".join(wrong))


def netrc(name: str, key: str) -> str:
    """Returns the line of ~/.netrc, in which a word has no space. nginx does not look at the login."""
    return f"machine {nginx.host()} login {re.sub(r'[^A-Za-z0-9._@-]+', '-', name)} password {key}"


def give(
    keys: Keys,
    name: str,
    shelf: str,
    right: str,
    until: str = "",
    machine: str | None = None,
    label: str | None = None,
) -> tuple[str, str]:
    """Makes a key and has nginx know it. Returns the key and its fingerprint. If it fails, no key is left."""
    names, front = files.read("names"), files.front()
    key, line = keys.make(name, shelf, right, until, machine, label)
    try:
        keys.put()
    except BaseException:
        orders.revoke(keys.digits(line))
        files.write("names", names)
        files.put_front(front)
        raise
    return key, line.fingerprint
