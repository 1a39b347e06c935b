"""What the page of goshelf-keys does with the keys of one person, by the steps of goshelf-front and under its lock."""

import contextlib
import fcntl
import os
import time
from collections.abc import Iterator, Mapping

from front_lib import files, people, publishes
from front_lib.files import Refused
from front_lib.guard import Forged
from front_lib.keys import Keys, give, netrc
from front_lib.page import Key

# keys of one person, and seconds to wait for a goshelf-front that runs
MOST, WAIT = 10, 30
BY = "the page"


class Away(Exception):
    """What the person reads, and the cause, which the log has."""

    def __init__(self, said: str, cause: str) -> None:
        super().__init__(said)
        self.cause = cause


@contextlib.contextmanager
def locked() -> Iterator[None]:
    """Lets nobody else change the files meanwhile."""
    lock, end = os.open(files.FOLDER, os.O_RDONLY | os.O_CLOEXEC), time.monotonic() + WAIT
    try:
        while True:
            try:
                fcntl.flock(lock, fcntl.LOCK_EX | fcntl.LOCK_NB)
                break
            except BlockingIOError:
                if time.monotonic() > end:
                    raise Away("An operator changes the front. Nothing was done: try again.", "no lock") from None
                time.sleep(0.1)
        yield
    finally:
        os.close(lock)


@contextlib.contextmanager
def or_away(said: str) -> Iterator[None]:
    """Says this to the person if the front fails."""
    try:
        yield
    except (Refused, OSError) as why:
        raise Away(said, str(why)) from None


def rights(name: str) -> dict[str, tuple[str, str]]:
    """Returns the rights of a person, by shelf. Refuses whoever has none."""
    with or_away("The files of the front cannot be read. Tell an operator."):
        found = people.rights(name)
    if not found:
        raise Forged(403, f"goshelf knows nobody by the name {name}. Ask an operator.")
    return found


def keys(name: str) -> list[Key]:
    """Returns the keys of a person that nginx takes."""
    with or_away("The files of the front cannot be read. Tell an operator."):
        labels = {line.fingerprint: line.label for line in files.names()}
    users = files.front().get("users", {}).items()
    return [
        Key(labels.get(fingerprint) or "", user["shelf"], user["right"], fingerprint, user.get("until", ""))
        for fingerprint, user in users
        if user["name"] == name and not user.get("machine") and not files.is_over(user.get("until", ""))
    ]


def make(name: str, shelf: str, machine: str) -> tuple[str, str]:
    """Makes a key of a person for a machine. Returns the line for ~/.netrc, and the fingerprint."""
    if not files.is_label(machine):
        said = "1 to 64 characters, none of them a tab, an end of line or one that does not show"
        raise Forged(400, f"The name of a machine has {said}.")
    with locked():
        own = rights(name)
        if shelf not in own:
            raise Forged(403, "You have no right there. Nothing was done.")
        if len(keys(name)) >= MOST:
            raise Forged(409, f"You have {MOST} keys, the most that one person may have. Revoke one first.")
        with or_away("No key was made: goshelf or nginx does not answer. Try again in a minute."):
            files.owners()
            held = Keys()
            if held.has_key(machine):
                raise Forged(400, "A key is in the name of the machine, and others read that. Nothing was done.")
            key, fingerprint = give(held, name, shelf, *own[shelf], label=machine)
        publishes.note("add", by=BY, name=name, fingerprint=fingerprint, shelf=shelf)
        return netrc(name, key), fingerprint


def revoke(name: str, fingerprint: str) -> str:
    """Ends a key of a person. Returns a sentence that says what became of it."""
    failed = "The key is not revoked everywhere yet. Look again in a minute, and tell an operator if it is still there."
    with locked(), or_away(failed):
        own, held = rights(name), Keys(is_needed=False)
        gone = [
            line for line in held.lines if (line.name, line.fingerprint) == (name, fingerprint) and not line.machine
        ]
        if not gone or gone[0].is_over():
            raise Forged(404, "You have no such key.")
        shelf = held.shelf_of(gone[0])
        keep(name, shelf, own)
        gone[0].until = files.REMOVED
        publishes.note("remove", by=BY, name=name, fingerprint=fingerprint, shelf=shelf)
        try:
            held.settle()
        except Refused:
            if fingerprint in files.front()["users"] or os.path.exists(f"{files.FOLDER}/{files.UNREAD}"):
                raise
            return f"nginx takes the key {fingerprint} no longer. goshelf does not answer, and revokes it once it does."
        return f"The key {fingerprint} is worth nothing from now on."


def keep(name: str, shelf: str, own: Mapping[str, tuple[str, str]]) -> None:
    """Has the front remember who revokes a key, which may be the person's last."""
    listed = people.last()
    if shelf in own and (name, shelf) not in listed:
        people.keep({**listed, (name, shelf): own[shelf]})
