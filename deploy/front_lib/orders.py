"""Orders to the goshelfs of this host: their keys and their shelves."""

import re
import subprocess
from collections.abc import Iterator, Mapping

from front_lib.files import Known, Refused

SETTINGS = "/etc/default/goshelf"
UNITS = re.compile(r"GOSHELF_UNITS=(['\"]?)([a-z0-9 -]+)\1")
KEY = re.compile(r"[a-z0-9]{16,64}")


def units() -> list[str]:
    """Returns the units of the goshelfs: one, or a shard each."""
    try:
        with open(SETTINGS, encoding="utf-8") as file:
            found = [UNITS.fullmatch(line.strip()) for line in file]
    except OSError:
        found = []
    return next((words[2].split() for words in reversed(found) if words), ["goshelf"])


def order(unit: str, command: str, *words: str) -> tuple[str, str]:
    """Gives a goshelf an order. Returns what it prints, and the word of its refusal or nothing."""
    ran = subprocess.run(
        ["goshelf", command, "--control", f"/run/{unit}/control", *words], capture_output=True, text=True
    )
    word = ran.stderr.strip().removeprefix("goshelf: ") or "it failed"
    return ran.stdout, "" if ran.returncode == 0 else word


def listed(command: str) -> Iterator[tuple[str, list[str]]]:
    """Yields the unit and the words of each line that each goshelf prints of an order."""
    for unit in units():
        printed, word = order(unit, command)
        if word:
            if word == "device":
                raise Refused(f"{unit} is stopped: start it, then run goshelf-front sync")
            raise Refused(f"{unit} does not say its {command.removesuffix('-list')}s: {word}")
        yield from ((unit, line.split()) for line in printed.splitlines())


def keys(named: Mapping[str, str]) -> Known:
    """Returns the keys of goshelf: shelf, right, and the SHA-256 where goshelf prints it, by fingerprint. `named` has
    the SHA-256 of names, or 16 digits of it, by fingerprint too: another key with such a fingerprint is left out."""
    found: dict[str, tuple[str, str, str] | None] = {}
    for _, (shelf, right, fingerprint, *digest) in listed("key-list"):
        key = shelf, right, "".join(digest[:1])
        if key[2] and not key[2].startswith(named.get(fingerprint, "")):
            continue
        # two keys with one fingerprint are nobody's, unless they are one key at two shards
        found[fingerprint] = key if found.get(fingerprint, key) == key else None
    return {fingerprint: key for fingerprint, key in found.items() if key}


def shelves() -> dict[str, str]:
    """Returns the unit of each shelf. That of common is the first."""
    found: dict[str, str] = {}
    for unit, (name, *_) in listed("shelf-list"):
        found.setdefault(name, unit)
    return found


def new_key(shelf: str, right: str) -> str:
    """Has the goshelf of a shelf make a key, and returns it."""
    unit = shelves().get(shelf)
    if not unit:
        raise Refused(f"there is no shelf {shelf!r}")
    printed, word = order(unit, "key-add", "--shelf", shelf, "--new", *(["--read-only"] if right == "read" else []))
    key = printed.strip()
    if word or not KEY.fullmatch(key):
        raise Refused(f"goshelf makes no key for {shelf}: {word or 'it prints none'}")
    return key


def revoke(digits: str) -> str:
    """Has each goshelf revoke the key with a SHA-256 or a fingerprint. Returns why one still has it, or nothing."""
    words = [order(unit, "key-revoke", "--fingerprint", digits)[1] for unit in units()]
    return next((word for word in words if word not in ("", "no-key")), "")
