"""Stores in files, made by the program's commands."""

import os
from collections.abc import Iterable

from lib.keys import MEMBERS, PLATFORM
from lib.program import done

# a group with its keys, and a shelf with its keys and its group, as `add_group` and `add_shelf` take them
Group = tuple[str, ...]
Shelf = tuple[str, ...]


def new_store(file: str, *shelves: Shelf, groups: Iterable[Group] = ()) -> None:
    """Makes a store with these groups and shelves."""
    done("init", "--db", file)
    for group in groups:
        add_group(file, *group)
    for shelf in shelves:
        add_shelf(file, *shelf)


def remove_store(file: str) -> None:
    """Removes those of a store's files that exist."""
    for name in (file, f"{file}-wal"):
        if os.path.exists(name):
            os.remove(name)


def add_shelf(file: str, shelf: str, key: str, reader: str = "", group: str = "") -> None:
    """Adds a team, in a group if one is named, and its keys. The shelf `common` gets only the keys."""
    if shelf != "common":
        done("team-add", "--db", file, "--team", shelf, *(["--group", group] if group else []))
    add_keys(file, shelf, key, reader)


def add_group(file: str, group: str, key: str, reader: str = "") -> None:
    """Adds a group and its keys."""
    done("group-add", "--db", file, "--group", group)
    add_keys(file, group, key, reader)


def add_keys(file: str, shelf: str, key: str, reader: str = "") -> None:
    """Adds a key that publishes to the shelf and, if one is named, a key that only reads."""
    done("key-add", "--db", file, "--shelf", shelf, "--key", key)
    if reader:
        done("key-add", "--db", file, "--shelf", shelf, "--key", reader, "--read-only")


def add_platform(file: str) -> None:
    """Adds the group platform and its teams gamma and delta, each with its key that publishes."""
    add_group(file, *PLATFORM)
    for member in MEMBERS:
        add_shelf(file, *member)
