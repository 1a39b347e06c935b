"""Puts the files of deploy/nginx in their places, and makes the folders and logs that nginx needs."""

import argparse
import os
import re
from collections.abc import Iterable

from front_lib import before, files, logs, nginx, publishes
from front_lib.files import FOLDER, Refused

DEPLOY = "/usr/share/goshelf/deploy"
NAME_SERVERS = "/etc/resolv.conf"
CACHES = ("/var/cache/nginx/goshelf", "/var/cache/nginx/goshelf-public")
LOGS = ("/var/log/nginx/goshelf.log", "/var/log/nginx/goshelf-errors.log", publishes.LOG)
# what each release brings anew, and what the host has of its own
OURS = ("goshelf.js", "locations.conf", "errors.conf", "headers.conf", "page.conf", "public.conf", "keys.conf")
# nobody may log in by it
EMPTY = '{"users": {}}\n'
HOST = re.compile(r"[a-z0-9-]+(\.[a-z0-9-]+)*")


def source(name: str) -> str:
    """Returns the text of a file of deploy."""
    try:
        with open(f"{DEPLOY}/{name}", encoding="utf-8") as file:
            return file.read()
    except OSError as error:
        raise Refused(f"{DEPLOY}/{name} cannot be read: {error.strerror}") from None


def own(name: str, text: str) -> None:
    """Writes a file of the host's own, unless it is there."""
    if os.path.exists(name):
        print(f"kept {name}")
        return
    files.replace(name, text, 0o644)
    print(f"made {name}")


def with_name_server(text: str) -> str:
    """Returns a file of nginx with the name server of this host."""
    try:
        with open(NAME_SERVERS, encoding="utf-8") as file:
            found = re.search(r"^nameserver\s+([\d.]+)\s*$", file.read(), re.M)
    except OSError:
        found = None
    return text.replace("resolver 127.0.0.53 ", f"resolver {found[1]} ") if found else text


def conf(host: str, first: str | None) -> str:
    """Returns goshelf.conf of a host, or of one that is warm beside the first."""
    text = source("nginx/goshelf.conf")
    if first:
        above = re.sub(r"(?m)^proxy_cache_path .*keys_zone=goshelf:.*\n", "", text[: text.index("\nserver {") + 1])
        text = above + source("warm/server.conf").replace("warm.example.com", host)
    return with_name_server(text.replace("shelf.example.com", first or host))


def owners(words: Iterable[str]) -> str:
    """Returns the text of owners.json for words PATH=SHELF,SHELF."""
    pairs = [word.partition("=") for word in words]
    lists = [(path, ", ".join(f"{shelf!r}" for shelf in shelves.split(",") if shelf)) for path, _, shelves in pairs]
    text = "{\n" + ",\n".join(f'    "{path}": [{shelves}]' for path, shelves in lists).replace("'", '"') + "\n}\n"
    if faults := files.owner_faults(text):
        raise Refused("\ngoshelf-front: ".join(faults))
    return text


def refuse_others(words: Iterable[str]) -> None:
    """Refuses words PATH=SHELF whose path is not in owners.json: that is kept as it is."""
    known = files.owners()
    if other := [path for path, _, _ in (word.partition("=") for word in words) if path.lower() not in known]:
        place = f"{FOLDER}/owners.json"
        raise Refused(f"{place} is kept, and lacks {other[0]}: add a line there, then run goshelf-front uncache")


def folders() -> None:
    """Makes nginx's caches and logs, before nginx makes the logs for all to read."""
    user, _ = logs.owner()
    for name in CACHES:
        os.makedirs(name, 0o700, exist_ok=True)
        os.chown(name, user, -1)
    for name in LOGS:
        logs.own(name)
    why = publishes.seal()
    print(f"{publishes.LOG} is {f'not append-only: {why}' if why else 'append-only from now on: chattr -a undoes it'}")


def set_up(words: argparse.Namespace) -> None:
    """Puts all in place."""
    hosts: list[str] = [host for host in (words.host, words.warm) if host]
    for host in hosts:
        if not HOST.fullmatch(host):
            raise Refused(f"{host!r} is not the name of a host")
    text = owners(words.paths) if words.paths else ""
    if text and os.path.exists(f"{FOLDER}/owners.json"):
        refuse_others(words.paths)
    if before.is_there():
        before.set_aside()
    if not words.warm and not text and not os.path.exists(f"{FOLDER}/owners.json"):
        raise Refused("no path is named, and then every module would be public: PATH=SHELF")
    for name in OURS:
        files.replace(f"{FOLDER}/{name}", source(f"nginx/{name}"), 0o644)
    own(nginx.STREAM, with_name_server(source("nginx/stream.conf")))
    own(nginx.CONF, conf(words.host, words.warm))
    for name, content in (("names", ""), ("owners.json", text), ("goshelf.json", EMPTY)):
        if content or name == "names":
            own(f"{FOLDER}/{name}", content)
    folders()
