"""nginx's part of the front: it reads new files, and what would stop it."""

import glob
import http.client
import os
import re
import shutil
import socket
import ssl
import subprocess
import sys
import time
from collections.abc import Iterator, Mapping
from typing import Any

import doctor_nginx
from front_lib import files, logs
from front_lib.files import FOLDER, Refused

CONF = "/etc/nginx/conf.d/goshelf.conf"
STREAM = "/etc/nginx/modules-enabled/goshelf.conf"
# its way to the public proxy, by stream.conf
WAY = "127.0.0.1:8444"
# where nginx says which goshelf.json it has read
SAYS = "127.0.0.1:8445"
# how long it may take to read it, in seconds; and how often in a row it has to say so, because the processes of before
# go on for a moment
LIMIT, ROW = 20, 15


def conf() -> str:
    """Returns nginx's file."""
    try:
        with open(CONF, encoding="utf-8") as file:
            return file.read()
    except OSError as error:
        raise Refused(f"{CONF} cannot be read: {error.strerror}") from None


def host() -> str:
    """Returns the name of the host in nginx's file, for a line of ~/.netrc."""
    found = re.search(r"listen [^;]*\bssl\b[^;]*;\s*(?:listen [^;]*;\s*)*server_name\s+([\w.-]+)", conf())
    return found[1] if found else "HOST"


def said() -> str:
    """Returns the number of the goshelf.json that a process of nginx has read, or nothing."""
    conn = http.client.HTTPConnection(SAYS, timeout=5)
    try:
        conn.request("GET", "/")
        return conn.getresponse().read().decode(errors="replace").strip()
    except (OSError, http.client.HTTPException):
        return ""
    finally:
        conn.close()


def wait(serial: int) -> None:
    """Waits until each process of nginx that takes connections has read the goshelf.json of a number."""
    begun, row = time.monotonic(), 0
    while row < ROW:
        row = row + 1 if said() == str(serial) else 0
        if time.monotonic() - begun > LIMIT:
            raise Refused(f"nginx does not say within {LIMIT} s that it has read goshelf.json: does it run, by {CONF}?")
        time.sleep(0.02)


def logs_of(text: str) -> list[str]:
    """Returns the logs that nginx's file names."""
    return sorted(set(re.findall(r"^\s*(?:access|error)_log\s+(/(?!dev/)\S+?)[\s;]", text, re.M)))


def make_logs() -> list[str]:
    """Makes the logs that are missing, before nginx makes them for all to read. Returns those."""
    return logs.make(logs_of(conf())) if os.path.exists(CONF) else []


def refusal() -> str:
    """Returns why nginx refuses its files, or nothing."""
    make_logs()
    tried = subprocess.run(["nginx", "-q", "-t"], capture_output=True, text=True)
    return (tried.stderr.strip() or "it says no more") if tried.returncode else ""


def reload(serial: int) -> None:
    """Has nginx read goshelf.json, and waits until it obeys."""
    if why := refusal():
        raise Refused(f"goshelf.json is written, but nginx refuses its files and goes on by the old ones:\n{why}")
    if subprocess.run(["nginx", "-s", "reload"], capture_output=True).returncode:
        print("goshelf-front: nginx does not run: it reads the file when it starts", file=sys.stderr)
    else:
        wait(serial)
    os.remove(f"{FOLDER}/{files.UNREAD}")


def certificate_faults(text: str) -> list[str]:
    """Returns what is wrong with the certificate of nginx's file."""
    named = re.search(r"ssl_certificate\s+([^;\s]+);", text)
    if not named:
        return [f"{CONF} names no certificate"]
    ends, matches = (x509(named[1], *words) for words in (("-checkend", "86400"), ("-checkhost", host())))
    if "ertificate" not in ends:
        return [f"{named[1]} cannot be read as a certificate"]
    found = [f"{named[1]} ends within a day, or has ended"] if "will not expire" not in ends else []
    begins = x509(named[1], "-startdate").strip().removeprefix("notBefore=")
    if ssl.cert_time_to_seconds(begins) > time.time():
        found.append(f"{named[1]} begins on {begins}, or the clock of this host is behind")
    return found + ([f"{named[1]} is not for {host()}"] if "NOT match" in matches else [])


def key_faults(text: str) -> Iterator[str]:
    """Yields that others than root and its group may read the key of the certificate."""
    for name in re.findall(r"^\s*ssl_certificate_key\s+([^;\s]+);", text, re.M):
        if os.path.exists(name) and os.stat(name).st_mode & 0o7:
            yield f"anybody on this host may read {name}: chmod 600 {name}"


def x509(name: str, *words: str) -> str:
    """Returns what openssl says of a certificate."""
    return subprocess.run(["openssl", "x509", "-noout", "-in", name, *words], capture_output=True, text=True).stdout


def folder_faults(text: str) -> Iterator[str]:
    """Yields which caches have no room, and which logs others may read. (nginx itself makes a cache that is not
    there.)"""
    for name, count, unit in re.findall(r"^proxy_cache_path\s+(\S+)\s.*min_free=(\d+)([mg])", text, re.M):
        room = int(count) << {"m": 20, "g": 30}[unit]
        if os.path.isdir(name) and shutil.disk_usage(name).free < room:
            yield f"{name}: its disk has less room than min_free={count}{unit} leaves, so nginx caches next to nothing"
    for name in logs_of(text):
        if os.path.exists(name) and os.stat(name).st_mode & 0o7:
            yield f"others than root and its group may read {name}: chmod 640 {name}"


def is_asked_outside(text: str) -> bool:
    """Whether nginx asks the public proxy."""
    return bool(re.search(r"^js_var \$goshelf_others public;", text, re.M))


def port_faults(text: str) -> Iterator[str]:
    """Yields which addresses nobody listens on that nginx asks: its own way out, and each goshelf."""
    asked = re.findall(r"^upstream goshelf[\w-]* \{\s*server ([\w.:-]+);", text, re.M)
    way = [WAY] if is_asked_outside(text) else []
    for address in (*asked, *way):
        name, _, port = address.rpartition(":")
        try:
            socket.create_connection((name, int(port)), 5).close()
        except OSError as error:
            yield f"nobody answers at {address}, which nginx asks: {error.strerror or error}"


def name_faults(text: str) -> Iterator[str]:
    """Yields which name server of nginx's files does not know the public proxy, if nginx asks it."""
    if not is_asked_outside(text):
        return
    try:
        with open(STREAM, encoding="utf-8", errors="replace") as file:
            stream = file.read()
    except OSError as error:
        yield f"{STREAM} cannot be read: {error.strerror}"
        return
    found = re.search(r"^\s*set \$goshelf_public ([\w.-]+\.[a-z]+):\d+;", stream, re.M)
    if not found:
        return
    for server in sorted({*re.findall(r"^\s*resolver (\S+) ", f"{text}\n{stream}", re.M)}):
        if why := doctor_nginx.unknown(server, found[1]):
            second = "docs/NGINX.md has a second way, which asks none"
            yield f"the name server {server}, which nginx asks, {why} {found[1]}: {second}"


def clock_faults(settings: Mapping[str, Any]) -> list[str]:
    """Returns that the clock was set back, by which keys live whose last day is over."""
    if settings.get("serial", 0) > time.time() * 1000 + 60_000:
        return ["the clock of this host is behind the last change of goshelf.json: last days count by it"]
    return []


def page_faults() -> Iterator[str]:
    """Yields which locations of goshelf-keys let a caller name a person: one needs auth_request, which alone says who
    it is, or else to take nobody but the company's proxy."""
    for name in sorted(glob.glob(f"{FOLDER}/login*.conf")):
        with open(name, encoding="utf-8", errors="replace") as file:
            found = doctor_nginx.Directive([], doctor_nginx.parsed(file.read()))
        for location in found.all("location"):
            held = {tuple(directive.words) for directive in location.block}
            sets = {directive.words[0] for directive in location.block if directive.words[1:2] == ["$goshelf_name"]}
            asks = any(words[0] == "auth_request" and words[1] != "off" for words in held)
            is_asked = asks and sets == {"auth_request_set"}
            is_closed = ("deny", "all") in held and ("satisfy", "any") not in held
            if ("include", f"{FOLDER}/keys.conf") in held and not is_asked and not is_closed:
                yield f"{name}: anybody may name a person at {location.words[-1]}: docs/NGINX.md has its two forms"


def other_faults() -> Iterator[str]:
    """Yields which files of nginx answer for each name that no other file has, as Debian's own site does."""
    for name in sorted(glob.glob("/etc/nginx/sites-enabled/*")):
        with open(name, encoding="utf-8", errors="replace") as file:
            if re.search(r"^\s*listen\b[^;#]*\bdefault_server\b", file.read(), re.M):
                yield f"{name} logs keys that come by another name of this host: rm {name} && nginx -s reload"


def faults() -> list[str]:
    """Returns what is wrong with nginx's side of the front, apart from names and paths."""
    try:
        text = conf()
    except Refused as why:
        return [str(why)]
    found = [*certificate_faults(text), *key_faults(text), *folder_faults(text), *page_faults(), *other_faults()]
    found += clock_faults(files.front())
    found += name_faults(text)
    if said():
        found += port_faults(text)
    elif os.path.exists(f"{FOLDER}/goshelf.json"):
        found.append(f"nginx does not answer at {SAYS}: does it run, by {CONF}?")
    return found
