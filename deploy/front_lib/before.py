"""The front with passwords of before: it goes on beside the new one until everybody has a key."""

import json
import os
import re
import subprocess
from collections.abc import Iterable

from front_lib import files, nginx, people
from front_lib.files import FOLDER, Refused

PLACE = f"{FOLDER}/before"
LOG = "/var/log/nginx/goshelf-before.log"
USER_LINE = re.compile(r'"Basic (\S+)" "(\S+) (\S+) (\S+) (\S+)";')
PATH_LINE = re.compile(r'"([^"]+)"\s+"([^"]*)"\s*;')
MAPS = ("users.map", "keys.map", "paths.map")
# its texts that are others beside the new front
EDITS = (
    ("/etc/nginx/goshelf/", "/etc/nginx/goshelf/before/"),
    ("/var/cache/nginx/goshelf", "/var/cache/nginx/goshelf-before"),
    ("/var/log/nginx/goshelf.log", LOG),
    # (nginx writes the request there as it was sent, and a key may be in it)
    ("error_log /var/log/nginx/goshelf-errors.log crit;", "error_log /dev/null emerg;"),
    ("$request_method $goshelf_target ", "... ... "),
    ("listen 443 ssl;", "listen 127.0.0.1:8446 ssl;"),
)
NGINX = """# nginx of the front with passwords, to which the new front passes logins that are no key of its own
user www-data;
pid /run/nginx-before.pid;
error_log /var/log/nginx/goshelf-before-errors.log crit;
pcre_jit on;
events {}
http {
    client_body_temp_path /var/cache/nginx/before-body;
    proxy_temp_path /var/cache/nginx/before-proxy;
    fastcgi_temp_path /var/cache/nginx/before-fastcgi;
    uwsgi_temp_path /var/cache/nginx/before-uwsgi;
    scgi_temp_path /var/cache/nginx/before-scgi;
    include /etc/nginx/goshelf/before/goshelf.conf;
}
"""


def read(name: str) -> str:
    try:
        with open(name, encoding="utf-8") as file:
            return file.read()
    except (OSError, UnicodeDecodeError) as error:
        raise Refused(f"{name} cannot be read: {error}") from None


def is_there() -> bool:
    """Whether nginx's file is still that of the front with passwords."""
    return os.path.exists(nginx.CONF) and "/users.map;" in read(nginx.CONF)


def set_aside() -> None:
    """Moves the front with passwords into a folder of its own, which an nginx of its own serves."""
    os.makedirs(PLACE, 0o700, exist_ok=True)
    for name in (*MAPS, "elsewhere.conf", "public.conf"):
        files.replace(f"{PLACE}/{name}", edited(read(f"{FOLDER}/{name}")))
    files.replace(f"{PLACE}/goshelf.conf", edited(read(nginx.CONF)))
    files.replace(f"{PLACE}/nginx.conf", NGINX)
    if not os.path.exists(f"{FOLDER}/owners.json"):
        files.write("owners.json", owners())
    for name in (*(f"{FOLDER}/{name}" for name in (*MAPS, "elsewhere.conf")), nginx.CONF):
        os.remove(name)
    print(f"moved the front with passwords to {PLACE}: nginx -c {PLACE}/nginx.conf")


def edited(text: str) -> str:
    """Returns a file of the front with passwords as it is beside the new one."""
    for old, new in EDITS:
        text = text.replace(old, new)
    return text


def owners() -> str:
    """Returns the text of owners.json that says what paths.map says."""
    found = [PATH_LINE.match(line.strip()) for line in read(f"{PLACE}/paths.map").splitlines()]
    paths = {words[1]: [shelf for shelf in words[2].split() if shelf != "-"] for words in found if words}
    lines = (f"    {json.dumps(path)}: {json.dumps(shelves)}" for path, shelves in paths.items())
    return "{\n" + ",\n".join(lines) + "\n}\n"


def users() -> list[tuple[str, str, str]]:
    """Returns the users of users.map: name, shelf and right."""
    found = [USER_LINE.fullmatch(line.strip()) for line in read(f"{PLACE}/users.map").splitlines()]
    return [people.checked("users.map: ", words[3], words[4], words[5])[:3] for words in found if words]


def drop(name: str) -> bool:
    """Removes a user of the front with passwords. Returns whether there was one."""
    if not os.path.exists(f"{PLACE}/users.map"):
        return False
    lines = read(f"{PLACE}/users.map").splitlines(True)
    found = [(USER_LINE.fullmatch(line.strip()), line) for line in lines]
    left = [line for words, line in found if not words or words[3] != name]
    if len(left) == len(lines):
        return False
    files.replace(f"{PLACE}/users.map", "".join(left))
    subprocess.run(["nginx", "-c", f"{PLACE}/nginx.conf", "-s", "reload"], capture_output=True)
    return True


def still() -> list[str]:
    """Returns who logged in by a password of before, and when last."""
    seen: dict[str, str] = {}
    lines: Iterable[str] = read(LOG).splitlines() if os.path.exists(LOG) and os.path.isdir(PLACE) else ()
    for line in lines:
        time, _, name, *_ = [*line.split(), "", "", ""]
        seen[name] = time
    names = [name for name in sorted(seen) if name > "-"]
    return [f"{name} still logs in by a password of before, last at {seen[name]}" for name in names]
