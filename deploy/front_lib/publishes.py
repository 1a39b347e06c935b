"""The log of publishes and of orders of goshelf-front: a JSON object a line, which nginx and goshelf-front append."""

import json
import os
import subprocess
import sys
from collections.abc import Iterator, Mapping

from front_lib import files

LOG = "/var/log/goshelf/publishes.log"
COLUMNS = ("time", "name", "fingerprint", "shelf", "path", "version", "status")


def note(order: str, by: str = "", **words: str) -> None:
    """Appends an order of goshelf-front. A log that cannot be written stops no order: a line on standard error says
    so."""
    by = by or os.environ.get("SUDO_USER") or "root"
    line = json.dumps({"time": files.now().isoformat(timespec="seconds"), "order": order, "by": by, **words})
    try:
        descriptor = os.open(LOG, os.O_WRONLY | os.O_APPEND | os.O_CREAT, 0o640)
        with open(descriptor, "w", encoding="utf-8") as file:
            file.write(f"{line}\n")
    except OSError as error:
        print(f"goshelf-front: {LOG} cannot be written: {error.strerror}", file=sys.stderr)


def seal(is_open: bool = False) -> str:
    """Has the file system refuse to change or remove what the log has, or lets it again. Returns why it cannot."""
    try:
        ran = subprocess.run(["chattr", "-a" if is_open else "+a", LOG], capture_output=True, text=True)
    except OSError as error:
        return f"chattr: {error.strerror}"
    return ran.stderr.strip() if ran.returncode else ""


def lines() -> Iterator[dict[str, str]]:
    """Yields the lines of the log, each as an object. Refuses in the end if some are none."""
    wrong = 0
    try:
        with open(LOG, encoding="utf-8", errors="replace") as file:
            for line in file:
                try:
                    yield {str(key): str(value) for key, value in json.loads(line).items()}
                except (ValueError, AttributeError):
                    wrong += 1
    except OSError as error:
        raise files.Refused(f"{LOG} cannot be read: {error.strerror}") from None
    if wrong:
        raise files.Refused(f"{LOG} has {wrong} lines that are no publish and no order")


def is_at(path: str, top: str) -> bool:
    """Whether a path is another one or below it."""
    return path == top or path.startswith(f"{top}/")


def printed(line: Mapping[str, str]) -> str:
    """Returns a line of the log as it is printed. No text of it ends the line or moves the cursor."""
    status = line.get("status") or f"{line.get('order', '?')} by {line.get('by', '?')}"
    words = [line.get(key, "-") or "-" for key in COLUMNS[:-1]] + [status]
    return "\t".join("".join(letter if letter.isprintable() else "?" for letter in word) for word in words)


def show(path: str = "", name: str = "", since: str = "") -> None:
    """Prints the lines of a path and all below it, of a name, and from a day on."""
    for line in lines():
        is_wanted = not path or is_at(line.get("path", ""), path)
        if is_wanted and (not name or line.get("name") == name) and line.get("time", "") >= since:
            print(printed(line))
