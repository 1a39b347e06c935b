"""What systemd says of the units of goshelf."""

import re
import subprocess


def shown(unit: str, name: str) -> str:
    """Returns a property of a unit, or nothing."""
    words = ["systemctl", "show", "-P", name, unit]
    try:
        return subprocess.run(words, stdin=subprocess.DEVNULL, capture_output=True, text=True).stdout.strip()
    except OSError:
        return ""


def port_of(unit: str) -> int | None:
    """Returns the port of 127.0.0.1 of a unit, which is that of its socket, or None."""
    found = re.search(r":(\d+) \(Stream\)", shown(f"{unit}.socket", "Listen"))
    return int(found[1]) if found else None
