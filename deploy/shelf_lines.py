"""Prints what a shelf sees, or runs a command, by a key that a running goshelf has only meanwhile. goshelf-catalog
runs it.

usage: shelf_lines.py CONTROL KEPT [SHELF [COMMAND ..]]

It asks at the socket CONTROL as `goshelf catalog` does, because `ps` would show the key of that command. The key is in
the file KEPT from before goshelf has it until after it is revoked, so a later call revokes what a kill left. Without
SHELF it does that alone. COMMAND, which may read the key in KEPT, runs in place of the printing.

exit status: 0 done; 1 a line is missing or the key is not revoked, and standard error says why; 2 bad usage; or that of
COMMAND
"""

import os
import re
import secrets
import signal
import socket
import subprocess
import sys
import time

# how often it asks a goshelf that makes a copy or another catalog, once a second
TRIES = 600
# seconds that it waits for more of a reply
PATIENCE = 600


class Refused(Exception):
    """Why it failed."""


def replied(control, line):
    """Yields the lines of the reply to an order."""
    try:
        with socket.socket(socket.AF_UNIX) as held:
            held.settimeout(PATIENCE)
            held.connect(control)
            held.sendall(f"{line}\n".encode())
            with held.makefile("rb") as reply:
                yield from reply
    except OSError as error:
        raise Refused(f"goshelf does not answer: {error.strerror or error}") from None


def word_of(line):
    """The word of the last line of a reply."""
    word = line.decode(errors="replace")
    return word[:-1] if re.fullmatch("[a-z-]+\n", word) else "the reply was cut off"


def order(control, line):
    """The word of the reply to an order, or why there is none."""
    try:
        return word_of(b"".join(replied(control, line)))
    except Refused as refused:
        return str(refused)


def revoke(control, kept):
    """Revokes the key in a file, if there is one, and removes the file."""
    try:
        with open(kept, encoding="ascii", errors="replace") as file:
            key = file.read()
    except FileNotFoundError:
        return
    # (a key that is not whole was not added)
    if re.fullmatch("[0-9a-f]{32}", key):
        word = order(control, f"key-revoke {key}")
        if word not in ("done", "no-key"):
            raise Refused(f"the key in {kept} is not revoked: {word}")
    os.remove(kept)


def keep(kept, key):
    """Writes a key into a new file, and waits until the disk has it."""
    folder = os.open(os.path.dirname(kept) or ".", os.O_RDONLY)
    with open(os.open(kept, os.O_WRONLY | os.O_CREAT | os.O_EXCL, 0o600), "w", encoding="ascii") as file:
        file.write(key)
        file.flush()
        os.fsync(file.fileno())
    os.fsync(folder)
    os.close(folder)


def print_lines(control, key):
    """Prints the lines of a key's catalog, and returns the word behind them."""
    last = b""
    for line in replied(control, f"catalog {key}"):
        sys.stdout.buffer.write(last)
        last = line
    sys.stdout.buffer.flush()
    return word_of(last)


def by_a_key(control, kept, shelf, does):
    """Calls `does` with a key of a shelf, and returns its word, or the word by which goshelf refuses the key."""
    key = secrets.token_hex(16)
    keep(kept, key)
    try:
        word = order(control, f"reader-add {shelf} {key}")
        return does(key) if word == "done" else word
    finally:
        revoke(control, kept)


def print_when_free(control, kept, shelf):
    """Prints what a shelf sees, once goshelf makes no copy and no other catalog."""
    for _ in range(TRIES):
        word = by_a_key(control, kept, shelf, lambda key: print_lines(control, key))
        if word != "busy":
            break
        # (a copy that begins now has no key of this)
        time.sleep(1)
    if word != "done":
        raise Refused(word)


def run(control, kept, shelf, command):
    """Runs a command while goshelf has a key of a shelf, and returns its status."""
    status = by_a_key(control, kept, shelf, lambda _: subprocess.run(command).returncode)
    if isinstance(status, str):
        raise Refused(status)
    return status


def main(words):
    if words in (["-h"], ["--help"]):
        print(__doc__, end="")
        return 0
    if len(words) < 2 or "" in words[:3] or words[0].startswith("-"):
        print(__doc__, end="", file=sys.stderr)
        return 2
    control, kept, *shelf = words[:3]
    for it in (signal.SIGHUP, signal.SIGINT, signal.SIGTERM):
        signal.signal(it, lambda *_: sys.exit(1))
    try:
        revoke(control, kept)
        if words[3:]:
            return run(control, kept, *shelf, words[3:])
        if shelf:
            print_when_free(control, kept, *shelf)
    except (Refused, OSError) as refused:
        print(refused, file=sys.stderr)
        return 1
    return 0


if __name__ == "__main__":
    sys.exit(main(sys.argv[1:]))
