"""Modules of a test's own behind nginx, and strangers who ask there."""

from typing import Any

from lib.front import Client, Front, Reply
from lib.ports import wait_until


def ask_as_stranger(front: Client, method: str, target: str, header: str | None = None, *more: Any) -> Reply:
    """Returns the reply to a stranger, who asks again after a 429: nginx lets strangers ask five times a second."""
    replies: list[Reply] = []

    def is_answered() -> bool:
        replies.append(front.ask(method, target, header, *more))
        return replies[-1][0] != 429

    wait_until(is_answered)
    return replies[-1]


class Module:
    """A module, and what users get of it."""

    def __init__(self, front: Front, name: str) -> None:
        self.front, self.path = front, f"example.com/{name}"
        self.at, self.gomod = f"/{self.path}/@v", f"module {self.path}\n".encode()
        self.lengths = {"Mod-Length": str(len(self.gomod))}

    def put(self, version: str, content: bytes = b"", user: str = "pub") -> Reply:
        """Publishes a version with a zip of these bytes."""
        return self.put_body(version, self.gomod + content, user)

    def put_body(self, version: str, body: bytes, user: str = "pub") -> Reply:
        """Publishes a version by a body that may be wrong."""
        return self.front.ask("PUT", f"{self.at}/{version}", self.front.login(user), body, self.lengths)

    def get(self, file: str, user: str = "ann") -> Reply:
        """Returns what a user gets for a file, or for `list`."""
        return self.front.get(f"{self.at}/{file}", user)
