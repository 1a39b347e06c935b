"""What keeps the forms of goshelf-keys from being sent by anybody but the person who saw them, and too often."""

import hashlib
import hmac
import secrets
import threading
import time
from email.message import Message

# how long a form is good, and for how long a person's orders count, in seconds
LIFE, HOUR = 900, 3600
# orders of one person in an hour: each has nginx read its files
ORDERS = 20


class Forged(Exception):
    """Why an order is not taken: a status and a sentence."""

    def __init__(self, status: int, said: str) -> None:
        super().__init__(said)
        self.status = status


class Guard:
    """Tokens that forms carry, each of them good once, for one person and a while. They end with the process."""

    def __init__(self) -> None:
        self.secret, self.lock = secrets.token_bytes(32), threading.Lock()
        # the end of each token that was used, and the times of the orders of each person
        self.used: dict[str, int] = {}
        self.orders: dict[str, list[float]] = {}

    def token(self, name: str) -> str:
        """Returns a new token for a person."""
        text = f"{secrets.token_hex(16)}.{int(time.monotonic()) + LIFE}"
        return f"{text}.{self.sum(name, text)}"

    def sum(self, name: str, text: str) -> str:
        return hmac.new(self.secret, f"{text}\n{name}".encode(), hashlib.sha256).hexdigest()

    def take(self, name: str, token: str) -> None:
        """Uses a token up."""
        text, _, digest = token.rpartition(".")
        _, _, end = text.partition(".")
        now = time.monotonic()
        if not hmac.compare_digest(self.sum(name, text).encode(), digest.encode()) or int(end) < now:
            raise Forged(403, "This form is not of this page, or older than 15 minutes. Nothing was done.")
        with self.lock:
            self.used = {used: until for used, until in self.used.items() if until >= now}
            if text in self.used:
                raise Forged(403, "This form was sent before. Nothing was done now.")
            self.count(name, now)
            self.used[text] = int(end)

    def count(self, name: str, now: float) -> None:
        """Counts an order of a person."""
        recent = [order for order in self.orders.get(name, ()) if order > now - HOUR]
        if len(recent) >= ORDERS:
            raise Forged(429, f"You sent {ORDERS} orders within an hour. Nothing was done: wait.")
        self.orders[name] = [*recent, now]


def from_here(headers: Message) -> None:
    """Refuses a form that a page of another site sent. Every browser names the site of a form; nginx passes it on."""
    host: list[str] = headers.get_all("Host", [])
    origin: list[str] = headers.get_all("Origin", [])
    is_same = len(host) == 1 and origin == [f"https://{host[0]}"]
    if not is_same or headers.get_all("Sec-Fetch-Site", []) not in ([], ["same-origin"]):
        raise Forged(403, "Another site sent this form. Nothing was done.")
