"""Users of nginx, and how they log in."""

import base64

from lib.machine import Machine


class Logins:
    """Users by their passwords, which are keys of goshelf."""

    def __init__(self) -> None:
        self.passwords: dict[str, str] = {}

    def add_at(self, machine: Machine, host: str, user: str, shelf: str, right: str) -> None:
        """Adds a user of a host by the command of NGINX, and keeps the password that it prints."""
        words = machine.does(f"goshelf-front add {user} {shelf} {right}").split()
        assert words[:4] == ["machine", host, "login", user], words
        self.passwords[user] = words[5]

    def login(self, user: str) -> str:
        """Returns the header by which a user logs in."""
        return log_in(self.passwords[user], user)


def log_in(key: str, login: str = "any") -> str:
    """Returns the header of a login by a key. nginx does not look at what is before the colon."""
    return "Basic " + base64.b64encode(f"{login}:{key}".encode()).decode()
