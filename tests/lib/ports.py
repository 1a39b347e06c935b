"""Ports of this host, and waiting."""

import random
import socket
import time
from collections.abc import Callable

# below the ports that the system gives to connections, so that no connection takes one before its server does
_PORTS = range(10_000, 32_768)
_CHOICE = random.SystemRandom()
_given: set[int] = set()


def free_port() -> int:
    """Returns a port on which nobody listens, each time another one."""
    while True:
        port = _CHOICE.choice(_PORTS)
        if port not in _given and _is_free(port):
            _given.add(port)
            return port


def _is_free(port: int) -> bool:
    with socket.socket() as held:
        try:
            held.bind(("127.0.0.1", port))
        except OSError:
            return False
        return True


def is_listening(port: int) -> bool:
    """Whether somebody listens on a port."""
    with socket.socket() as probe:
        return probe.connect_ex(("127.0.0.1", port)) == 0


def wait_for(port: int, seconds: float = 30) -> None:
    """Waits until somebody listens on a port."""
    wait_until(lambda: is_listening(port), seconds, f"nobody listens on {port}")


def wait_until(holds: Callable[[], object], seconds: float = 30, otherwise: str = "it did not come about") -> None:
    """Waits until something holds. Fails after a limit."""
    end = time.monotonic() + seconds
    while not holds():
        assert time.monotonic() < end, f"{otherwise} within {seconds} seconds"
        time.sleep(0.02)
