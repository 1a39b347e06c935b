"""The settings of a go command that a test runs."""

import functools
import os
import subprocess


def settings(home: str, **more: str) -> dict[str, str]:
    """Returns the environment of a go command with a home of its own, and without this machine's settings of Go."""
    clean = {name: text for name, text in os.environ.items() if not name.startswith(("GO", "GIT_")) and name != "NETRC"}
    own = {"HOME": home, "GOPATH": f"{home}/go", "GOFLAGS": "-modcacherw", "GOTOOLCHAIN": "local", "CGO_ENABLED": "0"}
    return {**clean, **own, "GOCACHE": build_cache(), **more}


@functools.cache
def build_cache() -> str:
    """Returns the folder in which the go command of this user caches what it compiles."""
    return subprocess.run(["go", "env", "GOCACHE"], capture_output=True, text=True, check=True).stdout.strip()
