"""What tests need of the machine: commands, modules of nginx, and the Debian packages that have them."""

import os
import shutil
from collections.abc import Iterable

PACKAGES: dict[str, tuple[str, ...]] = {
    "adduser": ("adduser",),
    "black": ("black",),
    "chromium": ("chromium",),
    "cc": ("gcc", "libc6-dev"),
    "curl": ("curl",),
    "flock": ("util-linux",),
    "go": ("golang-go", "golang-golang-x-mod-dev"),
    "gofmt": ("golang-go",),
    "ip": ("iproute2",),
    "mypy": ("mypy",),
    "nginx": ("nginx-light",),
    "nginx-js": ("libnginx-mod-http-js",),
    "nginx-stream": ("libnginx-mod-stream",),
    "nft": ("nftables",),
    "openssl": ("openssl",),
    "pgrep": ("procps",),
    "pyflakes3": ("pyflakes3",),
    "prlimit": ("util-linux",),
    "ps": ("procps",),
    "pytest": ("python3-pytest", "python3-pytest-timeout", "python3-pytest-xdist"),
    "setpriv": ("util-linux",),
    "shellcheck": ("shellcheck",),
    "sqlite3": ("sqlite3",),
    "strace": ("strace",),
    "systemd-analyze": ("systemd",),
    "tidy": ("tidy",),
    "umount": ("mount",),
    "unshare": ("util-linux",),
    "xxd": ("xxd",),
    "zstd": ("zstd",),
}
# modules of nginx, which are no commands
MODULES = {
    "nginx-js": "/usr/lib/nginx/modules/ngx_http_js_module.so",
    "nginx-stream": "/usr/lib/nginx/modules/ngx_stream_module.so",
}


def is_found(command: str) -> bool:
    """Whether the machine has a command or a module of nginx. Some commands are on the path of root alone."""
    if command in MODULES:
        return os.path.exists(MODULES[command])
    return bool(shutil.which(command) or shutil.which(command, path="/usr/sbin:/sbin"))


def find_missing(commands: Iterable[str]) -> list[str]:
    """Returns those of the commands that the machine lacks."""
    return [command for command in commands if not is_found(command)]


def missing_packages() -> list[str]:
    """Returns the Debian packages of the commands that the machine lacks."""
    return sorted({package for command in find_missing(PACKAGES) for package in PACKAGES[command]})
