"""The logs of nginx, which only root and its group read. nginx itself would make one for all to read."""

import grp
import os
import pwd

from collections.abc import Iterable

from front_lib import publishes


def owner() -> tuple[int, int]:
    """Returns the numbers of nginx's user, and of the group that reads logs."""
    users, groups = {user.pw_name for user in pwd.getpwall()}, {group.gr_name for group in grp.getgrall()}
    user = next((name for name in ("www-data", "nginx") if name in users), "root")
    group = next((name for name in ("adm", user) if name in groups), "root")
    return pwd.getpwnam(user).pw_uid, grp.getgrnam(group).gr_gid


def own(name: str) -> None:
    """Makes a log if it is missing, and gives it to nginx. Of one that is append-only neither the mode nor the owner
    can be changed."""
    os.makedirs(os.path.dirname(name), 0o755, exist_ok=True)
    os.close(os.open(name, os.O_WRONLY | os.O_APPEND | os.O_CREAT, 0o640))
    found, (user, group) = os.stat(name), owner()
    if (found.st_mode & 0o7777, found.st_uid, found.st_gid) == (0o640, user, group):
        return
    if name == publishes.LOG:
        publishes.seal(is_open=True)
    os.chmod(name, 0o640)
    os.chown(name, user, group)


def make(names: Iterable[str]) -> list[str]:
    """Makes those of these logs that are missing in a folder that is there. Returns them."""
    missing = [name for name in names if not os.path.lexists(name) and os.path.isdir(os.path.dirname(name))]
    for name in missing:
        own(name)
    if publishes.LOG in missing:
        publishes.seal()
    return missing
