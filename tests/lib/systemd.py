"""A copy of this machine, run by systemd: the same files under an overlay, with processes and a network of its own."""

import contextlib
import os
import shutil
import subprocess
import tempfile
from collections.abc import Iterator

from lib.ports import wait_until

# the settings of a command on the copy
SETTINGS = [
    "PATH=/usr/local/sbin:/usr/local/bin:/usr/sbin:/usr/bin:/sbin:/bin",
    "DEBIAN_FRONTEND=noninteractive",
    "LC_ALL=C",
    "HOME=/root",
]
# Starts systemd over a copy of the files of this machine, with nothing that runs at boot, in the namespaces of
# `unshare`.
BOOT = """
mount --make-rprivate /
mount -t tmpfs tmpfs "$0"
mkdir "$0/upper" "$0/work" "$0/root"
mount -t overlay overlay -o "lowerdir=/,upperdir=$0/upper,workdir=$0/work" "$0/root"
cd "$0/root"
rm -rf usr/lib/systemd/system/*.wants etc/systemd/system/*.wants
mount -t proc proc proc
mount -t sysfs -o ro sysfs sys
mount -t cgroup2 cgroup2 sys/fs/cgroup
mount -t tmpfs tmpfs run
mount -t tmpfs -o mode=755 tmpfs dev
mkdir dev/pts dev/shm
ln -s pts/ptmx dev/ptmx
for it in null zero full random urandom; do touch "dev/$it"; mount --bind "/dev/$it" "dev/$it"; done
pivot_root . mnt
cd /
umount -l mnt
exec env -i container=other PATH=/usr/sbin:/usr/bin:/sbin:/bin /lib/systemd/systemd --unit=multi-user.target \
--show-status=no
"""


SPACES = ("--mount", "--pid", "--uts", "--ipc", "--net", "--cgroup")


def groups() -> str | None:
    """Returns the folder of the control groups of version 2, or None."""
    places = ("/sys/fs/cgroup/unified", "/sys/fs/cgroup")
    return next((place for place in places if os.path.exists(f"{place}/cgroup.controllers")), None)


class Copy:
    """A copy of this machine that systemd runs."""

    def __init__(self, folder: str, groups: str) -> None:
        self.group = os.path.join(groups, os.path.basename(folder))
        join = ["sh", "-euc", 'mkdir "$0"; echo $$ > "$0/cgroup.procs"; exec "$@"', self.group]
        words = ["unshare", *SPACES, "--fork", "--kill-child", "sh", "-euc", BOOT, folder]
        self.log = tempfile.TemporaryFile()
        self.child = subprocess.Popen(
            [*join, *words], stdin=subprocess.DEVNULL, stdout=self.log, stderr=self.log, start_new_session=True
        )
        # the number of its systemd
        self.first = ""

    def starts(self) -> str | None:
        """Waits until systemd runs. Returns None then, and otherwise why it does not."""
        with contextlib.suppress(AssertionError):
            wait_until(lambda: self.is_running() or self.child.poll() is not None, 60)
        if self.child.poll() is not None:
            self.log.seek(0)
            return self.log.read().decode(errors="replace").strip()[-300:] or "it ended"
        return None if self.is_running() else "systemd did not come up in a minute"

    def is_running(self) -> bool:
        """Whether its systemd has started all that it starts."""
        with contextlib.suppress(FileNotFoundError, ProcessLookupError):
            with open(f"/proc/{self.child.pid}/task/{self.child.pid}/children", encoding="ascii") as file:
                self.first = file.read().strip()
        return bool(self.first) and self.sh("systemctl is-system-running")[1] in ("running\n", "degraded\n")

    def sh(self, script: str, **settings: str) -> tuple[int, str, str]:
        """Runs a script on the copy, as root. Returns its exit status, and what it prints on standard output and on
        standard error."""
        env = ["env", "-i", "--chdir=/", *SETTINGS, *(f"{name}={value}" for name, value in settings.items())]
        words = ["nsenter", "--target", self.first, *SPACES, "--root", "--wd", *env, "sh", "-euc", script]
        ran = subprocess.run(
            words, stdin=subprocess.DEVNULL, capture_output=True, text=True, errors="replace", timeout=120
        )
        return ran.returncode, ran.stdout, ran.stderr

    def prints(self, script: str) -> str:
        """Returns what a script prints on the copy, whatever its status, on one line."""
        return " ".join(self.sh(f"set +e\n{script}")[1].split())

    def put(self, file: str) -> str:
        """Copies a file to the copy, and returns its name there."""
        name = os.path.basename(file)
        shutil.copyfile(file, f"/proc/{self.first}/root/root/{name}")
        return f"/root/{name}"

    def close(self) -> None:
        """Ends all that runs on the copy, and takes its group away."""
        if self.first:
            with contextlib.suppress(ProcessLookupError):
                os.kill(int(self.first), 9)
        self.child.kill()
        self.child.wait()
        self.log.close()
        with contextlib.suppress(AssertionError):
            wait_until(self.removes_group, 10)

    def removes_group(self) -> bool:
        """Removes the control groups in which nothing runs any more, and returns whether all are gone."""
        for folder, _, _ in os.walk(self.group, topdown=False):
            with contextlib.suppress(OSError):
                os.rmdir(folder)
        return not os.path.exists(self.group)


@contextlib.contextmanager
def booted_copy() -> Iterator[Copy]:
    """Boots a copy of this machine, and ends it. Raises `CannotBoot` where the machine can't."""
    place = groups()
    if not place:
        raise CannotBoot("this needs control groups of version 2")
    with tempfile.TemporaryDirectory(prefix="goshelf-copy-") as folder:
        with contextlib.closing(Copy(folder, place)) as copy:
            if why := copy.starts():
                raise CannotBoot(f"systemd does not start on a copy of this machine: {why}")
            yield copy


class CannotBoot(Exception):
    """Why systemd can't run a copy of this machine."""
