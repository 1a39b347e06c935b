"""A machine in a folder, on which the commands and files of docs/ and deploy/ run as they are written.

Their absolute names are put below the folder, and ports that are free in place of 443 and 8080. The commands
`goshelf`, `nginx` and `systemctl` stand in its /usr/local/bin: the first is the built program, the second starts with
the machine's configuration, and the third starts and stops the program on the machine's store. The public proxy is a
port of this host, on which nobody listens unless a test names another.
"""

import contextlib
import os
import re
import shutil
import subprocess
from collections.abc import Iterator

from lib.ports import free_port, wait_until
from lib.program import PROGRAM, ROOT

# folders whose names the pages and deploy/ use; each is put below the folder of the machine
PLACES = re.compile(
    r"(?<![\w./~])/(?=(?:etc/(?:nginx|ssl|cron\.d|default)|var/(?:lib|log|cache|backups)|"
    r"usr/(?:local|share/goshelf)|run|root)\b)"
)
# the folders of a new machine
FOLDERS = (
    "etc/nginx/conf.d", "etc/nginx/modules-enabled", "etc/ssl/certs", "etc/cron.d", "etc/default", "var/lib/nginx",
    "var/log/nginx", "var/lib/goshelf", "var/backups", "usr/local/bin", "usr/share", "run", "root",
)  # fmt: skip
# the modules of nginx that its front needs, as their packages name them
MODULES = "".join(f"load_module /usr/lib/nginx/modules/ngx_{name}_module.so;\n" for name in ("http_js", "stream"))
# the authorities that nginx takes for the public proxy
AUTHORITIES = "/etc/ssl/certs/ca-certificates.crt"
SYSTEMCTL = """\
#!/bin/sh
# `systemctl stop goshelf` and `systemctl start goshelf`, for a program that a file names by its number, that number,
# and how often it was restarted; and `systemctl restart nginx`
case "$*" in
restart*nginx)
    old=$(cat "@/nginx.pid" 2> /dev/null || :)
    [ -z "$old" ] || nginx -s stop 2> /dev/null || :
    while [ -n "$old" ] && kill -0 "$old" 2> /dev/null; do sleep 0.05; done
    nginx; exit ;;
*nginx) exit ;;
esac
case "$1 ${3-}" in
"show MainPID") cat "@/serve.pid" ;;
"show NRestarts") cat "@/restarts" ;;
"show Listen") echo "127.0.0.1:PORT (Stream)" ;;
esac
case $1 in
is-active) exit 3 ;; # (of goshelf.socket, which is not there)
start)
    rm -f "@/serve.out"
    mkdir -p "@/run/goshelf"
    goshelf serve --db "@/var/lib/goshelf/shelves.db" --port PORT --control "@/run/goshelf/control" > "@/serve.out" \
2> "@/serve.err" < /dev/null &
    echo $! > "@/serve.pid"
    until grep -qs '^listening on' "@/serve.out"; do kill -0 $! || { cat "@/serve.err" >&2; exit 1; }; sleep 0.05; \
done ;;
stop)
    [ -e "@/serve.pid" ] || exit 0
    kill "$(cat "@/serve.pid")"
    while kill -0 "$(cat "@/serve.pid")" 2> /dev/null; do sleep 0.02; done
    rm "@/serve.pid" ;;
esac
"""
# goshelf, which makes another copy as often as a file says
BUSY = """\
#!/bin/sh
left=$(cat "@/often")
if [ "$1" = copy ] && [ "$left" -gt 0 ]; then
    echo $((left - 1)) > "@/often"
    echo 'goshelf: busy' >&2
    exit 1
fi
exec "@/usr/local/bin/goshelf.own" "$@"
"""
NGINX_CONF = """\
user www-data;
worker_processes 2;
pid @/nginx.pid;
error_log @/var/log/nginx/error.log;
include @/etc/nginx/modules-enabled/*.conf;
events { worker_connections 768; }
http {
    default_type application/octet-stream;
    gzip on;
    client_body_temp_path @/var/lib/nginx/body;
    proxy_temp_path @/var/lib/nginx/proxy;
    fastcgi_temp_path @/var/lib/nginx/fastcgi;
    uwsgi_temp_path @/var/lib/nginx/uwsgi;
    scgi_temp_path @/var/lib/nginx/scgi;
    include @/etc/nginx/conf.d/*.conf;
}
"""


# chattr of a file system that has nothing append-only, so that the folder can be removed
CHATTR = '#!/bin/sh\necho "chattr: Operation not supported while reading flags on $2" >&2\nexit 1\n'


class Machine:
    """A machine in a folder."""

    # the words of a command that runs each script of the machine
    within: tuple[str, ...] = ()

    def __init__(self, folder: str, public: int = 9) -> None:
        self.folder, self.front, self.behind, self.public = folder, free_port(), free_port(), public
        self.clear, self.way, self.says, self.before = (free_port() for _ in range(4))
        for name in FOLDERS:
            os.makedirs(f"{folder}/{name}")
        os.chmod(folder, 0o755)
        os.symlink(PROGRAM, f"{folder}/usr/local/bin/goshelf")
        os.symlink(AUTHORITIES, f"{folder}{AUTHORITIES}")
        self.command("systemctl", SYSTEMCTL.replace("PORT", str(self.behind)))
        self.command("chattr", CHATTR)
        nginx = shutil.which("nginx") or "/usr/sbin/nginx"
        self.command("nginx", f'#!/bin/sh\nexec {nginx} -c "@/nginx.conf" -e "@/var/log/nginx/start.log" "$@"\n')
        self.write("nginx.conf", NGINX_CONF.replace("@/", f"{folder}/"))
        self.write("etc/nginx/modules-enabled/50-mod-goshelf.conf", MODULES)
        self.store = f"{folder}/var/lib/goshelf/shelves.db"

    def command(self, name: str, text: str) -> None:
        """Writes a script into the machine's /usr/local/bin, in which `@` is the folder of the machine."""
        self.write(f"usr/local/bin/{name}", text.replace("@/", f"{self.folder}/"))
        os.chmod(f"{self.folder}/usr/local/bin/{name}", 0o755)

    def write(self, name: str, text: str) -> None:
        """Writes a file of the machine."""
        with open(f"{self.folder}/{name}", "w", encoding="utf-8") as file:
            file.write(text)

    def read(self, name: str) -> str:
        """Returns the text of a file of the machine."""
        with open(f"{self.folder}/{name}", encoding="utf-8", errors="replace") as file:
            return file.read()

    def edit(self, name: str, *pairs: tuple[str, str]) -> None:
        """Replaces texts of a file, each of which it has to have."""
        text = self.read(name)
        for old, new in pairs:
            assert old in text, (name, old)
            text = text.replace(old, new)
        self.write(name, text)

    @contextlib.contextmanager
    def edited(self, name: str, *pairs: tuple[str, str]) -> Iterator[None]:
        """Replaces texts of a file until the block ends, and then writes the file as it was."""
        text = self.read(name)
        self.edit(name, *pairs)
        try:
            yield
        finally:
            self.write(name, text)

    def placed(self, text: str) -> str:
        """Returns a text with its absolute names below the folder, and with the machine's ports."""
        text = self.placed_on_host(text)
        for port, own in ((8444, self.way), (8445, self.says), (8446, self.before)):
            text = text.replace(f"127.0.0.1:{port}", f"127.0.0.1:{own}")
        text = text.replace("listen 80;", f"listen 127.0.0.1:{self.clear};")
        return text.replace("listen 443 ssl", f"listen 127.0.0.1:{self.front} ssl")

    def placed_on_host(self, text: str) -> str:
        """Returns a text with its absolute names below the folder, and with no port changed but goshelf's own."""
        text = PLACES.sub(f"{self.folder}/", text).replace("127.0.0.1:8080", f"127.0.0.1:{self.behind}")
        return text.replace("proxy.golang.org:443;", f"127.0.0.1:{self.public};")

    def sh(self, script: str, **settings: str) -> tuple[int, str, str]:
        """Runs a script that is written for a whole machine, in `root`. Returns its status, output and errors."""
        where = {
            "PATH": f"{self.folder}/usr/local/bin:{os.environ['PATH']}:/usr/sbin",
            "HOME": f"{self.folder}/root",
            **settings,
        }
        ran = subprocess.run(
            [*self.within, "sh", "-euc", self.placed(script)],
            cwd=f"{self.folder}/root",
            env=where,
            stdin=subprocess.DEVNULL,
            capture_output=True,
            text=True,
            timeout=120,
        )
        return ran.returncode, ran.stdout, ran.stderr

    def does(self, script: str, **settings: str) -> str:
        """Runs a script that has to end well, and returns what it prints."""
        status, printed, errors = self.sh(script, **settings)
        assert status == 0, (script, status, printed, errors)
        return printed

    @contextlib.contextmanager
    def instead(self, script: str) -> Iterator[None]:
        """Puts a script in the place of goshelf until the block ends. There goshelf is `goshelf.own`."""
        program = f"{self.folder}/usr/local/bin/goshelf"
        os.rename(program, f"{program}.own")
        self.command("goshelf", script)
        try:
            yield
        finally:
            os.rename(f"{program}.own", program)

    @contextlib.contextmanager
    def busy(self, count: int) -> Iterator[None]:
        """Has goshelf refuse a number of orders to copy, as it does while it makes another copy."""
        self.write("often", f"{count}\n")
        with self.instead(BUSY):
            yield
        assert self.read("often") == "0\n", "goshelf was not ordered to copy as often"

    def workers(self) -> set[str]:
        """Returns the processes of nginx that take connections."""
        words = ["pgrep", "-P", self.read("nginx.pid").strip(), "-f", "worker process$"]
        return set(subprocess.run(words, capture_output=True, text=True).stdout.split())

    def wait_for_workers(self, before: set[str]) -> None:
        """Waits until nginx takes connections by other processes than before."""
        wait_until(lambda: (now := self.workers()) and not before & now)

    def check_out(self) -> None:
        """Puts the files of deploy/ into `root`, which is also /usr/share/goshelf, and installs its commands."""
        os.symlink(f"{self.folder}/root", f"{self.folder}/usr/share/goshelf")
        for place, folders, names in os.walk(os.path.join(ROOT, "deploy")):
            folders[:] = [name for name in folders if name != "__pycache__"]
            below = os.path.join("root", os.path.relpath(place, ROOT))
            os.makedirs(f"{self.folder}/{below}")
            for name in names:
                with open(os.path.join(place, name), encoding="utf-8") as file:
                    self.write(f"{below}/{name}", self.placed(file.read()))
                shutil.copymode(os.path.join(place, name), f"{self.folder}/{below}/{name}")
                if name.startswith("goshelf-") and "." not in name:
                    shutil.copy(f"{self.folder}/{below}/{name}", f"{self.folder}/usr/local/bin/{name}")

    def close(self) -> None:
        """Ends what was started on the machine, and waits for its end."""
        for name in ("nginx.pid", "serve.pid"):
            with contextlib.suppress(OSError, ValueError):
                number = int(self.read(name))
                with open(f"/proc/{number}/cmdline", encoding="utf-8", errors="replace") as file:
                    # (the number of one that has ended may be another's by now)
                    if self.folder in file.read():
                        end(number)


def end(number: int) -> None:
    """Ends a process, if need be by force after some seconds."""
    os.kill(number, 15)
    try:
        wait_until(lambda: has_ended(number), 10)
    except AssertionError:
        os.kill(number, 9)


def has_ended(number: int) -> bool:
    """Whether a process has ended, also if nobody has waited for it."""
    try:
        with open(f"/proc/{number}/stat", encoding="utf-8", errors="replace") as file:
            return file.read().rsplit(")", 1)[1].split()[0] == "Z"
    except OSError:
        return True
