"""What watches over goshelf: goshelf-watch, which prints a line for each problem, and goshelf-metrics.

They run as they are, by cron as the pages have it, on a machine in a folder (lib/machine.py).
"""

import functools
import http.server
import json
import os
import re
import shutil
import subprocess
import tempfile
import threading
import time
from collections.abc import Iterator
from typing import NamedTuple

import pytest

from lib.machine import Machine
from lib.operating import ALPHA, list_backups, opened_machine, read_cron_lines
from lib.peers import Quiet
from lib.scratch import read, write

pytestmark = [pytest.mark.root, pytest.mark.needs("sqlite3", "openssl", "curl")]

# a command `df` that says how full a disk is, in per cent
FULL = "#!/bin/sh\necho 'Use%'; echo ' {}%'\n"
# a line of nginx's log: a time and a status
LINE = "{} 127.0.0.1 ann alpha GET /example.com/lib/@v/list {} 7 0.001 -\n"
LOG = "var/log/nginx/goshelf.log"
# a goshelf whose store failed
FAILING = """#!/bin/sh
[ "$*" = "ping --control @/run/goshelf/control" ] && echo "2xx=1 store-failures=3 versions=1"
"""
# a line of the text format of Prometheus
SAMPLE = re.compile(
    r"# (HELP goshelf_\w+ \S.*|TYPE goshelf_\w+ (gauge|counter))|"
    r'goshelf_\w+\{unit="goshelf"(,class="\dxx"|,shelf="[a-z0-9-]+")?\} -?\d+'
)
# a publish, two fetches and a copy
METERED = """\
printf 'module example.com/metered\\n' > metered
at=http://127.0.0.1:8080/k/{key}/example.com/metered/@v/v1.0.0
curl -sf -o out -T metered -H 'Mod-Length: 27' $at && curl -sf -o out $at.zip && curl -sf -o out $at.zip
goshelf copy --control /run/goshelf/control --to /var/lib/goshelf/metered.db
rm /var/lib/goshelf/metered.db*
"""
FOLDER = "/var/lib/prometheus/node-exporter"
FILE = f"{FOLDER}/goshelf.prom"


class Host(http.server.ThreadingHTTPServer):
    """A host whose /healthz answers with a status."""

    status = 200


class Health(Quiet):
    def do_GET(self) -> None:
        self.send_response(self.server.status)
        self.send_header("Content-Length", "0")
        self.end_headers()


@functools.cache
def make_certificate(days: int) -> dict[str, bytes]:
    """Makes a certificate that expires in some days, and returns its files by their names."""
    with tempfile.TemporaryDirectory(prefix="goshelf-") as folder:
        made = "openssl req -x509 -newkey ec -pkeyopt ec_paramgen_curve:P-256 -nodes -subj /CN=localhost"
        files = [f"{folder}/{name}" for name in ("goshelf.pem", "goshelf.key")]
        words = [*made.split(), "-days", str(days), "-out", files[0], "-keyout", files[1]]
        subprocess.run(words, check=True, capture_output=True)
        return {os.path.basename(file): read(file) for file in files}


def give_certificate(machine: Machine, days: int) -> None:
    write({f"{machine.folder}/etc/ssl/{name}": text for name, text in make_certificate(days).items()})


def write_log(machine: Machine, **counts: int) -> None:
    """Writes nginx's log: requests of now by their status, as `s200=5`."""
    now = machine.does("date +%Y-%m-%dT%H:%M:%S%:z").strip()
    machine.write(LOG, "".join(LINE.format(now, status[1:]) * count for status, count in counts.items()))


def watch_by_http(machine: Machine) -> None:
    """Has goshelf-watch ask a host that has no TLS, and soon once more."""
    script = machine.read("usr/local/bin/goshelf-watch")
    script = script.replace("--retry-delay 10", "--retry-delay 1").replace("https://", "http://")
    machine.write("usr/local/bin/goshelf-watch", script)


@pytest.fixture
def host() -> Iterator[Host]:
    with Host(("127.0.0.1", 0), Health) as server:
        threading.Thread(target=server.serve_forever, daemon=True).start()
        yield server
        server.shutdown()


@pytest.fixture
def machine(host: Host) -> Iterator[Machine]:
    """A machine on which all is well."""
    with opened_machine() as machine:
        machine.does("goshelf-backup")
        watch_by_http(machine)
        machine.edit("etc/default/goshelf", ("shelf.example.com", f"127.0.0.1:{host.server_port}"))
        give_certificate(machine, 30)
        write_log(machine, s200=300)
        # however full the disk of this machine is
        machine.command("df", FULL.format(10))
        yield machine


def find_problems(machine: Machine) -> list[str]:
    """Returns the problems that goshelf-watch prints."""
    status, printed, errors = machine.sh("goshelf-watch")
    assert (status, errors) == (1 if printed else 0, ""), printed
    assert re.fullmatch(r"(goshelf: .*\n)*", printed), printed
    return [line.removeprefix("goshelf: ") for line in printed.splitlines()]


def find_problem(machine: Machine) -> str:
    """Returns the one problem that goshelf-watch prints."""
    problems = find_problems(machine)
    assert len(problems) == 1, problems
    return problems[0]


class TestSettings:
    """The settings of the page, and what is missing."""

    @pytest.fixture(scope="class")
    def machine(self) -> Iterator[Machine]:
        with opened_machine() as machine:
            watch_by_http(machine)
            give_certificate(machine, 30)
            yield machine

    def test_the_page_writes_two_settings(self, machine: Machine) -> None:
        wanted = f"GOSHELF_HOST=shelf.example.com\nGOSHELF_CERTIFICATE={machine.folder}/etc/ssl/goshelf.pem\n"
        assert machine.read("etc/default/goshelf") == wanted

    def test_a_log_that_nginx_has_not_made_is_a_problem(self, machine: Machine) -> None:
        problems = [line for line in find_problems(machine) if "5xx" in line or "goshelf.log" in line]
        assert problems == [f"there is no {machine.folder}/var/log/nginx/goshelf.log"]

    def test_missing_settings_are_problems(self, machine: Machine) -> None:
        settings = f"{machine.folder}/etc/default/goshelf"
        os.rename(settings, f"{settings}.aside")
        status, printed, _ = machine.sh("goshelf-watch")
        os.rename(f"{settings}.aside", settings)
        assert (status, re.findall(r"has no GOSHELF_(\w+)\n", printed)) == (1, ["HOST", "CERTIFICATE"])


class TestAnswers:
    """What the host answers, now and by the log of the last day."""

    def test_all_is_well(self, machine: Machine) -> None:
        write_log(machine, s200=300, s503=3)
        machine.write(LOG, LINE.format("2020-01-01T00:00:00+00:00", 502) * 50 + machine.read(LOG))
        assert find_problems(machine) == []

    def test_it_does_not_answer(self, machine: Machine, host: Host) -> None:
        host.status = 502
        assert "does not answer" in find_problem(machine)

    def test_many_answers_are_a_5xx(self, machine: Machine) -> None:
        write_log(machine, s200=300, s503=6)
        assert "got a 5xx" in find_problem(machine)


class TestStarts:
    """Restarts, and faults of the disk, are each told once."""

    def test_restarts(self, machine: Machine) -> None:
        assert find_problems(machine) == []
        machine.write("restarts", "2\n")
        assert "2 times" in find_problem(machine)
        assert find_problems(machine) == []

    def test_faults_of_the_disk(self, machine: Machine) -> None:
        assert find_problems(machine) == []
        with machine.instead(FAILING):
            assert "3 times" in find_problem(machine)
            assert find_problems(machine) == []
        assert find_problems(machine) == [], "serve began anew"


class TestResources:
    """Memory, the disk, and backups."""

    def test_memory(self, machine: Machine) -> None:
        machine.command("ps", '#!/bin/sh\n[ "$*" != "-o rss= -p $(cat "@/serve.pid")" ] || echo 900000\n')
        assert "900000 KiB of memory" in find_problem(machine)

    def test_a_full_disk(self, machine: Machine) -> None:
        machine.command("df", FULL.format(81))
        assert "full to 81 %" in find_problem(machine)

    def test_no_backup_of_today(self, machine: Machine) -> None:
        for name in list_backups(machine):
            os.utime(f"{machine.folder}/var/backups/goshelf/{name}", (0, 0))
        assert "no backup" in find_problem(machine)


class TestPages:
    """Pages of a shelf that has users, which are older than an hour or gone. Without pages nothing is said of them."""

    GONE = "the pages of these shelves are gone, or older than an hour: "

    @pytest.fixture
    def pages(self, machine: Machine) -> str:
        """The folder of the pages of alpha and beta, each of which has a user."""
        at, users = f"{machine.folder}/var/lib/goshelf-catalog", {}
        for shelf in ("alpha", "beta"):
            users[shelf] = {"name": shelf, "shelf": shelf, "right": "read"}
            os.makedirs(f"{at}/.{shelf}.0/parts")
            os.symlink(f".{shelf}.0", f"{at}/{shelf}")
            machine.write(f"var/lib/goshelf-catalog/{shelf}/parts/made.css", "")
        os.makedirs(f"{machine.folder}/etc/nginx/goshelf")
        machine.write("etc/nginx/goshelf/goshelf.json", json.dumps({"users": users}))
        return at

    def test_pages_of_now(self, machine: Machine, pages: str) -> None:
        assert find_problems(machine) == []

    def test_pages_of_an_hour_ago_and_pages_that_are_gone(self, machine: Machine, pages: str) -> None:
        then = time.time() - 3_700
        os.utime(f"{pages}/beta/parts/made.css", (then, then))
        assert find_problem(machine).endswith(f"{self.GONE}beta")
        os.remove(f"{pages}/alpha")
        assert find_problem(machine).endswith(f"{self.GONE}alpha beta")

    def test_all_pages_are_gone(self, machine: Machine, pages: str) -> None:
        shutil.rmtree(pages)
        machine.write("etc/cron.d/goshelf-catalog", "*/5 * * * * root goshelf-catalog > /dev/null\n")
        assert find_problem(machine).endswith(f"{self.GONE}alpha beta")

    def test_a_host_that_makes_no_pages(self, machine: Machine, pages: str) -> None:
        shutil.rmtree(pages)
        assert find_problems(machine) == []


class TestCertificate:
    """The certificate that nginx has."""

    def test_it_expires_soon(self, machine: Machine) -> None:
        give_certificate(machine, 10)
        assert "within 14 days" in find_problem(machine)

    def test_it_cannot_be_read(self, machine: Machine) -> None:
        machine.write("etc/ssl/goshelf.pem", "none")
        assert "openssl cannot read the certificate " in find_problem(machine)


class Metered(NamedTuple):
    """A machine that counted some requests, what ping then reports of all and of each shelf, and the metrics."""

    machine: Machine
    pinged: dict[str, str]
    shelves: list[str]
    text: str

    def find_values(self) -> dict[str, str]:
        return dict(re.findall(r'^goshelf_(\w+)\{unit="goshelf"(?:,class="\dxx")?\} (-?\d+)$', self.text, re.M))


def check_by_promtool(text: str) -> tuple[int, str, str]:
    """Returns how Prometheus's own tool ends over what goshelf-metrics printed."""
    ran = subprocess.run(["promtool", "check", "metrics"], input=text, capture_output=True, text=True)
    return ran.returncode, ran.stdout, ran.stderr


class TestMetrics:
    """goshelf-metrics prints what ping reports, and ages, in Prometheus's format."""

    @pytest.fixture(scope="class")
    def metered(self) -> Iterator[Metered]:
        with opened_machine() as machine:
            machine.does("goshelf-backup")
            give_certificate(machine, 10)
            machine.does(METERED.format(key=ALPHA))
            line, *shelves = machine.does("goshelf ping --control /run/goshelf/control").splitlines()
            pinged = dict(word.split("=", 1) for word in line.split())
            yield Metered(machine, pinged, shelves, machine.does("goshelf-metrics"))

    def test_each_line_is_of_the_format(self, metered: Metered) -> None:
        assert [line for line in metered.text.splitlines() if not SAMPLE.fullmatch(line)] == []

    def test_it_has_what_ping_reports(self, metered: Metered) -> None:
        found, pinged = metered.find_values(), metered.pinged
        names = ("connections", "unanswered", "store-failures", "versions")
        wanted = {name.replace("-", "_"): pinged[name] for name in names}
        wanted |= {"store_bytes": pinged["bytes"], "log_bytes": pinged["log"]}
        assert {name: found.get(name, found.get(f"{name}_total")) for name in wanted} == wanted

    def test_it_has_the_replies(self, metered: Metered) -> None:
        replies = dict(re.findall(r'class="(\dxx)"\} (\d+)', metered.text))
        assert replies == {status: metered.pinged[status] for status in ("2xx", "4xx", "5xx")}

    @pytest.mark.parametrize(
        "word, name", [("since", "start_time_seconds"), ("copied", "last_copy_time_seconds")], ids=["since", "copied"]
    )
    def test_it_has_the_time(self, metered: Metered, word: str, name: str) -> None:
        time_of_ping = metered.machine.does(f"date -d {metered.pinged[word]} +%s").strip()
        assert metered.find_values()[name] == time_of_ping

    def test_it_counts_for_each_shelf(self, metered: Metered) -> None:
        assert metered.shelves == ["shelf alpha publishes=1 fetches=2"]
        uses = re.findall(r'^goshelf_(\w+)_total\{unit="goshelf",shelf="(\S+)"\} (\d+)$', metered.text, re.M)
        assert uses == [("publishes", "alpha", "1"), ("fetches", "alpha", "2")]

    def test_it_has_ages(self, metered: Metered) -> None:
        found = metered.find_values()
        assert int(found["backup_age_seconds"]) < 600
        assert 9 * 86_400 < int(found["certificate_left_seconds"]) < 11 * 86_400

    @pytest.mark.needs("promtool")
    def test_promtool_finds_nothing(self, metered: Metered) -> None:
        assert check_by_promtool(metered.text) == (0, "", "")


class TestMetricsWhileGoshelfIsStopped:
    @pytest.fixture(scope="class")
    def text(self) -> Iterator[str]:
        with opened_machine() as machine:
            machine.does("goshelf-backup")
            give_certificate(machine, 10)
            machine.does("systemctl stop goshelf")
            yield machine.does("goshelf-metrics")

    def test_goshelf_is_not_up(self, text: str) -> None:
        found = re.findall(r"^goshelf_(\w+)\{.* (\d+)$", text, re.M)
        assert [name for name, _ in found] == ["up", "backup_age_seconds", "certificate_left_seconds"]
        assert found[0] == ("up", "0")

    @pytest.mark.needs("promtool")
    def test_promtool_finds_nothing(self, text: str) -> None:
        assert check_by_promtool(text) == (0, "", "")


class TestMetricsToAFile:
    """With --to, goshelf-metrics replaces a file."""

    @pytest.fixture(scope="class")
    def machine(self) -> Iterator[Machine]:
        with opened_machine() as machine:
            machine.does("goshelf-backup")
            os.makedirs(f"{machine.folder}{FOLDER}")
            yield machine

    def test_it_writes_a_file_that_all_may_read(self, machine: Machine) -> None:
        assert machine.sh(f"goshelf-metrics --to {FILE}") == (0, "", "")
        assert os.listdir(f"{machine.folder}{FOLDER}") == ["goshelf.prom"]
        assert os.stat(f"{machine.folder}{FILE}").st_mode & 0o777 == 0o644

    def test_by_cron_it_prints_nothing(self, machine: Machine) -> None:
        script = " ".join(read_cron_lines(machine)[-1].split()[6:])
        words = ["env", "-i", "PATH=/usr/bin:/bin", "sh", "-c", script]
        ran = subprocess.run(words, capture_output=True, text=True)
        assert (ran.returncode, ran.stdout, ran.stderr) == (0, "", "")

    def test_it_follows_no_link_in_the_place_of_its_new_file(self, machine: Machine) -> None:
        machine.write("root/precious", "precious")
        plant = f"""sh -c 'ln -s /root/precious "{FILE}.new-$$" && exec goshelf-metrics --to {FILE}'"""
        ended = machine.sh(plant)
        left = sorted(os.listdir(f"{machine.folder}{FOLDER}"))
        machine.does(f"rm {FILE}.new-*")
        assert ended == (0, "", "")
        assert machine.read("root/precious") == "precious"
        assert left[0] == "goshelf.prom"

    @pytest.mark.parametrize("words", ["--to", "--file x.prom", "now"])
    def test_wrong_words_are_refused(self, machine: Machine, words: str) -> None:
        assert machine.sh(f"goshelf-metrics {words}")[:2] == (2, "")

    @pytest.mark.parametrize(
        "words, wanted", [("--to ''", 2), ("--to x.txt", 1), ("--to .prom", 1), ("--to none/x.prom", 1)]
    )
    def test_wrong_files_are_refused(self, machine: Machine, words: str, wanted: int) -> None:
        status, output, errors = machine.sh(f"goshelf-metrics {words}")
        assert (status, output) == (wanted, "")
        assert errors
