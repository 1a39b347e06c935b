"""goshelf-publish --check --to refuses what a publish would, by the same sentence, and stores nothing.

goshelf is behind nginx with TLS, by the page's commands. Each refusal that both can give is brought about, and a check
and then a publish meet it. What a check cannot foresee, as docs/REFERENCE.md says, is a full shelf and a full disk.
"""

import os
import subprocess
from collections.abc import Iterator

import pytest

from lib.front import UNUSED, Client, settle, start
from lib.machine import Machine
from lib.program import run
from lib.repositories import TIME, Ran, Repository, Room, gomod, module
from lib.scratch import closed_on_failure, fill, mounted, opened, write
from lib.stores import new_store

pytestmark = pytest.mark.needs("git", "go", "nginx", "nginx-js", "nginx-stream", "openssl")

MIB, MOST = 1_048_576, 4_096
USERS = (("ann", "alpha", "publish"), ("rob", "alpha", "read"), ("lou", "alpha", "publish"))
OWN, LARGE, FULL = "example.com/own", "example.com/large", "example.com/full"
# a version name that is longer than goshelf takes
LONG = f"v1.0.0-{'a' * 130}"


class Company:
    """goshelf behind nginx, its users, and a repository whose versions nobody has published."""

    def __init__(self, folder: str) -> None:
        os.makedirs(f"{folder}/repositories")
        self.room, self.folder = Room(f"{folder}/repositories"), folder
        self.machine = Machine(f"{folder}/machine")
        self.disk = os.path.dirname(self.machine.store)
        self.is_small = mounted(self.disk, "64m")
        with closed_on_failure(self):
            self.make_store()
            start(self.machine, {"example.com": ["alpha"], "example.com/others": []})
            self.client = Client(self.machine)
            for user in USERS:
                self.client.add(*user)
            settle(self.client, "lou", 404)
            self.url = f"https://localhost:{self.machine.front}"
            self.own = Repository(self.room, "own")
            self.own.first = self.own.commit(module(OWN), *(f"v1.{minor}.0" for minor in range(9)), LONG)

    def make_store(self) -> None:
        """Makes a store with the shelf of the users."""
        new_store(self.machine.store, ("alpha", UNUSED))

    def close(self) -> None:
        self.machine.sh("systemctl stop goshelf")
        self.machine.close()
        if self.is_small:
            subprocess.run(["umount", self.disk], check=True)

    @property
    def netrc(self) -> str:
        return f"{self.folder}/netrc"

    def publish(self, *words: str, user: str = "ann", password: str | None = None, host: str = "localhost") -> Ran:
        """Runs goshelf-publish as a user."""
        line = f"machine {host} login {user} password {password or self.client.passwords[user]}\n"
        write({self.netrc: line})
        return self.room.publish("--to", self.url, "--netrc", *words, NETRC=self.netrc, SSL_CERT_FILE=self.client.pem)

    def stored(self) -> list[str]:
        """Returns the lines of the versions of the store, but for those of the full module."""
        key = self.client.passwords["ann"]
        lines = self.machine.does(f"goshelf catalog --control /run/goshelf/control --key {key}").splitlines()
        return [line for line in lines if FULL not in line]

    def check_refusal(self, sentence: str, *words: str, **who: str) -> None:
        """A check and a publish are refused by a sentence that begins so, the same of both, and nothing is stored."""
        before = self.stored()
        checked = self.publish("--check", *words, **who)
        published = self.publish(*words, **who)
        assert checked[:2] == (1, "") and checked[2].startswith(f"publish: {sentence}"), checked
        assert published == checked
        assert self.stored() == before

    def check_acceptance(self, repository: Repository, path: str, version: str) -> None:
        """A check finds nothing against a version, and stores nothing."""
        before = self.stored()
        status, _, errors = self.publish("--check", "--repository", repository.folder, path, version)
        note = f"publish: {self.url} accepts the go.mod and the key, and has no {path} {version} yet\n"
        assert (status, errors) == (0, note)
        assert self.stored() == before


class FullCompany(Company):
    """One whose shelf has as many versions of a module as it takes."""

    def make_store(self) -> None:
        super().make_store()
        rows = "".join(f"{FULL},v0.0.{patch},,full.mod,full.zip\n" for patch in range(MOST))
        at = f"{self.folder}/full"
        write({f"{at}.csv": f"path,version,time,mod,zip\n{rows}".replace(",full.", f",{at}.")})
        write({f"{at}.mod": f"module {FULL}\n", f"{at}.zip": "zip"})
        words = ["import", "--db", self.machine.store, "--key", UNUSED, "--list", f"{at}.csv"]
        status, _, errors = run(words, timeout=900)
        assert (status, errors) == (0, ""), errors


@pytest.fixture(scope="module")
def company() -> Iterator[Company]:
    with opened(Company) as company:
        yield company


class TestLogins:
    """Who may not publish, or not there."""

    @pytest.fixture
    def words(self, company: Company) -> list[str]:
        return ["--repository", company.own.folder, OWN, "v1.0.0"]

    def test_a_wrong_password_is_refused(self, company: Company, words: list[str]) -> None:
        sentence = f"{company.url} does not take the password of ann: mend the line for localhost in {company.netrc}, "
        company.check_refusal(f"{sentence}or ask the operator whether it still holds\n", *words, password="wrong")

    def test_a_login_for_another_host_is_refused(self, company: Company, words: list[str]) -> None:
        sentence = f"{company.netrc} has no line with a login for localhost: add one, with the name and the key from "
        company.check_refusal(f"{sentence}the operator\n", *words, host="localhost.example")

    def test_a_user_who_only_reads_is_refused(self, company: Company, words: list[str]) -> None:
        sentence = f"{company.netrc} logs in as a user who only reads: ask the operator of {company.url} for the right "
        company.check_refusal(f"{sentence}to publish\n", *words, user="rob")

    def test_a_user_whose_key_goshelf_lost_is_refused(self, company: Company, words: list[str]) -> None:
        key = company.client.passwords["lou"]
        company.machine.does(f"goshelf key-revoke --control /run/goshelf/control --key {key}")
        sentence = f"{company.url} takes no such path or version, or has lost the key of your user: check {OWN} v1.0.0,"
        company.check_refusal(f"{sentence} then ask the operator\n", *words, user="lou")

    def test_the_path_of_another_is_refused(self, company: Company) -> None:
        others, path = Repository(company.room, "others"), "example.com/others/lib"
        others.commit(module(path), "v1.0.0")
        sentence = f"{company.url} does not let you publish {path}: publish a path of your own, or ask the operator"
        company.check_refusal(f"{sentence} for this", "--repository", others.folder, path, "v1.0.0")

    def test_a_key_in_a_file_opens_goshelf_alone(self, company: Company, words: list[str]) -> None:
        write({f"{company.folder}/key": company.client.passwords["ann"]})
        words = ["--to", company.url, "--key-file", f"{company.folder}/key", *words]
        sentence = f"{company.url} takes the key from ~/.netrc: give --netrc in place of --key-file, and a line there "
        wanted = 1, "", f"publish: {sentence}with the host, your name and the key as the password\n"
        for check in (["--check"], []):
            assert company.room.publish(*check, *words, SSL_CERT_FILE=company.client.pem) == wanted


class TestVersions:
    """What goshelf and nginx have against a version."""

    @pytest.fixture
    def words(self, company: Company) -> list[str]:
        return ["--repository", company.own.folder, OWN]

    def test_other_files_are_refused(self, company: Company, words: list[str]) -> None:
        own = company.own
        assert company.publish(*words, "v1.1.0")[0] == 0
        own.git("tag", "-d", "v1.1.0")
        own.commit({"own.go": 'package own\n\nconst Name = "another"\n'}, "v1.1.0")
        sentence = f"{OWN} v1.1.0 is there with other bytes, which never change: publish a new version\n"
        company.check_refusal(sentence, *words, "v1.1.0")

    def test_another_time_is_refused(self, company: Company, words: list[str]) -> None:
        own, env = company.own, company.room.env
        assert company.publish(*words, "v1.2.0")[0] == 0
        own.git("tag", "-d", "v1.2.0")
        own.git("checkout", "-q", own.first)
        own.room.env = {**env, "GIT_COMMITTER_DATE": "2024-02-01T12:00:00Z"}
        own.commit({}, "v1.2.0")
        own.room.env = env
        own.git("checkout", "-q", "main")
        sentence = f"{OWN} v1.2.0 is there with the same sums and the time {TIME}, not 2024-02-01T12:00:00Z: leave it, "
        company.check_refusal(f"{sentence}it never", *words, "v1.2.0")

    def test_a_version_that_was_taken_out_is_refused(self, company: Company, words: list[str]) -> None:
        company.machine.does(f"goshelf-front take-out {OWN} v1.3.0 alpha")
        sentence = f"{OWN} v1.3.0 was taken out of {company.url} and never comes back: publish the next version\n"
        company.check_refusal(sentence, *words, "v1.3.0")

    def test_an_invalid_line_of_the_go_mod_is_refused(self, company: Company) -> None:
        bad = Repository(company.room, "bad")
        bad.commit({**module(OWN), "go.mod": gomod(OWN) + "\nfrobnicate y\n"}, "v1.20.0")
        sentence = "line 5 of the go.mod is not valid: mend it, and tag a new version (frobnicate y)\n"
        company.check_refusal(sentence, "--repository", bad.folder, OWN, "v1.20.0")

    def test_a_version_that_is_too_long_is_refused(self, company: Company, words: list[str]) -> None:
        sentence = f"{company.url} takes no such path or version, or has lost the key of your user: check {OWN} {LONG},"
        company.check_refusal(f"{sentence} then ask the operator\n", *words, LONG)


class TestSizes:
    """Bodies that nginx does not take, full shelves, full disks, and a goshelf that is away."""

    @pytest.fixture(scope="class")
    def company(self) -> Iterator[Company]:
        with opened(FullCompany) as company:
            yield company

    @pytest.fixture(scope="class")
    def large(self, company: Company) -> Repository:
        large = Repository(company.room, "large")
        large.commit({**module(LARGE), "data.bin": os.urandom(2 * MIB)}, "v1.0.0")
        # (more than the log of the store has room for in its blocks)
        large.commit({"data.bin": os.urandom(12 * MIB)}, "v1.1.0")
        return large

    def test_a_body_that_nginx_does_not_take_is_refused(self, company: Company, large: Repository) -> None:
        words, conf = ["--repository", large.folder, LARGE, "v1.0.0"], "etc/nginx/goshelf/locations.conf"
        large.git("checkout", "-q", "v1.0.0")
        company.machine.edit(conf, ("client_max_body_size 18900000;", "client_max_body_size 1m;"))
        company.machine.does("systemctl restart nginx")
        try:
            company.check_refusal(f"{company.url} takes no body of 2", *words)
        finally:
            company.machine.edit(conf, ("client_max_body_size 1m;", "client_max_body_size 18900000;"))
            company.machine.does("systemctl restart nginx")
        company.check_acceptance(large, LARGE, "v1.0.0")
        assert company.publish(*words)[0] == 0

    def test_a_check_does_not_foresee_a_full_shelf(self, company: Company) -> None:
        full = Repository(company.room, "full")
        full.commit(module(FULL), "v1.0.0")
        company.check_acceptance(full, FULL, "v1.0.0")
        sentence = f"publish: the shelf has 4096 versions of {FULL} and takes no more: go on under a new path\n"
        assert company.publish("--repository", full.folder, FULL, "v1.0.0") == (1, "", sentence)

    def test_a_check_does_not_foresee_a_full_disk(self, company: Company, large: Repository) -> None:
        if not company.is_small:
            pytest.skip("no tmpfs can be mounted here")
        words = ["--repository", large.folder, LARGE, "v1.1.0"]
        large.git("checkout", "-q", "v1.1.0")
        fill(f"{company.disk}/rest")
        company.check_acceptance(large, LARGE, "v1.1.0")
        found = company.publish(*words)
        os.remove(f"{company.disk}/rest")
        sentence = "the store met a fault and published nothing: run this again, and tell the operator if it stays\n"
        assert found == (1, "", f"publish: {sentence}")
        assert company.publish(*words)[0] == 0

    def test_a_goshelf_that_is_stopped_is_named(self, company: Company) -> None:
        words = ["--repository", company.own.folder, OWN, "v1.4.0"]
        company.machine.does("systemctl stop goshelf")
        try:
            ran = [company.publish(*check, *words) for check in (["--check"], [])]
        finally:
            company.machine.does("systemctl start goshelf")
        sentence = f"{company.url} answers 502: goshelf behind it is down or busy, so run this again in a minute, "
        assert ran == [(1, "", f"publish: {sentence}and if it stays, tell the operator\n")] * 2
