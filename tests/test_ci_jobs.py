"""The jobs of docs/CI.md build with a shelf's modules and publish, through nginx with TLS, as the page has them.

A job runs on a clone of a tag as its service would run it: with the service's variables, and with what an earlier job
left. goshelf-publish comes from the shelf, where goshelf-offer put it by the command of docs/OPERATING.md. Only the
name of the server is put in. A developer and a colleague do what docs/TUTORIAL.md says at its start.
"""

import os
import re
import shutil
import subprocess
from collections.abc import Callable, Iterator
from typing import NamedTuple

import pytest

from lib import go_command
from lib.ci_services import GITLAB, GitHub, GitLab, Service, find_published, run_pipeline
from lib.front import UNUSED, Client, settle, start
from lib.machine import Machine
from lib.pages import block, blocks
from lib.program import ROOT
from lib.repositories import PUBLISH, Ran, Repository, Room, code, gomod, module
from lib.scratch import closed_on_failure, opened, write
from lib.stores import new_store

pytestmark = pytest.mark.needs("git", "go", "nginx", "nginx-js", "nginx-stream", "openssl")

BUILD = "version: 0.1.0+git20261125222734.505e09bd2c1c\n"
OFFERED = "example.com/goshelf-publish v0.0.0-20261125222734-505e09bd2c1c"
# the tags for which a job publishes, and others
VERSION_TAGS = ["v1.0.0", "v10.20.30-rc.1", "one/v0.1.0", "sub/dir/v1.2.3"]
OTHER_TAGS = ["1.8.0", "nightly", "one/1.8.0", "v1.8", "one/v1", "v", "version-1.2.3", "sub/rev1.2.3", "main"]
# tags whose tests fail
FAILING_TAGS = ["v1.2.0", "two/v0.4.0"]
# tags that are no versions: the folder, and the version before
NO_VERSIONS = {"1.8.0": ("", "1.1.1"), "nightly": ("", "1.1.1"), "one/1.8.0": ("one/", "0.2.1")}
SHELL = blocks("docs/CI.md", "sh")[-1]
TESTS = 'import "testing"\n\nfunc TestFrom(t *testing.T) {\n\tif From != "dep" {\n\t\tt.Fatal(From)\n\t}\n}\n'
FAILING = 'import "testing"\n\nfunc TestNone(t *testing.T) { t.Fatal("it is wrong") }\n'


class Company:
    """goshelf behind nginx, a repository of three modules, of which one requires a module of the shelf, and what jobs
    leave. `first_offer` and `first_publish` are how goshelf-publish and the required module came to the shelf."""

    def __init__(self, folder: str) -> None:
        os.makedirs(f"{folder}/repositories")
        self.folder, self.room, self.count = folder, Room(f"{folder}/repositories"), 0
        self.machine = Machine(f"{folder}/machine")
        with closed_on_failure(self):
            new_store(self.machine.store, ("alpha", UNUSED))
            start(self.machine, {"example.com": ["alpha"]})
            self.client = Client(self.machine)
            for user, right in (("ci", "publish"), ("ci-read", "read")):
                self.client.add(user, "alpha", right)
            settle(self.client, "ci", 404)
            self.url = f"https://localhost:{self.machine.front}"
            self.install_beside_deploy()
            self.first_offer = self.machine.sh(block("sh", "goshelf-offer example.com"))
            self.dependency, self.team = Repository(self.room, "dep"), Repository(self.room, "team")
            self.first_publish = self.publish_dependency()
            self.commit_team()

    def close(self) -> None:
        self.machine.close()

    def install_beside_deploy(self) -> None:
        """Puts what the package has beside deploy/ on the machine."""
        ignored = shutil.ignore_patterns("out")
        shutil.copytree(f"{ROOT}/tools/publish", f"{self.machine.folder}/root/tools/publish", ignore=ignored)
        self.machine.write("root/BUILD", BUILD)

    def publish_dependency(self) -> Ran:
        """Publishes the module that the team's requires, by the login that publishes."""
        self.dependency.first = self.dependency.commit(module("example.com/dep"), "v1.0.0")
        words = "--to https://shelf.example.com --netrc --repository . example.com/dep v1.0.0"
        return self.run(f"{PUBLISH} {words}", self.dependency.folder, self.make_home("ci"))

    def commit_team(self) -> None:
        """Makes the commits and tags of the team: good ones, others that are no versions, and some that fail."""
        team, gosum = self.team, self.dependency.lines("example.com/dep", "v1.0.0", self.dependency.first)
        files = {**module("example.com/team/one", "one"), **module("example.com/team/two", "two")}
        uses = 'import "example.com/dep"\n\nconst From = dep.Name\n'
        files.update({"team.go": code("team", uses), "go.mod": gomod("example.com/team", "example.com/dep v1.0.0")})
        files["go.sum"] = gosum.partition("\n")[2]
        files["team_test.go"] = code("team", TESTS).replace("const Name", "const Other")
        team.first = team.commit(files, "v1.0.0", "one/v0.1.0", "two/v0.2.0", "v1.1.0", "one/v0.2.0", "two/v0.3.0")
        team.last = team.commit({"one/one.go": code("one", "\n// changed\n")}, *NO_VERSIONS)
        team.commit({"team_test.go": f"package team\n\n{FAILING}"}, "v1.2.0")
        failing = {"team_test.go": "package team\n", "two/two_test.go": f"package two\n\n{FAILING}"}
        team.commit(failing, "two/v0.4.0", "v1.2.1")
        team.commit({"two/two_test.go": "package two\n"}, "absent/v0.1.0", "v1.2.2")
        tests = {"team_test.go": files["team_test.go"]}
        team.commit(tests, "one/v0.5.0", "v1.5.0", "v1.6.0", "two/v0.5.0", "one/v0.6.0", "two/v0.6.0")

    def netrc(self, user: str) -> str:
        return f"machine localhost login {user} password {self.client.passwords[user]}\n"

    def make_folder(self) -> str:
        self.count += 1
        os.mkdir(f"{self.folder}/folder{self.count}")
        return f"{self.folder}/folder{self.count}"

    def make_home(self, user: str) -> str:
        """Makes a home with the login of a user."""
        home = self.make_folder()
        write({f"{home}/.netrc": self.netrc(user)})
        return home

    def run(
        self, script: str, at: str, home: str, shell: tuple[str, ...] = ("bash", "-eo", "pipefail"), **variables: str
    ) -> Ran:
        """Runs a script as a service does, and returns its status, output and errors. It has to show no password."""
        clean = go_command.settings(home, SSL_CERT_FILE=self.client.pem)
        env = {name: text for name, text in clean.items() if name not in ("GOPATH", "GOFLAGS")}
        words = [*shell, "-c", script.replace("https://shelf.example.com", self.url)]
        variables = {name: text.replace("https://shelf.example.com", self.url) for name, text in variables.items()}
        how = {"cwd": at, "env": {**env, **variables}, "capture_output": True, "text": True, "timeout": 600}
        ran = subprocess.run(words, stdin=subprocess.DEVNULL, **how)
        assert [word for word in self.client.passwords.values() if word in ran.stdout + ran.stderr] == []
        return ran.returncode, ran.stdout, ran.stderr

    def clone(self, tag: str) -> str:
        """Makes a clone of a tag, as a service does, and returns its folder."""
        at = self.make_folder()
        self.team.git("clone", "-q", "-b", tag, self.team.folder, at)
        return at

    def count_zips(self) -> int:
        """Returns how often nginx was asked for a zip."""
        return sum(".zip" in line for line in self.machine.read("var/log/nginx/goshelf.log").splitlines())

    def lines(self, tag: str) -> str:
        """Returns what goshelf-publish prints behind its first words of a version of the team."""
        folder, _, version = tag.rpartition("/")
        return self.team.lines(f"example.com/team/{folder}".rstrip("/"), version, self.team.first, folder)


@pytest.fixture(scope="module")
def company() -> Iterator[Company]:
    with opened(Company) as company:
        yield company


class TestOffer:
    """An operator puts goshelf-publish on common by the page's command, and no key stays."""

    COMMAND = block("sh", "goshelf-offer example.com")

    @pytest.fixture
    def machine(self, company: Company) -> Iterator[Machine]:
        """The machine, which in the end has the keys of before."""
        keys = "goshelf key-list --control /run/goshelf/control"
        before = company.machine.does(keys)
        yield company.machine
        assert company.machine.does(keys) == before
        assert not os.path.exists(f"{company.machine.folder}/var/lib/goshelf-offer.key")

    def test_the_first_time_publishes(self, company: Company) -> None:
        assert company.first_offer == (0, f"published {OFFERED}\n", "")

    def test_the_second_time_finds_the_version(self, machine: Machine) -> None:
        assert machine.sh(self.COMMAND) == (0, f"already published {OFFERED}\n", "")

    def test_other_bytes_are_refused(self, machine: Machine) -> None:
        machine.edit("root/tools/publish/main.go", ("package main", "package  main"))
        ran = machine.sh(self.COMMAND)
        machine.edit("root/tools/publish/main.go", ("package  main", "package main"))
        assert ran == (1, "", f"goshelf-offer: goshelf does not take {OFFERED}: 409 conflict\n")

    def test_a_build_without_a_commit_is_refused(self, machine: Machine) -> None:
        machine.write("root/BUILD", "version: 0.1.0-unreleased\n")
        ran = machine.sh(self.COMMAND)
        machine.write("root/BUILD", BUILD)
        why = f"{machine.folder}/usr/share/goshelf/BUILD names no commit: no release is installed here"
        assert ran == (1, "", f"goshelf-offer: {why}\n")

    def test_a_goshelf_that_takes_no_orders_is_named(self, machine: Machine) -> None:
        os.rename(f"{machine.folder}/run/goshelf", f"{machine.folder}/run/other")
        status, _, errors = machine.sh(self.COMMAND)
        os.rename(f"{machine.folder}/run/other", f"{machine.folder}/run/goshelf")
        assert (status, errors) == (1, "goshelf-offer: goshelf does not answer: No such file or directory\n")

    @pytest.mark.parametrize(
        "words", ["", "example.com", "goshelf-publish", "example.com/A", "--files example.com/a", "a.com/a b.com/b"]
    )
    def test_bad_usage(self, words: str, machine: Machine) -> None:
        status, _, errors = machine.sh(f"goshelf-offer {words}")
        assert status == 2 and "usage: goshelf-offer" in errors

    def test_files_are_written_for_another_proxy(self, machine: Machine) -> None:
        script = "mkdir -p new && goshelf-offer --files new example.org/a-b/goshelf-publish && cat new/publish.mod"
        status, output, _ = machine.sh(script)
        assert status == 0 and output.endswith("\nmodule example.org/a-b/goshelf-publish\n\ngo 1.19\n")

    def test_a_login_publishes_a_module(self, company: Company) -> None:
        lines = company.dependency.lines("example.com/dep", "v1.0.0", company.dependency.first)
        assert company.first_publish == (0, f"published {lines}", "")


class Build(NamedTuple):
    """How a build job ended, and the zips that it fetched."""

    ran: Ran
    zips: int


class Jobs:
    """The tests of a service."""

    make: Callable[[Company], Service]

    @pytest.fixture(scope="class")
    def service(self, company: Company) -> Service:
        return type(self).make(company)

    def test_a_job_has_few_lines(self, service: Service) -> None:
        lines = {name: service.jobs[name].count("\n") for name in ("build", "publish")}
        assert max(lines.values()) < 15, lines

    def test_version_tags_publish(self) -> None:
        assert type(self).make.match_tags(VERSION_TAGS + OTHER_TAGS) == VERSION_TAGS

    def test_only_the_first_build_fetches_modules(self, company: Company) -> None:
        service, builds = type(self).make(company), []
        for _ in range(2):
            before = company.count_zips()
            builds.append(Build(service.run("v1.0.0", "build"), company.count_zips() - before))
        for status, output, _ in (build.ran for build in builds):
            assert status == 0 and "ok" in output and "example.com/team" in output, builds
        assert [build.zips for build in builds] == [1, 0]

    def check_publish(self, tag: str, company: Company, service: Service) -> None:
        """A job publishes a tag that no other test publishes."""
        status, output, errors = service.run(tag)
        assert status == 0, errors
        assert output.endswith(f"published {company.lines(tag)}") and "already published" not in output

    def check_second(self, tag: str, company: Company, service: Service) -> None:
        """A second job for a tag finds the version there."""
        self.check_publish(tag, company, service)
        status, output, errors = service.run(tag)
        assert status == 0, errors
        assert output.endswith(f"already published {company.lines(tag)}")

    @pytest.mark.parametrize("tag", NO_VERSIONS)
    def test_a_tag_that_is_no_version_is_refused(self, tag: str, company: Company, service: Service) -> None:
        front, version = NO_VERSIONS[tag]
        wanted = f"publish: {tag} is not a version: make a tag {front}vMAJOR.MINOR.PATCH and give that, "
        wanted += f"or give --pseudo to publish v{version}-0.20240131120000-{company.team.last[:12]}\n"
        status, _, errors = service.run(tag)
        assert status == 1 and errors.endswith(wanted), errors

    @pytest.mark.parametrize("tag", FAILING_TAGS)
    def test_a_failing_test_publishes_nothing(self, tag: str, service: Service) -> None:
        status, said = run_pipeline(service, tag)
        assert status == 1 and "it is wrong" in said, said
        assert find_published(said) == []


class TestGitLab(Jobs):
    make = GitLab

    @pytest.mark.parametrize("tag", ["v1.0.0", "one/v0.1.0"])
    def test_a_job_publishes_its_tag(self, tag: str, company: Company, service: Service) -> None:
        self.check_publish(tag, company, service)

    def test_a_second_job_finds_the_version(self, company: Company, service: Service) -> None:
        self.check_second("one/v0.2.0", company, service)

    def test_it_caches_one_folder(self) -> None:
        assert re.findall(r"paths: \[(.*?)\]", GITLAB) == [".go"]


class TestGitHub(Jobs):
    make = GitHub

    @pytest.mark.parametrize("tag", ["v1.1.0", "two/v0.2.0"])
    def test_a_job_publishes_its_tag(self, tag: str, company: Company, service: Service) -> None:
        self.check_publish(tag, company, service)

    def test_a_second_job_finds_the_version(self, company: Company, service: Service) -> None:
        self.check_second("two/v0.3.0", company, service)

    def test_only_the_job_reads_its_login(self, service: Service) -> None:
        service.run("v1.0.0", "build")
        assert os.stat(f"{service.home}/.netrc").st_mode & 0o777 == 0o600

    def test_what_was_installed_prints_its_version(self, company: Company, service: Service) -> None:
        # (a job installs it before it refuses the tag)
        service.run("nightly")
        status, output, _ = company.run("go/bin/goshelf-publish --version", service.home, service.home)
        assert (status, output) == (0, OFFERED.replace("example.com/", "") + "\n")


class TestShell:
    """The block for a plain shell publishes each tag of the commit, those that are there too."""

    def run(self, company: Company, tag: str, script: str = SHELL, user: str = "ci") -> Ran:
        """Runs the block, or another, in a clone of a tag."""
        return company.run(script, company.clone(tag), company.make_home(user), ("sh",))

    def test_it_publishes_the_tags_of_a_commit(self, company: Company) -> None:
        home, tags = company.make_home("ci"), {"one/v0.5.0": "/one", "v1.5.0": "", "two/v0.5.0": "/two"}
        for tag, folder in tags.items():
            words = f"--to https://shelf.example.com --netrc --repository . example.com/team{folder} {tag}"
            assert company.run(f"{PUBLISH} {words}", company.clone(tag), home)[0] == 0
        status, output, errors = self.run(company, "v1.5.0")
        found = re.findall(r"^((?:already )?published) example\.com/(\S+) (\S+)$", output, re.M)
        there = [("team/one", "v0.5.0"), ("team", "v1.5.0"), ("team/two", "v0.5.0")]
        new = [("team/one", "v0.6.0"), ("team", "v1.6.0"), ("team/two", "v0.6.0")]
        wanted = [("already published", *row) for row in there] + [("published", *row) for row in new]
        assert (status, sorted(found)) == (0, sorted(wanted)), errors

    def test_a_login_that_reads_is_refused(self, company: Company) -> None:
        status, _, errors = self.run(company, "v1.0.0", user="ci-read")
        only = f"logs in as a user who only reads: ask the operator of {company.url} for the right"
        assert status == 1 and only in errors, errors

    @pytest.mark.parametrize("tag", FAILING_TAGS)
    def test_a_failing_test_publishes_nothing(self, tag: str, company: Company) -> None:
        status, output, errors = self.run(company, tag)
        assert status == 1 and "it is wrong" in output + errors, (output, errors)
        assert find_published(output + errors) == []

    @pytest.mark.parametrize(
        ("tag", "old", "new", "said"),
        [
            ("v1.2.2", "", "", "absent"),
            ("v1.0.0", r"^for tag in .*; do$", "for tag in one/v0.9.0 v1.0.0; do", "one/v0.9.0"),
            ("v1.0.0", "-publish@latest", "-publish@v9.9.9", "v9.9.9"),
        ],
        ids=["a tag without a folder", "a publish that is refused", "no goshelf-publish to install"],
    )
    def test_a_command_that_fails_ends_it_before_it_publishes(
        self, tag: str, old: str, new: str, said: str, company: Company
    ) -> None:
        script, count = re.subn(old, new, SHELL, count=1, flags=re.M) if old else (SHELL, 1)
        assert count == 1
        status, output, errors = self.run(company, tag, script)
        assert status != 0 and said in output + errors, (output, errors)
        assert find_published(output + errors) == []

    def test_it_ends_outside_of_a_clone(self, company: Company) -> None:
        at = company.clone("v1.0.0")
        shutil.move(f"{at}/.git", f"{at}/git")
        status, output, errors = company.run(SHELL, at, company.make_home("ci"), ("sh",))
        assert status == 128 and "not a git repository" in output + errors

    @pytest.fixture
    def last_command(self) -> str:
        """The command of the block that publishes, for a tag and a module."""
        line = SHELL.splitlines()[-2].strip()
        return f"GOPROXY=https://shelf.example.com tag=v1.0.0 module=example.com/dep; {line}"

    @pytest.fixture
    def wrong_home(self, company: Company) -> str:
        """A home whose go command has goshelf-publish, and whose login has a wrong password."""
        home = company.make_folder()
        write({f"{home}/.netrc": "machine localhost login ci password wrong\n"})
        os.makedirs(f"{home}/go/bin")
        os.symlink(PUBLISH, f"{home}/go/bin/goshelf-publish")
        return home

    def test_a_wrong_password_is_refused(self, company: Company, last_command: str, wrong_home: str) -> None:
        status, _, errors = company.run(last_command, company.dependency.folder, wrong_home)
        assert status == 1 and "does not take the password of ci: mend the line" in errors

    def test_an_unknown_authority_is_refused(self, company: Company, last_command: str, wrong_home: str) -> None:
        script = f"unset SSL_CERT_FILE; {last_command}"
        status, _, errors = company.run(script, company.dependency.folder, wrong_home)
        trust = f"publish: no TLS with {company.url}: name its certificates by SSL_CERT_FILE, or check the URL ("
        assert status == 1 and errors.startswith(trust), errors


class Person(NamedTuple):
    """How the commands of somebody ended, and the mode of the file with the login."""

    ran: Ran
    mode: int


class TestTutorial:
    """A developer who has go and a login publishes a first version by the tutorial, and a colleague gets it."""

    LINE = blocks("docs/TUTORIAL.md", "text")[0]
    APPEND, SETTINGS, INSTALL, PUBLISHES, USE = blocks("docs/TUTORIAL.md", "sh")

    def run(self, company: Company, login: str, script: str, at: str | None = None) -> Person:
        """Runs commands in the home of somebody who writes a login by the commands of the page."""
        home = company.make_folder()
        netrc = self.LINE.replace("shelf.example.com", "localhost").replace(" ann ", f" {login} ")
        netrc = netrc.replace("KEY", company.client.passwords[login])
        typed = f"{self.APPEND.rstrip()} << 'END'\n{netrc}END\n{self.SETTINGS}{script}"
        ran = company.run(typed, at or home, home)
        return Person(ran, os.stat(f"{home}/.netrc").st_mode & 0o777)

    @pytest.fixture(scope="class")
    def greet(self, company: Company) -> Repository:
        greet = Repository(company.room, "greet")
        files = {**module("example.com/greet"), "greet.go": 'package greet\n\nconst Hello = "hello"\n'}
        greet.first = greet.commit(files)
        return greet

    @pytest.fixture(scope="class")
    def developer(self, company: Company, greet: Repository) -> Person:
        """The developer checks the version, and publishes it."""
        tag, command = self.PUBLISHES.splitlines()
        check = command.replace("--to", "--check --to")
        return self.run(company, "ci", f"{self.INSTALL}{tag}\n{check}\n{command}\n", greet.folder)

    @pytest.fixture(scope="class")
    def colleague(self, company: Company, developer: Person) -> Person:
        return self.run(company, "ci-read", self.USE)

    def test_a_developer_publishes_a_first_version(self, developer: Person, greet: Repository) -> None:
        lines = greet.lines("example.com/greet", "v0.1.0", greet.first)
        assert developer.ran[:2] == (0, f"checked {lines}published {lines}"), developer.ran

    def test_a_colleague_runs_a_program_with_it(self, colleague: Person) -> None:
        status, _, errors = colleague.ran
        assert (status, errors.splitlines()[-1:]) == (0, ["hello"]), colleague.ran

    def test_only_its_user_reads_a_login(self, developer: Person, colleague: Person) -> None:
        assert (developer.mode, colleague.mode) == (0o600, 0o600)
