"""The jobs of docs/CI.md as GitLab and GitHub run them, by the documented rules of each."""

import os
import re
import shutil
from typing import Protocol

from lib import go_command
from lib.pages import blocks
from lib.repositories import Ran
from lib.scratch import write

GITLAB, GITHUB = blocks("docs/CI.md", "yaml")
# who logs in, and which of the page's logins that is
LOGINS = {"READER": "ci-read", "NETRC": "ci-read", "PUBLISHER": "ci"}
BASH = ("bash", "-e")


class Company(Protocol):
    """What a service needs of a company: logins, folders, clones of tags, and a shell."""

    def netrc(self, user: str) -> str:
        ...

    def make_folder(self) -> str:
        ...

    def clone(self, tag: str) -> str:
        ...

    def run(self, script: str, at: str, home: str, shell: tuple[str, ...] = ..., **variables: str) -> Ran:
        ...


def read_parts(text: str, indent: int) -> dict[str, str]:
    """Returns the parts of a text in YAML at a depth, by name: the lines below each, or the text behind its colon."""
    front = " " * indent
    found = re.findall(rf"^{front}(\w+):(.*)\n((?:{front} +.*\n)*)", text, re.M)
    return {name: below or value.strip() for name, value, below in found}


def read_values(text: str) -> dict[str, str]:
    """Returns the variables of a text in YAML."""
    return {name: value.strip("\"'") for name, value in re.findall(r"^ *(\w+): (.*)$", text, re.M)}


class GitLab:
    """The jobs of GitLab. Its cache is below the clone, and comes back in the next job."""

    def __init__(self, company: Company) -> None:
        self.company, self.jobs = company, read_parts(GITLAB, 0)
        self.home, self.cache = company.make_folder(), f"{company.make_folder()}/cache"
        os.mkdir(self.cache)
        # what an earlier job compiled
        os.symlink(go_command.build_cache(), f"{self.cache}/build")
        write({f"{self.home}/{user}": company.netrc(user) for user in set(LOGINS.values())})
        stages = {name: read_values(self.jobs[name]).get("stage", "test") for name in ("build", "publish")}
        groups = [[name for name in stages if stages[name] == stage] for stage in ("test", "deploy")]
        self.groups = [group for group in groups if group]

    def run(self, tag: str, name: str = "publish") -> Ran:
        """Runs a job for a tag."""
        at, own = self.company.clone(tag), {"CI_COMMIT_TAG": tag}
        shutil.move(self.cache, f"{at}/.go")
        for text in (self.jobs["variables"], read_parts(self.jobs[name], 2).get("variables", "")):
            own.update({name: value.replace("$CI_PROJECT_DIR", at) for name, value in read_values(text).items()})
        own.update({name: f"{self.home}/{LOGINS[name]}" for name in ("NETRC", "PUBLISHER")})
        items = read_parts(self.jobs[name], 2)["script"].split("    - ")
        script = "\n".join(" ".join(item.split("\n      ")).strip() for item in items)
        ran = self.company.run(script, at, self.home, (*BASH, "-o", "pipefail"), **own)
        shutil.move(f"{at}/.go", self.cache)
        return ran

    @staticmethod
    def match_tags(tags: list[str]) -> list[str]:
        """Returns the tags for which a job publishes."""
        (rule,) = re.findall(r"\$CI_COMMIT_TAG =~ /(.*)/'?$", read_parts(GITLAB, 0)["publish"], re.M)
        return [tag for tag in tags if re.search(rule, tag)]


class GitHub:
    """The jobs of GitHub. setup-go keeps the caches of the go command, which are in the home."""

    def __init__(self, company: Company) -> None:
        self.company, self.home = company, company.make_folder()
        self.top = read_parts(GITHUB, 0)
        self.jobs = read_parts(self.top["jobs"], 2)
        waits = read_values(self.jobs["publish"]).get("needs") == "build"
        self.groups = [["build"], ["publish"]] if waits else [["build", "publish"]]

    def run(self, tag: str, name: str = "publish") -> Ran:
        """Runs a job for a tag."""
        ((settings, run),) = re.findall(r"env: \{ (.*) \}\n +run: \|\n((?: {10}.*\n)+)", self.jobs[name])
        own = {**read_values(self.top["env"]), "GITHUB_REF_NAME": tag, "GITHUB_REF_TYPE": "tag"}
        for variable, value in re.findall(r"(\w+): '(.*?)'", settings):
            secret = re.fullmatch(r"\$\{\{ secrets\.(\w+) \}\}", value)
            own[variable] = self.company.netrc(LOGINS[secret[1]]).strip() if secret else value
        script = re.sub(r"^ {10}", "", run, flags=re.M)
        return self.company.run(script, self.company.clone(tag), self.home, BASH, **own)

    @staticmethod
    def match_tags(tags: list[str]) -> list[str]:
        """Returns the tags for which a job publishes."""
        patterns = re.findall(r"'([^']*)'", GITHUB.partition("\n")[0])
        texts = {"**": ".*", "*": "[^/]*", ".": "\\."}
        rules = [re.sub(r"\*\*|[*.]", lambda found: texts[str(found[0])], str(pattern)) for pattern in patterns]
        return [tag for tag in tags if any(re.fullmatch(rule, tag) for rule in rules)]


Service = GitLab | GitHub


def run_pipeline(service: Service, tag: str) -> tuple[int, str]:
    """Runs what a service runs for a tag: groups of jobs, each of which begins once the jobs of the last have passed.
    Returns a status and all that was printed."""
    said = ""
    for group in service.groups:
        ran = [service.run(tag, name) for name in group]
        said += "".join(output + errors for _, output, errors in ran)
        if status := max(status for status, _, _ in ran):
            return status, said
    return 0, said


def find_published(said: str) -> list[str]:
    """Returns the lines that say that something is published."""
    return re.findall("^.*published.*$", said, re.M)
