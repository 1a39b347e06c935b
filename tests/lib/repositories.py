"""What the tests of tools/publish share: its two programs, and repositories with modules and tags."""

import fcntl
import os
import re
import subprocess
from collections.abc import Mapping

from lib.go_command import build_cache
from lib.keys import KEYS
from lib.modules import h1
from lib.program import ROOT
from lib.publishing import find_unlisted
from lib.scratch import write

TOOLS = os.path.join(ROOT, "tools")
PUBLISH, ADOPT = (os.path.join(TOOLS, "publish", "out", name) for name in ("goshelf-publish", "goshelf-adopt"))
KEY, READER = KEYS["A"], KEYS["R"]
# what a check says that asks no server
UNASKED = "publish: not checked without --to: a key, and whether the version is there\n"
# the time of each commit, as git is given it and as goshelf has it
STAMP, TIME = "2024-01-31T13:00:00+0100", "2024-01-31T12:00:00Z"

# the status, the output and the errors of a run
Ran = tuple[int, str, str]
Files = Mapping[str, str | bytes]


def built() -> None:
    """Builds both programs where a file of them is newer, as their first run in a checkout does."""
    lock = os.open(os.path.join(TOOLS, "publish"), os.O_RDONLY)
    try:
        fcntl.flock(lock, fcntl.LOCK_EX)
        for program in (PUBLISH, ADOPT):
            words = [os.path.join(TOOLS, os.path.basename(program)), "--help"]
            subprocess.run(words, check=True, stdout=subprocess.DEVNULL)
    finally:
        os.close(lock)


class Room:
    """A user's folder: keys, a home, and a folder for temporary files, whose name has a space."""

    def __init__(self, folder: str) -> None:
        self.folder, self.tmp = folder, f"{folder}/temporary files"
        built()
        for name in ("home", "temporary files"):
            os.mkdir(f"{folder}/{name}")
        keys = {"key": KEY + "\n", "reader": READER, "nobody": KEYS["N"], "beta": KEYS["B"]}
        write({f"{folder}/{name}": key for name, key in keys.items()})
        own = {"HOME": f"{folder}/home", "TMPDIR": self.tmp, "GOCACHE": build_cache(), "GIT_CONFIG_NOSYSTEM": "1"}
        own.update({f"GIT_{who}_{what}": "me" for who in ("AUTHOR", "COMMITTER") for what in ("NAME", "EMAIL")})
        own.update(GIT_AUTHOR_DATE=STAMP, GIT_COMMITTER_DATE=STAMP, GIT_CONFIG_COUNT="1")
        own.update(GIT_CONFIG_KEY_0="init.defaultBranch", GIT_CONFIG_VALUE_0="main")
        clean = {
            name: text
            for name, text in os.environ.items()
            if not name.startswith(("GO", "GIT_")) and "proxy" not in name.lower()
        }
        self.env = {**clean, **own}

    def publish(self, *words: str, stdin: bytes = b"", at: str | None = None, **more: str | None) -> Ran:
        """Runs goshelf-publish in a folder, and returns its status, output and errors. A setting of None is left out.

        It may leave no file and show no key, and docs/REFERENCE.md has to list what it refuses."""
        settings: dict[str, str | None] = {**self.env}
        settings.update(more)
        env = {name: text for name, text in settings.items() if text is not None}
        folder = at or self.folder
        ran = subprocess.run([PUBLISH, *words], cwd=folder, input=stdin, env=env, capture_output=True, timeout=300)
        output, errors = ran.stdout.decode(), ran.stderr.decode()
        shown = [key for key in KEYS.values() if key in output + errors]
        assert ran.returncode != 1 or find_unlisted(errors) == []
        assert (os.listdir(self.tmp), shown) == ([], []), errors
        return ran.returncode, output, errors

    def go(self, at: str, proxies: str, *words: str) -> subprocess.CompletedProcess[str]:
        """Runs the go command as a user with a module cache below a folder of its own."""
        own = {"GOPATH": f"{self.folder}/{at}-path", "GOPROXY": proxies, "GOSUMDB": "off", "GOFLAGS": "-modcacherw"}
        env, folder = {**self.env, **own, "CGO_ENABLED": "0"}, f"{self.folder}/{at}"
        return subprocess.run(["go", *words], cwd=folder, env=env, capture_output=True, text=True, timeout=300)


class Repository:
    """A git repository with files and tags."""

    def __init__(self, room: Room, name: str) -> None:
        self.room, self.folder = room, f"{room.folder}/{name}"
        # commits that a test marks
        self.first = self.last = ""
        os.makedirs(self.folder)
        self.git("init", "-q")

    def git(self, *words: str) -> bytes:
        """Runs git, which has to end well, and returns its output."""
        ran = subprocess.run(["git", *words], cwd=self.folder, env=self.room.env, capture_output=True, timeout=60)
        assert ran.returncode == 0, (words, ran.stderr)
        return ran.stdout

    def commit(self, files: Files, *tags: str) -> str:
        """Commits files, gives the commit tags, and returns its name."""
        for name, content in files.items():
            os.makedirs(os.path.dirname(f"{self.folder}/{name}"), exist_ok=True)
            write({f"{self.folder}/{name}": content})
        self.git("add", "-A")
        self.git("commit", "-q", "--allow-empty", "-m", "a change")
        for tag in tags:
            self.git("tag", tag)
        return self.git("rev-parse", "HEAD").decode().strip()

    def files(self, commit: str, folder: str) -> dict[str, bytes]:
        """Returns the files of the module in a folder at a commit, without those of folders with a go.mod of their
        own."""
        names = self.git("ls-tree", "-r", "--name-only", commit).decode().splitlines()
        front = f"{folder}/" if folder else ""
        inner = tuple(
            name.removesuffix("go.mod")
            for name in names
            if name.endswith("/go.mod") and name != f"{front}go.mod" and name.startswith(front)
        )
        own = [name for name in names if name.startswith(front) and not name.startswith(inner)]
        return {name[len(front) :]: self.git("cat-file", "blob", f"{commit}:{name}") for name in own}

    def lines(self, path: str, version: str, commit: str, folder: str = "") -> str:
        """Returns what goshelf-publish prints behind its first word: a version and its lines of go.sum."""
        files = self.files(commit, folder)
        gomod = files.get("go.mod", f"module {path}\n".encode())
        whole = h1([(f"{path}@{version}/{name}", content) for name, content in files.items()])
        return f"{path} {version}\n{path} {version} {whole}\n{path} {version}/go.mod {h1([('go.mod', gomod)])}\n"


def gomod(path: str, *requires: str) -> str:
    """Returns the go.mod of a module that requires others."""
    return f"module {path}\n\ngo 1.17\n" + "".join(f"\nrequire {required}\n" for required in requires)


def code(name: str, more: str = "") -> str:
    """Returns the code of a package, which has a constant with its name."""
    return f'package {name}\n{more}\nconst Name = "{name}"\n'


def module(path: str, folder: str = "", more: str = "") -> dict[str, str]:
    """Returns the files of a module in a folder of its repository."""
    name = next(part for part in reversed(path.split("/")) if not re.fullmatch(r"v\d+", part)).lower()
    front = f"{folder}/" if folder else ""
    return {f"{front}go.mod": gomod(path), f"{front}{name}.go": code(name, more)}


def greet_of(room: Room) -> Repository:
    """Returns a repository of modules: at its top, in folders, of another major version, with a capital. HEAD is at
    the first commit, as in a job, and main a commit after it."""
    greet = Repository(room, "a repository/greet")
    files = {
        **module("example.com/greet"),
        **module("example.com/greet/sub", "sub"),
        **module("example.com/greet/v2", "v2"),
        **module("example.com/greet/Words", "Words"),
        **module("example.com/greet/sub/v3", "sub/v3"),
        "text/kept.txt": "kept\n",
    }
    requires = "example.com/greet v1.0.0", "example.com/private/elsewhere v1.2.3"
    files["sub/go.mod"] = gomod("example.com/greet/sub", *requires)
    greet.first = greet.commit(files, "v1.0.0", "sub/v0.1.0", "v2.0.0", "Words/v1.0.0-RC.1", "sub/v3.0.0", "v1.1")
    greet.git("tag", "-a", "-m", "annotated", "v1.0.1")
    greet.last = greet.commit({"greet.go": code("greet", "\n// changed\n")})
    greet.git("checkout", "-q", greet.first)
    return greet


def shell(room: Room, folder: str, script: str, replaced: Mapping[str, str], **more: str) -> Ran:
    """Runs a block of a page in a folder, some words replaced, and returns its status, output and errors."""
    for old, new in replaced.items():
        assert old in script, old
        script = script.replace(old, new)
    env = {**room.env, **more}
    ran = subprocess.run(["bash", "-e", "-c", script], cwd=folder, env=env, capture_output=True, text=True, timeout=300)
    return ran.returncode, ran.stdout, ran.stderr
