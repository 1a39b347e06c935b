"""The Go module of goshelf-publish: its own tests, its layout, and that it builds the same for each system, twice.

It stands on the standard library alone. The programs of tools/release are built here as it builds them, from two
folders, and for one system with two caches of the go command.
"""

import glob
import hashlib
import os
import re
import shutil
import subprocess

import pytest

from lib.program import ROOT
from lib.scratch import entered_folder, read

pytestmark = pytest.mark.needs("git", "go", "gofmt")

MODULE = os.path.join(ROOT, "tools", "publish")
LONGEST_LINE, LONGEST_FILE, LONGEST_FUNCTION = 120, 500, 40


def go(at: str, *words: str, **settings: str) -> tuple[int, str]:
    """Runs the go command in a folder, with no settings of the user but the cache. Returns its status and output."""
    own = {"GOENV": "off", "GOFLAGS": "", "GO111MODULE": "on", "GOWORK": "off", "GOTOOLCHAIN": "local"}
    env = {**os.environ, **own, "GOPROXY": "off", "CGO_ENABLED": "0", **settings}
    ran = subprocess.run(["go", *words], cwd=at, env=env, capture_output=True, text=True, timeout=900)
    return ran.returncode, ran.stdout + ran.stderr


class TestLayout:
    """The files are gofmt's, and small."""

    @pytest.fixture(scope="class")
    def texts(self) -> dict[str, str]:
        """The text of each file."""
        files = sorted(glob.glob("**/*.go", root_dir=MODULE, recursive=True))
        return {name: read(os.path.join(MODULE, name)).decode() for name in files}

    @pytest.fixture(scope="class")
    def code(self, texts: dict[str, str]) -> dict[str, str]:
        """The text of each file but for its tests."""
        return {name: text for name, text in texts.items() if not name.endswith("_test.go")}

    def test_the_layout_is_gofmts(self) -> None:
        ran = subprocess.run(["gofmt", "-l", MODULE], capture_output=True, text=True)
        assert (ran.returncode, ran.stdout, ran.stderr) == (0, "", "")

    def test_no_file_is_too_long(self, texts: dict[str, str]) -> None:
        assert [name for name, text in texts.items() if text.count("\n") > LONGEST_FILE] == []

    def test_no_line_is_too_long(self, code: dict[str, str]) -> None:
        wide = [name for name, text in code.items() for line in text.splitlines() if len(line) > LONGEST_LINE]
        assert wide == []

    def test_no_function_is_too_long(self, code: dict[str, str]) -> None:
        function = re.compile(r"^func .*\{\n(?:.*\n)*?\}$", re.M)
        bodies = [(name, body) for name, text in code.items() for body in function.findall(text)]
        assert len(bodies) > 80
        long = [f"{name}: {body.splitlines()[0]}" for name, body in bodies if body.count("\n") >= LONGEST_FUNCTION]
        assert long == []

    def test_each_package_has_a_comment(self, texts: dict[str, str], code: dict[str, str]) -> None:
        packages = {os.path.dirname(name) for name, text in code.items() if "package main" not in text}
        documented = {os.path.dirname(name) for name, text in texts.items() if text.startswith("// Package ")}
        assert packages and packages - documented == set()

    def test_it_requires_nothing_but_go_1_19(self) -> None:
        gomod = read(os.path.join(MODULE, "go.mod")).decode()
        assert gomod == "module example.com/goshelf-publish\n\ngo 1.19\n"


class TestOwnTests:
    """The tests that the module has itself."""

    def test_they_pass(self) -> None:
        status, output = go(MODULE, "test", "-trimpath", "-count=1", "./...")
        assert status == 0, output
        assert len(re.findall(r"^ok\s", output, re.M)) > 5


def build(at: str, to: str, system: str, kind: str, **settings: str) -> dict[str, str]:
    """Builds the programs for a system as tools/release does, and returns their sums."""
    env = {**os.environ, "GOOS": system, "GOARCH": kind, **settings}
    subprocess.run([f"{at}/build", to, "v1"], env=env, check=True, timeout=900)
    return {name: hashlib.sha256(read(f"{to}/{name}")).hexdigest() for name in sorted(os.listdir(to))}


@pytest.mark.parametrize("kind", ["amd64", "arm64"])
class Builds:
    """The programs for a system, from this folder and from another."""

    system, ending = "", ""

    def test_it_is_vetted(self, kind: str) -> None:
        assert go(MODULE, "vet", "-trimpath", "./...", GOOS=self.system, GOARCH=kind) == (0, "")

    def test_two_builds_are_the_same_and_name_no_folder(self, kind: str) -> None:
        name = f"goshelf-publish{self.ending}"
        with entered_folder() as folder:
            shutil.copytree(MODULE, f"{folder}/elsewhere", ignore=shutil.ignore_patterns("out"))
            own = {"GOCACHE": f"{folder}/cache"} if (self.system, kind) == ("linux", "amd64") else {}
            first = build(MODULE, f"{folder}/one", self.system, kind)
            second = build(f"{folder}/elsewhere", f"{folder}/two", self.system, kind, **own)
            program = read(f"{folder}/one/{name}")
        assert second == first and name in first
        assert ROOT.encode() not in program


class TestLinux(Builds):
    system = "linux"


class TestDarwin(Builds):
    system = "darwin"


class TestWindows(Builds):
    system, ending = "windows", ".exe"
