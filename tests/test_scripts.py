"""Scripts of users, operators and contributors, tests/all, .ci/ and benches print their usage and refuse unknown words.

Those in sh pass shellcheck, as the package's own do, and all files in Python pyflakes and black, which lays them out
by pyproject.toml; mypy finds nothing in what has type hints. No line in Rattle has more than 120 characters, and none
of a proof 200. docs/TESTING.md has each file of tests, and none of these is imported.
"""

import ast
import functools
import glob
import os
import re
import subprocess
import sys
from collections.abc import Iterator

import pytest
from conftest import LONGEST

from lib.machine import Machine
from lib.program import ROOT
from lib.scratch import entered_folder

# (a unit has an end)
COMMANDS = sorted(name for name in glob.glob("deploy/**/goshelf-*", root_dir=ROOT, recursive=True) if "." not in name)
TOOLS = ["tools/catalog", "tools/publish/build", "tools/release", "tools/shards"]
SCRIPTS = [*TOOLS, ".ci/gate", ".ci/run", "tests/all", *COMMANDS]
# run programs of tools/publish, which answer
LAUNCHERS = ["tools/goshelf-adopt", "tools/goshelf-publish", "tools/publish/run"]
# tools of contributors, whose usage has other words before the command
REPOSITORY_TOOLS = sorted(
    name
    for name in glob.glob("tools/*", root_dir=ROOT)
    if os.path.isfile(os.path.join(ROOT, name)) and "." not in name and name not in [*TOOLS, *LAUNCHERS]
)
# what several of the commands source
COMMON = "deploy/common.sh"
PACKAGED = [f"deploy/debian/{name}" for name in ("postinst", "prerm", "postrm")]
# folders with files in Python
FOLDERS = ("tests", "tools", "bench", "deploy")
SHELLS = ("#!/bin/sh\n", "#!/usr/bin/env bash\n")
LONGEST_LINE, LONGEST_FILE, LONGEST_FUNCTION = 120, 500, 40
# of the code in Rattle, and of its specs and proofs
LONGEST_IN_RATTLE = {".rt": 120, ".antt": 200}
# how many lines of specs and proofs may be longer than one of code
MOST_WIDE = 200
# the black of Debian 12: another may lay files out otherwise
BLACK = "black, 23."
# what has type hints; mypy checks the functions that have them
TYPED = ["tests/lib", "tests/conftest.py", "deploy", "tools"]


def run(*words: str) -> tuple[int, str, str]:
    """Runs a command at the top of the repository, and returns its status, output and errors."""
    ran = subprocess.run(words, cwd=ROOT, stdin=subprocess.DEVNULL, capture_output=True, text=True, timeout=600)
    return ran.returncode, ran.stdout, ran.stderr


@functools.cache
def read(name: str) -> str:
    with open(os.path.join(ROOT, name), encoding="utf-8", errors="replace") as file:
        return file.read()


@functools.cache
def list_python() -> list[str]:
    """Returns the files in Python: those that end so, and scripts that begin so."""
    below = ((at, name) for folder in FOLDERS for at, _, names in os.walk(os.path.join(ROOT, folder)) for name in names)
    files = sorted(os.path.relpath(os.path.join(at, name), ROOT) for at, name in below)
    return [name for name in files if name.endswith(".py") or read(name).startswith("#!/usr/bin/env python3\n")]


@functools.cache
def parse(name: str) -> list[ast.AST]:
    """Returns the nodes of a file in Python."""
    return list(ast.walk(ast.parse(read(name))))


class TestWords:
    """The scripts and their words."""

    @pytest.fixture(scope="class")
    def machine(self) -> Iterator[Machine]:
        """A machine in a folder (lib/machine.py), where the commands of deploy/ are installed."""
        with entered_folder() as folder:
            machine = Machine(folder)
            machine.check_out()
            yield machine

    @pytest.mark.parametrize("option", ["--help", "-h"])
    @pytest.mark.parametrize("script", SCRIPTS)
    def test_script_prints_its_usage(self, script: str, option: str) -> None:
        status, output, errors = run(os.path.join(ROOT, script), option)
        assert (status, errors) == (0, "")
        # (an installed command is on the path)
        assert f"usage: {os.path.basename(script) if script in COMMANDS else script}" in output

    @pytest.mark.parametrize("script", [script for script in SCRIPTS if script not in [*COMMANDS, "tests/all"]])
    def test_script_refuses_an_unknown_word(self, script: str) -> None:
        status, output, errors = run(os.path.join(ROOT, script), "--nosuch")
        assert (status, output) == (2, "")
        assert f"usage: {script}" in errors

    @pytest.mark.parametrize("option", ["--help", "-h"])
    @pytest.mark.parametrize("tool", REPOSITORY_TOOLS)
    def test_tool_prints_its_usage(self, tool: str, option: str) -> None:
        status, output, errors = run(os.path.join(ROOT, tool), option)
        assert (status, errors) == (0, "")
        assert re.search(rf"^usage\b.*{tool}", output, re.M)

    @pytest.mark.parametrize("tool", REPOSITORY_TOOLS)
    def test_tool_refuses_an_unknown_word(self, tool: str) -> None:
        status, output, errors = run(os.path.join(ROOT, tool), "--nosuch")
        assert (status, output) == (2, "")
        assert re.search(rf"^usage\b.*{os.path.basename(tool)}", errors, re.M)

    def test_pytest_refuses_an_unknown_word_of_all_tests(self) -> None:
        status, output, errors = run(os.path.join(ROOT, "tests", "all"), "--nosuch")
        assert (status, output) == (4, "")
        assert "usage: " in errors and "unrecognized arguments: --nosuch" in errors

    def test_deploy_has_commands(self) -> None:
        assert len(COMMANDS) > 8

    @pytest.mark.parametrize("name", map(os.path.basename, COMMANDS))
    def test_installed_command_refuses_an_unknown_word(self, machine: Machine, name: str) -> None:
        status, output, errors = machine.sh(f"{name} --nosuch")
        assert (status, output) == (2, "")
        assert f"usage: {name}" in errors

    @pytest.mark.parametrize(
        "bench", [name for name in sorted(glob.glob("bench/*.py", root_dir=ROOT)) if "__main__" in read(name)]
    )
    def test_bench_refuses_an_unknown_word_before_it_measures(self, bench: str) -> None:
        status, output, errors = run(sys.executable, bench, "--nosuch")
        assert (status, output) == (2, "")
        assert "usage: " in errors


class TestPython:
    """The files in Python are laid out and have no loose end."""

    def test_lines_are_short(self) -> None:
        lines = [(f"{name}:{at}", line) for name in list_python() for at, line in enumerate(read(name).split("\n"), 1)]
        assert [at for at, line in lines if len(line) > LONGEST_LINE] == []

    def test_files_are_short(self) -> None:
        assert [name for name in list_python() if read(name).count("\n") > LONGEST_FILE] == []

    def test_functions_are_short(self) -> None:
        functions = [
            (name, node) for name in list_python() for node in parse(name) if isinstance(node, ast.FunctionDef)
        ]
        lengths = [(f"{name}: {node.name}", (node.end_lineno or 0) - node.lineno + 1) for name, node in functions]
        assert [name for name, length in lengths if length > LONGEST_FUNCTION] == []

    @pytest.mark.needs("pyflakes3")
    def test_pyflakes(self) -> None:
        assert run("pyflakes3", *list_python()) == (0, "", "")

    @pytest.mark.needs("black")
    def test_black(self) -> None:
        if not run("black", "--version")[1].startswith(BLACK):
            pytest.skip(f"the machine has no {BLACK}")
        status, _, errors = run("black", "--check", *list_python())
        assert status == 0, errors

    @pytest.mark.needs("mypy")
    def test_mypy(self) -> None:
        status, output, errors = run("mypy", *TYPED)
        assert (status, errors) == (0, ""), output


def test_each_wrong_body_applies() -> None:
    status, output, errors = run("tools/planted", "--check")
    assert (status, errors) == (0, ""), output


class TestShell:
    """The files in sh, and what several commands of deploy/ do alike."""

    CHECKED = [
        script
        for script in ("goshelf", COMMON, *LAUNCHERS, *SCRIPTS, *PACKAGED)
        if script == COMMON or read(script).startswith(SHELLS)
    ]

    @pytest.mark.needs("shellcheck")
    @pytest.mark.parametrize("script", CHECKED)
    def test_shellcheck(self, script: str) -> None:
        assert run("shellcheck", "-x", "--source-path=.", script) == (0, "", "")

    def test_no_function_of_two_lines_stands_in_two_commands(self) -> None:
        homes: dict[str, list[str]] = {}
        for script in (COMMON, *COMMANDS):
            for body in re.findall(r"^\w+\(\) \{\n((?:    .*\n){2,})\}", read(script), re.M):
                homes.setdefault(body, []).append(script)
        assert [scripts for scripts in homes.values() if len(scripts) > 1] == []

    @pytest.mark.parametrize(
        "text",
        ["[0-9]Z'", 'goshelf copy --control "$control"', "setpriv ", 'systemctl stop "$unit', 'exec 9< "$backups"'],
        ids=[
            "the name of a backup",
            "an order to copy",
            "a command as the owner of a folder",
            "a stop of goshelf",
            "a lock of the backups",
        ],
    )
    def test_one_script_has(self, text: str) -> None:
        assert [script for script in (COMMON, *COMMANDS) if text in read(script)] == [COMMON]

    def test_scripts_that_ask_sqlite3_read_no_settings_of_a_user(self) -> None:
        """What a user has in ~/.sqliterc changes what sqlite3 prints."""
        shell = [script for script in COMMANDS if script not in list_python()]
        asking = [script for script in shell if re.search(r"^[^#]*sqlite3 [-\"]", read(script), re.M)]
        assert len(asking) > 4
        careful = re.compile(r'(?:command|as_owner) sqlite3 -batch -init /dev/null "\$@"')
        assert [script for script in asking if not careful.search(read(script))] == []


@pytest.mark.needs("git")
class TestRattle:
    """The lines of the crates are short, but for some of proofs. A single text in quotes may be longer."""

    @pytest.fixture(scope="class")
    def files(self) -> list[str]:
        names = run("git", "ls-files", "crates")[1].splitlines()
        return [name for name in names if os.path.exists(os.path.join(ROOT, name))]

    @pytest.mark.parametrize("kind", LONGEST_IN_RATTLE)
    def test_lines_are_short(self, files: list[str], kind: str) -> None:
        own = [name for name in files if name.endswith(kind)]
        assert len(own) > 100
        lines = list_lines(own)
        assert [at for at, line in lines if len(line) > LONGEST_IN_RATTLE[kind]] == []

    def test_few_lines_of_proofs_are_wide(self, files: list[str]) -> None:
        lines = list_lines([name for name in files if name.endswith(".antt")])
        assert sum(len(line) > LONGEST_LINE for _, line in lines) <= MOST_WIDE


def list_lines(names: list[str]) -> list[tuple[str, str]]:
    """Returns the lines of files, with their places, but for those that are a single text in quotes."""
    lines = [(f"{name}:{at}", line) for name in names for at, line in enumerate(read(name).split("\n"), 1)]
    return [(at, line) for at, line in lines if not re.fullmatch(r' *"[^"]*"[;,)]*', line)]


def test_no_file_or_folder_is_a_link() -> None:
    """The gate refuses a tree with a link in it."""
    files = (os.path.join(at, name) for at, folders, names in os.walk(ROOT) for name in (*folders, *names))
    assert [file for file in files if os.path.islink(file) and not {".git", "out"} & set(file.split(os.sep))] == []


class TestTests:
    """The files of tests: what they show, where they are listed, and what they import."""

    @pytest.fixture(scope="class")
    def names(self) -> list[str]:
        """The files of tests, without their ends."""
        return [name.removesuffix(".py") for name in list_tests("tests") if name != "conftest.py"]

    def test_pytest_finds_each_file(self, names: list[str]) -> None:
        assert [name for name in names if not name.startswith("test_")] == []

    def test_first_lines_say_what_the_files_show(self, names: list[str]) -> None:
        first = {name: (find_docstring(f"tests/{name}.py") or "").partition("\n")[0] for name in names}
        assert [name for name, line in first.items() if not line.endswith(".")] == []

    def test_the_table_of_subjects_has_each_file_once(self, names: list[str]) -> None:
        table = read("docs/TESTING.md").partition("| subject | files |\n")[2].partition("\n\n")[0]
        assert sorted(re.findall(r"`(\w+)`", table)) == names

    def test_the_files_that_begin_first_are_there(self, names: list[str]) -> None:
        assert [name for name in LONGEST if name not in names] == []

    def test_no_file_of_tests_is_imported(self, names: list[str]) -> None:
        files = [f"tests/{name}.py" for name in names] + [f"tests/lib/{name}" for name in list_tests("tests/lib")]
        assert [file for file in files if find_imports(file) & {*names}] == []

    def test_the_library_lists_each_module_once(self) -> None:
        modules = [name.removesuffix(".py") for name in list_tests("tests/lib") if name != "__init__.py"]
        listed = re.findall(r"`(\w+)`", find_docstring("tests/lib/__init__.py") or "")
        assert sorted(listed) == modules


def list_tests(folder: str) -> list[str]:
    return sorted(name for name in os.listdir(os.path.join(ROOT, folder)) if name.endswith(".py"))


def find_docstring(name: str) -> str | None:
    return ast.get_docstring(ast.parse(read(name)))


def find_imports(name: str) -> set[str]:
    """Returns the modules that a file imports."""
    plain = {alias.name for node in parse(name) if isinstance(node, ast.Import) for alias in node.names}
    return plain | {node.module for node in parse(name) if isinstance(node, ast.ImportFrom) and node.module}
