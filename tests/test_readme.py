"""README's blocks, each run as printed in a clean clone.

What answers, serves, publishes and gets a module is pasted into one shell, of a user who has nothing yet and of root,
each in a network with nobody else in it. The program that the first paste builds is kept in `out/newcomer`, with the
seconds that this took: a later run over the same sources and the same kit begins with it. The gate and the tests run
with stand-ins for rt and python3.
"""

import contextlib
import hashlib
import os
import re
import resource
import shutil
import signal
import subprocess
from collections.abc import Iterator
from typing import NamedTuple

import pytest

from lib.needs import PACKAGES
from lib.ports import free_port
from lib.program import NOBODY, ROOT, can_be_nobody
from lib.scratch import entered_folder, read, write

pytestmark = pytest.mark.needs("git", "go", "rt")

PAGE = read(os.path.join(ROOT, "README.md")).decode()
BLOCKS = re.findall(r"^```sh (try|run)\n(.*?)^```$", PAGE, re.M | re.S)
COMMANDS = [body.strip() for kind, body in BLOCKS if kind == "try"]
# what a stand-in prints as its last line, and with which status it ends
Ending = tuple[str, int]
GATE: Ending = ("72 passed, 0 failed", 0)
TESTS: Ending = ("== 5788 passed, 2 skipped in 360.12s (0:06:00) ==", 0)
# what the tests print where those that failed run once more
AGAIN = "== 8 failed, 5780 deselected in 1.21s =="
STAND_IN = (
    "#!/bin/sh\necho \"$(basename \"$0\") $*\" >> '{calls}'\necho 'a line before'\n"
    "case \"$*\" in *--last-failed*) echo '{again}' && exit 1 ;; esac\necho '{last}'\nexit {status}\n"
)
# a network of its own, for root
ALONE = ["unshare", "--net", "sh", "-euc", 'ip link set lo up; exec "$@"', "-"]
# seconds of processor time in which a newcomer has a module from a clone
MOST = 600
# what the program is built from, beside the kit
SOURCES = ["HANDLES", "crates", ":!crates/test_*", "crates.txt", "goshelf", "tools/common.py", "tools/unproved"]
KEPT = os.path.join(ROOT, "out", "newcomer")


def git(*words: str, folder: str = ROOT, stdin: bytes | None = None) -> bytes:
    """Returns what git prints of a folder, whoever owns it."""
    words = ("git", "-c", "safe.directory=*", "-C", folder, *words)
    return subprocess.run(words, input=stdin, capture_output=True, check=True).stdout


def clone_into(folder: str) -> str:
    """Clones the repository, with the changes of its tracked files that are not committed yet."""
    subprocess.run(["git", "clone", "-q", ROOT, folder], check=True)
    if changes := git("diff", "--binary", "HEAD"):
        git("apply", folder=folder, stdin=changes)
    return folder


def write_script(name: str, text: str) -> None:
    """Writes a script that anybody may run."""
    write({name: text})
    os.chmod(name, 0o755)


def run_line(line: str, folder: str, path: str) -> tuple[int, str]:
    """Runs a line of the page in a shell, and returns its exit status and standard output."""
    settings = dict(os.environ, PATH=f"{path}:{os.environ['PATH']}")
    settings.pop("GOSHELF", None)
    words = ["bash", "-euc", line]
    ran = subprocess.run(words, cwd=folder, env=settings, stdin=subprocess.DEVNULL, capture_output=True, timeout=100)
    return ran.returncode, ran.stdout.decode()


@pytest.fixture(scope="class")
def clone() -> Iterator[str]:
    """A clean clone."""
    with entered_folder() as folder:
        yield clone_into(f"{folder}/clone")


def test_two_commands_are_for_a_fresh_machine() -> None:
    assert len(COMMANDS) == 2


@pytest.mark.parametrize("package", sorted({name for names in PACKAGES.values() for name in names}))
def test_each_package_that_the_tests_install_is_named(package: str) -> None:
    assert f"`{package}`" in PAGE


# what the gate and the tests print, how they end, and how the command ends then
ENDINGS: dict[str, tuple[Ending, Ending, int, str]] = {
    "all passed": (GATE, TESTS, 0, "5860 passed, 0 failed, 2 skipped"),
    "a gate that failed": (("71 passed, 1 failed", 1), TESTS, 1, "5859 passed, 1 failed, 2 skipped"),
    "a gate without a closing line": (("Killed", 1), TESTS, 1, "5788 passed, 1 failed, 2 skipped"),
    "a gate that says passed and fails": (("72 passed, 0 failed", 1), TESTS, 1, "5860 passed, 1 failed, 2 skipped"),
    "tests that failed": (GATE, ("== 8 failed, 5780 passed in 9.99s ==", 1), 1, "5852 passed, 8 failed"),
    "tests without a closing line": (GATE, ("Traceback", 2), 1, "72 passed, 1 failed"),
}


class TestCommandOfTheTests:
    """The last command runs the gate, then the tests, and sums their closing lines."""

    @pytest.mark.parametrize("name", ENDINGS)
    def test_it_sums_the_closing_lines(self, name: str, clone: str, folder: str) -> None:
        gate, tests, status, last = ENDINGS[name]
        for command, (line, ends) in (("rt", gate), ("python3", tests)):
            text = STAND_IN.format(calls=f"{folder}/calls", last=line, status=ends, again=AGAIN)
            write_script(f"{folder}/{command}", text)
        found, output = run_line(COMMANDS[1], clone, folder)
        assert (found, output.splitlines()[-1]) == (status, last)
        install = " --install" if os.geteuid() == 0 else ""
        calls = ["rt ci", f"python3 tests/all{install}"]
        if tests[1] == 1:
            calls.append("python3 tests/all -n 0 -v --last-failed --last-failed-no-failures none")
        assert read(f"{folder}/calls").decode().splitlines() == calls


# replaces tools/unproved: notes that it was called, and builds what prints its words, or fails
BUILDER = """#!/bin/sh
echo built >> "$(dirname "$0")/calls"
[ ! -e "$(dirname "$0")/fails" ] || exit 3
printf '#!/bin/sh\\necho "ran $*" in "$(pwd)"\\n' > "$1.made"
chmod 755 "$1.made"
mv "$1.made" "$1"
"""


class TestUnproved:
    """`./goshelf --unproved` builds where there is no program or a source is newer, and runs any command."""

    LINE = "../goshelf --unproved serve --db s.db"

    @pytest.fixture(scope="class")
    def tools(self, clone: str) -> str:
        """The folder in which commands are run, whose `unproved` is a stand-in, and whose program is built once."""
        os.makedirs(f"{clone}/path")
        for name in (f"{clone}/tools/unproved", f"{clone}/path/rt"):
            write_script(name, BUILDER)
        return f"{clone}/tools"

    @pytest.fixture
    def unbuilt(self, tools: str, clone: str) -> Iterator[str]:
        """The folder of a clone that has no program."""
        yield tools
        for name in (f"{clone}/out/unproved/goshelf", f"{tools}/calls", f"{tools}/fails"):
            with contextlib.suppress(FileNotFoundError):
                os.remove(name)

    def run(self, line: str, tools: str) -> tuple[int, str, int]:
        """Runs a line, and returns its status, what it prints, and how often the program was built so far."""
        status, output = run_line(line, tools, f"{tools}/../path")
        return status, output, read(f"{tools}/calls").count(b"built")

    def printed(self, tools: str) -> str:
        """Returns what a run of the line prints."""
        return f"ran serve --db s.db in {tools}\n"

    def test_only_the_first_run_builds(self, unbuilt: str) -> None:
        assert self.run(self.LINE, unbuilt) == (0, self.printed(unbuilt), 1)
        assert self.run(self.LINE, unbuilt) == (0, self.printed(unbuilt), 1)

    def test_of_two_at_once_after_a_source_changed_one_builds(self, unbuilt: str, clone: str) -> None:
        self.run(self.LINE, unbuilt)
        os.utime(f"{clone}/crates/cli/src/version.rt")
        twice = f"{self.LINE} & {self.LINE} & wait"
        assert self.run(twice, unbuilt) == (0, self.printed(unbuilt) * 2, 2)

    def test_a_build_that_fails_runs_nothing(self, unbuilt: str, clone: str) -> None:
        self.run(self.LINE, unbuilt)
        os.utime(f"{clone}/out/unproved/goshelf", (0, 0))
        write({f"{unbuilt}/fails": ""})
        assert self.run(self.LINE, unbuilt) == (3, "", 2)


class Kept:
    """The program that a first paste built, of these sources and this kit, and the seconds that the paste took."""

    def __init__(self, clone: str) -> None:
        made_of = b"".join(
            git(*words, *SOURCES, folder=clone) for words in (["ls-files", "-s"], ["diff", "HEAD", "--"])
        )
        kit = subprocess.run(["rt", "version"], capture_output=True, check=True).stdout
        self.file = os.path.join(KEPT, hashlib.sha256(made_of + kit).hexdigest())
        self.program = f"{clone}/out/unproved/goshelf"

    def lay(self) -> float:
        """Gives the clone the program, if there is one. Returns the seconds that its paste took."""
        if not os.path.exists(f"{self.file}.seconds"):
            return 0
        os.makedirs(os.path.dirname(self.program))
        shutil.copy(self.file, self.program)
        return float(read(f"{self.file}.seconds"))

    def take(self, seconds: float) -> None:
        """Keeps the program of the clone alone. Its seconds are written last, since they say that it is whole."""
        shutil.rmtree(KEPT, ignore_errors=True)
        os.makedirs(KEPT)
        shutil.copy(self.program, self.file)
        write({f"{self.file}.seconds": str(seconds)})


class Paste(NamedTuple):
    """What came of the blocks in one paste: how the shell ended, the seconds of processor time with those of the paste
    that built the program, the folder of the user, and of the clone whether it had a program and which files had
    changed, before and after."""

    status: int
    output: str
    errors: str
    seconds: float
    home: str
    had_program: bool
    before: bytes
    after: bytes


def count_seconds() -> float:
    """Returns the seconds of processor time of the processes that this one has waited for, and of theirs."""
    used = resource.getrusage(resource.RUSAGE_CHILDREN)
    return used.ru_utime + used.ru_stime


def give_to(owner: int, *folders: str) -> None:
    """Makes folders that are missing, and gives them with all that is in them to a user."""
    for folder in folders:
        os.makedirs(folder, exist_ok=True)
    if os.geteuid() == 0:
        subprocess.run(["chown", "-Rh", f"{owner}:{owner}", *folders], check=True)


def paste(script: str, clone: str, home: str, before: list[str]) -> tuple[int, str, str]:
    """Gives a script to a shell on its standard input, as a paste does. Returns its exit status, output and errors."""
    settings = {"HOME": f"{home}/home", "TMPDIR": f"{home}/tmp", "PATH": os.environ["PATH"], "LC_ALL": "C.UTF-8"}
    pipes = {"stdin": subprocess.PIPE, "stdout": subprocess.PIPE, "stderr": subprocess.PIPE}
    how = {"cwd": clone, "env": settings, "start_new_session": True, "text": True, "errors": "replace"}
    child = subprocess.Popen([*before, "bash"], **how, **pipes)
    try:
        output, errors = child.communicate(script, timeout=1_000)
    finally:
        with contextlib.suppress(ProcessLookupError):
            os.killpg(child.pid, signal.SIGKILL)
    return child.returncode, output, errors


# (the first paste builds the program, which takes minutes)
@pytest.mark.timeout(1_500)
class TestNewcomers:
    """A user who has nothing, and root, paste README's blocks but for the tests."""

    @pytest.fixture(scope="class", params=["user", "root"])
    def pasted(self, request: pytest.FixtureRequest, clone: str) -> Paste:
        script = "".join(body for kind, body in BLOCKS if kind == "run" or body.startswith("./goshelf"))
        owner, before = os.geteuid(), ALONE
        if os.geteuid() != 0:
            if request.param == "root":
                pytest.skip("it needs root")
            script, before = script.replace("8080", str(free_port())), []
        elif request.param == "user":
            if not can_be_nobody():
                pytest.skip("no process can become nobody here")
            owner, before = 65534, [*ALONE, *NOBODY]
        (end,) = re.findall(r"`(goshelf stop [^`]*)` stops it", PAGE)
        kept = Kept(clone)
        before_it = 0.0 if os.path.exists(f"{clone}/out") else kept.lay()
        home, had_program = f"{os.path.dirname(clone)}/{request.param}", os.path.exists(f"{clone}/out")
        give_to(owner, clone, home, f"{home}/home", f"{home}/tmp")
        changed, begun = git("status", "--porcelain", folder=clone), count_seconds()
        ran = paste(f"{script}pwd\n{end}\n", clone, home, before)
        seconds, after = count_seconds() - begun, git("status", "--porcelain", folder=clone)
        if ran[0] == 0 and not had_program:
            kept.take(seconds)
        return Paste(*ran, before_it + seconds, home, had_program, changed, after)

    @pytest.fixture
    def replies(self) -> str:
        """The four replies, as a shell shows them."""
        return read(os.path.join(ROOT, "examples", "first-publish.replies")).decode().replace("\r\n", "\n")

    @pytest.fixture
    def lines(self, pasted: Paste, replies: str) -> list[str]:
        """The lines behind the replies."""
        return pasted.output.replace("\r\n", "\n")[len(replies) :].splitlines()

    def test_it_takes_few_minutes_of_a_processor(self, pasted: Paste) -> None:
        assert pasted.seconds < MOST

    def test_the_four_replies_come_first(self, pasted: Paste, replies: str) -> None:
        assert pasted.output.replace("\r\n", "\n")[: len(replies)] == replies

    def test_a_module_is_published(self, pasted: Paste, lines: list[str]) -> None:
        assert "published example.com/greet v1.0.0" in lines, pasted.errors[-300:]

    def test_the_module_is_got(self, pasted: Paste) -> None:
        assert "go: added example.com/greet v1.0.0\n" in pasted.errors

    def test_the_served_store_ends_as_the_page_says(self, pasted: Paste) -> None:
        assert pasted.status == 0, pasted.errors[-300:]

    def test_each_run_says_that_it_is_not_proved(self, pasted: Paste) -> None:
        assert pasted.errors.count("\ngoshelf: not proved: ") >= 5, pasted.errors

    def test_the_program_is_built_once(self, pasted: Paste) -> None:
        assert pasted.errors.count("goshelf: building ") == (0 if pasted.had_program else 1)

    def test_all_is_in_a_new_folder(self, pasted: Paste, lines: list[str]) -> None:
        assert lines and lines[-1].startswith(f"{pasted.home}/tmp/")

    def test_nothing_is_left_in_the_clone(self, pasted: Paste, clone: str) -> None:
        assert pasted.after == pasted.before
        assert not os.path.exists(f"{clone}/crates/goshelf/out/goshelf")

    def test_the_go_command_has_no_new_settings(self, pasted: Paste) -> None:
        assert not os.path.exists(f"{pasted.home}/home/.config/go/env")
