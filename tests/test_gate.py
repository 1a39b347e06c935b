"""The gate of .ci/gate, with a stand-in for rt, and the closing line of .ci/run, with stand-ins for what it runs.

They show how many checks run at once, when the gate runs once more, and what is summed. They prove nothing.
"""

import os
import re
import shutil
import subprocess
import sys
from typing import NamedTuple

import pytest

from lib.program import ROOT
from lib.scratch import read, write

GATE, RUN = (os.path.join(ROOT, ".ci", name) for name in ("gate", "run"))
GIB = 2**30
# processors and GiB of free memory, and what --show says
AT_ONCE = """
2  7 | as rt decides
2 10 | 2
2 15 | 2
2 22 | 2
4  7 | as rt decides
4  9 | as rt decides
4 10 | 2
4 15 | 3
4 19 | 3
4 22 | 4
4 64 | 4
8 22 | 4
8 40 | 8
1 22 | as rt decides
0 22 | as rt decides
4  0 | as rt decides
08 040 | 8
"""
# words that are refused, and what is said of them
REFUSED = (
    ("--nosuch", 'unknown word "--nosuch"'),
    ("''", 'unknown word ""'),
    ("--anew", 'unknown word "--anew"'),
    ("--show", "--show takes two numbers"),
    ("--show 4", "--show takes two numbers"),
    ("--show 4 22 1", "--show takes two numbers"),
    ("--show '' 22", '"" is no whole number'),
    ("--show 4 22GiB", '"22GiB" is no whole number'),
    ("--show -4 22", '"-4" is no whole number'),
    ("--show 4 22.5", '"22.5" is no whole number'),
    ("--show 4 1000000000000000000000", '"1000000000000000000000" is no whole number'),
)
# files of a control group, and how many checks run at once on 64 processors where the machine has memory for two
GROUPS = (
    ({"cpu.max": "200000 100000"}, "2"),
    ({"cpu.max": "50000 100000"}, ""),
    ({"cpu.max": "max 100000", "memory.max": f"{12 * GIB}", "memory.stat": f"anon {GIB}\nfile 1"}, "2"),
    ({"memory.max": f"{12 * GIB}", "memory.stat": f"anon {3 * GIB}"}, ""),
    ({"cpu.max": "200000 100000", "memory.max": "max", "memory.stat": "anon 1"}, "2"),
    ({"cpu/cpu.cfs_quota_us": "200000", "cpu/cpu.cfs_period_us": "100000"}, "2"),
    ({"cpu/cpu.cfs_quota_us": "100000", "cpu/cpu.cfs_period_us": "100000"}, ""),
    ({"memory/memory.limit_in_bytes": f"{12 * GIB}", "memory/memory.stat": f"rss 1\ntotal_rss {GIB}"}, "2"),
    ({"memory/memory.limit_in_bytes": f"{9 * GIB}", "memory/memory.stat": f"total_rss {GIB}"}, ""),
)
# prints what the file NUMBER of the folder says, with its status, where NUMBER counts the calls
RT = """#!/bin/sh
cd '{folder}'
echo "$* jobs=$RT_JOBS" >> calls
number=$(wc -l < calls)
sed 1d "$number"
exit "$(head -n 1 "$number")"
"""
PASSED, FAILED = "0\n83 passed, 0 failed", "1\n82 passed, 1 failed"
KILLED = "rt: the check was killed, most likely for memory: once more"
NOT_TRIED = (
    "must-fail a/b: NOT TRIED: its check was killed, most likely for memory, so nothing is known of it: run this again"
)
AGAIN = "the gate: a check was killed, so once more as rt decides; what passed is kept"
TWO_AT_ONCE = "the gate: 2 checks at once, one a processor and for each 5 GiB of free memory (RT_JOBS)"


def run_gate(words: str = "", before: tuple[str, ...] = (), **settings: str | None) -> tuple[int, str, str]:
    """Runs .ci/gate as a shell reads the words, and returns its status, its output and its errors."""
    env = {key: value for key, value in {**os.environ, **settings}.items() if value is not None}
    line = [*before, "sh", "-c", f'exec "$0" {words}', GATE]
    ran = subprocess.run(line, capture_output=True, text=True, timeout=60, env=env)
    return ran.returncode, ran.stdout, ran.stderr


class Gated(NamedTuple):
    """How a gate ended, the lines that it printed, and the calls of rt."""

    status: int
    lines: list[str]
    calls: list[str]


def write_programs(**texts: str) -> None:
    """Writes programs into the folder, by their names."""
    write(texts)
    for name in texts:
        os.chmod(name, 0o755)


def gate(
    folder: str, *replies: str, processors: int = 2, jobs: str | None = None, before: tuple[str, ...] = ()
) -> Gated:
    """Runs the gate with stand-ins for rt, which ends and prints as each reply says, and for nproc."""
    write({"calls": "", **{str(number): f"{reply}\n" for number, reply in enumerate(replies, 1)}})
    write_programs(rt=RT.format(folder=folder), nproc=f"#!/bin/sh\necho {processors}\n")
    status, output, errors = run_gate(before=before, PATH=f"{folder}:{os.environ['PATH']}", RT_JOBS=jobs)
    return Gated(status, (output + errors).splitlines(), read("calls").decode().splitlines())


def measure_free_memory() -> int:
    """Returns the free memory in GiB, as the kernel counts it."""
    return int(re.search(r"MemAvailable: +(\d+)", read("/proc/meminfo").decode())[1]) * 1024 // GIB


@pytest.mark.parametrize("row", AT_ONCE.strip().splitlines())
def test_show(row: str) -> None:
    machine, wanted = (column.strip() for column in row.split("|"))
    assert run_gate(f"--show {machine}") == (0, f"{wanted}\n", "")


@pytest.mark.parametrize("words, why", REFUSED, ids=[words for words, _ in REFUSED])
def test_words_that_are_refused(words: str, why: str) -> None:
    status, output, errors = run_gate(words)
    assert (status, output, errors.splitlines()[:1]) == (2, "", [f".ci/gate: {why}"])
    assert "usage: " in errors


class TestFirstRuns:
    """What is set where rt runs, by the machine."""

    @pytest.mark.parametrize("processors", [1, 2, 3, 64])
    def test_checks_at_once_on_this_machine(self, folder: str, processors: int) -> None:
        before = measure_free_memory()
        status, lines, calls = gate(folder, PASSED, processors=processors)
        # (another program may take memory meanwhile, or free it)
        memory = range(min(before, measure_free_memory()), before + 2)
        shown = {run_gate(f"--show {processors} {free}")[1].strip() for free in memory}
        found = re.fullmatch(r"ci jobs=(\d*)", calls[0])[1] or "as rt decides"
        assert found in shown
        said = [TWO_AT_ONCE.replace("2", found, 1)] if found.isdigit() else []
        assert (status, lines, len(calls)) == (0, [*said, "83 passed, 0 failed"], 1)

    @pytest.mark.parametrize("jobs", ["1", "3", "0"])
    def test_rt_jobs_stays_and_nothing_runs_again(self, folder: str, jobs: str) -> None:
        ended = gate(folder, FAILED.replace("82", f"{KILLED}\n82"), jobs=jobs)
        assert ended == (1, [KILLED, "82 passed, 1 failed"], [f"ci jobs={jobs}"])

    def test_an_empty_rt_jobs_is_none(self, folder: str) -> None:
        assert gate(folder, PASSED, jobs="").calls == gate(folder, PASSED).calls


@pytest.fixture
def memory_for_two() -> None:
    if measure_free_memory() <= 11:
        pytest.skip("the machine has not enough free memory for two checks at once")


@pytest.mark.root
@pytest.mark.needs("unshare")
@pytest.mark.parametrize("files, wanted", GROUPS, ids=[" ".join(files) + f"-{wanted}" for files, wanted in GROUPS])
def test_a_control_group_bounds_the_checks(
    folder: str, memory_for_two: None, files: dict[str, str], wanted: str
) -> None:
    if subprocess.run(["unshare", "-m", "true"], capture_output=True).returncode:
        pytest.skip("no other file system can be mounted here")
    for name in files:
        os.makedirs(os.path.dirname(f"{folder}/group/{name}"), exist_ok=True)
    write({f"{folder}/group/{name}": f"{text}\n" for name, text in files.items()})
    mount = f'mount --bind "{folder}/group" /sys/fs/cgroup && exec "$@"'
    ended = gate(folder, PASSED, processors=64, before=("unshare", "-m", "sh", "-c", mount, "sh"))
    assert ended.calls == [f"ci jobs={wanted}"]


class TestSecondRuns:
    """When the gate runs once more, and what counts then."""

    AGAIN = {
        "a check that was killed": (f"1\n{KILLED}\n82 passed, 1 failed", PASSED, 0),
        "a wrong body that was not tried": (f"1\n{NOT_TRIED}\n82 passed, 1 failed", PASSED, 0),
        "rt that was killed itself": ("137\n== world", PASSED, 0),
        "a second run that fails": (f"1\n{KILLED}\n82 passed, 1 failed", FAILED, 1),
    }
    ONCE = {
        "a gate that fails for another reason": (FAILED, 1),
        "a gate that passes though a check was killed once": (f"0\n{KILLED}\n83 passed, 0 failed", 0),
        "a gate that stops": ("2\n0 passed, 1 failed", 2),
    }

    @pytest.mark.parametrize("name", AGAIN)
    def test_once_more(self, folder: str, memory_for_two: None, name: str) -> None:
        first, second, status = self.AGAIN[name]
        lines = [TWO_AT_ONCE, *first.splitlines()[1:], AGAIN, *second.splitlines()[1:]]
        assert gate(folder, first, second) == (status, lines, ["ci jobs=2", "ci jobs="])

    @pytest.mark.parametrize("name", ONCE)
    def test_not_again(self, folder: str, memory_for_two: None, name: str) -> None:
        first, status = self.ONCE[name]
        assert gate(folder, first) == (status, [TWO_AT_ONCE, *first.splitlines()[1:]], ["ci jobs=2"])


class Sum(NamedTuple):
    """What the gate and pytest print last, each with its exit status, the last line that is to come, and what pytest
    prints where what failed runs once more."""

    gate: str
    gate_status: int
    tests: str
    tests_status: int
    wanted: str
    again: str = ""
    again_status: int = 1


ALL_PASSED = "==== 12 passed in 3.21s ===="
SUMS = {
    "all passed": Sum("83 passed, 0 failed", 0, ALL_PASSED, 0, "95 passed, 0 failed"),
    "a run of hours": Sum("83 passed, 0 failed", 0, "= 12 passed in 7200.10s (2:00:00) =", 0, "95 passed, 0 failed"),
    "a run of days": Sum(
        "1 passed, 0 failed", 0, "= 1 passed in 90000.10s (1 day, 1:00:00) =", 0, "2 passed, 0 failed"
    ),
    "some skipped": Sum(
        "83 passed, 0 failed", 0, "== 12 passed, 2 skipped in 3.21s ==", 0, "95 passed, 0 failed, 2 skipped"
    ),
    "all skipped": Sum("83 passed, 0 failed", 0, "== 2 skipped in 0.01s ==", 0, "83 passed, 0 failed, 2 skipped"),
    "some failed": Sum(
        "83 passed, 0 failed",
        0,
        "==== 3 failed, 12 passed, 2 skipped, 1 error in 3.21s (0:00:03) ====",
        1,
        "95 passed, 4 failed, 2 skipped",
        "==== 3 failed, 14 deselected, 1 error in 1.21s ====",
    ),
    "errors alone": Sum(
        "83 passed, 0 failed",
        0,
        "== 12 passed, 2 errors in 3.21s ==",
        1,
        "95 passed, 2 failed",
        "== 12 deselected, 2 errors in 1.21s ==",
    ),
    "what failed passes alone": Sum(
        "83 passed, 0 failed",
        0,
        "== 1 failed, 10 passed, 3 skipped, 1 error in 3.21s ==",
        1,
        "95 passed, 0 failed, 3 skipped",
        "== 2 passed, 13 deselected in 1.21s ==",
        0,
    ),
    "some of it passes alone": Sum(
        "83 passed, 0 failed",
        0,
        "== 2 failed, 10 passed in 3.21s ==",
        1,
        "94 passed, 1 failed",
        "== 1 failed, 1 passed, 10 deselected in 1.21s ==",
    ),
    "words that do not count": Sum(
        "83 passed, 0 failed",
        0,
        "== 12 passed, 1 skipped, 5 deselected, 2 xfailed, 1 xpassed, 3 warnings in 3.21s ==",
        0,
        "95 passed, 0 failed, 1 skipped",
    ),
    "one warning": Sum("83 passed, 0 failed", 0, "== 12 passed, 1 warning in 3.21s ==", 0, "95 passed, 0 failed"),
    "a gate that fails": Sum("82 passed, 1 failed", 1, ALL_PASSED, 0, "94 passed, 1 failed"),
    "both fail": Sum(
        "82 passed, 1 failed",
        1,
        "== 1 failed, 12 passed in 3.21s ==",
        1,
        "94 passed, 2 failed",
        "== 1 failed, 12 deselected in 1.21s ==",
    ),
    "a gate that fails with nothing failed": Sum("83 passed, 0 failed", 1, ALL_PASSED, 0, "95 passed, 1 failed"),
    "a gate without a closing line": Sum("== world", 0, ALL_PASSED, 0, "12 passed, 1 failed"),
    "a gate that was killed": Sum("== world", 137, ALL_PASSED, 0, "12 passed, 1 failed"),
    "a gate that prints nothing": Sum("", 0, ALL_PASSED, 0, "12 passed, 1 failed"),
    "tests that fail with nothing failed": Sum("83 passed, 0 failed", 0, ALL_PASSED, 1, "95 passed, 1 failed"),
    "no tests": Sum("83 passed, 0 failed", 0, "==== no tests ran in 0.01s ====", 5, "83 passed, 1 failed"),
    "tests that were interrupted": Sum("83 passed, 0 failed", 0, "== 3 passed in 0.50s ==", 2, "86 passed, 1 failed"),
    "tests that were killed": Sum("83 passed, 0 failed", 0, "tests/test_gate.py ....", 137, "83 passed, 1 failed"),
    "tests that print nothing": Sum("83 passed, 0 failed", 0, "", 0, "83 passed, 1 failed"),
    "words that pytest refuses": Sum("83 passed, 0 failed", 0, "  rootdir: /goshelf\n", 4, "83 passed, 1 failed"),
    "a line behind the closing line": Sum("83 passed, 0 failed", 0, f"{ALL_PASSED}\nno", 0, "83 passed, 1 failed"),
    "nothing but failures": Sum("", 1, "", 1, "0 passed, 2 failed"),
}


def run_all(gate: str, tests: str) -> tuple[int, list[str]]:
    """Runs .ci/run with stand-ins for the gate and for tests/all, and returns its status and its lines."""
    for name in (".ci", "tests"):
        os.makedirs(name, exist_ok=True)
    shutil.copy(RUN, ".ci/run")
    write_programs(**{".ci/gate": gate, "tests/all": tests})
    ran = subprocess.run([".ci/run"], capture_output=True, text=True, timeout=120)
    assert ran.stderr == ""
    return ran.returncode, ran.stdout.splitlines()


def print_and_end(text: str, status: int) -> str:
    """Returns lines of a program that prints a text and ends with a status."""
    write({f"printed-{status}-{len(text)}": text + "\n" if text else ""})
    end = 'kill -9 "$$"' if status == 137 else f"exit {status}"
    return f"cat printed-{status}-{len(text)}\n{end}\n"


class TestSum:
    """The last line of .ci/run."""

    @pytest.mark.parametrize("name", SUMS)
    def test_of(self, folder: str, name: str) -> None:
        row = SUMS[name]
        again = print_and_end(row.again, row.again_status)
        tests = print_and_end(row.tests, row.tests_status)
        gate = f"#!/bin/sh\n{print_and_end(row.gate, row.gate_status)}"
        status, lines = run_all(gate, f'#!/bin/sh\ncase "$*" in *--last-failed*)\n{again};;\nesac\n{tests}')
        assert lines[-1] == row.wanted
        assert status == (0 if " 0 failed" in row.wanted else 1)

    def test_root_has_missing_packages_installed(self, folder: str) -> None:
        noted = run_all(
            "#!/bin/sh\n" + print_and_end(PASSED.splitlines()[1], 0),
            f'#!/bin/sh\necho "words: $*"\necho {ALL_PASSED}\n',
        )
        assert f"words: {'--install' if os.geteuid() == 0 else ''}" in noted[1]

    # tests in a file, words of pytest, and the line that is to come
    FILES = {
        "two that pass": ("def test_a(): pass\ndef test_b(): pass\n", "", "3 passed, 0 failed"),
        "two at once": ("def test_a(): pass\ndef test_b(): assert 0\n", "-n 2", "2 passed, 1 failed"),
        "no tests": ("", "", "1 passed, 1 failed"),
        "a file that cannot be read": ("import nosuch\n", "", "1 passed, 1 failed"),
        "a set-up that fails": (
            "import pytest\n@pytest.fixture\ndef a(): assert 0\ndef test_a(a): pass\ndef test_b(): pytest.skip()\n",
            "",
            "1 passed, 1 failed, 1 skipped",
        ),
        "a test that ends pytest": ("import os\ndef test_a(): os._exit(9)\n", "", "1 passed, 1 failed"),
    }

    @pytest.mark.parametrize("name", FILES)
    def test_of_what_pytest_prints(self, folder: str, name: str) -> None:
        text, words, wanted = self.FILES[name]
        write({"test_own.py": text, "pytest.ini": "[pytest]\n"})
        tests = f'#!/bin/sh\n[ "$1" != --install ] || shift\nexec {sys.executable} -m pytest {words} test_own.py "$@"\n'
        status, lines = run_all("#!/bin/sh\n" + print_and_end("1 passed, 0 failed", 0), tests)
        assert lines[-1] == wanted
        assert status == (0 if " 0 failed" in wanted else 1)
