"""What the words of a command have to be: bad usage, names that are refused, and the help that goshelf prints."""

import os
import re

import pytest

from lib.program import ROOT, run, words_of
from lib.runs import Run, read_runs

NAMES = read_runs(
    """
answer --mem --team alpha --key A | 0
answer --mem --team common --key A | 1 name
answer --mem --team Alpha --key A | 1 name
answer --mem --team= --key A | 1 name
answer --mem --team alpha --key shortkey1234567 | 1 name
answer --mem --team alpha --key Alphakey00000001 | 1 name
answer --mem --team Alpha --key A < A example.com/lib/@v/list | 1 name
"""
)

# the first line has no words
BAD_USAGE = """
serv
serve
init
team-add --db none.db
team-add --db none.db --group platform
team-add --db none.db --team alpha --group
team-add --db none.db --team alpha --group platform --group common
group-add --db none.db
group-add --group platform
group-add --db none.db --team platform
group-add --db none.db --group platform --team alpha
group-add --db none.db --group platform --group other
key-add --db none.db --shelf alpha
key-add --db none.db --shelf alpha --key A --new
key-add --db none.db --new
key-add --shelf alpha --new
key-revoke --db none.db
key-revoke --db none.db --key A --fingerprint ccaaf6d99f2c8ac7
key-revoke --fingerprint ccaaf6d99f2c8ac7
key-revoke --db none.db --shelf alpha
key-revoke --db none.db --all
key-revoke --db none.db --shelf alpha --all --key A
key-revoke --db none.db --shelf alpha --all --fingerprint ccaaf6d99f2c8ac7
key-revoke --db none.db --key A --all
key-revoke --db none.db --key A --shelf alpha
publish --db none.db
import --db none.db --key A
inventory --db none.db
catalog --db none.db
catalog --key A
catalog --control none
catalog --control none --db none.db --key A
requires --db none.db --key A --module example.com/lib
key-list
key-list --db none.db --key A
key-list --db none.db --control none
shelf-list --control none --db none.db
shelf-list
shelf-list --db none.db --team alpha
extract --db none.db --team alpha
extract --db none.db --to other.db
extract --team alpha --to other.db
migrate --from none.db
migrate --to other.db
migrate --db none.db --to other.db
migrate --from none.db --to other.db --team alpha
answer
answer --mem --team alpha
answer --team alpha --key A
answer --mem --team alpha --key A --db none.db
answer --db none.db --team alpha
answer --db none.db --db none.db
serve --port 0
serve --db none.db --connections 1
serve --db none.db --port 65536 --connections 0
serve --db none.db --port 0 --connections 4294967296
serve --db none.db --port x --connections 0
serve --db none.db --port=-1 --connections 0
serve --db none.db --port 0 --connections
serve --db none.db --port 0 --connections x
serve --db none.db --stdin --port 0
serve --db none.db --stdin --connections x
serve --db none.db --port 0 --control
serve --stdin
serve --control none
team-add --control none
team-add --control none --db none.db --team alpha
group-add --control none
group-add --control none --db none.db --group platform
key-add --control none --key A
key-add --control none --db none.db --shelf alpha --key A
key-revoke --control none
key-revoke --control none --db none.db --key A
key-revoke --control none --db none.db --fingerprint ccaaf6d99f2c8ac7
key-revoke --control none --key A --fingerprint ccaaf6d99f2c8ac7
key-revoke --control none --shelf alpha --all --fingerprint ccaaf6d99f2c8ac7
key-revoke --control none --fingerprint ccaaf6d99f2c8ac7 --all
key-revoke --control none --db none.db --shelf alpha --all
key-revoke --control none --shelf alpha
key-revoke --control none --all
key-revoke --control none --key A --shelf alpha --all
publish --control none --key A --module example.com/lib --version v1.0.0 --mod go.mod --zip zip
extract --control none --team alpha --to other.db
ping
ping --db none.db
ping --control none --key A
stop
stop --db none.db"""

# what a command alone shows, that takes options in place of others
FORMS = """
goshelf answer --db <F>
goshelf answer --mem --team <T> --key <K>
goshelf team-add --db <F> --team <T> [--group <G>]
goshelf team-add --control <S> --team <T> [--group <G>]
goshelf group-add --db <F> --group <G>
goshelf group-add --control <S> --group <G>
goshelf key-add --db <F> --shelf <S> --key <K> [--read-only]
goshelf key-add --db <F> --shelf <S> --new [--read-only]
goshelf key-add --control <S> --shelf <S> --key <K> [--read-only]
goshelf key-add --control <S> --shelf <S> --new [--read-only]
goshelf key-revoke --db <F> --key <K>
goshelf key-revoke --db <F> --fingerprint <X>
goshelf key-revoke --db <F> --shelf <S> --all
goshelf key-revoke --control <S> --key <K>
goshelf key-revoke --control <S> --fingerprint <X>
goshelf key-revoke --control <S> --shelf <S> --all
goshelf catalog --db <F> --key <K>
goshelf catalog --control <S> --key <K>
goshelf key-list --db <F>
goshelf key-list --control <S>
goshelf shelf-list --db <F>
goshelf shelf-list --control <S>
goshelf serve --db <F> --port <N> [--connections <M>] [--control <S>]
goshelf serve --db <F> --stdin [--connections <M>] [--control <S>]
"""

# each command with all of its options
OPTIONS = """
init --db
team-add --db --control --team --group
group-add --db --control --group
key-add --db --control --shelf --key --new --read-only
key-revoke --db --control --key --fingerprint --shelf --all
publish --db --key --module --version --mod --zip --time
import --db --key --list
inventory --db --key
catalog --db --control --key
requires --db --key --module --version
key-list --db --control
shelf-list --db --control
extract --db --team --to
migrate --from --to
answer --db --mem --team --key
serve --db --port --stdin --connections --control
copy --control --to
ping --control
stop --control
"""
COMMANDS = dict(line.split(" ", 1) for line in OPTIONS.strip().split("\n"))


@pytest.mark.parametrize("names", NAMES, ids=str)
def test_names_are_tested_before_an_answer(folder: str, names: Run) -> None:
    assert run(list(names.words), names.requests) == names.wanted


@pytest.mark.parametrize("line", BAD_USAGE.split("\n"), ids=lambda line: line or "no words")
def test_bad_usage_has_status_2_and_makes_no_file(folder: str, line: str) -> None:
    status, output, errors = run(words_of(line))
    assert (status, output) == (2, b"")
    assert errors
    assert os.listdir(".") == []


@pytest.mark.parametrize("form", FORMS.strip().split("\n"))
def test_command_alone_shows_its_form(folder: str, form: str) -> None:
    assert form in run([form.split()[1]])[2]


def show(*words: str) -> str:
    """Returns what goshelf prints, if it ends well."""
    status, output, errors = run(words)
    assert (status, errors) == (0, ""), words
    return output.decode()


@pytest.mark.parametrize("command", COMMANDS)
def test_help_of_a_command_names_its_options(command: str) -> None:
    named = set(re.findall(r"(?<![\w-])--[a-z][a-z-]*", show(command, "--help")))
    assert sorted(named - {"--help"}) == sorted(COMMANDS[command].split())


def test_help_lists_each_command_and_no_other() -> None:
    listed = re.findall(r"^  ([a-z][a-z-]*) ", show("--help"), re.M)
    assert sorted(listed) == sorted([*COMMANDS, "help"])


def test_version() -> None:
    with open(os.path.join(ROOT, "crates", "cli", "src", "version.rt"), encoding="utf-8") as file:
        version = re.search(r'"(.*)"', file.read())[1]
    assert show("--version") == f"goshelf {version}\n"
