"""The scripts refuse a wrong, a missing and an empty word by name, and say so where they need root or a folder.

Those of deploy/ run on a machine in a folder (lib/machine.py), as they are installed.
"""

import pytest

from lib.machine import Machine
from lib.program import NOBODY, ROOT, can_be_nobody

# a command, and what its last line says of the words
WRONG = """
goshelf-backup now | 'now' is not the word stop
goshelf-backup stop now | one word too many: now
goshelf-backup '' | stop is empty
goshelf-backup --nosuch | there is no option --nosuch
goshelf-catalog first | 'first' is not the word last
goshelf-catalog last one | one word too many: one
goshelf-copy | store|front is missing
goshelf-copy all | 'all' is neither store nor front
goshelf-copy store front | one word too many: front
SSH_ORIGINAL_COMMAND='store; id' goshelf-copy | 'store; id' is neither store nor front
goshelf-doctor --db | --db's name is missing
goshelf-doctor --control a b | one word too many: b
goshelf-doctor store.db | one word too many: store.db
goshelf-doctor --store a | there is no option --store
goshelf-forget | SHELF is missing
goshelf-forget --yes alpha example.com/lib | VERSION is missing
goshelf-forget alpha '' v1.0.0 | MODULE is empty
goshelf-forget alpha example.com/lib v1.0.0 v1.1.0 | one word too many: v1.1.0
goshelf-forget --no alpha example.com/lib v1.0.0 | there is no option --no
goshelf-keys all | one word too many: all
goshelf-keys --now | there is no option --now
goshelf-metrics all | one word too many: all
goshelf-metrics --to | FILE.prom is missing
goshelf-metrics --to '' | FILE.prom is empty
goshelf-metrics --to a.prom b | one word too many: b
goshelf-offer | PATH is missing
goshelf-offer --files somewhere | PATH is missing
goshelf-offer example.com | 'example.com' is not a module path
goshelf-offer --file somewhere example.com/publish | there is no option --file
goshelf-restore --yes | BACKUP is missing
goshelf-restore '' | BACKUP is empty
goshelf-restore last first | one word too many: first
goshelf-restore --now last | there is no option --now
goshelf-warm | store|front is missing
goshelf-warm nothing | 'nothing' is neither store nor front
goshelf-watch all | one word too many: all
TOOLS/proofs nosuch | there is no crate nosuch
TOOLS/proofs --nosuch | there is no option --nosuch
TOOLS/release --to | the name after --to is missing
TOOLS/release --program | the name after --program is missing
TOOLS/release now | there is no option now
TOOLS/shards | make, conf, send or check is missing
TOOLS/shards makes a b c | 'makes' is not make, conf, send or check
TOOLS/shards make a b | FOLDER is missing
TOOLS/shards send '' b | FILE is empty
TOOLS/shards conf a b c | one word too many: c
TOOLS/theorems all | one word too many: all
TOOLS/unknown all | one word too many: all
TOOLS/unproved | FILE is missing
TOOLS/unproved a nosuch | there is no crate nosuch
TOOLS/unreached --nosuch | there is no option --nosuch
"""
# words with which a command does something, for root
RIGHT = {"goshelf-forget": "alpha example.com/lib v1.0.0", "goshelf-copy": "store", "goshelf-warm": "store"}
NEED_ROOT = [
    f"goshelf-{name}" for name in ("backup", "catalog", "copy", "forget", "metrics", "restore", "warm", "watch")
]
# a command on a machine that has no store, no backups and no settings, and what it says: the cause, and what mends it
BARE = (
    ("goshelf-restore", "there is no folder {}/var/backups/goshelf, and so no backup: goshelf-backup makes one\n"),
    ("GOSHELF_UNIT=goshelf-no goshelf-backup", "there is no folder {}/var/lib/goshelf-no: install goshelf, or name "),
    ("goshelf-warm store", "{}/etc/default/goshelf has no GOSHELF_FIRST: write the name of the first host there\n"),
    ("GOSHELF_UNIT=../no goshelf-metrics", "no unit has the name ../no\n"),
)


@pytest.fixture(scope="module")
def machine(module_folder: str) -> Machine:
    """A machine that has no store, no backups and no settings."""
    machine = Machine(module_folder)
    machine.check_out()
    for name in ("restarts", "serve.pid"):
        machine.write(name, "0\n")
    return machine


@pytest.mark.parametrize("row", WRONG.strip().splitlines())
def test_a_wrong_word_is_named_below_the_usage(machine: Machine, row: str) -> None:
    command, _, said = row.partition(" | ")
    status, printed, errors = machine.sh(command.replace("TOOLS", f"{ROOT}/tools"))
    assert (status, printed) == (2, "")
    assert "usage" in errors and errors.endswith(f": {said}\n")


@pytest.mark.needs("setpriv")
@pytest.mark.parametrize("name", NEED_ROOT)
def test_whoever_is_not_root_is_refused(machine: Machine, name: str) -> None:
    if not can_be_nobody():
        pytest.skip("a process can't become nobody here")
    status, printed, errors = machine.sh(" ".join([*NOBODY, name, RIGHT.get(name, "")]))
    assert (status, printed + errors) == (1, f"{name}: this needs root: sudo {name}\n")


@pytest.mark.root
@pytest.mark.parametrize("command, said", BARE, ids=[command for command, _ in BARE])
def test_what_is_missing_is_named(machine: Machine, command: str, said: str) -> None:
    """The one line has the cause, and what mends it."""
    status, printed, errors = machine.sh(command)
    assert status == 1
    assert f": {said.format(machine.folder)}" in printed + errors
    assert (printed + errors).count("\n") == 1


@pytest.mark.root
def test_goshelf_watch_where_nothing_is_prints_lines_of_its_own_alone(machine: Machine) -> None:
    status, printed, errors = machine.sh("goshelf-watch")
    assert status == 1
    assert "there is no backup of the last 26 hours\n" in printed
    assert [line for line in (printed + errors).splitlines() if not line.startswith("goshelf: ")] == []
