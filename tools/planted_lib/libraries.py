"""The proved libraries that a check of a crate stands on: what rt ci left, or what rt check makes."""
import functools
import importlib.machinery
import importlib.util
import os
import shutil
import sys
from types import ModuleType

from planted_lib.messages import last_of
from planted_lib.repository import PARTS, ROOT, RT, Crate, Unusable, read, write
from planted_lib.running import run

STAMP = "out/planted-proved"
# rt ci opens it as it begins, and holds it until it ends
LOCK = f"{ROOT}/.git/rt-ci.lock"


@functools.lru_cache(maxsize=None)
def rtlib() -> ModuleType:
    """Returns the module beside the command rt, which makes the words for the checker, as rt loads it."""
    path = f"{os.path.dirname(os.path.realpath(shutil.which(RT[0]) or RT[0]))}/rtlib.py"
    if not os.path.isfile(path):
        raise Unusable(f"no rtlib.py stands beside the command {RT[0]}")
    loader = importlib.machinery.SourceFileLoader("rtlib", path)
    spec = importlib.util.spec_from_loader("rtlib", loader)
    if spec is None:
        raise Unusable(f"{path} cannot be loaded")
    module = importlib.util.module_from_spec(spec)
    sys.modules["rtlib"] = module
    loader.exec_module(module)
    return module


def words_of(crate: Crate) -> list[str]:
    """Returns the words of a check of the crate, over the libraries that stand in its out/ and those below."""
    try:
        made = rtlib().Crate(crate.folder, ROOT, {})
        return [rtlib().RATTLE, "check", *made.words(["--jobs", "1"], keeps=False)]
    except SystemExit as why:
        raise Unusable(f"rt refuses the crate: {why}") from why


def changed_at(crate: Crate) -> float:
    """Returns when a file of the crate was last changed, added or removed."""
    paths = [f"{ROOT}/crates.txt"]
    for part in PARTS:
        for at, _, names in os.walk(f"{crate.folder}/{part}"):
            paths += [at, *(f"{at}/{name}" for name in names)]
    return max(map(os.path.getmtime, paths))


def proved_at(crate: Crate) -> float:
    """Returns when the library or program of a crate was made, which rt does only of a proved one, or 0."""
    library, program = f"{crate.folder}/out/rlib/{crate.name}.rlib/format", f"{crate.folder}/out/{crate.name}"
    return max((os.path.getmtime(path) for path in (library, program) if os.path.isfile(path)), default=0)


def is_left_by_gate(crate: Crate) -> bool:
    """Returns whether the last rt ci proved the crate and those below as they stand, and left their libraries.

    No file may have changed since it began, because it may have read the file before. rt check marks its libraries
    with a stamp. They do not go with those of rt ci, which have statements alone.
    """
    crates = [*crate.below, crate]
    if not os.path.isfile(LOCK) or any(os.path.exists(f"{one.folder}/out/rlib/stamp") for one in crates):
        return False
    began = os.path.getmtime(LOCK)
    return all(changed_at(one) < began < proved_at(one) for one in crates)


def prove(crate: Crate) -> None:
    """Checks the crate in its place, unless its text was last seen proved; an exception if it is not proved."""
    kept = [f"{crate.folder}/out/incremental", *[f"{low.folder}/out/rlib/stamp" for low in crate.below]]
    stamp, sum_now = f"{crate.folder}/{STAMP}", crate.sum()
    if all(map(os.path.exists, [*kept, stamp])) and read(stamp) == sum_now + "".join(map(read, kept[1:])):
        return
    status, text = run([*RT, "check", "--jobs", "1"], crate.folder)
    if status:
        raise Unusable(f"the crate is not proved as it stands: {last_of(text)}")
    write(stamp, sum_now + "".join(map(read, kept[1:])))
