"""tools/planted judges wrong bodies by what a checker says of them, with a stand-in for rt and its checker.

Each function of the small crate has one wrong body. `SAID` has what the stand-in says of the function once it is
changed, and `DENIED` whether it proves the lemma that a second check asks for: that the open goal is false.
"""

import os
import subprocess
import sys

import pytest

from lib.program import ROOT
from lib.scratch import write

OPEN = "note: src/lib.rt:LINE:1: it is not proved that what the function ensures holds when it returns (`returns`)"
ANSWER = "./proofs/NAME/Answers.antt:4:13: error: `returns`: "
HELP = """
help: write ./proofs/NAME/Answers.antt with these lines, and check again: each hole's goal is what is left to show there
    use Rattle.std.proofs.Common.{rules}
    use Rattle.leaf.proofs.NAME.Goals as goal

    -- src/lib.rt:LINE:1
    pub returns : goal.returns
    returns c = ?"""
BY_HAND = """use Rattle.leaf.proofs.NAME.Goals as goal

pub returns : goal.returns
returns g c =
    by-hand c.ensures
"""
DIFFERS = f"{ANSWER}as printed, the two types differ only where one has `1` (expected) and the other has `2` (found)"
LOST = f"{ANSWER}record `record {{one : ℕ}}` has no field `two`"
SAID = {
    "values": f"{OPEN}; the facts known there allow values at which this goal is false",
    "denied": OPEN + HELP,
    "hard": f"{OPEN}; `search` gave up at one of its limits{HELP}",
    "unfit": DIFFERS,
    "unfit_hard": DIFFERS,
    "lost": LOST,
    "lost_hard": LOST,
    "calls": "",
}
DENIED = ("denied", "unfit", "lost")
VERDICTS = {
    "values": "refused: the goal is false: src/lib.rt:",
    "denied": "refused: the goal is false: `returns` contradicts what is known at its place",
    "hard": "refused: open goal, no counterexample: src/lib.rt:",
    "unfit": "refused: the goal is false: `returns` contradicts",
    "unfit_hard": "refused: open goal, no counterexample: proofs/unfit_hard/Answers.antt:4:13: error:",
    "lost": "refused: the goal is false: `returns` contradicts",
    "lost_hard": "DOES NOT COUNT: a proof file names what the edit takes away:",
    "calls": "LET THROUGH",
}
COUNTS = "6 refused (4 false goals, 2 open goals with no counterexample), 1 let through, 1 do not count"
RT = """#!/usr/bin/env python3
import os, sys
print("a kit 1")
if sys.argv[1] == "check":
    os.makedirs("out/incremental", exist_ok=True)
"""
RTLIB = """
RATTLE = "KIT/rattle"
class Crate:
    def __init__(self, folder, root, flags): pass
    def words(self, words, keeps): return words
"""
RATTLE = """#!/usr/bin/env python3
import os, re, sys
SAID, DENIED = TABLES
source = open("src/lib.rt", encoding="utf-8").read()
asked = [name.split("::")[-1] for before, name in zip(sys.argv, sys.argv[1:]) if before == "--only"] or SAID
changed = [name for name in asked if f"fn {name}() -> u8 {{\\n    2\\n" in source]
wrong = [name for name in changed if SAID[name]]
for name in wrong:
    path = f"./proofs/{name}/Answers.antt"
    text = open(path, encoding="utf-8").read() if os.path.exists(path) else ""
    if "--allow-holes" not in sys.argv:
        line = source.split(f"fn {name}(")[0].count("\\n") + 1
        print(SAID[name].replace("NAME", name).replace("LINE", str(line)))
    elif "by-hand" not in text and re.search(r"^pub returns : goal.returns\\nreturns (g )?c = [?]$", text, re.M):
        print(f"{path}:9:9: goal ? in `returns`\\n    c : goal.Given\\n  |- 1 = 2")
        if name not in DENIED or not re.search(r"^denied-returns : .h : goal.returns. ", text, re.M):
            print(f"{path}:12:9: error: `denied-returns`: `grind` found no proof")
    print(f"fn leaf::{name}: not proved")
print("only=1 proved=0" if "--only" in sys.argv else "logic=not-proved" if wrong else "logic=proved")
sys.exit(1 if wrong else 0)
"""


def edits() -> str:
    rows = (f"body: {name.replace('_', '-')}\nharm: none\nfn: src/lib.rt {name}\nold: 1\nnew: 2\n" for name in SAID)
    return "\n".join(rows)


@pytest.fixture
def planted(folder: str) -> list[str]:
    """Runs the tool over the crate, and returns its lines."""
    kit = os.path.join(folder, "kit")
    programs = {
        "rt": RT,
        "rattle": RATTLE.replace("TABLES", repr((SAID, DENIED))),
        "rtlib.py": RTLIB.replace("KIT", kit),
    }
    files = {"crates.txt": "leaf:\n", "crates/leaf/planted.edits": edits()}
    files["crates/leaf/src/lib.rt"] = "\n".join(f"fn {name}() -> u8 {{\n    1\n}}\n" for name in SAID)
    for name in ("unfit", "unfit_hard", "lost", "lost_hard"):
        files[f"crates/leaf/proofs/{name}/Answers.antt"] = BY_HAND.replace("NAME", name)
    files |= {f"kit/{name}": text for name, text in programs.items()}
    for path in files:
        os.makedirs(os.path.dirname(f"./{path}"), exist_ok=True)
    write(files)
    for name in ("rt", "rattle"):
        os.chmod(f"kit/{name}", 0o755)
    words = [sys.executable, os.path.join(ROOT, "tools", "planted"), "leaf"]
    environment = os.environ | {"RT": f"{kit}/rt"}
    ran = subprocess.run(words, cwd=folder, env=environment, capture_output=True, text=True, timeout=60)
    assert (ran.returncode, ran.stderr) == (1, "")
    return ran.stdout.splitlines()


def test_a_false_goal_is_told_from_one_that_is_only_open(planted: list[str]) -> None:
    judged = dict(line.removeprefix("planted leaf/").split(": ", 1) for line in planted if "leaf/" in line)
    for name, verdict in VERDICTS.items():
        assert judged[name.replace("_", "-")].startswith(verdict)
    assert planted[-1] == COUNTS
