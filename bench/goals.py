#!/usr/bin/env python3
"""The most expensive goals of crates: the modules of a check from nothing that take most processor time.

It checks a copy of each crate at one job, over the libraries that `rt check` of the crate built below it, and prints
each module that took at least SECONDS (3), the most expensive first. The prover writes a file for each module once it
is checked, so a module took what the prover used since the file before. A goal that takes long may want an answer in
proofs/FUNCTION/Answers.antt.
"""

import bisect
import importlib
import os
import shutil
import subprocess
import sys
import tempfile
import threading
import time
from types import ModuleType
from typing import Any

from shared import ROOT, parser_of

TICKS = os.sysconf("SC_CLK_TCK")
EVERY = 0.1


def kit() -> ModuleType:
    """The module of the kit that knows crates, and the words that check one."""
    rt = shutil.which("rt") or sys.exit("goals: there is no command rt")
    sys.path.insert(0, os.path.dirname(os.path.realpath(rt)))
    return importlib.import_module("rtlib")


class Clock(threading.Thread):
    """How much processor time a process has used, by the time of day, until it ends."""

    def __init__(self, process: subprocess.Popen) -> None:
        super().__init__(daemon=True)
        self.process = process
        self.times: list[float] = []
        self.used: list[float] = []
        self.start()

    def run(self) -> None:
        while self.process.poll() is None:
            try:
                with open(f"/proc/{self.process.pid}/stat", encoding="utf-8") as file:
                    fields = file.read().rpartition(")")[2].split()
            except OSError:
                return
            self.times.append(time.time())
            self.used.append((int(fields[11]) + int(fields[12])) / TICKS)
            time.sleep(EVERY)

    def at(self, moment: float) -> float:
        """The seconds that it had used at a time of day."""
        return self.used[max(bisect.bisect(self.times, moment) - 1, 0)]


def files_below(folder: str) -> list[tuple[float, str]]:
    """The time of day at which each module was written, and its name, in order."""
    found = []
    for at, _, names in os.walk(folder):
        for name in names:
            if name.endswith(".oantt"):
                found.append((os.stat(f"{at}/{name}").st_mtime, name.removesuffix(".oantt")))
    return sorted(found)


def goals(rtlib: ModuleType, crate: Any) -> tuple[list[tuple[float, str]], float]:
    """The modules of a crate with the seconds that each took, and the seconds of the whole check."""
    lacking = [low.name for low in crate.below() if not low.is_built()]
    if lacking:
        sys.exit(f"goals: {lacking[0]} is not built: run rt check in crates/{crate.name}")
    with tempfile.TemporaryDirectory(prefix="goals-") as room:
        for part in rtlib.PARTS:
            if os.path.isdir(f"{crate.folder}/{part}"):
                shutil.copytree(f"{crate.folder}/{part}", f"{room}/{part}")
        words = [rtlib.RATTLE, "check", *crate.words(["--jobs", "1"], keeps=False), "--incremental", f"{room}/kept"]
        with open(f"{room}/log", "w", encoding="utf-8") as log:
            ran = subprocess.Popen(words, cwd=room, stdin=subprocess.DEVNULL, stdout=log, stderr=log)
            clock = Clock(ran)
            if ran.wait():
                sys.exit(f"goals: {crate.name} is not proved")
        clock.join()
        moments = [(clock.at(moment), name) for moment, name in files_below(f"{room}/kept")]
    before = [0.0, *(at for at, _ in moments)]
    return [(at - was, name) for (at, name), was in zip(moments, before)], clock.used[-1]


def main() -> None:
    parser = parser_of(__doc__)
    parser.add_argument("crates", nargs="+", metavar="CRATE", help="the crates")
    parser.add_argument("--least", type=float, default=3, metavar="SECONDS", help="what a module took at least (3)")
    words = parser.parse_args()
    rtlib = kit()
    known = {crate.name: crate for crate in rtlib.crates_below(ROOT)}
    for name in words.crates:
        if name not in known:
            parser.error(f"{name} is no crate of crates.txt")
    for name in words.crates:
        found, whole = goals(rtlib, known[name])
        expensive = sorted((goal for goal in found if goal[0] >= words.least), reverse=True)
        total = sum(seconds for seconds, _ in expensive)
        print(f"{name}: {whole:.0f} s of processor time, {total:.0f} in {len(expensive)} modules", flush=True)
        for seconds, module in expensive:
            print(f"{seconds:6.1f} s  {module}", flush=True)


if __name__ == "__main__":
    main()
