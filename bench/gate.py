#!/usr/bin/env python3
"""What the gate costs: runs `rt ci` on a fresh clone of a commit, from nothing.

It prints processor time by kind and crate, and peaks. COMMIT is HEAD if it is left out. With --kept, proofs of
earlier runs on this machine count, as they do at a landing;
kit 13b keeps none, so it is refused there. The total is what the system counted for all processes of the run. The rest
is a sample of the run's processes of the prover, twice a second: it misses the end of each. A peak is the most memory
that one process held. The output of the run goes to gate.log in the folder that is printed first.
"""

import os
import re
import resource
import subprocess
import sys
import tempfile
import threading
import time
from collections import defaultdict
from collections.abc import Iterable

from shared import ROOT, parser_of, read

TICKS = os.sysconf("SC_CLK_TCK")
KINDS = ("proofs", "proofs of tests", "first bodies", "wrong bodies", "compilers")
# the crate, the kind, the seconds of the processor and the peak in GiB of a process
Seen = tuple[str, str, float, float]


def gate(is_kept: bool) -> list[str]:
    """The words that run the gate: a kit that keeps proofs runs from nothing by `--anew`, and one that keeps none
    has no such word."""
    # (its status is 2)
    ran = subprocess.run(["rt", "help"], stdout=subprocess.PIPE, stderr=subprocess.STDOUT, text=True, check=False)
    keeps = "--anew" in ran.stdout
    if is_kept and not keeps:
        sys.exit("--kept: this kit keeps no proofs, so each run is from nothing")
    return ["rt", "ci", *(["--anew"] if keeps and not is_kept else [])]


def kind_of(words: list[str], folder: str) -> str:
    """What a process of the prover is for: the work that it does, by its words and the folder that it works in."""
    if "--crate-checked" in words:
        return "compilers"
    if "/rt-edit-" in folder:
        over = words[words.index("--incremental") + 1] if "--incremental" in words else ""
        return "first bodies" if over.endswith("/seed") or not over else "wrong bodies"
    return "proofs of tests" if "--test" in words else "proofs"


def is_of(run: str, number: str) -> bool:
    """Whether a process is the run or descends from it."""
    while number not in ("0", "1", run):
        number = read(f"/proc/{number}/stat").rpartition(")")[2].split()[1]
    return number == run


def looked_at(number: str, run: str) -> tuple[str, Seen] | None:
    """One process, as its start and what is seen of it; None if it is no check or has ended."""
    try:
        words = read(f"/proc/{number}/cmdline").split("\0")
        if not words[0].endswith("/rattle") or "--crate-name" not in words or not is_of(run, number):
            return None
        fields = read(f"/proc/{number}/stat").rpartition(")")[2].split()
        found = re.search(r"VmHWM:\s+(\d+)", read(f"/proc/{number}/status"))
        kind, peak = kind_of(words, os.readlink(f"/proc/{number}/cwd")), int(found[1]) / 2**20 if found else 0
        seconds = (int(fields[11]) + int(fields[12])) / TICKS
        return fields[19], (words[words.index("--crate-name") + 1], kind, seconds, peak)
    except (OSError, ValueError, IndexError):
        return None


class Sampler(threading.Thread):
    """Looks at all processes twice a second until it is stopped. It keeps the last that it saw of each."""

    def __init__(self) -> None:
        super().__init__(daemon=True)
        self.seen: dict[tuple[str, str], Seen] = {}
        self.used, self.ends, self.of = 0.0, threading.Event(), str(os.getpid())

    def run(self) -> None:
        while not self.ends.wait(0.5):
            for number in filter(str.isdigit, os.listdir("/proc")):
                found = looked_at(number, self.of)
                if found:
                    self.seen[number, found[0]] = found[1]
            memory = dict(re.findall(r"(\w+):\s+(\d+)", read("/proc/meminfo")))
            self.used = max(self.used, (int(memory["MemTotal"]) - int(memory["MemAvailable"])) / 2**20)


def table(seen: Iterable[Seen]) -> dict[str, float]:
    """Prints a row for each crate: seconds by kind and the peak. Returns the seconds of all crates by kind."""
    rows: dict[str, dict[str, float]] = defaultdict(lambda: defaultdict(float))
    peaks: dict[str, float] = defaultdict(float)
    for crate, kind, seconds, peak in seen:
        rows[crate][kind] += seconds
        peaks[crate] = max(peaks[crate], peak)
    print(f"| crate | {', s | '.join(KINDS)}, s | peak, GiB |")
    print(f"|---|{'---|' * (len(KINDS) + 1)}")
    for crate, row in sorted(rows.items(), key=lambda item: -sum(item[1].values())):
        cells = (f"{row[kind]:,.0f}" if row[kind] else "" for kind in KINDS)
        print(f"| `{crate}` | {' | '.join(cells)} | {peaks[crate]:.1f} |")
    return {kind: sum(row[kind] for row in rows.values()) for kind in KINDS}


def main() -> int:
    parser = parser_of(__doc__)
    parser.add_argument("commit", nargs="?", default="HEAD", metavar="COMMIT", help="the commit (HEAD)")
    parser.add_argument("--kept", action="store_true", help="let proofs of earlier runs count")
    words = parser.parse_args()
    command = gate(words.kept)
    found = ["git", "-C", ROOT, "rev-parse", "--short", words.commit]
    commit = subprocess.run(found, capture_output=True, text=True, check=True).stdout.strip()
    folder = tempfile.mkdtemp(prefix="gate-")
    print(f"{commit} in {folder}", flush=True)
    subprocess.run(["git", "clone", "-q", ROOT, f"{folder}/goshelf"], check=True)
    subprocess.run(["git", "-C", f"{folder}/goshelf", "checkout", "-q", commit], check=True)
    sampler, start = Sampler(), time.monotonic()
    sampler.start()
    with open(f"{folder}/gate.log", "w", encoding="utf-8") as log:
        settings = dict(os.environ, PYTHONUNBUFFERED="1")
        status = subprocess.run(
            command, cwd=f"{folder}/goshelf", env=settings, stdin=subprocess.DEVNULL, stdout=log, stderr=log
        ).returncode
    sampler.ends.set()
    wall, took = (time.monotonic() - start) / 60, resource.getrusage(resource.RUSAGE_CHILDREN)
    sums = table(sampler.seen.values())
    print(f"{', '.join(f'{kind} {seconds / 60:.0f}' for kind, seconds in sums.items())} minutes by the sample")
    print(
        f"{(took.ru_utime + took.ru_stime) / 60:.0f} minutes of processor time in all, {wall:.0f} of the clock,"
        f" {sampler.used:.1f} GiB of the machine in use at the most"
    )
    print(read(f"{folder}/gate.log").rstrip("\n").rpartition("\n")[2])
    return status


if __name__ == "__main__":
    sys.exit(main())
