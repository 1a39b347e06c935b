#!/usr/bin/env python3
"""Reading a go.mod of 20,000 requirements: this repository's `gomod` beside golang.org/x/mod/modfile.

Nine runs of each are made in turn. Build the program first (`cd crates/bench_leaves && rt run -- gomod 0 </dev/null`).
The other side is built here, by Debian's packages golang-go and golang-golang-x-mod-dev. It is run as it comes, with
its collector on other processors, and on one processor alone. Each line has the processor time of a reading, beside a
run that reads none, and how many times ours it is, run by run.
"""

import os
import statistics
import subprocess
import sys
import tempfile

from leaves import PROGRAM, need, processor_seconds, requirements
from shared import parser_of

SOURCE = os.path.join(os.path.dirname(os.path.abspath(__file__)), "modfile.go")
RUNS = 9


def main() -> None:
    parser_of(__doc__).parse_args()
    need(PROGRAM)
    text, count = requirements(20_000)
    with tempfile.TemporaryDirectory() as room:
        program = os.path.join(room, "modfile")
        settings = dict(
            os.environ, GO111MODULE="off", GOPATH="/usr/share/gocode", GOFLAGS="", GOCACHE=os.path.join(room, "cache")
        )
        subprocess.run(["go", "build", "-o", program, SOURCE], check=True, env=settings)
        sides: dict[str, tuple[list[str], int, dict[str, str] | None]] = {
            "gomod": ([PROGRAM, "gomod"], 100, None),
            "modfile": ([program], 20, None),
            "modfile on one processor": ([program], 20, dict(os.environ, GOMAXPROCS="1")),
        }
        idle = {
            name: min(processor_seconds([*words, "0"], text, env)[0] for _ in range(3))
            for name, (words, _, env) in sides.items()
        }
        took: dict[str, list[float]] = {name: [] for name in sides}
        for _ in range(RUNS):
            for name, (words, rounds, env) in sides.items():
                seconds, read = processor_seconds([*words, str(rounds)], text, env)
                if read != rounds * count:
                    sys.exit(f"{name}: {read} requirements were read, and not {rounds * count}")
                took[name].append((seconds - idle[name]) / rounds)
    print(f"a go.mod of {count:,} requirements, {len(text):,} bytes, {RUNS} runs of each in turn:")
    for name, runs in took.items():
        line = f"{name}: {min(runs) * 1e3:.2f} ms at best, {statistics.median(runs) * 1e3:.2f} in the median"
        if name != "gomod":
            times = sorted(theirs / ours for theirs, ours in zip(runs, took["gomod"]))
            line += (
                f"; {min(runs) / min(took['gomod']):.2f} times ours by the best, {statistics.median(times):.2f} in the"
                " median run by run"
            )
            line += f" ({times[0]:.2f} to {times[-1]:.2f})"
        print(line)


if __name__ == "__main__":
    main()
