#!/usr/bin/env python3
"""Speed of the calls that need no store: checks of paths, the order of versions, and the reading of go.mod files.

Build the program first (`cd crates/bench_leaves && rt run -- gomod 0 </dev/null`). It does the same work in rounds, and
each line has what a round costs in processor time, beside a run with no rounds, which only makes the input ready. Of
a go.mod it also prints how many times the cost of one half as long that is, and the status is 1 where that is more
than 2.5 times. With --quick the inputs are a tenth as long. With --gomods it measures one round alone of the worst
go.mod files that bench/kept.py makes, with the choice of the latest among few or many versions, the best of nine;
--program FILE names the program.
"""

import os
import random
import sys
import tempfile
from collections.abc import Callable

import shared
from kept import VERSIONS, gomod_of, gomods
from shared import ROOT, add_quick, file_named, parser_of

PROGRAM = os.path.join(ROOT, "crates", "bench_leaves", "out", "bench_leaves")
HOSTS = ["github.com", "github.com", "github.com", "golang.org/x", "google.golang.org", "gitlab.com", "k8s.io"]
WORDS = (
    "api auth cloud client config core data event go grpc http kit log metrics net proto sdk Store test tools".split()
)
TWICE_COSTS_AT_MOST = 2.5


def processor_seconds(words: list[str], text: bytes, settings: dict[str, str] | None = None) -> tuple[float, int]:
    """The processor seconds of a run on a text, and the number that it prints."""
    with tempfile.TemporaryFile() as source, tempfile.TemporaryFile() as target:
        source.write(text)
        source.seek(0)
        took = shared.run(words, source, target, settings)
        target.seek(0)
        return took.processor, int(target.read())


def run(what: str, rounds: int, text: bytes, program: str = PROGRAM) -> tuple[float, int]:
    """The processor seconds of rounds of what the program can do, and the number that it prints."""
    return processor_seconds([program, what, str(rounds)], text)


def rounds_of(what: str, *texts: bytes) -> list[tuple[float, float]]:
    """Of each text the processor seconds of a round, by the best of five runs in turn, and the number that it makes."""
    plans = []
    for text in texts:
        idle = min(run(what, 0, text)[0] for _ in range(3))
        rounds = 1
        while run(what, rounds, text)[0] - idle < 0.5:
            rounds *= 2
        plans.append((text, idle, rounds))
    turns = [[run(what, rounds, text) for text, _, rounds in plans] for _ in range(5)]
    return [
        ((min(runs)[0] - idle) / rounds, runs[0][1] / rounds) for (_, idle, rounds), runs in zip(plans, zip(*turns))
    ]


def lines(count: int, line: Callable[[int], str]) -> bytes:
    return "".join(f"{line(n)}\n" for n in range(count)).encode()


def path(chance: random.Random) -> str:
    """A path like those of public modules, of 20 to 60 bytes."""
    while True:
        elements = [chance.choice(HOSTS)]
        elements += ["-".join(chance.choices(WORDS, k=chance.randint(1, 3))) for _ in range(chance.randint(1, 3))]
        if chance.random() < 0.2:
            elements.append(f"v{chance.randint(2, 9)}")
        made = "/".join(elements)
        if 20 <= len(made) <= 60:
            return made


def version(chance: random.Random) -> str:
    """A version of a path without a major version suffix: half are releases, then come pre- and pseudo-versions."""
    base = f"v{chance.randint(0, 1)}.{chance.randint(0, 40)}.{chance.randint(1, 20)}"
    kind = chance.random()
    if kind < 0.5:
        return base
    if kind < 0.75:
        return f"{base}-{chance.choice(['alpha', 'beta', 'rc'])}.{chance.randint(1, 12)}"
    day = f"20{chance.randint(10, 25)}{chance.randint(1, 12):02}{chance.randint(1, 28):02}"
    stamp = f"{day}{chance.randint(0, 23):02}{chance.randint(0, 59):02}{chance.randint(0, 59):02}"
    return f"{base}-0.{stamp}-{chance.randrange(16**12):012x}"


def comment(size: int) -> tuple[bytes, int]:
    head = b"module example.com/a\nrequire example.com/b v1.0.0\n// "
    return head + b"c" * (size - len(head)), 1


def requirements(count: int) -> tuple[bytes, int]:
    head = b"module example.com/a\n\nrequire (\n"
    entry = lambda n: f"\tgithub.com/owner{n % 97}/mod-{n} v1.{n % 50}.{n % 20} // indirect"
    return head + lines(count, entry) + b")\n", count


def short_lines(count: int) -> tuple[bytes, int]:
    """Blocks without entries, as short as lines with a keyword are."""
    head = b"module example.com/a\nrequire example.com/b v1.0.0\n"
    return head + b"require (\n)\n" * (count // 2 - 1), 1


def measure_paths(count: int) -> None:
    chance = random.Random(1)
    [(seconds, passed)] = rounds_of("paths", lines(count, lambda _: path(chance)))
    if passed != count:
        sys.exit(f"{passed} of {count} paths are module paths")
    print(f"{count:,} paths: {count / seconds:,.0f} paths/s of check ({seconds:.3f} s)")


def measure_versions(count: int) -> None:
    chance = random.Random(2)
    [(seconds, comparisons)] = rounds_of("versions", lines(count, lambda _: version(chance)))
    print(
        f"{count:,} versions sorted by rank: {comparisons / seconds:,.0f} comparisons/s "
        f"({comparisons:,.0f} in {seconds * 1e3:.2f} ms)"
    )


def measure_gomod(name: str, size: int, make: Callable[[int], tuple[bytes, int]]) -> bool:
    """Whether the text costs no more than it may beside one half as long."""
    (text, count), (short_text, short_count) = make(size), make(size // 2)
    whole, half = rounds_of("gomod", text, short_text)
    if (whole[1], half[1]) != (count, short_count):
        sys.exit(f"{whole[1]} and {half[1]} requirements were read, and not {count} and {short_count}")
    seconds, length = whole[0], len(text)
    times = seconds / half[0]
    print(
        f"a go.mod of {name}, {length:,} bytes: {length / seconds / 1e6:,.1f} MB/s ({seconds * 1e3:.2f} ms), "
        f"{times:.2f} times one half as long"
    )
    return times <= TWICE_COSTS_AT_MOST


def measure_worst(program: str) -> None:
    """What the worst go.mod files cost that are read once, and searched for the latest of one version or of many."""
    for name, keyword, entries, version in gomods():
        gomod, count = gomod_of(entries, keyword)
        for many in (1, VERSIONS) if version else (1,):
            names = sorted((version(n) for n in range(many - 1)) if version else (), key=in_order)
            text = gomod + lines(many, lambda n: ["===", *names][n]) + b"v1.0.0\n"
            idle, once = (min(run("latest", rounds, text, program)[0] for _ in range(9)) for rounds in (0, 1))
            print(f"{count:,} {name}, {many:,} version{'s' * (many > 1)}: {(once - idle) * 1e3:.0f} ms", flush=True)


def in_order(version: str) -> list:
    """The place of a release, or of one of some pre-releases of one release, among others."""
    return [version] if "-" in version else [int(part) for part in version[1:].split(".")]


def need(program: str) -> None:
    """Ends the bench unless the program is there."""
    if not os.path.exists(program):
        sys.exit("build the program first: cd crates/bench_leaves && rt run -- gomod 0 </dev/null")


def main() -> None:
    parser = parser_of(__doc__)
    add_quick(parser)
    parser.add_argument("--gomods", action="store_true", help="measure only the most expensive go.mod files")
    parser.add_argument(
        "--program", default=PROGRAM, metavar="FILE", type=file_named, help="the program, with --gomods"
    )
    words = parser.parse_args()
    need(words.program)
    if words.gomods:
        return measure_worst(words.program)
    scale = words.scale
    measure_paths(1_000_000 // scale)
    measure_versions(4_096 // scale)
    linear = [
        measure_gomod("one comment", 2**20 // scale, comment),
        measure_gomod(f"{20_000 // scale:,} requirements", 20_000 // scale, requirements),
        measure_gomod(f"{80_000 // scale:,} lines", 80_000 // scale, short_lines),
    ]
    if not all(linear):
        sys.exit(f"twice the text costs more than {TWICE_COSTS_AT_MOST} times as much")


if __name__ == "__main__":
    main()
