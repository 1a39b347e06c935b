#!/usr/bin/env python3
"""A `.zip` of each size by `goshelf serve`, fetched first and again, in turn with nginx over the same bytes as files.

Build the program first (`./goshelf --version`); nginx and cc are on the path. With --program FILE, once or more, it
measures these programs beside each other. Each request has a connection of its own, by a client in C, so that it is no
bottleneck. What is fetched first are other versions each time, of a store that was opened anew; nginx's files are in
the system's memory. That store has 93 MiB. With --beyond N it has N more versions of 16 MiB, which nobody fetches.
--rounds N makes N turns (9); with --quick there are a tenth of the requests.
"""

import argparse
import os
import statistics
import subprocess
import sys
import tempfile

from serve import ask, client_in, fetched, resident, start_nginx, started, stopped
from shared import PROGRAM
from store import KEY, middle

# of each size how many versions there are, and how often one of them is fetched again
SIZES = ((1_024, 1_000, 4_000), (65_536, 100, 2_000), (1_048_576, 20, 300), (16_777_216, 4, 30))


def target(size, n, name="z"):
    return f"/k/{KEY}/example.com/{name}{size}/@v/v1.0.{n}.zip"


def content(size, n):
    return bytes([n % 255 + 1]) * size


def publish(port, size, n, name="z"):
    gomod = f"module example.com/{name}{size}\n".encode()
    target_of_all = target(size, n, name).removesuffix(".zip")
    status, _ = ask(port, "PUT", target_of_all, gomod + content(size, n), {"Mod-Length": str(len(gomod))})
    if status != 201:
        sys.exit(f"a publish was answered {status}")


def filled(program, file, beyond):
    """Makes a store with all versions, and this many more of the largest size."""
    for words in (["team-add", "--team", "alpha"], ["key-add", "--shelf", "alpha", "--key", KEY]):
        subprocess.run([program, *words, "--db", file], check=True)
    child, port = started(program, file)
    for size, count, _ in SIZES:
        for n in range(count):
            publish(port, size, n)
    for n in range(beyond):
        publish(port, SIZES[-1][0], n, "more")
    stopped(child)


def write_files(folder):
    """Writes the zips as nginx's files."""
    for size, count, _ in SIZES:
        os.makedirs(os.path.join(folder, "files" + os.path.dirname(target(size, 0))))
        for n in range(count):
            with open(f"{folder}/files{target(size, n)}", "wb") as file:
                file.write(content(size, n))


def fetching(client, port, targets):
    """Milliseconds of a fetch."""
    return 1000 * fetched(client, port, targets)[0] / len(targets)


def round_of(client, port, scale):
    """Of each size, the milliseconds of a first fetch and of one again."""
    took = []
    for size, count, again in SIZES:
        first = [target(size, n) for n in range(count)]
        took += [fetching(client, port, first), fetching(client, port, first[-1:] * max(1, again // scale))]
    return took


def tell(name, mine, other):
    """Prints the medians of one kind of fetch, with the least and the most."""
    ratio = statistics.median(two / one for one, two in zip(mine, other))
    texts = [middle(it, ".3f", " ms") for it in (mine, other)]
    print(f"  {name}: {texts[0]}, nginx {texts[1]}: {ratio:.2f} times nginx", flush=True)


def options():
    parser = argparse.ArgumentParser(description=__doc__, formatter_class=argparse.RawDescriptionHelpFormatter)
    parser.add_argument("--program", action="append")
    parser.add_argument("--rounds", type=int, default=9)
    parser.add_argument("--beyond", type=int, default=0)
    parser.add_argument("--quick", action="store_true")
    return parser.parse_args()


def main():
    words = options()
    programs, scale = [os.path.abspath(it) for it in words.program or [PROGRAM]], 10 if words.quick else 1
    with tempfile.TemporaryDirectory(prefix="goshelf-zips-") as folder:
        client, stores = client_in(folder), [f"{folder}/store{at}.db" for at in range(len(programs))]
        for program, file in zip(programs, stores):
            filled(program, file, words.beyond)
        write_files(folder)
        theirs, port = start_nginx(folder)
        ours, peaks, beside = [[] for _ in programs], [0] * len(programs), []
        for _ in range(words.rounds):
            for at, (program, file) in enumerate(zip(programs, stores)):
                child, own = started(program, file)
                ours[at].append(round_of(client, own, scale))
                peaks[at] = max(peaks[at], resident(child)[1])
                stopped(child)
            beside.append(round_of(client, port, scale))
        stopped(theirs)
        names = [f"{size:,} bytes, {when}" for size, _, _ in SIZES for when in ("first", "again")]
        for at, program in enumerate(programs):
            print(f"{program}, peak {peaks[at]:.0f} MiB")
            for what, name in enumerate(names):
                tell(name, *([it[what] for it in rounds] for rounds in (ours[at], beside)))


if __name__ == "__main__":
    main()
