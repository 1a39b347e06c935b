"""Extracts for teams of two groups, names that are no team, and files that have something already.

The store has the groups tools and platform with a team each, and alpha, a team of no group. A table holds runs, as
lib/runs.py reads them.
"""

from collections.abc import Iterator

import pytest

from lib.runs import Story, begun, number_runs, read_runs

FILES = {
    "lib.mod": "module example.com/lib\n",
    "own.mod": "module example.com/own\n",
    **{name: f"of {name}" for name in ("tools", "platform", "common", "delta", "gamma", "alpha")},
}


def publish(key: str, path: str, zip_name: str, more: str = "") -> str:
    """Returns the run that publishes a version."""
    line = f"publish --db whole.db --key {key} --module example.com/{path} --version v1.0.0 --mod {path}.mod"
    return f"{line} --zip {zip_name}{more} | 0\n    201 published\n"


def inventory(file: str, key: str, *seen: str) -> str:
    """Returns the run that prints what a key sees: each version by its path, its shelf, its time and the bytes of its
    zip."""
    rows = [line.split(",") for line in seen]
    lines = [f"    example.com/{path},v1.0.0,{shelf},release,{time},23,{size}\n" for path, shelf, time, size in rows]
    header = "    path,version,shelf,class,time,mod_bytes,zip_bytes\n"
    return f"inventory --db {file} --key {key} | 0\n{header}{''.join(lines)}"


TIME = "2024-02-29T12:34:56Z"
TOOLS = "toolskey00000001"
# a key of delta that publishes, which is gone before an extract
PUBLISHER = "deltakey00000000"
OF_TOOLS, OF_PLATFORM, OF_COMMON = "lib,tools,,8", "lib,platform,,11", "lib,common,,9"
WHOLE = f"""
group-add --db whole.db --group tools | 0
group-add --db whole.db --group platform | 0
team-add --db whole.db --team gamma --group platform | 0
team-add --db whole.db --team delta --group tools | 0
team-add --db whole.db --team alpha | 0
key-add --db whole.db --shelf tools --key {TOOLS} | 0
key-add --db whole.db --shelf platform --key P | 0
key-add --db whole.db --shelf gamma --key M | 0
key-add --db whole.db --shelf delta --key {PUBLISHER} | 0
key-add --db whole.db --shelf delta --key D --read-only | 0
key-add --db whole.db --shelf alpha --key A | 0
key-add --db whole.db --shelf common --key C | 0
{publish(TOOLS, "lib", "tools")}\
{publish("P", "lib", "platform")}\
{publish("C", "lib", "common")}\
{publish(PUBLISHER, "own", "delta", f" --time {TIME}")}\
{publish("M", "own", "gamma")}\
{publish("A", "own", "alpha")}\
key-revoke --db whole.db --key {PUBLISHER} | 0
"""


def seen_by_both(file: str) -> str:
    """Returns the runs that show what the keys of both groups, of their teams and of common see."""
    return (
        inventory(file, TOOLS, OF_TOOLS)
        + inventory(file, "P", OF_PLATFORM)
        + inventory(file, "M", OF_PLATFORM, "own,gamma,,8")
        + inventory(file, "D", OF_TOOLS, f"own,delta,{TIME},8")
        + inventory(file, "C", OF_COMMON)
        + f"""
publish --db {file} --key D --module example.com/own --version v1.1.0 --mod own.mod --zip delta | 1
    403 forbidden
"""
    )


UNCHANGED = f"""
{seen_by_both("whole.db")}\
{inventory("whole.db", "A", OF_COMMON, "own,alpha,,8")}\
team-add --db whole.db --team gamma | 1 taken
team-add --db whole.db --team delta | 1 taken
team-add --db whole.db --team alpha | 1 taken
group-add --db whole.db --group tools | 1 taken
group-add --db whole.db --group platform | 1 taken
"""
TWO_GROUPS = read_runs(
    f"""
{WHOLE}
extract --db whole.db --team delta --team gamma --to part.db | 0
{seen_by_both("part.db")}\
inventory --db part.db --key A | 1 no-key
inventory --db part.db --key {PUBLISHER} | 1 no-key
team-add --db part.db --team delta --group platform | 1 taken
group-add --db part.db --group tools | 1 taken
team-add --db part.db --team alpha --group tools | 0
key-add --db part.db --shelf alpha --key A | 0
{inventory("part.db", "A", OF_TOOLS)}\
{UNCHANGED}\
extract --db whole.db --team gamma --team tools --to new.db | 1 no-team
extract --db whole.db --team common --team gamma --to new.db | 1 no-team
extract --db whole.db --team gamma --team delta --team beta --to new.db | 1 no-team
extract --db whole.db --team gamma --team delta --team alpha --to full.db | 0
{seen_by_both("full.db")}\
extract --db whole.db --team gamma --team tools --to full.db | 1 no-team
extract --db whole.db --team common --team gamma --to full.db | 1 no-team
extract --db whole.db --team gamma --team delta --team beta --to full.db | 1 no-team
extract --db whole.db --team gamma --to full.db | 1 not-empty
extract --db whole.db --team gamma --to once.db | 0
extract --db whole.db --team gamma --team gamma --to twice.db | 0
{inventory("once.db", "M", OF_PLATFORM, "own,gamma,,8")}\
{inventory("twice.db", "M", OF_PLATFORM, "own,gamma,,8")}\
inventory --db twice.db --key D | 1 no-key
{UNCHANGED}"""
)
# files that are not empty, each with what is in it
FULL = {
    "team.db": "team-add --db team.db --team gamma | 0\n",
    "group.db": "group-add --db group.db --group gamma | 0\n",
    "key.db": "key-add --db key.db --shelf common --key C --read-only | 0\n",
    "entry.db": (
        "key-add --db entry.db --shelf common --key C | 0\n"
        + publish("C", "lib", "common").replace("whole.db", "entry.db")
        + "key-revoke --db entry.db --key C | 0\n"
    ),
}
REFUSED = read_runs(
    f"""
team-add --db whole.db --team alpha | 0
key-add --db whole.db --shelf alpha --key A | 0
key-add --db whole.db --shelf alpha --key R --read-only | 0
{publish("A", "lib", "alpha")}"""
    + "".join(
        f"""
{runs}\
extract --db whole.db --team alpha --to {file} | 1 not-empty
extract --db whole.db --team gamma --to {file} | 1 no-team
extract --db whole.db --team common --to {file} | 1 no-team
"""
        for file, runs in FULL.items()
    )
    + f"""
{inventory("whole.db", "A", "lib,alpha,,8")}\
{inventory("whole.db", "R", "lib,alpha,,8")}\
extract --db whole.db --team gamma --to part.db | 1 no-team
extract --db whole.db --team alpha --to part.db | 0
extract --db whole.db --team alpha --to part.db | 1 not-empty
{inventory("part.db", "A", "lib,alpha,,8")}\
key-add --db part.db --shelf beta --key B --read-only | 1 no-team
team-add --db part.db --team beta | 0
key-add --db part.db --shelf beta --key B | 0
{inventory("part.db", "B")}\
publish --db part.db --key A --module example.com/lib --version v1.1.0 --mod lib.mod --zip alpha | 0
    201 published
team-add --db part.db --team alpha | 1 taken
"""
)


class TestTwoGroups:
    @pytest.fixture(scope="class")
    def story(self) -> Iterator[Story]:
        with begun(TWO_GROUPS, FILES) as story:
            yield story

    @pytest.mark.parametrize(**number_runs(TWO_GROUPS))
    def test_run(self, story: Story, number: int) -> None:
        story.check(number)


class TestFilesThatAreNotEmpty:
    @pytest.fixture(scope="class")
    def story(self) -> Iterator[Story]:
        with begun(REFUSED, FILES) as story:
            yield story

    @pytest.mark.parametrize(**number_runs(REFUSED))
    def test_run(self, story: Story, number: int) -> None:
        story.check(number)
