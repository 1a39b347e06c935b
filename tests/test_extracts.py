"""A team's part answers that team as the whole does, and extracts are refused in order.

Another team's versions change no answer. The store is that of the worked rows, with versions of beta's own before those
of the others. Two stores are asked for each version, and for one that they lack, in every way and by each key: the
whole and alpha's part; two stores, one with 100 more versions of beta; the whole and the parts of gamma and delta,
teams of the group platform, which have the group too. The bytes of the replies are compared. A table holds runs, as
lib/runs.py reads them.
"""

import functools
import os
import sqlite3
from collections.abc import Callable
from textwrap import indent

import pytest

from lib.keys import KEYS, SHELVES
from lib.messages import get, reply
from lib.program import answered
from lib.runs import Story, number_runs, read_runs
from lib.scratch import read, write
from lib.stores import new_store
from lib.worked import FILES, copy_store, finish, group_runs_of, imports_of, seen_by

NOT_FOUND = reply(404, b"not found\n")

# what alpha sees, of the whole and of its part
SEEN = """\
path,version,shelf,class,time,mod_bytes,zip_bytes
example.com/Lib,v1.0.0,alpha,release,,23,0
example.com/lib,v1.0.0,alpha,release,,23,0
example.com/lib,v2.0.0+incompatible,alpha,release,,23,0
example.com/ps,v0.0.0-20240101000000-aaaaaaaaaaaa,alpha,pseudo,2024-01-01T00:00:00Z,22,0
example.com/ps,v0.0.1-0.20230101000000-bbbbbbbbbbbb,alpha,pseudo,2023-01-01T00:00:00Z,22,0
example.com/ra,v1.0.0,alpha,release,,22,0
example.com/ra,v1.1.0,alpha,release,,47,0
example.com/rb,v1.1.0,alpha,release,,22,0
example.com/rb,v1.2.0-rc.1,alpha,pre,,37,0
example.com/rc,v1.0.0-rc.2,alpha,pre,,22,0
example.com/rc,v1.0.0-rc.10,alpha,pre,,22,0
example.com/rc,v1.0.0,alpha,release,,22,0
example.com/rd,v1.0.0,alpha,release,,37,0
example.com/x,v1.0.0,common,release,,21,1
example.com/y,v1.0.0,alpha,release,,21,1
"""
PART = f"""
extract --db whole.db --team alpha --to part.db | 0
inventory --db whole.db --key R | 0
{indent(SEEN, "    ")}
inventory --db part.db --key R | 0
{indent(SEEN, "    ")}
inventory --db part.db --key B | 1 no-key
team-add --db part.db --team alpha | 1 taken
team-add --db part.db --team beta | 0
inventory --db whole.db --key B | 0
    path,version,shelf,class,time,mod_bytes,zip_bytes
    example.com/own,v1.0.0,beta,release,,23,1
    example.com/x,v1.0.0,common,release,,21,1
    example.com/y,v1.0.0,common,release,,21,1
"""

# what a team's part has of its group, and what it has not of the group's other teams
GROUP_PART = """
extract --db whole.db --team platform --to part.db | 1 no-team
extract --db whole.db --team common --to part.db | 1 no-team
extract --db whole.db --team platform --to whole.db | 1 not-empty
extract --db whole.db --team gamma --to part.db | 0
extract --db whole.db --team gamma --to part.db | 1 not-empty
extract --db whole.db --team platform --to part.db | 1 no-team
inventory --db part.db --key M | 0
    path,version,shelf,class,time,mod_bytes,zip_bytes
    example.com/g,v1.0.0,platform,release,,21,1
    example.com/h,v1.0.0,gamma,release,,21,1
    example.com/x,v1.0.0,common,release,,21,1
    example.com/y,v1.0.0,common,release,,21,1
inventory --db part.db --key P | 0
    path,version,shelf,class,time,mod_bytes,zip_bytes
    example.com/g,v1.0.0,platform,release,,21,1
    example.com/h,v1.0.0,platform,release,,21,1
    example.com/x,v1.0.0,common,release,,21,1
    example.com/y,v1.0.0,common,release,,21,1
inventory --db part.db --key C | 0
    path,version,shelf,class,time,mod_bytes,zip_bytes
    example.com/h,v1.0.0,common,release,,21,1
    example.com/x,v1.0.0,common,release,,21,1
    example.com/y,v1.0.0,common,release,,21,1
inventory --db part.db --key D | 1 no-key
inventory --db part.db --key A | 1 no-key
extract --db part.db --team gamma --to again.db | 0
extract --db part.db --team platform --to other.db | 1 no-team
extract --db part.db --team delta --to other.db | 1 no-team
extract --db whole.db --team alpha --to alpha.db | 0
inventory --db alpha.db --key P | 1 no-key
extract --db whole.db --team gamma --team platform --to two.db | 1 no-team
extract --db whole.db --team delta --team gamma --team delta --to two.db | 0
inventory --db two.db --key D | 0
    path,version,shelf,class,time,mod_bytes,zip_bytes
    example.com/g,v1.0.0,platform,release,,21,1
    example.com/h,v1.0.0,platform,release,,21,1
    example.com/s,v1.0.0,delta,release,,21,1
    example.com/x,v1.0.0,common,release,,21,1
    example.com/y,v1.0.0,common,release,,21,1
inventory --db two.db --key M | 0
    path,version,shelf,class,time,mod_bytes,zip_bytes
    example.com/g,v1.0.0,platform,release,,21,1
    example.com/h,v1.0.0,gamma,release,,21,1
    example.com/x,v1.0.0,common,release,,21,1
    example.com/y,v1.0.0,common,release,,21,1
inventory --db two.db --key A | 1 no-key
group-add --db group.db --group tools | 0
extract --db whole.db --team gamma --to group.db | 1 not-empty
"""
# the part's shelves are of their kinds there: the group takes teams, and the names that the part left out are free
IN_PART = """
group-add --db part.db --group platform | 1 taken
group-add --db part.db --group gamma | 1 taken
team-add --db part.db --team eps --group gamma | 1 no-group
team-add --db part.db --team eps --group platform | 0
team-add --db part.db --team delta --group platform | 0
group-add --db alpha.db --group platform | 0
"""

# each target that a store is asked for by a key, with the bytes of the reply
Seen = Callable[[str, str], list[tuple[str, bytes]]]


def tell_story(folder: str, table: str, *files: str) -> Story:
    """Returns the runs of a table in a folder with the files of the worked rows and these stores of their shelves."""
    write({os.path.join(folder, name): content for name, content in FILES.items()})
    for file in files:
        new_store(os.path.join(folder, file), *SHELVES)
    return Story(read_runs(table), folder)


def see_after(story: Story) -> Seen:
    """Returns what asks a store, after the runs of a story."""
    finish(story)
    return functools.cache(lambda file, letter: seen_by(os.path.join(story.folder, file), letter))


def find_changed(seen: Seen, one: str, other: str, letter: str) -> set[str]:
    """Returns the targets for which two stores answer a key differently."""
    pairs = zip(seen(one, letter), seen(other, letter))
    return {target for (target, first), (_, second) in pairs if first != second}


def read_shelves(file: str) -> list[tuple[str, str | None]]:
    """Returns the shelves of a store, each with its parent, as sqlite3 reads them."""
    conn = sqlite3.connect(file)
    found = conn.execute("SELECT name, parent FROM shelf ORDER BY name").fetchall()
    conn.close()
    return found


def read_stores(folder: str, *names: str) -> dict[str, bytes]:
    return {name: read(os.path.join(folder, name)) for name in names}


PART_RUNS = read_runs(imports_of("whole.db") + PART)


class TestPartOfATeam:
    @pytest.fixture(scope="class")
    def story(self, class_folder: str) -> Story:
        return tell_story(class_folder, imports_of("whole.db") + PART, "whole.db")

    @pytest.fixture(scope="class")
    def seen(self, story: Story) -> Seen:
        return see_after(story)

    @pytest.mark.parametrize(**number_runs(PART_RUNS))
    def test_run(self, story: Story, number: int) -> None:
        story.check(number)

    @pytest.mark.parametrize("letter", "ARC")
    def test_part_answers_its_team_as_the_whole(self, seen: Seen, letter: str) -> None:
        assert seen("part.db", letter) == seen("whole.db", letter)

    def test_part_finds_nothing_for_another_team(self, seen: Seen) -> None:
        assert [found for found in seen("part.db", "B") if found[1] != NOT_FOUND] == []


OTHERS = imports_of("few.db") + imports_of("more.db", "many.csv")
OTHER_RUNS = read_runs(OTHERS)


class TestAnotherTeam:
    """Two stores, one with 100 more versions of beta."""

    @pytest.fixture(scope="class")
    def story(self, class_folder: str) -> Story:
        return tell_story(class_folder, OTHERS, "few.db", "more.db")

    @pytest.fixture(scope="class")
    def seen(self, story: Story) -> Seen:
        return see_after(story)

    @pytest.mark.parametrize(**number_runs(OTHER_RUNS))
    def test_run(self, story: Story, number: int) -> None:
        story.check(number)

    @pytest.mark.parametrize("letter", "ARC")
    def test_others_are_answered_alike(self, seen: Seen, letter: str) -> None:
        assert seen("few.db", letter) == seen("more.db", letter)

    def test_team_sees_its_versions(self, seen: Seen) -> None:
        wanted = {"example.com/own/@v/list", "example.com/own/@latest"}
        assert find_changed(seen, "few.db", "more.db", "B") == wanted


GROUP_TABLE = imports_of("whole.db") + group_runs_of("whole.db")
GROUP_RUNS, GROUP_PART_RUNS, IN_PART_RUNS = map(read_runs, (GROUP_TABLE, GROUP_PART, IN_PART))
# the stores that answer some keys alike
ALIKE = [
    ("whole.db", "part.db", "MPC"),
    ("part.db", "again.db", "MPCDA"),
    ("whole.db", "alpha.db", "ARC"),
    ("whole.db", "two.db", "MDPC"),
]
GROUP, COMMON = ("platform", None), ("common", None)
# the shelves of the parts, of which the first and the last have more after the runs of IN_PART
PART_SHELVES = {
    "part.db": [COMMON, ("delta", "platform"), ("eps", "platform"), ("gamma", "platform"), GROUP],
    "again.db": [COMMON, ("gamma", "platform"), GROUP],
    "two.db": [COMMON, ("delta", "platform"), ("gamma", "platform"), GROUP],
    "alpha.db": [("alpha", "common"), COMMON, GROUP],
}


class TestPartWithAGroup:
    @pytest.fixture(scope="class")
    def whole(self, class_folder: str) -> Story:
        return tell_story(class_folder, GROUP_TABLE, "whole.db")

    @pytest.fixture(scope="class")
    def before(self, whole: Story) -> dict[str, bytes]:
        finish(whole)
        return read_stores(whole.folder, "whole.db", "whole.db-wal")

    @pytest.fixture(scope="class")
    def parts(self, whole: Story, before: dict[str, bytes]) -> Story:
        return Story(GROUP_PART_RUNS, whole.folder)

    @pytest.fixture(scope="class")
    def after(self, parts: Story) -> dict[str, bytes]:
        finish(parts)
        return read_stores(parts.folder, "whole.db", "whole.db-wal")

    @pytest.fixture(scope="class")
    def seen(self, parts: Story) -> Seen:
        return see_after(parts)

    @pytest.fixture(scope="class")
    def in_part(self, parts: Story) -> Story:
        """Runs in copies of the parts."""
        finish(parts)
        folder = os.path.join(parts.folder, "copies")
        os.mkdir(folder)
        for name in PART_SHELVES:
            copy_store(os.path.join(parts.folder, name), os.path.join(folder, name))
        return Story(IN_PART_RUNS, folder)

    @pytest.mark.parametrize(**number_runs(GROUP_RUNS))
    def test_run_that_fills_the_whole(self, whole: Story, number: int) -> None:
        whole.check(number)

    @pytest.mark.parametrize(**number_runs(GROUP_PART_RUNS))
    def test_run(self, parts: Story, number: int) -> None:
        parts.check(number)

    def test_whole_keeps_its_bytes(self, before: dict[str, bytes], after: dict[str, bytes]) -> None:
        assert before == after

    # extract-gamma
    @pytest.mark.parametrize(
        "letter, wanted",
        [
            ("M", (200, b"m")),
            ("P", (200, b"h")),
            ("C", (200, b"c")),
            ("D", (404, b"not found\n")),
            ("A", (404, b"not found\n")),
        ],
    )
    def test_zip_of_the_part(self, parts: Story, letter: str, wanted: tuple[int, bytes]) -> None:
        finish(parts)
        words = ["--db", os.path.join(parts.folder, "part.db")]
        assert answered(words, [get("example.com/h/@v/v1.0.0.zip", KEYS[letter])]) == [wanted]

    @pytest.mark.parametrize("one, other, letter", [(*pair, letter) for *pair, letters in ALIKE for letter in letters])
    def test_stores_answer_alike(self, seen: Seen, one: str, other: str, letter: str) -> None:
        assert seen(one, letter) == seen(other, letter)

    @pytest.mark.parametrize("letter", "DABR")
    def test_part_finds_nothing_for_others(self, seen: Seen, letter: str) -> None:
        assert [found for found in seen("part.db", letter) if found[1] != NOT_FOUND] == []

    @pytest.mark.parametrize(**number_runs(IN_PART_RUNS))
    def test_run_in_a_part(self, in_part: Story, number: int) -> None:
        in_part.check(number)

    @pytest.mark.parametrize("file", PART_SHELVES)
    def test_shelves_of_a_part(self, in_part: Story, file: str) -> None:
        finish(in_part)
        assert read_shelves(os.path.join(in_part.folder, file)) == PART_SHELVES[file]


GROUP_OTHERS = "".join(
    imports_of(file) + group_runs_of(file, more) for file, more in (("few.db", ""), ("more.db", "many-delta.csv"))
)
GROUP_OTHER_RUNS = read_runs(GROUP_OTHERS)


class TestAnotherTeamOfTheGroup:
    """Two stores, one with 100 more versions of delta."""

    @pytest.fixture(scope="class")
    def story(self, class_folder: str) -> Story:
        return tell_story(class_folder, GROUP_OTHERS, "few.db", "more.db")

    @pytest.fixture(scope="class")
    def seen(self, story: Story) -> Seen:
        return see_after(story)

    @pytest.mark.parametrize(**number_runs(GROUP_OTHER_RUNS))
    def test_run(self, story: Story, number: int) -> None:
        story.check(number)

    @pytest.mark.parametrize("letter", "MPCARB")
    def test_others_are_answered_alike(self, seen: Seen, letter: str) -> None:
        assert seen("few.db", letter) == seen("more.db", letter)

    def test_team_sees_its_versions(self, seen: Seen) -> None:
        wanted = {"example.com/s/@v/list", "example.com/s/@latest"}
        assert find_changed(seen, "few.db", "more.db", "D") == wanted
