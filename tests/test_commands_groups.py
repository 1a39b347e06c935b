"""Groups, teams and keys as commands make and list them: who sees what, who may publish, and what is refused."""

import contextlib
import hashlib
import re
import subprocess
from collections.abc import Iterator
from typing import NamedTuple

import pytest

from lib.program import PROGRAM, done, refusal, run
from lib.runs import Ending, Run, Story, begun, number_stories, read_runs
from lib.scratch import entered_folder, read

# a store with the team alpha and its key, and what is then refused and changes nothing: the name first, then whether it
# is taken, then the group
GROUPS = """
team-add --db store.db --team alpha | 0
key-add --db store.db --shelf alpha --key A | 0
group-add --db store.db --group platform | 0
team-add --db store.db --team gamma --group platform | 0
"""
REFUSED_GROUPS = """
group-add --db store.db --group common | 1 name
group-add --db store.db --group Platform | 1 name
group-add --db store.db --group= | 1 name
group-add --db store.db --group 1platform | 1 name
group-add --db store.db --group a23456789012345678901234567890123 | 1 name
group-add --db store.db --group platform | 1 taken
group-add --db store.db --group alpha | 1 taken
group-add --db store.db --group gamma | 1 taken
team-add --db store.db --team platform | 1 taken
team-add --db store.db --team platform --group platform | 1 taken
team-add --db store.db --team platform --group nosuch | 1 taken
team-add --db store.db --team alpha --group platform | 1 taken
team-add --db store.db --team gamma | 1 taken
team-add --db store.db --team gamma --group platform | 1 taken
team-add --db store.db --team gamma --group nosuch | 1 taken
team-add --db store.db --team common --group platform | 1 name
team-add --db store.db --team common --group nosuch | 1 name
team-add --db store.db --team Eps --group platform | 1 name
team-add --db store.db --team Eps --group alpha | 1 name
team-add --db store.db --team eps --group nosuch | 1 no-group
team-add --db store.db --team eps --group eps | 1 no-group
team-add --db store.db --team eps --group alpha | 1 no-group
team-add --db store.db --team eps --group gamma | 1 no-group
team-add --db store.db --team eps --group common | 1 no-group
team-add --db store.db --team eps --group= | 1 no-group
team-add --db store.db --team eps --group Platform | 1 no-group
team-add --db store.db --team eps --group a23456789012345678901234567890123 | 1 no-group
key-add --db store.db --shelf eps --key P | 1 no-team
key-add --db store.db --shelf platform --key shortkey1234567 | 1 name
key-add --db store.db --shelf platform --key A | 1 taken
key-add --db store.db --shelf Platform --key A | 1 no-team
"""
# names come before teams, and teams before keys
REGISTRY = """
init --db store.db | 0
team-add --db store.db --team Alpha | 1 name
team-add --db store.db --team common | 1 name
team-add --db store.db --team alpha | 0
team-add --db store.db --team alpha | 1 taken
key-add --db store.db --shelf nosuch --key short --read-only | 1 name
key-add --db store.db --shelf nosuch --key A --read-only | 1 no-team
key-add --db store.db --shelf alpha --key A --read-only | 0
key-add --db store.db --shelf common --key A --read-only | 1 taken
key-add --db store.db --shelf nosuch --key A --read-only | 1 no-team
group-add --db store.db --group Platform | 1 name
group-add --db store.db --group platform | 0
group-add --db store.db --group platform | 1 taken
team-add --db store.db --team gamma --group alpha | 1 no-group
team-add --db store.db --team gamma --group platform | 0
team-add --db store.db --team delta --group platform | 0
team-add --db store.db --team delta --group nosuch | 1 taken
key-add --db store.db --shelf platform --key P | 0
key-add --db store.db --shelf gamma --key M | 0
key-add --db store.db --shelf delta --key D | 0
"""
GROUP_FILES = {
    "g.mod": "module example.com/g\n",
    "h.mod": "module example.com/h\n",
    "one": "X",
    "two": "YY",
    "three": "ZZZ",
}
# the shelf column of the inventory names a group; a key of a group reads or publishes as those of other shelves do
GROUP_KEYS = """
group-add --db store.db --group lib-32-bytes-long-12345678901234 | 0
team-add --db store.db --team eps --group lib-32-bytes-long-12345678901234 | 0
team-add --db store.db --team delta --group platform | 0
key-add --db store.db --shelf platform --key P | 0
key-add --db store.db --shelf platform --key R --read-only | 0
key-add --db store.db --shelf platform --key P | 1 taken
key-add --db store.db --shelf gamma --key M | 0
key-add --db store.db --shelf delta --key D | 0
key-add --db store.db --shelf common --key C | 0
publish --db store.db --key R --module example.com/g --version v1.0.0 --mod g.mod --zip one | 1
    403 forbidden
publish --db store.db --key P --module example.com/g --version v1.0.0 --mod g.mod --zip one --time \
2024-01-31T23:59:59Z | 0
    201 published
publish --db store.db --key M --module example.com/g --version v1.0.0 --mod g.mod --zip one | 1
    409 conflict
publish --db store.db --key M --module example.com/g --version v1.0.0 --mod g.mod --zip one --time \
2024-01-31T23:59:59Z | 0
    200 already published
publish --db store.db --key M --module example.com/h --version v1.0.0 --mod h.mod --zip one | 0
    201 published
publish --db store.db --key P --module example.com/h --version v1.0.0 --mod h.mod --zip two | 0
    201 published
publish --db store.db --key C --module example.com/h --version v1.0.0 --mod h.mod --zip three | 0
    201 published
inventory --db store.db --key M | 0
    path,version,shelf,class,time,mod_bytes,zip_bytes
    example.com/g,v1.0.0,platform,release,2024-01-31T23:59:59Z,21,1
    example.com/h,v1.0.0,gamma,release,,21,1
inventory --db store.db --key D | 0
    path,version,shelf,class,time,mod_bytes,zip_bytes
    example.com/g,v1.0.0,platform,release,2024-01-31T23:59:59Z,21,1
    example.com/h,v1.0.0,platform,release,,21,2
inventory --db store.db --key R | 0
    path,version,shelf,class,time,mod_bytes,zip_bytes
    example.com/g,v1.0.0,platform,release,2024-01-31T23:59:59Z,21,1
    example.com/h,v1.0.0,platform,release,,21,2
inventory --db store.db --key A | 0
    path,version,shelf,class,time,mod_bytes,zip_bytes
    example.com/h,v1.0.0,common,release,,21,3
inventory --db store.db --key C | 0
    path,version,shelf,class,time,mod_bytes,zip_bytes
    example.com/h,v1.0.0,common,release,,21,3
requires --db store.db --key D --module example.com/g --version v1.0.0 | 0
requires --db store.db --key A --module example.com/g --version v1.0.0 | 1 not-found
key-revoke --db store.db --key P | 0
inventory --db store.db --key P | 1 no-key
catalog --db store.db --key P | 1 no-key
group-add --db new.db --group platform | 0
team-add --db new.db --team alpha --group platform | 0
"""

# who has keys; the digits are those of `printf %s KEY | sha256sum`, and the lines are in another order than their keys
WHO = """
key-list --db store.db | 0
shelf-list --db store.db | 0
    common common
team-add --db store.db --team alpha | 0
group-add --db store.db --group platform | 0
team-add --db store.db --team alpha-b --group platform | 0
team-add --db store.db --team gamma --group platform | 0
key-add --db store.db --shelf platform --key P | 0
key-add --db store.db --shelf common --key C --read-only | 0
key-add --db store.db --shelf alpha --key A | 0
key-add --db store.db --shelf alpha --key R --read-only | 0
key-add --db store.db --shelf alpha --key D | 0
key-add --db store.db --shelf gamma --key M | 0
key-add --db store.db --shelf gamma --key B | 0
key-revoke --db store.db --key B | 0
key-list --db store.db | 0
    alpha publish ccaaf6d99f2c8ac7 ccaaf6d99f2c8ac7d9c4a0277e323db4465bf5929f8262e063c9229ab93cb24c
    alpha publish d6d1ae514132c03b d6d1ae514132c03b800c5648676e1556516d717915979eedbc423e62ce1f5b4a
    alpha read c2fcda156efd8585 c2fcda156efd85851ad7847dc201fa716836a3ce7f801b07b9a1f6b6d3af2a2b
    common read 4ae6c4eb38bf8b54 4ae6c4eb38bf8b54e69fa8611175cb18511c462fe6c90fe7d155e24874de7795
    gamma publish 3e9e696676741f95 3e9e696676741f956c1e9bd68adec45f7b46a919e825345896a7238ec1455c2c
    platform publish 59349fdf37ea2a6b 59349fdf37ea2a6bf8c248d35e82ed40cb8551fb034a718f42e9f8abe8e0a0a0
shelf-list --db store.db | 0
    alpha team
    alpha-b team platform
    common common
    gamma team platform
    platform group
key-revoke --db store.db --fingerprint c2fcda156efd8585 | 0
key-revoke --db store.db --fingerprint c2fcda156efd8585 | 1 no-key
key-revoke --db store.db --fingerprint ccaaf6d99f2c8ac | 1 no-key
key-revoke --db store.db --fingerprint ccaaf6d99f2c8ac70 | 1 no-key
key-revoke --db store.db --fingerprint CCAAF6D99F2C8AC7 | 1 no-key
key-revoke --db store.db --fingerprint= | 1 no-key
key-revoke --db store.db --fingerprint ccaaf6d99f2c8ac7d9c4a0277e323db4465bf5929f8262e063c9229ab93cb24 | 1 no-key
key-revoke --db store.db --fingerprint ccaaf6d99f2c8ac7d9c4a0277e323db4465bf5929f8262e063c9229ab93cb24c0 | 1 no-key
key-revoke --db store.db --fingerprint CCAAF6D99F2C8AC7D9C4A0277E323DB4465BF5929F8262E063C9229AB93CB24C | 1 no-key
key-revoke --db store.db --fingerprint ccaaf6d99f2c8ac7000000000000000000000000000000000000000000000000 | 1 no-key
key-revoke --db store.db --fingerprint 0000000000000000000000000000000000000000000000000000000000000000 | 1 no-key
key-revoke --db store.db --fingerprint d9c4a0277e323db4 | 1 no-key
key-list --db store.db | 0
    alpha publish ccaaf6d99f2c8ac7 ccaaf6d99f2c8ac7d9c4a0277e323db4465bf5929f8262e063c9229ab93cb24c
    alpha publish d6d1ae514132c03b d6d1ae514132c03b800c5648676e1556516d717915979eedbc423e62ce1f5b4a
    common read 4ae6c4eb38bf8b54 4ae6c4eb38bf8b54e69fa8611175cb18511c462fe6c90fe7d155e24874de7795
    gamma publish 3e9e696676741f95 3e9e696676741f956c1e9bd68adec45f7b46a919e825345896a7238ec1455c2c
    platform publish 59349fdf37ea2a6b 59349fdf37ea2a6bf8c248d35e82ed40cb8551fb034a718f42e9f8abe8e0a0a0
inventory --db store.db --key R | 1 no-key
key-add --db store.db --shelf alpha --key R --read-only | 0
key-revoke --db store.db --fingerprint c2fcda156efd85851ad7847dc201fa716836a3ce7f801b07b9a1f6b6d3af2a2b | 0
key-revoke --db store.db --fingerprint c2fcda156efd85851ad7847dc201fa716836a3ce7f801b07b9a1f6b6d3af2a2b | 1 no-key
inventory --db store.db --key R | 1 no-key
key-revoke --db store.db --shelf nosuch --all | 1 no-team
key-revoke --db store.db --shelf beta --all | 1 no-team
key-revoke --db store.db --shelf alpha-b --all | 0
key-revoke --db store.db --shelf alpha --all | 0
key-revoke --db store.db --shelf alpha --all | 0
key-list --db store.db | 0
    common read 4ae6c4eb38bf8b54 4ae6c4eb38bf8b54e69fa8611175cb18511c462fe6c90fe7d155e24874de7795
    gamma publish 3e9e696676741f95 3e9e696676741f956c1e9bd68adec45f7b46a919e825345896a7238ec1455c2c
    platform publish 59349fdf37ea2a6b 59349fdf37ea2a6bf8c248d35e82ed40cb8551fb034a718f42e9f8abe8e0a0a0
key-add --db store.db --shelf alpha --key A | 0
inventory --db store.db --key A | 0
    path,version,shelf,class,time,mod_bytes,zip_bytes
"""
STORIES = {
    "a group": read_runs(GROUPS + REFUSED_GROUPS + GROUP_KEYS),
    "who has keys": read_runs("init --db store.db | 0\n" + WHO),
    "teams, groups and keys": read_runs(REGISTRY),
}
REFUSED = read_runs(REFUSED_GROUPS)
FILES_OF_A_STORE = ("store.db", "store.db-wal")
NEW_KEY = "key-add --db store.db --shelf alpha --new".split()


@pytest.fixture(scope="module")
def stories() -> Iterator[dict[str, Story]]:
    with contextlib.ExitStack() as folders:
        yield {name: folders.enter_context(begun(runs, GROUP_FILES)) for name, runs in STORIES.items()}


@pytest.mark.parametrize(**number_stories(STORIES))
def test_run(stories: dict[str, Story], story: str, number: int) -> None:
    stories[story].check(number)


@pytest.fixture(scope="module")
def store_with_a_group() -> Iterator[list[bytes]]:
    """The bytes of a store in the folder of the test, on which the refused runs are made."""
    with entered_folder():
        for made in read_runs(GROUPS):
            assert run(list(made.words)) == made.wanted
        yield [read(name) for name in FILES_OF_A_STORE]


@pytest.mark.parametrize("refused", REFUSED, ids=str)
def test_refused_run_changes_nothing(store_with_a_group: list[bytes], refused: Run) -> None:
    assert run(list(refused.words)) == refused.wanted
    assert [read(name) for name in FILES_OF_A_STORE] == store_with_a_group


@pytest.mark.parametrize("command", ["key-list", "shelf-list"])
def test_list_changes_nothing(folder: str, command: str) -> None:
    done("init", "--db", "store.db")
    before = [read(name) for name in FILES_OF_A_STORE]
    assert run([command, "--db", "store.db"])[0] == 0
    assert [read(name) for name in FILES_OF_A_STORE] == before


class Made(NamedTuple):
    """Keys that `key-add --new` made for one store: how each run ended, one that only reads, and the list of all."""

    endings: list[Ending]
    reader: str
    listed: Ending

    @property
    def keys(self) -> list[str]:
        return [output.decode() for _, output, _ in self.endings]


class TestMadeKeys:
    """`--new` adds a key that no other run adds, and prints it."""

    @pytest.fixture(scope="class")
    def made(self, class_folder: str) -> Made:
        done("init", "--db", "store.db")
        done("team-add", "--db", "store.db", "--team", "alpha")
        endings = [run(NEW_KEY) for _ in range(40)]
        reader = run([*NEW_KEY, "--read-only"])[1].decode().strip()
        return Made(endings, reader, run("key-list --db store.db".split()))

    @pytest.mark.parametrize("number", range(40), ids=lambda number: f"{number + 1} of 40")
    def test_run_ends_well(self, made: Made, number: int) -> None:
        status, _, errors = made.endings[number]
        assert (status, errors) == (0, "")

    def test_each_key_has_26_characters(self, made: Made) -> None:
        assert [key for key in made.keys if not re.fullmatch(r"[a-z0-9]{26}\n", key)] == []

    def test_none_comes_twice(self, made: Made) -> None:
        assert len(set(made.keys)) == 40

    def test_each_of_the_36_characters_comes(self, made: Made) -> None:
        assert len(set("".join(made.keys)) - {"\n"}) == 36

    def test_key_list_has_them(self, made: Made) -> None:
        rights = {**{key.strip(): "publish" for key in made.keys}, made.reader: "read"}
        sums = {key: hashlib.sha256(key.encode()).hexdigest() for key in rights}
        lines = sorted(f"alpha {right} {sums[key][:16]} {sums[key]}\n" for key, right in rights.items())
        assert made.listed == (0, "".join(lines).encode(), "")

    def test_made_key_reads(self, made: Made) -> None:
        assert run(["inventory", "--db", "store.db", "--key", made.reader])[0] == 0

    def test_no_key_is_made_for_no_shelf(self, made: Made) -> None:
        assert run("key-add --db store.db --shelf nosuch --new".split()) == refusal("no-team")

    def test_key_that_cannot_be_printed_is_not_added(self, made: Made) -> None:
        with open("/dev/full", "wb") as full:
            ran = subprocess.run([PROGRAM, *NEW_KEY], stdout=full, stderr=subprocess.PIPE, timeout=120)
        assert (ran.returncode, ran.stderr) == (1, b"goshelf: io\n")
        assert run("key-list --db store.db".split()) == made.listed
