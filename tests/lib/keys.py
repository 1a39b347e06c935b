"""The keys and the shelves of the worked rows."""

KEY = "alphakey00000001"
# by letter: alpha's key, one that only reads there, beta's, that of `common`, one that no shelf has, and those of the
# group platform and of its teams gamma and delta
KEYS: dict[str, str] = {
    "A": KEY, "R": "alphareader00001", "B": "betakey000000001", "C": "commonkey0000001", "N": "nosuchkey0000001",
    "P": "platformkey00001", "M": "gammakey00000001", "D": "deltakey00000001",
}  # fmt: skip
# shelves as `add_shelf` of lib/stores.py takes them, and a group with its teams
SHELVES: tuple[tuple[str, ...], ...] = (("beta", KEYS["B"]), ("alpha", KEYS["A"], KEYS["R"]), ("common", KEYS["C"]))
PLATFORM = ("platform", KEYS["P"])
MEMBERS = (("gamma", KEYS["M"], "", "platform"), ("delta", KEYS["D"], "", "platform"))
# the words of `answer` for shelves in memory
MEMORY = ["--mem", "--team", "alpha", "--key", KEY]
