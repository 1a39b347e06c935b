"""Names of the rows of tables, as pytest prints them."""

import shlex
from collections.abc import Iterable

# characters of a value in a name
MOST = 60


def name_value(value: object) -> str:
    """Returns a readable name of words, text or bytes. A long one is cut, and its length follows."""
    if isinstance(value, (list, tuple)):
        return " ".join(shlex.quote(cut(word)) for word in value)
    return cut(value) or "nothing"


def cut(value: object) -> str:
    # (pytest escapes what is not ASCII)
    text = value.decode("latin-1") if isinstance(value, bytes) else str(value)
    return f"{text[:MOST]}.. of {len(text)}" if len(text) > MOST else text


def name_values(values: Iterable[object]) -> list[str]:
    """Returns the names of the values of a table, for `ids` of `parametrize`."""
    return [name_value(value) for value in values]
