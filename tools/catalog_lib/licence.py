"""Which licence a file has: by the words of a well-known text, or by its SPDX line."""
import re

SPDX = re.compile(r"^[\s/*#]{0,8}SPDX-License-Identifier:[ \t]*([A-Za-z0-9.+() -]{1,80}?)[ \t]*$", re.MULTILINE)
FILE = re.compile(r"(?i)(licen[cs]e|copying|unlicense)(\.(md|txt|rst))?|(licen[cs]e|copying)-[a-z0-9.-]{1,20}")
GRANT = "permission is hereby granted free of charge to any person obtaining a copy of this software"
SOURCE_AND_BINARY = "redistribution and use in source and binary forms with or without modification are permitted"
ISC = "permission to use copy modify and or distribute this software for any purpose with or without fee is hereby"
NOTICE = "provided that the above copyright notice and this permission notice appear in all copies"
NAME = "endorse or promote products derived from this software without specific prior written permission"
# Each licence, the words that its text has, those that it has not, and how many words it has at most. A text that has
# more may have terms of its own.
TEXTS = (
    ("MIT", (GRANT, "the software is provided as is"), ("boost",), 260),
    ("BSD-2-Clause", (SOURCE_AND_BINARY, "this list of conditions"), (NAME, "all advertising materials"), 330),
    ("BSD-3-Clause", (SOURCE_AND_BINARY, "this list of conditions", NAME), ("all advertising materials",), 360),
    ("ISC", (ISC, NOTICE), (), 220),
    ("0BSD", (ISC,), (NOTICE,), 200),
    ("BSL-1.0", ("boost software license version 1 0",), (), 330),
    ("Unlicense", ("this is free and unencumbered software released into the public domain",), (), 330),
    ("Apache-2.0", ("apache license version 2 0 january 2004", "grant of patent license"), (), 2_000),
    ("MPL-2.0", ("mozilla public license version 2 0", "covered software"), (), 3_200),
    ("CC0-1.0", ("cc0 1 0 universal",), (), 1_400),
    ("EPL-2.0", ("eclipse public license v 2 0",), (), 3_000),
    ("EUPL-1.2", ("european union public licence v 1 2",), (), 3_000),
    ("GPL-2.0", ("gnu general public license version 2 june 1991",), (), 3_800),
    ("GPL-3.0", ("gnu general public license version 3 29 june 2007",), (), 7_000),
    ("LGPL-2.1", ("gnu lesser general public license version 2 1 february 1999",), (), 5_500),
    ("LGPL-3.0", ("gnu lesser general public license version 3 29 june 2007",), (), 1_800),
    ("AGPL-3.0", ("gnu affero general public license version 3 19 november 2007",), (), 7_000),
)


def name_of(text):
    """The SPDX name of the licence of a text, or None if it is none of the well-known ones, or several."""
    if found := SPDX.search(text):
        return found[1]
    words = re.findall(r"[a-z0-9]+", text.lower())
    joined = f" {' '.join(words)} "
    names = [
        name
        for name, needed, barred, most in TEXTS
        if len(words) <= most
        and all(f" {it} " in joined for it in needed)
        and not any(f" {it} " in joined for it in barred)
    ]
    return names[0] if len(names) == 1 else None
