"""Prints what users of the front put into ~/.netrc and GOPROXY: the name of nginx's host, and the URLs of the proxies.

usage: python3 -I front_words.py
"""

import re
import sys
from collections.abc import Sequence

sys.dont_write_bytecode = True
sys.path.insert(0, "/usr/share/goshelf/deploy")

from front_lib import nginx  # noqa: E402
from front_lib.files import Refused  # noqa: E402
from words import take  # noqa: E402

# what the line of goshelf.conf says by the second way of docs/NGINX.md, in which users ask the public proxy themselves
SECOND = re.compile(r"^js_var \$goshelf_others nowhere;", re.M)


def main(words: Sequence[str]) -> int:
    take(__doc__, words)
    try:
        host, is_second = nginx.host(), SECOND.search(nginx.conf())
    except Refused as why:
        print(why, file=sys.stderr)
        return 1
    print(host, f"https://{host}" + (",https://proxy.golang.org,direct" if is_second else ""))
    return 0


if __name__ == "__main__":
    sys.exit(main(sys.argv[1:]))
