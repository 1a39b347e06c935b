"""The texts of modules, which anybody may have written: what of them is shown, and how long it may be."""
import re

# what would hide or reorder what stands beside it: controls, marks of direction, and letters that show nothing.
# (joiners are left: words and emoji have them)
UNSEEN = re.compile(
    "[\x00-\x08\x0b-\x1f\x7f-\x9f\xad\u061c\u180e\u200b\u200e\u200f\u2028-\u202e\u2060-\u206f\ufeff\ufff9-\ufffb"
    "\ufffe\uffff\ud800-\udfff\U000e0000-\U000e0fff]"
)
# words that say little, since most READMEs have them
COMMON = frozenset(
    """a about above add after all also always an and another any are as at back be because been before being below
    between both but by call can cannot case com could current default different do does done don each either else
    even every example examples file files first following for from get github go golang had has have here how http
    https if import in install into is it its just last like line lines list ll made make makes many may might module
    more most must name need needed needs new next no not now of off on once one only or org other our out over
    package packages part please possible read readme same see set should simple since so some source such sure take
    than that the their them then there these they this those three through time to too two type under until up us
    use used useful user uses using value values version very via want was way we well were what when where whether
    which while who why will with within without work works would www you your""".split()
)


def clean(content, most):
    """The text of a file, at most `most` bytes of it, in which each letter that shows nothing is seen by its number."""
    text = content[:most].decode("utf-8", "replace").removeprefix("\ufeff")
    if len(content) > most:
        # (the last letter may have been cut)
        text = text.removesuffix("\ufffd")
    return seen(text.replace("\r\n", "\n").replace("\r", "\n").expandtabs(4))


def seen(text):
    """A text in which each letter that shows nothing is seen by its number."""
    return UNSEEN.sub(lambda it: f"[U+{ord(it[0]):04X}]", text)


def shortened(text, most):
    """A text of one line of at most `most` letters."""
    return text if len(text) <= most else text[: most - 1].rstrip() + "…"
