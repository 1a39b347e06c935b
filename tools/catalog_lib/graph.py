"""The graph of a module's direct users, as SVG."""
from catalog_lib.markup import html, module_folder

# with as many users or more there is no graph
MOST = 40
# lengths in the SVG's own unit: of the boxes, of all, and of a letter
BOX, GAP, LEFT, RIGHT = 34, 10, 540, 360
WIDTH, MARGIN, LETTER = 1040, 1, 7.3


def shortened(words, room):
    """A text that fits into a room, with its middle left out."""
    letters = int(room / LETTER)
    half = letters // 2
    return words if len(words) <= letters else f"{words[: letters - half - 1]}…{words[-half:]}"


def text(kind, x, y, words):
    return html('<text class="{}" x="{}" y="{}">{}</text>', kind, x, f"{y:g}", words)


def box(place, path, below, x, y, width, kind):
    """A box with a module's path and a line below it, which leads to the module's page."""
    link = html('<a href="{}m/{}/" tabindex="-1"><g class="box {}">', place.root, module_folder(path), kind)
    frame = html('<rect x="{}" y="{}" width="{}" height="{}" rx="6"/>', x, f"{y:g}", width, BOX)
    first = text("path", x + 10, y + 14, shortened(path, width - 20))
    second = text("below", x + 10, y + 27, shortened(below, width - 20))
    return html("{}<title>{}</title>{}{}{}</g></a>\n", link, path, frame, first, second)


def edge(y, middle, kind):
    """A curve from the box of a user to that of the module."""
    start, end = LEFT + MARGIN, WIDTH - RIGHT - MARGIN
    bend = (start + end) // 2
    curve = f"M{start} {y:g}C{bend} {y:g} {bend} {middle:g} {end - 7} {middle:g}"
    return html('<path class="edge {}" d="{}"/>\n', kind, curve)


def head(x, y):
    """The head of the arrow, which all edges share."""
    return html('<path class="arrow" d="{}"/>\n', f"M{x - 8} {y - 5:g}L{x} {y:g}L{x - 8} {y + 5:g}z")


def graph(place, module, users):
    """The graph: `users` has the path, the version, what it requires, and the state of that, of each user."""
    height = len(users) * (BOX + GAP) - GAP + 2 * MARGIN
    middle, end = height / 2, WIDTH - RIGHT - MARGIN
    edges, boxes = [], []
    for at, (path, version, required, state) in enumerate(users):
        top = MARGIN + at * (BOX + GAP)
        edges.append(edge(top + BOX / 2, middle, state))
        boxes.append(box(place, path, f"{version} requires {required}", MARGIN, top, LEFT, state))
    own = box(place, module.path, f"latest {module.latest or 'version: none'}", end, middle - BOX / 2, RIGHT, "own")
    label = f"A graph of the modules that require {module.path}. The table below has the same."
    size = html('viewBox="0 0 {} {}" width="{}" height="{}"', WIDTH, height, WIDTH, height)
    svg = html('<svg {} role="img" aria-label="{}">\n', size, label)
    return html('<div class="wide graph">{}{}{}{}{}</svg></div>\n', svg, edges, head(end, middle), boxes, own)
