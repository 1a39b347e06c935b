"""A plot of latencies as an SVG file."""

import math

COLOURS = ("#1b6ca8", "#c44536", "#3a7d44", "#8e5ea2", "#d98e04", "#4d4d4d", "#12a4a4", "#a6611a")
LEFT, TOP, WIDTH, HEIGHT = 70, 30, 620, 360
# shares of the answers, and how a label writes them
SHARES = ((0, "0"), (0.5, "50 %"), (0.9, "90 %"), (0.99, "99 %"), (0.999, "99.9 %"), (0.9999, "99.99 %"))
NINES = 4
Point = tuple[float, float]


def across(share: float) -> float:
    """Where a share of the answers stands: each nine is as wide as the one before."""
    return LEFT + WIDTH * min(NINES, -math.log10(max(1 - share, 10**-NINES))) / NINES


class Scale:
    """Milliseconds from top to bottom, on a scale of powers of ten."""

    def __init__(self, least: float, most: float) -> None:
        self.low, self.high = math.floor(math.log10(max(least, 0.001))), math.ceil(math.log10(max(most, 0.01)))

    def up(self, millis: float) -> float:
        part = (math.log10(max(millis, 0.001)) - self.low) / max(1, self.high - self.low)
        return TOP + HEIGHT * (1 - part)


def text(x: float, y: float, words: str, more: str = "") -> str:
    return f'<text x="{x:.1f}" y="{y:.1f}" {more}>{words}</text>'


def line(points: list[Point], colour: str, width: float = 1.5) -> str:
    return (
        f'<polyline fill="none" stroke="{colour}" stroke-width="{width}"'
        f' points="{" ".join(f"{x:.1f},{y:.1f}" for x, y in points)}"/>'
    )


def axes(scale: Scale) -> list[str]:
    parts = []
    for share, label in SHARES:
        x = across(share)
        parts += [
            line([(x, TOP), (x, TOP + HEIGHT)], "#ddd", 1),
            text(x, TOP + HEIGHT + 18, label, 'text-anchor="middle"'),
        ]
    for power in range(scale.low, scale.high + 1):
        y = scale.up(10**power)
        parts += [
            line([(LEFT, y), (LEFT + WIDTH, y)], "#ddd", 1),
            text(LEFT - 8, y + 4, f"{10**power:g} ms", 'text-anchor="end"'),
        ]
    return parts


def curve(latencies: list[float], scale: Scale) -> list[Point]:
    """A point for each share of the answers, more closely where fewer are slower."""
    shares = [1 - 10 ** (-NINES * step / 200) for step in range(201)]
    last = len(latencies) - 1
    return [(across(share), scale.up(latencies[min(last, int(share * len(latencies)))])) for share in shares]


def plot(rows: list[tuple[str, list[float]]]) -> str:
    """The SVG of rows: a name, and latencies in milliseconds in order."""
    scale = Scale(min(latencies[0] for _, latencies in rows), max(latencies[-1] for _, latencies in rows))
    parts = [text(LEFT, 18, "Share of the answers that came within so many milliseconds"), *axes(scale)]
    for place, (name, latencies) in enumerate(rows):
        colour = COLOURS[place % len(COLOURS)]
        parts += [
            line(curve(latencies, scale), colour),
            text(LEFT + WIDTH + 12, TOP + 14 + 18 * place, name, f'fill="{colour}"'),
        ]
    size = f'width="{LEFT + WIDTH + 150}" height="{TOP + HEIGHT + 40}"'
    return (
        f'<svg xmlns="http://www.w3.org/2000/svg" {size} font-family="sans-serif" font-size="12">\n<rect width="100%"'
        ' height="100%" fill="#fff"/>\n' + "\n".join(parts) + "\n</svg>\n"
    )
