"""The picture of a measurement: for each table and command a bar, as long as the time of `polytwkb` over that of the plain program.

    picture.py USERS.JSON > users.svg
"""
import json
import sys
from html import escape

COLOURS = {"pack": "#0072b2", "unpack": "#e69f00", "show": "#009e73"}
LABELS = 190
BARS = 480
BAR = 13
GAP = 16
TOP = 72
STEPS = (0.25, 0.5, 1, 2, 5, 10, 20, 50)


def step_of(most):
    """The distance of two lines of the scale: not more than six of them."""
    return next((step for step in STEPS if most / step <= 6), most)


def text(x, y, words, anchor="start", size=12, weight="normal"):
    place = f'x="{x:.1f}" y="{y:.1f}" text-anchor="{anchor}"'
    look = f'font-size="{size}" font-weight="{weight}" paint-order="stroke" stroke="#ffffff" stroke-width="3"'
    return f"<text {place} {look}>{escape(words)}</text>"


def legend():
    parts = []
    for place, (word, colour) in enumerate(COLOURS.items()):
        x = LABELS + 90 * place
        parts.append(f'<rect x="{x}" y="30" width="12" height="12" fill="{colour}"/>')
        parts.append(text(x + 17, 40, word))
    return parts


def scale(most, bottom):
    """Lines down the picture, and the line of the plain program."""
    parts, step = [], step_of(most)
    for place in range(int(most / step) + 1):
        x = LABELS + BARS * place * step / most
        parts.append(f'<line x1="{x:.1f}" y1="{TOP - 8}" x2="{x:.1f}" y2="{bottom}" stroke="#dddddd"/>')
        parts.append(text(x, bottom + 15, f"{place * step:g}", "middle"))
    x = LABELS + BARS / most
    parts.append(
        f'<line x1="{x:.1f}" y1="{TOP - 8}" x2="{x:.1f}" y2="{bottom}" stroke="#333333" stroke-dasharray="4 3"/>'
    )
    parts.append(text(x, TOP - 11, "plain program", "middle", 11))
    return parts


def picture(rows):
    cases = list(dict.fromkeys(row["case"] for row in rows))
    most = max([1.2] + [1.05 * row["ratio"] for row in rows])
    high = len(COLOURS) * BAR
    bottom = TOP + len(cases) * (high + GAP)
    width, height = LABELS + BARS + 60, bottom + 28
    parts = [
        f'<svg xmlns="http://www.w3.org/2000/svg" viewBox="0 0 {width} {height}" width="{width}" height="{height}" '
        'font-family="sans-serif" fill="#222222">',
        f'<rect width="{width}" height="{height}" fill="#ffffff"/>',
        text(10, 20, "Time of polytwkb over that of a plain Rust program: shorter is faster", weight="bold", size=14),
    ]
    parts += legend() + scale(most, bottom)
    for row in rows:
        y = TOP + cases.index(row["case"]) * (high + GAP) + list(COLOURS).index(row["command"]) * BAR
        length = BARS * row["ratio"] / most
        parts.append(
            f'<rect x="{LABELS}" y="{y}" width="{length:.1f}" height="{BAR - 2}" fill="{COLOURS[row["command"]]}"/>'
        )
        parts.append(text(LABELS + length + 4, y + BAR - 3, f"{row['ratio']:.2f}", size=11))
    for place, case in enumerate(cases):
        parts.append(text(LABELS - 8, TOP + place * (high + GAP) + high / 2 + 4, case, "end"))
    return "\n".join(parts + ["</svg>"]) + "\n"


if __name__ == "__main__":
    with open(sys.argv[1], encoding="utf-8") as file:
        sys.stdout.write(picture(json.load(file)["rows"]))
