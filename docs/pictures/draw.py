"""Draws the two pictures of ARCHITECTURE.md, layers.svg and request.svg, next to this script.

    python3 docs/pictures/draw.py           writes both
    python3 docs/pictures/draw.py --text    prints the layers as text

The groups of crates are the headings of crates.txt; its lines say what stands on what.
Standard library alone.
"""

import sys
from dataclasses import dataclass
from pathlib import Path
from xml.sax.saxutils import escape

HERE = Path(__file__).resolve().parent
TOP = HERE.parents[1]
INK, LINE, PAPER = "#1b2733", "#5b6b7a", "#ffffff"
BLUE, GREEN, SAND, GREY = "#dce8f5", "#dff0e0", "#f6ecd6", "#eceff2"


@dataclass(frozen=True)
class Place:
    """Where a group's box is, its colour, and what it says below its heading."""

    left: int
    top: int
    width: int
    height: int
    fill: str
    says: str


# The boxes of the layers, by their headings in crates.txt.
PLACES = {
    "Words and values": Place(
        40, 694, 920, 60, GREY, "cents, days, names, posts, replies; an account's history",
    ),
    "Definitions": Place(
        40, 589, 600, 60, SAND, "what the ledger is: the model, its laws, its bounds",
    ),
    "What an account has": Place(
        40, 484, 600, 60, BLUE, "balances, posts, rates, payments counted, fees",
    ),
    "Reasons and deadlines": Place(40, 335, 250, 104, BLUE, "why a post isn't accepted; tasks"),
    "The fold": Place(320, 335, 320, 104, BLUE, "an account reckoned day by day"),
    "The outside": Place(700, 335, 260, 104, GREEN, "input, output, rows, connections"),
    "The machine": Place(40, 230, 450, 60, BLUE, "one request, one reply, one row"),
    "Texts and formats": Place(520, 230, 440, 60, GREEN, "lines, CSV, JSON, HTTP, statements"),
    "Commands": Place(40, 125, 920, 60, GREEN, "what a call of the program does"),
    "Laws, worked values, tests": Place(40, 20, 920, 60, SAND, "nothing stands on these"),
}


def groups_of(text: str) -> dict[str, list[str]]:
    """The crates below each heading of crates.txt; its first line is no heading."""
    groups: dict[str, list[str]] = {}
    heading = ""
    for line in text.splitlines()[1:]:
        if line.startswith("# "):
            heading = line[2:]
            groups[heading] = []
        elif line:
            groups[heading].append(line.split(":")[0])
    return groups


def uses_of(text: str) -> dict[str, list[str]]:
    """What each crate stands on, by its line of crates.txt."""
    lines = [line for line in text.splitlines() if line and not line.startswith("#")]
    return {line.split(":")[0]: line.split(":")[1].split() for line in lines}


def below(text: str) -> dict[str, set[str]]:
    """For each group all others that one of its crates stands on."""
    groups, uses = groups_of(text), uses_of(text)
    home = {crate: heading for heading, crates in groups.items() for crate in crates}
    found: dict[str, set[str]] = {}
    for heading, crates in groups.items():
        used = {home[other] for crate in crates for other in uses[crate] if other in home}
        found[heading] = used - {heading}
    return found


def arrows(text: str) -> list[tuple[str, str]]:
    """An arrow for each group that another one stands on, except through a third one."""
    direct = below(text)

    def reaches(start: str, end: str) -> bool:
        return any(one == end or reaches(one, end) for one in direct[start])

    return [
        (upper, lower)
        for upper, others in direct.items()
        for lower in sorted(others)
        if not any(other != lower and reaches(other, lower) for other in others)
    ]


def words(left: float, top: float, text: str, size: int = 14, weight: str = "normal",
          family: str = "sans-serif", anchor: str = "start") -> str:
    return (f'<text x="{left:g}" y="{top:g}" font-family="{family}" font-size="{size}" '
            f'font-weight="{weight}" text-anchor="{anchor}" fill="{INK}">{escape(text)}</text>')


def box(left: float, top: float, width: float, height: float, fill: str) -> str:
    return (f'<rect x="{left:g}" y="{top:g}" width="{width:g}" height="{height:g}" rx="6" '
            f'fill="{fill}" stroke="{LINE}"/>')


def arrow(start: tuple[float, float], end: tuple[float, float]) -> str:
    return (f'<line x1="{start[0]:g}" y1="{start[1]:g}" x2="{end[0]:g}" y2="{end[1]:g}" '
            f'stroke="{LINE}" stroke-width="1.6" marker-end="url(#head)"/>')


def picture(width: int, height: int, title: str, parts: list[str]) -> str:
    """A whole SVG file."""
    head = (f'<svg xmlns="http://www.w3.org/2000/svg" width="{width}" height="{height}" '
            f'viewBox="0 0 {width} {height}" role="img">')
    marker = ('<defs><marker id="head" viewBox="0 0 10 10" refX="9" refY="5" markerWidth="8" '
              'markerHeight="8" orient="auto">'
              f'<path d="M0 0L10 5L0 10z" fill="{LINE}"/></marker></defs>')
    paper = f'<rect width="{width}" height="{height}" fill="{PAPER}"/>'
    name = f"<title>{escape(title)}</title>"
    return "\n".join([head, name, marker, paper, *parts, "</svg>"]) + "\n"


def rows_of(crates: list[str], width: int) -> list[str]:
    """The names of crates in lines that fit a box."""
    rows = [""]
    for crate in crates:
        longer = f"{rows[-1]} {crate}".strip()
        if len(longer) * 7.9 > width - 24:
            rows.append(crate)
        else:
            rows[-1] = longer
    return rows


def group_box(heading: str, crates: list[str]) -> list[str]:
    place = PLACES[heading]
    parts = [box(place.left, place.top, place.width, place.height, place.fill)]
    wide = place.width > 400
    parts.append(words(place.left + 12, place.top + 22, heading, 15, "bold"))
    if wide:
        parts.append(words(place.left + place.width - 12, place.top + 22, place.says, 13,
                           anchor="end"))
    else:
        parts.append(words(place.left + 12, place.top + 41, place.says, 13))
    first = place.top + (45 if wide else 60)
    for number, row in enumerate(rows_of(crates, place.width)):
        parts.append(words(place.left + 12, first + 17 * number, row, 13, family="monospace"))
    return parts


def ends(upper: str, lower: str) -> tuple[tuple[float, float], tuple[float, float]]:
    """Where an arrow begins and ends: straight down if the boxes allow it."""
    above, under = PLACES[upper], PLACES[lower]
    left = max(above.left, under.left)
    right = min(above.left + above.width, under.left + under.width)
    if right > left:
        middle = (left + right) / 2
        return (middle, above.top + above.height), (middle, under.top - 2)
    start = above.left + above.width - 40 if under.left > above.left else above.left + 40
    end = under.left + 40 if under.left > above.left else under.left + under.width - 40
    return (start, above.top + above.height), (end, under.top - 2)


def layers(text: str) -> str:
    """The groups of crates, and what stands on what."""
    parts = [arrow(*ends(upper, lower)) for upper, lower in arrows(text)]
    for heading, crates in groups_of(text).items():
        parts += group_box(heading, crates)
    title = "The crates of billctl in ten groups, and what stands on what"
    return picture(1000, 774, title, parts)


def layers_text(text: str) -> str:
    """The same for a terminal: each group with its crates and the groups it stands on."""
    groups = groups_of(text)
    number = {heading: place for place, heading in enumerate(groups, start=1)}
    lower = {heading: [number[end] for start, end in arrows(text) if start == heading]
             for heading in groups}
    lines = []
    for heading, crates in reversed(list(groups.items())):
        on = ", ".join(map(str, sorted(lower[heading], reverse=True)))
        lines.append(f"{number[heading]:2}  {heading}" + (f" (on {on})" if on else ""))
        lines += [f"      {row}" for row in rows_of(crates, 640)]
    return "\n".join(lines) + "\n"


# The life of a post: what happens, which crate does it, and a word on it.
STEPS = (
    ("line", "card_lines", "bytes become a request"),
    ("judge", "card_account", "repeat, refusal or new"),
    ("prepare", "card_account", "all memory it may need"),
    ("row", "card_desk", "kept, on the disk"),
    ("commit", "card_account", "no allocation, no failure"),
    ("reply", "card_lines", "ok, no or bad"),
)

AFTER = ("A failure before the row changes nothing. "
         "After it only a commit that several rows share can fail.")
LATER = "The account is folded later, at the next question"
BACK = "commit takes the Book back: to the closing before the changed day's cycle,"
FORTH = "a question folds forward to today, closing by closing"

# The fold below it: places on the line of days.
DAYS = (
    (130, "opening", ""),
    (330, "closing", "mark"),
    (530, "closing", "mark"),
    (700, "eve", "the day reached before"),
    (870, "today", "the Book"),
)


def step_boxes() -> list[str]:
    parts = []
    for place, (name, crate, says) in enumerate(STEPS):
        left = 30 + 158 * place
        parts.append(box(left, 60, 140, 84, GREEN if name in ("line", "row", "reply") else BLUE))
        parts.append(words(left + 70, 84, name, 16, "bold", anchor="middle"))
        parts.append(words(left + 70, 106, crate, 13, family="monospace", anchor="middle"))
        parts.append(words(left + 70, 129, says, 11, anchor="middle"))
        if place:
            parts.append(arrow((left - 18, 102), (left - 2, 102)))
    return parts


def day_line() -> list[str]:
    level = 400
    parts = [arrow((60, level), (950, level)), words(955, level + 22, "days", 13, anchor="end")]
    for left, name, says in DAYS:
        parts.append(f'<circle cx="{left}" cy="{level}" r="6" fill="{LINE}"/>')
        parts.append(words(left, level + 26, name, 14, "bold", anchor="middle"))
        if says:
            parts.append(words(left, level + 45, says, 12, anchor="middle"))
    return parts


def bow(path: str) -> str:
    return (f'<path d="{path}" fill="none" stroke="{LINE}" stroke-width="1.6" '
            'stroke-dasharray="5 4" marker-end="url(#head)"/>')


def fold_arrows() -> list[str]:
    """What a post and a question do to the Book."""
    parts = [bow("M870 388 C 820 290, 400 290, 334 388"),
             bow("M866 388 C 840 346, 740 346, 706 388")]
    parts.append(words(445, 372, "x", 15, "bold", anchor="middle"))
    parts.append(words(445, 391, "changed day", 12, anchor="middle"))
    parts.append(words(600, 302, BACK, 13, anchor="middle"))
    parts.append(words(786, 380, "or to the eve", 12, anchor="middle"))
    forth = f'<path d="M330 456 L 330 480 L 870 480" fill="none" stroke="{LINE}"/>'
    parts += [forth, arrow((870, 480), (870, 454))]
    parts.append(words(600, 502, FORTH, 13, anchor="middle"))
    return parts


def request() -> str:
    """The life of a post, and the fold that the next question makes."""
    parts = [words(30, 38, "A post is answered", 17, "bold")] + step_boxes()
    parts.append(words(30, 176, AFTER, 13))
    parts.append(words(30, 250, LATER, 17, "bold"))
    parts += day_line() + fold_arrows()
    return picture(1000, 530, "The life of a post, and the fold below it", parts)


def main(arguments: list[str]) -> None:
    text = (TOP / "crates.txt").read_text(encoding="utf-8")
    if arguments == ["--text"]:
        print(layers_text(text), end="")
        return
    (HERE / "layers.svg").write_text(layers(text), encoding="utf-8")
    (HERE / "request.svg").write_text(request(), encoding="utf-8")


if __name__ == "__main__":
    main(sys.argv[1:])
