"""The balances of a cycle day by day, as a picture and as a table."""

from html import escape
from typing import NamedTuple

from ..days import cycle_of, day_text, due
from ..money import money_text
from .derivation import Derivation

WIDTH, HEIGHT = 420, 230
LEFT, RIGHT, TOP, BOTTOM = 72, 12, 30, 36
COLOURS = ("#1b4f9c", "#b3471c", "#2b7a3d", "#7a2b86", "#8a6d00", "#00707a")
DASHES = ("", "6 3", "2 3", "8 3 2 3", "1 2", "10 4")
_EVENTS = {"payment": "payment", "credit": "credit", "return": "return", "fee": "fee",
           "charge": "charge", "refund": "refund"}


class Day(NamedTuple):
    """A day of the cycle: the balance of each segment at its end, and what happened."""
    day: int
    balances: dict[str, int]
    events: list[str]
    marks: list[str]


def days_of(derivation: Derivation, k: int) -> list[Day]:
    """The days of cycle k."""
    book, cycle = derivation.book, derivation.book.cycle(k)
    used = [s for s in book.segments
            if any(book.balance_at(s.number, d) for d in range(cycle.first, cycle.closing + 1))]
    last_due = due(book.anchor, k - 1)
    found = []
    for day in range(cycle.first, cycle.closing + 1):
        entries = [e for e in book.entries if e.day == day]
        sums: dict[tuple[str, int], int] = {}
        for e in entries:
            if e.kind in _EVENTS:
                sums[e.kind, e.post] = sums.get((e.kind, e.post), 0) + e.cents
        events = [f"{kind}{f' (post {post})' if post else ''} {money_text(cents)}"
                  for (kind, post), cents in sums.items()]
        marks = sorted({kind for kind, _ in sums if kind in ("payment", "credit", "fee")})
        if day == last_due:
            events.append(f"due date of statement {cycle_of(book.anchor, day) - 1}")
            marks.append("due")
        if day == cycle.closing:
            events.append(f"closing, interest {money_text(sum(cycle.interest.values()))}")
        found.append(Day(day, {s.name: book.balance_at(s.number, day) for s in used}, events,
                         marks))
    return found


class Scale:
    """Days and cents as places of the picture."""

    def __init__(self, days: list[Day]) -> None:
        self.first, self.count = days[0].day, len(days)
        values = [v for d in days for v in d.balances.values()] + [0]
        self.low, self.high = min(values), max([*values, 100])

    def x(self, day: int) -> float:
        return LEFT + (day - self.first) * (WIDTH - LEFT - RIGHT) / self.count

    def y(self, cents: int) -> float:
        part = (cents - self.low) / (self.high - self.low)
        return HEIGHT - BOTTOM - part * (HEIGHT - TOP - BOTTOM)


def _line(x1: float, y1: float, x2: float, y2: float, kind: str) -> str:
    return (f'<line class="{kind}" x1="{x1:.1f}" y1="{y1:.1f}" x2="{x2:.1f}" y2="{y2:.1f}"/>')


def _label(x: float, y: float, text: str, anchor: str = "middle") -> str:
    return f'<text x="{x:.1f}" y="{y:.1f}" text-anchor="{anchor}">{escape(text)}</text>'


def _steps(scale: Scale, days: list[Day], name: str, place: int) -> str:
    """The balance of a segment as steps."""
    points = []
    for d in days:
        y = scale.y(d.balances[name])
        points += [f"{scale.x(d.day):.1f},{y:.1f}", f"{scale.x(d.day + 1):.1f},{y:.1f}"]
    colour, dash = COLOURS[place % len(COLOURS)], DASHES[place % len(DASHES)]
    return (f'<polyline fill="none" stroke="{colour}" stroke-width="1.6" stroke-dasharray="{dash}" '
            f'points="{" ".join(points)}"/>')


def _marks(scale: Scale, days: list[Day]) -> list[str]:
    """Due date, closing, payments and fees."""
    out, floor = [], HEIGHT - BOTTOM
    for d in days:
        x = scale.x(d.day) + (scale.x(d.day + 1) - scale.x(d.day)) / 2
        if "due" in d.marks:
            out += [_line(x, TOP, x, floor, "due"), _label(x, TOP - 4, "due date")]
        if "payment" in d.marks or "credit" in d.marks:
            out.append(f'<path class="paid" d="M{x - 4:.1f} {floor + 2} h8 l-4 7 z"/>')
        if "fee" in d.marks:
            out.append(f'<path class="fee" d="M{x - 4:.1f} {floor + 19} h8 l-4 -7 z"/>')
    end = scale.x(days[-1].day + 1)
    return [*out, _line(end, TOP, end, floor, "closing"), _label(end, TOP - 17, "closing", "end")]


def svg(days: list[Day]) -> str:
    """The picture; the table below it says the same."""
    scale = Scale(days)
    names = list(days[0].balances)
    out = [f'<svg viewBox="0 0 {WIDTH} {HEIGHT}" role="img" aria-label="Balances by segment over '
           'the days of the cycle; the table below has the numbers">']
    for cents in sorted({scale.low, 0, scale.high}):
        y = scale.y(cents)
        out += [_line(LEFT, y, WIDTH - RIGHT, y, "grid"),
                _label(LEFT - 4, y + 3, money_text(cents), "end")]
    out += [_steps(scale, days, name, place) for place, name in enumerate(names)]
    out += _marks(scale, days)
    out += [_label(LEFT, HEIGHT - 2, day_text(days[0].day), "start"),
            _label(WIDTH - RIGHT, HEIGHT - 2, day_text(days[-1].day), "end"), "</svg>"]
    keys = [f'<span style="color:{COLOURS[p % len(COLOURS)]}">'
            f'{"&#9473;" if not DASHES[p % len(DASHES)] else "&#9477;"} {escape(name)}</span>'
            for p, name in enumerate(names)]
    marks = {mark for d in days for mark in d.marks}
    if marks & {"payment", "credit"}:
        keys.append('<span class="paid">&#9660; payment or credit</span>')
    if "fee" in marks:
        keys.append('<span class="fee">&#9650; fee</span>')
    return "".join(out) + f'<p class="keys">{" ".join(keys)}</p>'


def _alike(days: list[Day]) -> list[tuple[Day, Day]]:
    """The first and the last of days in a row with the same balances; only on the first of them
    something happened."""
    found = [(days[0], days[0])]
    for d in days[1:]:
        first, _ = found[-1]
        if d.events or d.balances != first.balances:
            found.append((d, d))
        else:
            found[-1] = (first, d)
    return found


def table(days: list[Day]) -> str:
    """The days as a table; days in a row without a change are one row of it."""
    names = list(days[0].balances)
    head = "".join(f"<th>{escape(name)}</th>" for name in names)
    rows = []
    for first, last in _alike(days):
        cells = "".join(f'<td class="owed" data-of="{escape(name)}">'
                        f"{money_text(first.balances[name])}</td>" for name in names)
        rows.append(f"<tr><td>{day_text(first.day)}</td><td class=\"to\">{day_text(last.day)}</td>"
                    f"{cells}<td class=\"said\">{escape('; '.join(first.events))}</td></tr>")
    many = ' class="many"' if len(names) > 1 else ""  # a narrow page has each balance on a line
    return (f'<div class="wide"><table{many}><caption>Balances at the end of each day</caption>'
            f'<thead><tr><th>from</th><th>to</th>{head}<th class="said">what happened</th></tr>'
            "</thead><tbody>"
            f"{''.join(rows)}</tbody></table></div>")
