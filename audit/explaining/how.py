"""How a node's value follows, in words and with the numbers that it is made of."""

from collections.abc import Sequence

from .nodes import Node, value_text

FEW = 3  # numbers that are written out
# of a truth about two numbers: what it says, and what it says where it is false
_NUMBERS = {"equal": ("{} is equal to {}", "{} differs from {}"),
            "at_least": ("{} is at least {}", "{} is less than {}"),
            "before": ("{} is less than {}", "{} is at least {}")}
_DAYS = {"equal": ("{} is {}", "{} isn't {}"), "at_least": ("{} is {} or later", "{} is before {}"),
         "before": ("{} is before {}", "{} is {} or later")}
# the minute behind a limit is named by the limit
_MINUTES = {"at_least": ("{} is after {}", "{} is {} or earlier"),
            "before": ("{} is {} or earlier", "{} is after {}")}
_LIMITS = {"least": ("lesser", "least", "earlier", "earliest"),
           "greatest": ("greater", "greatest", "later", "latest")}

_OTHERS = {"last_of": "the last of these", "count": "how many of these there are"}


def shown_value(node: Node) -> str:
    """A node's value as a text has it."""
    text = value_text(node.value, node.unit)
    return f"{text} days" if node.unit == "days" else text


def how_text(node: Node) -> str:
    """How a node's value follows, in words."""
    if node.how in ("row", "in_force"):
        seq = node.more.get("seq")
        return f"row {seq} of the file" if seq is not None else "no row is in force"
    if node.how == "calendar":
        return _calendar(node)
    if node.how == "shown":
        return f"its line {node.more['line'] + 1}"
    if node.how in _NUMBERS:
        return _truth_text(node)
    if node.how in ("count", "sum") and not node.of:
        return "there is none"
    return _division(node) or _arithmetic(node)


def brief_text(node: Node) -> str:
    """How a balance that is shown in one line follows from the one before; nothing for the first
    of them."""
    return how_text(node) if len(node.of) == 2 and all(n.value for n in node.of) else ""


def is_runs(node: Node) -> bool:
    """A sum over runs of days."""
    return bool(node.of) and isinstance(node.of[0].start, int)


def _calendar(node: Node) -> str:
    """A day of the calendar, by the closing day of the account."""
    if node.more["calendar"] in ("closing", "due"):
        day = value_text(node.value, node.unit)[-2:].lstrip("0")
        close = node.of[1].value
        of = "" if node.more["calendar"] == "closing" else f", as its closing day is {close}"
        return f"day {day} of each month for this account{of}"
    return "by the calendar"


def _division(node: Node) -> str:
    """A rounded quotient; nothing for another operation."""
    first = shown_value(node.of[0]) if node.of else ""
    if node.how == "floor_divide":
        if node.unit == "cents":
            return "this, rounded down to cents"
        return f"{first} divided by {node.by}, rounded down"
    if node.how != "round_half_up":
        return ""
    by = "" if node.by else f"{first} divided by {shown_value(node.of[1])}, "
    return f"{by or 'this, '}rounded to cents, half a cent up"


def _arithmetic(node: Node) -> str:
    """An operation with its numbers, where they are few."""
    of, by = [shown_value(child) for child in node.of], node.by
    if node.how == "product":
        return _product(node, of)
    if node.how == "sum":
        return _sum(node, of)
    if node.how == "difference":
        return " minus ".join(of) if len(of) <= FEW else "the first of these less the others"
    if node.how in _LIMITS:
        limit = [] if by is None else [value_text(by, node.unit)]
        return _limit(node, [*of, *limit])
    if node.how == "at_least_zero":
        below = node.of[0].value < 0
        return "nothing, as this is below 0" if below else "this, as it isn't below 0"
    if node.how == "days_between":
        return f"from {of[0]} to {of[1]}" + (", both counted" if by else "")
    if node.how == "day_plus":
        return f"{by} {'day' if by == 1 else 'days'} after {of[0]}"
    return _OTHERS.get(node.how, "")


def _product(node: Node, of: Sequence[str]) -> str:
    if node.by == -1:
        return f"{of[0]} with a minus, as it is taken off" if node.value < 0 else \
            f"{of[0]} without its minus"
    if node.unit == "billionths" and node.of[0].unit == "basis points":
        return f"{of[0].rstrip('%')} divided by 100"
    if len(of) > 1:
        return f"{of[0]} times {of[1]}" + ("" if node.by is None else f", times {node.by}")
    return f"this, times {node.by}"


def _sum(node: Node, of: Sequence[str]) -> str:
    if is_runs(node):
        return "the sum of the last column"
    if node.by is not None:
        return f"this, with {value_text(node.by, node.unit)}"
    if not 1 < len(of) <= FEW:
        return "the sum of these"
    return of[0] + "".join(f" minus {text[1:]}" if text[0] == "-" else f" plus {text}"
                           for text in of[1:])


def _limit(node: Node, of: Sequence[str]) -> str:
    """The least or the greatest of some."""
    names = _LIMITS[node.how][2 if node.unit == "day" else 0:]
    if len(of) > FEW:
        return f"the {names[1]} of these"
    if len(of) == 1:
        return "this"
    return f"the {names[0 if len(of) == 2 else 1]} of {', '.join(of[:-1])} and {of[-1]}"


def _truth_text(node: Node) -> str:
    """What is compared, as it is: also where the truth is that it isn't so."""
    place, unit = 0 if node.value else 1, node.of[0].unit
    if unit == "truth":
        return ""  # a sentence alone
    if unit == "count" and node.how == "equal" and node.by == 0:
        return "there is none" if node.value else "there is one"
    if unit == "minutes" and node.by is not None:
        last = value_text(node.by - 1, unit)
        return _MINUTES[node.how][place].format(shown_value(node.of[0]), last)
    bound = shown_value(node.of[1]) if node.by is None else value_text(node.by, unit)
    form = (_DAYS if unit == "day" else _NUMBERS)[node.how][place]
    form = form.replace(" is ", " are ") if unit == "days" else form
    return form.format(shown_value(node.of[0]), bound)
