"""The first place at which two texts differ, shown with both."""

from collections.abc import Sequence


def shown(line: bytes) -> str:
    return line.decode("utf-8", "replace")


def first_difference(model: bytes, other: bytes, sent: Sequence[str] = (),
                     side: str = "program") -> str | None:
    """The first line that differs, with the line that was sent for it where there is one."""
    name = f"{side}:".ljust(8)
    ours, theirs = model.splitlines(), other.splitlines()
    for place in range(max(len(ours), len(theirs))):
        a = ours[place] if place < len(ours) else b"(nothing)"
        b = theirs[place] if place < len(theirs) else b"(nothing)"
        if a != b:
            line = f"\n  line:    {sent[place]}" if place < len(sent) else ""
            return (f"line {place + 1} of the output{line}\n  model:   {shown(a)}\n"
                    f"  {name} {shown(b)}")
    return None if model == other else f"the line ends\n  model:   {model!r}\n  {name} {other!r}"
