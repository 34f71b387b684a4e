"""The documents as a reader has them: their prose, sentences, links, and what stands in code."""

import re
from pathlib import Path

TOP = Path(__file__).resolve().parents[2]
FENCE = "```"
MAN_PAGE = "ops/billctl.1"

# Folders of which every page is a document.
FOLDERS = (".", "docs", "examples", "examples/shards", "audit", "dev", "bench", "tests")

# A sentence ends with one of these marks in front of a space. These words end none.
END = re.compile(r"(?<=[.?!])[\"')*_]*\s+(?=[\"'(*_`\[]*[A-Z0-9`])")
SHORT = ("e.g.", "i.e.", "No.")


def documents() -> list[str]:
    """All documents of the repository, as paths from its top."""
    pages = [page for folder in FOLDERS for page in (TOP / folder).glob("*.md")]
    return sorted({str(page.relative_to(TOP)) for page in pages}) + [MAN_PAGE]


def text_of(name: str) -> str:
    return (TOP / name).read_text(encoding="utf-8")


def plain(text: str) -> str:
    """The text of a man page without its marks."""
    lines = []
    for line in text.splitlines():
        if line.startswith((".TH", ".SH")) or line in (".TP", ".PP", ".br"):
            lines.append("")
        elif line.startswith("."):
            lines.append("CODE" + "".join(re.findall(r" ([.,;:]+)$", line)))
        else:
            lines.append(line)
    return re.sub(r"\\f[A-Z]|\\", "", "\n".join(lines))


def without_code(text: str) -> str:
    """The lines outside blocks of code; what is left out leaves empty lines."""
    kept, inside = [], False
    for line in text.splitlines():
        if line.lstrip().startswith(FENCE):
            inside = not inside
            kept.append("")
        else:
            kept.append("" if inside else line)
    return "\n".join(kept)


def code_blocks(text: str) -> list[str]:
    """The content of each block of code."""
    return re.findall(r"^```[a-z]*\n(.*?)^```", text, re.M | re.S)


def prose(name: str) -> str:
    """What is to be read as English: no blocks of code, and code in a line as one word."""
    text = plain(text_of(name)) if name == MAN_PAGE else without_code(text_of(name))
    text = re.sub(r"`[^`]*`", "CODE", text)
    return re.sub(r"\]\([^)]*\)", "]", text)


def sentences(name: str) -> list[str]:
    """The sentences of a document outside tables and code."""
    found = []
    for block in re.split(r"\n\s*\n|\n(?=\s*(?:[-*]|\d+\.) )|\n(?=#)", prose(name)):
        lines = [line for line in block.splitlines() if not line.startswith("|")]
        text = " ".join(" ".join(lines).split())
        for short in SHORT:
            text = text.replace(short, short.replace(".", ""))
        found += [one for one in END.split(text) if one]
    return found
