#!/usr/bin/env python3
"""Names in the documents that the repository doesn't have.

    dev/doc_names.py [FILE..]        README.md and docs/*.md where none are given

Reads what stands between backticks. A word such as `card_book::Book::advance` has to be a function,
type or module of that crate's src/, a word such as `Folds.antt: book` a definition in a file of
that name, one such as `fees.py: is_repeat` a function or class in a file of audit/. A path has to
be there, from the top of the repository or below crates/, and a name alone, with an underscore or a
capital, has to stand somewhere in the code. Other words are passed over. It prints each name that
isn't found, with its line, and ends with 1 where there is one. It needs no kit.
"""
import functools
import glob
import os
import re
import sys

TOP = os.path.dirname(os.path.dirname(os.path.abspath(__file__)))
ITEM = r"\b(?:fn|struct|enum|trait|mod|const|static|type) {0}\b"
REEXPORTED = r"pub use [^;]*\b{0}\b[^;]*;"
KINDS = "pub record pub|record pub|abbrev pub|unfoldable pub|pub|data pub"
DEFINITION = rf"(?:^|\s)(?:{KINDS})\s+(?:record |data )?{{0}}\b|^\s*{{0}}\b"
PLACES = r"card_\w+|crates|docs|tests|bench|dev|examples|audit|ops"


@functools.cache
def text_of(pattern: str) -> str:
    return "\n".join(read(name) for name in sorted(glob.glob(pattern, recursive=True)))


def read(name: str) -> str:
    with open(name, encoding="utf-8") as file:
        return file.read()


def has_item(crate: str, words: list[str]) -> bool:
    source = text_of(f"{TOP}/crates/{crate}/src/**/*.rt")
    return all(
        re.search(ITEM.format(word), source) or re.search(REEXPORTED.format(word), source)
        for word in words
    )


def files_named(path: str) -> list[str]:
    """From the top, below crates/ or in a crate; or one whose name begins so, as an example of
    several files."""
    places = [f"{TOP}/{path}", f"{TOP}/crates/{path}", f"{TOP}/crates/*/{path}"]
    if "/" not in path:
        places += [f"{TOP}/crates/*/*/{path}", f"{TOP}/*/{path}"]
    return [name for place in places for name in glob.glob(place) or glob.glob(place + ".*")]


@functools.cache
def all_names() -> set[str]:
    patterns = ("crates/*/src/**/*.rt", "crates/*/specs/*.antt", "audit/**/*.py",
                "ops/companion/*.py")
    return set(re.findall(r"\w+", "".join(text_of(f"{TOP}/{pattern}") for pattern in patterns)))


def is_in_model(file: str, name: str) -> bool:
    """A function or a class of the independent model."""
    text = text_of(f"{TOP}/audit/{file}")
    return re.search(rf"^ *(?:def|class) {name}\b", text, re.M) is not None


def is_in_files(file: str, name: str | None) -> bool:
    """A file of Rattle, or an item or a definition in one of its name."""
    pattern = (ITEM if file.endswith(".rt") else DEFINITION).format(name)
    return any(name is None or re.search(pattern, read(at), re.M) for at in files_named(file))


def is_there(word: str) -> bool:
    if "NAME" in word:
        return True
    if re.fullmatch(r"(card_\w+|billctl)(::\w+)+", word):
        crate, *words = word.split("::")
        return os.path.isdir(f"{TOP}/crates/{crate}") and has_item(crate, words)
    found = re.fullmatch(r"([\w/]+\.(?:antt|rt))(?:: (\w+))?", word)
    if found:
        return is_in_files(found[1], found[2])
    found = re.fullmatch(r"(\w+\.py): (\w+)", word)
    if found:
        return is_in_model(found[1], found[2])
    if re.fullmatch(rf"(?:{PLACES})(?:/[\w.-]+)+/?", word):
        return bool(files_named(word.rstrip("/")))
    if os.path.isdir(f"{TOP}/crates/{word}"):
        return True
    if re.fullmatch(r"[A-Za-z]\w*", word) and ("_" in word or word[0].isupper()):
        return word in all_names()
    return True


def missing_in(name: str) -> list[str]:
    """The names of a document that aren't there, each with its place."""
    return [
        f"{os.path.relpath(name, TOP)}:{number}: {word}"
        for number, line in enumerate(read(name).splitlines(), 1)
        for word in re.findall(r"`([^`]+)`", line)
        if not is_there(word)
    ]


def main() -> int:
    if {"-h", "--help"} & set(sys.argv[1:]):
        print((__doc__ or "").strip())
        return 0
    names = sys.argv[1:] or [f"{TOP}/README.md", *sorted(glob.glob(f"{TOP}/docs/*.md"))]
    missing = [found for name in names for found in missing_in(name)]
    print("".join(found + "\n" for found in missing), end="")
    return 1 if missing else 0


if __name__ == "__main__":
    sys.exit(main())
