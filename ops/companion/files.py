"""Small files and folders of the companion's own: written whole or not at all."""

import os

from companion.rights import cause_of
from companion.trouble import OWN_FILES, Trouble


def settle(path: str) -> None:
    """Has a file that was written stand on the disk, with its name."""
    for each in (path, os.path.dirname(os.path.abspath(path))):
        handle = os.open(each, os.O_RDONLY)
        try:
            os.fsync(handle)
        finally:
            os.close(handle)


def put_text(path: str, text: str) -> None:
    """Writes a small file whole or not at all."""
    new = path + ".new"
    try:
        with open(new, "w", encoding="utf-8") as file:
            file.write(text)
            file.flush()
            os.fsync(file.fileno())
        os.replace(new, path)
    except OSError as error:
        raise Trouble(f"{path} can't be written: {cause_of(error)}", OWN_FILES) from error


def make_folder(path: str) -> None:
    """Makes a folder, with those above it, for its owner alone; one that is there stays."""
    above = os.path.dirname(os.path.abspath(path))
    if not os.path.isdir(above):
        make_folder(above)
    try:
        os.makedirs(path, mode=0o700, exist_ok=True)
    except OSError as error:
        raise Trouble(f"the folder {path} can't be made: {cause_of(error)}", OWN_FILES) from error


def read_text(path: str) -> str:
    """The text of a small file."""
    try:
        with open(path, encoding="utf-8", errors="backslashreplace") as file:
            return file.read()
    except OSError as error:
        raise Trouble(f"{path} can't be read: {cause_of(error)}", OWN_FILES) from error


def names_in(folder: str) -> list[str]:
    """The names in a folder in order, none where it isn't there."""
    return sorted(os.listdir(folder)) if os.path.isdir(folder) else []


def free_name(folder: str, name: str) -> str:
    """A name that isn't in the folder yet."""
    found, count = name, 1
    while os.path.exists(os.path.join(folder, found)):
        count += 1
        found = f"{name}.{count}"
    return found
