"""Whose a file is, where this user has no right to it or leaves what its owner can't write."""

import os
import pwd

from companion.trouble import GUARDED, Trouble

ROOT = 0


def owner_of(path: str) -> int | None:
    """The number of a file's user; of a file that isn't there, of its folder's."""
    for each in (path, os.path.dirname(os.path.abspath(path))):
        try:
            return os.stat(each).st_uid
        except FileNotFoundError:
            continue
        except OSError:
            return None
    return None


def name_of(user: int) -> str:
    try:
        return pwd.getpwuid(user).pw_name
    except KeyError:
        return str(user)


def whose(path: str) -> str:
    """Whose a file is and what to do, where it is another user's. Nothing where this user is root,
    to whom no right is missing."""
    owner, this = owner_of(path), os.geteuid()
    if owner is None or this in (owner, ROOT):
        return ""
    return (f": it belongs to {name_of(owner)}, and this user is {name_of(this)}; call as "
            f"{name_of(owner)}, or have root give it to {name_of(this)} by chown")


def cause_of(error: OSError) -> str:
    """What the system says of a file, and whose it is where this user has no right to it."""
    is_right = isinstance(error, PermissionError) and isinstance(error.filename, str)
    return f"{error.strerror}{whose(error.filename) if is_right else ''}"


def require_owner(path: str) -> None:
    """Refuses root where a ledger is another user's, who couldn't write what root leaves."""
    owner = owner_of(path)
    if os.geteuid() == ROOT and owner not in (ROOT, None):
        name = name_of(owner or ROOT)
        raise Trouble(f"{path} belongs to {name}, who couldn't write what a night of root leaves; "
                      f"call as {name} (sudo -u {name}), or give the folder to root by chown",
                      GUARDED)
