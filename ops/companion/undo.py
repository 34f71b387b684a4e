"""`undo`: the amends that void what a file entered, and what of it can't be undone."""

import os

from companion.days import day_of
from companion.history import DATED, Account, read_history
from companion.home import LEDGER, require_home
from companion.requests import NAME, Request
from companion.restores import OF_REPLY, REPLIES, read_done
from companion.trouble import DONE, FOUND, GUARDED, Trouble, counted, say

KEY = "undo-"


def place_of(home: str, path: str) -> tuple[str, str]:
    """The day and the name of a file that was entered, of `done/DAY/NAME`."""
    real = path if os.path.exists(path) else os.path.join(home, path)
    folder, name = os.path.split(os.path.abspath(real))
    if (not os.path.isfile(real) or not os.path.isfile(real + REPLIES)
            or day_of(os.path.basename(folder)) is None):
        raise Trouble(f"{path} is no file of {os.path.join(home, 'done')} with its replies beside "
                      "it", GUARDED)
    return os.path.basename(folder), name


def undo_key(account: Account, number: int) -> str:
    """A key for the amend of a post that isn't in the account yet."""
    taken = {post.key for post in account.posts}
    key, count = f"{KEY}{number}", 1
    while key in taken:
        count += 1
        key = f"{KEY}{number}.{count}"
    assert NAME.fullmatch(key)
    return key


def undone(account: Account, number: int, day: str) -> tuple[str | None, str]:
    """The amend that voids a post; or None, and why there is none."""
    post = account.post(number)
    if post is None:
        return None, "it isn't in the ledger"
    if post.word not in DATED:
        return None, f"a {post.word} can't be taken back"
    if post.accepted.isoformat() != day:
        return None, f"it was entered before, on {post.accepted}"
    stands, cents = account.stands(post)
    if cents == 0:
        return None, "it is void already"
    back = account.naming("return", number) if post.word == "payment" else []
    if back:
        return None, f"the payment was returned by post {back[0].number}"
    return f"amend {account.name} {undo_key(account, number)} {number} {stands} 0", ""


def target_of(request: Request, reply: str) -> int | None:
    found = OF_REPLY.fullmatch(reply)
    return int(found.group(1)) if found and "account" in request.fields else None


def undo(home: str, path: str, wait: int) -> int:
    """The word `undo`: the lines for `run`, and on standard error what can't be undone."""
    require_home(home)
    day, name = place_of(home, path)
    given, replies = read_done(home, day, name)
    history = read_history(os.path.join(home, LEDGER), wait)
    lines, left = [], []
    for place, (request, reply) in enumerate(zip(given.requests(), replies)):
        if request is None or not reply.startswith("ok"):
            continue
        number = target_of(request, reply)
        account = history.accounts.get(request.fields.get("account", ""))
        if number is None or account is None:
            left.append(f"{given.shown(place)}: a {request.word} can't be taken back")
            continue
        line, reason = undone(account, number, day)
        if line is None:
            left.append(f"{given.shown(place)}: {reason}")
        else:
            lines.append(line)
    for line in lines:
        print(line)
    for text in left:
        say(text)
    say(f"undo: {counted(len(lines), 'amend')} for `run`, {len(left)} that can't be undone; after "
        "a bill, its statement stays, and the next one shows the correction")
    return FOUND if left else DONE
