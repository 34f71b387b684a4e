"""`accounts`, `due`, `today`, `bills`, `rows` and `posts`: what the rows say without a rule."""

from companion.history import DATED, read_history
from companion.opening import copied, open_rows
from companion.server import Server
from companion.state import BILL_KEY, Account, State, read_state, requests_of
from companion.texts import money, shown_of
from companion.trouble import DONE, FOUND, Trouble, counted, say


def today(path: str, wait: int) -> int:
    print(read_state(path, wait).today)
    return DONE


def accounts(path: str, wait: int, program: str | None = None) -> int:
    """A line an account: name, opening day, closing day of the month, posts, cycles, bills.

    With a program also what each owes, its credit balance, and what is in dispute.
    """
    state = read_state(path, wait)
    more = {} if program is None else owed(program, path, wait, list(state.accounts))
    for one in state.accounts.values():
        print(one.name, one.opened, one.close, one.posts, one.closed(state.today),
              len(one.bills), *more.get(one.name, ()))
    say(f"accounts: {len(state.accounts)} on {state.today}")
    return DONE


def owed(program: str, path: str, wait: int, names: list[str]) -> dict[str, tuple[str, str, str]]:
    """What is owed, in credit and held on each account, asked of a server over a copy."""
    found = {}
    with copied(path, wait) as copy, Server(program, copy, len(names) + 1) as server:
        for name in names:
            shown = shown_of(server.show(name))
            found[name] = (money(shown.owed), money(shown.credit), money(shown.held))
    return found


def late_bills(state: State) -> str:
    """How many of the bills that are due come too late to ask for a payment, in words."""
    late = sum(one.last_day < state.today for one in state.due())
    return f", {late} of them too late to ask for a payment" if late else ""


def due(path: str, wait: int) -> int:
    """A line a closed cycle without a bill: account, cycle, closing, last day for its bill."""
    state = read_state(path, wait)
    found = state.due()
    for one in found:
        print(one.account, one.cycle, one.closing, one.last_day)
    say(f"due: {counted(len(found), 'bill')} on {state.today}{late_bills(state)}")
    return DONE


def bill_key(account: Account, cycle: int) -> str:
    """A key that isn't in the account yet."""
    key = f"{BILL_KEY}{cycle}"
    count = 1
    while key in account.bill_keys:
        count += 1
        key = f"{BILL_KEY}{cycle}.{count}"
    return key


def bill_lines(state: State, held_back: frozenset[tuple[str, int]] = frozenset()) -> list[str]:
    """The `bill` line of each closed cycle that has none yet."""
    return [f"bill {one.account} {bill_key(state.accounts[one.account], one.cycle)} {one.cycle}"
            for one in state.due() if (one.account, one.cycle) not in held_back]


def bills(path: str, wait: int) -> int:
    for line in bill_lines(read_state(path, wait)):
        print(line)
    return DONE


def rows(path: str, since: int, wait: int) -> int:
    """The rows behind the first `since` as request lines."""
    with open_rows(path, wait) as found:
        for number, request in enumerate(requests_of(found), start=1):
            if number > since:
                print(request.line())
    return DONE


def posts(path: str, account: str | None, wait: int) -> int:
    """A line a post: account, number, key, word, day of acceptance, own day, cents as they stand.

    The own day is as it stands too. A post without cents has a `-` for them.
    """
    history = read_history(path, wait)
    if account is not None and account not in history.accounts:
        raise Trouble(f"{path} has no account {account}; `accounts` lists them", FOUND)
    for name in history.accounts if account is None else [account]:
        found = history.accounts[name]
        for post in found.posts:
            day, cents = post.day, post.request.fields.get("cents", "-")
            if post.word in DATED:
                day, stands = found.stands(post)
                cents = str(stands)
            print(name, post.number, post.key, post.word, post.accepted, day, cents)
    return DONE
