"""Deadlines of disputes, refunds and reviews, and the open tasks of an account."""

from typing import NamedTuple

from .days import Anchor, closing_day, cycle_of, day_text, next_business, six_months_after
from .history import Corrected
from .words import Kept

KINDS = ("ACK", "RESOLVE", "REFUND", "CREDIT", "REVIEW", "LOWER")
DOLLAR = 100  # cents; a credit balance above it has to be refunded in six months


class Task(NamedTuple):
    by: int
    account: str
    kind: str
    post: int


def last_notice_day(anchor: Anchor, posts: list[Kept], corrected: Corrected,
                    charge: int) -> int | None:
    """60 days after the first statement that shows a charge; None without such a bill.

    It is the first bill with a number above the charge's and a cycle at or
    after that of the charge's corrected day.
    """
    cycle = cycle_of(anchor, corrected.day[charge])
    for kept in posts:
        if kept.post.word == "bill" and kept.number > charge and kept.post.cycle >= cycle:
            return kept.accepted + 60
    return None


def ack_by(day: int) -> int:
    return day + 30


def resolve_by(anchor: Anchor, day: int) -> int:
    """Two closings after the dispute's cycle, and at most 90 days."""
    return min(closing_day(anchor, cycle_of(anchor, day) + 2), day + 90)


def refund_by(day: int, holidays: frozenset[int]) -> int:
    """The seventh business day after a day."""
    for _ in range(7):
        day = next_business(day, holidays)
    return day


def lower_by(day: int) -> int:
    return day + 45


def increases(posts: list[Kept]) -> list[int]:
    """When the increases take effect, by the posts: a notice on its effective day, a penalty 45
    days after its acceptance."""
    days = []
    for kept in posts:
        if kept.post.word == "notice":
            days.append(kept.post.effective)
        elif kept.post.word == "penalty":
            days.append(kept.accepted + 45)
    return days


def review_by(posts: list[Kept], today: int) -> int | None:
    """Six months after the first increase in effect, or after the last review if that is later."""
    effective = [day for day in increases(posts) if day <= today]
    if not effective:
        return None
    reviews = [kept.post.day for kept in posts if kept.post.word == "review"]
    return six_months_after(max([min(effective)] + reviews))


def is_named(posts: list[Kept], words: tuple[str, ...], number: int) -> bool:
    """A post of one of the words names a post."""
    return any(k.post.word in words and k.post.target == number for k in posts)


def has_later(posts: list[Kept], word: str, number: int) -> bool:
    """A post of the word was accepted after a post."""
    return any(k.post.word == word and k.number > number for k in posts)


def tasks_of_post(account: str, anchor: Anchor, posts: list[Kept], kept: Kept, credit: int,
                  holidays: frozenset[int]) -> list[Task]:
    """What a post asks for and isn't done."""
    number, post = kept.number, kept.post
    tasks = []
    if post.word == "dispute":
        if not is_named(posts, ("ack", "resolve"), number):
            tasks.append(Task(ack_by(post.day), account, "ACK", number))
        if not is_named(posts, ("resolve",), number):
            tasks.append(Task(resolve_by(anchor, post.day), account, "RESOLVE", number))
    elif post.word == "askrefund" and credit != 0 and not has_later(posts, "refund", number):
        tasks.append(Task(refund_by(post.day, holidays), account, "REFUND", number))
    elif (post.word == "review" and post.finding == "reduce"
          and not has_later(posts, "lower", number)):
        tasks.append(Task(lower_by(post.day), account, "LOWER", number))
    return tasks


def open_tasks(account: str, anchor: Anchor, posts: list[Kept], credit: int,
               credit_since: int | None, holidays: frozenset[int], today: int) -> list[Task]:
    """The open tasks of one account by day, kind and post."""
    tasks = []
    for kept in posts:
        tasks += tasks_of_post(account, anchor, posts, kept, credit, holidays)
    if credit > DOLLAR and credit_since is not None:
        tasks.append(Task(six_months_after(credit_since), account, "CREDIT", 0))
    review = review_by(posts, today)
    if review is not None:
        tasks.append(Task(review, account, "REVIEW", 0))
    return sorted(tasks, key=task_order)


def task_order(task: Task) -> tuple[int, str, int, int]:
    """By day, account, kind in the order of KINDS, post."""
    return task.by, task.account, KINDS.index(task.kind), task.post


def tasks_text(tasks: list[Task]) -> str:
    return "".join(f"{day_text(t.by)} {t.account} {t.kind} {t.post}\n" for t in tasks)
