"""Why a request isn't accepted: the first reason that holds, in the order of RULES."""

from dataclasses import dataclass
from typing import TYPE_CHECKING, NamedTuple

from .days import (
    LAST_REQUEST_DAY, Anchor, closing, closing_day, cycle_of, day_text, six_months_after,
    year_after,
)
from .payments import sixty_days_late
from .rates import RATE_LIMIT, index_on
from .segments import SEGMENT_LIMIT, segments_of
from .tasks import increases, last_notice_day
from .words import AMENDABLE, Kept, Request

if TYPE_CHECKING:
    from .machine import Account, Machine

CENTS_OF_REQUEST = 1_000_000_000
ACCOUNT_LIMIT = 1_000_000
FEE_LIMIT = 100_000
MINUTES = 1_440
ROLL_LIMIT = 366
NOTICE_DAYS = 45

REFUSALS = {
    1: "UnknownAccount", 2: "AccountExists", 3: "KeyReused", 4: "BadTerms", 5: "AmountRange",
    6: "DayAhead", 7: "DayBeforeOpen", 8: "UnknownPlan", 9: "OutsidePlan",
    10: "PlanEndNotClosing", 11: "PlanTooShort", 12: "SegmentsFull", 13: "WrongEntry",
    14: "AlreadyReturned", 15: "NoticeTooShort", 16: "FirstYear", 17: "NoticePending",
    18: "NotDelinquent", 19: "DisputeLate", 20: "DisputeKnown", 21: "NoOpenDispute",
    22: "NotClosed", 23: "RefundTooLarge", 24: "NothingToReview", 25: "AccountFull",
    26: "LedgerFull", 27: "RollBack", 28: "RollTooFar", 29: "PastRow", 30: "NoIndex",
}
_DAY_VALUES = (10, 15, 16, 17, 19, 22, 27, 29)


class Refused(NamedTuple):
    """A refusal with its value, None for those without one."""
    number: int
    value: int | None = None

    @property
    def name(self) -> str:
        return REFUSALS[self.number]

    @property
    def value_is_day(self) -> bool:
        return self.number in _DAY_VALUES

    def value_text(self) -> str:
        if self.value_is_day and self.value is not None:
            return day_text(self.value)
        return str(self.value)


# -- shared requests and openings ------------------------------------------------------------


def shared_reason(machine: "Machine", r: Request) -> Refused | None:
    """Why a shared request isn't accepted."""
    if r.word == "roll":
        if r.day <= machine.today:
            return Refused(27, machine.today)
        return Refused(28) if machine.accounts and r.day - machine.today > ROLL_LIMIT else None
    if r.word == "feerow" and not r.first <= r.repeat <= FEE_LIMIT:
        return Refused(5)
    if r.word == "index" and r.rate > RATE_LIMIT:
        return Refused(5)
    return Refused(29, machine.today) if r.day <= machine.today else None


def bad_terms(r: Request) -> Refused | None:
    bad = [not 1 <= r.close <= 28, r.purchase > RATE_LIMIT, r.cash > RATE_LIMIT,
           r.transfer > RATE_LIMIT, r.penalty > RATE_LIMIT, r.floor > 1_000_000, r.pct > 10_000]
    return Refused(4, bad.index(True) + 1) if any(bad) else None


def reason_to_open(machine: "Machine", r: Request) -> Refused | None:
    """Why an account isn't opened."""
    bad = bad_terms(r)
    if bad:
        return bad
    if r.day > machine.today:
        return Refused(6)
    if r.word == "openvar" and index_on(machine.index_rows, r.day) is None:
        return Refused(30)
    return Refused(26) if len(machine.accounts) >= ACCOUNT_LIMIT else None


# -- posts of an account that is there -------------------------------------------------------


@dataclass
class Case:
    """A post that is judged: the machine, the account and the request, and the post that it
    names."""
    machine: "Machine"
    account: "Account"
    r: Request

    @property
    def posts(self) -> list[Kept]:
        return self.account.posts

    @property
    def anchor(self) -> Anchor:
        return self.account.anchor

    @property
    def target(self) -> Request | None:
        """The post that the request names, None where it names none that is there."""
        return self.named(self.r.target)

    def named(self, number: int | None) -> Request | None:
        return self.posts[number - 1].post if number and number <= len(self.posts) else None

    def target_is(self, *words: str) -> bool:
        return self.target is not None and self.target.word in words

    def first_naming(self, word: str) -> int | None:
        """The number of the first post of a word that names the same target."""
        return next((k.number for k in self.posts
                     if k.post.word == word and k.post.target == self.r.target), None)


def is_out_of_range(c: Case) -> Refused | None:
    r = c.r
    bad = ((r.word in ("charge", "credit", "payment", "refund", "dispute")
            and not 1 <= r.cents <= CENTS_OF_REQUEST)
           or (r.word in ("amend", "resolve") and r.cents > CENTS_OF_REQUEST)
           or (r.word == "resolve" and c.target is not None
               and c.target.word == "dispute" and r.cents > c.target.cents)
           or (r.word == "payment" and r.minute >= MINUTES)
           or (r.word in ("plan", "notice", "lower") and r.rate > RATE_LIMIT)
           or (r.word == "plan" and r.after > RATE_LIMIT)
           or (r.word == "bill" and not _is_cycle(c)))
    return Refused(5) if bad else None


def _is_cycle(c: Case) -> bool:
    """The cycle of a bill has a closing among the days of requests."""
    day = closing(c.anchor, c.r.cycle) if c.r.cycle <= 2_000 else None
    return day is not None and day <= LAST_REQUEST_DAY


def day_ahead(c: Case) -> Refused | None:
    return Refused(6) if c.r.day is not None and c.r.day > c.machine.today else None


def day_before_open(c: Case) -> Refused | None:
    return Refused(7) if c.r.day is not None and c.r.day < c.anchor.opened else None


def unknown_plan(c: Case) -> Refused | None:
    if c.r.place is None or c.r.place.plan is None:
        return None
    plan = c.named(c.r.place.plan)
    return None if plan is not None and plan.word == "plan" else Refused(8)


def outside_plan(c: Case) -> Refused | None:
    """A charge on a plan, or an amendment of one, on a day outside the plan."""
    place = None
    if c.r.word == "charge":
        place = c.r.place
    elif c.r.word == "amend" and c.target is not None and c.target.word == "charge":
        place = c.target.place
    if place is None or place.plan is None:
        return None
    plan = c.named(place.plan)
    return None if plan is not None and plan.day <= c.r.day <= plan.end else Refused(9)


def plan_end_not_closing(c: Case) -> Refused | None:
    if c.r.word != "plan":
        return None
    ends = closing(c.anchor, cycle_of(c.anchor, max(c.r.end, c.anchor.opened)))
    return Refused(10, ends) if ends != c.r.end else None


def plan_too_short(c: Case) -> Refused | None:
    return Refused(11) if c.r.word == "plan" and c.r.end < six_months_after(c.r.day) else None


def segments_full(c: Case) -> Refused | None:
    full = (c.r.word in ("plan", "notice")
            and len(segments_of(c.anchor, c.posts)) >= SEGMENT_LIMIT)
    return Refused(12) if full else None


WANTED = {"return": ("payment",), "dispute": ("charge",), "ack": ("dispute",),
          "resolve": ("dispute",), "amend": AMENDABLE}


def wrong_entry(c: Case) -> Refused | None:
    """The target is of another kind; or the cycle of a bill was issued."""
    if c.r.word in WANTED and not c.target_is(*WANTED[c.r.word]):
        return Refused(13, c.r.target)
    if c.r.word == "bill" and c.r.cycle in c.account.issued:
        return Refused(13, c.account.issued[c.r.cycle].bill)
    return None


def already_returned(c: Case) -> Refused | None:
    before = c.first_naming("return") if c.r.word == "return" else None
    return None if before is None else Refused(14, before)


def notice_too_short(c: Case) -> Refused | None:
    if c.r.word != "notice" or c.r.effective >= c.r.day + NOTICE_DAYS:
        return None
    return Refused(15, c.r.day + NOTICE_DAYS)


def first_year(c: Case) -> Refused | None:
    first = year_after(c.anchor.opened)
    return Refused(16, first) if c.r.word == "notice" and c.r.effective < first else None


def notice_pending(c: Case) -> Refused | None:
    if c.r.word != "notice":
        return None
    pending = [k.post.effective for k in c.posts
               if k.post.word == "notice" and k.post.category == c.r.category
               and k.post.effective > c.r.day]
    return Refused(17, max(pending)) if pending else None


def not_delinquent(c: Case) -> Refused | None:
    if c.r.word != "penalty":
        return None
    late = sixty_days_late(c.machine.book(c.account), c.machine.today)
    return None if late else Refused(18)


def dispute_late(c: Case) -> Refused | None:
    if c.r.word != "dispute":
        return None
    last = last_notice_day(c.anchor, c.posts, c.machine.corrected(c.account), c.r.target)
    return Refused(19, last) if last is not None and c.r.day > last else None


def dispute_known(c: Case) -> Refused | None:
    before = c.first_naming("dispute") if c.r.word == "dispute" else None
    return None if before is None else Refused(20, before)


def no_open_dispute(c: Case) -> Refused | None:
    resolved = c.r.word in ("ack", "resolve") and c.first_naming("resolve") is not None
    return Refused(21) if resolved else None


def not_closed(c: Case) -> Refused | None:
    if c.r.word != "bill":
        return None
    day = closing_day(c.anchor, c.r.cycle)
    return None if day < c.machine.today else Refused(22, day)


def refund_too_large(c: Case) -> Refused | None:
    if c.r.word != "refund":
        return None
    credit = c.machine.book(c.account).credit()
    return Refused(23, credit) if c.r.cents > credit else None


def nothing_to_review(c: Case) -> Refused | None:
    begun = any(day <= c.r.day for day in increases(c.posts)) if c.r.word == "review" else True
    return None if begun else Refused(24)


def account_full(c: Case) -> Refused | None:
    return Refused(25) if len(c.posts) >= c.machine.post_limit else None


POST_REASONS = (is_out_of_range, day_ahead, day_before_open, unknown_plan, outside_plan,
                plan_end_not_closing, plan_too_short, segments_full, wrong_entry, already_returned,
                notice_too_short, first_year, notice_pending, not_delinquent, dispute_late,
                dispute_known, no_open_dispute, not_closed, refund_too_large, nothing_to_review,
                account_full)


def post_reason(machine: "Machine", account: "Account", r: Request) -> Refused | None:
    """The first reason against a post of an account that is there, its key being new."""
    case = Case(machine, account, r)
    return next(filter(None, (reason(case) for reason in POST_REASONS)), None)
