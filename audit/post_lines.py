"""A line of each kind of post: mostly one that fits the account, now and then one that is
refused."""

from . import days
from .days import closing_day, cycle_of, day_text, due_day, is_business, next_business
from .drawn import Drawn
from .machine import Account
from .payments import sixty_days_late
from .words import AMENDABLE, CATEGORIES


class PostLines(Drawn):
    """Writes posts of an account that is there."""

    def line_bill(self, name: str, account: Account) -> None:
        k = cycle_of(account.anchor, self.today)
        if self.chance(75) and k - 1 in account.issued:
            return
        cycle = k - 1 if self.chance(80) else self.draw.choice(
            (max(0, k - 2), self.draw.randint(0, k + 1), k, 1_000_000))
        self.emit(f"bill {name} {self.key()} {cycle}")

    def line_charge(self, name: str, account: Account) -> None:
        day, place = self.back(account), self.place(account)
        if place.startswith("plan:") and self.chance(80):
            number = int(place[5:])
            if 1 <= number <= len(account.posts) and account.posts[number - 1].post.word == "plan":
                plan = account.posts[number - 1].post
                low, high = plan.day, min(plan.end, self.today)
                if low <= high:
                    day = self.draw.randint(low, high) if self.chance(50) else high
        self.emit(f"charge {name} {self.key()} {day_text(day)} {place} {self.amount()}")

    def line_payment(self, name: str, account: Account) -> None:
        anchor = account.anchor
        day, cents = self.back(account), min(self.toward(account), 1_000_000_000)
        minute = self.draw.choice((0, 600, 1019, 1020, 1021, 1439, self.draw.randrange(1440)))
        channel = self.draw.choice(("mail", "online", "online"))
        if self.chance(2):
            minute = 1440
        k = cycle_of(anchor, self.today) - 1
        mood = self.mood.get(name, "careful")
        if k in account.issued:
            cycle = account.issued[k].statement.cycle
            choice = {"careful": cycle.new_balance, "least": cycle.minimum, "late": cents,
                      "over": cycle.new_balance + self.draw.randint(1, 30_000)}[mood]
            if self.chance(75) and choice > 0:
                cents = min(choice, 1_000_000_000)
                day = max(self.today - self.draw.choice((0, 0, 0, 1, 3)), anchor.opened)
            if self.chance(8) and cents > 1:
                cents -= 1
        if mood == "late" and self.chance(80):
            self.emit(f"show {name}")
            return
        if self.chance(25):  # a mail payment around a due date that is no business day
            dues = [due_day(anchor, j) for j in range(1, k + 1)]
            dues = [d for d in dues if not is_business(d, self.machine.holidays)]
            if dues:
                first = next_business(self.draw.choice(dues[-6:]), self.machine.holidays)
                first += self.draw.choice((0, 0, 0, 1, -1))
                if anchor.opened <= first <= self.today:
                    day, channel = first, "mail"
                    minute = self.draw.choice((600, 600, 1020, 1021))
        self.emit(f"payment {name} {self.key()} {day_text(day)} {minute} {channel} {cents}")

    def line_credit(self, name: str, account: Account) -> None:
        cents = self.toward(account)
        if self.chance(80):
            cents = max(1, cents // self.draw.choice((2, 10, 40)))
        self.emit(f"credit {name} {self.key()} {day_text(self.back(account))} "
                  f"{self.place(account)} {cents}")

    def line_return(self, name: str, account: Account) -> None:
        target = self.number_of(account, ("payment",))
        self.emit(f"return {name} {self.key()} {day_text(self.back(account))} {target}")

    def line_plan(self, name: str, account: Account) -> None:
        anchor = account.anchor
        day = max(anchor.opened, self.today - self.draw.choice((0, 0, 5, 40, 120, 170)))
        k = cycle_of(anchor, day) + 6
        if closing_day(anchor, k) < days.six_months_after(day):
            k += 1
        end = closing_day(anchor, k + self.draw.choice((0, 0, 0, 1, 3)))
        if self.chance(8):
            end = closing_day(anchor, k - 2)
        elif self.chance(6):
            end -= self.draw.choice((1, 9, 300))
        self.emit(f"plan {name} {self.key()} {day_text(day)} "
                  f"{self.draw.choice(('promo', 'deferred', 'deferred'))} {self.rate()} "
                  f"{day_text(end)} {self.rate()}")

    def line_notice(self, name: str, account: Account) -> None:
        day = self.back(account)
        effective = max(day + 45, days.year_after(account.anchor.opened))
        effective += self.draw.choice((0, 0, 1, 20))
        if self.chance(15):
            effective = day + self.draw.choice((1, 44, 45, 46))
        self.emit(f"notice {name} {self.key()} {day_text(day)} {self.draw.choice(CATEGORIES)} "
                  f"{self.rate()} {day_text(effective)}")

    def line_lower(self, name: str, account: Account) -> None:
        self.emit(f"lower {name} {self.key()} {day_text(self.back(account))} "
                  f"{self.draw.choice(CATEGORIES)} {self.rate()}")

    def line_penalty(self, name: str, account: Account) -> None:
        late = sixty_days_late(self.machine.book(account), self.today)
        if late and self.chance(60):
            self.mood[name] = self.draw.choice(("least", "least", "careful", "late"))
        if late or self.chance(35):
            self.emit(f"penalty {name} {self.key()}")

    def line_review(self, name: str, account: Account) -> None:
        self.emit(f"review {name} {self.key()} {day_text(self.back(account))} "
                  f"{self.draw.choice(('keep', 'reduce'))}")

    def line_dispute(self, name: str, account: Account) -> None:
        target = self.number_of(account, ("charge",))
        claim = self.amount()
        if 1 <= target <= len(account.posts) and self.chance(75):
            cents = account.posts[target - 1].post.cents or claim
            claim = self.draw.choice((cents, max(1, cents // 2), min(cents * 2, 10 ** 9)))
        self.emit(f"dispute {name} {self.key()} {day_text(self.back(account))} {target} {claim}")

    def line_ack(self, name: str, account: Account) -> None:
        target = self.number_of(account, ("dispute",))
        self.emit(f"ack {name} {self.key()} {day_text(self.back(account))} {target}")

    def line_resolve(self, name: str, account: Account) -> None:
        target = self.number_of(account, ("dispute",))
        cents = self.amount()
        if 1 <= target <= len(account.posts):
            claim = account.posts[target - 1].post.cents or 0
            cents = self.draw.choice((0, claim, claim, claim // 2, claim + 1))
        self.emit(f"resolve {name} {self.key()} {day_text(self.back(account))} {target} {cents}")

    def line_askrefund(self, name: str, account: Account) -> None:
        self.emit(f"askrefund {name} {self.key()} {day_text(self.back(account))}")

    def line_refund(self, name: str, account: Account) -> None:
        holds = self.machine.book(account).credit()
        cents = self.draw.choice((holds, holds, holds // 2, holds + 1, self.amount()))
        if holds or self.chance(20):
            self.emit(f"refund {name} {self.key()} {cents}")

    def line_amend(self, name: str, account: Account) -> None:
        if self.undo and self.chance(35):
            name, target, day, cents = self.undo.pop(self.draw.randrange(len(self.undo)))
        else:
            target = self.number_of(account, AMENDABLE, wrong=5)
            day, cents = self.back(account), self.amount()
            if 1 <= target <= len(account.posts):
                post = account.posts[target - 1].post
                corrected = self.machine.corrected(account)
                if post.word in AMENDABLE:
                    old = corrected.day[target]
                    amends = [k.post for k in account.posts
                              if k.post.word == "amend" and k.post.target == target]
                    own = amends[-1].cents if amends else post.cents
                    self.undo.append((name, target, old, own))
                    if self.chance(50):
                        day = old
                    elif self.chance(50):
                        day = min(self.today, max(account.anchor.opened,
                                                  old + self.draw.randint(-40, 40)))
                    if self.chance(25):
                        cents = own
                    elif self.chance(15):
                        cents = 0
        self.emit(f"amend {name} {self.key()} {target} {day_text(day)} {cents}")
