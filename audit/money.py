"""Cents, rates in basis points, and how both are printed."""

CENTS_LIMIT = 10 ** 13  # interest takes no balance past this


def daily(rate: int) -> int:
    """The daily rate in units of 10^-9: the yearly rate over 365, rounded down."""
    return rate * 100_000 // 365


def interest(total: int) -> int:
    """Cents of a sum of balance times daily rate, rounded half up."""
    return (total + 500_000_000) // 1_000_000_000


def portion(balance: int, pct: int) -> int:
    """The part of a balance that a percentage in basis points gives, rounded down."""
    return balance * pct // 10_000


def half_up(total: int, count: int) -> int:
    """`total / count` rounded half up, for a total that isn't negative."""
    return (2 * total + count) // (2 * count) if count else 0


def money_text(cents: int) -> str:
    """An optional minus, the units, a point and two digits."""
    sign = "-" if cents < 0 else ""
    return f"{sign}{abs(cents) // 100}.{abs(cents) % 100:02d}"


def rate_text(rate: int) -> str:
    """1999 basis points print as 19.99%."""
    return f"{rate // 100}.{rate % 100:02d}%"


def daily_text(rate: int) -> str:
    """The daily rate of a yearly rate, as `0.` and nine digits."""
    return f"0.{daily(rate):09d}"
