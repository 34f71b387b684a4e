"""A shorter year of a made bank by `night` alone, with all its accidents (year.py)."""

from .year import Year


class Shorter(Year):
    def test_shorter(self) -> None:
        self.go_through(accounts=16, nights=40)
