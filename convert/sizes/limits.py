"""How much of the bytes may be wasted."""

import re
from dataclasses import dataclass
from fractions import Fraction

_SHARE = re.compile(r"(\d{1,3}(?:\.\d{1,9})?) ?%")
_AMOUNT = re.compile(r"(\d{1,18}) ?([KMGT]?)(i?)(B?)")
_POWERS = {"": 0, "K": 1, "M": 2, "G": 3, "T": 4}


@dataclass(frozen=True)
class Limit:
    """A share in percent, or a number of bytes, and how it was given."""

    text: str
    percent: Fraction | None = None
    bytes: int = 0

    def is_exceeded(self, wasted: int, total: int) -> bool:
        """Whether more is wasted; nothing is rounded."""
        if self.percent is None:
            return wasted > self.bytes
        return wasted * 100 > self.percent * total


def limit_of(text: str) -> Limit | None:
    """The limit that a word means: `10%`, `50MB` (10^6 each), `50MiB` or `50M` (2^20 each), or bytes; or none."""
    if share := _SHARE.fullmatch(text):
        percent = Fraction(share[1])
        return Limit(f"{share[1]} %", percent) if percent <= 100 else None
    amount = _AMOUNT.fullmatch(text)
    if amount is None or (amount[3] and not (amount[2] and amount[4])):
        return None
    unit = 1_000 if amount[4] and not amount[3] else 1_024
    return Limit(text, bytes=int(amount[1]) * unit ** _POWERS[amount[2]])
