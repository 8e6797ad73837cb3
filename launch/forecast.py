"""How long a first build still takes, by what this machine took so far."""

from __future__ import annotations

import math
from typing import Iterable

from crates import Crate

_LEAST_SHARE = 0.1  # of all lines, which must be proved before anything is said


class Forecast:
    """What the proofs took that are done: their lines, and their seconds one after another."""

    def __init__(self) -> None:
        self._lines = 0
        self._seconds = 0.0

    def add(self, crate: Crate, seconds: float) -> None:
        """A crate is proved."""
        self._lines += crate.length
        self._seconds += seconds

    def minutes(self, left: Iterable[Crate], so_far: float) -> int | None:
        """The minutes that are left, rounded up; none before there is enough to go by.

        All that is left takes as long a line as what is done took, side by side; and the longest chain, one proof
        after another, as long a line as one proof did.
        """
        crates = list(left)
        lines = sum(crate.length for crate in crates)
        if self._lines < _LEAST_SHARE * (self._lines + lines):
            return None
        chain = max((crate.chain for crate in crates), default=0)
        return math.ceil(max(so_far * lines, self._seconds * chain) / self._lines / 60)
