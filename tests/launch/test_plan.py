"""How many jobs the launcher gives a proof, and what it says of the time that is left."""

import sys
import unittest
from pathlib import Path

sys.path.insert(0, str(Path(__file__).resolve().parents[2] / "launch"))

from crates import Crate  # noqa: E402
from forecast import Forecast  # noqa: E402
from prove import jobs_of  # noqa: E402


def crate(length: int, chain: int) -> Crate:
    """A crate of so many lines."""
    return Crate("c", "c:", (), length, chain)


class Jobs(unittest.TestCase):
    """The jobs of a proof."""

    def test_jobs(self) -> None:
        for places, count, longest, wanted in (
            (4, 1, True, 4), (4, 2, True, 4), (4, 2, False, 2), (4, 4, True, 2), (4, 4, False, 1),
            (1, 1, True, 1), (2, 2, True, 2), (2, 2, False, 1), (16, 2, True, 4), (16, 16, False, 1),
        ):
            with self.subTest(places=places, count=count, longest=longest):
                self.assertEqual(jobs_of(places, count, longest), wanted)


class Left(unittest.TestCase):
    """The minutes that are left."""

    def test_minutes(self) -> None:
        for name, left, so_far, wanted in (
            ("too little is done", [crate(901, 901)], 60, None),
            ("a tenth is done", [crate(900, 900)], 60, 9),
            ("two by two", [crate(50, 50), crate(50, 50)], 60, 1),
            ("one after another", [crate(50, 100), crate(50, 50)], 30, 1),
            ("a chain of several", [crate(50, 300), crate(200, 200)], 30, 3),
            ("rounded up", [crate(101, 101)], 60, 2),
            ("nothing", [], 60, 0),
        ):
            with self.subTest(name):
                forecast = Forecast()
                forecast.add(crate(60, 1000), 36)
                forecast.add(crate(40, 1000), 24)
                self.assertEqual(forecast.minutes(left, so_far), wanted)


if __name__ == "__main__":
    unittest.main()
