"""What is printed of a step: bars on a terminal, lines elsewhere, notes, and how much the user asks for."""

import contextlib
import io
import os
import pty
import unittest
from collections.abc import Callable
from unittest import mock

from support import FolderTest, call  # noqa: F401

from convert.common import progress
from convert.common.bars import Share, bar, time_text
from convert.common.huge_pages import with_huge_pages
from convert.common.progress import Progress, Verbosity, choose_verbosity, detail, layers_at_work, note

_SHARES = (
    (Share(0, None, 3.2), "0:03"), (Share(1_234, None, 61), "1,234, 1:01"), (Share(0, 10, 5), "0 %"),
    (Share(5, 10, 0.5), "50 %"),
    (Share(5, 10, 60), "50 %, 1:00 left"), (Share(1, 4, 3_600), "25 %, 3:00:00 left"), (Share(9, 7, 9), "100 %, 0:00 left"),
    (Share(3, 0, 1), "3, 0:01"),
)
_STATE = "convert.common.huge_pages._STATE"


class Pictures(unittest.TestCase):
    """Shares and bars."""

    def test_shares(self) -> None:
        for far, text in _SHARES:
            self.assertEqual(str(far), text)
        self.assertEqual([time_text(it) for it in (0, 59.6, 3_661)], ["0:00", "1:00", "1:01:01"])

    def test_bars(self) -> None:
        far = Share(1, 4, 30)
        self.assertEqual(bar("packing", far, 80), f"packing  [{'#' * 7}{'.' * 23}]  25 %, 1:30 left")
        self.assertEqual(bar("packing", Share(7, None, 1), 80), "packing  7, 0:01")
        for columns in range(200):
            line = bar("layer 2 of 5: packing", far, columns)
            self.assertLess(len(line), max(columns, 1), line)
            self.assertEqual("[" in line, columns >= 48, line)


class Printing(unittest.TestCase):
    """What comes to standard error, with a clock of its own."""

    def printed(self, act: Callable[[], None], is_terminal: bool = False) -> str:
        """What is printed; a step of a clock goes with each look at it."""
        out, times = io.StringIO(), iter(range(1_000))
        out.isatty = lambda: is_terminal  # type: ignore[method-assign]
        with (
            contextlib.redirect_stderr(out), mock.patch.object(progress, "_EVERY_LINE", 10.0),
            mock.patch.object(progress.time, "monotonic", lambda: float(next(times))),
        ):
            act()
        return out.getvalue()

    def count(self) -> None:
        """Two layers of a hundred steps each."""
        for size in layers_at_work([50, 100]):
            shown = Progress("unpacking", size)
            for _ in range(size):
                shown.step()
            note("between")
            shown.end()

    def test_lines(self) -> None:
        lines = self.printed(self.count).splitlines()
        self.assertEqual(len(lines), 4 + 1 + 11 + 1)
        self.assertEqual(lines[0], "layers: layer 1 of 2: unpacking: 20 %, 0:44 left")
        self.assertEqual(lines[5], "layers: between")
        self.assertTrue(lines[6].startswith("layers: layer 2 of 2: unpacking: 10 %"), lines[6])

    def test_a_terminal(self) -> None:
        text = self.printed(self.count, is_terminal=True)
        self.assertNotIn("layers: layer", text)
        pieces = text.split("\r")
        self.assertEqual(pieces[-1], "layers: between\n")
        self.assertIn("layer 1 of 2: unpacking  [", pieces[1])
        at = text.index("layers: between")
        self.assertEqual(text[at - 1], "\r")
        self.assertEqual(set(text[text.rindex("\r", 0, at - 1) + 1:at - 1]), {" "})

    def test_without_a_total(self) -> None:
        def act() -> None:
            shown = Progress("ovl_layers show")
            for _ in range(12):
                shown.step(0)

        self.assertEqual(self.printed(act), "layers: ovl_layers show: 0:11\n")

    def test_how_much(self) -> None:
        def act() -> None:
            self.count()
            detail("in detail")

        for verbosity, has_notes, has_details in ((0, False, False), (1, True, False), (2, True, True)):
            choose_verbosity(Verbosity(verbosity))
            try:
                text = self.printed(act)
            finally:
                choose_verbosity(Verbosity.USUAL)
            self.assertEqual(("between" in text, "in detail" in text), (has_notes, has_details), text)
            self.assertEqual("unpacking" in text, has_notes)

    def test_a_real_terminal(self) -> None:
        """It is as wide as the terminal says."""
        child, terminal = pty.fork()
        if child == 0:
            try:
                with mock.patch.object(progress, "_EVERY", 0.0):
                    shown = Progress("packing", 3)
                    shown.step()
                    shown.end()
            finally:
                os._exit(0)
        with open(terminal, "rb", buffering=0) as file:
            text = b""
            with contextlib.suppress(OSError):
                while data := os.read(file.fileno(), 1_000):
                    text += data
        os.waitpid(child, 0)
        self.assertTrue(text.startswith(b"\rpacking  [##########...................."), text)


class HugePages(FolderTest):
    """What the program's environment says of them."""

    def test_environments(self) -> None:
        own = "glibc.malloc.hugetlb=1"
        for state, stated, wanted in (
            ("always [madvise] never", None, own), ("[always] madvise never", "", own),
            ("always madvise [never]", None, None),
            ("[madvise]", "glibc.malloc.check=3", f"glibc.malloc.check=3:{own}"), (None, "a=b", "a=b"),
            ("[madvise]", "glibc.malloc.hugetlb=0:a=b", "glibc.malloc.hugetlb=0:a=b"),
        ):
            if state is not None:
                with open(self.path("state"), "w", encoding="ascii") as file:
                    file.write(state + "\n")
            with mock.patch(_STATE, self.path("state" if state else "absent")):
                given = {"A": "b"} if stated is None else {"A": "b", "GLIBC_TUNABLES": stated}
                self.assertEqual(with_huge_pages(given).get("GLIBC_TUNABLES"), wanted)
                self.assertEqual(with_huge_pages(given)["A"], "b")


if __name__ == "__main__":
    unittest.main()
