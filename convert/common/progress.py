"""What is printed on standard error besides a fault: how far a step is, and notes."""

import contextlib
import os
import sys
import time
from collections.abc import Iterable, Iterator
from enum import IntEnum
from typing import TypeVar

from .bars import Share, bar
from .escaping import printable

_EVERY = 0.2  # seconds between two pictures on a terminal
_EVERY_LINE = 10.0  # seconds between two lines elsewhere
_USUAL_COLUMNS = 80
_NAME = "layers"
_T = TypeVar("_T")


class Verbosity(IntEnum):
    """How much is printed: faults; notes and progress too; and what is done."""

    QUIET = 0
    USUAL = 1
    VERBOSE = 2


_verbosity = Verbosity.USUAL
_shared: memoryview | None = None
_place = ""  # which of several layers is at work
_width = 0  # of the line that is on the terminal


def choose_verbosity(verbosity: Verbosity) -> None:
    """Has the commands of this process print as much."""
    global _verbosity  # pylint: disable=global-statement
    _verbosity = verbosity


def share_progress(count: memoryview) -> None:
    """Has this process show no progress, but add it to a number of another one, which does."""
    global _shared, _width  # pylint: disable=global-statement
    _shared, _width = count, 0


def layers_at_work(layers: Iterable[_T]) -> Iterator[_T]:
    """Layers, or what there is of each. Until the next one is asked for, progress says which of them is at work."""
    global _place  # pylint: disable=global-statement
    listed = list(layers)
    try:
        for number, layer in enumerate(listed, 1):
            _place = f"layer {number} of {len(listed)}: "
            yield layer
    finally:
        _place = ""


class Progress:
    """How far a step is: on a terminal a line rewritten in place, elsewhere a line each ten seconds."""

    def __init__(self, step: str, total: int | None = None) -> None:
        self._step = printable(step)
        self._count = 0
        self._total = total
        self._is_shown = _shared is None and _verbosity > Verbosity.QUIET
        self._is_drawn = self._is_shown and sys.stderr.isatty()
        self._every = _EVERY if self._is_drawn else _EVERY_LINE
        self._begun = time.monotonic()
        self._next = self._begun + self._every

    def expect(self, total: int | None) -> None:
        """Says how far it counts, if that is known."""
        self._total = total

    def step(self, by: int = 1) -> None:
        """Counts on, and now and then says so."""
        self._count += by
        if _shared is not None:
            _shared[0] += by
        if self._is_shown and time.monotonic() >= self._next:
            self._show()

    def step_to(self, count: int) -> None:
        """Counts on to a number."""
        self.step(count - self._count)

    def seconds(self) -> float | None:
        """How long to wait before the next step, if it is shown."""
        return self._every if self._is_shown else None

    def end(self) -> None:
        """Takes the line away."""
        clear_line()

    def _show(self) -> None:
        now = time.monotonic()
        self._next = now + self._every
        far = Share(self._count, self._total, now - self._begun)
        if self._is_drawn:
            _draw(bar(_place + self._step, far, _columns()))
        else:
            print(f"{_NAME}: {_place}{self._step}: {far}", file=sys.stderr, flush=True)


def _columns() -> int:
    with contextlib.suppress(OSError, ValueError):
        return os.get_terminal_size(sys.stderr.fileno()).columns or _USUAL_COLUMNS
    return _USUAL_COLUMNS


def _draw(line: str) -> None:
    """Puts a line in place of the one that is there."""
    global _width  # pylint: disable=global-statement
    print(f"\r{line.ljust(_width)}", end="", file=sys.stderr, flush=True)
    _width = len(line)


def clear_line() -> None:
    """Takes away the line of a step that is on the terminal."""
    global _width  # pylint: disable=global-statement
    if _width:
        print(f"\r{' ' * _width}\r", end="", file=sys.stderr, flush=True)
        _width = 0


def complain(text: str) -> None:
    """Prints what ends the command, in one line whatever names are in it."""
    clear_line()
    print(f"{_NAME}: {printable(text)}", file=sys.stderr)


def note(text: str) -> None:
    """Prints something that doesn't end the command."""
    if _verbosity > Verbosity.QUIET:
        complain(text)


def note_path(path: str, text: str) -> None:
    """Prints something about a path that doesn't end the command."""
    note(f"{path}: {text}")


def detail(text: str) -> None:
    """Prints what is done, if that is asked for."""
    if _verbosity >= Verbosity.VERBOSE:
        note(text)


def counted(count: int, one: str, many: str) -> str:
    """`1 hard link`, `2 hard links`."""
    return f"{count:,} {one if count == 1 else many}"
