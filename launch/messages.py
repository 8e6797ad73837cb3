"""What the launcher prints on standard error."""

import sys
import time
from typing import NoReturn

FAILED = 126
_BEGUN = time.monotonic()


def say(text: str) -> None:
    """Prints a line."""
    print(f"ovl_layers: {text}", file=sys.stderr, flush=True)


def fail(text: str) -> NoReturn:
    """Prints a line, and ends with the status of a program that can't be run."""
    say(text)
    sys.exit(FAILED)


def seconds_so_far() -> float:
    """The time since the start."""
    return time.monotonic() - _BEGUN


def so_far() -> str:
    """The time since the start, to be read."""
    return as_time(seconds_so_far())


def as_time(seconds: float) -> str:
    """Minutes and seconds."""
    return f"{int(seconds) // 60}:{int(seconds) % 60:02}"
