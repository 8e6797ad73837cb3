"""Colours on standard output: if it is a terminal, or as the user says."""

import os
import sys
from enum import Enum


class When(Enum):
    """Whether there are colours."""

    AUTO = "auto"
    ALWAYS = "always"
    NEVER = "never"


class Colour(Enum):
    """Those that every terminal has, by their numbers."""

    RED = 31
    GREEN = 32
    YELLOW = 33
    BLUE = 34
    MAGENTA = 35
    CYAN = 36


_when = When.AUTO


def choose_colours(when: When) -> None:
    """Has the commands of this process print colours or not."""
    global _when  # pylint: disable=global-statement
    _when = when


def painted(text: str, colour: Colour | None) -> str:
    """A text for standard output in a colour, if there are any and it has one."""
    return f"\x1b[{colour.value}m{text}\x1b[0m" if colour is not None and _has_colours() else text


def _has_colours() -> bool:
    if _when is not When.AUTO:
        return _when is When.ALWAYS
    return not os.environ.get("NO_COLOR") and os.environ.get("TERM") != "dumb" and sys.stdout.isatty()
