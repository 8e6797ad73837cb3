"""How the values of options are read: each from its text, or refused with what it should be."""

from __future__ import annotations

import argparse
from collections.abc import Callable, Mapping
from typing import TYPE_CHECKING

from .model.rules import MAX_LAYERS
from .model.workers import MOST_WORKERS

if TYPE_CHECKING:
    from .image.compression import Compression
    from .sizes.limits import Limit

ALL = "all"  # platforms
_PLATFORM = "a platform is OS/ARCH, OS/ARCH/VARIANT or ARCH"
_MOST_DIGITS = 9


def workers(text: str) -> int:
    """How many processes."""
    number = int(text)
    if not 1 <= number <= MOST_WORKERS:
        raise argparse.ArgumentTypeError(f"workers must be 1 to {MOST_WORKERS}")
    return number


def compression(levels: Mapping[str, range]) -> Callable[[str], Compression]:
    """Reads one of these methods, with or without a level."""
    from .image.compression import compression_of

    def read(text: str) -> Compression:
        found = compression_of(text)
        problem = "it is a method, or one with its level, such as gzip:9" if found is None else found.problem(levels)
        if found is None or problem:
            raise argparse.ArgumentTypeError(str(problem))
        return found

    return read


def layers(text: str) -> int:
    """How many layers are left."""
    number = int(text)
    if not 1 <= number <= MAX_LAYERS:
        raise argparse.ArgumentTypeError(f"layers must be 1 to {MAX_LAYERS}")
    return number


def data_layers(text: str) -> int:
    """How many layers are data-only."""
    number = int(text)
    if not 0 <= number < MAX_LAYERS:
        raise argparse.ArgumentTypeError(f"data-only layers must be 0 to {MAX_LAYERS - 1}")
    return number


def number(text: str) -> int:
    """The number of a layer."""
    if not text.isascii() or not text.isdecimal() or len(text) > _MOST_DIGITS:
        raise argparse.ArgumentTypeError("a layer is a number, from 0, the topmost")
    return int(text)


def limit(text: str) -> Limit:
    """How much may be wasted."""
    from .sizes.limits import limit_of

    limit = limit_of(text)
    if limit is None:
        raise argparse.ArgumentTypeError("a limit is a share from 0% to 100%, or bytes, such as 50MB or 50MiB")
    return limit


def percent(text: str) -> Limit:
    """The same as a share, without its sign."""
    from .sizes.limits import limit_of

    limit = limit_of(f"{text}%")
    if limit is None:
        raise argparse.ArgumentTypeError("a share is a number from 0 to 100")
    return limit


def aspects(text: str) -> frozenset[str]:
    """What isn't compared, with commas between."""
    from .look.changes import ASPECTS

    aspects = frozenset(text.split(","))
    if not aspects <= set(ASPECTS):
        raise argparse.ArgumentTypeError(f"what is ignored is one of {', '.join(ASPECTS)}, or several with commas")
    return aspects


def platform(text: str) -> str:
    """A platform, as images have it."""
    from .image.platforms import platform_named

    found = platform_named(text)
    if text == ALL:
        raise argparse.ArgumentTypeError(f"{ALL} is for flatten alone")
    if found is None:
        raise argparse.ArgumentTypeError(_PLATFORM)
    return str(found)


def platform_or_all(text: str) -> str:
    """The same, or all of them."""
    return text if text == ALL else platform(text)


def whole_platform(text: str) -> str:
    """The same with a processor, as an image has one."""
    found = platform(text)
    if "/" not in found:
        raise argparse.ArgumentTypeError(_PLATFORM)
    return found


def name(text: str) -> str:
    """A name in UTF-8."""
    try:
        text.encode()
    except UnicodeEncodeError:
        raise argparse.ArgumentTypeError("a name isn't UTF-8") from None
    return text
