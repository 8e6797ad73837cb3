"""What is found: faults, warnings and notes, each with a code, and their order."""

from collections import Counter
from collections.abc import Iterable
from dataclasses import dataclass
from enum import Enum
from typing import Any

from ..common.colours import Colour, painted
from ..common.escaping import printable

_NONE = "-"
_MOST_LETTERS = 4_096  # of a path and of words: a configuration may have more
_MOST_OF_A_CODE = 100


class Level(Enum):
    """How bad a finding is, the worst first."""

    FAULT = "fault"
    WARNING = "warning"
    NOTE = "note"


_COLOURS = {Level.FAULT: Colour.RED, Level.WARNING: Colour.YELLOW, Level.NOTE: Colour.CYAN}
_ORDER = {level: number for number, level in enumerate(Level)}


@dataclass(frozen=True)
class Finding:
    """Something that is found, of a layer, the topmost is 0, or of all; at a path, or at none."""

    level: Level
    code: str
    words: str
    path: str | None = None
    layer: int | None = None

    def order(self) -> tuple[Any, ...]:
        """By level, layer, path, code and words; what is of no layer or path comes first."""
        layer = -1 if self.layer is None else self.layer
        return _ORDER[self.level], layer, _names(self.path or ""), self.code, self.words

    def line(self) -> str:
        """For a person, without its end."""
        layer = _NONE if self.layer is None else self.layer
        place = _NONE if self.path is None else _shortened(self.path)
        return f"{painted(self.level.value, _COLOURS[self.level])} {self.code} {layer} {place}: {_shortened(self.words)}"

    def object(self) -> dict[str, Any]:
        """For a program."""
        return {
            "level": self.level.value, "code": self.code, "layer": self.layer, "path": self.path, "words": self.words,
        }


def ordered(findings: Iterable[Finding]) -> list[Finding]:
    """Findings in their order, the first ones of each code, and how many more it has."""
    counts, kept = Counter[tuple[Level, str]](), list[Finding]()
    for finding in findings:
        kind = finding.level, finding.code
        counts[kind] += 1
        if counts[kind] <= _MOST_OF_A_CODE:
            kept.append(finding)
    for (level, code), count in counts.items():
        if count > _MOST_OF_A_CODE:
            kept.append(Finding(level, code, f"and {count - _MOST_OF_A_CODE:,} more"))
    return sorted(kept, key=Finding.order)


def _shortened(text: str) -> str:
    return printable(text if len(text) <= _MOST_LETTERS else f"{text[:_MOST_LETTERS]}..")


def _names(path: str) -> list[bytes]:
    """The names of a path, by which it has its place in the order."""
    return path.encode("utf-8", "surrogateescape").split(b"/")
