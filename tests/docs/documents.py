"""The repository's documents, and their blocks of code.

A block is fenced, and says what it is: `sh` is run, `output` is printed by the block of `sh` before it, `json` is read,
`yaml` is a job whose lines tests/install runs, and `text` or nothing is a figure or a form. A comment right above a block of `sh` says what is special:

    <!-- status: 1 -->              the status that it ends with, if that isn't 0
    <!-- needs: root, sqfs2tar -->  what it can't be run without: root, the `built` or `unproved` program of this
                                    checkout, or other programs
    <!-- skip: the reason -->       why no test runs it
"""

from __future__ import annotations

import re
from collections.abc import Iterator
from dataclasses import dataclass, field
from pathlib import Path

ROOT = Path(__file__).resolve().parents[2]
KINDS = ("sh", "output", "json", "yaml", "text", "")
_FENCE = re.compile(r"```(\w*)$")
_NOTE = re.compile(r"<!-- (status|needs|skip): (.+) -->$")
_MADE = {"out", "try", ".git"}  # folders that aren't the repository's


@dataclass(frozen=True)
class Block:
    """A block of code: its document, its first line there, its kind, its text, and what the notes above it say."""

    document: Path
    line: int
    kind: str
    text: str
    notes: dict[str, str] = field(default_factory=dict)

    @property
    def place(self) -> str:
        """Where it is."""
        return f"{self.document.relative_to(ROOT)}:{self.line}"

    @property
    def status(self) -> int:
        """The status that it ends with."""
        return int(self.notes.get("status", "0"))

    @property
    def needs(self) -> list[str]:
        """What it can't be run without."""
        return [need.strip() for need in self.notes.get("needs", "").split(",") if need]


def documents() -> list[Path]:
    """All documents."""
    return sorted(path for path in ROOT.rglob("*.md") if not _MADE & set(path.relative_to(ROOT).parts))


def lines_outside(document: Path) -> Iterator[str]:
    """The lines of a document outside of its blocks."""
    is_inside = False
    for line in document.read_text(encoding="utf-8").splitlines():
        if line.lstrip().startswith("```"):
            is_inside = not is_inside
        elif not is_inside:
            yield line


def blocks_of(document: Path) -> Iterator[Block]:
    """The blocks of a document, in order."""
    notes: dict[str, str] = {}
    kind, first, lines = None, 0, list[str]()
    for number, line in enumerate(document.read_text(encoding="utf-8").splitlines(), 1):
        fence, note = _FENCE.match(line.strip()), _NOTE.match(line)
        if kind is None and fence:
            kind, first, lines = fence[1], number, []
        elif kind is not None and fence:
            yield Block(document, first, kind, "".join(f"{line}\n" for line in lines), notes)
            kind, notes = None, {}
        elif kind is not None:
            lines.append(line)
        elif note:
            notes[note[1]] = note[2]
        elif line.strip():
            notes = {}
