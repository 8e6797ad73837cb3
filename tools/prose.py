#!/usr/bin/env python3
"""Looks at the words of documents and comments: turns that are refused, and how long each document may be.

A turn is refused in prose and in comments of the crates: not in code, not in what a script makes, not in a word that is
explained. A word counts if it has a letter or a digit; blocks of code, comments and what a script makes don't count.

    python3 -B tools/prose.py             # what is refused, and what is too long
    python3 -B tools/prose.py --lengths   # the words of each document
"""

from __future__ import annotations

import re
import sys
from collections.abc import Iterator
from pathlib import Path

TOP = Path(__file__).resolve().parent.parent
# The most words of each document, and of all together.
LENGTHS = {
    "README.md": 1_100, "docs/TUTORIAL.md": 2_000, "docs/ARCHITECTURE.md": 1_500, "docs/DEVELOPING.md": 1_200,
    "docs/HEADLINE.md": 2_500, "docs/PROVED.md": 1_200, "docs/GLOSSARY.md": 900, "docs/GATE.md": 400,
    "docs/DECISIONS.md": 5_200, "docs/PROFILE.md": 5_300, "docs/FORMATS.md": 2_700,
    "convert/README.md": 4_350, "bench/README.md": 600, "bench/FIGURES.md": 2_200, "examples/README.md": 600,
    "tests/README.md": 600, "docs/CI.md": 200,
}
ALL = 30_000
# What is refused, and what to write.
TURNS = {
    r"tell|tells|told": "report, print, state",
    r"alone": "only, by itself",
    r"stands?(?= (?:at|there|in|on|before|after|between|under|among|beside|here)\b)(?! in (?:the way|a library's place))|stood|standing": "is",
    r"(?:only|except|exactly|but|else|even|save) where": "if, when",
    r"so many": "n, as many",
    r"behind": "after",
    r"wants? (?:of )?memory|want of": "out of memory, lack of",
}
_TURNS = {re.compile(rf"(?<![-\w])(?:{turn})(?![-\w])", re.MULTILINE): better for turn, better in TURNS.items()}
_MADE = re.compile(r"<!-- made by .*?<!-- end -->|<!--.*?-->", re.DOTALL)
_BLOCK = re.compile(r"^```.*?^```$", re.DOTALL | re.MULTILINE)
_CODE = re.compile(r"`[^`\n]*`|\]\([^)]*\)|\"[^\"\n]*\"")
# What a line of a crate says beside its code; an example in it is code.
_COMMENT = re.compile(r"(?://[/!]?|--) ((?!\s|\w+\().*)")
_EXPLAINED = re.compile(r"^\| [^|]* \|", re.MULTILINE)  # the first cell of a row
_NOT_OURS = {"out", "try", ".git"}


def documents() -> list[Path]:
    """All documents."""
    return sorted(path for path in TOP.rglob("*.md") if not _NOT_OURS & set(path.relative_to(TOP).parts))


def _blank(pattern: re.Pattern[str], text: str) -> str:
    """The text with what matches as empty lines, so that lines keep their numbers."""
    return pattern.sub(lambda found: "\n" * found[0].count("\n") or " ", text)


def prose_of(path: Path) -> str:
    """A document without code, and without what a script makes."""
    text = _blank(_BLOCK, _blank(_MADE, path.read_text(encoding="utf-8")))
    return text


def words_of(path: Path) -> int:
    """How many words a document has."""
    return sum(bool(re.search(r"\w", word)) for word in prose_of(path).split())


def turns() -> Iterator[str]:
    """The turns that are refused, each with its place, in documents, manual pages, and comments of the crates."""
    for path in [*documents(), *sorted((TOP / "man").iterdir())]:
        text = _blank(_EXPLAINED, _blank(_CODE, prose_of(path)))
        for number, line in enumerate(text.splitlines(), 1):
            yield from _refused(path, number, line)
    for path in sorted(it for kind in ("rt", "antt") for it in (TOP / "crates").rglob(f"*.{kind}")):
        if not _NOT_OURS & set(path.relative_to(TOP).parts):
            for number, line in enumerate(path.read_text(encoding="utf-8").splitlines(), 1):
                if comment := _COMMENT.search(line):
                    yield from _refused(path, number, _CODE.sub(" ", comment[1]))


def _refused(path: Path, number: int, text: str) -> Iterator[str]:
    for turn, better in _TURNS.items():
        for found in turn.finditer(text):
            yield f"{path.relative_to(TOP)}:{number}: {found[0].strip()!r}: {better}"


def lengths() -> Iterator[str]:
    """The documents that are too long."""
    for path in documents():
        name = str(path.relative_to(TOP))
        if (words := words_of(path)) > LENGTHS.get(name, 0):
            yield f"{name} has {words} words, more than {LENGTHS.get(name, 0)}"
    if (words := sum(map(words_of, documents()))) > ALL:
        yield f"all documents have {words} words, more than {ALL}"


def main(words: list[str]) -> int:
    """Prints what is to be mended, or the lengths."""
    if words == ["--lengths"]:
        for path in documents():
            print(f"{words_of(path):6,} {path.relative_to(TOP)}")
        print(f"{sum(map(words_of, documents())):6,} in all")
        return 0
    found = [*turns(), *lengths()]
    print("\n".join(found) or "the documents' words are in order")
    return 1 if found else 0


if __name__ == "__main__":
    sys.exit(main(sys.argv[1:]))
