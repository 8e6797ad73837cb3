"""What the proved `fsck` finds in layers and their contents."""

from collections.abc import Iterator, Mapping

from ..common.escaping import unescaped
from ..common.faults import Fault, reading
from ..common.program import NAME
from .findings import Finding, Level

_MEANINGS: Mapping[str, str] = {
    "redirect-form": "the redirect is malformed",
    "redirect-lost": "what the directory had in lower layers is lost",
    "redirect-kind": "the redirect leads to no directory, so what it had in lower layers is lost",
    "redirect-double": "another directory of the layer has the same old place",
    "redirect-open": "the old place isn't hidden",
    "data-missing": "no layer below has the contents",
    "data-size": "the contents below have another size",
    "blob-missing": "the contents are missing",
    "blob-size": "the contents have another size",
    "blob-digest": "the contents have another digest",
    "orphan-whiteout": "the whiteout hides nothing",
    "whiteout-in-opaque": "the whiteout is in an opaque directory, which hides all by itself",
    "whiteout-unmarked": "the directory isn't marked for whiteouts by attribute",
    "impure-missing": "the directory isn't marked as impure",
    "mark-ignored": "an overlay attribute means nothing",
}
_FIELDS = 4


def stack_findings(report: str) -> Iterator[Finding]:
    """The findings of a report of `fsck` in a file, which must be whole."""
    counts = {Level.FAULT: 0, Level.NOTE: 0}
    with reading(report), open(report, encoding="ascii", errors="replace", newline="\n") as file:
        for text in file:
            fields = text.removesuffix("\n").split(" ")
            if fields[0] == "faults":
                if text != f"faults {counts[Level.FAULT]} notes {counts[Level.NOTE]}\n" or file.read(1):
                    raise _broken(text)
                return
            finding = _finding_of(fields)
            if finding is None:
                raise _broken(text)
            counts[finding.level] += 1
            yield finding
    raise _broken("its end")


def _finding_of(fields: list[str]) -> Finding | None:
    levels = {level.value: level for level in (Level.FAULT, Level.NOTE)}
    if len(fields) != _FIELDS or fields[0] not in levels or not fields[2].isdecimal():
        return None
    path = unescaped(fields[3]).decode("utf-8", "surrogateescape")
    return Finding(levels[fields[0]], fields[1], _MEANINGS.get(fields[1], "see PROFILE.md"), path, int(fields[2]))


def _broken(text: str) -> Fault:
    return Fault(f"{NAME} fsck gave no whole report: {text!r}; please report this")
