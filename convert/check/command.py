"""`check`: whether what a source holds is fit to ship."""

import itertools
import json
import os
import tempfile
from collections.abc import Callable, Iterable, Iterator
from dataclasses import dataclass, replace

from ..common.amounts import amount_text, per_cent
from ..common.colours import Colour, painted
from ..common.escaping import printable
from ..common.faults import FAULTY, Fault, UsageFault
from ..common.outputs import passing_folder
from ..common.program import require_program, run_program, words_of
from ..common.progress import counted
from ..image.base import layers_of_base
from ..image.configuration import Document
from ..image.images import Spoilt
from ..image.members import STANDARD_INPUT
from ..look.shown_tree import opened_tree
from ..look.sources import Shown, Source, is_tree, shown_by
from ..sizes.history import Step, short_command, steps_of
from ..sizes.layer_sizes import sizes_of
from ..sizes.limits import Limit
from ..sizes.waste import Kind, Place, Waste, waste_of
from .configuration import configuration_findings
from .contents import Contents
from .findings import Finding, Level, ordered
from .shipped import credential_findings
from .stack import stack_findings

_VERSION = 1
_CHECKED = "fsck"
_MOST_LETTERS = 60  # of a command
_LEAST_SHARE = 100  # a place is listed from this part of all bytes on


class Unfit(Fault):
    """It isn't fit, which the verdict says."""

    status = FAULTY

    def __init__(self) -> None:
        super().__init__("")


@dataclass(frozen=True, kw_only=True)
class CheckOptions:
    """What the words of `check` say."""

    source: Source
    max_waste: Limit | None = None
    base: str | None = None  # an image, or how many of the layers, the lowest ones
    is_strict: bool = False
    as_json: bool = False


@dataclass(frozen=True)
class _Answer:
    """What was found, in order, and what is wasted, if that was looked at."""

    findings: list[Finding]
    is_strict: bool
    waste: Waste | None = None

    def count(self, level: Level) -> int:
        """How many findings are of a level."""
        return sum(it.level is level for it in self.findings)

    @property
    def is_fit(self) -> bool:
        """Whether it may be shipped."""
        return not self.count(Level.FAULT) and not (self.is_strict and self.count(Level.WARNING))


def check(options: CheckOptions, print_lines: Callable[[Iterable[str]], None]) -> None:
    """Prints what is found, and the verdict; fails if that isn't good."""
    answer = _answer(options)
    print_lines(_json_lines(answer) if options.as_json else _lines(answer, options.source.name))
    if not answer.is_fit:
        raise Unfit


def _answer(options: CheckOptions) -> _Answer:
    word = options.source.word
    if word and is_tree(word):
        raise UsageFault(f"{word} is a tree without layers; `--stack {word}` takes it as a layer")
    if options.base == word == STANDARD_INPUT:
        raise UsageFault("the image and its base can't both be standard input")
    with passing_folder(tempfile.gettempdir()) as folder:
        try:
            shown = shown_by(options.source, folder, with_contents=True)
        except Spoilt as fault:
            words = f"{fault.reason}; nothing else was looked at"
            return _Answer([Finding(Level.FAULT, "digest", words, fault.path, fault.layer)], options.is_strict)
        return _of_shown(options, shown, folder)


def _of_shown(options: CheckOptions, shown: Shown, folder: str) -> _Answer:
    """What is found of layers that could be read."""
    blobs = os.path.abspath(str(shown.blobs))
    base = layers_of_base(options.base, len(shown.layers), shown.image, options.source.name)
    layers = [_seen_in(folder, layer) for layer in shown.layers]
    words = words_of("fsck", layers, _seen_in(folder, blobs), "", shown.data_layers)
    run_program(require_program(()), words, folder, _CHECKED, None)
    sizes = sizes_of(shown.layers, shown.data_layers, shown.report)
    waste = waste_of(sizes, base)
    contents, configuration = Contents(blobs), shown.configuration
    with opened_tree(shown.report) as tree:
        findings = ordered(itertools.chain(
            stack_findings(f"{folder}/{_CHECKED}"), credential_findings(sizes, contents),
            _waste_findings(waste, options.max_waste),
            () if configuration is None else configuration_findings(configuration, tree, contents),
        ))
    return _Answer(_with_steps(findings, configuration or {}, len(layers)), options.is_strict, waste)


def _with_steps(findings: Iterable[Finding], configuration: Document, count: int) -> list[Finding]:
    """Findings of layers with the steps of the history that made these, if it has as many."""
    steps = steps_of(configuration, count)[::-1]
    return [it if it.layer is None else _with_step(it, steps[it.layer]) for it in findings]


def _with_step(finding: Finding, step: Step | None) -> Finding:
    if step is None:
        return finding
    command = short_command(step.made_by or "")
    short = command if len(command) <= _MOST_LETTERS else f"{command[:_MOST_LETTERS]}.."
    return replace(finding, words=f"{finding.words} (step {step}{': ' * bool(short)}{short})")


def _seen_in(folder: str, path: str) -> str:
    """A path as a program takes it that runs in a folder."""
    return path.removeprefix(f"{folder}/")


def _waste_findings(waste: Waste, limit: Limit | None) -> Iterator[Finding]:
    if limit is not None and limit.is_exceeded(waste.bytes, waste.total):
        yield Finding(Level.FAULT, "max-waste", f"{_wasted(waste)}, more than {limit.text}")
    for place in waste.places:
        if place.bytes * _LEAST_SHARE >= waste.total:
            layer = None if place.cause is None else place.cause.layer
            yield Finding(Level.NOTE, "waste", _place_words(place), place.path, layer)


def _wasted(waste: Waste) -> str:
    whole = amount_text(waste.total) + (" over the base" if waste.has_base else "")
    return f"{amount_text(waste.bytes)} of {whole} ({per_cent(waste.bytes, waste.total)}) are wasted"


def _place_words(place: Place) -> str:
    """What is wasted at a place, and by which deed of the layer."""
    if place.cause is None:
        return f"{amount_text(place.bytes)} wasted by several layers"
    deed = {
        Kind.REMOVED: "that this layer removes", Kind.REPLACED: "that this layer replaces",
        Kind.DUPLICATE: "that lower layers have too", Kind.UNUSED: "that nothing leads to",
    }[place.cause.kind]
    return f"{amount_text(place.bytes)} {deed}"


def _lines(answer: _Answer, source: str) -> Iterator[str]:
    yield from (f"{it.line()}\n" for it in answer.findings)
    yield f"{printable(source)} {_verdict(answer)}\n"


def _verdict(answer: _Answer) -> str:
    """Whether it is fit, how much was found, and what is wasted."""
    faults, warnings, notes = map(answer.count, Level)
    counts = ", ".join([
        counted(faults, "fault", "faults"), counted(warnings, "warning", "warnings"), counted(notes, "note", "notes"),
    ])
    wasted = f"; {_wasted(answer.waste)}" if answer.waste and answer.waste.bytes else ""
    strictly = " by --strict" if warnings and not faults and not answer.is_fit else ""
    fit = painted("fit", Colour.GREEN) if answer.is_fit else painted("not fit", Colour.RED)
    return f"is {fit} to ship{strictly}: {counts}{wasted}"


def _json_lines(answer: _Answer) -> Iterator[str]:
    waste = answer.waste
    yield json.dumps({
        "layers-check": _VERSION,
        "fit": answer.is_fit,
        **{f"{level.value}s": answer.count(level) for level in Level},
        "wasted": None if waste is None else waste.bytes,
        "bytes": None if waste is None else waste.total,
        "findings": [it.object() for it in answer.findings],
    }, indent=1) + "\n"
