"""`vacuum`, `deref` and `merge` of layers on a disk: one new layer, which shows the same over those that stay."""

import contextlib
import os
import time
from collections.abc import Callable, Iterable, Sequence
from dataclasses import dataclass
from enum import Enum

from ..common.faults import UsageFault, reading
from ..common.open_dirs import place_of
from ..common.outputs import NEW
from ..common.progress import note_path
from ..model import stacks
from ..model.links import FirstNames, take_links
from ..model.manifests import read_manifest
from ..squashfs.layer_files import Form
from .stack import NewLayersOptions, StackRunner, new_layers_stage, require_sound
from .steps import REPORT, STACK, amount_in_place_of, new_layer, require_same, work_folder


class Rewriting(Enum):
    """What is done with the topmost layer, in the words of the program."""

    VACUUM = "vacuum"
    DEREF = "deref"
    MERGE = "merge"


@dataclass(frozen=True, kw_only=True)
class RewriteOptions:
    """What the words of these commands say."""

    rewriting: Rewriting
    new: NewLayersOptions
    down_to: int | None = None  # how many layers `merge` leaves, data-only ones not counted; else one less

    def ordinary(self) -> int:
        """How many layers aren't data-only."""
        return len(self.new.stack.layers) - self.new.data_layers

    def taken(self) -> int:
        """How many of the topmost layers the new one takes the place of."""
        if self.rewriting is not Rewriting.MERGE:
            return 1
        return 2 if self.down_to is None else self.ordinary() - self.down_to + 1


def rewrite(options: RewriteOptions, print_lines: Callable[[Iterable[str]], None]) -> None:
    """Writes the topmost layer anew, or those that are merged as one, and prints the report of that.

    Nothing is written unless all layers show, with the new one read again, what they showed, except for what was reported.
    """
    if options.new.is_standard_output():
        raise UsageFault(f"--out -: there goes the report of {options.rewriting.value}; name a folder or a file")
    forms = require_sound(options.new)
    _require_layers(options)
    begun = time.monotonic()
    with contextlib.ExitStack() as opened:
        with new_layers_stage(options.new) as stage, work_folder(stage.path, options.new.keep) as folder:
            rewriter = _Rewriter(options, folder, place_of(stage.file, NEW), forms)
            new = rewriter.carry_out()
            summary, report = rewriter.summary(new), rewriter.path(f"{os.path.dirname(new)}/{REPORT}")
            with reading(report):
                lines = opened.enter_context(open(report, encoding="ascii"))
        note_path(options.new.out, f"{summary}, {time.monotonic() - begun:.2f} s in all")
        print_lines(lines)


def _require_layers(options: RewriteOptions) -> None:
    """Refuses what can't be merged."""
    if options.rewriting is not Rewriting.MERGE:
        return
    if options.ordinary() < 2:
        raise UsageFault("merge takes two layers or more that aren't data-only")
    if options.down_to is not None and options.down_to >= options.ordinary():
        raise UsageFault(f"--down-to must be 1 to {options.ordinary() - 1}, less than the layers that aren't data-only")


class _Rewriter(StackRunner):
    """Does the steps."""

    def __init__(self, options: RewriteOptions, folder: str, made: str, forms: Sequence[Form]) -> None:
        super().__init__(options.new, folder, made, forms)
        self._rewriting = options

    def carry_out(self) -> str:
        """Does them all; gives the manifest of the new layer, which has its report beside it."""
        given = stacks.layer_paths(STACK, self.unpack())
        new, below = self._rewritten(given), given[self._rewriting.taken():]
        require_same(self, given, [new, *below])
        if self._rewriting.rewriting is not Rewriting.VACUUM:  # which has seen to them
            self.report_links([new, *below])
        self.pack([new], below)
        return new

    def summary(self, new: str) -> str:
        """What the new layer takes the place of, and how many bytes of contents."""
        taken = self._rewriting.taken()
        layers = "the topmost layer" if taken == 1 else f"the {taken} topmost layers"
        given = stacks.layer_paths(STACK, self.count)[:taken]
        return f"in place of {layers}, contents of {amount_in_place_of(self._bytes_in([new]), self._bytes_in(given))}"

    def _bytes_in(self, layers: Iterable[str]) -> int:
        """The bytes of the files of layers, of hard links once."""
        total = 0
        for layer in map(self.path, layers):
            entries, firsts = read_manifest(layer), FirstNames()
            take_links(layer, entries, self.path(f"{STACK}/{stacks.SHOWN_LINKS}"))
            total += sum(entry.size for entry in entries if entry.names_contents() and firsts.before(entry) is None)
        return total

    def _rewritten(self, given: Sequence[str]) -> str:
        """The new layer."""
        what, down_to = self._rewriting.rewriting.value, self._rewriting.down_to
        if self._rewriting.rewriting is Rewriting.VACUUM:
            return self.vacuum(what, given, what)
        self.run(what, what, given, what, () if down_to is None else ("--down-to", str(down_to)))
        # A merge writes a topmost layer with only a root too, which says nothing that the other doesn't.
        return new_layer(what, 1 if self._rewriting.rewriting is Rewriting.MERGE else 0)
