"""The steps that lead from layers to fewer ones that show the same, done or printed."""

import contextlib
import filecmp
import itertools
import os
import shutil
import time
from collections.abc import Iterable, Iterator, Sequence
from typing import IO, Protocol

from ..common.amounts import amount_text, per_cent
from ..common.faults import Fault, reading, writing
from ..common.outputs import kept_folder, write_text
from ..common.program import makes_layers, require_program, run_program, words_of
from ..common.progress import counted, note, note_path
from ..model import stacks
from ..model.entries import METACOPY, REDIRECT, Entry, named
from ..model.links import links_path, numbered_names
from ..model.manifests import has_attribute, read_manifest, write_manifest
from ..model.show_report import escaped_path, read_report, report_of
from ..model.show_runs import run_show
from ..model.shown_files import Files, files_in, shown_files
from .exclusion import lines_without, write_without

STACK = "stack"
AGAIN = "again"
BEFORE = "before.show"
_AFTER = "after.show"
_EXCLUDED = "excluded"
_WITHOUT = f"{_EXCLUDED}.show"
REPORT = "report"
_WORK = "work"
_REMOVED = "removed "  # how each line of the report of `vacuum` begins


class Plan(Protocol):
    """The steps, by names in the folder of the work."""

    base: int  # how many of the given layers, the lowest ones, stay as they are; known once they are unpacked

    def unpack(self) -> int:
        """Unpacks the image into the folder `stack`. Gives the number of its layers."""

    def run(self, step: str, what: str, layers: Sequence[str], new: str, own: Sequence[str] = ()) -> None:
        """Runs the program, a command with words of its own: its report is the file `new`, or if it makes layers, in
        a folder `new` with them."""

    def vacuum(self, step: str, layers: Sequence[str], new: str) -> str:
        """The topmost layer without what changes nothing, but with each name that would else be one file with others than
        before: below is the same, but not as the same file."""

    def moved(self, layers: Sequence[str]) -> list[int]:
        """The layers with redirects or metacopy files, which no image can state; the lowest first."""

    def without_excluded(self, layers: Sequence[str]) -> list[str]:
        """New layers as if the topmost one had removed the paths that are excluded."""

    def compare(self, report: str) -> None:
        """Goes on only if a report is that of the given image, without the paths that are excluded."""

    def report_links(self, new: Sequence[str]) -> None:
        """Says how many names aren't one file with others any more: they are in the new layer, and the others below."""

    def pack(self, layers: Sequence[str]) -> None:
        """Writes the image, if it shows the same when it is read again."""


def carry_out(plan: Plan, wanted: int, data_layers: int = 0) -> tuple[int, int]:
    """Does it all: checks and makes the new layers, and then looks at what they show. Gives how many layers there
    were, and how many there are.

    The lowest layers may be data-only. They go along until no file needs their contents. With a base what is above it
    becomes one layer.
    """
    count = plan.unpack()
    given = stacks.layer_paths(STACK, count)
    wanted = max(wanted, plan.base + 1)
    is_one = plan.base == 0 and min(count - data_layers, wanted) == 1
    new = plan.without_excluded(_as_one(plan, given) if is_one else _merged_down(plan, given, wanted, data_layers))
    require_same(plan, given, new)
    if len(new) > 1:
        plan.report_links(new)
    plan.pack(new)
    return count, len(new)


def require_same(plan: Plan, given: Sequence[str], new: Sequence[str]) -> None:
    """Goes on only if the new layers show what the given ones do, without what is excluded."""
    plan.run("show", "show", given, BEFORE)
    plan.run("show of the new layers", "show", new, _AFTER)
    plan.compare(_AFTER)


def _as_one(plan: Plan, layers: Sequence[str]) -> list[str]:
    """All that the layers show as one layer; the program checks them first."""
    plan.run("flatten", "flatten", layers, "flatten")
    return [new_layer("flatten")]


def _merged_down(plan: Plan, given: Sequence[str], wanted: int, data_layers: int) -> list[str]:
    """The layers without redirects, metacopy files and what changes nothing, the topmost merged so that this many are
    left."""
    layers = list(given)
    plan.run("fsck", "fsck", layers, f"fsck.{REPORT}")
    if plan.base == len(layers):
        return layers
    layers[0] = plan.vacuum("vacuum", layers, "vacuum")
    # Over layers without redirects each loses its own, and then no merge makes any; those of a base keep theirs.
    for number in plan.moved(layers[:len(layers) - max(data_layers, plan.base)]):
        plan.run(f"deref of layer {number}", "deref", layers[number:], f"deref-{number}")
        layers[number] = new_layer(f"deref-{number}")
    merges = max(0, len(layers) - data_layers - wanted)
    if merges:
        plan.run(f"merge of {merges + 1} layers", "merge", layers, "merged", ("--down-to", str(wanted)))
        # The new topmost layer holds only a root, which the one below it has too.
        layers[:merges + 1] = [new_layer("merged", 1)]
    del layers[len(layers) - data_layers:]
    if merges:
        layers[0] = plan.vacuum("vacuum of the merged layer", layers, "vacuum-merged")
    return layers


def amount_in_place_of(made: int, given: int) -> str:
    """How many bytes are made in place of how many."""
    return f"{amount_text(made)} in place of {amount_text(given)} ({per_cent(made, given)})"


def new_layer(folder: str, number: int = 0) -> str:
    """Where the program writes a new layer."""
    return f"{folder}/layer-{number}.json"


class Runner:
    """Does the steps, and reports each with its time. How layers come in and go out is of its kinds."""

    def __init__(self, folder: str, label: str, is_kept: bool, faults: IO[str], given: Iterable[str]) -> None:
        self._folder = folder
        self._label = label  # what is made is called so
        self._is_kept = is_kept
        self._faults = faults
        self._program = require_program(given)
        self.count = 0  # of the given layers
        self.base = 0
        self.excluded: Sequence[str] = ()  # paths that the new layers aren't to show
        self.bytes_given: int | None = None  # in the files of the layers, if they are in files
        self.bytes_made: int | None = None
        self.data_layers: frozenset[str] = frozenset()  # the names of those that are data-only

    def path(self, name: str) -> str:
        """A name in the folder of the work."""
        return f"{self._folder}/{name}"

    def run(self, step: str, what: str, layers: Sequence[str], new: str, own: Sequence[str] = ()) -> None:
        """See `Plan`."""
        with timed(step) as words:
            words.append(self.run_on(what, layers, new, own))

    def run_on(self, what: str, layers: Sequence[str], new: str, own: Sequence[str] = ()) -> str:
        """Runs the program, in the folder of the work, on layers there; gives the last line of its report."""
        blobs, data_layers = f"{STACK}/{stacks.BLOBS}", sum(layer in self.data_layers for layer in layers)
        if what == "show":
            return run_show(self._program, layers, self._folder, new, data_layers)
        words, report = words_of(what, layers, blobs, new, data_layers, own), new
        if makes_layers(what):
            with writing(self.path(new)):
                os.mkdir(self.path(new))
            report = f"{new}/{REPORT}"
        return run_program(self._program, words, self._folder, report, self._faults)

    def sum_up(self, label: str, before: int, after: int, seconds: float) -> None:
        """Says how many layers there are at a place, and how many bytes, in place of those that were given."""
        words = [f"{counted(after, 'layer', 'layers')} in place of {before}"]
        made, given = self.bytes_made, self.bytes_given
        if made is not None:
            words.append(amount_text(made) if given is None else amount_in_place_of(made, given))
        note_path(label, ", ".join([*words, f"{seconds:.2f} s in all"]))

    @contextlib.contextmanager
    def passing(self, name: str) -> Iterator[str]:
        """The path of a name in the folder of the work, of which nothing is left at the end."""
        try:
            yield self.path(name)
        finally:
            shutil.rmtree(self.path(name), ignore_errors=True)

    def vacuum(self, step: str, layers: Sequence[str], new: str) -> str:
        """See `Plan`."""
        self.run(step, "vacuum", layers, new)
        made, removed = new_layer(new), _removed_in(self.path(f"{new}/{REPORT}"))
        if not removed or not self.has_links():
            return made
        before, after = self.files_before(), self.files_of([made, *layers[1:]])
        changed = {name for name in before.keys() | after.keys() if before.get(name) != after.get(name)}
        linked = removed & set(map(escaped_path, changed))
        if not linked:
            return made
        note(f"{step}: {counted(len(linked), 'name of a hard link stays', 'names of hard links stay')}")
        return self._put_back(layers[0], removed - _with_parents(linked), f"{new}-linked")

    def _put_back(self, layer: str, removed: set[str], new: str) -> str:
        """A layer with less removed, and the report of that, in a folder as the program writes it."""
        with writing(self.path(new)):
            os.mkdir(self.path(new))
        kept, gone = list[Entry](), list[str]()
        for entry in read_manifest(self.path(layer)):
            path = escaped_path(entry.path)
            if path in removed:
                gone.append(f"{_REMOVED}{path}\n")
            else:
                kept.append(entry)
        write_manifest(self.path(new_layer(new)), named(kept), layer)
        write_text(self.path(f"{new}/{REPORT}"), [*gone, f"{_REMOVED}{len(gone)} kept {len(kept)}\n"])
        return new_layer(new)

    def has_links(self) -> bool:
        """Whether the given layers have or show hard links."""
        layers = map(self.path, stacks.layer_paths(STACK, self.count))
        files = [(self._shown_links(), None), *((links_path(layer), layer) for layer in layers)]
        return any(True for path, layer in files for _ in numbered_names(path, layer))

    def files_before(self) -> Files:
        """The names that the given layers show as one file."""
        return files_in(self._shown_links())

    def files_of(self, layers: Iterable[str]) -> Files:
        """The same of others, data-only ones of which show none."""
        return shown_files([self.path(layer) for layer in layers if layer not in self.data_layers], self._shown_links())

    def report_links(self, new: Sequence[str]) -> None:
        """See `Plan`."""
        if not self.has_links():
            return
        before, after = self.files_before(), self.files_of(new)
        if any(not set(file) <= set(before.get(name, ())) for name, file in after.items()):
            raise Fault("the new layers have names as one file that were several, so nothing is written; please report it")
        files = (list(itertools.filterfalse(self._is_excluded, file)) for file in set(before.values()))
        parted = sum(max(0, len({after.get(name, (name,)) for name in file}) - 1) for file in files)
        if parted:
            note_path(self._label, counted(
                parted, "hard link between the new layer and those below is a copy now",
                "hard links between the new layer and those below are copies now",
            ))

    def _is_excluded(self, path: str) -> bool:
        return any(path == excluded or path.startswith(f"{excluded}/") for excluded in self.excluded)

    def _shown_links(self) -> str:
        return self.path(f"{STACK}/{stacks.SHOWN_LINKS}")

    def moved(self, layers: Sequence[str]) -> list[int]:
        """See `Plan`."""
        return [
            number for number in reversed(range(len(layers)))
            if has_attribute(self.path(layers[number]), (REDIRECT, METACOPY))
        ]

    def unchanged(self, layers: Sequence[str]) -> int:
        """How many of the new layers, the lowest ones, are the given ones."""
        pairs = zip(reversed(layers), reversed(stacks.layer_paths(STACK, self.count)))
        same = (new == given or filecmp.cmp(self.path(new), self.path(given), shallow=False) for new, given in pairs)
        return sum(1 for _ in itertools.takewhile(bool, same))

    def without_excluded(self, layers: Sequence[str]) -> list[str]:
        """See `Plan`. Over a base that is all of the layers it is one more layer."""
        if not self.excluded:
            return list(layers)
        topmost, below = (None, layers) if len(layers) == self.base else (self.path(layers[0]), layers[1:])
        made = new_layer(_EXCLUDED)
        with timed("exclude") as words:
            with writing(self.path(_EXCLUDED)):
                os.mkdir(self.path(_EXCLUDED))
            write_without(topmost, [self.path(layer) for layer in below], self.excluded, self.path(made))
            words.append(counted(len(self.excluded), "path", "paths"))
        return [made, *below]

    def wanted(self) -> str:
        """The report that the new layers are to show."""
        if not self.excluded:
            return BEFORE
        if not os.path.exists(self.path(_WITHOUT)):
            lines = lines_without(read_report(self.path(BEFORE)), self.excluded)
            write_text(self.path(_WITHOUT), report_of(lines))
        return _WITHOUT

    def compare(self, report: str, wanted: str | None = None) -> None:
        """See `Plan`."""
        wanted = wanted or self.wanted()
        if not filecmp.cmp(self.path(wanted), self.path(report), shallow=False):
            kept = f"see {wanted} and {report} in {self._folder}"
            hint = kept if self._is_kept else "--keep DIR keeps both reports"
            raise Fault(f"the new layers show something else, so nothing is written; {hint}")


def _removed_in(report: str) -> set[str]:
    """The paths, as reports write them, that `vacuum` took away."""
    start = f"{_REMOVED}/"
    with reading(report), open(report, encoding="ascii") as lines:
        return {line[len(_REMOVED):-1] for line in lines if line.startswith(start)}


def _with_parents(paths: Iterable[str]) -> set[str]:
    """Paths, and those of the directories that they are in."""
    found: set[str] = set()
    for path in paths:
        while path and path not in found:
            found.add(path)
            path = path.rpartition("/")[0]
    return found


@contextlib.contextmanager
def work_folder(stage: str, keep: str | None) -> Iterator[str]:
    """The folder of the work: in a stage, with which it goes, or one that is kept."""
    if keep is not None:
        with kept_folder(keep) as folder:
            yield folder
        return
    with writing(stage):
        os.mkdir(f"{stage}/{_WORK}")
    yield f"{stage}/{_WORK}"


@contextlib.contextmanager
def timed(step: str) -> Iterator[list[str]]:
    """Tells a step that ended well, with the words that it gives and its time."""
    begun = time.monotonic()
    words: list[str] = []
    yield words
    _report(step, words, begun)


def _report(step: str, words: Sequence[str], begun: float) -> None:
    note(f"{step}: {', '.join([*words, f'{time.monotonic() - begun:.2f} s'])}")
