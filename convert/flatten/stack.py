"""Layers on a disk as new ones that show the same, which are folders or squashfs files; `flatten --stack`."""

import contextlib
import os
import sys
import tempfile
import time
from collections.abc import Callable, Iterable, Iterator, Mapping, Sequence
from dataclasses import dataclass, replace
from enum import Enum

from ..common.faults import UsageFault, cannot_write, writing
from ..common.omissions import Loss, Losses
from ..common.open_dirs import place_of
from ..common.outputs import (
    NEW, STANDARD_OUTPUT, folder_made, new_file, note_stages_beside, passing_stage, print_file, require_empty, write_text,
)
from ..common.progress import counted, layers_at_work, note_path
from ..common.stages import Stage
from ..folder.build import BuildOptions, build
from ..folder.build_file import SUFFIXES, build_file
from ..folder.outside import require_outside
from ..folder.stack_layers import StackOptions, read_stack, require_forms, require_ordinary
from ..image.compression import Compression
from ..model import stacks
from ..model.attributes import require_trusted
from ..model.entries import SOCKET, Entry, drop_host_marks, is_whiteout, named
from ..model.layer_tree import whiteout
from ..model.links import take_links, write_layer
from ..model.manifests import read_manifest
from ..model.show_report import ShowLine, escaped_path, read_report, report_of
from ..squashfs import programs as squashfs
from ..squashfs.layer_files import Form
from ..squashfs.limits import fitted_lines, lines_without_sockets
from ..squashfs.programs import Packing
from .steps import AGAIN, STACK, Runner, carry_out, timed, work_folder

_NEW = "new"
_FITTED = "fitted.show"
_SHOWN = f"{_NEW}.show"


_OF_OTHERS = (".img", ".raw", ".iso", ".ext4", ".qcow2", ".sqfs", ".sqsh", ".json")


class OutForm(Enum):
    """What layers are written as."""

    FOLDER = "folder"
    SQUASHFS = "squashfs"
    ARCHIVE = "tar"


_OF_FILES = {OutForm.SQUASHFS: Form.SQUASHFS, OutForm.ARCHIVE: Form.ARCHIVE}
_Fit = Callable[[Iterable[ShowLine]], Iterator[ShowLine]]
_FITTING: Mapping[OutForm, _Fit] = {OutForm.SQUASHFS: fitted_lines, OutForm.ARCHIVE: lines_without_sockets}
_SUFFIXES = {OutForm(suffix[1:]): suffix for suffix in SUFFIXES} | {OutForm.FOLDER: ""}


@dataclass(frozen=True, kw_only=True)
class NewLayersOptions:
    """Which layers are read, and where new ones are written, and as what. Of several, --out is a folder."""

    stack: StackOptions
    out: str
    form: OutForm | None = None
    layers: int = 1
    data_layers: int = 0
    keep: str | None = None
    excluded: Sequence[str] = ()
    compress: Compression | None = None  # of a squashfs; otherwise as the topmost given one is packed

    def written_as(self) -> OutForm:
        """What each layer is written as."""
        by_name = next((form for form, suffix in _SUFFIXES.items() if suffix and self.out.endswith(suffix)), OutForm.FOLDER)
        return self.form or (OutForm.ARCHIVE if self.is_standard_output() else by_name)

    def is_standard_output(self) -> bool:
        """Whether what is made goes there, and nothing else does."""
        return self.out == STANDARD_OUTPUT

    @property
    def label(self) -> str:
        """What --out is called in faults and notes."""
        return "standard output" if self.is_standard_output() else self.out

    def is_squashfs(self) -> bool:
        """Whether squashfs files are written."""
        return self.written_as() is OutForm.SQUASHFS

    def is_file(self) -> bool:
        """Whether --out is one file."""
        return self.written_as() in _OF_FILES and self.layers == 1


def flatten_stack(options: NewLayersOptions) -> None:
    """Writes all that the layers show as one layer, or the layers with the topmost ones merged.

    Nothing is written unless that shows, read again, what the given layers show, except for what was reported.
    """
    forms = require_sound(options)
    begun = time.monotonic()
    with new_layers_stage(options) as stage, work_folder(stage.path, options.keep) as folder:
        runner = StackRunner(options, folder, place_of(stage.file, NEW), forms)
        before, after = carry_out(runner, options.layers, options.data_layers)
    runner.sum_up(options.label, before, after, time.monotonic() - begun)


@contextlib.contextmanager
def new_layers_stage(options: NewLayersOptions) -> Iterator[Stage]:
    """A stage for what --out is to be."""
    if options.is_standard_output():
        with passing_stage(tempfile.gettempdir(), options.label) as stage:
            yield stage
            print_file(place_of(stage.file, NEW))
        return
    if options.is_file():
        note_stages_beside(options.out)
    with new_file(options.out) if options.is_file() else folder_made(options.out, is_dressed=options.layers == 1) as stage:
        yield stage


def require_sound(options: NewLayersOptions) -> list[Form]:
    """What the layers are given as; refuses at once what couldn't be done in the end."""
    forms = require_forms(options.stack)
    require_ordinary(len(forms), options.data_layers)
    require_place(options)
    return forms


def require_place(options: NewLayersOptions) -> None:
    """Refuses at once a place where nothing could be written in the end."""
    if options.is_standard_output() and not options.is_file():
        raise UsageFault("--out - takes one file: an archive, or with --form squashfs a squashfs")
    if options.layers > 1 and options.out.endswith(tuple(SUFFIXES)):
        raise UsageFault("with --layers over 1 --out is a folder of layers; --form squashfs makes them squashfs files")
    require_outside({"--out": options.out, "--keep": options.keep}, options.stack.layers)
    if options.form is None and options.out.endswith(_OF_OTHERS):
        raise UsageFault(
            f"--out {options.out}: layers are written as folders, or as a file whose name ends in {' or '.join(SUFFIXES)}; "
            "--form folder makes a folder of this name"
        )
    if options.keep is not None and os.path.realpath(options.keep) == os.path.realpath(options.out):
        raise UsageFault("--keep and --out must be two places")
    if options.is_squashfs():
        squashfs.require_programs()
    elif options.compress is not None:
        raise UsageFault("--compress is of a squashfs, and --out doesn't end in .squashfs")
    elif options.written_as() is OutForm.FOLDER and not options.stack.userxattr:
        require_trusted(options.out)
    if not options.is_file():
        require_empty(options.out)
    elif not options.is_standard_output() and os.path.lexists(options.out) and not os.path.isfile(options.out):
        raise cannot_write(options.out, "it is no regular file")


def _packing_of(options: NewLayersOptions, forms: Sequence[Form]) -> Packing:
    """How squashfs files are packed: as was asked for, or else as the topmost given one."""
    given = [layer for layer, form in zip(options.stack.layers, forms) if form is Form.SQUASHFS]
    packing = squashfs.packing_of(given[0]) if given else Packing()
    return packing if options.compress is None else replace(packing, compression=options.compress)


def _bytes_of(layers: Sequence[str], forms: Sequence[Form]) -> int | None:
    """How many bytes layers have that are each one file with all that is in it."""
    if not set(forms) <= {Form.SQUASHFS, Form.ARCHIVE}:
        return None
    return sum(map(os.path.getsize, layers))


class StackRunner(Runner):
    """Does the steps of a stack. `made` is where the new layer is made, or the folder of the new layers."""

    def __init__(self, options: NewLayersOptions, folder: str, made: str, forms: Sequence[Form]) -> None:
        faults = sys.stderr if options.is_standard_output() else sys.stdout
        super().__init__(folder, options.label, options.keep is not None, faults, options.stack.layers)
        self._options = options
        self._made = made
        self.excluded = options.excluded
        self._packing = _packing_of(options, forms) if options.is_squashfs() else Packing()
        if options.written_as() in _OF_FILES:
            self.bytes_given = _bytes_of(options.stack.layers, forms)

    def unpack(self) -> int:
        """See `Plan`."""
        self.count, stack = len(self._options.stack.layers), self.path(STACK)
        with timed("scan") as words:
            with writing(stack):
                os.mkdir(stack)
            read_stack(self._options.stack, stack, self._options.data_layers)
            words.append(counted(self.count, "layer", "layers"))
        paths = stacks.layer_paths(STACK, self.count)
        self.data_layers = frozenset(paths[self.count - self._options.data_layers:])
        return self.count

    def pack(self, layers: Sequence[str], below: Sequence[str] = ()) -> None:
        """See `Plan`. New layers may be over others, which stay."""
        with writing(self.path(_NEW)):
            os.mkdir(self.path(_NEW))
        manifests = stacks.layer_paths(_NEW, len(layers))
        with timed("build") as words:
            hides = [bool(below) or number < len(layers) - 1 for number in range(len(layers))]
            work = list(zip(layers, manifests, hides))
            built = [self._build(number, *each) for number, each in layers_at_work(enumerate(work))]
            words.append(counted(len(layers), "layer", "layers"))
        with timed(f"the new {'layer' if below else 'layers'}, read again") as words:
            words.append(self._show(built, below))
            self.compare(_SHOWN, self._wanted(layers[0] if below else None))

    def _build(self, number: int, layer: str, manifest: str, hides: bool) -> str:
        """Writes a new layer in its form; gives its path."""
        out, name = self._made, self._options.label
        if self._options.layers > 1:
            suffix = _SUFFIXES[self._options.written_as()]
            with writing(name):
                os.makedirs(out, 0o700, exist_ok=True)
            out, name = f"{out}/l{number}{suffix}", f"{name}/l{number}{suffix}"
        self._write_without_host_marks(layer, manifest, hides)
        options = BuildOptions(
            layer=self.path(manifest), blobs=self.path(f"{STACK}/{stacks.BLOBS}"), out=out,
            userxattr=bool(self._options.stack.userxattr), packing=self._packing, name=name,
        )
        form = _OF_FILES.get(self._options.written_as())
        if form is not None:
            build_file(options, form)
            self.bytes_made = (self.bytes_made or 0) + os.path.getsize(out)
        else:
            build(options)
        return out

    def _write_without_host_marks(self, layer: str, manifest: str, hides: bool) -> None:
        """Writes the manifest of a new layer as it is to be built.

        A socket that can't be had hides what is below it all the same, if anything is.
        """
        losses, marks = Losses(), 0
        entries = read_manifest(self.path(layer))
        take_links(self.path(layer), entries, self.path(f"{STACK}/{stacks.SHOWN_LINKS}"))
        for place, entry in enumerate(entries):
            marks += drop_host_marks(entry)
            if entry.kind == SOCKET and self._options.written_as() in _OF_FILES and hides:
                losses.add(Loss.SOCKET, entry.path)
                entries[place] = replace(whiteout(), path=entry.path)
        losses.report(self._options.label)
        if marks:
            note_path(self._options.label, counted(marks, "mark", "marks") + " of the host's overlay left out")
        path = self.path(manifest)
        write_layer(path, lambda: named(entries), path, True)

    def _show(self, built: Sequence[str], below: Sequence[str]) -> str:
        """Writes what the new layers show, over others."""
        with self.passing(AGAIN) as folder:
            with writing(folder):
                os.mkdir(folder)
            read_stack(replace(self._options.stack, layers=built, digests_only=True), folder)
            return self.run_on("show", [*stacks.layer_paths(AGAIN, len(built)), *below], _SHOWN)

    def _wanted(self, topmost: str | None) -> str:
        """The report that the new layers are to show: that of the given ones, as far as the form of the new ones can hold
        it. If they are over others, only what the topmost one has is of that form."""
        fit = _FITTING.get(self._options.written_as())
        if fit is None:
            return self.wanted()
        lines = read_report(self.path(self.wanted()))
        fitting = fit(lines) if topmost is None else _fitted_above(lines, read_manifest(self.path(topmost)), fit)
        write_text(self.path(_FITTED), report_of(fitting))
        return _FITTED


def _fitted_above(lines: Iterable[ShowLine], entries: Iterable[Entry], fit: _Fit) -> Iterator[ShowLine]:
    """The lines of a report of `show`, those of the entries of the topmost layer as its form can hold them.

    Each of its entries but whiteouts is shown at its path; both are in path order.
    """
    paths = (escaped_path(entry.path) for entry in entries if not is_whiteout(entry))
    path = next(paths, None)
    for line in lines:
        if line.path == path:
            path = next(paths, None)
            yield from fit([line])
        else:
            yield line
