"""`flatten`: an image with fewer layers that shows the same."""

import contextlib
import itertools
import os
import shlex
import sys
import tempfile
import time
from collections.abc import Iterator, Sequence
from dataclasses import dataclass, replace
from pathlib import Path

from ..common.disk_space import require_room
from ..common.escaping import printable
from ..common.faults import UsageFault, cannot_read, cannot_write
from ..common.outputs import NEW, folder_made, new_file, note_stages_beside, passing_folder, print_file
from ..common.program import NAME, find_program, makes_layers, word_of_path, words_of
from ..common.progress import counted
from ..common.stages import removing
from ..image.base import opened_base
from ..image.compression import NONE, PLAIN, Compression
from ..image.configuration import Making, layer_lines
from ..image.images import Image, ImageLayer, image_place, opened_image, paths_of_image, spellings
from ..image.members import STANDARD_INPUT
from ..image.new_layers import ALGORITHM, NewLayers
from ..image.pack import PackOptions, pack
from ..image.targets import ARCHIVE_SUFFIX, Form, Target
from ..image.unpack import UnpackOptions, unpack, unpack_opened
from ..model import stacks
from ..tar.least_sizes import least_shown
from .steps import AGAIN, BEFORE, REPORT, STACK, Runner, carry_out, new_layer, timed, work_folder

_IMAGE = "image"
_SHOWN = f"{_IMAGE}.show"
_ANNOTATIONS = f"{STACK}/{stacks.ANNOTATIONS}"
_FOR_PACK = (stacks.BLOBS, stacks.CONFIG, stacks.SHOWN_LINKS)
_MAKER = "layers flatten:"
_SHOWN_DIGITS = 12  # of an image's digest, as docker shows it
_TOOL = Path(__file__).resolve().parents[2] / "layers"


@dataclass(frozen=True, kw_only=True)
class FlattenOptions:
    """What the words of `flatten` say."""

    image: str
    out: Target
    name: str | None = None  # of the new image, if it isn't that of the given one
    layers: int = 1
    base: str | None = None  # the layers that stay as they are: an image, or how many, the lowest ones
    keep: str | None = None
    excluded: Sequence[str] = ()  # paths that the new image isn't to show
    platform: str | None = None
    tag: str | None = None
    skip_unsupported: bool = False
    overlay_marks: bool = False
    compress: Compression | None = None  # otherwise as the topmost given layer is packed


def flatten(options: FlattenOptions) -> None:
    """Writes an image with all that the given one's layers show in one layer, or with the topmost layers merged. Lower
    layers of which nothing changes stay as they are, byte for byte.

    Nothing is written unless it shows, read again, what the given image shows.
    """
    options = with_place(options)
    require_free(options)
    begun = time.monotonic()
    with new_image(options.out) as stage:
        with work_folder(stage, options.keep) as folder, contextlib.ExitStack() as opened:
            runner = ImageRunner(options, folder, f"{stage}/{NEW}", opened)
            before, after = carry_out(runner, options.layers)
    runner.sum_up(options.out.label, before, after, time.monotonic() - begun)


def flatten_commands(options: FlattenOptions) -> list[str]:
    """The commands that do the same by hand, each a line for a shell."""
    if options.excluded:
        raise UsageFault("--dry-run has no commands for --exclude")
    dry_run = _DryRun(with_place(options))
    carry_out(dry_run, options.layers)
    return dry_run.lines


def with_place(options: FlattenOptions) -> FlattenOptions:
    image, tag = image_place(options.image, options.tag)
    if options.base == image == STANDARD_INPUT:
        raise UsageFault("the image and its base can't both be standard input")
    return replace(options, image=image, tag=tag)


def require_free(options: FlattenOptions) -> None:
    """Refuses at once what couldn't be written in the end."""
    out = options.out
    if out.is_standard_output:
        return
    if os.path.exists(options.image) and os.path.exists(out.path) and os.path.samefile(options.image, out.path):
        raise UsageFault(f"--out {out.path} is the image that is read: name another place")
    if options.keep is not None and os.path.realpath(options.keep) == os.path.realpath(out.path):
        raise UsageFault("--keep and --out must be two places")
    if out.form is Form.ARCHIVE and os.path.lexists(out.path) and not os.path.isfile(out.path):
        raise cannot_write(out.path, "it is no regular file")


@contextlib.contextmanager
def new_image(out: Target) -> Iterator[str]:
    """A stage, in which the new image is to be made. It gets its name at the end, and only there."""
    if out.is_standard_output:
        with passing_folder(tempfile.gettempdir(), out.label) as folder:
            yield folder
            print_file(f"{folder}/{NEW}")
        return
    if out.form is Form.ARCHIVE:
        note_stages_beside(out.path)
    with new_file(out.path) if out.form is Form.ARCHIVE else folder_made(out.path) as stage:
        yield stage.path


@dataclass(frozen=True)
class _Given:
    """What is known of the given image once it is open: how many layers it has, and what the new one has of it."""

    count: int
    name: str | None
    has_annotations: bool
    compress: Compression
    making: Making


def _given_of(image: Image, options: FlattenOptions, base: int) -> _Given:
    count = len(image.layers)
    making = Making(_made_by(image, max(options.layers, base + 1) - 1), count)
    return _Given(count, _name_of(image, options), bool(image.annotations), _compression_of(image, options), making)


def _made_by(image: Image, kept: int) -> str:
    """What the history says of the layer that all but the lowest ones become: which image they are of, and which lines."""
    digest = None if image.digest is None else f"{image.digest[0]}:{image.digest[1][:_SHOWN_DIGITS]}"
    name = next(map(printable, image.names), None)  # which others print as it is
    which = [name, digest and f"({digest})"] if name else [digest]
    places = layer_lines(image.configuration.get("history") or [])
    gone, lines = places[kept:], None
    if gone and len(places) == len(image.layers):
        first, last = gone[0] + 1, gone[-1] + 1
        lines = f"line {first} of" if first == last else f"lines {first} to {last} of"
    return " ".join(filter(None, [_MAKER, lines, *which]))


@contextlib.contextmanager
def _opened(options: FlattenOptions) -> Iterator[tuple[Image, int]]:
    """The given image, with the layers of its base in place of its own if there is one, and how many these are."""
    with opened_image(options.image, options.platform, options.tag) as image:
        if options.base is None:
            yield image, 0
            return
        with opened_base(options.base, image, options.image) as base:
            for layer in base:
                if not layer.can_stay(ALGORITHM):
                    raise cannot_read(layer.path, f"it has no digest by {ALGORITHM}, so it can't stay as it is")
            yield replace(image, layers=[*base, *image.layers[len(base):]]), len(base)


class ImageRunner(Runner):
    """Does the steps of an image, and reports each with its time. The image is open until the new one is written, if
    layers of it stay as they are."""

    def __init__(self, options: FlattenOptions, folder: str, image: str, opened: contextlib.ExitStack) -> None:
        super().__init__(
            folder, options.out.label, options.keep is not None,
            sys.stderr if options.out.is_standard_output else sys.stdout, paths_of_image(options.image),
        )
        self._options = options
        self.image = image
        self._opened = opened
        self.excluded = options.excluded
        self._layers: Sequence[ImageLayer] = ()  # that may stay as they are, the lowest first
        self._given = _Given(0, None, False, PLAIN, Making())

    @property
    def name(self) -> str | None:
        """The name of the new image."""
        return self._given.name

    def unpack(self) -> int:
        """See `Plan`."""
        options = self._options
        unpacking = UnpackOptions(
            image=options.image, out=self.path(STACK), skip_unsupported=options.skip_unsupported,
            overlay_marks=options.overlay_marks,
        )
        with timed("unpack") as words:
            image, self.base = self._opened.enter_context(_opened(options))
            unpack_opened(unpacking, image)
            self._given, self.bytes_given = _given_of(image, options, self.base), image.layer_bytes()
            self.count = self._given.count
            words.append(counted(self.count, "layer", "layers"))
        if options.base is None and options.layers == 1:
            self._opened.close()
        else:
            self._layers = list(itertools.takewhile(lambda layer: layer.can_stay(ALGORITHM), image.layers))
        return self.count

    def run(self, step: str, what: str, layers: Sequence[str], new: str, own: Sequence[str] = ()) -> None:
        """See `Plan`."""
        super().run(step, what, layers, new, own)
        if new == BEFORE and self._given.compress == PLAIN and not self._layers and not self.excluded:
            require_room(self._options.out.label, self.image, least_shown(self.path(new)))

    def pack(self, layers: Sequence[str]) -> None:
        """See `Plan`."""
        kept = self._kept(layers)
        made = layers[:len(layers) - len(kept)]
        with contextlib.ExitStack() as beside:

            def drop_blobs() -> None:
                if not self._options.keep:
                    beside.enter_context(removing(self.path(STACK), stacks.BLOBS))

            new_layers = None
            if self._given.compress == PLAIN:
                out = self._options.out.label
                new_layers = beside.enter_context(NewLayers(self._folder, out, len(made), drop_blobs))
            with timed("pack") as words:
                pack(self._packing(made, kept, new_layers))
                words.append(counted(len(layers), "layer", "layers"))
                words += [f"{len(kept)} of them as before"] if kept else []
            if new_layers is None:
                drop_blobs()
            with timed("the new image, read again") as words:
                words.append(self._shown(self.image, new_layers, bool(kept)))
                self.compare(_SHOWN)

    def _kept(self, layers: Sequence[str]) -> Sequence[ImageLayer]:
        """The given layers that stay as they are, the lowest first."""
        count = min(self.unchanged(layers), len(self._layers)) if self._layers else 0
        assert count >= self.base
        return self._layers[:count]

    def _packing(self, made: Sequence[str], kept: Sequence[ImageLayer], new_layers: NewLayers | None) -> PackOptions:
        """How the image is packed of layers that are made and such that stay."""
        blobs, config, links = (self.path(f"{STACK}/{name}") for name in _FOR_PACK)
        return PackOptions(
            layers=[self.path(layer) for layer in made], kept=kept, blobs=blobs, out=self.target(), name=self._given.name,
            config=config, compress=self._given.compress, links=links, has_checked_blobs=True, new_layers=new_layers,
            annotations=self.path(_ANNOTATIONS) if self._given.has_annotations else None, making=self._given.making,
        )

    def target(self) -> Target:
        """The image that is made, on its way to its name."""
        return replace(self._options.out, path=self.image, given=self._options.out.path)

    def _shown(self, image: str, new_layers: NewLayers | None, has_kept: bool) -> str:
        """Writes what an image shows. Of layers that stayed it was reported already what they lose."""
        with self.passing(AGAIN) as again:
            options = UnpackOptions(
                image=image, out=again, overlay_marks=self._options.overlay_marks, digests_only=True,
                skip_unsupported=has_kept and self._options.skip_unsupported, is_again=has_kept,
            )
            found = unpack(options, new_layers)
            self.bytes_made = found.layer_bytes()
            return self.run_on("show", stacks.layer_paths(AGAIN, len(found.layers)), _SHOWN)


def _name_of(image: Image, options: FlattenOptions) -> str | None:
    """The name of the new image: the one that was asked for, as the given image spells it, or else its first."""
    asked = spellings(options.tag) if options.tag else image.names
    return options.name or next((name for name in image.names if name in asked), options.tag)


def _compression_of(image: Image, options: FlattenOptions) -> Compression:
    """How the new layers are packed: as was asked for, or else as the topmost given one."""
    return options.compress or Compression(image.layers[-1].packing() or NONE)


class _InWork(str):
    """A path in the folder of the work."""


class _DryRun:
    """Tells a command for each step, as a shell takes them."""

    def __init__(self, options: FlattenOptions) -> None:
        self._options = options
        self._program = find_program() or NAME
        self.base = 0
        self._given = _Given(0, None, False, PLAIN, Making())
        self._marks = ["--overlay-marks"] if options.overlay_marks else []
        self.lines = ["set -e\n"]
        if options.keep is None:
            self.lines += [
                "work=$(mktemp -d)\n", "trap 'rm -rf -- \"$work\"' EXIT\n", "trap 'exit 1' HUP INT TERM\n",
            ]
        else:
            self.lines.append(f"work={shlex.quote(word_of_path(options.keep))}\n")
            self._add("mkdir", "-p", "--", _InWork(""))

    def unpack(self) -> int:
        """See `Plan`."""
        options = self._options
        with _opened(options) as (image, self.base):
            self._given = _given_of(image, options, self.base)
        words = _given("--platform", options.platform) + _given("--from-tag", options.tag)
        if options.skip_unsupported:
            words.append("--skip-unsupported")
        self._add_tool("unpack", _word_of_image(options.image), "--out", self._path(STACK), *words, *self._marks)
        return self._given.count

    def run(self, step: str, what: str, layers: Sequence[str], new: str, own: Sequence[str] = ()) -> None:
        """See `Plan`."""
        report = self._path(new)
        if makes_layers(what):
            self._add("mkdir", report)
            report = self._path(f"{new}/{REPORT}")
        blobs = self._path(f"{STACK}/{stacks.BLOBS}")
        words = words_of(what, [self._path(layer) for layer in layers], blobs, self._path(new), own=own)
        self._add(self._program, *words, into=report)

    def vacuum(self, step: str, layers: Sequence[str], new: str) -> str:
        """See `Plan`."""
        self.run(step, "vacuum", layers, new)
        self.lines.append("# `layers flatten` keeps names here that would else become one file with others\n")
        return new_layer(new)

    def moved(self, layers: Sequence[str]) -> list[int]:
        """None: without marks of the image's own there are none, and with them nobody knows before it is unpacked."""
        if self._marks:
            self.lines.append(f"# here `{NAME} deref` of each layer with redirects or metacopy files, lowest first\n")
        return []

    def without_excluded(self, layers: Sequence[str]) -> list[str]:
        """See `Plan`: none are."""
        return list(layers)

    def report_links(self, new: Sequence[str]) -> None:
        """See `Plan`: nobody knows before it is unpacked."""

    def compare(self, report: str) -> None:
        """See `Plan`."""
        self._add("cmp", self._path(BEFORE), self._path(report))

    def pack(self, layers: Sequence[str]) -> None:
        """See `Plan`."""
        paths, target = [self._path(layer) for layer in layers], self._options.out
        out = self._path(f"{_IMAGE}{ARCHIVE_SUFFIX}") if target.is_standard_output else word_of_path(target.word)
        blobs, config, links = (self._path(f"{STACK}/{name}") for name in _FOR_PACK)
        given = self._given
        if len(paths) > 1:
            self.lines.append("# (flatten copies lower layers that stay the same, with their digests; pack packs all anew)\n")
        self._add_tool(
            "pack", *paths, "--blobs", blobs, "--config", config, "--links", links, "--out", out,
            "--compress", str(given.compress), *([] if given.name is None else [f"--name={given.name}"]),
            *_given("--annotations", self._path(_ANNOTATIONS) if given.has_annotations else None),
            f"--created-by={given.making.made_by}",
        )
        self._add_tool("unpack", out, "--out", self._path(AGAIN), "--digests-only", *self._marks)
        again = [self._path(layer) for layer in stacks.layer_paths(AGAIN, len(layers))]
        self._add(self._program, "show", *again, into=self._path(_SHOWN))
        self.compare(_SHOWN)
        if target.is_standard_output:
            self._add("cat", out)

    def _path(self, name: str) -> _InWork:
        return _InWork(name)

    def _add_tool(self, *words: str) -> None:
        self._add(str(_TOOL), *words)

    def _add(self, *words: str, into: str | None = None) -> None:
        report = [] if into is None else [">", _quoted(into)]
        self.lines.append(" ".join([*map(_quoted, words), *report]) + "\n")


def _word_of_image(path: str) -> str:
    return path if path == STANDARD_INPUT else word_of_path(path)


def _given(option: str, value: str | None) -> list[str]:
    """An option with its value, if there is one."""
    return [] if value is None else [option, value]


def _quoted(word: str) -> str:
    """A word as a shell takes it."""
    if isinstance(word, _InWork):
        return f'"$work/{word}"' if word else '"$work"'
    if word.isprintable():
        return shlex.quote(word)
    if word.endswith("\n"):
        raise UsageFault(f"{word} ends with a newline, which no command for a shell can have")
    return f'"$(printf -- {shlex.quote(_in_octal(word))})"'


def _in_octal(word: str) -> str:
    """A word as printf takes it, without what a terminal would obey."""
    return "".join(
        letter.replace("\\", "\\\\").replace("%", "%%") if letter.isprintable()
        else "".join(f"\\{byte:03o}" for byte in letter.encode("utf-8", "surrogateescape"))
        for letter in word
    )
