"""Where a tree that is looked at comes from: an image, a folder that `unpack` or `store` wrote, layers, or a mounted tree."""

import contextlib
import os
from collections.abc import Iterator, Sequence
from dataclasses import dataclass, replace

from ..common.budgets import TooMuch
from ..common.faults import ReadFault, TarFault, UsageFault, cannot_read, writing
from ..common.program import require_program
from ..common.progress import note
from ..folder.mounted import report as report_of_folder
from ..folder.stack_layers import StackOptions, read_stack, require_ordinary
from ..image.configuration import Document, read_configuration
from ..image.images import Image, Spoilt, image_place, opened_image, paths_of_image
from ..image.members import STANDARD_INPUT
from ..image.unpack import UnpackOptions, unpack_opened
from ..model import stacks
from ..model.show_runs import run_show

_SHOWN = "show"
_STACK = "stack"
_IMAGE_MARKS = ("index.json", "manifest.json", "oci-layout")


@dataclass(frozen=True, kw_only=True)
class Choice:
    """Which of several images is meant, and how it is read."""

    platform: str | None = None
    tag: str | None = None
    skip_unsupported: bool = False
    overlay_marks: bool = False


_USUAL = Choice()


@dataclass(frozen=True, kw_only=True)
class Source:
    """What is looked at: what a word names, or layers, of which the lowest ones may be data-only."""

    word: str = ""
    choice: Choice = _USUAL
    stack: StackOptions | None = None
    data_layers: int = 0

    @property
    def name(self) -> str:
        """What it is called."""
        return self.word or (f"the stack of {self.stack.layers[0]}" if self.stack is not None else "")


@dataclass(frozen=True, kw_only=True)
class Shown:
    """What a source shows: the report in a file, the manifests, the topmost first, and what goes with them.

    `blobs` is the folder of contents, if they are wanted or there, `image` what an image is, `layers` what its layers are
    as manifests. A mounted tree has only the report.
    """

    report: str
    layers: Sequence[str] = ()
    data_layers: int = 0
    blobs: str | None = None
    configuration: Document | None = None
    image: Image | None = None


def is_tree(word: str) -> bool:
    """Whether a word names a folder that is neither an image nor a stack: a tree as it is mounted."""
    return (
        image_place(word, None)[0] == word and os.path.isdir(word) and not stacks.stack_in(word)
        and not any(os.path.lexists(f"{word}/{name}") for name in _IMAGE_MARKS)
    )


def require_one_pipe(words: Sequence[str]) -> None:
    """Refuses standard input in two places."""
    if list(words).count(STANDARD_INPUT) > 1:
        raise UsageFault("only one of the two can be standard input")


def shown_by(source: Source, folder: str, with_contents: bool = False) -> Shown:
    """Reads a source, in an empty folder for what is made on the way. Contents are copied only if they are wanted."""
    with opened_source(source, folder, with_contents) as shown:
        return shown


@contextlib.contextmanager
def opened_source(source: Source, folder: str, with_contents: bool = False) -> Iterator[Shown]:
    """The same, with the image open."""
    if source.stack is not None:
        yield _shown_layers(source, source.stack, folder, with_contents)
    elif layers := stacks.stack_in(source.word):
        yield _shown_stack(source.word, layers, folder, with_contents)
    else:
        with _opened_image(source, folder, with_contents) as shown:
            yield shown


def shown_tree(word: str, folder: str) -> Shown:
    """What a tree shows as it is mounted."""
    note(f"{word} is no image; it is read as a tree, as it is mounted")
    report = f"{folder}/{_SHOWN}"
    with writing(report), open(report, "x", encoding="ascii") as file:
        file.writelines(report_of_folder(word, False))
    return Shown(report=report)


def _shown_layers(source: Source, stack: StackOptions, folder: str, with_contents: bool) -> Shown:
    count, out = len(stack.layers), f"{folder}/{_STACK}"
    require_ordinary(count, source.data_layers)
    program = require_program(stack.layers)
    with writing(out):
        os.mkdir(out)
    read_stack(replace(stack, digests_only=not with_contents), out)
    return Shown(
        report=_report(program, stacks.layer_paths(_STACK, count), folder, source.data_layers),
        layers=stacks.layer_paths(out, count), data_layers=source.data_layers,
        blobs=f"{out}/{stacks.BLOBS}" if with_contents else None,
    )


def _shown_stack(word: str, layers: Sequence[str], folder: str, with_contents: bool) -> Shown:
    program = require_program(layers)
    path, blobs = f"{word}/{stacks.CONFIG}", f"{word}/{stacks.BLOBS}"
    if with_contents and not os.path.isdir(blobs):
        raise cannot_read(word, f"it has no folder {stacks.BLOBS}, as of --digests-only, and contents are needed")
    paths = [os.path.abspath(layer) for layer in layers]
    return Shown(
        report=_report(program, paths, folder), layers=paths, blobs=blobs if os.path.isdir(blobs) else None,
        configuration=read_configuration(path) if os.path.lexists(path) else None,
    )


@contextlib.contextmanager
def _opened_image(source: Source, folder: str, with_contents: bool) -> Iterator[Shown]:
    choice, out = source.choice, f"{folder}/{_STACK}"
    path, tag = image_place(source.word, choice.tag)
    program = require_program(paths_of_image(path))
    with opened_image(path, choice.platform, tag) as image:
        try:
            unpack_opened(UnpackOptions(
                image=path, out=out, skip_unsupported=choice.skip_unsupported, overlay_marks=choice.overlay_marks,
                digests_only=not with_contents,
            ), image)
        except ReadFault:
            _require_digests(image)
            raise
        count = len(image.layers)
        yield Shown(
            report=_report(program, stacks.layer_paths(_STACK, count), folder), layers=stacks.layer_paths(out, count),
            blobs=f"{out}/{stacks.BLOBS}" if with_contents else None, configuration=image.configuration, image=image,
        )


def _require_digests(image: Image) -> None:
    """Fails if a layer's bytes aren't those that the image means; whatever else is wrong with them isn't looked at."""
    for number, layer in zip(reversed(range(len(image.layers))), image.layers):
        try:
            layer.require_digests()
        except Spoilt as fault:
            fault.layer = number
            raise
        except (ReadFault, TarFault, TooMuch):
            continue


def _report(program: str, layers: Sequence[str], folder: str, data_layers: int = 0) -> str:
    """What the proved program shows of manifests, whose paths count from the folder."""
    run_show(program, layers, folder, _SHOWN, data_layers)
    return f"{folder}/{_SHOWN}"
