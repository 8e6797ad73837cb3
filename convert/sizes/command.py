"""`sizes`: what each layer of an image, or of a stack, holds, and what of it is still shown."""

import os
import tempfile
from collections.abc import Callable, Iterable, Sequence
from dataclasses import dataclass

from ..common.faults import FAULTY, Fault, UsageFault, writing
from ..common.outputs import STANDARD_OUTPUT, passing_folder
from ..common.program import require_program
from ..folder.stack_layers import StackOptions, read_stack, require_ordinary
from ..image.base import layers_of_base
from ..image.configuration import platform_text
from ..image.images import Image, image_place, opened_image, paths_of_image
from ..image.members import STANDARD_INPUT
from ..image.unpack import UnpackOptions, unpack_opened
from ..model import stacks
from ..model.show_runs import run_show
from .advice import advice_of, json_members
from .history import steps_of
from .layer_sizes import sizes_of
from .limits import Limit
from .page.write import Subject, write_page
from .table import screen_width, table
from .texts import Origin, json_text
from .waste import Waste, waste_of

_SHOWN = "show"
_STACK = "stack"


class TooMuchWaste(Fault):
    """More is wasted than may be."""

    status = FAULTY


@dataclass(frozen=True, kw_only=True)
class SizesOptions:
    """What the words of `sizes` say: an image, or the layers of a stack, the topmost first."""

    image: str | None = None
    stack: StackOptions | None = None
    data_layers: int = 0
    platform: str | None = None
    tag: str | None = None
    skip_unsupported: bool = False
    overlay_marks: bool = False
    as_json: bool = False
    exact: bool = False
    advice: bool = False
    page: str | None = None
    max_waste: Limit | None = None
    base: str | None = None  # an image, or how many of the layers, the lowest ones


def sizes(options: SizesOptions, print_lines: Callable[[Iterable[str]], None]) -> None:
    """Prints the sizes, and fails if more than may be is wasted."""
    if options.stack is not None:
        require_ordinary(len(options.stack.layers), options.data_layers)
    program = require_program(_given_paths(options))
    with passing_folder(tempfile.gettempdir()) as folder:
        given = _given_image(options, folder) if options.stack is None else _given_stack(options, options.stack, folder)
        run_show(program, stacks.layer_paths(_STACK, len(given.layers)), folder, _SHOWN, options.data_layers)
        found = sizes_of(given.layers, options.data_layers, f"{folder}/{_SHOWN}")
    waste = waste_of(found, given.base)
    origins = given.subject.origins
    advice = advice_of(found, waste.layers, origins) if options.advice or options.page is not None else []
    if options.page is not None:
        write_page(options.page, given.subject, found, waste, advice)
    if options.page != STANDARD_OUTPUT:
        print_lines(
            json_text(found, origins, json_members(advice) if options.advice else {}) if options.as_json
            else table(found, origins, waste, advice if options.advice else None, options.exact, screen_width())
        )
    _require_little_waste(waste, options.max_waste)


def _given_paths(options: SizesOptions) -> Sequence[str]:
    """Where what is measured is, unless it is standard input."""
    return options.stack.layers if options.stack else paths_of_image(image_place(str(options.image), options.tag)[0])


@dataclass(frozen=True)
class _Given:
    """What is measured: its manifests, the topmost first, how many are a base's, and what is known of it."""

    layers: list[str]
    base: int
    subject: Subject


def _given_image(options: SizesOptions, folder: str) -> _Given:
    word = str(options.image)
    if options.base == word == STANDARD_INPUT:
        raise UsageFault("the image and its base can't both be standard input")
    path, tag = image_place(word, options.tag)
    out = f"{folder}/{_STACK}"
    with opened_image(path, options.platform, tag) as image:
        base = layers_of_base(options.base, len(image.layers), image, word)
        unpack_opened(UnpackOptions(
            image=path, out=out, skip_unsupported=options.skip_unsupported, overlay_marks=options.overlay_marks,
            digests_only=True,
        ), image)
        steps = steps_of(image.configuration, len(image.layers))
        origins = [
            Origin(layer.packed_size(), step.made_by if step else None, step) for layer, step in zip(image.layers, steps)
        ]
    name = next(iter(image.names), word)
    subject = Subject(tag or name, origins[::-1], _facts_of(image))
    return _Given(stacks.layer_paths(out, len(origins)), base, subject)


def _facts_of(image: Image) -> dict[str, str]:
    """What identifies an image."""
    created = image.configuration.get("created")
    return {
        "Digest": ":".join(image.manifest_digest or ()), "Image ID": ":".join(image.digest or ()),
        "Platform": platform_text(image.configuration) or "", "Created": created if isinstance(created, str) else "",
    }


def _given_stack(options: SizesOptions, stack: StackOptions, folder: str) -> _Given:
    count = len(stack.layers)
    base = layers_of_base(options.base, count, None, "")
    out = f"{folder}/{_STACK}"
    with writing(out):
        os.mkdir(out)
    read_stack(stack, out)
    origins = [Origin(made_by=layer) for layer in stack.layers]
    return _Given(stacks.layer_paths(out, count), base, Subject(f"a stack of {count}", origins, {}))


def _require_little_waste(waste: Waste, limit: Limit | None) -> None:
    if limit is not None and limit.is_exceeded(waste.bytes, waste.total):
        raise TooMuchWaste(f"{waste.bytes} of {waste.total} bytes are wasted, more than {limit.text}")
