"""The layers of an image that are those of its base: the lowest ones, as many as are named, or as a base image has."""

import contextlib
from collections.abc import Iterator, Sequence
from dataclasses import replace

from ..common.faults import UsageFault
from .configuration import platform_text
from .images import Image, ImageLayer, image_place, opened_image

_PLATFORM_WORDS = 2  # a variant isn't named by every base
_MOST_DIGITS = 9


def layers_of_base(base: str | None, count: int, image: Image | None, name: str) -> int:
    """How many of this many layers are those of a base: as many as it says, or those of an image, which it names."""
    if base is None:
        return 0
    if base.isdecimal():
        return _number(base, count)
    if image is None:
        raise UsageFault("--base IMAGE is for images; of other layers say how many")
    with opened_base(base, image, name) as layers:
        return len(layers)


@contextlib.contextmanager
def opened_base(base: str, image: Image, name: str) -> Iterator[Sequence[ImageLayer]]:
    """The layers of a base, the lowest first: a number of the image's own, or those of another image, as that has them."""
    if base.isdecimal():
        yield image.layers[:_number(base, len(image.layers))]
        return
    path, tag = image_place(base, None)
    platform = platform_text(image.configuration)
    asked = platform and "/".join(platform.split("/")[:_PLATFORM_WORDS])
    with opened_image(path, asked, tag) as found:
        _require_below(found, image, base, name)
        yield [
            replace(below, unpacked_digest=below.unpacked_digest or own.unpacked_digest)
            for below, own in zip(found.layers, image.layers)
        ]


def _number(text: str, count: int) -> int:
    if len(text) > _MOST_DIGITS or int(text) > count:
        raise UsageFault(f"--base is {text}, and there are {count} layers")
    return int(text)


def _require_below(base: Image, image: Image, word: str, name: str) -> None:
    """Refuses a base whose layers aren't the image's lowest ones."""
    count = len(image.layers)
    if len(base.layers) > count:
        raise UsageFault(f"{word} is no base of {name}: it has {len(base.layers)} layers, and the image has {count}")
    for number, (own, below) in enumerate(zip(image.layers, base.layers)):
        if not _is_same(own, below):
            raise UsageFault(f"{word} is no base of {name}: they part at layer {count - 1 - number} of the image")


def _is_same(one: ImageLayer, other: ImageLayer) -> bool:
    """Whether two layers unpack to the same, or else are packed the same."""
    if one.unpacked_digest and other.unpacked_digest:
        return one.unpacked_digest == other.unpacked_digest
    return one.digest is not None and one.digest == other.digest
