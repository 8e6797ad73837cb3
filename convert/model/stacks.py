"""The folder of a stack: manifests, the contents of their files, and the configuration of an image."""

import os
import re
from collections.abc import Sequence

from ..common.faults import UsageFault

BLOBS = "blobs"
CONFIG = "config.json"
ANNOTATIONS = "annotations.json"
SHOWN_LINKS = "shown.links"
_LAYER = re.compile(r"l\d+\.json")
_NUMBERED = re.compile(r"(.*?)(\d+)(\D*)", re.DOTALL)


def layer_name(number: int, count: int) -> str:
    """The name of the manifest of one of this many layers; the topmost layer is number 0.

    All have as many digits, so that a shell's `l*.json` has them in order.
    """
    return f"l{number:0{len(str(count - 1))}}.json"


def layer_paths(folder: str, count: int) -> list[str]:
    """The manifests of a stack of this many layers, the topmost first."""
    return [f"{folder}/{layer_name(number, count)}" for number in range(count)]


def stack_in(folder: str) -> list[str]:
    """The manifests of the stack that a folder is, if `unpack` or `store` wrote it, the topmost layer first."""
    try:
        names = [name for name in os.listdir(folder) if _LAYER.fullmatch(name)]
    except OSError:
        return []
    paths = layer_paths(folder, len(names)) if names else []
    is_stack = sorted(f"{folder}/{name}" for name in names) == paths and os.path.lexists(f"{folder}/{SHOWN_LINKS}")
    return paths if is_stack else []


def require_no_stack(layers: Sequence[str]) -> None:
    """Refuses a folder that `unpack` or `store` wrote where a layer is meant."""
    for layer in layers:
        if stack_in(layer):
            raise UsageFault(f"{layer} is a folder that unpack wrote, a stack of its own and no layer: name its manifests")


def require_order(layers: Sequence[str]) -> None:
    """Refuses numbered layers in the order in which a shell gives them, if that isn't the order of their numbers."""
    found = [_NUMBERED.fullmatch(layer) for layer in layers]
    parts = [(match[1], int(match[2]), match[3]) for match in found if match]
    if len(parts) < len(layers) or len({(start, end) for start, _, end in parts}) > 1:
        return
    by_number = [layer for _, layer in sorted(zip(parts, layers))]
    if list(layers) == sorted(layers) and list(layers) != by_number:
        wrong = next(place for place, pair in enumerate(zip(layers, by_number)) if pair[0] != pair[1])
        raise UsageFault(
            f"{layers[wrong]} stands before {by_number[wrong]}, as a shell sorts names; give the layers in the order of "
            f"their numbers, the topmost first: {by_number[0]} .. {by_number[-1]} (`ls -v` sorts so)"
        )
