"""Texts of what `sizes` found, for a person and for a program."""

import json
from collections.abc import Iterator, Mapping, Sequence
from dataclasses import asdict, dataclass
from types import MappingProxyType
from typing import Any

from ..common.escaping import printable
from .history import Step, short_command
from .layer_sizes import NotShown, Sizes
from .waste import Cause, Kind

_VERSION = 1
NONE = "-"


@dataclass(frozen=True)
class Origin:
    """How a layer came: its compressed size in the image, what made it, and which step of the image's history."""

    packed: int | None = None
    made_by: str | None = None
    step: Step | None = None


def layer_text(origins: Sequence[Origin], layer: int | None) -> str:
    """A layer in a sentence: its step, if the image's history has it."""
    step = None if layer is None else origins[layer].step
    return "" if layer is None else f"step {step.number}" if step else f"layer {layer}"


def command_text(origin: Origin, most: int | None = None) -> str:
    """What made a layer, in short, in at most this many letters."""
    if origin.made_by is None:
        return NONE
    text = printable(short_command(origin.made_by) if origin.step else origin.made_by)
    return text if most is None or len(text) <= most else text[:most] + " .."


def cause_text(cause: Cause | None, origins: Sequence[Origin]) -> str:
    """How bytes are wasted, and in which step or layer."""
    if cause is None:
        return "by several"
    if cause.kind is Kind.UNUSED:
        return str(cause.kind.value)
    step = origins[cause.layer].step
    return f"{cause.kind.value} in {step or f'layer {cause.layer}'}"


def not_shown_text(one: NotShown) -> str:
    """Why a file's contents count as not shown."""
    if one.is_repeated:
        return f"as in layer {one.by}"
    return "never led to" if one.by is None else f"hidden by layer {one.by}"


def packed_sum(origins: Sequence[Origin]) -> int | None:
    """The bytes of all layers that are compressed; nothing if none is."""
    sizes = [origin.packed for origin in origins if origin.packed is not None]
    return sum(sizes) if sizes else None


def json_text(sizes: Sizes, origins: Sequence[Origin], more: Mapping[str, Any] = MappingProxyType({})) -> Iterator[str]:
    """The same for a program, and more members; README.md has them all."""
    layers = [
        {"layer": number, "made-by": origin.made_by, "packed": origin.packed, **asdict(own)}
        for number, (own, origin) in enumerate(zip(sizes.layers, origins))
    ]
    value: dict[str, Any] = {
        "layer-sizes": _VERSION,
        "layers": layers,
        "sums": {"packed": packed_sum(origins), **asdict(sizes.sums)},
        "one-layer": {name: getattr(sizes.merged, name) for name in ("entries", "files", "bytes")},
        "not-shown": [
            {
                "bytes": one.file.size, "layer": one.file.layer, "path": one.file.path,
                "why": "repeated" if one.is_repeated else "hidden", "by": one.by,
            }
            for one in sizes.not_shown
        ],
        **more,
    }
    yield from json.JSONEncoder(indent=1).iterencode(value)
    yield "\n"
