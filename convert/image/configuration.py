"""The configuration of an image: what it runs, as whom, on which platform, and how its layers came to be."""

import json
from collections.abc import Mapping, Sequence
from dataclasses import dataclass
from typing import Any

from ..common.faults import ReadFault, cannot_read, reading
from .documents import Misshapen, parse, require_configuration

MAX_BYTES = 1 << 22  # of a configuration, as of every other document of an image; skopeo reads no more either
USUAL_PLATFORM = "linux/amd64"
Document = dict[str, Any]

_PLATFORM = ("os", "architecture", "variant", "os.version", "os.features")
MAKER = "layers pack"
_MAX_FILE = 16 * MAX_BYTES  # of a configuration that a person laid out; what counts is its text without spaces
_MAX_LAID_OUT = 1 << 20  # characters of a document that is laid out for a person; others have one line


def read_configuration(path: str) -> Document:
    """The configuration in a file, such as the `config.json` that `unpack` writes."""
    value = _read(path)
    try:
        require_configuration(value)
    except Misshapen as problem:
        raise no_configuration(path, problem) from None
    return dict(value)


def no_configuration(path: str, problem: Misshapen) -> ReadFault:
    """That a document isn't the configuration of an image."""
    return cannot_read(path, f"it is no image's configuration: {problem}")


def read_annotations(path: str) -> dict[str, str]:
    """The annotations in a file, such as the `annotations.json` that `unpack` writes."""
    value = _read(path)
    if not isinstance(value, dict) or not all(isinstance(text, str) for text in value.values()):
        raise cannot_read(path, "it is no JSON object of strings")
    return value


def _read(path: str) -> Any:
    with reading(path), open(path, "rb") as file:
        data = file.read(_MAX_FILE + 1)
    try:
        value = parse(data)
    except Misshapen as problem:
        raise cannot_read(path, str(problem)) from None
    compact = data if len(data) <= MAX_BYTES else _compact(value)
    if len(compact) > MAX_BYTES:
        raise cannot_read(path, f"it has over {MAX_BYTES:,} bytes")
    return value


def _compact(value: Any) -> bytes:
    return json.dumps(value, separators=(",", ":"), ensure_ascii=False).encode()


def platform_of(configuration: Mapping[str, Any]) -> Document:
    """What a configuration, or a descriptor's `platform`, says of the platform."""
    return {name: configuration[name] for name in _PLATFORM if configuration.get(name)}


def platform_text(configuration: Any) -> str | None:
    """A platform as `OS/ARCH` or `OS/ARCH/VARIANT`, or nothing if it has no system or no processor."""
    if not isinstance(configuration, Mapping) or not configuration.get("os") or not configuration.get("architecture"):
        return None
    names = ("os", "architecture", "variant")
    return "/".join(str(configuration[name]) for name in names if configuration.get(name))


def with_platform(configuration: Mapping[str, Any], stated: Mapping[str, Any]) -> Document:
    """A configuration, with the platform of its descriptor if it names none itself."""
    own = {name: value for name, value in configuration.items() if name not in _PLATFORM or value}
    return platform_of(stated) | own


def text_of(document: Mapping[str, Any]) -> str:
    """A document for a person to read and change, in one line where it is big."""
    pieces: list[str] = []
    size = 0
    for piece in json.JSONEncoder(indent=2, ensure_ascii=False).iterencode(document):
        pieces.append(piece)
        size += len(piece)
        if size > _MAX_LAID_OUT:
            return _compact(document).decode() + "\n"
    return "".join(pieces) + "\n"


@dataclass(frozen=True)
class Making:
    """What made the layers that the history has no line for. If it has a line for each of `merged` layers, the topmost of
    the new ones is what they were merged into, but for those that stay as they are."""

    made_by: str = MAKER
    merged: int | None = None


def for_layers(given: Mapping[str, Any], platform: str | None, digests: Sequence[str], making: Making) -> Document:
    """A given configuration for layers of these unpacked digests, the lowest first.

    A platform that is asked for takes the place of the whole of the given one.
    """
    kept = {name: value for name, value in given.items() if name not in _PLATFORM}
    return kept | _chosen_platform(given, platform) | {
        "config": given.get("config") or {},
        "rootfs": {"type": "layers", "diff_ids": list(digests)},
        "history": _history(given.get("history") or [], len(digests), making),
    }


def _chosen_platform(given: Mapping[str, Any], asked: str | None) -> Document:
    own = platform_of(given)
    if asked is None and platform_text(own):
        return own
    system, _, machine = (asked or USUAL_PLATFORM).partition("/")
    architecture, _, variant = machine.partition("/")
    return {"os": system, "architecture": architecture} | ({"variant": variant} if variant else {})


def layer_lines(history: Sequence[Document]) -> list[int]:
    """The places, from 0, of those lines of a history that have a layer, the lowest first."""
    return [place for place, line in enumerate(history) if not line.get("empty_layer")]


def _history(given: Sequence[Document], layers: int, making: Making) -> list[Document]:
    """How the layers came to be.

    If the given history has as many layers, each keeps its line. Otherwise lines of layers that are no more stay without
    one, and each layer that has none gets a line of its own.
    """
    places = layer_lines(given)
    if len(places) == layers and making.merged in (None, layers):
        return list(given)
    kept = layers - 1 if len(places) == making.merged else 0
    gone = set(places[kept:])
    before = [{**line, "empty_layer": True} if place in gone else line for place, line in enumerate(given)]
    return before + [
        {"created_by": making.made_by, "comment": f"layer {number} of {layers}, the lowest first"}
        for number in range(kept + 1, layers + 1)
    ]
