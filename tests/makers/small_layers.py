"""Layers of small stacks as lists of entries, which are put into path order when they are written."""
from __future__ import annotations

import json
import os
from collections.abc import Callable, Mapping, Sequence

from entries import Entry, entry, stated
from generate import LAST

Layer = list[Entry]
# What a manifest is written of: a layer, a function that makes it, or a text as it is.
Source = Layer | Callable[[], Layer] | str
Sources = Sequence[Source]


def file(path: str) -> Entry:
    return entry(path, "file", size=0)


def files(directory: str, count: int, first: int = 0) -> Layer:
    return [file(f"{directory}/f{n:07d}") for n in range(first, first + count)]


def directories(directory: str, count: int, attrs: Mapping[str, str] | None = None) -> Layer:
    return [entry(f"{directory}/d{n:07d}", attrs=attrs) for n in range(count)]


def whiteout(path: str) -> Entry:
    return entry(path, "char", major=0, minor=0)


def chain(name: str, depth: int, attrs: Mapping[str, str] | None = None) -> Layer:
    """Directories in each other, of which the deepest has these attributes."""
    paths = [("/" + name) * n for n in range(1, depth + 1)]
    return [entry(path) for path in paths[:-1]] + [entry(paths[-1], attrs=attrs)] if paths else []


class First(Layer):
    """A layer whose manifest is of version 1, which has no nanoseconds; others are of the last version."""


def names_of(it: Entry) -> list[bytes]:
    path: str = it["path"]
    return path.encode().split(b"/")


def manifest_of(layer: Source, entries: Layer) -> dict[str, object]:
    """The value of a layer's manifest with these entries."""
    if not isinstance(layer, First):
        return {"overlay-layer": LAST, "entries": entries}
    return {"overlay-layer": 1, "entries": [stated(it, 1) for it in entries]}


def write(folder: str, layers: Sources, unsorted: bool = False) -> list[str]:
    """Writes the layers, the topmost first, and gives the files' names. A layer may be a function that makes it, and a
    text that is written as it is.

    Members are in the order of their names, as the converter and the program write them, or unsorted."""
    names = []
    for n, layer in enumerate(layers):
        names.append(os.path.join(folder, f"layer-{n:03d}.json"))
        if isinstance(layer, str):
            with open(names[-1], "w", encoding="utf-8") as out:
                out.write(layer)
            continue
        entries = [entry("/")] + (layer() if callable(layer) else layer)
        entries.sort(key=names_of)
        with open(names[-1], "w", encoding="utf-8") as out:
            json.dump(manifest_of(layer, entries), out, separators=(",", ":"), sort_keys=not unsorted)
    return names
