"""Small random stacks with hard links, whose topmost layer repeats most of the next one, and what they show as one file."""

import hashlib
import itertools
import os
import random

from plain_stacks import PlainStack, names_of, text_of

from convert.model import rules
from convert.model.entries import CHAR, DIRECTORY, FILE, Entry, named
from convert.model.links import write_layer

_NAMES = ("a", "b", "c", "d")
_CONTENTS = {hashlib.sha256(data).hexdigest(): data for data in (b"one", b"twelve")}
Layers = list[list[Entry]]


def random_stack(seed: int) -> Layers:
    """The entries of two or three layers, the topmost first."""
    pick = random.Random(seed)
    lower = [_layer(pick, {}) for _ in range(pick.randint(1, 2))]
    return [_layer(pick, {names_of(entry.path): entry for entry in lower[0]}), *lower]


def _layer(pick: random.Random, below: dict[tuple[str, ...], Entry]) -> list[Entry]:
    entries = {(): Entry("/", DIRECTORY, 0o755)}
    for path in (path for depth in (1, 2) for path in itertools.product(_NAMES, repeat=depth)):
        parent, lower = entries.get(path[:-1]), below.get(path)
        if parent is None or parent.kind != DIRECTORY or pick.random() < 0.3:
            continue
        if lower is not None and lower.kind != CHAR and pick.random() < 0.8:
            entries[path] = Entry(lower.path, lower.kind, lower.mode, size=lower.size, blob=lower.blob)
        elif lower is not None or not below or pick.random() < 0.5:
            entries[path] = _entry(pick, text_of(path))
    ordered = sorted(entries.values(), key=lambda entry: rules.path_key(entry.path))
    for entry in ordered:
        if entry.kind == FILE and pick.random() < 0.6:
            entry.link = 1 + list(_CONTENTS).index(str(entry.blob))
    return ordered


def _entry(pick: random.Random, path: str) -> Entry:
    kind = pick.choice((DIRECTORY, DIRECTORY, FILE, FILE, FILE, CHAR))
    if kind != FILE:
        return Entry(path, kind, 0o755 if kind == DIRECTORY else 0)
    blob = pick.choice(list(_CONTENTS))
    return Entry(path, FILE, 0o644, size=len(_CONTENTS[blob]), blob=blob)


def write_stack(layers: Layers, folder: str) -> list[str]:
    """Writes manifests with their links, and the folder of blobs; gives the manifests."""
    os.makedirs(f"{folder}/blobs", exist_ok=True)
    for name, data in _CONTENTS.items():
        with open(f"{folder}/blobs/{name}", "wb") as file:
            file.write(data)
    manifests = [f"{folder}/l{number}.json" for number in range(len(layers))]
    for manifest, layer in zip(manifests, layers):
        write_layer(manifest, lambda entries=layer: named(entries), manifest, True)  # type: ignore[misc]
    return manifests


def shown(layers: Layers) -> tuple[str, list[list[str]]]:
    """The show report of a stack, and the names that it shows as one file."""
    stack = PlainStack(layers, 0)
    files: dict[tuple[int, int], list[str]] = {}
    for path in stack.paths():
        place = stack.shown(path)
        if place is not None and stack.entry(place).link:
            files.setdefault((place[0], stack.entry(place).link), []).append(text_of(path))
    return "".join(stack.report()), sorted(names for names in files.values() if len(names) > 1)
