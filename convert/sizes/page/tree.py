"""What the page's script reads: the files of all layers in one tree, as columns, packed.

A node is a directory or a file of the merged tree, or one that only some layer has. An item is a file of a layer, at the
first of its names there. If there is no room for all, the smaller files of a directory are summed up in a node without a
name, so all sums stay exact.
"""

import base64
import json
import zlib
from collections.abc import Iterable, Iterator, Mapping, Sequence
from typing import NamedTuple

from ...common.escaping import printable
from ...model.merged_tree import LayerFile
from ..layer_sizes import NotShown, Sizes
from ..texts import Origin, command_text
from ..waste import Kind, cause_of
from .markup import MOST_OF_COMMAND

ROOM = 1 << 24  # bytes of the columns, before they are packed
_NODE_BYTES = 8  # of a node beside its name, at most
_ITEM_BYTES = 24
_NEW, _CHANGED = "+", "~"
_LETTERS = {Kind.REMOVED: "d", Kind.REPLACED: "o", Kind.DUPLICATE: "r", Kind.UNUSED: "u"}
_SHOWN = "s"
_PAYS = "p"  # shown only by a layer above that has the contents again
_NOBODY = -1


class Item(NamedTuple):
    """A file of a layer, or several: how its bytes count, and which layer is the reason."""

    kind: str
    change: str
    layer: int
    by: int
    bytes: int
    files: int = 1

    def alike(self) -> "Item":
        """What it has in common with others that are summed up with it."""
        return self._replace(bytes=0, files=0)

    def plus(self, other: "Item") -> "Item":
        """Both together."""
        return self._replace(bytes=self.bytes + other.bytes, files=self.files + other.files)


Items = dict[str, list[Item]]  # by their places: paths without the slash at their beginning


def items_of(sizes: Sizes) -> Items:
    """The items at each place, the topmost layer's first."""
    items: Items = {}
    for file in sizes.shown:
        items.setdefault(file.path[1:], []).append(_item(file, _SHOWN if file.uses else _PAYS, _NOBODY))
    for one in sizes.not_shown:
        items.setdefault(one.file.path[1:], []).append(_wasted_item(one))
    for found in items.values():
        found.sort(key=lambda item: item.layer)
    return items


def _item(file: LayerFile, kind: str, by: int) -> Item:
    return Item(kind, _NEW if file.is_new else _CHANGED, file.layer, by, file.size)


def _wasted_item(one: NotShown) -> Item:
    return _item(one.file, _LETTERS[cause_of(one).kind], _NOBODY if one.by is None else one.by)


def places_of(sizes: Sizes, items: Iterable[str]) -> set[str]:
    """The places of the merged tree and of items, with their directories."""
    places = {path[1:] for path, _ in sizes.tree.nodes()}
    for place in items:
        while place not in places:
            places.add(place)
            place = _above(place)
    return places


def _above(place: str) -> str:
    return place.rpartition("/")[0]


def _within(places: set[str], items: Items, room: int) -> set[str]:
    """The places for which there is room, those with most bytes first, each with its directories."""
    taken = {""}
    for place in sorted(places, key=lambda it: (-sum(item.bytes for item in items.get(it, ())), it)):
        new = []
        while place not in taken:
            new.append(place)
            place = _above(place)
        room -= sum(_cost(it, items) for it in new)
        if room < 0:
            break
        taken.update(new)
    return taken


def _cost(place: str, items: Items) -> int:
    return len(place.rpartition("/")[2].encode()) + _NODE_BYTES + _ITEM_BYTES * len(items.get(place, ()))


def _rests(items: Items, taken: set[str], room: int) -> dict[str, list[Item]]:
    """What isn't taken, summed up in the directory that is taken, or, if that is too much, in the root."""
    for is_fine in (True, False):
        rests = dict[str, dict[Item, Item]]()
        for place, found in items.items():
            if place in taken:
                continue
            folder = _taken_above(place, taken) if is_fine else ""
            for item in found:
                alike = rests.setdefault(f"{folder}/", {})
                alike[item.alike()] = alike.get(item.alike(), item.alike()).plus(item)
        if sum(map(len, rests.values())) * _ITEM_BYTES <= room:
            break
    return {place: list(alike.values()) for place, alike in rests.items()}


def _taken_above(place: str, taken: set[str]) -> str:
    while place not in taken:
        place = _above(place)
    return place


def columns_of(sizes: Sizes, room: int = ROOM) -> Mapping[str, object]:
    """The columns of nodes, in path order, and those of items: how far each one's node is from the one before, and more."""
    items = items_of(sizes)
    places = places_of(sizes, items)
    count = len(places)
    if sum(_cost(place, items) for place in places) > room:
        taken = _within(places, items, room)
        rests = _rests(items, taken, room)
        items = {**{place: found for place, found in items.items() if place in taken}, **rests}
        places = taken | rests.keys()
    ordered = sorted(places, key=lambda place: place.replace("/", "\0"))
    listed = [(number, item) for number, place in enumerate(ordered) for item in items.get(place, ())]
    return {
        "names": [printable(place.rpartition("/")[2]) for place in ordered],
        "depths": [place.lstrip("/").count("/") + bool(place) for place in ordered],
        "steps": list(_steps(number for number, _ in listed)),
        "kinds": "".join(item.kind for _, item in listed),
        "changes": "".join(item.change for _, item in listed),
        "layers": [item.layer for _, item in listed],
        "by": [item.by for _, item in listed],
        "bytes": [item.bytes for _, item in listed],
        "files": [item.files for _, item in listed],
        "paths": count,
    }


def _steps(numbers: Iterable[int]) -> Iterator[int]:
    before = 0
    for number in numbers:
        yield number - before
        before = number


def packed(sizes: Sizes, origins: Sequence[Origin]) -> str:
    """The columns, and what made each layer, as the page has them: JSON, by deflate, in letters."""
    value: dict[str, object] = {
        **columns_of(sizes),
        "made": [[str(origin.step or ""), command_text(origin, MOST_OF_COMMAND)] for origin in origins],
    }
    text = json.dumps(value, ensure_ascii=False, separators=(",", ":"))
    return base64.b64encode(zlib.compress(text.encode())).decode()
