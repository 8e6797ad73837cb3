"""What is made isn't to lie in a layer that is read."""

import os
from collections.abc import Iterator, Mapping, Sequence

from ..common.faults import UsageFault
from ..common.outputs import STANDARD_OUTPUT


def require_outside(places: Mapping[str, str | None], layers: Sequence[str]) -> None:
    """Refuses places, by the words that name them, that are layers or in one."""
    for word, place in places.items():
        if place is None or place == STANDARD_OUTPUT:
            continue
        for layer in layers:
            if os.path.exists(place) and os.path.samefile(place, layer):
                raise UsageFault(f"{word} {place} is a layer that is read: name another place")
            if any(os.path.samefile(folder, layer) for folder in _folders_above(place)):
                raise UsageFault(f"{word} {place} is in the layer {layer}, which is read: name another place")


def _folders_above(path: str) -> Iterator[str]:
    """The folders that a path is in, as far as they are there."""
    place = os.path.realpath(path)
    while place != os.path.dirname(place):
        place = os.path.dirname(place)
        if os.path.exists(place):
            yield place
