"""What of the layers' bytes is wasted, at which places, and by which layer."""

from collections.abc import Iterable, Iterator, Mapping
from dataclasses import dataclass, field, replace
from enum import Enum

from ..common.escaping import printable
from .layer_sizes import NotShown, Sizes

_LEAST_PART = 10  # a place is listed from this part of the waste on
_ROOT = "/"


class Kind(Enum):
    """How bytes are wasted."""

    REMOVED = "removed"
    REPLACED = "replaced"
    DUPLICATE = "duplicate"
    UNUSED = "never used"


@dataclass(frozen=True)
class Cause:
    """What wastes bytes: a layer that removes or replaces them, that has them again, or has them in vain."""

    kind: Kind
    layer: int


@dataclass
class Place:
    """What is wasted at a path, a file or a directory without what is listed of it, by one cause or by several."""

    cause: Cause | None
    path: str
    bytes: int = 0
    files: int = 0
    is_folder: bool = False

    def add(self, other: "Place") -> None:
        """Adds what is wasted at another place."""
        self.bytes += other.bytes
        self.files += other.files

    def text(self) -> str:
        """Its path, with a slash at the end of a directory's."""
        return printable(self.path + "/" if self.is_folder and self.path != "/" else self.path)


@dataclass
class Waste:
    """What the layers over a base waste, the largest places and causes first."""

    layers: int  # those over the base, the topmost ones
    has_base: bool
    total: int = 0
    deleted: int = 0
    duplicate: int = 0
    causes: dict[Cause, Place] = field(default_factory=dict)  # what each wastes of all
    places: list[Place] = field(default_factory=list)

    @property
    def bytes(self) -> int:
        """All that is wasted."""
        return self.deleted + self.duplicate


def waste_of(sizes: Sizes, base: int) -> Waste:
    """What is wasted but for so many layers of a base, the lowest ones."""
    count = len(sizes.layers) - base
    own = sizes.layers[:count]
    waste = Waste(
        count, base > 0, sum(layer.bytes for layer in own), sum(layer.hidden for layer in own),
        sum(layer.repeated for layer in own),
    )
    by_cause = dict[Cause, dict[str, Place]]()
    for one in sizes.not_shown:
        if one.file.layer < count and one.file.size:
            cause = cause_of(one)
            files = by_cause.setdefault(cause, {})
            files.setdefault(one.file.path, Place(cause, one.file.path)).add(Place(cause, "", one.file.size, 1))
    sums = {cause: _sum_of(cause, files.values()) for cause, files in by_cause.items()}
    waste.causes = dict(sorted(sums.items(), key=lambda item: (-item[1].bytes, item[0].layer, item[0].kind.value)))
    waste.places = _places_of(by_cause, -(-waste.bytes // _LEAST_PART))
    return waste


def _places_of(by_cause: Mapping[Cause, Mapping[str, Place]], least: int) -> list[Place]:
    """The large places of each cause, and then those of all that is left together."""
    found = list[Place]()
    rest = dict[str, Place]()
    for files in by_cause.values():
        large = list(large_places(files, least))
        found += large
        for path, place in files.items():
            if not any(_is_in(path, it) for it in large):
                rest.setdefault(path, Place(None, path)).add(place)
    found += large_places(rest, least)
    return sorted(found, key=lambda place: (-place.bytes, place.path))


def _is_in(path: str, place: Place) -> bool:
    return path == place.path or path.startswith(place.path.rstrip("/") + "/")


def cause_of(one: NotShown) -> Cause:
    """What wastes a file."""
    if one.is_repeated:
        return Cause(Kind.DUPLICATE, one.file.layer)
    if one.by is None:
        return Cause(Kind.UNUSED, one.file.layer)
    return Cause(Kind.REMOVED if one.replacing is None else Kind.REPLACED, one.by)


def _sum_of(cause: Cause, places: Iterable[Place]) -> Place:
    total = Place(cause, _ROOT, is_folder=True)
    for place in places:
        total.add(place)
    return total


def large_places(files: Mapping[str, Place], least: int) -> Iterator[Place]:
    """The deepest places of at least so many bytes, each without those in it; smaller ones count for their directory."""
    levels = dict[int, dict[str, Place]]()
    for path, place in files.items():
        levels.setdefault(path.count("/"), {})[path] = replace(place)
    for depth in range(max(levels, default=0), 0, -1):
        for path, place in levels.get(depth, {}).items():
            if place.bytes >= least:
                yield place
                continue
            above = path.rpartition("/")[0] or _ROOT
            folder = levels.setdefault(depth - 1, {}).setdefault(above, Place(place.cause, above))
            folder.is_folder = True
            folder.add(place)
    yield from (root for root in levels.get(0, {}).values() if root.bytes >= least)
