"""What would save bytes: the kinds of waste in each layer, and what to change in the Dockerfile.

Each file that is wasted has the first of the rules that applies to it. Caches of package managers count too if they are
shown: a rule's bytes are what its remedy saves.
"""

from collections.abc import Callable, Iterator, Mapping, Sequence
from dataclasses import dataclass, field, replace
from typing import Any

from ..model.merged_tree import LayerFile, Rights
from .caches import Cache, cache_at, cache_place
from .history import short_command
from .layer_sizes import NotShown, Sizes
from .texts import Origin, layer_text
from .waste import Place, large_places

_LEAST_PART = 1_000  # advice is listed from this part of all bytes on
_NEAR = 10  # a size is near another one if it differs by less than this part of it
_COPIES = ("COPY", "ADD")
_WHOLE_TREES = ("COPY /", "ADD /")
_RUN = "RUN"


@dataclass(frozen=True)
class _Case:
    """A file that is wasted, or in a cache."""

    file: LayerFile
    waste: NotShown | None = None
    cache: Cache | None = None
    below: Rights | None = None  # of the file of the same contents in whose place it is
    is_copy: bool = False  # whether a layer below has the same contents, and they are used

    def differs(self, *names: str) -> bool:
        """Whether it is in the place of the same contents with other rights."""
        return self.below is not None and any(getattr(self.below, it) != getattr(self.file.rights, it) for it in names)

    @property
    def is_repeated(self) -> bool:
        """Whether a lower layer has the same contents."""
        return self.waste is not None and self.waste.is_repeated

    @property
    def replacing(self) -> LayerFile | None:
        """The file of the layer that hides it, in its place."""
        return self.waste.replacing if self.waste else None

    @property
    def other(self) -> int | None:
        """The other layer of this: the one below, or the one that hides it."""
        if self.waste is None or self.cache is not None:
            return None
        return self.file.over.layer if self.below and self.file.over else self.waste.by

    def options(self) -> frozenset[str]:
        """What COPY needs for these rights."""
        rights = self.file.rights
        if rights is None:
            return frozenset()
        owner = {f"--chown={rights.uid}:{rights.gid}"} if self.differs("uid", "gid") else set()
        return frozenset(owner | ({f"--chmod={rights.mode:o}"} if self.differs("mode") else set()))


@dataclass(frozen=True)
class Rule:
    """A kind of waste: when it applies, what it is, and what saves it if COPY or RUN wrote the file, or if it's unknown.

    The texts name the layer itself (own), the other one, the word and the options of COPY, and a cache.
    """

    name: str
    applies: Callable[[_Case], bool]
    what: str
    if_copied: str
    if_run: str
    if_unknown: str


def _is_rewritten(case: _Case) -> bool:
    """Whether a file of nearly the same size is in its place."""
    by = case.replacing
    return by is not None and abs(by.size - case.file.size) * _NEAR < case.file.size


RULES = (
    Rule(
        "cache", lambda it: it.cache is not None, "{cache}", "leave it out of what is copied (.dockerignore)",
        "{clean} in the same RUN, or RUN --mount=type=cache", "leave it out of {own}",
    ),
    Rule(
        "owner", lambda it: it.differs("uid", "gid"), "only another owner than in {other}",
        "{word} {options} in {other}", "chown in the RUN of {other}", "the final owner in {other}",
    ),
    Rule(
        "mode", lambda it: it.differs("mode"), "only another mode than in {other}",
        "{word} {options} in {other}", "chmod in the RUN of {other}", "the final mode in {other}",
    ),
    Rule(
        "attributes", lambda it: it.differs("attributes"), "only other attributes than in {other}",
        "copy and set them in one RUN --mount=type=bind", "set them in the RUN of {other}",
        "the final attributes in {other}",
    ),
    Rule(
        "unchanged", lambda it: it.below is not None, "written again as it is in {other}",
        "leave it out of {own}", "leave it out of {own}", "leave it out of {own}",
    ),
    Rule(
        "copied", lambda it: it.is_copy, "as in {other}, at another path",
        "a symlink in place of the copy", "a symlink, or ln in the RUN of {other}", "a symlink in place of the copy",
    ),
    Rule(
        "moved", lambda it: it.is_repeated, "moved here from {other}",
        "{word} to the final path in {other}", "mv in the RUN of {other}", "the final path in {other}",
    ),
    Rule(
        "rewritten", _is_rewritten, "rewritten at nearly its size in {other}",
        "copy it as {other} leaves it", "write it once, in one RUN with {other}", "write it once, as {other} does",
    ),
    Rule(
        "replaced", lambda it: it.replacing is not None, "replaced in {other}",
        "leave it out of what is copied (.dockerignore)", "write it once, in one RUN with {other}", "leave it out of {own}",
    ),
    Rule(
        "removed", lambda it: it.other is not None, "removed in {other}",
        "RUN --mount=type=bind in place of {word}, or .dockerignore", "remove it in the same RUN", "leave it out of {own}",
    ),
    Rule(
        "unused", lambda it: it.waste is not None, "never used: no metacopy file leads to it",
        "leave it out of {own}", "leave it out of {own}", "leave it out of {own}",
    ),
)


@dataclass
class Advice:
    """What a rule saves of a layer, and the place with most of it."""

    rule: Rule
    layer: int
    other: int | None
    cache: Cache | None
    what: str = ""
    remedy: str = ""
    bytes: int = 0
    shown: int = 0  # of these bytes, those that are shown
    files: dict[str, Place] = field(default_factory=dict)
    options: set[frozenset[str]] = field(default_factory=set)

    def add(self, case: _Case) -> None:
        """Counts a file."""
        file = case.file
        self.bytes += file.size
        self.shown += 0 if case.waste else file.size
        self.files.setdefault(file.path, Place(None, file.path)).add(Place(None, "", file.size, 1))
        self.options.add(case.options())

    @property
    def file_count(self) -> int:
        """How many files these are."""
        return sum(place.files for place in self.files.values())

    def place(self) -> Place:
        """The deepest directory, or the file, with over half of the bytes; of a cache its own directory."""
        place = next(large_places(self.files, self.bytes // 2 + 1))
        return place if self.cache is None else replace(place, path=cache_place(place.path), is_folder=True)

    def word_it(self, origins: Sequence[Origin]) -> None:
        """Says what it is, and what saves it: a change of the step that wrote the files first."""
        has_maker_below = self.other is not None and self.other > self.layer
        word = _word_of(origins[self.other if has_maker_below and self.other is not None else self.layer])
        options = " ".join(sorted(next(iter(self.options)))) if len(self.options) == 1 else self._bare_options()
        names = {
            "own": layer_text(origins, self.layer), "other": layer_text(origins, self.other), "word": word,
            "options": options, "cache": self.cache and self.cache.name, "clean": self.cache and self.cache.remedy,
        }
        rule = self.rule
        remedy = rule.if_copied if word in _COPIES else rule.if_run if word == _RUN else rule.if_unknown
        self.what, self.remedy = rule.what.format(**names), remedy.format(**names)

    def _bare_options(self) -> str:
        """The options if their values differ between the files."""
        return " ".join(sorted({option.partition("=")[0] for options in self.options for option in options}))


def advice_of(sizes: Sizes, layers: int, origins: Sequence[Origin]) -> list[Advice]:
    """What would save bytes of this many layers, the topmost ones; the largest saving first."""
    found = dict[object, Advice]()
    for case in _cases(sizes, layers):
        rule = next(rule for rule in RULES if rule.applies(case))
        key = (case.file.layer, rule.name, case.other, case.cache)
        advice = found.setdefault(key, Advice(rule, case.file.layer, case.other, case.cache))
        advice.add(case)
    for advice in found.values():
        advice.word_it(origins)
    return sorted(found.values(), key=lambda it: (-it.bytes, it.layer, it.what))


def _cases(sizes: Sizes, layers: int) -> Iterator[_Case]:
    used = _used(sizes)
    for file in sizes.shown:
        cache = _cache_of(file)
        if file.layer < layers and file.size and cache is not None:
            yield _Case(file, cache=cache)
    for one in sizes.not_shown:
        file = one.file
        if file.layer < layers and file.size:
            is_copy = one.is_repeated and used.get(file.blob, -1) > file.layer
            yield _Case(file, one, _cache_of(file), _rights_below(file), is_copy)


def _used(sizes: Sizes) -> Mapping[bytes, int]:
    """The lowest layer of which a file with some contents is in use."""
    used = dict[bytes, int]()
    for file in [*sizes.shown, *(one.file for one in sizes.not_shown)]:
        if file.uses:
            used[file.blob] = max(file.layer, used.get(file.blob, -1))
    return used


def _cache_of(file: LayerFile) -> Cache | None:
    """The cache that a file is in with all its names: it may be in use by another one."""
    cache = cache_at(file.path)
    return cache if cache is not None and all(map(cache_at, file.names())) else None


def _rights_below(file: LayerFile) -> Rights | None:
    contents = file.over.contents() if file.over else None
    return file.over.rights if file.over and contents and contents.blob == file.blob else None


def _word_of(origin: Origin) -> str:
    """The word of the Dockerfile's line that made a layer; none of one that copies a base's whole tree."""
    command = short_command(origin.made_by) if origin.step and origin.made_by else ""
    return "" if command in _WHOLE_TREES else command.partition(" ")[0]


def worth_listing(advice: Sequence[Advice], total: int) -> Sequence[Advice]:
    """The advice that saves enough of all these bytes, the first of it."""
    return [it for it in advice if it.bytes * _LEAST_PART >= total]


def json_members(advice: Sequence[Advice]) -> dict[str, Any]:
    """The same for a program."""
    return {"advice": [
        {
            "rule": it.rule.name, "layer": it.layer, "other": it.other, "bytes": it.bytes, "shown": it.shown,
            "files": it.file_count, "path": it.place().path, "what": it.what, "remedy": it.remedy,
        }
        for it in advice
    ]}
