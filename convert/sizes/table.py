"""The table of `sizes`, as wide as the terminal: layers, then the largest wastes, advice, and the verdict last."""

import itertools
import os
import re
import sys
import textwrap
from collections.abc import Iterable, Iterator, Sequence
from dataclasses import dataclass

from ..common.amounts import amount_text, per_cent, size_text
from ..common.colours import Colour, painted
from .advice import Advice, worth_listing
from .layer_sizes import LayerSizes, Sizes
from .texts import NONE, Origin, cause_text, command_text, layer_text, packed_sum
from .waste import Cause, Place, Waste

_USUAL_WIDTH = 80
_LEAST_TEXT = 10  # columns of a command or a path
_WIDE_TEXT = 40  # that a command keeps if further columns are added
_MOST_PLACES = 7
_MOST_CAUSES = 5
_MOST_ADVICE = 10
_VERDICT_LINES = 2
_GAP = "  "
_CUT = ".."
_REMEDY = "-> "
_MORE = (("SHOWN", "DELETED", "DUPLICATE"), ("FILES", "ENTRIES"), ("WHITEOUTS", "OPAQUE"))


@dataclass(frozen=True)
class _Column:
    """A head and a field for each row, some of which are marked by a colour."""

    head: str
    fields: Sequence[str]
    is_text: bool = False
    marked: Sequence[bool] = ()

    def width(self) -> int:
        """The columns that it takes of a line."""
        return max(map(len, [self.head, *self.fields]))

    def lines(self) -> list[str]:
        """Its lines, numbers to the right."""
        align = str.ljust if self.is_text else str.rjust
        colours = [None, *(Colour.YELLOW if is_marked else None for is_marked in self.marked)]
        texts = (align(text, self.width()) for text in [self.head, *self.fields])
        return [painted(text, colour) for text, colour in itertools.zip_longest(texts, colours)]


def screen_width() -> int:
    """The columns of the terminal that standard output is, or the usual number; COLUMNS goes before both."""
    if re.fullmatch(r"[1-9]\d{0,5}", stated := os.environ.get("COLUMNS", ""), re.ASCII):
        return int(stated)
    if sys.stdout.isatty():
        return os.get_terminal_size(sys.stdout.fileno()).columns or _USUAL_WIDTH
    return _USUAL_WIDTH


def table(
    sizes: Sizes, origins: Sequence[Origin], waste: Waste, advice: Sequence[Advice] | None, exact: bool, width: int,
) -> Iterator[str]:
    """The lines for a person."""
    drawn = _Table(sizes, origins, waste, exact, width)
    yield from drawn.layers()
    if waste.bytes:
        yield from drawn.wastes("place", "PATH", [(it, it.text()) for it in waste.places], _MOST_PLACES)
        commands = [(it, command_text(origins[cause.layer])) for cause, it in waste.causes.items()]
        yield from drawn.wastes("command", "COMMAND", commands, _MOST_CAUSES)
    if advice is not None:
        yield from drawn.advice(advice)
    yield from drawn.end()


def _cut(text: str, width: int) -> str:
    """The beginning of a text, or the end of a path, if there is no room for all."""
    if len(text) <= width:
        return text
    room = width - len(_CUT)
    is_path = "/" in text and " " not in text
    return _CUT + text[-room:] if is_path else text[:room].rstrip() + _CUT


class _Table:
    """What is printed of the same sizes."""

    def __init__(self, sizes: Sizes, origins: Sequence[Origin], waste: Waste, exact: bool, width: int) -> None:
        self._sizes = sizes
        self._origins = origins
        self._waste = waste
        self._exact = exact
        self._width = width

    def _size(self, size: int | None) -> str:
        return NONE if size is None else size_text(size, self._exact)

    def layers(self) -> Iterator[str]:
        """A line for each layer, and the sums."""
        rows = [*self._sizes.layers, self._sizes.sums]
        commands = [*map(command_text, self._origins), ""]
        columns = self._columns(rows)
        room = self._room(columns)
        for heads in _MORE:
            more = [self._more(head, rows) for head in heads]
            if self._room(columns + more) < min(_WIDE_TEXT, max(map(len, commands))):
                break
            columns, room = columns + more, self._room(columns + more)
        return _lines(columns, "COMMAND", [_cut(command, room) for command in commands])

    def _columns(self, rows: Sequence[LayerSizes]) -> list[_Column]:
        """Those of any width; of steps and packed sizes if there are any."""
        packed = [*(origin.packed for origin in self._origins), packed_sum(self._origins)]
        wasted = self._wasted(rows)
        is_wasted = list(map(bool, wasted))
        columns = [
            _Column("LAYER", [*map(str, range(len(self._origins))), "sum"]),
            _Column("STEP", [*(str(origin.step) for origin in self._origins), ""]),
            _Column("BYTES", [self._size(own.bytes) for own in rows]),
            _Column("PACKED", list(map(self._size, packed))),
            _Column("WASTED", list(map(self._size, wasted)), marked=is_wasted),
            _Column("SHARE", [self._share(size, own) for size, own in zip(wasted, rows)], marked=is_wasted),
        ]
        left_out = {"STEP": not all(origin.step for origin in self._origins), "PACKED": packed[-1] is None}
        return [column for column in columns if not left_out.get(column.head)]

    def _wasted(self, rows: Sequence[LayerSizes]) -> list[int | None]:
        """What each layer wastes, none for those of a base, and the sum."""
        count = self._waste.layers
        own: list[int | None] = [layer.hidden + layer.repeated for layer in rows[:count]]
        return [*own, *[None] * (len(rows) - 1 - count), self._waste.bytes]

    def _share(self, wasted: int | None, own: LayerSizes) -> str:
        if wasted is None:
            return "base"
        whole = self._waste.total if own is self._sizes.sums else own.bytes
        return per_cent(wasted, whole) if wasted else NONE

    def _more(self, head: str, rows: Sequence[LayerSizes]) -> _Column:
        names = {"DELETED": "hidden", "DUPLICATE": "repeated"}
        numbers: list[int] = [getattr(own, names.get(head, head.lower())) for own in rows]
        is_size = head in _MORE[0]
        return _Column(head, [self._size(number) if is_size else f"{number:,}" for number in numbers])

    def _room(self, columns: Iterable[_Column]) -> int:
        """The columns that are left for a text after these."""
        return max(_LEAST_TEXT, self._width - sum(column.width() + len(_GAP) for column in columns))

    def wastes(self, by: str, head: str, places: Sequence[tuple[Place, str]], most: int) -> Iterator[str]:
        """The largest places, or what each cause wastes, with their texts, and a line for the rest."""
        total = self._waste.bytes
        is_all = len(places) <= most and sum(place.bytes for place, _ in places) == total
        listed = places if is_all else places[:most - 1]
        sizes, counts = [place.bytes for place, _ in listed], [place.files for place, _ in listed]
        whys, texts = [cause_text(place.cause, self._origins) for place, _ in listed], [text for _, text in listed]
        if not is_all:
            sizes.append(total - sum(sizes))
            counts.append(sum(place.files for place in self._waste.causes.values()) - sum(counts))
            whys.append("all others")
            texts.append("")
        columns = [
            _Column("BYTES", list(map(self._size, sizes))), _Column("FILES", [f"{count:,}" for count in counts]),
            _Column("WHY", whys, is_text=True),
        ]
        room = self._room(columns)
        yield f"\nWasted, by {by}:\n"
        yield from _lines(columns, head, [_cut(text, room) for text in texts])

    def advice(self, advice: Sequence[Advice]) -> Iterator[str]:
        """What saves most, two lines or more each, and a line for the rest."""
        listed = worth_listing(advice, self._waste.total)[:_MOST_ADVICE]
        if listed:
            yield "\nAdvice, by what it saves:\n"
            yield from self._advice_lines(listed)
        if left := advice[len(listed):]:
            yield f"and {len(left):,} smaller, {self._size(sum(it.bytes for it in left))} in all\n"
        elif not listed:
            yield "\nAdvice: none\n"
        if not self._waste.has_base and (saved := self._waste.total - self._sizes.merged.bytes) > 0:
            yield f"At once: layers flatten saves {self._size(saved)}\n"

    def _advice_lines(self, listed: Sequence[Advice]) -> Iterator[str]:
        steps = [self._origins[it.layer].step for it in listed]
        columns = [
            _Column("BYTES", [self._size(it.bytes) for it in listed]),
            _Column("FILES", [f"{it.file_count:,}" for it in listed]),
            _Column("STEP", list(map(str, steps))) if all(steps) else _Column("LAYER", [f"{it.layer}" for it in listed]),
        ]
        room = self._room(columns)
        indent = " " * sum(column.width() + len(_GAP) for column in columns)
        head, *lines = _lines(columns, "WHAT AND WHERE", [_advice_text(it, room) for it in listed])
        yield head
        for line, it in zip(lines, listed):
            yield line
            yield textwrap.fill(
                _REMEDY + it.remedy, len(indent) + max(room, _WIDE_TEXT), initial_indent=indent,
                subsequent_indent=indent + " " * len(_REMEDY),
            ) + "\n"

    def end(self) -> Iterator[str]:
        """The sums, and the verdict."""
        waste = self._waste
        shown = waste.total - waste.bytes
        yield f"\n{self._size(shown)} shown, {self._size(waste.deleted)} deleted but shipped, "
        yield f"{self._size(waste.duplicate)} duplicate; one layer would take {self._size(self._sizes.merged.bytes)}\n"
        text = verdict(waste, self._origins, self._exact, _VERDICT_LINES * self._width)
        yield f"{painted(text, Colour.YELLOW if waste.bytes else Colour.GREEN)}\n"


def _advice_text(advice: Advice, room: int) -> str:
    """What is wasted and where, in as many columns."""
    return f"{advice.what}: {_cut(advice.place().text(), max(_LEAST_TEXT, room - len(advice.what) - 2))}"


def verdict(waste: Waste, origins: Sequence[Origin], exact: bool, width: int) -> str:
    """What of all is wasted, and what wastes most, in so many columns if its path can be shortened to that."""
    over = " over the base" if waste.has_base else ""
    if not waste.bytes:
        return f"nothing of {amount_text(waste.total, exact)}{over} is wasted"
    text = (
        f"{amount_text(waste.bytes, exact)} of {amount_text(waste.total, exact)}{over} "
        f"({per_cent(waste.bytes, waste.total)}) are wasted"
    )
    worst = waste.places[0]
    begin, end = f"{text}; {amount_text(worst.bytes, exact)} by ", f", {_deed(worst.cause, origins)}"
    return begin + _cut(worst.text(), max(_LEAST_TEXT, width - len(begin) - len(end))) + end


def _deed(cause: Cause | None, origins: Sequence[Origin]) -> str:
    """What was done to bytes that are wasted, and at which step or layer."""
    if cause is None:
        return "by several commands"
    return f"{cause.kind.value} in {layer_text(origins, cause.layer)}"


def _lines(columns: Sequence[_Column], head: str, texts: Sequence[str]) -> Iterator[str]:
    """Lines of columns of which the last one has texts."""
    for fields in zip(*(column.lines() for column in columns), [head, *texts]):
        yield _GAP.join(fields).rstrip() + "\n"
