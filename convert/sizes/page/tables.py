"""The page's tables: the layers, advice, and what is wasted by directory, by command and by file."""

from collections.abc import Iterator, Sequence

from ...common.amounts import per_cent, size_text
from ..advice import Advice, worth_listing
from ..layer_sizes import LayerSizes, NotShown, Sizes
from ..texts import Origin, cause_text, command_text, layer_text, not_shown_text, packed_sum
from ..waste import Cause, Place, Waste, cause_of
from .markup import COMMAND, DIRECTORY, FILES, LAYER, MOST_OF_COMMAND, PATH, PLACE, WHY, Column, Listing, text

_LEAST_PART = 0.4  # per cent of a bar that anything takes
_PARTS = (("shown", "shown"), ("repeated", "duplicate of a lower layer"), ("hidden", "deleted but shipped"))
_HEADS = ("Bytes", "Packed", "Wasted", "Share", "Shown", "Deleted", "Duplicate", "Entries", "Files", "Whiteouts", "Opaque")


def layer_table(sizes: Sizes, origins: Sequence[Origin]) -> Iterator[str]:
    """The layers, each with a bar of what it shows and wastes."""
    most = max(own.bytes for own in sizes.layers)
    has_steps = all(origin.step for origin in origins)
    yield '<section id="layers">\n<h2>Layers, the topmost first</h2>\n<p class="legend faint">'
    yield " ".join(f"<span>{_key(0, name)} {meaning}</span>" for name, meaning in _PARTS)
    yield '</p>\n<table class="layers"><thead><tr><th class="number">Layer'
    yield '<th class="number">Step' * has_steps + '<th class="made">Made by'
    yield "".join(f'<th class="number">{head}' for head in _HEADS) + "</tr></thead>\n<tbody>\n"
    for number, (own, origin) in enumerate(zip(sizes.layers, origins)):
        yield f'<tr data-layer="{number}"><td class="number layer">{_key(number, "shown")} '
        yield f'<a href="#layer={number}">{number}</a>' + f'<td class="number step">{origin.step}' * has_steps
        yield f'<td class="made">{text(command_text(origin, MOST_OF_COMMAND))}{_bar(number, own, most)}'
        yield f"{_numbers(own, origin.packed)}</tr>\n"
    yield '</tbody>\n<tfoot><tr><th class="number layer">sum' + '<td class="step">' * has_steps + '<td class="made">'
    yield f"{_numbers(sizes.sums, packed_sum(origins))}</tr></tfoot>\n</table>\n</section>\n"


def _key(number: int, name: str) -> str:
    """A small picture of how a layer's bytes are drawn."""
    return f'<svg class="key l{number}" aria-hidden="true">{_part(name, "1", "20")}</svg>'


def _part(name: str, at: str, width: str) -> str:
    """A part of a bar."""
    place = f'x="{at}" y="1" width="{width}" height="10"'
    return f'<rect class="{name}" {place}/>' + f'<rect class="stripes" {place}/>' * (name == "repeated")


def _bar(number: int, own: LayerSizes, most: int) -> str:
    """As long as the layer is large: what is shown is full, what is repeated striped, what is deleted empty."""
    parts, at = [], 0.0
    for name, _ in _PARTS:
        size = getattr(own, name)
        width = max(_LEAST_PART, 100 * size / most) if size else 0.0
        if width:
            parts.append(_part(name, f"{at:.1f}%", f"{width:.1f}%"))
        at += width
    return f'<svg class="bar l{number}" aria-hidden="true">{"".join(parts)}</svg>'


def _numbers(own: LayerSizes, packed: int | None) -> str:
    wasted = own.hidden + own.repeated
    fields = (
        size_text(own.bytes), "-" if packed is None else size_text(packed), size_text(wasted),
        per_cent(wasted, own.bytes) if wasted else "-", *map(size_text, (own.shown, own.hidden, own.repeated)),
        *(f"{count:,}" for count in (own.entries, own.files, own.whiteouts, own.opaque)),
    )
    return "".join(f'<td class="number" data-head="{head}">{field}' for head, field in zip(_HEADS, fields))


def advice_list(advice: Sequence[Advice], origins: Sequence[Origin], waste: Waste) -> Iterator[str]:
    """What would save bytes."""
    yield '<section id="advice">\n<h2>What would save bytes</h2>\n'
    if not advice:
        yield "<p>Nothing: no bytes are wasted, and no cache of a package manager is there.</p>\n</section>\n"
        return
    columns = (FILES, Column("In", "why"), Column("What it is", "text"), Column("What saves it", "text"), PLACE)
    listing = Listing[Advice](columns, lambda it: it.bytes, lambda it: (
        f"{it.file_count:,}", layer_text(origins, it.layer), it.what, it.remedy, it.place().text()
    ), len(worth_listing(advice, waste.total)))
    yield from listing.markup(advice)
    yield "</section>\n"


def waste_lists(sizes: Sizes, origins: Sequence[Origin], waste: Waste) -> Iterator[str]:
    """What is wasted, in groups and by itself. The script puts what it is asked for in the place of these."""
    directories = Listing[Place]((FILES, DIRECTORY), lambda it: it.bytes, lambda it: (f"{it.files:,}", it.text()))
    commands = Listing[tuple[Cause, Place]]((FILES, WHY, COMMAND), lambda it: it[1].bytes, lambda it: (
        f"{it[1].files:,}", cause_text(it[0], origins), command_text(origins[it[0].layer], MOST_OF_COMMAND)
    ))
    files = Listing[NotShown]((LAYER, WHY, PATH), lambda it: it.file.size, lambda it: (
        str(it.file.layer), _why(it, origins), it.file.path
    ))
    yield '<div id="lists">\n<section id="by-directory"><h2>Wasted, by directory</h2>\n'
    yield from directories.markup(_by_directory(sizes.not_shown))
    yield '</section>\n<section id="by-command"><h2>Wasted, by command</h2>\n'
    yield from commands.markup(list(waste.causes.items()))
    yield '</section>\n<section id="files"><h2>Wasted, by file</h2>\n'
    yield from files.markup(sizes.not_shown)
    yield "</section>\n</div>\n"


def _by_directory(files: Sequence[NotShown]) -> Sequence[Place]:
    """The directories that files are right in, the largest first."""
    found = dict[str, Place]()
    for one in files:
        above = one.file.path.rpartition("/")[0] or "/"
        found.setdefault(above, Place(None, above, is_folder=True)).add(Place(None, "", one.file.size, 1))
    return sorted(found.values(), key=lambda place: (-place.bytes, place.path))


def _why(one: NotShown, origins: Sequence[Origin]) -> str:
    return not_shown_text(one) if one.is_repeated else cause_text(cause_of(one), origins)
