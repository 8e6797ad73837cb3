"""The page of `sizes`: one file that needs nothing else, readable without its script.

The page's policy lets nothing run and nothing dress it but its own script and style, named by their digests, and nothing
be fetched. The names in it go through `markup.text`, or are packed.
"""

import base64
import hashlib
from collections.abc import Iterator, Mapping, Sequence
from dataclasses import dataclass
from pathlib import Path

from ...common.amounts import amount_text
from ...common.outputs import write_text
from ..advice import Advice
from ..layer_sizes import Sizes
from ..table import verdict
from ..texts import Origin, packed_sum
from ..waste import Waste, waste_of
from .markup import text
from .tables import advice_list, layer_table, waste_lists
from .tree import packed

_ASSETS = Path(__file__).resolve().parent / "assets"
_STYLES = ("colours.css", "text.css", "layers.css", "map.css", "lists.css")
_SCRIPTS = ("data.js", "texts.js", "state.js", "selection.js", "treemap.js", "map.js", "lists.js", "start.js")
_TURN = 137.508  # degrees from a layer's hue to the next one's: the golden angle, so that near ones differ
_FIRST_HUE = 210.0
_VERDICT = 200  # columns
_POLICY = "default-src 'none'; script-src '{script}'; style-src '{style}'; base-uri 'none'; form-action 'none'"


@dataclass(frozen=True)
class Subject:
    """What was measured: a name, how each layer came, and what else is known of it."""

    name: str
    origins: Sequence[Origin]
    facts: Mapping[str, str]


def write_page(path: str, subject: Subject, sizes: Sizes, waste: Waste, advice: Sequence[Advice]) -> None:
    """Writes the page of what was measured of an image, or of a stack."""
    write_text(path, page(subject, sizes, waste, advice))


def page(subject: Subject, sizes: Sizes, waste: Waste, advice: Sequence[Advice]) -> Iterator[str]:
    """The page's text."""
    style = _joined(_STYLES) + _hues(len(sizes.layers))
    script = f'"use strict";\n(() => {{\n{_joined(_SCRIPTS)}}})();\n'
    policy = _POLICY.format(script=_digest(script), style=_digest(style))
    yield (
        '<!DOCTYPE html>\n<html lang="en">\n<head>\n<meta charset="utf-8">\n'
        f'<meta http-equiv="Content-Security-Policy" content="{policy}">\n'
        '<meta name="viewport" content="width=device-width">\n<meta name="referrer" content="no-referrer">\n'
        f'<meta name="color-scheme" content="light dark">\n<title>Sizes: {text(subject.name)}</title>\n'
        f"<style>{style}</style>\n</head>\n<body>\n{_PATTERN}"
    )
    yield from _head(subject, sizes, waste)
    yield from layer_table(sizes, subject.origins)
    yield from advice_list(advice, subject.origins, waste)
    yield _EXPLORER
    yield from waste_lists(sizes, subject.origins, waste_of(sizes, 0) if waste.has_base else waste)
    yield f'<script type="application/octet-stream" id="data">{packed(sizes, subject.origins)}</script>\n'
    yield f"<script>{script}</script>\n</body>\n</html>\n"


_PATTERN = """\
<svg class="patterns" aria-hidden="true"><defs><pattern id="stripes" width="6" height="6" patternUnits="userSpaceOnUse"
patternTransform="rotate(45)"><rect width="2.5" height="6"/></pattern></defs></svg>
"""
_EXPLORER = """\
<section id="explorer" hidden>
<h2>All files</h2>
<nav class="views" aria-label="which files"></nav>
<p><label>Search all paths <input id="search" type="search" autocomplete="off" spellcheck="false"></label>
<span class="found faint" aria-live="polite"></span></p>
<p class="faint">Area by bytes, colour by layer; striped: duplicate, dashed: deleted. A click goes into a directory; by
keyboard arrows and Enter, and Escape back.</p>
<nav class="way" aria-label="way to the directory"></nav>
<div class="map"></div>
<p class="description" aria-live="polite"></p>
</section>
<noscript><p class="faint">The map and the search need scripts. All tables are here without them.</p></noscript>
"""


def _joined(names: Sequence[str]) -> str:
    return "".join((_ASSETS / name).read_text(encoding="utf-8") for name in names)


def _digest(value: str) -> str:
    """A text as a policy names it."""
    return "sha256-" + base64.b64encode(hashlib.sha256(value.encode()).digest()).decode()


def _hues(count: int) -> str:
    return "".join(f".l{number}{{--hue:{(_FIRST_HUE + number * _TURN) % 360:.1f}}}\n" for number in range(count))


def _head(subject: Subject, sizes: Sizes, waste: Waste) -> Iterator[str]:
    sums, merged, packed_bytes = sizes.sums, sizes.merged, packed_sum(subject.origins)
    facts = {
        **subject.facts,
        "Layers": f"{len(sizes.layers):,}, of {sums.entries:,} entries and {amount_text(sums.bytes)}",
        "Packed": "" if packed_bytes is None else amount_text(packed_bytes),
        "As one layer": f"{amount_text(merged.bytes)}, in {merged.files:,} files",
    }
    yield f"<header>\n<h1>{text(subject.name)}</h1>\n"
    yield f'<p class="verdict">{text(verdict(waste, subject.origins, False, _VERDICT))}</p>\n<dl class="facts">'
    yield "".join(f"<div><dt>{name}</dt><dd>{text(fact)}</dd></div>\n" for name, fact in facts.items() if fact)
    yield "</dl>\n</header>\n"
