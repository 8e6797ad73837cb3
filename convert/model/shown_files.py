"""Which names layers show as one file, of manifests and their files of links."""

import itertools
from collections.abc import Iterable, Mapping, Sequence

from .entries import REDIRECT, named, without_paths
from .links import numbered_names, renumber, take_links
from .manifests import has_attribute, read_manifest
from .merged_tree import MergedTree

Files = Mapping[str, tuple[str, ...]]  # each name of a file that has several, with all of them in path order


def files_in(shown_links: str) -> Files:
    """The files in a file of links of what layers show."""
    return _files(numbered_names(shown_links))


def shown_files(layers: Sequence[str], shown_links: str) -> Files:
    """The files that layers show, the topmost first. One that has no file of links has its links of what was shown."""
    tree, numbers = MergedTree(), itertools.count(1)
    for layer in reversed(layers):
        entries = read_manifest(layer)
        take_links(layer, entries, shown_links)
        renumber(entries, numbers)
        tree.cover(without_paths(entries), has_attribute(layer, [REDIRECT]))
    return _files((path, entry.link) for path, entry in tree.entries() if entry.link)


def _files(names: Iterable[tuple[str, int]]) -> Files:
    found: dict[int, list[str]] = {}
    for name, number in names:
        found.setdefault(number, []).append(name)
    return {name: tuple(file) for file in found.values() if len(file) > 1 for name in file}
