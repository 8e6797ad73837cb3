"""Paths that are left out of what layers show, as if the topmost layer had removed them."""

from collections.abc import Iterable, Iterator, Sequence

from ..common.budgets import Budget
from ..common.faults import UsageFault
from ..model.entries import REDIRECT, named
from ..model.entry_file import EntryFile
from ..model.layer_tree import Folder, LayerTree, whiteout
from ..model.manifests import has_attribute, read_manifest, write_manifest
from ..model.merged_tree import Directory, MergedTree
from ..model.show_report import ShowLine, escaped_path

_ROOT = "/"


def excluded_path(word: str) -> str:
    """A path as manifests have it, from the root on, with or without the slash there."""
    names = word.strip(_ROOT).split(_ROOT)
    if names == [""]:
        raise UsageFault(f"--exclude {word} would leave nothing: name a path below the root")
    if not {"", ".", ".."}.isdisjoint(names):
        raise UsageFault(f"--exclude {word}: name the path from the root on, without '.', '..' and '//'")
    return _ROOT + _ROOT.join(names)


def lines_without(lines: Iterable[ShowLine], paths: Sequence[str]) -> Iterator[ShowLine]:
    """The lines of a report of `show` but for those of paths and of all below them. Each of the paths must be there."""
    shown = {escaped_path(path): path for path in paths}
    left = dict(shown)
    for line in lines:
        left.pop(line.path, None)
        if line.path not in shown and not any(line.path.startswith(f"{path}/") for path in shown):
            yield line
    if left:
        raise UsageFault(f"--exclude {next(iter(left.values()))}: the layers show nothing there")


def write_without(layer: str | None, below: Sequence[str], paths: Iterable[str], out: str) -> None:
    """Writes the manifest of a layer, or of a new one, that shows nothing at these paths over the layers below it."""
    with EntryFile() as file:
        tree, merged = LayerTree(Budget(), file), MergedTree()
        for entry in read_manifest(layer) if layer else ():
            path, entry.path = entry.path, ""
            tree.put(_names(path), entry)
        for lower in reversed(below):
            merged.cover(named(read_manifest(lower)), has_attribute(lower, [REDIRECT]))
        for path in paths:
            names = _names(path)
            tree.drop(names)
            if _is_shown_below(tree, merged.root, names):
                tree.put(names, whiteout())
        tree.settle(merged.root, lambda gap, path: None)
        write_manifest(out, tree.entries(), layer or out)


def _names(path: str) -> list[str]:
    return path.strip(_ROOT).split(_ROOT) if path != _ROOT else []


def _is_shown_below(tree: LayerTree, below: Directory | None, names: list[str]) -> bool:
    """Whether the layers below a layer show something at a path, which the layer doesn't hide by what is above it."""
    here: Folder | None = tree.root
    under = below
    for name in names[:-1]:
        inner = here.children.get(name) if here else None
        shown = here.lower(under, name) if here else under.children.get(name) if under else None
        if isinstance(inner, int) or not isinstance(shown, Directory):
            return False
        here, under = inner, shown
    return (here.lower(under, names[-1]) if here else under and under.children.get(names[-1])) is not None
