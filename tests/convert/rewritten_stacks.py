"""Stacks that the kernel's overlayfs makes, with layers that `vacuum`, `deref` and `merge` wrote in place of their own.

    unshare --mount --propagation private python3 rewritten_stacks.py FOLDER SEED COUNT PROGRAM..

Runs in a mount namespace of its own, as `kernel_stacks` does. Of the layers of a stack, as folders and as squashfs
files, each command makes a new one. What the kernel shows of an overlay with it, in place of those that it was made of,
must be what it shows of the stack; and names are one file with others as before, but for what is in a layer below.
"""

import ast
import os
import stat
import sys
from collections.abc import Callable, Iterator

from kernel_stacks import MAKING, count_different, mounted_overlay
from squashfs_stacks import LOOKING, StackOfFiles, Tree, difference, done, tree_of


class Rewritten(StackOfFiles):
    """A stack whose topmost layers are written anew."""

    removed = 0  # by `vacuum`, of all stacks

    def make(self) -> None:
        """Makes the layers; the topmost one also has files as they are below, with and without their contents."""
        super().make()
        place = self._new("mnt")
        with mounted_overlay(place, self._layers, [], MAKING, f"{self._top}/work"):
            for folder, _, names in os.walk(place):
                for path in (os.path.join(folder, name) for name in sorted(names)):
                    mode = os.lstat(path).st_mode
                    if stat.S_ISREG(mode) and self._pick.random() < 0.5:
                        os.chmod(path, stat.S_IMODE(mode))
                    elif stat.S_ISREG(mode) and self._pick.random() < 0.5:
                        os.close(os.open(path, os.O_RDWR))

    def compare(self, program: list[str]) -> list[str]:
        """What differs, line by line."""
        files = [self._squashfs(number, layer) for number, layer in enumerate(self._layers)]
        return [
            line for layers, suffix, overlay_of in (
                (self._layers, "", self._overlay_of_folders), (files, ".squashfs", self._overlay_of),
            ) for line in self._differences(layers, suffix, overlay_of)
        ]

    def _differences(
        self, layers: list[str], suffix: str, overlay_of: Callable[[list[str]], Tree]
    ) -> Iterator[str]:
        wanted, count = overlay_of(layers), len(layers)
        for number, (words, taken) in enumerate((
            (("vacuum",), 1), (("deref",), 1), (("merge",), 2), (("merge", "--down-to", "1"), count),
        )):
            out = f"{self._folder}/new{number}{suffix}"
            report = done(*words, "--stack", *layers, "--out", out)
            shown = overlay_of([out, *layers[taken:]])
            if words == ("vacuum",):
                Rewritten.removed += len(report.splitlines()) - 1
                lines = difference(wanted, shown)
            else:
                lines = difference((wanted[0], []), (shown[0], new_links(wanted[1], shown[1])))
            yield from (f"{' '.join(words)}{suffix}: {line}" for line in lines)

    def _overlay_of_folders(self, layers: list[str]) -> Tree:
        """What the kernel shows of folders, the topmost first."""
        if len(layers) == 1:  # an overlay has two layers at least
            return tree_of(layers[0])
        place = self._new("mnt")
        with mounted_overlay(place, layers, [], LOOKING):
            return tree_of(place)


def new_links(before: list[str], after: list[str]) -> list[str]:
    """The files of several names that weren't one file before."""
    files = [set(ast.literal_eval(line)) for line in before]
    return [line for line in after if not any(set(ast.literal_eval(line)) <= file for file in files)]


def main(folder: str, seed: int, count: int, program: list[str]) -> int:
    """Makes and compares this many stacks; the status is 1 if one differs, or nothing was removed."""
    different = count_different(Rewritten, folder, range(seed, seed + count), program)
    print(f"{count} stacks, {different} different, {Rewritten.removed} paths removed")
    return 1 if different or not Rewritten.removed else 0


if __name__ == "__main__":
    sys.exit(main(sys.argv[1], int(sys.argv[2]), int(sys.argv[3]), sys.argv[4:]))
