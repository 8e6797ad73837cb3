"""Stacks that the kernel's overlayfs makes, as squashfs files, beside what is scanned and flattened of them.

    unshare --mount --propagation private python3 squashfs_stacks.py FOLDER SEED COUNT PROGRAM..

Runs in a mount namespace of its own, as `kernel_stacks` does. Each layer of a stack becomes a squashfs. The
kernel mounts them, and an overlay of these mounts. What it shows there must be what PROGRAM shows of the scanned
layers, and what the kernel shows of the one squashfs that `flatten --stack` makes of them; and what it shows of
the overlay of the folders must be what it shows of the one folder that is made of those. Of each squashfs that
is of two layers or more, `--layers 2` makes two that show the same.
"""

import contextlib
import os
import subprocess
import sys
from collections.abc import Iterator
from difflib import unified_diff

from kernel_stacks import Stack, count_different, linked_names, mounted_overlay
from support import call

LOOKING = "redirect_dir=follow,metacopy=on"
Tree = tuple[str, list[str]]


@contextlib.contextmanager
def opened(squashfs: str, place: str) -> Iterator[str]:
    """What a squashfs holds, mounted if loop mounts can be had, or unpacked."""
    os.mkdir(place)
    words = ["mount", "-t", "squashfs", "-o", "loop,ro", squashfs, place]
    if subprocess.run(words, check=False, capture_output=True).returncode == 0:
        try:
            yield place
        finally:
            subprocess.run(["umount", place], check=True)
    else:
        subprocess.run(["unsquashfs", "-quiet", "-no-progress", "-force", "-dest", place, squashfs], check=True)
        yield place


def done(*words: str) -> str:
    """Calls the command; gives what it prints."""
    status, printed, messages = call(*words)
    if status != 0:
        raise RuntimeError(f"{words}: {messages}")
    return printed


class StackOfFiles(Stack):
    """A stack whose layers become squashfs files."""

    def compare(self, program: list[str]) -> list[str]:
        """What differs, line by line."""
        files = [self._squashfs(number, layer) for number, layer in enumerate(self._layers)]
        wanted = self._overlay_of(files)
        flat, two, folder = (f"{self._folder}/{name}" for name in ("flat.squashfs", "two", "flat"))
        done("flatten", "--stack", *files, "--out", flat)
        done("flatten", "--stack", *files, "--out", two, "--layers", "2", "--form", "squashfs")
        done("flatten", "--stack", *self._layers, "--out", folder)
        with opened(flat, f"{self._folder}/opened") as place:
            trees = [tree_of(place), self._overlay_of([f"{two}/{name}" for name in sorted(os.listdir(two))])]
        return [
            *self._shown_otherwise(program, files, wanted[0]),
            *(line for tree in trees for line in difference(wanted, tree)),
            *difference(self._kernel(self._layers), tree_of(folder)),
        ]

    def _squashfs(self, number: int, layer: str) -> str:
        manifest, blobs = f"{self._folder}/given{number}.json", f"{self._folder}/blobs"
        done("scan", layer, "--out", manifest, "--blobs", blobs)
        done("build", manifest, "--blobs", blobs, "--out", f"{self._folder}/{number}.squashfs")
        return f"{self._folder}/{number}.squashfs"

    def _overlay_of(self, files: list[str]) -> Tree:
        """What the kernel shows of squashfs files, the topmost first."""
        with contextlib.ExitStack() as mounts:
            layers = [
                mounts.enter_context(opened(file, self._new("opened") + "/layer")) for file in files
            ]
            if len(layers) == 1:  # an overlay has two layers at least
                return tree_of(layers[0])
            place = self._new("mnt")
            mounts.enter_context(mounted_overlay(place, layers, [], LOOKING))
            return tree_of(place)

    def _shown_otherwise(self, program: list[str], files: list[str], wanted: str) -> list[str]:
        """What the program shows otherwise of the scanned files."""
        manifests = [f"{self._folder}/l{number}.json" for number in range(len(files))]
        for file, manifest in zip(files, manifests):
            done("scan", file, "--out", manifest, "--digests-only")
        shown = subprocess.run([*program, "show", *manifests], capture_output=True, text=True, check=False)
        return list(unified_diff(wanted.splitlines(), (shown.stdout + shown.stderr).splitlines(), lineterm=""))


def tree_of(place: str) -> Tree:
    """A tree as the kernel shows it, and the names in it that are one file."""
    return done("mounted", place), linked_names(place)


def difference(one: Tree, other: Tree) -> Iterator[str]:
    """What differs in two trees."""
    yield from unified_diff(one[0].splitlines(), other[0].splitlines(), lineterm="")
    yield from unified_diff(one[1], other[1], lineterm="")


def main(folder: str, seed: int, count: int, program: list[str]) -> int:
    """Makes and compares this many stacks; the status is 1 if one differs."""
    different = count_different(StackOfFiles, folder, range(seed, seed + count), program)
    print(f"{count} stacks, {different} different")
    return 1 if different else 0


if __name__ == "__main__":
    sys.exit(main(sys.argv[1], int(sys.argv[2]), int(sys.argv[3]), sys.argv[4:]))
