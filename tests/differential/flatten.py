#!/usr/bin/env python3
"""Merges stacks of layers down to one layer, two at a time, and reports where a stack shows something else, and where
`flatten` makes another layer.

Python 3.11, standard library. A stack is a folder with `l0.json`, the topmost, `l1.json` and so on. After each merge
the stack with both new layers is shown, and then that without the topmost, which has only a root: both must show what
the stack showed at first, byte for byte. The layer that is left must be that of `flatten`. Each command is run by 1 and by
7 workers, which must write the same.

If a stack has no folder `blobs`, stand-ins serve for its contents, as in twice.py.

    python3 tests/differential/flatten.py --program ./ovl_layers examples/renamed examples/copied
"""
import os
import sys
import tempfile

from twice import SCRIPT, asked, layers_and_blobs, printed, read


def new_layers(program: str, command: str, layers: list[str], blobs: str, folder: str) -> list[str]:
    """The new layers of a command, in a new folder, which are the same by 1 and by 7 workers."""
    made = {}
    for workers in ("1", "7"):
        out = os.path.join(folder, workers)
        os.makedirs(out)
        report = printed(program, command, "--blobs", blobs, "--out", out, "--workers", workers, *layers)
        files = [os.path.join(out, it) for it in sorted(os.listdir(out))]
        made[workers] = [report, *map(read, files)]
    if made["1"] != made["7"]:
        sys.exit(f"{SCRIPT}: 1 and 7 workers of {command} make different layers")
    return files


def merged(program: str, layers: list[str], blobs: str, folder: str) -> tuple[str, int, int]:
    """Merges layers until one is left. Gives this, how many merges showed the same, and how many there were."""
    before, same, merges = printed(program, "show", *layers), 0, 0
    while len(layers) > 1:
        top, lower = new_layers(program, "merge", layers, blobs, os.path.join(folder, str(merges)))
        rest, layers = layers[2:], [lower, *layers[2:]]
        same += all(printed(program, "show", *them) == before for them in ([top, lower, *rest], layers))
        merges += 1
    return layers[0], same, merges


def main() -> None:
    program, stacks = asked("Merges stacks of layers down to one.", "a folder of layers")
    good = True
    for stack in stacks:
        with tempfile.TemporaryDirectory(prefix="ovl-flatten-") as folder:
            layers, blobs = layers_and_blobs(stack, folder)
            left, same, merges = merged(program, layers, blobs, folder)
            [flat] = new_layers(program, "flatten", layers, blobs, os.path.join(folder, "flat"))
            alike = not merges or read(left) == read(flat)
            said = "makes the layer that is left" if alike else "makes another layer"
            print(f"{stack}: {merges} merges, after {same} of them the stack shows the same; flatten {said}", flush=True)
            good = good and same == merges and alike
    sys.exit(0 if good else 1)


if __name__ == "__main__":
    main()
