#!/usr/bin/env python3
"""Vacuums and flattens stacks of layers twice, and reports where the second time changes something or a stack shows
something else.

Python 3.11, standard library. A stack is a folder with `l0.json`, the topmost, `l1.json` and so on, as compare.sh
takes them, or the file of one manifest. Each of its layers in turn is vacuumed over those below it, and the lowest
one over itself; then what comes of it is vacuumed again over the same layers: nothing more may go. The same stacks are
flattened, and then the layer that comes of it: the same layer must come of that, byte for byte. What is shown is compared
before, between and after.

If a stack has no folder `blobs`, each digest gets contents of its own, of 64 bytes, and every file that isn't empty
this size: both want right contents, and nothing is lost by it, since files of other contents stay others.

    python3 tests/differential/twice.py --program ./ovl_layers examples/copied examples/moved
"""
import argparse
import hashlib
import json
import os
import re
import subprocess
import sys
import tempfile
from collections.abc import Iterator

SCRIPT = os.path.basename(sys.argv[0])


def asked(purpose: str, stack: str) -> tuple[str, list[str]]:
    """The program and the stacks that the command line names."""
    words = argparse.ArgumentParser(description=purpose)
    words.add_argument("--program", required=True, help="path of the program")
    words.add_argument("stacks", nargs="+", metavar="STACK", help=stack)
    given = words.parse_args()
    return os.path.abspath(given.program), given.stacks


def manifests_of(stack: str) -> list[str]:
    """The manifests of a stack, the topmost first."""
    if os.path.isfile(stack):
        return [stack]
    files: list[str] = []
    while os.path.isfile(os.path.join(stack, f"l{len(files)}.json")):
        files.append(os.path.join(stack, f"l{len(files)}.json"))
    return files


def layers_and_blobs(stack: str, folder: str) -> tuple[list[str], str]:
    """The manifests of a stack and its folder of blobs, or stand-ins for both in this folder."""
    layers, blobs = manifests_of(stack), os.path.join(stack, "blobs")
    if not layers:
        sys.exit(f"{SCRIPT}: {stack} has no l0.json")
    return (layers, blobs) if os.path.isdir(blobs) else with_contents(layers, folder)


def with_contents(layers: list[str], folder: str) -> tuple[list[str], str]:
    """The layers with contents for each digest, in files of the folder, and the folder of the blobs."""
    blobs, files = os.path.join(folder, "blobs"), []
    os.mkdir(blobs)
    for n, layer in enumerate(layers):
        with open(layer, "rb") as text:
            manifest = json.load(text)
        for entry in manifest["entries"]:
            if entry.get("size", 0) > 0:
                entry["size"] = 64
            if "blob" in entry:
                contents = entry["blob"].encode()
                entry["blob"] = hashlib.sha256(contents).hexdigest()
                with open(os.path.join(blobs, entry["blob"]), "wb") as blob:
                    blob.write(contents)
        files.append(os.path.join(folder, f"l{n}.json"))
        with open(files[-1], "w", encoding="utf-8") as text:
            json.dump(manifest, text)
    return files, blobs


def printed(program: str, *words: str) -> bytes:
    """What the program prints; another status than 0 ends the script."""
    ran = subprocess.run([program, *words], stdin=subprocess.DEVNULL, stdout=subprocess.PIPE, check=False)
    if ran.returncode != 0:
        sys.stdout.buffer.write(ran.stdout[-1000:])
        sys.exit(f"{SCRIPT}: {' '.join(words)} ended with status {ran.returncode}")
    return ran.stdout


def made(program: str, command: str, layers: list[str], blobs: str, out: str) -> tuple[str, bytes]:
    """The one new layer of a command, in a new folder, and its report."""
    os.mkdir(out)
    report = printed(program, command, "--blobs", blobs, "--out", out, *layers)
    return os.path.join(out, "layer-0.json"), report


def vacuumed(program: str, layers: list[str], blobs: str, out: str) -> tuple[str, int, int]:
    """The new topmost layer of a stack, how many entries were removed, and how many are left."""
    new, report = made(program, "vacuum", layers, blobs, out)
    [(removed, kept)] = re.findall(rb"(?:^|\n)removed (\d+) kept (\d+)\n\Z", report)
    return new, int(removed), int(kept)


def vacuumed_twice(program: str, layers: list[str], blobs: str, folder: str, before: bytes) -> tuple[str, bool]:
    """What comes of vacuuming the topmost of these layers twice, as words, and whether it is as it should be."""
    once, removed, kept = vacuumed(program, layers, blobs, os.path.join(folder, "once"))
    again, more, _ = vacuumed(program, [once, *layers[1:]], blobs, os.path.join(folder, "again"))
    same = all(printed(program, "show", new, *layers[1:]) == before for new in (once, again))
    return f"removed {removed} kept {kept}, then removed {more}, shows {told(same)}", same and more == 0


def flattened_twice(program: str, layers: list[str], blobs: str, folder: str, before: bytes) -> tuple[str, bool]:
    """What comes of flattening these layers twice, as words, and whether it is as it should be."""
    once, report = made(program, "flatten", layers, blobs, os.path.join(folder, "flat"))
    again, other = made(program, "flatten", [once], blobs, os.path.join(folder, "flat again"))
    alike = report == other and read(once) == read(again)
    same = printed(program, "show", once) == before
    return f"flattened again to {told(alike)}, shows {told(same)}", same and alike


def read(path: str) -> bytes:
    with open(path, "rb") as file:
        return file.read()


def told(same: bool) -> str:
    return "the same" if same else "something else"


def twice(program: str, layers: list[str], blobs: str, folder: str) -> tuple[str, bool]:
    """What comes of both, as words, and whether it is as it should be."""
    before = printed(program, "show", *layers)
    both = [it(program, layers, blobs, folder, before) for it in (vacuumed_twice, flattened_twice)]
    return "; ".join(said for said, _ in both), all(fine for _, fine in both)


def trials(layers: list[str]) -> Iterator[tuple[str, list[str]]]:
    """Each layer over those below it, and the lowest over itself, with a word for it."""
    yield from ((f"layer {n}", layers[n:]) for n in range(len(layers)))
    yield "the lowest over itself", [layers[-1], layers[-1]]


def main() -> None:
    program, stacks = asked("Vacuums and flattens stacks of layers twice.", "a folder of layers, or a manifest")
    good = True
    for stack in stacks:
        with tempfile.TemporaryDirectory(prefix="ovl-twice-") as folder:
            layers, blobs = layers_and_blobs(stack, folder)
            for name, trial in trials(layers):
                with tempfile.TemporaryDirectory(dir=folder) as inner:
                    said, fine = twice(program, trial, blobs, inner)
                print(f"{stack}, {name}: {said}", flush=True)
                good = good and fine
    sys.exit(0 if good else 1)


if __name__ == "__main__":
    main()
