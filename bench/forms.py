#!/usr/bin/env python3
"""Counts the instructions of `show` over manifests that are written in other forms than the commands write them.

Python 3.11, standard library, and valgrind. In a temporary folder it makes three
layers of the same number of entries, whose files are empty (generate.py, seeds 1
to 3), writes them anew in each form, and runs `show` by one worker under
valgrind's callgrind. The report must be that of the layers as they were. It
prints a Markdown table; its status is 1 if a form takes more than six times the
instructions of the compact one.

    python3 bench/forms.py --program ./ovl_layers
"""
import argparse
import json
import os
import subprocess
import sys
import tempfile
from collections.abc import Callable
from dataclasses import dataclass
from pathlib import Path

sys.path.append(os.path.join(os.path.dirname(__file__), "..", "tests", "makers"))

import commands
import instructions
import run
from generate import LAST

# How many times the compact form's instructions a form may take.
MOST = 6.0
# The members of an entry as people name them.
ORDER = ("path", "kind", "mode", "uid", "gid", "mtime", "mtime-nsec", "size", "blob", "target", "major", "minor", "xattrs")
COMPACT, SPACES, LINES = (",", ":"), (", ", ": "), (",", ": ")

Entry = dict[str, object]


def as_written(entry: Entry) -> Entry:
    return entry


def in_order(entry: Entry) -> Entry:
    return {name: entry[name] for name in ORDER if name in entry}


def backwards(entry: Entry) -> Entry:
    return dict(reversed(entry.items()))


def exchanged(entry: Entry) -> Entry:
    """The last two members in the other order."""
    *first, other, last = entry.items()
    return dict([*first, last, other])


@dataclass(frozen=True)
class Form:
    """How a manifest is written: the order of an entry's members, what is between tokens, and an escape or none."""

    name: str
    order: Callable[[Entry], Entry] = as_written
    separators: tuple[str, str] = COMPACT
    indent: int | None = None
    escaped: Callable[[str], str] | None = None


def escape_first(text: str) -> str:
    return text.replace('"path":"/', '"path":"\\/', 1)


def escape_last(text: str) -> str:
    head, path, tail = text.rpartition('"path":"/')
    return head + path.replace("/", "\\/") + tail


FORMS = (
    Form("compact"),
    Form("a space behind each `,` and `:`", separators=SPACES),
    Form("a line for each member", separators=LINES, indent=0),
    Form("the same, two spaces for each level", separators=LINES, indent=2),
    Form("members in another order", in_order),
    Form("members backwards", backwards),
    Form("the last two members exchanged", exchanged),
    Form("another order, with spaces", in_order, SPACES),
    Form("another order, with lines", in_order, LINES, 0),
    Form("another order, with lines and two spaces for each level", in_order, LINES, 2),
    Form("an escape that needn't be, in the first entry", escaped=escape_first),
    Form("the same in the last entry", escaped=escape_last),
)


def written(text: str, form: Form) -> str:
    manifest = json.loads(text)
    manifest["entries"] = [form.order(it) for it in manifest["entries"]]
    own = json.dumps(manifest, ensure_ascii=False, separators=form.separators, indent=form.indent) + "\n"
    return form.escaped(own) if form.escaped else own


def shown(command: list[str]) -> bytes:
    return subprocess.run(command, stdin=subprocess.DEVNULL, stdout=subprocess.PIPE, check=True).stdout


def main() -> None:
    words = argparse.ArgumentParser(description="Counts the instructions of show over manifests in other forms.")
    words.add_argument("--program", required=True, help="path of the program")
    words.add_argument("--entries", type=int, default=10000, help="entries of each of three layers (default 10000)")
    given = words.parse_args()
    program, good, compact = os.path.abspath(given.program), True, 0
    print(run.row(["Form", "Instructions", "of the compact form"]))
    print(run.row(["---", "---:", "---:"]))
    with tempfile.TemporaryDirectory(prefix="ovl-bench-") as folder:
        layers = commands.make_layers(folder, given.entries, LAST, empty=True)
        texts = [Path(it).read_text(encoding="utf-8") for it in layers]
        command = commands.with_workers([program, "show", *layers], 1)
        report = shown(command)
        for form in FORMS:
            for layer, text in zip(layers, texts):
                Path(layer).write_text(written(text, form), encoding="utf-8")
            if shown(command) != report:
                sys.exit(f"forms.py: {form.name}: another report")
            count = instructions.instructions(command, (0,))
            compact = compact or count
            good = good and count <= MOST * compact
            print(run.row([form.name, f"{count:,}", f"{count / compact:.2f}"]), flush=True)
    sys.exit(not good)


if __name__ == "__main__":
    main()
