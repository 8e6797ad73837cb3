#!/usr/bin/env python3
"""Makes the manual pages of both programs from their help texts.

    python3 -B tools/manual.py            # writes man/layers.1 and man/ovl_layers.1
    python3 -B tools/manual.py --check    # says whether they are there as they would be written

The help of ovl_layers is that of examples/help.txt and examples/help, which a test compares with the program's.
"""

from __future__ import annotations

import os
import re
import subprocess
import sys
from collections.abc import Iterator
from dataclasses import dataclass, field
from pathlib import Path

TOP = Path(__file__).resolve().parent.parent
DATE = "2026-11"
_ITEM = "  - "
_WIDE = {**os.environ, "COLUMNS": "10000", "PYTHONDONTWRITEBYTECODE": "1"}  # so that nothing is broken


@dataclass
class Help:
    """A help text: how the command is used, its paragraphs, and what comes below each heading."""

    usage: str = ""
    paragraphs: list[str] = field(default_factory=list)
    sections: dict[str, list[str]] = field(default_factory=dict)

    def rows(self, *names: str) -> list[tuple[str, str]]:
        """The lines of sections, each as its words and what they mean."""
        lines = [line for name in names for line in self.sections.get(name, [])]
        text = re.sub(r"\n {10,}(?=\S)", "   ", "\n".join(lines))
        pairs = (re.split(r" {2,}", line.strip(), maxsplit=1) for line in text.splitlines())
        return [(pair[0], pair[1] if len(pair) > 1 else "") for pair in pairs]


def help_of(text: str) -> Help:
    """A help text, taken apart."""
    found = Help()
    for block in re.split(r"\n\n+", text.strip("\n")):
        first, *rest = block.split("\n")
        if usage := re.match(r"usage: (.*)", first, re.IGNORECASE):
            found.usage = usage[1]
        elif first.endswith(":") and rest and all(line.startswith("  ") for line in rest):
            found.sections[first.rstrip(":").lower().replace("examples", "example")] = rest
        else:
            found.paragraphs.append(block)
    return found


def helps_of_layers() -> tuple[Help, dict[str, Help]]:
    """The help of `layers`, and of each of its commands."""
    whole = help_of(_printed("--help"))
    names = [name for name, _ in whole.rows("commands") if not name.endswith(":")]  # of a job
    return whole, {name: help_of(_printed(name, "--help")) for name in names}


def _printed(*words: str) -> str:
    command = [sys.executable, "-B", str(TOP / "layers"), *words]
    return subprocess.run(command, stdout=subprocess.PIPE, text=True, check=True, env=_WIDE).stdout


def helps_of_program() -> tuple[Help, dict[str, Help]]:
    """The help of `ovl_layers`, and of each of its commands."""
    whole = help_of((TOP / "examples" / "help.txt").read_text(encoding="utf-8"))
    texts = {name: TOP / "examples" / "help" / f"{name}.txt" for name, _ in whole.rows("commands")}
    return whole, {name: help_of(text.read_text(encoding="utf-8")) for name, text in texts.items()}


def page(name: str, about: str, see: str, helps: tuple[Help, dict[str, Help]]) -> str:
    """The manual page of a program."""
    whole, commands = helps
    version = (TOP / "examples" / "version.txt").read_text(encoding="utf-8").split()[1]
    lines = [
        '.\\" made by tools/manual.py from the help texts',
        f'.TH {name.upper()} 1 "{DATE}" "{name} {version}" "User Commands"',
        ".SH NAME", f"{_plain(name)} \\- {_plain(about)}",
        ".SH SYNOPSIS", f".B {_plain(whole.usage)}",
        ".SH DESCRIPTION", *_paragraphs(whole.paragraphs),
        ".SH COMMANDS",
    ]
    for command, told in commands.items():
        lines += [f".SS {command}", f".B {_plain(told.usage)}", *_paragraphs(["", *told.paragraphs])]
        lines += _rows(told.rows(*(name for name in told.sections if name not in ("example", "exit status"))))
        lines += _example(told)
    lines += [".SH OPTIONS", *_rows(whole.rows("options"))]
    lines += [".SH EXIT STATUS", *_rows(whole.rows("exit status")), ".SH EXAMPLES", *_example(whole)]
    return "\n".join([*lines, ".SH SEE ALSO", see, ""])


def _plain(text: str) -> str:
    """A line that troff takes as it is."""
    text = re.sub(r"\s+", " ", text.strip()).replace("\\", "\\e").replace("-", "\\-").replace('"', "\\(dq")
    return f"\\&{text}" if text[:1] in ("'", ".") else text


def _paragraphs(paragraphs: list[str]) -> Iterator[str]:
    for number, paragraph in enumerate(paragraphs):
        if number:
            yield ".PP"
        if paragraph.startswith(_ITEM):
            for item in paragraph[len(_ITEM):].split(f"\n{_ITEM}"):
                yield from (".IP \\(bu 2", _plain(item))
        elif paragraph:
            yield _plain(paragraph)


def _rows(rows: list[tuple[str, str]]) -> Iterator[str]:
    for words, meaning in rows:
        yield from (".TP", f".B {_plain(words)}", _plain(meaning))


def _example(told: Help) -> list[str]:
    lines = told.sections.get("example", [])
    return [".PP", ".RS", ".nf", *(_plain(line) for line in lines), ".fi", ".RE"] if lines else []


def pages() -> dict[str, str]:
    """The manual pages by their names."""
    return {
        "layers.1": page(
            "layers", "inspect and rewrite container images and other stacks of overlayfs layers",
            ".BR ovl_layers (1),\n.BR mount (8),\n.BR skopeo (1)", helps_of_layers(),
        ),
        "ovl_layers.1": page(
            "ovl_layers", "inspect, check and rewrite stacks of overlayfs layers, given as manifests",
            ".BR layers (1),\n.BR mount (8)", helps_of_program(),
        ),
    }


def main(words: list[str]) -> int:
    """Writes the pages, or compares them."""
    status = 0
    for name, text in pages().items():
        file = TOP / "man" / name
        if words != ["--check"]:
            file.write_text(text, encoding="utf-8")
        elif file.read_text(encoding="utf-8") != text:
            print(f"man/{name} isn't what tools/manual.py makes: run it")
            status = 1
    return status


if __name__ == "__main__":
    sys.exit(main(sys.argv[1:]))
