"""The crates that the program depends on, as crates.txt lists them."""

from __future__ import annotations

from dataclasses import dataclass
from pathlib import Path

LIST = "crates.txt"
PROGRAM = "ovl_layers"
PARTS = ("src", "specs", "proofs")


@dataclass(frozen=True)
class Crate:
    """A crate: its line, the crates of the repository that it depends on, lowest first, its length and its chain's.

    A chain is the crate with the longest way from there up to the program. Lengths are in lines of sources, which
    say well enough how long a proof takes.
    """

    name: str
    line: str
    below: tuple[str, ...]
    length: int
    chain: int


def crates_of(root: Path) -> dict[str, Crate]:
    """The program's crate and all that it depends on, each after those below it."""
    lines = _lines_of_list(root)
    uses = {name: [it for it in line.partition(":")[2].split() if it in lines] for name, line in lines.items()}
    order = [*_below(uses, PROGRAM), PROGRAM]
    lengths = {name: _length(root / "crates" / name) for name in order}
    chains: dict[str, int] = {}
    for name in reversed(order):
        above = [chains[it] for it in chains if name in uses[it]]
        chains[name] = lengths[name] + max(above, default=0)
    return {name: Crate(name, lines[name], _below(uses, name), lengths[name], chains[name]) for name in order}


def _lines_of_list(root: Path) -> dict[str, str]:
    """The line of each crate, without what is said beside it."""
    lines = (it.partition("#")[0].strip() for it in (root / LIST).read_text(encoding="utf-8").splitlines())
    return {line.partition(":")[0].split()[0]: line for line in lines if line}


def _below(uses: dict[str, list[str]], name: str) -> tuple[str, ...]:
    below: dict[str, None] = {}
    for use in uses[name]:
        below.update(dict.fromkeys((*_below(uses, use), use)))
    return tuple(below)


def _length(folder: Path) -> int:
    files = (it for part in PARTS for it in (folder / part).rglob("*") if it.is_file())
    return sum(file.read_bytes().count(b"\n") for file in files)
