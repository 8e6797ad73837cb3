"""What the checker said of each crate when it was proved: kept beside what was built, and printed for a package.

    python3 -B launch/proof.py    # of the built program; the status is 1 if it isn't the one that `rt` left
"""

from __future__ import annotations

import hashlib
import re
import sys
from dataclasses import dataclass
from pathlib import Path

from crates import PROGRAM, crates_of

_KEPT = "proved"  # in out/: the stamp of what was built, the kit, and the checker's last line
_LINE = re.compile(r"^logic=proved\b.*$", re.MULTILINE)
_NOT_KEPT = "the checker's line was not kept"


@dataclass(frozen=True)
class Kept:
    """What was kept of a crate: the kit that proved it, and the checker's line."""

    kit: str
    line: str


def _out(root: Path, name: str) -> Path:
    return root / "crates" / name / "out"


def _stamp(root: Path, name: str) -> str:
    """What `rt` wrote of the inputs, and of the program, that it built last; empty if there is nothing."""
    file = f"{PROGRAM}.stamp" if name == PROGRAM else "rlib/stamp"
    path = _out(root, name) / file
    return path.read_text(encoding="ascii").strip() if path.exists() else ""


def keep(root: Path, name: str, said: str, kit: str) -> None:
    """Keeps the checker's line; if it said none, as what was built before is current, that of then stays."""
    if lines := _LINE.findall(said):
        text = f"{_stamp(root, name)}\n{kit}\n{lines[-1]}\n"
        (_out(root, name) / _KEPT).write_text(text, encoding="utf-8")


def kept(root: Path, name: str) -> Kept | None:
    """What was kept of a crate, if it is of what is built there now."""
    file = _out(root, name) / _KEPT
    if not file.exists():
        return None
    stamp, kit, line = file.read_text(encoding="utf-8").splitlines()
    return Kept(kit, line) if stamp == _stamp(root, name) else None


def report(root: Path) -> tuple[str, int]:
    """What is known of the proof of the built program, and how many crates it has no line of."""
    found = {name: kept(root, name) for name in crates_of(root)}
    kits = sorted({it.kit for it in found.values() if it})
    lines = [
        f"Kit: {', '.join(kits) or 'not kept'}",
        f"SHA-256 of {PROGRAM}: {digest(root)}",
        "",
        "The last line that the checker printed of each crate:",
        *(f"{name}: {it.line if it else _NOT_KEPT}" for name, it in found.items()),
    ]
    return "\n".join(lines) + "\n", sum(it is None for it in found.values())


def digest(root: Path) -> str:
    """The SHA-256 digest of the built program."""
    return hashlib.sha256((_out(root, PROGRAM) / PROGRAM).read_bytes()).hexdigest()


def main() -> int:
    """Prints the report."""
    root = Path(__file__).resolve().parents[1]
    # The stamp of a program ends with its digest.
    if not _stamp(root, PROGRAM).endswith(digest(root)):
        print(f"crates/{PROGRAM}/out/{PROGRAM} isn't the program that rt left there", file=sys.stderr)
        return 1
    text, missing = report(root)
    sys.stdout.write(text)
    if missing:
        print(f"of {missing} crates no line of the checker was kept; the launcher keeps those that it proves", file=sys.stderr)
    return 0


if __name__ == "__main__":
    sys.exit(main())
