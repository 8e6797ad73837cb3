#!/usr/bin/env python3
"""Makes the tables of docs/PROVED.md: each public item of the proved crates, by its documentation and its contract.

    python3 -B tools/proved.py            # writes them between the marks of docs/PROVED.md
    python3 -B tools/proved.py --check    # says whether they are there as they would be written
"""

from __future__ import annotations

import re
import sys
from collections.abc import Iterator
from dataclasses import dataclass, field
from pathlib import Path

TOP = Path(__file__).resolve().parent.parent
PAGE = TOP / "docs" / "PROVED.md"
BEGIN, END = "<!-- made by tools/proved.py -->", "<!-- end -->"
_SHORT = 60  # characters of a clause that is given whole
_ITEM = re.compile(r"(?:pub )?(fn|struct|enum|trait|type) (\w+)")
_OWNER = re.compile(r"impl(?:<[^{]*?>)? (\w+)(?:<.*>)? \{|pub trait (\w+)")
_CLAUSE = re.compile(r"\b(requires|ensures)(?: (\w+))? \{")
_USE = re.compile(r"ghost use Rattle\.ovl_\w+\.specs\.(?!declared)[\w.]+?(?:\.\{(.*)\}| as (\w+));")


@dataclass(frozen=True)
class Item:
    """A public item: its name, what its documentation says, and the clauses of its contract."""

    name: str
    text: str
    contract: str


@dataclass
class Source:
    """A file of a crate while it is read: what is public in it, and the definitions that it imports."""

    lines: list[str]
    public: set[str]
    is_module: bool
    definitions: set[str] = field(default_factory=set)

    def items(self) -> Iterator[Item]:
        """The public items, in their order."""
        for line in self.lines:
            if use := _USE.match(line):
                names = (use[1] or use[2]).split(",")
                self.definitions |= {name.split(" as ")[-1].strip() for name in names}
        owner, is_trait, docs = "", False, list[str]()
        for number, line in enumerate(self.lines):
            text = line.strip()
            if text.startswith("///"):
                docs.append(text.removeprefix("///").removeprefix(" "))
                continue
            if own := _OWNER.match(line):
                owner, is_trait = own[1] or own[2], own[2] is not None
            elif line.startswith("}") or re.match(r"impl\b", line):
                owner = "" if line.startswith("}") else "impl"
            head = _ITEM.match(text)
            if head and docs and self._is_public(line, owner, is_trait, head):
                name = f"{owner}::{head[2]}" if line.startswith(" ") else head[2]
                told = docs if head[1] != "enum" else [*docs, "", *self._variants(number)]
                yield Item(name, _prose(told), self._contract(number) if head[1] == "fn" else "")
            if not text.startswith("#["):
                docs = []

    def _is_public(self, line: str, owner: str, is_trait: bool, head: re.Match[str]) -> bool:
        if line.startswith(" "):
            return owner in self.public and head[1] == "fn" and (is_trait or line.startswith("    pub "))
        return line.startswith("pub ") and (head[2] in self.public or self.is_module)

    def _variants(self, number: int) -> Iterator[str]:
        """What each value of an enum is, after the line of its head."""
        docs: list[str] = []
        for line in self.lines[number + 1 :]:
            text = line.strip()
            if line.startswith("}"):
                return
            if text.startswith("///"):
                docs.append(text.removeprefix("///").strip())
            elif (value := re.match(r"    (\w+)", line)) and docs:
                yield f"`{value[1]}`: {' '.join(docs)}"
                docs = []

    def _contract(self, number: int) -> str:
        """The clauses of the function whose head begins in this line, each whole if it is short, else what it cites."""
        clauses = _clauses(_head(self.lines[number:]))
        return "; ".join(self._clause(*clause) for clause in clauses) or "none"

    def _clause(self, kind: str, name: str, text: str) -> str:
        label = " ".join(filter(None, ["asks" if kind == "requires" else "", name]))
        cited = list(dict.fromkeys(word for word in re.findall(r"[A-Za-z_]\w*", text) if word in self.definitions))
        told = f"`{text}`" if len(text) <= _SHORT or not cited else ", ".join(f"`{word}`" for word in cited)
        return f"{label}: {told}" if label and told else told


def _head(lines: list[str]) -> str:
    """A function from its head to its body, or to the end of a trait's method."""
    indent = re.match(r" *", lines[0])
    end = re.compile(rf"{indent[0] if indent else ''}(\{{|\{{\}}|where)?$")
    taken: list[str] = []
    for line in lines:
        if taken and end.match(line) and line.strip() != "where":
            break
        taken.append(line.strip())
        if line.endswith(";") or (len(taken) == 1 and line.endswith(("{", "{}"))):
            break
    return " ".join(taken)


def _clauses(head: str) -> Iterator[tuple[str, str, str]]:
    """The clauses of a contract: kind, name, text."""
    for clause in _CLAUSE.finditer(head):
        depth, end = 1, clause.end()
        while depth and end < len(head):
            depth += {"{": 1, "}": -1}.get(head[end], 0)
            end += 1
        yield clause[1], clause[2] or "", head[clause.end() : end - 1].strip()


def _prose(docs: list[str]) -> str:
    """Documentation as one line, without blocks of code and what leads to them, and with links as their names."""
    kept: list[str] = []
    is_code = False
    for line in docs:
        if line.startswith("```"):
            is_code = not is_code
            if is_code:
                kept = _without_last(kept)
        elif not is_code:
            kept.append(line)
    text = re.sub(r"\s+", " ", " ".join(kept)).strip()
    return re.sub(r"\[(`[^`]*`)\](?:\([^)]*\))?", r"\1", text)


def _without_last(lines: list[str]) -> list[str]:
    """The lines without their last paragraph."""
    text = "\n".join(lines).rstrip("\n")
    return text.rpartition("\n\n")[0].split("\n") if text else []


def crates() -> list[Path]:
    """The crates of the program in the order of crates.txt."""
    names = re.findall(r"^(ovl_\w+):", (TOP / "crates.txt").read_text(encoding="utf-8"), re.MULTILINE)
    return [TOP / "crates" / name for name in names if (TOP / "crates" / name / "src" / "lib.rt").exists() and "test" not in name]


def items_of(crate: Path) -> Iterator[Item]:
    """The public items of a crate, file by file in the order in which its lib.rt names them."""
    lib = (crate / "src" / "lib.rt").read_text(encoding="utf-8")
    public = set(re.findall(r"\w+", " ".join(re.findall(r"pub use ([^;]*);", lib))))
    modules = set(re.findall(r"pub mod (\w+);", lib))
    for path in sorted((crate / "src").rglob("*.rt")):
        yield from Source(path.read_text(encoding="utf-8").splitlines(), public, path.stem in modules).items()


def tables() -> Iterator[str]:
    """The lines of all tables."""
    for crate in crates():
        lib = (crate / "src" / "lib.rt").read_text(encoding="utf-8")
        about = " ".join(re.findall(r"^//! ?(.*)$", lib, re.MULTILINE))
        yield from ("", f"## {crate.name}", "", about, "", "| Item | What it is or gives | Its contract |", "|---|---|---|")
        for item in items_of(crate):
            cells = (f"`{item.name}`", item.text, item.contract)
            yield "| " + " | ".join(cell.replace("|", "\\|") for cell in cells) + " |"


def page() -> str:
    """The page with its tables made anew."""
    head, _, rest = PAGE.read_text(encoding="utf-8").partition(BEGIN)
    return "\n".join([head + BEGIN, *tables(), "", END + rest.partition(END)[2]])


def main(words: list[str]) -> int:
    """Writes the tables, or compares them."""
    made = page()
    if words == ["--check"]:
        is_made = PAGE.read_text(encoding="utf-8") == made
        print("PROVED.md is as it would be made" if is_made else "PROVED.md isn't what tools/proved.py makes: run it")
        return 0 if is_made else 1
    PAGE.write_text(made, encoding="utf-8")
    return 0


if __name__ == "__main__":
    sys.exit(main(sys.argv[1:]))
