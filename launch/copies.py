"""Copies of the repository in which crates are proved side by side.

`rt` lets one command at a time work in a crate and in those below it, and nearly all crates depend on the same few. So
each crate is proved in a copy of its own: with the sources, the libraries that were built of the crates below it, and
what earlier proofs of it kept. What it makes goes back where `rt` would have left it.
"""

from __future__ import annotations

import os
import shutil
from pathlib import Path

from crates import LIST, PARTS, PROGRAM, Crate

_KEPT = ("incremental", "rlib")  # in out/: what proofs keep, and the library with its stamp
_BUILT = (f"{PROGRAM}.stamp", PROGRAM)
_SOURCES = "sources"


class Copies:
    """The copies of a build, all of the sources as they stood when it began."""

    def __init__(self, root: Path, crates: dict[str, Crate]) -> None:
        self._root = root
        self._crates = crates
        self._folder = root / "crates" / PROGRAM / "out" / "copies"
        self._clear()
        self._copy_sources()

    def make(self, name: str) -> Path:
        """Makes the copy in which a crate is proved, and gives the crate's folder in it."""
        copy = self._folder / name
        below = self._crates[name].below
        for it in (*below, name):
            _link(self._folder / _SOURCES / it, copy / "crates" / it)
        for it in below:
            _link(_out(self._root, it) / "rlib", _out(copy, it) / "rlib")
        lines = (f"{self._crates[it].line}\n" for it in (*below, name))
        (copy / LIST).write_text("".join(lines), encoding="utf-8")
        out = _out(copy, name)
        out.mkdir()
        for part in _KEPT:
            _move(_out(self._root, name) / part, out / part)
        if name == PROGRAM:
            for part in _BUILT:
                _copy_if_there(_out(self._root, name) / part, out / part)
        return out.parent

    def take_back(self, name: str) -> None:
        """Puts what was kept of a crate, and the program if it was built, where `rt` would have left it."""
        made, out = _out(self._folder / name, name), _out(self._root, name)
        out.mkdir(exist_ok=True)
        for part in (*_KEPT, *_BUILT):
            _move(made / part, out / part)
        shutil.rmtree(self._folder / name, ignore_errors=True)

    def end(self) -> None:
        """Takes all copies away."""
        shutil.rmtree(self._folder, ignore_errors=True)

    def _clear(self) -> None:
        """Takes what proofs kept out of copies that a killed launcher left."""
        for name in self._crates:
            for part in _KEPT:
                out = _out(self._root, name)
                if not (out / part).exists():
                    _move(_out(self._folder / name, name) / part, out / part)
        shutil.rmtree(self._folder, ignore_errors=True)

    def _copy_sources(self) -> None:
        for name in self._crates:
            for part in PARTS:
                if (self._root / "crates" / name / part).exists():
                    shutil.copytree(self._root / "crates" / name / part, self._folder / _SOURCES / name / part)


def _out(root: Path, name: str) -> Path:
    return root / "crates" / name / "out"


def _move(old: Path, new: Path) -> None:
    """Moves a file or folder, in the place of what is there, if there is one to move."""
    if old.is_dir():
        shutil.rmtree(new, ignore_errors=True)
        new.parent.mkdir(exist_ok=True)
        old.rename(new)
    elif old.exists():
        old.replace(new)


def _link(old: Path, new: Path) -> None:
    """Gives the files of a folder second names: `rt` replaces such files, and changes none."""
    shutil.copytree(old, new, copy_function=_link_file)


def _link_file(old: str, new: str) -> None:
    try:
        os.link(old, new)
    except OSError:
        shutil.copy2(old, new)


def _copy_if_there(old: Path, new: Path) -> None:
    if old.exists():
        shutil.copy2(old, new)
