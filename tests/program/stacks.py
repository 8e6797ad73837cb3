#!/usr/bin/env python3
"""Has PROGRAM answer of the worked stacks of stacks.txt, and compares.

Each command is given by one worker, and by four with contents of any size; both must give the same: the report and the
new layers of the row, or what refuses it. With the new layers the stack must show the same as before.

    python3 tests/program/stacks.py PROGRAM
"""
import argparse
import hashlib
import json
import re
import subprocess
import sys
import tempfile
from collections.abc import Iterator
from dataclasses import dataclass
from pathlib import Path

_STACKS = Path(__file__).resolve().parents[2] / "examples" / "stacks.txt"
_DIGEST_OF_A = hashlib.sha256(b"a").hexdigest()
_SHORT = (("; ", "\n"), ("[d]", "dir 0755 0 0 0 - -"), ("[f]", "file 0644 0 0 0 1 [a]"), ("[a]", _DIGEST_OF_A))


def _directory(mode: int = 0o755, uid: int = 0, gid: int = 0, mtime: int = 0, nsec: int = 0) -> dict[str, object]:
    return {"kind": "dir", "mode": mode, "uid": uid, "gid": gid, "mtime": mtime, "mtime-nsec": nsec}


def _other(kind: str, mode: int, **more: object) -> dict[str, object]:
    return {**_directory(mode), "kind": kind, **more}


def _file(size: int, contents: str | None = None, mode: int = 0o644, nsec: int = 0) -> dict[str, object]:
    blob = {} if contents is None else {"blob": hashlib.sha256(contents.encode()).hexdigest()}
    return {**_directory(mode, nsec=nsec), "kind": "file", "size": size, **blob}


# The entries that the words of kinds mean. Bare ones are files whose contents are elsewhere.
_KINDS = {
    "dir": _directory(),
    "dir-0700": _directory(0o700),
    "dir-old": _directory(uid=2**32 - 1, gid=6, mtime=-(2**63), nsec=999_999_999),
    "dir-new": _directory(gid=1000, mtime=1_732_233_600, nsec=20_304_050),
    "file": _file(1, "a"),
    "file-late": _file(1, "a", nsec=1),
    "file-0645": _file(1, "a", 0o645),
    "file-large": _file(2**63 - 1, "a", 0o4755),
    "file-b": _file(1, "b"),
    "file-ab": _file(3, "ab"),
    "file-abc": _file(3, "abc"),
    "empty": _file(0),
    "bare": _file(1),
    "bare-2": _file(2),
    "link": _other("symlink", 0o777, target="a b"),
    "whiteout": _other("char", 0, major=0, minor=0),
    "console": _other("char", 0o600, major=0, minor=1),
    "disk": _other("block", 0o060, major=8, minor=2**32 - 1),
    "fifo": _other("fifo", 0),
    "socket": _other("socket", 0o7777),
}


def attribute_of(word: str) -> tuple[str, str]:
    """The name and the value of an attribute, as a manifest has them."""
    name, _, value = word.partition("=")
    value = re.sub(r"\\x(..)", lambda it: chr(int(it[1], 16)), value)
    prefix = "" if name.startswith("user.") else "trusted.overlay."
    return json.loads(f'"{prefix}{name}"'), value.encode().hex()


def entry_of(words: str) -> dict[str, object]:
    """An entry."""
    kind, path, *attributes = words.split(" ")
    return {**_KINDS[kind], "path": json.loads(f'"{path}"'), "xattrs": dict(map(attribute_of, attributes))}


def manifest_of(layer: str) -> str:
    """A layer's manifest, as the program writes it."""
    if layer.startswith(("[", "{")):
        return layer
    entries = [entry_of(it) for it in layer.split(", ") if it != "root"]
    if not any(it["path"] == "/" for it in entries):
        entries.insert(0, entry_of("dir /"))
    text = {"overlay-layer": 2, "entries": entries}
    return json.dumps(text, sort_keys=True, separators=(",", ":"), ensure_ascii=False) + "\n"


@dataclass
class Stack:
    """A stack in a folder: its manifests, and how many of them are data-only."""

    folder: Path
    layers: list[str]
    data: int

    def write(self) -> list[str]:
        """Writes the manifests, and gives their paths."""
        paths = [self.folder / f"l{number}.json" for number in range(len(self.layers))]
        for path, layer in zip(paths, self.layers):
            path.write_text(layer, encoding="utf-8")
        return [str(it) for it in paths]

    def with_new(self, new: list[str], what: str) -> "Stack":
        """The stack with a command's layers in place of its topmost ones, or of all if it is flattened."""
        if what == "flatten":
            return Stack(self.folder, new, 0)
        _, goes_on, left = what.partition(" --down-to ")
        gone = len(self.layers) - self.data - int(left) + 1 if goes_on else len(new)
        return Stack(self.folder, new + self.layers[gone:], self.data)


def stack_of(folder: Path, line: str) -> Stack:
    """The stack of a line."""
    layers = line.split(" | ")
    manifests = [manifest_of(it.removeprefix("data ")) for it in layers]
    return Stack(folder, manifests, sum(it.startswith("data ") for it in layers))


def write_blobs(folder: Path, words: list[str]) -> None:
    """Makes a folder of the blobs of a line."""
    for path in folder.iterdir():
        path.unlink()
    for word in words:
        named, _, held = word.partition("=")
        (folder / hashlib.sha256(named.encode()).hexdigest()).write_text(held or named, encoding="utf-8")


class Program:
    """The program, with a folder of blobs and one for new layers."""

    def __init__(self, path: str, blobs: Path, out: Path) -> None:
        self._path = path
        self._blobs = blobs
        self._out = out

    def told(self, what: str, stack: Stack, *words: str) -> str:
        """What a command answers: its report and the new layers, or what refuses it, after `!`."""
        for path in self._out.iterdir():
            path.unlink()
        result = self._run(what, stack, *words)
        if result.returncode == 0 or (result.returncode == 1 and what == "fsck"):
            new = [it.read_text(encoding="utf-8") for it in sorted(self._out.iterdir())]
            kept = not new or self._shown(stack) == self._shown(stack.with_new(new, what))
            return result.stdout + "".join(new) + result.stderr + ("" if kept else "something else is shown\n")
        return "! " + result.stdout + result.stderr.removeprefix("ovl_layers: ")

    def _shown(self, stack: Stack) -> str:
        return self._run("show", stack).stdout

    def _run(self, what: str, stack: Stack, *words: str) -> "subprocess.CompletedProcess[str]":
        given = [*what.split(), *words] if what != "show" else [what, *(it for it in words if it != "--any-size")]
        given += ["--data-layers", str(stack.data)] if stack.data else []
        given += ["--blobs", str(self._blobs)] if what != "show" else []
        given += ["--out", str(self._out)] if what not in ("show", "fsck") else []
        command = [self._path, *given, *stack.write()]
        return subprocess.run(command, capture_output=True, text=True, check=False, stdin=subprocess.DEVNULL)


def in_full(wanted: str) -> str:
    """What a row wants, as the program prints it."""
    report, _, layers = wanted.partition(" => ")
    for short, full in _SHORT:
        report = report.replace(short, full)
    return report + "\n" + "".join(manifest_of(it) for it in layers.split(" | ") if layers)


def rows() -> Iterator[str]:
    """The lines of stacks.txt that are no comments."""
    for line in _STACKS.read_text(encoding="utf-8").splitlines():
        if line and not line.startswith("#"):
            yield line


def compare(path: str, room: Path) -> tuple[int, int]:
    """Has the program answer, and counts what is as it should be and what isn't."""
    for name in ("blobs", "out"):
        (room / name).mkdir()
    program = Program(path, room / "blobs", room / "out")
    stack, same, other = stack_of(room, "root"), 0, 0
    for line in rows():
        what, found, wanted = line.partition(": ")
        if line.startswith("blobs "):
            write_blobs(room / "blobs", line.split()[1:])
        elif not found:
            stack = stack_of(room, line)
        else:
            for words in (("--workers", "1"), ("--workers", "4", "--any-size")):
                told = program.told(what, stack, *words)
                if told == in_full(wanted):
                    same += 1
                else:
                    other += 1
                    print(f"{line}\n  by {' '.join(words)}:\n{told}", file=sys.stderr)
    return same, other


def main() -> int:
    """Prints the counts; the status is 1 if something isn't as it should be."""
    parser = argparse.ArgumentParser(description=__doc__, formatter_class=argparse.RawDescriptionHelpFormatter)
    parser.add_argument("program", metavar="PROGRAM")
    path = str(Path(parser.parse_args().program).resolve())
    with tempfile.TemporaryDirectory() as room:
        same, other = compare(path, Path(room))
    print(f"{same} answers of worked stacks are as they should be, {other} not")
    return int(other > 0 or same == 0)


if __name__ == "__main__":
    sys.exit(main())
