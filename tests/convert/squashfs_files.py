"""squashfs files for tests, made by tar2sqfs and mksquashfs."""

import os
import random
import shutil
import subprocess
import unittest
from collections.abc import Iterator

from support import ROOT  # noqa: F401

_FIRST_BLOCK = 96  # bytes, which say where all tables are
_USED = slice(40, 48)  # in it, the bytes in use
# In it, too: how many inodes, the size of blocks, how many fragments and owners; bytes in use; where the tables are.
_CLAIMS = ((4, 4), (12, 4), (16, 4), (26, 2), (32, 8), (40, 8), (48, 8), (56, 8), (64, 8), (72, 8), (80, 8))


def require(*programs: str) -> None:
    """Skips a test if one of these programs isn't there."""
    packages = {"mksquashfs": "squashfs-tools", "unsquashfs": "squashfs-tools"}
    for program in programs:
        if shutil.which(program) is None:
            raise unittest.SkipTest(f"needs {program}, of {packages.get(program, 'squashfs-tools-ng')}")


def from_archive(data: bytes, path: str, *words: str) -> None:
    """A squashfs of what an archive holds."""
    subprocess.run(["tar2sqfs", "--quiet", *words, path], input=data, check=True, capture_output=True)


def spoilt(whole: bytes) -> Iterator[bytes]:
    """A squashfs that is cut, and such whose first block claims larger or farther tables than there are."""
    used, pick = int.from_bytes(whole[_USED], "little"), random.Random(8)
    for _ in range(8):
        yield whole[:pick.randrange(4, used)]
    for place, width in _CLAIMS:
        yield whole[:place] + b"\xff" * (width - 1) + b"\x7f" + whole[place + width:]


def turned(whole: bytes) -> Iterator[bytes]:
    """A squashfs with a byte turned after its first block, which may make it another one and not a broken one."""
    used, pick = int.from_bytes(whole[_USED], "little"), random.Random(9)
    for _ in range(20):
        data = bytearray(whole)
        data[pick.randrange(_FIRST_BLOCK, used)] ^= 0xFF
        yield bytes(data)


def doubling(folder: str) -> bytes:
    """A squashfs of some 3 KB that shows 2^30 directories: each of 30 has the next one in it twice."""
    inner = os.path.join(folder, "doubling")
    os.makedirs(os.path.join(inner, *["a"] * 30))
    for depth in range(30):
        os.mkdir(os.path.join(inner, *["a"] * depth, "b"))
    words = "-noI -noD -noF -noX -no-fragments -all-root -nopad -quiet -no-progress".split()
    subprocess.run(["mksquashfs", inner, inner + ".squashfs", *words], check=True, capture_output=True)
    with open(inner + ".squashfs", "rb") as file:
        data = bytearray(file.read())
    shutil.rmtree(inner)
    os.unlink(inner + ".squashfs")
    _point_to_first(data)
    return bytes(data)


def _point_to_first(data: bytearray) -> None:
    """Makes the entry `b` of each directory lead where `a` leads.

    An entry is where the inode is, its number, its kind, the length of its name less one, and the name.
    """
    head, name_at = bytes([1, 0, 0, 0]), 8
    for place in range(len(data) - 2 * name_at):
        first, second = data[place + 4:place + 9], data[place + 13:place + 18]
        if first == head + b"a" and second[2:] == bytes(2) + b"b":
            data[place + 9:place + 13] = data[place:place + 4]
