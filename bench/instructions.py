#!/usr/bin/env python3
"""Counts the instructions of each command for each entry of its input, beside those of reading the manifests.

Python 3.11, standard library, and valgrind. In a temporary folder it makes three
layers of the same number of entries (generate.py, seeds 1 to 3), runs each
command by one worker under valgrind's callgrind, and prints a Markdown table.
What reading takes is counted by a run with a fourth manifest that is none: it
is refused once the three are read. Commands that make new layers are run as
commands.py does.

    python3 bench/instructions.py --program ./ovl_layers
"""
import argparse
import os
import re
import struct
import subprocess
import sys
import tempfile
from collections.abc import Iterator, Sequence
from pathlib import Path

sys.path.append(os.path.join(os.path.dirname(__file__), "..", "tests", "makers"))

import commands
import run
from generate import LAST, MOST_NAMES

# The statuses of a command that can't read a manifest.
UNREAD = (3,)
# Of a part of an ELF file that is loaded; of machine code, the prefix of an instruction that no other processor's comes
# between, and the codes of an exchange, which is such a one if it is with memory.
LOADED, LOCK, EXCHANGES = 1, 0xF0, (0x86, 0x87)
EACH = ("--dump-instr=yes", "--compress-pos=no", "--compress-strings=no")


def instructions(command: list[str], statuses: Sequence[int], out: str = os.devnull, more: Sequence[str] = ()) -> int:
    """How many instructions a run takes; callgrind's counts go to a file."""
    words = ["valgrind", "--tool=callgrind", f"--callgrind-out-file={out}", *more, *command]
    ran = subprocess.run(words, stdin=subprocess.DEVNULL, stdout=subprocess.DEVNULL, stderr=subprocess.PIPE, check=False)
    counted = re.search(rb"Collected : (\d+)", ran.stderr)
    if ran.returncode not in statuses or not counted:
        sys.exit(f"valgrind: {' '.join(command[:4])} ended with status {ran.returncode}")
    return int(counted[1])


def locked(command: list[str], statuses: Sequence[int]) -> int:
    """How many instructions of the program itself a run takes that no other processor's may come between."""
    with tempfile.TemporaryDirectory(prefix="ovl-bench-") as folder:
        out = os.path.join(folder, "callgrind")
        instructions(command, statuses, out, EACH)
        code = Path(command[0]).read_bytes()
        loaded = parts_of(code)
        return sum(count for address, count in each_of(out, command[0]) if is_locked(code_at(code, loaded, address)))


def parts_of(code: bytes) -> list[tuple[int, int, int]]:
    """Of each part of an ELF file that is loaded: its address, its place in the file, and how many bytes it has there."""
    (table,), (size, count) = struct.unpack_from("<Q", code, 32), struct.unpack_from("<HH", code, 54)
    headers = (struct.unpack_from("<IIQQQQ", code, table + size * number) for number in range(count))
    return [(address, place, length) for kind, _, place, address, _, length in headers if kind == LOADED]


def code_at(code: bytes, loaded: list[tuple[int, int, int]], address: int) -> bytes:
    """The first bytes of the instruction at an address."""
    place = next(address - first + place for first, place, length in loaded if first <= address < first + length)
    return code[place:place + 3]


def is_locked(own: bytes) -> bool:
    rest = own[1:] if 0x40 <= own[0] <= 0x4F else own
    return own[0] == LOCK or rest[0] in EXCHANGES and rest[1] >> 6 != 3


def each_of(out: str, program: str) -> Iterator[tuple[int, int]]:
    """The address of each instruction of the program in callgrind's counts, and how often it was taken."""
    is_own = is_call = False
    with open(out, encoding="utf-8") as lines:
        for line in lines:
            if line.startswith("ob="):
                is_own = line[3:].strip() == os.path.realpath(program)
            found = re.match(r"0x([0-9a-f]+) \d+ (\d+)$", line)
            # What comes after a call is what its callee took.
            if found and is_own and not is_call:
                yield int(found[1], 16), int(found[2])
            is_call = line.startswith("calls=")


def dearest(out: str, count: int) -> list[str]:
    """The functions that took the most with all that they call."""
    words = ["callgrind_annotate", "--inclusive=yes", "--threshold=100", out]
    said = subprocess.run(words, stdout=subprocess.PIPE, check=True, text=True).stdout
    return re.findall(r"^ *[\d,]+ \(.*$", said, re.MULTILINE)[:count]


def main() -> None:
    words = argparse.ArgumentParser(description="Counts the instructions of each command for each entry.")
    words.add_argument("--program", required=True, help="path of the program")
    words.add_argument("--entries", type=int, default=10000, help="entries of each of three layers (default 10000)")
    words.add_argument("--version", type=int, choices=MOST_NAMES, default=LAST, help="version of the manifests (default %d)" % LAST)
    words.add_argument("--dearest", type=int, default=0, help="list this many functions that took the most, with all that they call")
    given = words.parse_args()
    program, listed = os.path.abspath(given.program), []
    print(run.row(["Command", "Instructions", "of reading", "of an entry, beside reading"]))
    print(run.row(["---", "---:", "---:", "---:"]))
    with tempfile.TemporaryDirectory(prefix="ovl-bench-") as folder:
        unread, out = os.path.join(folder, "unread.json"), os.path.join(folder, "callgrind")
        open(unread, "wb").close()
        for name, command, statuses in commands.on_layers(program, folder, given.entries, given.version):
            command = commands.with_workers(command, 1)
            total, reading = instructions(command, statuses, out), instructions([*command, unread], UNREAD)
            each = (total - reading) / (commands.LAYERS * given.entries)
            print(run.row([name, f"{total:,}", f"{reading:,}", f"{each:,.0f}"]), flush=True)
            if given.dearest:
                listed += ["", f"{name}:", *dearest(out, given.dearest)]
    print(*listed, sep="\n", end="\n" if listed else "")


if __name__ == "__main__":
    main()
