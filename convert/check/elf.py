"""What the head of an ELF program says: its processor, and the interpreter that the kernel starts for it."""

import struct
from collections.abc import Callable, Mapping
from dataclasses import dataclass

MAGIC = b"\x7fELF"
Read = Callable[[int, int], bytes]  # the bytes at a place of the file, as many as there are
_HEAD_BYTES = 64
_INTERPRETER = 3  # the type of the part that names it
_MOST_PARTS = 1 << 16  # bytes, as the kernel reads them
_MOST_PATH = 4_096
_MACHINE_AT = 18
# The processors whose programs each architecture runs.
MACHINES: Mapping[str, frozenset[int]] = {
    "386": frozenset([3]), "amd64": frozenset([62, 3]), "arm": frozenset([40]), "arm64": frozenset([183, 40]),
    "loong64": frozenset([258]), "mips64le": frozenset([8]), "ppc64le": frozenset([21]), "riscv64": frozenset([243]),
    "s390x": frozenset([22]),
}


@dataclass(frozen=True)
class _Form:
    """Where the members of a class of ELF are: of the head, and of each part that it lists."""

    word: str
    parts_at: int
    size_at: int  # of a part; the number of parts follows
    offset_at: int
    length_at: int


_FORMS = {1: _Form("I", 28, 42, 4, 16), 2: _Form("Q", 32, 54, 8, 32)}
_ENDS = {1: "<", 2: ">"}


class NoElf(Exception):
    """A head is cut off, or states what no program has."""


class Elf:
    """The head of a program."""

    def __init__(self, read: Read) -> None:
        self._read = read
        head = read(0, _HEAD_BYTES)
        if len(head) < _HEAD_BYTES or head[4] not in _FORMS or head[5] not in _ENDS:
            raise NoElf
        self._head = head
        self._form = _FORMS[head[4]]
        self._end = _ENDS[head[5]]
        self.machine: int = self._number("H", head, _MACHINE_AT)

    def interpreter(self) -> bytes | None:
        """The path of its interpreter, if it has one."""
        form = self._form
        size, count = (self._number("H", self._head, at) for at in (form.size_at, form.size_at + 2))
        parts = self._read(self._number(form.word, self._head, form.parts_at), min(size * count, _MOST_PARTS))
        if len(parts) < size * count:
            raise NoElf
        for begin in range(0, len(parts) - size + 1, size or len(parts) + 1):
            if self._number("I", parts, begin) == _INTERPRETER:
                offset, length = (self._number(form.word, parts, begin + at) for at in (form.offset_at, form.length_at))
                return self._read(offset, min(length, _MOST_PATH)).partition(b"\0")[0]
        return None

    def _number(self, form: str, data: bytes, at: int) -> int:
        try:
            number: int = struct.unpack_from(self._end + form, data, at)[0]
        except struct.error:
            raise NoElf from None
        return number
