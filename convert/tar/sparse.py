"""Sparse files in tar archives: where their data are, in the four forms that GNU tar has had."""

from collections.abc import Callable, Iterator, Mapping, Sequence

from ..common.budgets import Budget
from ..common.faults import TarFault
from .headers import BLOCK_BYTES, SPARSE_MAJOR, SPARSE_MAP, SPARSE_MINOR, SPARSE_NAME, SPARSE_SIZES, Header, decimal, number

Read = Callable[[int], bytes]
Places = list[tuple[int, int]]  # where data begin in the file, and how many bytes they are

MAX_MAP_BYTES = 1 << 20
_MORE_PLACES = 21  # of a block after the header
_PLACE_BYTES = 24
_VERSIONS = ((b"0", b"0"), (b"0", b"1"), (b"1", b"0"))


def old_places(block: bytes, header: Header, read: Read, budget: Budget) -> tuple[int, Places]:
    """The size and the data's places of an entry of type S: in its header and in blocks after it."""
    parts = [block[386:482]]
    is_continued = block[482] != 0
    while is_continued:
        if len(parts) * BLOCK_BYTES > MAX_MAP_BYTES:
            raise TarFault("a sparse file has too many parts")
        budget.records.take(BLOCK_BYTES)
        more = read(BLOCK_BYTES)
        parts.append(more[:_MORE_PLACES * _PLACE_BYTES])
        is_continued = more[504] != 0
    data = b"".join(parts)
    budget.parts.take(len(data) // _PLACE_BYTES)
    numbers = [number(data[at:at + 12]) for at in range(0, len(data), 12)]
    places = [(begin, size) for begin, size in _pairs(numbers) if begin or size]
    return number(block[483:495]), checked(places, number(block[483:495]), header.size)


def has_places(records: Mapping[bytes, bytes]) -> bool:
    """Whether the PAX records of an entry make it a sparse file: by their version, or by a map where they have none."""
    version = records.get(SPARSE_MAJOR, b""), records.get(SPARSE_MINOR, b"")
    if any(version) and version not in _VERSIONS:
        raise TarFault("a sparse file of an unknown version")
    return version in _VERSIONS or bool(records.get(SPARSE_MAP))


def record_places(header: Header, read: Read, budget: Budget) -> tuple[int, int, Places]:
    """The size and the data's places that PAX records state, and how many bytes of data stated them."""
    records = header.sparse
    header.name = records.get(SPARSE_NAME, header.name)
    size = decimal(next((records[key] for key in SPARSE_SIZES if key in records), b"%d" % header.size))
    if records.get(SPARSE_MAJOR) == b"1":
        numbers, used = _numbers_in_data(read, header.size, budget)
    else:
        text = records.get(SPARSE_MAP, b"")
        budget.parts.take(text.count(b",") // 2)
        numbers, used = list(map(decimal, filter(None, text.split(b",")))), 0
        if not numbers:
            numbers = [0, header.size]
    return size, used, checked(list(_pairs(numbers)), size, header.size - used)


def _numbers_in_data(read: Read, stored: int, budget: Budget) -> tuple[list[int], int]:
    """The map before the data: a count, then as many pairs, a line each, filled to a whole block."""
    blocks: list[bytes] = []
    lines, wanted = 0, 1
    while lines < wanted:
        if (len(blocks) + 1) * BLOCK_BYTES > min(stored, MAX_MAP_BYTES):
            raise TarFault("the map of a sparse file has no end")
        budget.records.take(BLOCK_BYTES)
        blocks.append(read(BLOCK_BYTES))
        is_first, lines = lines == 0, lines + blocks[-1].count(b"\n")
        if is_first and lines:
            parts = decimal(b"".join(blocks).split(b"\n", 1)[0])
            if not 0 <= 2 * parts < MAX_MAP_BYTES:
                raise TarFault("a sparse file has too many parts")
            budget.parts.take(parts)
            wanted += 2 * parts
    text = b"".join(blocks)
    return list(map(decimal, text.split(b"\n", wanted)[1:wanted])), len(text)


def _pairs(numbers: Sequence[int]) -> Iterator[tuple[int, int]]:
    if len(numbers) % 2:
        raise TarFault("the map of a sparse file has half a pair")
    return zip(numbers[::2], numbers[1::2])


def checked(places: Places, size: int, stored: int) -> Places:
    """Refuses parts that aren't in order inside of the file, or that aren't all of the stored data."""
    end = 0
    for begin, length in places:
        if begin < end or length < 0:
            raise TarFault("the parts of a sparse file aren't in order")
        end = begin + length
    if end > size or sum(length for _, length in places) != stored:
        raise TarFault("the parts of a sparse file don't fit its size")
    return places
