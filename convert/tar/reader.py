"""Reading a tar archive from its front to its end, a piece at a time."""

from collections.abc import Callable, Iterator
from typing import Protocol, runtime_checkable

from ..common.budgets import Budget
from ..common.contents import PIECE, ZEROS, Piece
from ..common.faults import EndsEarly, TarFault
from ..common.streams import Source
from .headers import (
    BLOCK_BYTES, DIRECTORY, FIELD_RECORDS, GNU_LONG_NAME, GNU_LONG_TARGET, GNU_SPARSE, OLD_REGULAR, PAX, PAX_GLOBAL,
    REGULAR_TYPES, XATTR_RECORD, Header, apply_records, parse_header, parse_records, text_of,
)
from .sparse import Places, has_places, old_places, record_places

MAX_RECORDS = 1 << 20  # bytes of the PAX records and long names of an entry; real ones have a few thousand
MAX_GLOBAL_RECORDS = 1 << 16  # bytes of the records for all entries
_WITHOUT_DATA = b"123456"  # links, devices, directories and fifos, whatever size they state
_SMALL = 1 << 12  # bytes of a piece that is put together with others


@runtime_checkable
class Viewed(Protocol):
    """Bytes that can be seen where they are, until more of them are read."""

    def view(self, count: int, /) -> memoryview: ...


@runtime_checkable
class Skipping(Protocol):
    """Bytes that can be passed over without reading them."""

    def skip(self, count: int, /) -> None: ...


class TarReader:
    """The entries of an archive. The data of each can be read until the next one is asked for."""

    def __init__(self, source: Source, budget: Budget) -> None:
        self._source = source
        self._view: Callable[[int], Piece] = source.view if isinstance(source, Viewed) else source.read
        self._budget = budget
        self._skipping = isinstance(source, Skipping)
        self._left = 0
        self._padding = 0
        self._places: Places | None = None
        self._size = 0
        self._globals: dict[bytes, bytes] = {}
        self._global_fields: dict[bytes, bytes] = {}
        self._global_attributes: dict[bytes, bytes] = {}
        self._global_bytes = 0
        self._record_bytes = 0

    def __iter__(self) -> Iterator[Header]:
        while (header := self._next()) is not None:
            yield header
        self._drain()

    def data(self) -> Iterator[Piece]:
        """The data of the entry that was given last, its holes as zeros. Each piece is there until the next one is."""
        places, self._places = self._places, None
        return self._stored(self._left) if places is None else _gathered(self._with_holes(places))

    def is_sparse(self) -> bool:
        """Whether the entry that was given last has holes."""
        return self._places is not None

    def stored(self) -> int:
        """How many bytes of its data are in the archive."""
        return self._left

    def _with_holes(self, places: Places) -> Iterator[Piece]:
        at = 0
        for begin, length in [*places, (self._size, 0)]:
            for start in range(at, begin, PIECE):
                yield ZEROS[:begin - start]
            yield from self._stored(length)
            at = begin + length

    def _stored(self, count: int) -> Iterator[Piece]:
        while count:
            piece = self._view(min(PIECE, count))
            if not piece:
                raise EndsEarly
            self._left -= len(piece)
            count -= len(piece)
            yield piece

    def _next(self) -> Header | None:
        records: dict[bytes, bytes] = {}
        name = target = None
        self._record_bytes = 0
        while True:
            if not self._skip():
                return None
            block = self._up_to(BLOCK_BYTES)
            if not block:
                return None
            if len(block) < BLOCK_BYTES:
                raise EndsEarly
            header = parse_header(block)
            if header is None:
                self._require_end()
                return None
            self._budget.headers.take()
            if header.type == PAX:
                records = parse_records(self._record_data(header.size))
            elif header.type == PAX_GLOBAL:
                self._budget.global_headers.take()
                self._take_globals(parse_records(self._record_data(header.size)))
            elif header.type == GNU_LONG_NAME:
                name = text_of(self._record_data(header.size))
            elif header.type == GNU_LONG_TARGET:
                target = text_of(self._record_data(header.size))
            else:
                break
        if records or self._globals:
            self._apply(header, records)
        # A long name of GNU's counts before a record's, as in Go's reader.
        header.name = name or header.name
        header.target = target or header.target
        if header.attributes:
            self._budget.attributes.take(len(header.attributes))
        self._begin(header, block)
        return header

    def _apply(self, header: Header, records: dict[bytes, bytes]) -> None:
        """What PAX records say of an entry, its own before those for all."""
        self._budget.given_records.take(self._global_bytes)
        if self._global_fields or records:
            apply_records(header, self._global_fields | records)
            header.has_global = any(
                value and key in FIELD_RECORDS and key not in records for key, value in self._global_fields.items()
            )
        if self._global_attributes:
            header.has_global = header.has_global or not self._global_attributes.keys() <= header.attributes.keys()
            header.attributes = self._global_attributes | header.attributes

    def _take_globals(self, records: dict[bytes, bytes]) -> None:
        self._globals |= records
        self._global_bytes = sum(len(key) + len(value) for key, value in self._globals.items())
        if self._global_bytes > MAX_GLOBAL_RECORDS:
            raise TarFault(f"PAX records for all entries of over {MAX_GLOBAL_RECORDS:,} bytes")
        self._global_fields, self._global_attributes = {}, {}
        for key, value in self._globals.items():
            if key.startswith(XATTR_RECORD):
                self._global_attributes[key[len(XATTR_RECORD):]] = value
            else:
                self._global_fields[key] = value

    def _require_end(self) -> None:
        """Refuses a block of zeros before another header: some readers end there, and others don't."""
        if len(block := self._up_to(BLOCK_BYTES)) == BLOCK_BYTES and any(block):
            raise TarFault("a single block of zeros before its end")

    def _begin(self, header: Header, block: bytes) -> None:
        if header.size < 0:
            raise TarFault("an entry of a negative size")
        if header.type == OLD_REGULAR and header.name.endswith(b"/"):
            self._require_no_data(header)
            header.type = DIRECTORY
        if header.type in _WITHOUT_DATA:
            header.size = 0
        self._left = header.size
        self._padding = -header.size % BLOCK_BYTES
        self._places = None
        if header.type == GNU_SPARSE:
            header.size, self._places = old_places(block, header, self._exactly, self._budget)
            header.type = REGULAR_TYPES[-1:]
        elif header.sparse and header.type in REGULAR_TYPES and has_places(header.sparse):
            header.size, used, self._places = record_places(header, self._exactly, self._budget)
            self._left -= used
        if self._places is not None:
            self._size = header.size
            self._budget.holes.take(header.size - self._left)

    def _require_no_data(self, header: Header) -> None:
        """Refuses data of an old archive's directory, which some readers take as the next header."""
        if header.size:
            raise TarFault("a directory with data")

    def _record_data(self, size: int) -> bytes:
        """Records or a long name; refuses what no honest archive has, before it is read."""
        self._record_bytes += size
        if size < 0 or self._record_bytes > MAX_RECORDS:
            raise TarFault(f"a header of {size} bytes" if size > MAX_RECORDS else "an entry with too long headers")
        self._budget.records.take(size)
        data = self._exactly(size)
        self._exactly(-size % BLOCK_BYTES)
        return data

    def _skip(self) -> bool:
        """Goes to the next header. The last one's data may end without what fills their block."""
        if self._skipping:
            self._source.skip(self._left)  # type: ignore[attr-defined]
        elif self._left:
            for _ in self._stored(self._left):
                pass
        self._left = 0
        self._places = None
        missing = self._padding - len(self._up_to(self._padding)) if self._padding else 0
        self._padding = 0
        return not missing

    def _drain(self) -> None:
        """Reads what is after the end, as its digest is of all bytes."""
        while self._source.read(PIECE):
            pass

    def _exactly(self, count: int) -> bytes:
        data = self._up_to(count) if count else b""
        if len(data) < count:
            raise EndsEarly
        return data

    def _up_to(self, count: int) -> bytes:
        """So many bytes, fewer at the end of the archive. A source may give fewer at once."""
        data = self._source.read(count)
        while 0 < len(data) < count and (more := self._source.read(count - len(data))):
            data += more
        return data


def _gathered(pieces: Iterator[Piece]) -> Iterator[Piece]:
    """The same bytes, small pieces put together, since each that is taken costs time."""
    held: list[bytes] = []
    size = 0
    for piece in pieces:
        if held and size + len(piece) > PIECE:
            yield b"".join(held)
            held, size = [], 0
        if len(piece) < _SMALL:
            held.append(bytes(piece))
            size += len(piece)
        else:
            if held:
                yield b"".join(held)
                held, size = [], 0
            yield piece
    if held:
        yield b"".join(held)
