"""Writing a tar archive: ustar headers, with PAX records if those have no place for something."""

from ..common.contents import Write
from ..model.entries import BLOCK, CHAR, DIRECTORY, FIFO, FILE, SYMLINK
from ..model.times import ONE_SECOND, to_decimal
from . import headers as tar
from .headers import BLOCK_BYTES, PAX, XATTR_RECORD, Header, header_block, pax_record

TYPES = {
    DIRECTORY: tar.DIRECTORY, FILE: b"0", SYMLINK: tar.SYMLINK, CHAR: tar.CHAR, BLOCK: tar.BLOCK, FIFO: tar.FIFO,
}
_MAX_FIELD = 8**7 - 1  # seven octal digits
_MAX_WIDE_FIELD = 8**11 - 1  # eleven
_MAX_NAME = 100
_PAX_NAME = b"pax"


class TarWriter:
    """An archive, entry by entry; the same bytes for the same entries."""

    def __init__(self, write: Write) -> None:
        self._write = write

    def entry(self, header: Header) -> None:
        """Writes a header. As many bytes of data as its size must follow by `data`, then `end_data`."""
        if not _is_plain(header):
            self._write_records(_records(header))
            header = _fitting(header)
        self._write(header_block(header))

    def _write_records(self, records: bytes) -> None:
        pax = Header(_PAX_NAME, PAX, 0o644, 0, 0, len(records), 0, b"", 0, 0)
        self._write(header_block(pax))
        self._write(records)
        self._pad(len(records))

    def data(self, piece: bytes) -> None:
        """Writes a piece of an entry's data."""
        self._write(piece)

    def end_data(self, size: int) -> None:
        """Fills the last block of an entry's data."""
        self._pad(size)

    def end(self) -> None:
        """Writes the end of the archive."""
        self._write(bytes(2 * BLOCK_BYTES))

    def _pad(self, size: int) -> None:
        if size % BLOCK_BYTES:
            self._write(bytes(-size % BLOCK_BYTES))


def record_bytes(header: Header) -> int:
    """How many bytes the PAX records of a header have."""
    return len(_records(header))


def _is_plain(header: Header) -> bool:
    """Whether a ustar header has place for all that a header says, so that it has no records."""
    return (
        _fits(header) and len(header.name) <= _MAX_NAME and len(header.target) <= _MAX_NAME
        and header.mtime_ns % ONE_SECOND == 0 and not header.attributes
    )


def _records(header: Header) -> bytes:
    """PAX records for what a ustar header has no place for, in a fixed order."""
    records = []
    if len(header.name) > _MAX_NAME or not header.name.isascii():
        records.append((b"path", header.name))
    if len(header.target) > _MAX_NAME or not header.target.isascii():
        records.append((b"linkpath", header.target))
    if header.size > _MAX_WIDE_FIELD:
        records.append((b"size", b"%d" % header.size))
    for key, number in ((b"uid", header.uid), (b"gid", header.gid)):
        if number > _MAX_FIELD:
            records.append((key, b"%d" % number))
    if not _has_seconds(header) or header.mtime_ns % ONE_SECOND:
        records.append((b"mtime", to_decimal(header.mtime_ns).encode()))
    records += [(XATTR_RECORD + name, header.attributes[name]) for name in sorted(header.attributes)]
    return b"".join(pax_record(key, value) for key, value in records)


def _has_seconds(header: Header) -> bool:
    """Whether the whole seconds of its time have a place in a ustar header."""
    return 0 <= header.mtime_ns // ONE_SECOND <= _MAX_WIDE_FIELD


def _fitting(header: Header) -> Header:
    """The header with what has no place put to zero; a record states it."""
    if _fits(header):
        return header
    return Header(
        header.name if header.name.isascii() else header.name.decode().encode("ascii", "replace"),
        header.type, header.mode,
        header.uid if header.uid <= _MAX_FIELD else 0,
        header.gid if header.gid <= _MAX_FIELD else 0,
        header.size if header.size <= _MAX_WIDE_FIELD else 0,
        header.mtime_ns if _has_seconds(header) else 0,
        header.target if header.target.isascii() else header.target.decode().encode("ascii", "replace"),
        header.major, header.minor,
    )


def _fits(header: Header) -> bool:
    return (
        header.name.isascii() and header.target.isascii() and header.uid <= _MAX_FIELD and header.gid <= _MAX_FIELD
        and header.size <= _MAX_WIDE_FIELD and _has_seconds(header)
    )
