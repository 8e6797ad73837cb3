"""The headers of tar archives: ustar, GNU's long names and numbers, and PAX records."""

import base64
import binascii
import functools
import struct
import urllib.parse
import zlib
from collections.abc import Iterator
from dataclasses import dataclass, field

from ..common.faults import TarFault
from ..model.times import ONE_SECOND, of_decimal

BLOCK_BYTES = 512
OLD_REGULAR = b"\0"  # with a slash at its name's end a directory
REGULAR_TYPES = OLD_REGULAR + b"07"
HARD_LINK = b"1"
SYMLINK = b"2"
CHAR = b"3"
BLOCK = b"4"
DIRECTORY = b"5"
FIFO = b"6"
PAX = b"x"
PAX_GLOBAL = b"g"
GNU_LONG_NAME = b"L"
GNU_LONG_TARGET = b"K"

XATTR_RECORD = b"SCHILY.xattr."
_LIBARCHIVE_XATTR = b"LIBARCHIVE.xattr."  # its name encoded as in a URL, its value in base 64
_ACL_RECORD = b"SCHILY.acl."
_LABEL_RECORD = b"RHT.security.selinux"
SPARSE_MAP = b"GNU.sparse.map"
SPARSE_MAJOR = b"GNU.sparse.major"
SPARSE_MINOR = b"GNU.sparse.minor"
SPARSE_NAME = b"GNU.sparse.name"
SPARSE_SIZES = (b"GNU.sparse.realsize", b"GNU.sparse.size")
_SPARSE_PLACES = (b"GNU.sparse.offset", b"GNU.sparse.numbytes")
_SPARSE_RECORDS = frozenset([SPARSE_MAP, SPARSE_MAJOR, SPARSE_MINOR, SPARSE_NAME, *SPARSE_SIZES])
FIELD_RECORDS = _SPARSE_RECORDS | {b"path", b"linkpath", b"size", b"uid", b"gid", b"mtime"}  # what takes the place of a header's fields
# What says nothing that a manifest could have, or what another record says too.
_SAID_ENOUGH = frozenset([
    b"atime", b"ctime", b"charset", b"comment", b"gname", b"hdrcharset", b"uname",
    b"GNU.sparse.numblocks", b"LIBARCHIVE.creationtime", b"SCHILY.dev", b"SCHILY.ino", b"SCHILY.nlink",
    b"SCHILY.realsize",
])
_OTHER_RECORD = b""  # in place of the key of a record that isn't read
GNU_SPARSE = b"S"
_FIELDS = struct.Struct("100s8s8s8s12s12s8sc100s8s64x8s8s167x")  # of a ustar header
_USTAR = b"ustar"
_USTAR_NUL = _USTAR + b"\0"
_USTAR_VERSION = _USTAR_NUL + b"00"
_SIGNED = 256
_HALF = BLOCK_BYTES // 2  # of a header, of which the sum is below the modulus of Adler-32
_CHECKSUM_BEGIN, _CHECKSUM_END = 148, 156
_BLANK_CHECKSUM = b" " * 8  # as it counts itself
_PREFIX_END = 500  # of the part of a name that comes before the other
_STAR_PREFIX_END = 476  # of the same in archives of star, which have two times after it
_STAR_TRAILER = b"tar\0"


@dataclass(slots=True)
class Header:
    """An entry of an archive, before its data."""

    name: bytes
    type: bytes
    mode: int
    uid: int
    gid: int
    size: int
    mtime_ns: int
    target: bytes
    major: int
    minor: int
    attributes: dict[bytes, bytes] = field(default_factory=dict)
    cut_time: bool = False
    has_acl: bool = False
    has_label: bool = False
    has_global: bool = False  # something of it comes from records for all entries
    other_record: bytes = b""  # the key of one that isn't read
    sparse: dict[bytes, bytes] = field(default_factory=dict)


def parse_header(block: bytes) -> Header | None:
    """The header in a block of 512 bytes; nothing for a block of zeros."""
    if not any(block):
        return None
    name, mode, uid, gid, size, mtime, checksum, kind, target, magic, major, minor = _FIELDS.unpack(block)
    stated, total = number(checksum), sum(_BLANK_CHECKSUM) + _sum(block) - sum(checksum)
    if stated != total and stated != total - _SIGNED * _high_bytes(block):
        raise TarFault("a header has a wrong checksum")
    name = text_of(name)
    if magic.startswith(_USTAR_NUL) and block[345]:
        end = _STAR_PREFIX_END if block[508:512] == _STAR_TRAILER else _PREFIX_END
        name = text_of(block[345:end]) + b"/" + name
    is_old = not magic.startswith(_USTAR)
    return Header(
        name, kind, number(mode) & 0o7777, number(uid), number(gid), number(size), number(mtime) * ONE_SECOND,
        text_of(target), 0 if is_old else number(major), 0 if is_old else number(minor),
    )


def _sum(block: bytes) -> int:
    """The sum of a header's bytes: the low half of Adler-32 is one more than a sum that is below its modulus."""
    return (zlib.adler32(block[:_HALF]) & 0xFFFF) + (zlib.adler32(block[_HALF:]) & 0xFFFF) - 2


def _high_bytes(block: bytes) -> int:
    """How many bytes some old programs took as negative numbers in the checksum."""
    return sum(byte >= 128 for byte in block[:148] + block[156:])


def text_of(data: bytes) -> bytes:
    """A text of a header, which a NUL ends."""
    return data.partition(b"\0")[0]


@functools.lru_cache(maxsize=4096)  # the same few are in most headers
def number(data: bytes) -> int:
    """A number of a header: octal digits, or GNU's two's complement in base 256 if the first bit is set."""
    if data[0] & 0x80:
        negative = data[0] & 0x40
        value = int.from_bytes(bytes([data[0] & 0x7F]) + data[1:], "big")
        return value - (1 << (8 * len(data) - 1)) if negative else value
    digits = text_of(data.strip(b" \0"))
    if digits.strip(b"01234567"):
        raise TarFault("a number in a header isn't octal")
    return int(digits, 8) if digits else 0


def parse_records(data: bytes) -> dict[bytes, bytes]:
    """PAX records: each its length, a space, `KEY=VALUE` and a newline. Later ones count.

    The places of a sparse file's data, which come one by one in the oldest of its forms, are put together
    as in the next one. Of records that aren't read here one counts for all of its kind.
    """
    records: dict[bytes, bytes] = {}
    places: list[bytes] = []
    attributes: dict[bytes, bytes] = {}
    for key, value in _split_records(data):
        if key in FIELD_RECORDS or key.startswith(XATTR_RECORD):
            records[key] = value
        elif key in _SPARSE_PLACES:
            places.append(value)
        elif key.startswith(_LIBARCHIVE_XATTR):
            attributes[urllib.parse.unquote_to_bytes(key[len(_LIBARCHIVE_XATTR):])] = _of_base64(value)
        elif value and key not in _SAID_ENOUGH:
            kind = _ACL_RECORD if key.startswith(_ACL_RECORD) else key if key == _LABEL_RECORD else _OTHER_RECORD
            records[kind] = key
    if places:
        records[SPARSE_MAP] = b",".join(places)
    for name, value in attributes.items():
        records.setdefault(XATTR_RECORD + name, value)
    return records


def _split_records(data: bytes) -> Iterator[tuple[bytes, bytes]]:
    place = 0
    while place < len(data):
        space = data.find(b" ", place, place + 20)
        digits = data[place:space] if space > 0 else b""
        if not digits.isdigit():
            raise TarFault("a PAX record without its length")
        end = place + int(digits)
        equals = data.find(b"=", space, end)
        if end > len(data) or end <= space + 1 or data[end - 1:end] != b"\n" or equals < 0:
            raise TarFault("a PAX record of a wrong length")
        yield data[space + 1:equals], data[equals + 1:end - 1]
        place = end


def _of_base64(text: bytes) -> bytes:
    """Bytes of their text in base 64, which may lack what fills its end."""
    try:
        return base64.b64decode(text + bytes(b"=" * (-len(text) % 4)), validate=True)
    except binascii.Error:
        raise TarFault("an attribute in a PAX record isn't in base 64") from None


def apply_records(header: Header, records: dict[bytes, bytes]) -> None:
    """What PAX records say in place of a header's fields. An empty value is as if it weren't there.

    Attributes may have no bytes, so of them an empty value is one.
    """
    for key, value in records.items():
        if key.startswith(XATTR_RECORD):
            header.attributes[key[len(XATTR_RECORD):]] = value
        elif not value:
            continue
        elif key == b"path":
            header.name = value
        elif key == b"linkpath":
            header.target = value
        elif key == b"size":
            header.size = decimal(value)
        elif key == b"uid":
            header.uid = decimal(value)
        elif key == b"gid":
            header.gid = decimal(value)
        elif key == b"mtime":
            header.mtime_ns, header.cut_time = _time(value)
        elif key in _SPARSE_RECORDS:
            header.sparse[key] = value
        elif key == _ACL_RECORD:
            header.has_acl = True
        elif key == _LABEL_RECORD:
            header.has_label = True
        elif key == _OTHER_RECORD:
            header.other_record = value


def decimal(value: bytes) -> int:
    """A number of a PAX record."""
    digits = value[1:] if value[:1] == b"-" else value
    if not digits.isdigit() or len(digits) > 30:
        raise TarFault("a number in a PAX record isn't decimal")
    return int(value)


def _time(value: bytes) -> tuple[int, bool]:
    """The time of a PAX record, and whether it had to be cut to whole nanoseconds."""
    whole, _, fraction = value.partition(b".")
    if fraction.strip(b"0123456789"):
        raise TarFault("a time in a PAX record isn't decimal")
    seconds = decimal(whole if whole not in (b"", b"-") else whole + b"0")
    return of_decimal(whole.startswith(b"-"), abs(seconds), fraction)


def pax_record(key: bytes, value: bytes) -> bytes:
    """One PAX record with its own length before it."""
    rest = len(key) + len(value) + 3
    length = rest + len(str(rest))
    length = rest + len(str(length))
    return b"%d %s=%s\n" % (length, key, value)


def header_block(header: Header) -> bytes:
    """A ustar header; the name and the target are cut to what it has place for."""
    block = _FIELDS.pack(
        header.name, _octal(header.mode, 8), _octal(header.uid, 8), _octal(header.gid, 8), _octal(header.size, 12),
        _octal(header.mtime_ns // ONE_SECOND, 12), _BLANK_CHECKSUM, header.type, header.target, _USTAR_VERSION,
        _octal(header.major, 8), _octal(header.minor, 8),
    )
    return block[:_CHECKSUM_BEGIN] + b"%06o\0 " % _sum(block) + block[_CHECKSUM_END:]


@functools.lru_cache(maxsize=4096)  # as above
def _octal(number: int, width: int) -> bytes:
    """Octal digits, or base 256 if they have no place."""
    if 0 <= number < 8 ** (width - 1):
        return b"%0*o\0" % (width - 1, number)
    return bytes([0xFF if number < 0 else 0x80]) + (number % (1 << (8 * (width - 1)))).to_bytes(width - 1, "big")
