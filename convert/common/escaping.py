"""How bytes and paths are written for a person and in the show report."""

import json.encoder
import re
from collections.abc import Callable

quoted: Callable[[str], str] = json.encoder.encode_basestring  # type: ignore[attr-defined]
_BLANK = re.compile("[\u115f\u1160\u2800\u3164\uffa0]")  # letters to Unicode, and nothing to the eye
_PLAIN = re.compile(rb"[\x21-\x5b\x5d-\x7e]*\Z")
_ESCAPE = re.compile(rb"\\x([0-9a-f]{2})")


def escaped(data: bytes) -> str:
    r"""Each byte outside 0x21 to 0x7E, and each backslash, as `\xHH`, as the show report has them."""
    if _PLAIN.match(data):
        return data.decode("ascii")
    return "".join(
        chr(byte) if 0x21 <= byte <= 0x7E and byte != 0x5C else f"\\x{byte:02x}" for byte in data
    )


def unescaped(text: str) -> bytes:
    """The bytes that `escaped` writes so."""
    return _ESCAPE.sub(lambda found: bytes([int(found[1], 16)]), text.encode("ascii", "replace"))


def printable(text: str) -> str:
    r"""A path or another text for a message: what isn't UTF-8, can't be seen or a terminal would obey is `\xHH`."""
    if text.isprintable() and (text.isascii() or not _BLANK.search(text)):
        return text
    return "".join(
        _escaped_letter(letter) if not letter.isprintable() or _BLANK.match(letter) else letter for letter in text
    )


def _escaped_letter(letter: str) -> str:
    """A letter's bytes, or the byte that it means if the system's names aren't UTF-8."""
    errors = "surrogateescape" if "\udc80" <= letter <= "\udcff" else "surrogatepass"
    return "".join(f"\\x{byte:02x}" for byte in letter.encode("utf-8", errors))
