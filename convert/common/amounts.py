"""Numbers of bytes and shares as texts."""

_UNITS = "KMGTPE"


def size_text(size: int, exact: bool = False) -> str:
    """A number of bytes as `ls -h` writes it: in powers of 1,024, rounded up, with a digit after the point below 10."""
    if exact or size < 1_024:
        return str(size)
    power = min((size.bit_length() - 1) // 10, len(_UNITS))
    unit = 1 << 10 * power
    tenths = -(-size * 10 // unit)
    if tenths < 100:
        return f"{tenths // 10}.{tenths % 10}{_UNITS[power - 1]}"
    whole = -(-size // unit)
    if whole == 1_024 and power < len(_UNITS):
        return f"1.0{_UNITS[power]}"
    return f"{whole}{_UNITS[power - 1]}"


def amount_text(size: int, exact: bool = False) -> str:
    """The same in a sentence, with its unit."""
    if exact or size < 1_024:
        return f"{size} bytes"
    text = size_text(size)
    return f"{text[:-1]} {text[-1]}iB"


def per_cent(part: int, whole: int) -> str:
    """A share with one digit after the point, rounded down; of nothing all is there."""
    tenths = 1_000 * part // whole if whole else 1_000
    return f"{tenths // 10}.{tenths % 10} %"
