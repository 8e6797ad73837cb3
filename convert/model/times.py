"""Times, held as whole nanoseconds since the beginning of 1970; those before it are negative."""

ONE_SECOND = 1_000_000_000
_DIGITS = 9


def shown(time_ns: int) -> str:
    """A time as the show report has it: the seconds, and what is over them if there is something."""
    seconds, over = divmod(time_ns, ONE_SECOND)
    return f"{seconds}+{over:0{_DIGITS}}" if over else str(seconds)


def of_shown(text: str) -> int:
    """The time that the show report has so."""
    seconds, _, over = text.partition("+")
    return int(seconds) * ONE_SECOND + int(over or 0)


def to_decimal(time_ns: int) -> str:
    """A time as a decimal fraction of seconds, such as -1.5 for a second and a half before 1970."""
    whole, below = divmod(abs(time_ns), ONE_SECOND)
    fraction = f".{below:0{_DIGITS}}".rstrip("0") if below else ""
    return f"{'-' if time_ns < 0 else ''}{whole}{fraction}"


def of_decimal(is_negative: bool, whole: int, fraction: bytes) -> tuple[int, bool]:
    """The time of a decimal fraction of seconds, and whether it was cut, towards the past, to a whole nanosecond.

    `whole` is what comes before the point, without its sign, and `fraction` the digits after it.
    """
    time_ns = whole * ONE_SECOND + int(fraction[:_DIGITS].ljust(_DIGITS, b"0"))
    is_cut = bool(fraction[_DIGITS:].strip(b"0"))
    return (-time_ns - is_cut if is_negative else time_ns), is_cut
