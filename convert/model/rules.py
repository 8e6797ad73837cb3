"""The limits of a manifest, and what can't be stated in one."""

import re
from collections.abc import Iterable

from .entries import ESCAPED

MAX_LAYERS = 128
MAX_ENTRIES = 1_048_576
MAX_NAMES = 128
MAX_NAMES_OF_FIRST = 64  # in a manifest of version 1
MAX_NAME_BYTES = 255
MAX_PATH_BYTES = 4_095
MAX_TARGET_BYTES = 4_095
MAX_ATTRIBUTE_NAME_BYTES = 255
MAX_MODE = 0o7777
MAX_NUMBER = 2**32 - 1
MAX_SIZE = 2**63 - 1
MIN_TIME = -(2**63)  # seconds
MAX_TIME = 2**63 - 1
MAX_MANIFEST_BYTES = 268_435_456
MAX_IMAGE_MANIFESTS = 4 * MAX_MANIFEST_BYTES
MAX_ATTRIBUTE_NAMES = 65_536  # bytes of the names of an entry's attributes; Linux has no more

DIGEST = re.compile(r"[0-9a-f]{64}\Z")


def name_problem(name: str) -> str | None:
    """Why text isn't a name in a manifest. Bytes that aren't UTF-8 are surrogates."""
    try:
        length = len(name.encode())
    except UnicodeEncodeError:
        return "its name isn't UTF-8"
    if length == 0:
        return "its name is empty"
    if length > MAX_NAME_BYTES:
        return f"its name has {length} bytes, over {MAX_NAME_BYTES}"
    if name in (".", ".."):
        return f"its name is {name}"
    if "/" in name or "\0" in name:
        return "its name holds a slash or NUL"
    return None


def path_problem(path: str, depth: int, most: int = MAX_NAMES) -> str | None:
    """Why a path of good names, with this number of them, has no place in a manifest, if it may have `most`."""
    if depth > most:
        return f"it is {depth} names deep, over {most}"
    length = len(path.encode())
    if length > MAX_PATH_BYTES:
        return f"its path has {length} bytes, over {MAX_PATH_BYTES}"
    return None


def text_problem(text: str, what: str, most: int) -> str | None:
    """Why a text of at most this many bytes can't be stated."""
    try:
        length = len(text.encode())
    except UnicodeEncodeError:
        return f"{what} isn't UTF-8"
    if not 1 <= length <= most or "\0" in text:
        return f"{what} isn't 1 to {most} bytes without NUL"
    return None


def attribute_problem(name: str) -> str | None:
    """Why an attribute of this name can't be stated."""
    problem = text_problem(name, "the name of an attribute", MAX_ATTRIBUTE_NAME_BYTES)
    if problem is None and name.startswith(ESCAPED):
        return f"it has the attribute {name}, of an overlay inside another"
    return problem


def attributes_problem(names: Iterable[str]) -> str | None:
    """Why attributes of these names can't be stated together, even if each of them can."""
    if sum(len(name) + 1 for name in names) > MAX_ATTRIBUTE_NAMES:
        return f"the names of its attributes have over {MAX_ATTRIBUTE_NAMES} bytes"
    return None


def target_problem(target: str) -> str | None:
    """Why a symlink with this target can't be stated."""
    return text_problem(target, "its target", MAX_TARGET_BYTES)


def number_problem(what: str, number: int, least: int, most: int) -> str | None:
    """Why a number can't be stated."""
    return None if least <= number <= most else f"its {what} {number} isn't in {least} to {most}"


def path_key(path: str) -> tuple[bytes, ...]:
    """Paths in path order: name by name as bytes, a path before everything below it."""
    return tuple(path.encode().split(b"/")[1:]) if path != "/" else ()
