"""Names in the archive of an image's layer: paths, and those that mean whiteouts."""

from ..model import rules
from ..model.layer_tree import Unfit

WHITEOUT_PREFIX = ".wh."
OPAQUE_NAME = ".wh..wh..opq"
_AUFS_PREFIX = ".wh..wh."
AUFS_LINKS = ".wh..wh.plnk"
_PREFIX = WHITEOUT_PREFIX.encode()


class Paths:
    """Paths of an archive as lists of names. Those of one folder mostly follow one another.

    In an image's layer names that begin with `.wh.` mean whiteouts.
    """

    def __init__(self, has_whiteouts: bool = True) -> None:
        self._has_whiteouts = has_whiteouts
        self._folder = b""
        self._names: list[str] = []

    def names(self, path: bytes, what: str = "its name") -> list[str]:
        """The names of a path, which counts from the layer's root in any case, and never leads out of it."""
        folder, slash, last = path.rpartition(b"/")
        if last in (b"", b".", b".."):
            names = self._all_names(path, what)
            self._require_no_whiteout(path, names[:-1], names)
            return names
        if folder != self._folder or not slash:
            names = self._all_names(folder, what) if slash else []
            self._require_no_whiteout(folder, names, names)
            self._folder, self._names = folder, names
        return [*self._names, self._checked(_text(last))]

    def _all_names(self, path: bytes, what: str) -> list[str]:
        parts: list[bytes] = []
        for part in path.split(b"/"):
            if part == b"..":
                if not parts:
                    raise Unfit(f"{what} leads out of the layer by ..")
                parts.pop()
            elif part not in (b"", b"."):
                parts.append(part)
        if len(parts) > rules.MAX_NAMES + 1:  # the last one may be a whiteout in the deepest directory
            raise Unfit(f"it is {len(parts)} names deep, over {rules.MAX_NAMES}")
        return self._checked_names(parts)

    def _checked_names(self, parts: list[bytes]) -> list[str]:
        """Parts of a path as names; refuses those that can't be names. Mostly all are plain, which is seen at once."""
        way = b"/".join(parts)
        if way.isascii() and b"\0" not in way and max(map(len, parts), default=0) <= rules.MAX_NAME_BYTES:
            return way.decode().split("/") if parts else []
        return [self._checked(_text(part)) for part in parts]

    def _require_no_whiteout(self, path: bytes, way: list[str], names: list[str]) -> None:
        is_way_special = self._has_whiteouts and may_be_special(path)
        if is_way_special and any(map(_is_whiteout_name, way)) and not is_of_aufs(names):
            raise Unfit("its path leads through a whiteout")

    def _checked(self, name: str) -> str:
        problem = rules.name_problem(_without_prefix(name) if self._has_whiteouts else name)
        if problem:
            raise Unfit(problem)
        return name


def may_be_special(path: bytes) -> bool:
    """Whether a path may hold a name that means something else, which is seen at once of most that don't."""
    return _PREFIX in path


def is_of_aufs(names: list[str]) -> bool:
    """Whether a path leads to what aufs keeps for itself."""
    return any(name.startswith(_AUFS_PREFIX) and name != OPAQUE_NAME for name in names)


def _is_whiteout_name(name: str) -> bool:
    return name.startswith(WHITEOUT_PREFIX)


def _text(name: bytes) -> str:
    return name.decode("utf-8", "surrogateescape")


def _without_prefix(name: str) -> str:
    """What a whiteout's name hides, if that can be a name at all."""
    hidden = name.removeprefix(WHITEOUT_PREFIX)
    return name if hidden in ("", ".", "..") else hidden
