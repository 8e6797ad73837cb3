"""What is in the archives of layers that were read, kept until it is taken: so each is read once."""

import io
import marshal
import operator
import tempfile
from collections import Counter
from collections.abc import Hashable, Iterator, Sequence
from dataclasses import fields
from typing import IO, Protocol

from ..common.budgets import Budget
from ..common.contents import PIECE
from ..common.faults import cannot_read, reason_of, writing
from ..common.streams import Slice
from ..tar.headers import Header

Contents = tuple[str, int]  # the digest of an entry's data, and how many bytes they are
NO_CONTENTS: Contents = ("", 0)
_LENGTH_BYTES = 4
_WITHOUT_REFERENCES = 2  # the version of the form, which is quicker to read
_members = operator.attrgetter(*(member.name for member in fields(Header)))


class Named(Protocol):
    """A layer, as an image names it."""

    def identity(self) -> Hashable:
        """The same for two that have the same bytes."""


class Kept(Protocol):
    """What was in an archive."""

    def entries(self, budget: Budget) -> Iterator[tuple[Header, Contents]]:
        """Its headers with the digests of their contents, in their order, within a budget."""


class KeptLayers(Protocol):
    """Which layers of an image needn't be read, since they were."""

    def kept(self, layer: Named) -> Kept | None:
        """What is kept of a layer, if one of the same bytes was read."""

    def keeping(self, layer: Named) -> "Keeping | None":
        """Where the entries of a layer are to be kept, if it comes again."""


class Keeping:
    """The entries of one archive on their way to the end of a file that goes with its process."""

    def __init__(self, file: IO[bytes], out: str) -> None:
        self._file = file
        self._out = out
        self._size = 0
        with writing(out):
            self._begin = file.seek(0, io.SEEK_END)

    def add(self, header: Header, contents: Contents) -> None:
        """The next entry, while no other archive is kept in the file."""
        data = marshal.dumps((*_members(header), contents), _WITHOUT_REFERENCES)
        try:
            self._file.write(len(data).to_bytes(_LENGTH_BYTES, "little") + data)
        except OSError:
            with writing(self._out):
                raise
        self._size += _LENGTH_BYTES + len(data)

    def restart(self) -> None:
        """Drops what was added, as it is read once more."""
        with writing(self._out):
            self._file.seek(self._begin)
            self._file.truncate()
        self._size = 0

    def place(self) -> tuple[int, int]:
        """Where they are in the file, and how many bytes they take."""
        with writing(self._out):
            self._file.flush()
        return self._begin, self._size


def entries_at(file: IO[bytes], place: tuple[int, int], out: str) -> Iterator[tuple[Header, Contents]]:
    """The entries that were kept at a place of a file, whose own place isn't used."""
    source = io.BufferedReader(Slice(file.fileno(), *place), PIECE)
    try:
        while length := source.read(_LENGTH_BYTES):
            *members, contents = marshal.loads(source.read(int.from_bytes(length, "little")))
            yield Header(*members), contents
    except OSError as error:
        raise cannot_read(out, reason_of(error)) from error


class KeptAgain:
    """An archive that was taken once already."""

    def __init__(self, file: IO[bytes], keeping: Keeping, out: str) -> None:
        self._file = file
        self._keeping = keeping
        self._out = out

    def entries(self, budget: Budget) -> Iterator[tuple[Header, Contents]]:
        """See `Kept`."""
        return counted_again(entries_at(self._file, self._keeping.place(), self._out), budget)


def counted_again(
    entries: Iterator[tuple[Header, Contents]], budget: Budget
) -> Iterator[tuple[Header, Contents]]:
    """The entries of a layer that an image names again, whose headers count again."""
    for entry in entries:
        budget.headers.take()
        yield entry


class Repeats:
    """Layers that an image names again, of which the first is kept while it is taken."""

    def __init__(self, layers: Sequence[Named], folder: str, out: str) -> None:
        self._out = out
        self._named = Counter(layer.identity() for layer in layers)
        self._kept: dict[Hashable, KeptAgain] = {}
        with writing(out):
            self._file = tempfile.TemporaryFile(dir=folder)

    def kept(self, layer: Named) -> Kept | None:
        """See `KeptLayers`."""
        return self._kept.get(layer.identity())

    def keeping(self, layer: Named) -> Keeping | None:
        """See `KeptLayers`."""
        if self._named[layer.identity()] < 2:
            return None
        keeping = Keeping(self._file, self._out)
        self._kept[layer.identity()] = KeptAgain(self._file, keeping, self._out)
        return keeping

    def close(self) -> None:
        """Takes away what is kept."""
        self._file.close()
