"""Layers of a new image that are read again as soon as they are written, which gives their digests and entries."""

import contextlib
import os
import tempfile
from collections.abc import Callable, Hashable, Iterator
from types import TracebackType

from ..common.budgets import Budget
from ..common.faults import TarFault, cannot_read, reading, writing
from ..common.progress import Progress
from ..common.streams import Digesting, Slice, Source, Watched
from ..model.blobs import Digester
from ..model.merged_tree import MergedTree
from ..tar.headers import Header
from .archives import ArchiveReader, Store, ReadOptions, has_contents
from .documents import Digest
from .images import ImageLayer
from .layer_cache import NO_CONTENTS, Keeping, Kept, KeptAgain, Named

ALGORITHM = "sha256"


class NewLayers:
    """Reads plain layers from the files of a new image, each once.

    So a layer is named by what the disk has, and it isn't read once more when the image is: see `KeptLayers`.
    Something may begin once the last of all layers is written.
    """

    def __init__(self, folder: str, out: str, layers: int, begin_at_last: Callable[[], None]) -> None:
        self._out = out
        self._left = layers
        self._begin_at_last = begin_at_last
        self._kept: dict[Hashable, KeptAgain] = {}
        with writing(out):
            self._file = tempfile.TemporaryFile(dir=folder)

    def __enter__(self) -> "NewLayers":
        return self

    def __exit__(
        self, kind: type[BaseException] | None, error: BaseException | None, trace: TracebackType | None
    ) -> None:
        self._file.close()

    def read(self, file: int, begin: int, size: int) -> str:
        """Reads the layer that stands in a part of an open file; gives the digits of the digest of its bytes."""
        self._left -= 1
        if self._left == 0:
            self._begin_at_last()
        layer = _NewLayer(self._out, file, begin, size)
        read_options = ReadOptions(out=self._out, writer=Digester(), budget=Budget(), below=MergedTree())
        keeping = Keeping(self._file, self._out)

        def keep(header: Header, store: Store) -> None:
            keeping.add(header, store() if has_contents(header) else NO_CONTENTS)

        ArchiveReader(layer, read_options).read(keep)
        kept = KeptAgain(self._file, keeping, self._out)
        status = os.fstat(file)
        for place in ((status.st_dev, status.st_ino), (begin, size)):  # as in a folder, and in an archive
            self._kept[place, layer.digest] = kept
        return layer.digest

    def kept(self, layer: Named) -> Kept | None:
        """See `KeptLayers`: of one that stands where it was read, and has that digest."""
        if not isinstance(layer, ImageLayer) or layer.digest is None or layer.digest != layer.unpacked_digest:
            return None
        return self._kept.get((layer.members.identity(layer.name), layer.digest[1]))

    def keeping(self, layer: Named) -> Keeping | None:
        """See `KeptLayers`: nothing more is kept."""
        return None


class _NewLayer:
    """The bytes of a layer where they were written; see `archives.Layer`."""

    unpacked_digest: Digest | None = None

    def __init__(self, path: str, file: int, begin: int, size: int) -> None:
        self.name = self.path = path
        self.digest = ""
        self._place = file, begin, size

    def is_checked(self) -> bool:
        """There is no digest to look at."""
        return False

    def identity(self) -> Hashable:
        """It is the only one that is read."""
        return self._place

    @contextlib.contextmanager
    def archive(self, progress: Progress) -> Iterator[Source]:
        """Its bytes, whose digest is there at the end."""
        source = Digesting(Watched(Slice(*self._place), progress), ALGORITHM)
        try:
            with reading(self.path):
                yield source
                self.digest = source.digest_of_all()
        except TarFault as error:
            raise cannot_read(self.path, str(error)) from error
