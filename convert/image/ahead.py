"""The layers of an image, read side by side by several processes before they are taken one after the other.

Each process reads layers of its own: it checks their digests, unpacks them, and puts the contents of their files into
the folder of blobs. The headers go into a file without a name, from which the layers are taken in their order: so what
comes of them, faults too, is the same as if each were read when it is taken.
"""

import contextlib
import marshal
import mmap
import os
import select
import signal
import sys
import tempfile
from collections.abc import Callable, Hashable, Iterator, Mapping, Sequence
from dataclasses import dataclass, replace
from typing import IO

from ..common.budgets import Budget, SharedBudget, UsedBudget
from ..common.contents import write_all
from ..common.faults import ENDING, OTHER, READING, WRITING, Fault, ReadFault, TarFault, WriteFault, writing
from ..common.progress import Progress, share_progress
from ..common.streams import Source
from ..model.blobs import Writer
from ..model.workers import usual_workers
from ..tar.headers import Header
from .archives import ArchiveReader, Layer, Store, ReadOptions, has_contents
from .images import ImageLayer
from .layer_cache import NO_CONTENTS, Contents, Keeping, Kept, KeptLayers, Named, Repeats, counted_again, entries_at
from .quick_gzip import NotTaken

LEAST_BYTES = 1 << 23  # of an image's layers together, below which processes cost more than they save
_FAULTS = {READING: ReadFault, WRITING: WriteFault}
_NUMBER_BYTES = 8
NewWriter = Callable[[], Writer]


@contextlib.contextmanager
def layers_read(
    layers: Sequence[ImageLayer], options: ReadOptions, folder: str, new_writer: NewWriter
) -> Iterator[KeptLayers]:
    """The layers that are read before they are taken: all, where that saves time, or those that are named again.

    What is kept of them stands in a folder, in files without names.
    """
    if _saves_time(layers, options):
        ahead = _LayersAhead(layers, options, folder)
        try:
            ahead.start(new_writer)
            yield ahead
            ahead.drop_wrong_blobs()
        finally:
            ahead.close()
    else:
        repeats = Repeats(layers, folder, options.out)
        try:
            yield repeats
        finally:
            repeats.close()


def _saves_time(layers: Sequence[ImageLayer], options: ReadOptions) -> bool:
    """Whether other processes are to read. What is left out must not leave blobs behind, so then none does."""
    sizes = {layer.identity(): layer.size for layer in layers}
    if sum(sizes.values()) < LEAST_BYTES or usual_workers() == 1 or options.skip_unsupported:
        return False
    return len(sizes) > 1 or layers[0].may_be_quick()


@dataclass(frozen=True)
class _Read:
    """What came of reading a layer: where its entries stand, the fault that ended it, and whether it was read again."""

    place: tuple[int, int]
    fault: tuple[int, str] | None
    is_again: bool


class _LayersAhead:
    """Layers that processes read, the largest first; see `KeptLayers`."""

    def __init__(self, layers: Sequence[ImageLayer], options: ReadOptions, folder: str) -> None:
        self._layers = layers
        self._options = options
        self._folder = folder
        self._numbers: dict[Hashable, int] = {}
        for number, layer in enumerate(layers):
            self._numbers.setdefault(layer.identity(), number)
        self._used = UsedBudget(len(layers))
        self._workers: dict[int, _Worker] = {}  # by the numbers of the layers that each of them reads
        self._taken: set[int] = set()
        bytes_read = sum(layers[number].size for number in self._numbers.values())
        self._progress = Progress("unpacking", bytes_read)

    def start(self, new_writer: NewWriter) -> None:
        """Starts the processes."""
        sizes = {number: self._layers[number].size for number in self._numbers.values()}
        for share in _shared(sizes, usual_workers()):
            with writing(self._options.out):
                worker = _Worker(share, tempfile.TemporaryFile(dir=self._folder))
            self._workers |= dict.fromkeys(share, worker)
            worker.start(lambda worker: self._read_all(worker, new_writer))

    def close(self) -> None:
        """Ends the processes, and takes away what is kept."""
        self._progress.end()
        for worker in set(self._workers.values()):
            worker.stop()

    def drop_wrong_blobs(self) -> None:
        """Takes away blobs that no layer has: those of a layer that was unpacked quickly, and otherwise than by zlib.

        Not before all are read, since one that another layer has too stands once.
        """
        reads = [(worker.file, read) for worker in set(self._workers.values()) for read in worker.read.values()]
        if any(read.is_again for _, read in reads):
            out = self._options.out
            self._options.writer.drop_others({
                contents[0] for file, read in reads for _, contents in entries_at(file, read.place, out)
            })

    def kept(self, layer: Named) -> Kept | None:
        """See `KeptLayers`."""
        return _KeptAhead(self, self._numbers[layer.identity()])

    def keeping(self, layer: Named) -> Keeping | None:
        """See `KeptLayers`: all of them are kept already."""
        return None

    def entries(self, number: int, budget: Budget) -> Iterator[tuple[Header, Contents]]:
        """The entries of a layer, once it is read, and then the fault that ended it."""
        worker = self._workers[number]
        read = self._result(worker, number)
        entries = entries_at(worker.file, read.place, self._options.out)
        if number in self._taken:
            yield from counted_again(entries, budget)
            return
        self._taken.add(number)
        yield from entries
        self._used.charge(budget, number)
        if read.fault is not None:
            raise _FAULTS.get(read.fault[0], Fault)(read.fault[1])

    def _result(self, worker: "_Worker", number: int) -> _Read:
        """What came of a layer, which is waited for."""
        while (read := worker.result(number, self._progress.seconds())) is None:
            self._progress.step_to(sum(each.progress[0] for each in set(self._workers.values())))
        self._progress.end()
        return read

    def _read_all(self, worker: "_Worker", new_writer: NewWriter) -> None:
        """In a process of its own: reads the layers that are its share."""
        writer = new_writer()
        for number in worker.layers:
            place, fault, is_again = (0, 0), None, False
            try:
                keeping = Keeping(worker.file, self._options.out)
                try:
                    is_again = self._read(number, keeping, worker, writer)
                finally:
                    place = keeping.place()
            except Fault as problem:
                fault = problem.status, problem.text
            except MemoryError:
                fault = OTHER, "out of memory"
            except OSError as problem:
                fault = OTHER, str(problem)
            if number == worker.layers[-1]:
                writer.close()  # before the parent knows that it is done, and may end it
            worker.send(number, _Read(place, fault, is_again))
            worker.require_parent()

    def _read(self, number: int, keeping: Keeping, worker: "_Worker", writer: Writer) -> bool:
        """Reads a layer quickly, if that can be done, and if it isn't sound so, again by zlib, which says why.

        Gives whether it was read again.
        """
        layer = self._layers[number]
        is_quick = layer.may_be_quick()
        if is_quick:
            with contextlib.suppress(NotTaken, TarFault, ReadFault):
                self._read_as(_Quick(layer), number, keeping, worker, writer)
                return False
            keeping.restart()
        self._read_as(layer, number, keeping, worker, writer)
        return is_quick

    def _read_as(self, layer: Layer, number: int, keeping: Keeping, worker: "_Worker", writer: Writer) -> None:
        budget = SharedBudget(self._used, number)
        options = replace(self._options, writer=writer, budget=budget)

        def keep(header: Header, store: Store) -> None:
            worker.require_parent()
            keeping.add(header, store() if has_contents(header) else NO_CONTENTS)

        try:
            ArchiveReader(layer, options).read(keep)
        finally:
            budget.report()


@dataclass(frozen=True)
class _Quick:
    """A layer that is unpacked quickly; see `archives.Layer`."""

    layer: ImageLayer

    @property
    def name(self) -> str:
        """What it is called in notes."""
        return self.layer.name

    @property
    def path(self) -> str:
        """What it is called in faults."""
        return self.layer.path

    @property
    def unpacked_digest(self) -> tuple[str, str] | None:
        """The digest of the archive's bytes."""
        return self.layer.unpacked_digest

    def is_checked(self) -> bool:
        """See `archives.Layer`: it is packed."""
        return False

    def identity(self) -> Hashable:
        """The same as the layer's."""
        return self.layer.identity()

    def archive(self, progress: Progress) -> contextlib.AbstractContextManager[Source]:
        """The bytes of its archive."""
        return self.layer.archive_quickly(progress)


@dataclass(frozen=True)
class _KeptAhead:
    """A layer that was read by a process, or is yet."""

    layers: _LayersAhead
    number: int

    def entries(self, budget: Budget) -> Iterator[tuple[Header, Contents]]:
        """See `Kept`."""
        return self.layers.entries(self.number, budget)


class _Worker:
    """A process that reads layers, and reports each when it is done."""

    def __init__(self, layers: Sequence[int], file: IO[bytes]) -> None:
        self.layers = layers
        self.file = file
        self.progress = memoryview(mmap.mmap(-1, _NUMBER_BYTES)).cast("Q")
        self.read: dict[int, _Read] = {}
        self._results, self._sender = os.pipe()
        self._process = 0
        self._parent = os.getpid()

    def start(self, work: "Callable[[_Worker], None]") -> None:
        """Starts the process. Signals wait meanwhile, so that none leaves it alone."""
        mask = signal.pthread_sigmask(signal.SIG_BLOCK, ENDING)
        try:
            self._process = os.fork()
            if self._process == 0:
                self._work(mask, work)
            os.close(self._sender)
        finally:
            signal.pthread_sigmask(signal.SIG_SETMASK, mask)

    def _work(self, mask: set[int], work: "Callable[[_Worker], None]") -> None:
        """In the process: does the work, and ends."""
        try:
            os.close(self._results)
            share_progress(self.progress)
            signal.pthread_sigmask(signal.SIG_SETMASK, mask)
            work(self)
        except Exception:  # pylint: disable=broad-except
            sys.excepthook(*sys.exc_info())
        finally:
            os._exit(0)

    def send(self, number: int, read: _Read) -> None:
        """In the process: what came of a layer."""
        data = marshal.dumps((number, read.place, read.fault, read.is_again))
        with contextlib.suppress(BrokenPipeError):
            write_all(self._sender, len(data).to_bytes(_NUMBER_BYTES, "little") + data)

    def require_parent(self) -> None:
        """In the process: ends it where the one that it works for was killed."""
        if os.getppid() != self._parent:
            os._exit(0)

    def result(self, number: int, seconds: float | None) -> _Read | None:
        """What came of a layer, which is waited for, or nothing where it takes longer than so many seconds."""
        while number not in self.read:
            poll = select.poll()
            poll.register(self._results, select.POLLIN)
            if not poll.poll(None if seconds is None else seconds * 1_000):
                return None
            size = int.from_bytes(self._received(_NUMBER_BYTES), "little")
            done, *read = marshal.loads(self._received(size))
            self.read[done] = _Read(*read)
        return self.read[number]

    def _received(self, count: int) -> bytes:
        """The next bytes that the process sends."""
        data = b""
        while len(data) < count:
            more = os.read(self._results, count - len(data))
            if not more:
                raise Fault("a process that reads layers was ended")
            data += more
        return data

    def stop(self) -> None:
        """Ends the process, where it hasn't ended itself."""
        os.close(self._results)
        if self._process:
            os.kill(self._process, signal.SIGTERM)
            os.waitpid(self._process, 0)
        self.file.close()


def _shared(sizes: Mapping[int, int], most: int) -> list[list[int]]:
    """Layers shared among so many processes at most: the largest first, each to the one that has the least."""
    shares: list[list[int]] = [[] for _ in range(min(most, len(sizes)))]
    loads = [0] * len(shares)
    for number in sorted(sizes, key=lambda number: -sizes[number]):
        least = loads.index(min(loads))
        shares[least].append(number)
        loads[least] += sizes[number] + 1
    return shares
