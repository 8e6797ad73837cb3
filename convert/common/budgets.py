"""What an image may have in its archives and layers together, so that a small one can't take all time or memory."""

import mmap

MAX_HEADERS = 1 << 23  # a manifest has place for an eighth as many entries
MAX_GLOBAL_HEADERS = 1_000  # `git archive` writes one
MAX_RECORDS = 1 << 29  # bytes
MAX_GIVEN_RECORDS = 1 << 27  # bytes
MAX_PARTS = 1 << 20
MAX_HOLES = 1 << 34  # bytes, which have to be digested
MAX_ATTRIBUTES = 1 << 23
MAX_UNSTATED = 1 << 18
MAX_ENTRIES = 1 << 22  # of all layers, which are held to know what each one covers
MAX_TEXT = 1 << 29  # bytes
_STEPS = 1_000  # in which a process looks what others have
_NUMBER_BYTES = 8


class TooMuch(Exception):
    """An image has more of something than it may have."""


class Counter:
    """Counts one thing of all that is read of an image."""

    def __init__(self, most: int, words: str) -> None:
        self.most = most
        self.words = words
        self._taken = 0

    def take(self, count: int = 1) -> None:
        """So many more."""
        self._taken += count
        if self._taken > self.most:
            self.require(self._taken)

    def require(self, taken: int) -> None:
        """Refuses this many if they are too many."""
        if taken > self.most:
            raise TooMuch(f"the image has over {self.most:,} {self.words}")


class Budget:
    """What is left of each. A layer that is named twice counts twice, but for what isn't read again."""

    def __init__(self) -> None:
        self.headers = Counter(MAX_HEADERS, "headers in its archives")
        self.global_headers = Counter(MAX_GLOBAL_HEADERS, "PAX headers for all entries")
        self.records = Counter(MAX_RECORDS, "bytes of PAX records, long names and maps of sparse files")
        self.given_records = Counter(MAX_GIVEN_RECORDS, "bytes of PAX records that its entries have from those for all")
        self.parts = Counter(MAX_PARTS, "parts of sparse files")
        self.holes = Counter(MAX_HOLES, "bytes of holes")
        self.attributes = Counter(MAX_ATTRIBUTES, "attributes")
        self.unstated = Counter(MAX_UNSTATED, "directories that its archives leave out")
        self.entries = Counter(MAX_ENTRIES, "entries in its layers")
        self.text = Counter(MAX_TEXT, "bytes of names, targets and attributes")

    def counters(self) -> tuple[Counter, ...]:
        """Those of archives, which several processes may read, in an order of their own."""
        return (
            self.headers, self.global_headers, self.records, self.given_records, self.parts, self.holes,
            self.attributes, self.unstated,
        )


class UsedBudget:
    """What each layer of an image has of a budget, the lowest first, in memory that processes share."""

    def __init__(self, layers: int) -> None:
        self._layers = layers
        size = layers * len(Budget().counters())
        self._used = memoryview(mmap.mmap(-1, size * _NUMBER_BYTES)).cast("Q")

    def of(self, counter: int) -> memoryview:
        """What the layers have of one thing."""
        return self._used[counter * self._layers:(counter + 1) * self._layers]

    def charge(self, budget: Budget, layer: int) -> None:
        """Counts what a layer has that was read by another process."""
        for number, counter in enumerate(budget.counters()):
            counter.take(self.of(number)[layer])


class SharedCounter(Counter):
    """Counts in one of several processes, each of which reads a layer.

    Now and then it reports what it has to those that read layers above, and looks what those below have. So none goes
    on far past what its own layer and those below may have together.
    """

    def __init__(self, counter: Counter, used: memoryview, layer: int) -> None:
        super().__init__(counter.most, counter.words)
        self._used = used
        self._layer = layer
        self._step = max(1, counter.most // _STEPS)
        self._next = self._step

    def take(self, count: int = 1) -> None:
        """So many more."""
        self._taken += count
        if self._taken >= self._next:
            self._next = self._taken + self._step
            self.report()
            self.require(sum(self._used[:self._layer + 1]))

    def report(self) -> None:
        """Tells what it has."""
        self._used[self._layer] = min(self._taken, self.most + 1)


class SharedBudget(Budget):
    """The budget of an image in the process that reads one of its layers."""

    def __init__(self, used: UsedBudget, layer: int) -> None:
        super().__init__()
        self._shared = tuple(
            SharedCounter(counter, used.of(number), layer) for number, counter in enumerate(self.counters())
        )
        (
            self.headers, self.global_headers, self.records, self.given_records, self.parts, self.holes,
            self.attributes, self.unstated,
        ) = self._shared

    def report(self) -> None:
        """Tells all that its layer has."""
        for counter in self._shared:
            counter.report()
