"""Sharing the reading of many files among processes."""

import os
import selectors
import signal
from collections.abc import Callable, Iterator, Sequence
from dataclasses import dataclass, field

from ..common.faults import READING, WRITING, Fault, ReadFault, WriteFault
from .entries import Entry

Job = Callable[[Sequence[Entry]], Iterator[str]]

MOST_WORKERS = 64
_DIGEST_BYTES = 32
_COST_OF_A_FILE = 50_000  # bytes that take about as long to read as a file takes to open
_NO_DIGEST = bytes(_DIGEST_BYTES)  # comes before a fault; no contents that are known have it
_FEW = 500
_AT_ONCE = 1 << 16


def usual_workers() -> int:
    """As many as there are processors to run on, and at most four."""
    return min(4, len(os.sched_getaffinity(0)))


@dataclass
class _Worker:
    process: int
    results: int
    files: Sequence[Entry]
    received: bytearray = field(default_factory=bytearray)
    done: int = 0

    def take(self, data: bytes) -> int:
        """Gives digests that have come to their files; gives how many."""
        self.received += data
        count = 0
        while self.done < len(self.files) and len(self.received) >= _DIGEST_BYTES:
            digest = self.received[:_DIGEST_BYTES]
            if digest == _NO_DIGEST:
                break
            self.files[self.done].blob = digest.hex()
            del self.received[:_DIGEST_BYTES]
            self.done += 1
            count += 1
        return count

    def end(self) -> None:
        """Waits for the process and raises the fault that it reported, if it isn't done."""
        os.close(self.results)
        os.waitpid(self.process, 0)
        if self.done < len(self.files):
            raise _fault_of(bytes(self.received[_DIGEST_BYTES:]))


def _fault_of(message: bytes) -> Fault:
    kinds = {READING: ReadFault, WRITING: WriteFault}
    if not message:
        return Fault("a worker was ended")
    return kinds.get(message[0], Fault)(message[1:].decode("utf-8", "replace"))


def give_blobs(files: Sequence[Entry], workers: int, job: Job, step: Callable[[int], None]) -> None:
    """Gives each file the digest that the job has for it, by one process or several."""
    if workers <= 1 or len(files) < _FEW:
        for entry, digest in zip(files, job(files)):
            entry.blob = digest
            step(1)
        return
    started: list[_Worker] = []
    try:
        for share in _shares(files, workers):
            started.append(_start(share, job))
        _gather(started, step)
        while started:
            started.pop(0).end()
    finally:
        for worker in started:
            _stop(worker)


def _shares(files: Sequence[Entry], count: int) -> Iterator[Sequence[Entry]]:
    whole = sum(entry.size + _COST_OF_A_FILE for entry in files)
    begin, cost, number = 0, 0, 1
    for place, entry in enumerate(files):
        cost += entry.size + _COST_OF_A_FILE
        if cost * count >= whole * number:
            yield files[begin:place + 1]
            begin = place + 1
            number += 1
    if begin < len(files):
        yield files[begin:]


def _start(files: Sequence[Entry], job: Job) -> _Worker:
    results, ours = os.pipe()
    process = os.fork()
    if process == 0:
        try:
            os.close(results)
            _work(files, job, ours)
        finally:
            os._exit(0)
    os.close(ours)
    return _Worker(process, results, files)


def _work(files: Sequence[Entry], job: Job, results: int) -> None:
    """In the worker's process: a digest a file, or zeros and the fault."""
    with open(results, "wb", buffering=_DIGEST_BYTES * 64) as out:
        try:
            for digest in job(files):
                out.write(bytes.fromhex(digest))
        except Fault as fault:
            out.write(_NO_DIGEST + bytes([fault.status]) + fault.text.encode())


def _gather(workers: Sequence[_Worker], step: Callable[[int], None]) -> None:
    with selectors.DefaultSelector() as selector:
        for worker in workers:
            selector.register(worker.results, selectors.EVENT_READ, worker)
        while selector.get_map():
            for key, _ in selector.select():
                data = os.read(key.fd, _AT_ONCE)
                if data:
                    step(key.data.take(data))
                else:
                    selector.unregister(key.fd)


def _stop(worker: _Worker) -> None:
    os.kill(worker.process, signal.SIGTERM)
    os.close(worker.results)
    os.waitpid(worker.process, 0)
