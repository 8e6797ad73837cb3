"""What ends a command, with its text and its exit status."""

import contextlib
import errno
import os
import re
import signal
from collections.abc import Iterator

from .escaping import printable

FAULTY = 1
USAGE = 2
READING = 3
WRITING = 4
OTHER = 5
ENDING = (signal.SIGINT, signal.SIGTERM, signal.SIGHUP)  # signals that end a command


class Fault(Exception):
    """Ends the command: `layers: TEXT` on standard error, in one line, and the status."""

    status = OTHER

    def __init__(self, text: str) -> None:
        self.text = printable(text)
        super().__init__(self.text)


class UsageFault(Fault):
    """Words that don't fit together."""

    status = USAGE


class ReadFault(Fault):
    """Something can't be read, or what it holds can't be stated."""

    status = READING


class WriteFault(Fault):
    """Something can't be written."""

    status = WRITING


class ClosedPipe(Fault):
    """Whoever read standard output reads no more of it, as `head` does. Nothing is said of that."""

    def __init__(self) -> None:
        super().__init__("standard output is closed")


class TarFault(Exception):
    """The bytes aren't a tar archive that can be read."""


class EndsEarly(TarFault):
    """An archive has fewer bytes than it says."""

    def __init__(self) -> None:
        super().__init__("the archive ends too early")


def cannot_read(path: str, reason: str) -> ReadFault:
    """The fault of a path that can't be read."""
    return ReadFault(f"cannot read {path}: {reason}")


def cannot_write(path: str, reason: str) -> WriteFault:
    """The fault of a path that can't be written."""
    return WriteFault(f"cannot write {path}: {reason}")


def reason_of(error: OSError) -> str:
    """The system's words for an error."""
    return error.strerror or str(error)


_FULL = (errno.ENOSPC, errno.EDQUOT, errno.EFBIG, errno.EROFS)


def is_of_writing(error: OSError) -> bool:
    """Whether an error of copying can only be of what is written: it has no more space, or takes nothing."""
    return error.errno in _FULL


@contextlib.contextmanager
def reading(path: str) -> Iterator[None]:
    """Tells an error of the system inside as one of reading this path."""
    try:
        yield
    except OSError as error:
        raise cannot_read(path, reason_of(error)) from error


@contextlib.contextmanager
def writing(path: str) -> Iterator[None]:
    """Tells an error of the system inside as one of writing this path."""
    try:
        yield
    except OSError as error:
        is_not_root = error.errno == errno.EPERM and os.geteuid() != 0  # a folder that can't be written to gives EACCES
        hint = "; owners, devices and trusted.* attributes need root" if is_not_root else ""
        raise cannot_write(path, reason_of(error) + hint) from error


@contextlib.contextmanager
def reported_as(stage: str, path: str) -> Iterator[None]:
    """Tells a fault of what is in a stage as one of the path that it is to become."""
    try:
        yield
    except Fault as fault:
        inside = re.compile(re.escape(printable(stage)) + r"(?![0-9])(/[^:;,\s]*)?")
        fault.text = inside.sub(lambda _: printable(path), fault.text)
        raise


@contextlib.contextmanager
def signals_wait() -> Iterator[set[int]]:
    """Has signals that end a command wait; gives those that waited before."""
    mask = signal.pthread_sigmask(signal.SIG_BLOCK, ENDING)
    try:
        yield mask
    finally:
        signal.pthread_sigmask(signal.SIG_SETMASK, mask)
