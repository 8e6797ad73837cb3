"""Child processes: each ends with the work that it is for, however that ends."""

import contextlib
import resource
import signal
import subprocess
import threading
from collections.abc import Iterator, Mapping, Sequence
from typing import IO

from .faults import ENDING, ReadFault, reason_of

_NO_LIMITS: Mapping[int, int] = {}
_MOST_WORDS = 1_000  # bytes


@contextlib.contextmanager
def running(
    command: Sequence[str], *, stdin: IO[bytes] | int = subprocess.DEVNULL, stdout: IO[bytes] | int = subprocess.DEVNULL,
    stderr: IO[bytes] | int | None = subprocess.DEVNULL, pass_fds: Sequence[int] = (), folder: str | None = None,
    environment: Mapping[str, str] | None = None, limits: Mapping[int, int] = _NO_LIMITS, buffering: int = -1,
    end: signal.Signals = signal.SIGKILL,
) -> Iterator["subprocess.Popen[bytes]"]:
    """A process, which has ended after the work inside: if it hasn't by itself, a signal ends it.

    Signals that end a command wait while it is started, so that none leaves it running.
    """
    process = None
    try:
        with _signals_wait():
            try:
                process = subprocess.Popen(
                    command, stdin=stdin, stdout=stdout, stderr=stderr, pass_fds=pass_fds, cwd=folder,
                    env=environment, bufsize=buffering,
                )
            except OSError as error:
                raise ReadFault(f"cannot run {command[0]}: {reason_of(error)}") from error
            _limit(process.pid, {resource.RLIMIT_CORE: 0, **limits})
        yield process
    finally:
        if process is not None:
            _end(process, end)


def last_words(messages: IO[bytes], program: str, status: int) -> str:
    """What a program said last into a file, in one line, or how it ended if it said nothing."""
    messages.seek(0, 2)
    messages.seek(max(0, messages.tell() - _MOST_WORDS))
    lines = messages.read().decode("utf-8", "surrogateescape").splitlines()
    how = f"was ended by signal {-status}" if status < 0 else f"ended with status {status}"
    return "; ".join(line.strip() for line in lines if line.strip()) or f"{program} {how}"


@contextlib.contextmanager
def _signals_wait() -> Iterator[None]:
    """Has signals that end a command wait for the end of what is inside. They only come to the main thread.

    They aren't blocked: the process that is started would have them blocked too.
    """
    waiting: list[int] = []
    before = {number: signal.getsignal(number) for number in ENDING}
    if threading.current_thread() is not threading.main_thread():
        before.clear()
    try:
        for number, handler in before.items():
            if handler not in (None, signal.SIG_IGN):
                signal.signal(number, lambda found, _: waiting.append(found))
        yield
    finally:
        for number, handler in before.items():
            if handler not in (None, signal.SIG_IGN):
                signal.signal(number, handler)
        for found in waiting:
            signal.raise_signal(found)


def _limit(process: int, limits: Mapping[int, int]) -> None:
    with contextlib.suppress(ProcessLookupError):  # it may have ended
        for limit, most in limits.items():
            hard = resource.prlimit(process, limit)[1]
            resource.prlimit(process, limit, (most if hard == resource.RLIM_INFINITY else min(most, hard), hard))


def _end(process: "subprocess.Popen[bytes]", end: signal.Signals) -> None:
    process.send_signal(end)  # nothing, if it was waited for
    for stream in (process.stdin, process.stdout, process.stderr):
        if stream is not None:
            with contextlib.suppress(BrokenPipeError):
                stream.close()
    process.wait()
