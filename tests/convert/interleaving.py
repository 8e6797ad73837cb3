"""What another user, or another run, does at one moment of a run of the command.

Moments are the calls of the system that Python reports to an audit hook: opening, listing, making, moving, removing and
dressing files. A hook can't be taken away, so there is one, and it does nothing while no run is watched.
"""

import os
import sys
from collections.abc import Callable

NOBODY = 65_534
MOVES = frozenset(["os.mkdir", "os.rename", "os.rmdir"])
WRITES = MOVES | {"open", "os.listdir", "os.link", "os.symlink", "os.remove", "os.chown", "os.chmod", "os.utime"}
READS = frozenset(["open", "os.listdir"])
_FIRST, _BETWEEN, _LAST = 3, 4, 9
_Run = Callable[[], tuple[int, str, str]]


class _Watch:
    """Counts the moments of a run, and acts at one."""

    def __init__(self) -> None:
        self._act: Callable[[], None] | None = None
        self._number = 0
        self._calls: frozenset[str] = WRITES
        self._is_at_work = False
        self._process = 0  # that runs: one that it starts, which has the hook too, hasn't its moments
        self.count = 0

    def hear(self, event: str, arguments: tuple[object, ...]) -> None:
        """The hook."""
        if self._act is None or self._is_at_work or event not in self._calls or os.getpid() != self._process:
            return
        if event == "open" and (str(arguments[0]).endswith((".py", ".pyc")) or not self._counts(arguments[2])):
            return
        self.count += 1
        if self.count == self._number:
            self._is_at_work = True
            try:
                self._act()
            finally:
                self._is_at_work = False

    def _counts(self, flags: object) -> bool:
        """Whether the opening of a file counts: of a run that writes, that of new files and of folders."""
        return self._calls is READS or bool(int(str(flags)) & (os.O_CREAT | os.O_DIRECTORY))

    def run(self, run: _Run, number: int, act: Callable[[], None], calls: frozenset[str]) -> tuple[int, str, str]:
        """Runs the command with an act before its moment of this number; the first one is 1."""
        self._act, self._number, self._calls, self.count = act, number, calls, 0
        self._process = os.getpid()
        try:
            return run()
        finally:
            self._act = None


_watch = _Watch()
sys.addaudithook(_watch.hear)


def moments(run: _Run, calls: frozenset[str] = WRITES) -> list[int]:
    """The moments of a run at which something is tried: the first and the last ones, when what is written is opened and
    moved into place, and some between. With `LAYERS_TEST_MOMENTS=all` it is all of them."""
    _watch.run(run, 0, lambda: None, calls)
    numbers = list(range(1, _watch.count + 1))
    if os.environ.get("LAYERS_TEST_MOMENTS") == "all" or len(numbers) <= _FIRST + _LAST:
        return numbers
    between = numbers[_FIRST:-_LAST]
    return numbers[:_FIRST] + between[::-(-len(between) // _BETWEEN)] + numbers[-_LAST:]


def run_with(run: _Run, number: int, act: Callable[[], None], calls: frozenset[str] = WRITES) -> tuple[int, str, str]:
    """Runs the command, and acts before its moment of this number."""
    return _watch.run(run, number, act, calls)


def as_nobody(act: Callable[[], None]) -> None:
    """Has a user without rights act, as far as it can."""
    process = os.fork()
    if process == 0:
        try:
            os.setgroups([])
            os.setgid(NOBODY)
            os.setuid(NOBODY)
            act()
        except OSError:
            pass
        finally:
            os._exit(0)
    os.waitpid(process, 0)
