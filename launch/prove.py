"""Proves the crates of the program side by side, builds it, and then runs it with the given words.

What doesn't depend on one another is proved at the same time, the longest chain first. If that can't be done, the
status is 126. An interrupt leaves what was proved.
"""

from __future__ import annotations

import contextlib
import fcntl
import os
import re
import signal
import subprocess
import sys
import time
from dataclasses import dataclass
from pathlib import Path
from typing import Iterator

from copies import Copies
from crates import PROGRAM, Crate, crates_of
from forecast import Forecast
from messages import as_time, fail, say, seconds_so_far, so_far
from proof import keep

_ROOT = Path(__file__).resolve().parents[1]
_BUILT = _ROOT / "crates" / PROGRAM / "out" / PROGRAM
_SMALLEST = _ROOT / "examples" / "root.json"
_MEMORY = 3_000_000_000  # bytes that a proof takes, or a job of one, some
_JOBS = 4  # of which a proof gains
_BESIDE = 10  # how much nicer a proof is that isn't of the longest chain
_LOOK = 0.1  # seconds


# The signals that came, which wait until nothing is half done.
_came: list[int] = []


class Interrupted(Exception):
    """A signal ends the launcher."""


@dataclass
class Proof:
    """A crate that is being proved: by which process, since when, and where that says what."""

    process: subprocess.Popen[bytes]
    begun: float
    said: Path


class Proofs:
    """All proofs of a build."""

    def __init__(self, crates: dict[str, Crate], copies: Copies, held: list[int], forecast: Forecast | None) -> None:
        self._crates = crates
        self._forecast = forecast
        self._copies = copies
        self._held = held
        self._kit = kit()
        self._places = places(len(os.sched_getaffinity(0)))
        self._running: dict[str, Proof] = {}
        self._left = dict(crates)
        self._failed = False

    def run(self) -> bool:
        """Proves all, or as many as can be; true if all are proved."""
        say(f"proving and building the program: {len(self._left)} crates, at most {self._places} at a time")
        try:
            while self._start() or self._running:
                look_for_signals()
                self._look()
        finally:
            self._stop()
        return not self._left

    def _start(self) -> bool:
        """Starts what can be proved now, the longest chain first; true if there was any."""
        ready = [] if self._failed else self._ready()
        started = ready[: self._places - len(self._running)]
        count = len(self._running) + len(started)
        for crate in started:
            self._running[crate.name] = self._proof(crate, count)
        return bool(started)

    def _ready(self) -> list[Crate]:
        waiting = (it for it in self._left.values() if it.name not in self._running)
        ready = (it for it in waiting if not any(below in self._left for below in it.below))
        return sorted(ready, key=lambda it: -it.chain)

    def _proof(self, crate: Crate, count: int) -> Proof:
        """Starts the proof of a crate, one of `count` that run."""
        folder = self._copies.make(crate.name)
        said = folder.parents[1] / "said"
        longest = all(self._crates[it].chain <= crate.chain for it in self._running)
        jobs = jobs_of(self._places, count, longest)
        words = ["rt", "run"] if crate.name == PROGRAM else ["rt", "lib", "--jobs", str(jobs)]
        with said.open("wb") as file, _SMALLEST.open("rb") as layer:
            process = subprocess.Popen(
                words,
                cwd=folder,
                stdin=layer,
                stdout=file,
                stderr=subprocess.STDOUT,
                pass_fds=self._held,
                preexec_fn=lambda: os.nice(0 if longest else _BESIDE),
            )
        return Proof(process, time.monotonic(), said)

    def _look(self) -> None:
        """Takes notice of proofs that have ended."""
        for name, proof in list(self._running.items()):
            status = proof.process.poll()
            if status is None or _came:
                continue
            del self._running[name]
            said = proof.said.read_text(encoding="utf-8", errors="backslashreplace")
            if status != 0:
                self._report_failed(name, said, status)
            self._copies.take_back(name)
            if status == 0:
                keep(_ROOT, name, said, self._kit)
                self._report_proved(name, proof)

    def _report_proved(self, name: str, proof: Proof) -> None:
        del self._left[name]
        now = time.monotonic()
        took, left = as_time(now - proof.begun), len(self._left)
        if self._forecast:
            self._forecast.add(self._crates[name], now - proof.begun)
        minutes = self._forecast and self._forecast.minutes(self._left.values(), seconds_so_far())
        about = f", some {minutes} min" if left and minutes else ""
        say(f"{name} is proved, in {took}; {left} left{about}, {so_far()} so far")

    def _report_failed(self, name: str, said: str, status: int) -> None:
        self._failed = True
        sys.stderr.write(said)
        say(f"{name} is not proved: rt ended with status {status}")
        if self._running:
            say(f"waiting for {', '.join(self._running)}, to keep what is proved of it")

    def _stop(self) -> None:
        """Ends what still runs, and keeps what it has proved."""
        for proof in self._running.values():
            proof.process.terminate()
        for name, proof in self._running.items():
            proof.process.wait()
            self._copies.take_back(name)


def kit() -> str:
    """The line by which the kit names itself; empty if it doesn't."""
    printed = subprocess.run(["rt", "version"], stdin=subprocess.DEVNULL, stdout=subprocess.PIPE, text=True, check=False)
    return printed.stdout.strip()


def places(processors: int) -> int:
    """How many proofs run at a time."""
    text = Path("/proc/meminfo").read_text(encoding="ascii")
    found = re.search(r"^MemAvailable: *(\d+) kB$", text, re.MULTILINE)
    free = int(found[1]) * 1024 if found else _MEMORY
    return max(min(processors, free // _MEMORY), 1)


def jobs_of(places: int, count: int, longest: bool) -> int:
    """How many jobs a proof gets that is one of `count`: its share, or two if it is of the longest chain.

    Each job reads the whole crate first, so more jobs than processors cost more than they gain.
    """
    share = max(places // count, 1)
    return min(2 * share if longest else share, places, _JOBS)


def look_for_signals() -> None:
    """Waits a little, and ends the work if a signal came."""
    time.sleep(_LOOK)
    if _came:
        raise Interrupted


@contextlib.contextmanager
def alone(crates: dict[str, Crate]) -> Iterator[list[int]]:
    """Keeps other launchers out of the crates' folders, and `rt`, which locks them by the same means in this order."""
    held: list[int] = []
    with contextlib.ExitStack() as stack:
        for folder in sorted(os.path.realpath(_ROOT / "crates" / name) for name in crates):
            file = os.open(folder, os.O_RDONLY | os.O_DIRECTORY)
            stack.callback(os.close, file)
            _lock(file, folder)
            held.append(file)
        yield held


def _lock(file: int, folder: str) -> None:
    is_waiting = False
    while True:
        try:
            fcntl.flock(file, fcntl.LOCK_EX | fcntl.LOCK_NB)
            return
        except BlockingIOError:
            if not is_waiting:
                say(f"waiting for another ./ovl_layers or rt, which is at work in {folder}")
            is_waiting = True
            look_for_signals()


def build(crates: dict[str, Crate]) -> None:
    """Builds the program, or has it built by the launcher that was waited for."""
    was = _made_at()
    with alone(crates) as held:
        if _made_at() != was:
            return
        is_first = not any((_ROOT / "crates").glob("*/out/rlib"))
        report_what_it_takes(is_first)
        # The program counts as old as the start of its build, so a source edited meanwhile is newer.
        begun = time.time_ns()
        copies = Copies(_ROOT, crates)
        try:
            if not Proofs(crates, copies, held, Forecast() if is_first else None).run():
                fail("the program could not be built")
        finally:
            copies.end()
        os.utime(_BUILT, ns=(begun, begun))


def report_what_it_takes(is_first: bool) -> None:
    """Says how long the build may take."""
    if not is_first:
        say("what has changed since the last build is proved anew, which takes minutes or longer.")
        return
    say("nothing was proved here before: this takes some 75 minutes of processor time, 25 to 40 minutes on 4 processors.")
    say("meanwhile, with --unproved as the first word, ./layers and ./ovl_layers run the program without proofs.")


def _made_at() -> int:
    try:
        return _BUILT.stat().st_mtime_ns
    except FileNotFoundError:
        return 0


def main(words: list[str]) -> None:
    """Builds and runs."""
    for number in (signal.SIGINT, signal.SIGTERM, signal.SIGHUP):
        signal.signal(number, lambda it, _: _came.append(it))
    try:
        build(crates_of(_ROOT))
    except Interrupted:
        say("interrupted; what was proved is kept")
        signal.signal(_came[0], signal.SIG_DFL)
        os.kill(os.getpid(), _came[0])
    except OSError as error:
        fail(f"the program could not be built: {error}")
    os.execv(_BUILT, [str(_BUILT), *words])


if __name__ == "__main__":
    main(sys.argv[1:])
