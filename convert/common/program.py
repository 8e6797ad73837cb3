"""The proved program, run on manifests."""

import contextlib
import os
import shlex
import shutil
import signal
import subprocess
import sys
from collections.abc import Iterable, Sequence
from pathlib import Path
from typing import IO

from .faults import FAULTY, OTHER, Fault, ReadFault, UsageFault, reading, writing
from .huge_pages import with_huge_pages
from .processes import running
from .progress import Progress, detail

NAME = "ovl_layers"
_HERE = Path(__file__).resolve().parents[2]
_BUILT = _HERE / "crates" / NAME / "out" / NAME  # in the repository
_UNPROVED = _BUILT.parent / "unproved" / NAME
_LAUNCHER = _HERE / NAME
_SMALLEST = _HERE / "examples" / "root.json"
_INSTALLED = _HERE.parents[1] / "bin" / NAME  # of PREFIX/lib/ovl_layers, where `install` puts this converter
# The option of each command that reads contents.
_WORDS_ON_CONTENTS: tuple[str, ...] = ("--any-size",)
_LAST_BYTES = 4_096
_FAULT, _FAULT_OF_CONTENTS = "fault ", "fault blob-"  # how lines of a report begin


class Refused(Fault):
    """The program ended with this status, and has said why."""

    def __init__(self, text: str, status: int) -> None:
        super().__init__(text)
        self.status = status


# Whether commands run the program that is compiled without proofs.
_is_unproved = False


def choose_program(unproved: bool) -> None:
    """Has the commands of this process run the proved program, or the one that is compiled without proofs."""
    global _is_unproved
    _is_unproved = unproved
    if unproved and not _LAUNCHER.is_file():
        raise UsageFault(f"--unproved is for a checkout of the repository; here {NAME} is installed")


def find_program() -> str | None:
    """The built program: beside this converter, or on the PATH."""
    places = [_BUILT] + ([_INSTALLED] if _HERE.parts[-2:] == ("lib", NAME) else [])
    for place in [_UNPROVED] if _is_unproved else places:
        if place.is_file() and os.access(place, os.X_OK):
            return str(place)
    found = None if _is_unproved else shutil.which(NAME)
    return None if found is None else os.path.abspath(found)


def require_program(given: Iterable[str]) -> str:
    """The same. In a checkout it is built first if it must be, once all paths that are given are there."""
    if _is_unproved or find_program() is None and _LAUNCHER.is_file():
        for path in given:
            with reading(path):
                os.stat(path)
        _launch(*["--unproved"] * _is_unproved)
    program = find_program()
    if program is None:
        raise ReadFault(f"the program {NAME} is neither beside this one nor on the PATH; install it")
    return program


def _launch(*words: str) -> None:
    """Has the launcher prove and build the program, or compile it; it says on standard error how long that takes."""
    command = [str(_LAUNCHER), *words, "show", str(_SMALLEST)]
    # (asked to end, it keeps what is proved)
    with running(command, stderr=None, end=signal.SIGTERM) as launcher:
        status = launcher.wait()
    if status != 0:
        raise ReadFault(f"the program {NAME} isn't built: {_LAUNCHER} ended with status {status}")


def makes_layers(what: str) -> bool:
    """Whether a command writes new layers into a folder."""
    return what not in ("show", "fsck")


def words_of(
    what: str, layers: Sequence[str], blobs: str, out: str, data_layers: int = 0, own: Sequence[str] = (),
) -> list[str]:
    """A command of the program with its own words, and the folders, which are given to those that take them."""
    words = [what, *own]
    if data_layers:
        words += ["--data-layers", str(data_layers)]
    if what != "show":
        words += [*_WORDS_ON_CONTENTS, "--blobs", word_of_path(blobs)]
    if makes_layers(what):
        words += ["--out", word_of_path(out)]
    return [*words, *map(word_of_path, layers)]


def word_of_path(path: str) -> str:
    """A path as a word that isn't taken for an option."""
    return f"./{path}" if path.startswith("-") else path


def run_program(program: str, words: Sequence[str], folder: str, report: str, faults: IO[str] | None) -> str:
    """Runs it in a folder, with its report into a new file there. Gives the report's last line, which sums it up.

    What it refuses is printed as it is: its own words, or the report, among the faults, if it has any. With no place for
    faults the report keeps them, and they refuse nothing.
    """
    status, messages = try_program(program, words, folder, report, Progress(f"{NAME} {words[0]}"))
    print(messages, end="", file=sys.stderr)
    report = f"{folder}/{report}"
    if status == FAULTY:
        if faults is None:
            return _last_line(report)
        _copy(report, faults)
    if status < 0:
        raise Refused(f"{NAME} {words[0]} was ended by signal {-status}; nothing is written", OTHER)
    if status > 0:
        first = _first_fault(report) if status == FAULTY else ""
        raise Refused(f"{NAME} {words[0]} ended with status {status}; nothing is written{first}", status)
    return _last_line(report)


def try_program(program: str, words: Sequence[str], folder: str, report: str, progress: Progress) -> tuple[int, str]:
    """Runs it so, whatever comes of that. Gives its status and what it says."""
    report, command = f"{folder}/{report}", [program, *words]
    detail(f"runs {shlex.join(command)}")
    with (
        writing(report), open(report, "xb") as file,
        running(
            command, stdout=file, stderr=subprocess.PIPE, folder=folder, environment=with_huge_pages(os.environ),
        ) as process,
    ):
        messages = _messages(process, progress)
    return process.returncode, messages.decode("utf-8", "replace")


def _messages(process: "subprocess.Popen[bytes]", progress: Progress) -> bytes:
    """All that a process prints as messages, while the progress says how long it takes."""
    try:
        while True:
            with contextlib.suppress(subprocess.TimeoutExpired):
                return process.communicate(timeout=progress.seconds())[1]
            progress.step(0)
    finally:
        progress.end()


def _first_fault(report: str) -> str:
    """What is said of the first fault in a report, if there is one. Most are of layers that stand in another order."""
    with reading(report), open(report, encoding="ascii", errors="backslashreplace") as file:
        fault = next((line.strip() for line in file if line.startswith(_FAULT)), None)
    if fault is None:
        return ""
    is_of_layers = not fault.startswith(_FAULT_OF_CONTENTS)
    return f"; the first fault is: {fault.removeprefix(_FAULT)}" + " (is the topmost layer first?)" * is_of_layers


def _copy(report: str, out: IO[str]) -> None:
    with reading(report), open(report, encoding="ascii", errors="backslashreplace", newline="") as file:
        shutil.copyfileobj(file, out)
    out.flush()


def _last_line(report: str) -> str:
    with reading(report), open(report, "rb") as file:
        file.seek(max(0, os.path.getsize(report) - _LAST_BYTES))
        return file.read().decode("ascii", "backslashreplace").rstrip("\n").rpartition("\n")[2]
