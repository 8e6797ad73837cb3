"""Compiles the program without proofs, keeps it beside the place of the proved one, and runs it with the given words.

`rt try` compiles a program, runs it, and keeps nothing. So it runs here on a layer that waits, and while it does, the
launcher takes a copy of it. If that can't be done, the status is 126.
"""

from __future__ import annotations

import errno
import os
import shutil
import signal
import subprocess
import sys
import tempfile
import time
from pathlib import Path

from crates import PROGRAM
from messages import fail, say

_ROOT = Path(__file__).resolve().parents[1]
_CRATE = _ROOT / "crates" / PROGRAM
_KEPT = _CRATE / "out" / "unproved" / PROGRAM
_LAYER = _ROOT / "examples" / "root.json"
_REPORT = _ROOT / "examples" / "root.show"
_LOOK = 0.05  # seconds


def compile_unproved(room: Path, crate: Path = _CRATE) -> Path:
    """Has `rt try` compile the program of a crate, in a folder, and gives a copy of what it made."""
    waiting, work = room / "layer", room / "work"
    os.mkfifo(waiting)
    work.mkdir()
    said, shown = room / "said", room / "shown"
    with said.open("wb") as err, shown.open("wb") as out, subprocess.Popen(
        ["rt", "try", "--", "show", str(waiting)],
        cwd=crate, stdin=subprocess.DEVNULL, stdout=out, stderr=err, env={**os.environ, "TMPDIR": str(work)},
    ) as rt:
        try:
            layer = _once_read(waiting, rt)
            program = _copy_program(work, room) if layer else None
            if layer:
                os.write(layer, _LAYER.read_bytes())
                os.close(layer)
            status = rt.wait()
        except BaseException:
            rt.terminate()
            raise
    if program is None or status != 0 or shown.read_bytes() != _REPORT.read_bytes():
        sys.stderr.write(said.read_text(encoding="utf-8", errors="backslashreplace"))
        fail(f"the program could not be compiled: rt try ended with status {status}")
    return program


def _once_read(waiting: Path, rt: subprocess.Popen[bytes]) -> int | None:
    """Opens the layer for writing once the program reads it; nothing if `rt` ends before."""
    while rt.poll() is None:
        try:
            layer = os.open(waiting, os.O_WRONLY | os.O_NONBLOCK)
        except OSError as error:
            if error.errno != errno.ENXIO:
                raise
            time.sleep(_LOOK)
        else:
            os.set_blocking(layer, True)
            return layer
    return None


def _copy_program(work: Path, room: Path) -> Path | None:
    """Copies the program that `rt try` runs: the one file below its folder that can be run."""
    found = [it for it in work.rglob("*") if it.is_file() and os.access(it, os.X_OK)]
    return Path(shutil.copy(found[0], room / PROGRAM)) if len(found) == 1 else None


def keep(program: Path, begun: int) -> None:
    """Keeps the program, as old as the start of its compilation, so that a source edited meanwhile is newer."""
    _KEPT.parent.mkdir(parents=True, exist_ok=True)
    with tempfile.TemporaryDirectory(dir=_KEPT.parent) as room:
        new = Path(shutil.move(str(program), room))
        new.chmod(0o755)
        os.utime(new, ns=(begun, begun))
        new.replace(_KEPT)


def main(words: list[str]) -> None:
    """Compiles, keeps and runs."""
    for number in (signal.SIGINT, signal.SIGTERM, signal.SIGHUP):
        signal.signal(number, lambda it, _: sys.exit(128 + it))
    say("unproved: compiling it takes a minute and a half; later runs begin at once")
    begun = time.time_ns()
    try:
        with tempfile.TemporaryDirectory(prefix=f"{PROGRAM}-") as room:
            keep(compile_unproved(Path(room)), begun)
    except OSError as error:
        fail(f"the program could not be compiled: {error}")
    os.execv(_KEPT, [str(_KEPT), *words])


if __name__ == "__main__":
    main(sys.argv[1:])
