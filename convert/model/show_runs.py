"""What layers show, by the proved program: of long manifests part by part, so that it holds few entries at a time."""

import os
import shutil
import sys
from collections.abc import Sequence

from ..common.faults import writing
from ..common.program import NAME, run_program, try_program, words_of
from ..common.progress import Progress
from . import stacks
from .parts import NotCut, are_long, parts_of
from .show_report import append_lines, last_line

_SHOW = "show"
_PARTS = "parts"
_REPORT = f"{_PARTS}/report"
_JOINED = f"{_PARTS}/joined"


def run_show(program: str, layers: Sequence[str], folder: str, report: str, data_layers: int = 0) -> str:
    """Writes the report into a new file in a folder, from which the paths of the manifests count. Gives its last line.

    If not all parts can be had, or the program refuses one, all is shown at once: so a fault is that of the whole.
    """
    manifests = [os.path.join(folder, layer) for layer in layers]
    if are_long(manifests):
        try:
            with writing(f"{folder}/{_PARTS}"):
                os.mkdir(f"{folder}/{_PARTS}")
            count = _show_parts(program, manifests, folder, data_layers)
            if count is not None:
                with writing(f"{folder}/{report}"):
                    os.rename(f"{folder}/{_JOINED}", f"{folder}/{report}")
                return last_line(count).removesuffix("\n")
        finally:
            shutil.rmtree(f"{folder}/{_PARTS}", ignore_errors=True)
    return run_program(program, words_of(_SHOW, layers, "", "", data_layers), folder, report, sys.stderr)


def _show_parts(program: str, manifests: Sequence[str], folder: str, data_layers: int) -> int | None:
    """Writes the report of the parts; gives how many lines it has, or nothing."""
    words = words_of(_SHOW, stacks.layer_paths(_PARTS, len(manifests)), "", "", data_layers)
    progress, count = Progress(f"{NAME} {_SHOW}"), 0
    joined, report = f"{folder}/{_JOINED}", f"{folder}/{_REPORT}"
    with writing(joined), open(joined, "xb") as out:
        try:
            for way in parts_of(manifests, f"{folder}/{_PARTS}"):
                if try_program(program, words, folder, _REPORT, progress)[0] != 0:
                    return None
                count += append_lines(report, way, out)
                os.unlink(report)
        except NotCut:
            return None
        out.write(last_line(count).encode())
    return count
