"""What the kernel's overlayfs shows, what is scanned of its layers, and what the program shows of that."""

import os
import shutil
import subprocess
import sys
import unittest
from pathlib import Path

from support import FolderTest, program_words, why_no_trusted

STACKS = 50
STACKS_OVER_DATA = 30
SEED = 1
_SCRIPT = Path(__file__).with_name("kernel_stacks.py")
IN_A_NAMESPACE = ["unshare", "--mount", "--propagation", "private"]
_PROBE = """
mkdir l d u w m && mount -t tmpfs layers-test u && mkdir u/u u/w &&
mount -t overlay -o lowerdir=$1,upperdir=u/u,workdir=u/w,redirect_dir=on,metacopy=on layers-test m
"""


def why_no_overlay(folder: str, lower: str) -> str | None:
    """Why no overlay with these lower layers can be mounted here, or nothing if one can."""
    reason = why_no_trusted(folder)
    if reason:
        return reason
    if shutil.which("unshare") is None or shutil.which("mount") is None:
        return "needs the programs unshare and mount"
    probe = os.path.join(folder, "probe")
    os.mkdir(probe)
    result = subprocess.run(
        [*IN_A_NAMESPACE, "sh", "-c", _PROBE, "sh", lower], cwd=probe, capture_output=True, text=True, check=False
    )
    shutil.rmtree(probe)
    return None if result.returncode == 0 else f"no overlay of {lower} can be mounted: {result.stderr.strip()}"


class Kernel(FolderTest):
    """Stacks made by mounting an overlay and working in it."""

    def test_stacks(self) -> None:
        self.require_equal_trees("plain", STACKS, "l")

    def test_stacks_over_data_only_layers(self) -> None:
        self.require_equal_trees("data-only", STACKS_OVER_DATA, "l::d")

    def require_equal_trees(self, kind: str, count: int, lower: str) -> None:
        reason = why_no_overlay(self.folder, lower)
        if reason:
            self.skipTest(reason)
        program = program_words()
        if not program:
            print("\nnot compared with ovl_layers, which isn't built", file=sys.stderr)
        result = subprocess.run(
            [*IN_A_NAMESPACE, sys.executable, "-B", str(_SCRIPT), kind, self.folder, str(SEED), str(count), *program],
            capture_output=True, text=True, check=False,
        )
        self.assertEqual(result.returncode, 0, result.stdout[-5_000:] + result.stderr[-5_000:])
        self.require_nothing_left()


if __name__ == "__main__":
    unittest.main()
