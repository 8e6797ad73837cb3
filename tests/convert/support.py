"""What the tests share: the modules' path, temporary folders, and calls of the command."""

import contextlib
import io
import json
import os
import shutil
import signal
import subprocess
import sys
import tempfile
import time
import unittest
from pathlib import Path

ROOT = Path(__file__).resolve().parents[2]
COMMAND = ROOT / "layers"
ROOT_LAYER = ROOT / "examples" / "root.json"  # a layer of only a root
PROGRAM = ROOT / "crates" / "ovl_layers" / "out" / "ovl_layers"
sys.path.insert(0, str(ROOT))
sys.dont_write_bytecode = True

from convert import cli as command  # noqa: E402
from convert.common import progress  # noqa: E402
from convert.image import ahead  # noqa: E402
from convert.model.attributes import can_read_trusted  # noqa: E402

signal.signal(signal.SIGHUP, signal.SIG_DFL)  # tests send it, and nohup has it ignored
progress._EVERY_LINE = 1_000_000.0  # so that on a slow machine no step prints lines that no test waits for

_SIDE_BY_SIDE = """
import sys
sys.path.insert(0, sys.argv[1])
from convert.cli import main
from convert.image import ahead
ahead.LEAST_BYTES = 0
sys.exit(main(sys.argv[2:]))
"""
_COMMAND: list[str] = [sys.executable, "-B", str(COMMAND)]
IS_SIDE_BY_SIDE = "LAYERS_TEST_SIDE_BY_SIDE" in os.environ
if IS_SIDE_BY_SIDE:
    ahead.LEAST_BYTES = 0
    _COMMAND[2:] = ["-c", _SIDE_BY_SIDE, str(ROOT)]


def program_words() -> list[str]:
    """How the program is run: as it is built, or as `LAYERS_TEST_PROGRAM` says; nothing if it can't be."""
    return os.environ.get("LAYERS_TEST_PROGRAM", str(PROGRAM) if PROGRAM.exists() else "").split()


def call(*words: object) -> tuple[int, str, str]:
    """Runs the command in this process: status, standard output, standard error."""
    printed, messages = io.StringIO(), io.StringIO()
    with contextlib.redirect_stdout(printed), contextlib.redirect_stderr(messages):
        try:
            status = command.main([str(word) for word in words])
        except SystemExit as end:
            status = end.code if isinstance(end.code, int) else 1
    return status, printed.getvalue(), messages.getvalue()


def run(*words: object, **more: object) -> "subprocess.CompletedProcess[str]":
    """Runs the command in a process of its own."""
    done: subprocess.CompletedProcess[str] = subprocess.run(
        [*_COMMAND, *map(str, words)],
        capture_output=True, text=True, check=False, **more,  # type: ignore[call-overload]
    )
    return done


# (Python itself may be where only root can read, so all modules are imported before)
_AS_ANYBODY = """
import importlib, os, pkgutil, sys
sys.path.insert(0, sys.argv[1])
import convert
from convert.cli import main
for module in pkgutil.walk_packages(convert.__path__, "convert."):
    importlib.import_module(module.name)
if os.geteuid() == 0:
    os.setgid(65534)
    os.setuid(65534)
sys.exit(main(sys.argv[2:]))
"""


def run_as_anybody(*words: str) -> "subprocess.CompletedProcess[str]":
    """Runs the command as a user without rights."""
    return subprocess.run(
        [sys.executable, "-B", "-c", _AS_ANYBODY, str(ROOT), *words], capture_output=True, text=True, check=False
    )


def why_no_trusted(folder: str) -> str | None:
    """Why `trusted.*` attributes and devices can't be had in a folder, or nothing if they can."""
    if os.geteuid() != 0:
        return "needs root"
    if not can_read_trusted():
        return "needs CAP_SYS_ADMIN outside of a user namespace, for trusted.* attributes"
    probe = os.path.join(folder, "probe")
    try:
        with open(probe, "wb") as file:
            os.setxattr(file.fileno(), "trusted.overlay.opaque", b"y")
        os.mknod(probe + "-device", 0o20600, os.makedev(5, 1))
    except OSError as error:
        return f"the file system of {folder} or this machine doesn't let it: {error.strerror}"
    finally:
        for path in (probe, probe + "-device"):
            with contextlib.suppress(FileNotFoundError):
                os.unlink(path)
    return None


def left_stage(folder: str, age: int) -> str:
    """What a run leaves in a folder that was killed so many seconds ago."""
    name = f".layers-{age:016x}"
    path = os.path.join(folder, name)
    os.makedirs(os.path.join(path, "inner"))
    with open(os.path.join(path, "made-by"), "w", encoding="ascii") as mark:
        mark.write(f"{name} is the stage of a run of layers, process 1\n")
    os.utime(mark.name, (time.time() - age, time.time() - age))
    return path


def links(path: str) -> list[list[str]]:
    """The names in a file of links, those of one file together."""
    with open(path, encoding="utf-8") as file:
        names = json.load(file)["names"]
    return [[name for name in names if names[name] == number] for number in sorted(set(names.values()))]


class FolderTest(unittest.TestCase):
    """A test with a temporary folder, which is taken away whatever happens."""

    def setUp(self) -> None:
        self.folder = tempfile.mkdtemp(prefix="layers-test-")
        self.addCleanup(shutil.rmtree, self.folder)

    def path(self, *names: str) -> str:
        """A path in the folder."""
        return os.path.join(self.folder, *names)

    def require_done(self, result: tuple[int, str, str]) -> None:
        """The command ended well."""
        self.assertEqual(result[0], 0, result[2])

    def require_fault(self, result: tuple[int, str, str], status: int, *parts: str) -> None:
        """The command ended with a status and one fault line that has these parts."""
        self.assertEqual(result[0], status, result[2])
        self.assertTrue(result[2].startswith("layers: "), result[2])
        for part in parts:
            self.assertIn(part, result[2])

    def empty(self) -> None:
        """Takes away all that is in the folder."""
        for name in os.listdir(self.folder):
            path = self.path(name)
            if os.path.isdir(path) and not os.path.islink(path):
                shutil.rmtree(path)
            else:
                os.unlink(path)

    def require_nothing_left(self, *kept: str) -> None:
        """The folder holds nothing but these names."""
        self.assertEqual(sorted(os.listdir(self.folder)), sorted(kept))
