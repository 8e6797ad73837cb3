"""Every block of every document, run as it is written, and the commands of README's table of jobs.

The blocks of one document are run in their order, in a folder that has the repository's names as links, so that nothing
is written into the repository. The program is the one that is built, or what `LAYERS_TEST_PROGRAM` says.
"""

import json
import os
import re
import shlex
import shutil
import signal
import subprocess
import sys
import tempfile
import unittest
from pathlib import Path

from documents import KINDS, ROOT, Block, blocks_of, documents, lines_outside

sys.path.insert(0, str(ROOT))
sys.dont_write_bytecode = True

from convert.model.attributes import can_read_trusted  # noqa: E402

PROGRAM = ROOT / "crates" / "ovl_layers" / "out" / "ovl_layers"
UNPROVED = PROGRAM.parent / "unproved" / PROGRAM.name
BUILT = {"built": PROGRAM, "unproved": UNPROVED}
_SECONDS = 300
_CODE_IN_ROW = re.compile(r"^\| [^|]*\| [^|]*\| `(.*?)`", re.MULTILINE)
_SUDO = '#!/bin/sh\nexec "$@"\n'  # for a test that root runs
_RUN = '#!/bin/sh\nexec {} "$@"\n'
_RUN_EITHER = '#!/bin/sh\nif [ "$1" = --unproved ]; then shift; exec {} "$@"; fi\nexec {} "$@"\n'


def program_words() -> list[str]:
    """How the program is run; nothing if it can't be."""
    return shlex.split(os.environ.get("LAYERS_TEST_PROGRAM", str(PROGRAM) if PROGRAM.exists() else ""))


def is_current(program: Path) -> bool:
    """Whether a program is built, and no source is newer, so that the launcher doesn't build it."""
    if not program.exists():
        return False
    sources = (path for part in ("src", "specs", "proofs") for path in ROOT.glob(f"crates/*/{part}/**/*"))
    return all(path.stat().st_mtime <= program.stat().st_mtime for path in sources)


def why_not(needs: list[str]) -> str | None:
    """Why a block can't be run, or nothing if it can be."""
    for need in needs:
        if need == "root":
            missing = os.geteuid() != 0 or not can_read_trusted()
        elif need in BUILT:
            missing = not is_current(BUILT[need])
        else:
            missing = shutil.which(need) is None
        if missing:
            return f"needs {need}" + " program" * (need in BUILT)
    return None


class DocumentTest(unittest.TestCase):
    """A test in a folder that looks like the repository."""

    def setUp(self) -> None:
        if not program_words():
            self.skipTest("needs the built program")
        self.folder = Path(tempfile.mkdtemp(prefix="layers-docs-"))
        self.addCleanup(shutil.rmtree, self.folder)
        self.work, self.tools = self.folder / "work", self.folder / "bin"
        self.tools.mkdir()
        self._put("sudo", _SUDO)
        self._put("layers", _RUN.format(shlex.join([sys.executable, "-B", str(ROOT / "layers")])))
        self._put("ovl_layers", _RUN_EITHER.format(shlex.quote(str(UNPROVED)), shlex.join(program_words())))

    def _put(self, name: str, text: str) -> None:
        file = self.tools / name
        file.write_text(text, encoding="utf-8")
        file.chmod(0o755)

    def begin(self) -> None:
        """Makes the folder in which blocks are run, anew."""
        shutil.rmtree(self.work, ignore_errors=True)
        self.work.mkdir()
        for name in os.listdir(ROOT):
            os.symlink(self.tools / name if name == "ovl_layers" else ROOT / name, self.work / name)

    def run_lines(self, text: str) -> "subprocess.CompletedProcess[str]":
        """Runs lines of a shell there."""
        with subprocess.Popen(
            ["bash", "-euo", "pipefail", "-c", text], cwd=self.work, stdin=subprocess.DEVNULL,
            stdout=subprocess.PIPE, stderr=subprocess.STDOUT, text=True, start_new_session=True,
            env={**os.environ, "PATH": f"{self.tools}:{os.environ['PATH']}", "HOME": str(self.folder)},
        ) as shell:
            try:
                printed = shell.communicate(timeout=_SECONDS)[0]
            except BaseException:
                os.killpg(shell.pid, signal.SIGKILL)
                raise
        return subprocess.CompletedProcess(text, shell.returncode, printed)


class Blocks(DocumentTest):
    """The documents' blocks."""

    def test_that_each_is_fenced(self) -> None:
        for document in documents():
            outside = "\n".join(lines_outside(document))
            self.assertNotRegex(outside, r"\n\n {4}\S", f"a block of {document} isn't fenced")

    def test_all(self) -> None:
        for document in documents():
            self.begin()
            printed: str | None = None
            for block in blocks_of(document):
                with self.subTest(block.place):
                    self.assertIn(block.kind, KINDS, "a block says what it is")
                    for need in block.needs:
                        self.assertRegex(need, r"^[\w.+-]+$", "a need is a word")
                    if block.kind == "sh":
                        printed = None
                        printed = self._run(block)
                    elif block.kind == "output":
                        self._require_printed(block, printed)
                    elif block.kind == "json":
                        json.loads(block.text)

    def _run(self, block: Block) -> str:
        reason = block.notes.get("skip") or why_not(block.needs)
        if reason:
            self.skipTest(f"{block.place}: {reason}")
        ran = self.run_lines(block.text)
        self.assertEqual(ran.returncode, block.status, ran.stdout)
        return ran.stdout

    def _require_printed(self, block: Block, printed: str | None) -> None:
        """The lines of a block are printed, in their order."""
        if printed is None:
            self.skipTest(f"{block.place}: what prints it isn't run")
        left = iter(printed.splitlines())
        for line in block.text.splitlines():
            self.assertIn(line, left, printed)


class Jobs(DocumentTest):
    """The commands of README's table of jobs, on small files of the names that they have."""

    def setUp(self) -> None:
        super().setUp()
        self.begin()
        made = self.run_lines(
            "layers unpack examples/image --out given\n"
            "layers pack given/l?.json --blobs given/blobs --config given/config.json --out shop.tar\n"
            "layers pack given/l2.json --blobs given/blobs --config given/config.json --out base.tar\n"
            "layers pack given/l?.json --blobs given/blobs --config given/config.json --platform linux/arm64 --out shop\n"
            "layers pack given/l1.json given/l2.json --blobs given/blobs --config given/config.json --out old.tar\n"
        )
        self.assertEqual(made.returncode, 0, made.stdout)

    def commands(self, part: str, least: int) -> list[str]:
        """The commands that have this part, at least so many."""
        text = (ROOT / "README.md").read_text(encoding="utf-8")
        found = [command.replace("\\|", "|") for command in _CODE_IN_ROW.findall(text) if re.search(part, command)]
        self.assertGreaterEqual(len(found), least)
        return found

    def require_done(self, command: str, status: int = 0) -> None:
        """Runs a command, and takes away what it wrote."""
        with self.subTest(command):
            ran = self.run_lines(command)
            self.assertEqual(ran.returncode, status, ran.stdout)
            self.run_lines("rm -rf s flat flat.tar new new.squashfs")

    def test_images(self) -> None:
        """Two of them find what they look for, and end with 1."""
        for command in self.commands(r"^layers .*\bshop\b", 7):
            self.require_done(command, status=1 if re.search(r"--max-waste| diff ", command) else 0)

    def test_stacks(self) -> None:
        reason = why_not(["root", "sqfs2tar", "tar2sqfs"])
        if reason:
            self.skipTest(reason)
        made = self.run_lines(
            "mkdir overlay\n"
            "layers build given/l0.json --blobs given/blobs --out upper\n"
            "layers build given/l2.json --blobs given/blobs --out filesystem.squashfs\n"
            "cp -a upper overlay\n"
            "cp filesystem.squashfs rom.squashfs\n"
        )
        self.assertEqual(made.returncode, 0, made.stdout)
        for command in self.commands("--stack", 2):
            self.require_done(command)


if __name__ == "__main__":
    unittest.main()
