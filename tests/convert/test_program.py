"""How the proved program is found, and built where it is missing, with a stand-in for the launcher."""

import contextlib
import io
import os
import signal
import subprocess
import sys
from pathlib import Path
from unittest import mock

from support import ROOT, FolderTest, call

from convert.common import program
from convert.common.faults import ReadFault, UsageFault

# Notes its words, and makes the program, or the unproved one, unless it is to fail.
_LAUNCHER = """#!/bin/sh
echo "$*" >> {folder}/asked
[ -e {folder}/fails ] && echo "ovl_layers: a proof is open" >&2 && exit 126
made={folder}/ovl_layers.proved
[ "$1" = --unproved ] && made={folder}/ovl_layers.unproved
printf '#!/bin/sh\\n' > "$made"
chmod +x "$made"
"""
# Waits for a signal, and says that it came.
_WAITS = """#!/bin/sh
trap 'echo ended > {folder}/ended; exit 143' TERM
echo $$ > {folder}/begun
while :; do sleep 0.05; done
"""
_AS_A_COMMAND = """
import sys
sys.path.insert(0, sys.argv[1])
from pathlib import Path
from convert.cli import main
from convert.common import program
program._LAUNCHER, program._BUILT, program._UNPROVED = (Path(sys.argv[2], name) for name in ("launcher", "p", "u"))
sys.exit(main(sys.argv[3:]))
"""


class ProgramTest(FolderTest):
    """A checkout with a stand-in for the launcher, and no program on the PATH."""

    def setUp(self) -> None:
        super().setUp()
        self.proved, self.unproved = self.path("ovl_layers.proved"), self.path("ovl_layers.unproved")
        for name, path in (("_LAUNCHER", "launcher"), ("_BUILT", self.proved), ("_UNPROVED", self.unproved)):
            self.enterContext(mock.patch.object(program, name, Path(self.path(path))))
        self.enterContext(mock.patch("shutil.which", return_value=None))
        self.addCleanup(program.choose_program, False)

    def put_launcher(self, text: str = _LAUNCHER) -> None:
        """The launcher is there, and does this."""
        with open(self.path("launcher"), "w", encoding="utf-8") as file:
            file.write(text.format(folder=self.folder))
        os.chmod(self.path("launcher"), 0o755)

    def asked(self) -> list[str]:
        """What the launcher was asked for."""
        asked = Path(self.path("asked"))
        return asked.read_text(encoding="utf-8").splitlines() if asked.exists() else []

    def test_proved(self) -> None:
        self.put_launcher()
        layer = ROOT / "examples" / "root.json"
        for _ in range(2):
            self.assertEqual(program.require_program([str(ROOT / "README.md")]), self.proved)
        self.assertEqual(self.asked(), [f"show {layer}"], "it is built once")

    def test_unproved(self) -> None:
        self.put_launcher()
        program.choose_program(unproved=True)
        layer = ROOT / "examples" / "root.json"
        for _ in range(2):
            self.assertEqual(program.require_program([str(ROOT / "README.md")]), self.unproved)
        self.assertEqual(self.asked(), [f"--unproved show {layer}"] * 2, "the launcher says it at each run")
        program.choose_program(unproved=False)
        self.assertEqual(program.require_program([str(ROOT / "README.md")]), self.proved, "the other one is never taken for it")

    def test_that_is_not_built(self) -> None:
        with self.assertRaisesRegex(ReadFault, "neither beside this one nor on the PATH; install it"):
            program.require_program([str(ROOT / "README.md")])
        with self.assertRaisesRegex(UsageFault, "--unproved is for a checkout"):
            program.choose_program(unproved=True)
        self.put_launcher()
        Path(self.path("fails")).touch()
        program.choose_program(unproved=False)
        with contextlib.redirect_stderr(io.StringIO()), self.assertRaisesRegex(ReadFault, "ended with status 126"):
            program.require_program([str(ROOT / "README.md")])

    def test_words(self) -> None:
        self.put_launcher()
        self.require_done(call("--unproved", "pack", "--help"))
        for words in (("flatten", "none", "--out", self.path("out")), ("sizes", "oci:none:x"), ("sizes", "--stack", "none")):
            self.require_fault(call("--unproved", *words), 3, "cannot read none")
        self.assertEqual(self.asked(), [], "nothing is compiled for a command that has nothing to read")

    def test_a_signal(self) -> None:
        """It is handed on to the launcher, which keeps what is proved."""
        self.put_launcher(_WAITS)
        command = subprocess.Popen(
            [sys.executable, "-B", "-c", _AS_A_COMMAND, str(ROOT), self.folder,
             "sizes", str(ROOT / "examples" / "image")],
            env={**os.environ, "PATH": "/usr/bin:/bin"},
        )
        begun = Path(self.path("begun"))
        while not begun.exists() and command.poll() is None:
            pass
        command.send_signal(signal.SIGTERM)
        self.assertEqual(command.wait(timeout=60), 128 + signal.SIGTERM)
        self.assertEqual(Path(self.path("ended")).read_text(encoding="utf-8"), "ended\n")
