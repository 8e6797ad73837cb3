"""The package and the archive: what is in them, that they are the same bytes each time, and what is refused."""

import hashlib
import os
import re
import shutil
import subprocess
import sys
import tarfile
import unittest
from pathlib import Path

sys.path.append(os.path.join(os.path.dirname(__file__), "..", "convert"))

from support import ROOT, FolderTest
from test_install import INSTALLED

from convert import VERSION

_TIME = "1700000000"
_LINE = "logic=proved functions=4 sum=0123"
_COPIED = ("man", "completions", "docs", "convert", "launch", "packaging", "examples")
_FILES = ("install", "package", "layers", "ovl_layers", "README.md")


def run(*words: str | Path, **more: str) -> "subprocess.CompletedProcess[str]":
    """Runs a program with more in its environment."""
    return subprocess.run(words, capture_output=True, text=True, check=False, env={**os.environ, **more})


class PackageTest(FolderTest):
    """A copy of the repository, whose program is a script that prints the version."""

    def setUp(self) -> None:
        super().setUp()
        if shutil.which("dpkg-deb") is None:
            self.skipTest("needs dpkg-deb")
        self.copy = Path(self.path("repository"))
        self.copy.mkdir()
        for name in _COPIED:
            shutil.copytree(ROOT / name, self.copy / name, ignore=shutil.ignore_patterns("__pycache__"))
        for name in _FILES:
            shutil.copy(ROOT / name, self.copy / name)
        (self.copy / "crates.txt").write_text("low: hex\novl_layers: low\n", encoding="ascii")
        for part in ("src", "specs", "proofs", "out/rlib"):
            for name in ("low", "ovl_layers"):
                (self.copy / "crates" / name / part).mkdir(parents=True)
        self.program = self.copy / "crates" / "ovl_layers" / "out" / "ovl_layers"
        self.put_program(f"#!/bin/sh\necho ovl_layers {VERSION}\n".encode())

    def out(self, name: str) -> Path:
        """The folder of what is built of a crate."""
        return self.copy / "crates" / name / "out"

    def put_program(self, text: bytes) -> None:
        """Puts a program there as `rt` does."""
        self.program.write_bytes(text)
        self.program.chmod(0o755)
        digest = hashlib.sha256(text).hexdigest()
        (self.out("ovl_layers") / "ovl_layers.stamp").write_text(f"0123{digest}\n", encoding="ascii")

    def package(self, *words: str) -> "subprocess.CompletedProcess[str]":
        """Packs it."""
        return run(self.copy / "package", *words, SOURCE_DATE_EPOCH=_TIME)

    def packed(self, out: str, *words: str) -> Path:
        """The file that is made in a new folder."""
        result = self.package(*words, self.path(out))
        self.assertEqual(result.returncode, 0, result.stderr)
        return Path(result.stdout.strip())


class Packing(PackageTest):
    """What is packed."""

    def test_the_package(self) -> None:
        for name, stamp in (("low", "low-stamp"), ("ovl_layers", "old")):
            (self.out("low") / "rlib" / "stamp").write_text("low-stamp", encoding="ascii")
            (self.out(name) / "proved").write_text(f"{stamp}\nkit-1 logic 0123\n{_LINE}\n", encoding="ascii")
        file = self.packed("first")
        os.utime(self.copy / "README.md")
        self.addCleanup(os.umask, os.umask(0o077))
        self.assertEqual(file.read_bytes(), self.packed("second").read_bytes())
        tree = Path(self.path("tree"))
        self.assertEqual(run("dpkg-deb", "-R", file, tree).returncode, 0)
        there = {str(path.relative_to(tree / "usr")) for path in (tree / "usr").rglob("*") if not path.is_dir()}
        moved = {re.sub(r"(\.1)$", r"\1.gz", name.replace("site-functions", "vendor-completions")) for name in INSTALLED}
        self.assertEqual(moved - there, set())
        self.assertEqual((tree / "usr/bin/ovl_layers").read_bytes(), self.program.read_bytes())
        self.assertIn("Depends: libc6, python3 (>= 3.11)\n", (tree / "DEBIAN/control").read_text(encoding="utf-8"))
        self.assertEqual({path.stat().st_mtime for path in (tree / "usr").rglob("*") if path.is_file()}, {float(_TIME)})
        digest = hashlib.sha256(self.program.read_bytes()).hexdigest()
        self.assertEqual((tree / "usr/share/doc/ovl-layers/proof").read_text(encoding="utf-8").splitlines(), [
            "Commit: unknown", "Time: 2023-11-14T22:13:20Z", "Kit: kit-1 logic 0123", f"SHA-256 of ovl_layers: {digest}", "",
            "The last line that the checker printed of each crate:", f"low: {_LINE}",
            "ovl_layers: the checker's line was not kept",
        ])

    def test_the_archive(self) -> None:
        file = self.packed("first", "--tar")
        self.assertEqual(file.read_bytes(), self.packed("second", "--tar").read_bytes())
        with tarfile.open(file) as archive:
            archive.extractall(self.path("tree"), filter="data")
        top = Path(self.path("tree", file.name.removesuffix(".tar.gz")))
        there = sorted(str(path.relative_to(top)) for path in top.rglob("*") if not path.is_dir())
        self.assertEqual(
            [name for name in there if not name.startswith("lib/")],
            sorted([*INSTALLED, "SHA256SUMS", "share/doc/ovl-layers/proof"]),
        )
        checked = subprocess.run(["sha256sum", "--quiet", "-c", "SHA256SUMS"], cwd=top, check=False)
        self.assertEqual(checked.returncode, 0)
        sums = (top / "SHA256SUMS").read_text(encoding="ascii").splitlines()
        self.assertEqual(sorted([*(line.split("  ")[1] for line in sums), "SHA256SUMS", "bin/layers"]), there)
        self.assertEqual(run(top / "bin" / "layers", "--version").stdout, f"layers {VERSION}\n")

    def test_faults(self) -> None:
        for words in (("-x",), ("a", "b"), ("--tar", "a", "b"), ("",)):
            self.assertEqual(self.package(*words).returncode, 2, words)
        self.assertEqual(self.package("--help").returncode, 0)
        Path(self.path("file")).touch()
        self.assertEqual(self.package(self.path("file")).returncode, 4)
        out = self.path("none")
        self.put_program(b"#!/bin/sh\necho ovl_layers 9.9\n")
        self.assert_refused(out, "differ in their versions")
        self.program.write_text(f"#!/bin/sh\necho ovl_layers {VERSION}\n: planted\n", encoding="ascii")
        self.assert_refused(out, "isn't the program that rt left")
        os.utime(self.program, (0, 0))
        self.assert_refused(out, "a source is newer")
        self.program.unlink()
        (self.out("ovl_layers") / "unproved").mkdir()
        (self.out("ovl_layers") / "unproved" / "ovl_layers").write_text("#!/bin/sh\n", encoding="ascii")
        self.assert_refused(out, "isn't built")

    def assert_refused(self, out: str, why: str) -> None:
        """Nothing is packed, and it is said why."""
        result = self.package(out)
        self.assertEqual(result.returncode, 3, result.stderr)
        self.assertIn(why, result.stderr)
        self.assertFalse(os.path.exists(out))


if __name__ == "__main__":
    unittest.main()
