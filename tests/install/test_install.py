"""Installing and taking away, and the manual pages beside the help texts."""

import os
import re
import shutil
import subprocess
import sys
import unittest
from pathlib import Path
from unittest import mock

sys.path.append(os.path.join(os.path.dirname(__file__), "..", "convert"))

from support import PROGRAM, ROOT, FolderTest, call

from convert import VERSION

VERSION_TEXT = ROOT / "examples" / "version.txt"
_OPTION = re.compile(r"(?<![\w-])--[a-z][a-z-]*")
_WIDTH = 111  # of the help texts; what the options mean is broken as the terminal wants it
_COMMANDS = (
    "scan", "store", "build", "unpack", "pack", "flatten", "vacuum", "deref", "merge", "sizes", "ls", "cat", "diff", "mounted",
)
INSTALLED = [
    "bin/layers", "bin/ovl_layers",
    "share/bash-completion/completions/layers", "share/bash-completion/completions/ovl_layers",
    *(f"share/doc/ovl-layers/{name}" for name in (
        "README.md", "convert/README.md", "docs/CI.md", "docs/FORMATS.md", "docs/GLOSSARY.md", "docs/HEADLINE.md",
        "docs/PROFILE.md", "docs/PROVED.md", "docs/TUTORIAL.md",
    )),
    "share/man/man1/layers.1", "share/man/man1/ovl_layers.1",
    "share/zsh/site-functions/_layers", "share/zsh/site-functions/_ovl_layers",
]


def page(name: str) -> str:
    """A manual page, without the escapes of its hyphens."""
    return (ROOT / "man" / name).read_text(encoding="utf-8").replace("\\-", "-")


def words(text: str) -> str:
    """A text without what sets it: white space, and troff's lines of macros."""
    return " ".join(re.sub(r"^\.[A-Z].*$", "", text, flags=re.MULTILINE).split())


class Pages(unittest.TestCase):
    """The pages are made from the help texts, and have all that these say."""

    def test_they_are_as_they_would_be_made(self) -> None:
        made = subprocess.run(
            [sys.executable, "-B", ROOT / "tools" / "manual.py", "--check"], stdout=subprocess.PIPE, text=True, check=False
        )
        self.assertEqual((made.returncode, made.stdout), (0, ""))

    def test_layers(self) -> None:
        text = page("layers.1")
        for command in _COMMANDS:
            own = text.split(f"\n.SS {command}\n", 1)[1].split("\n.S", 1)[0]
            status, messages, _ = call(command, "--help")
            self.assertEqual(status, 0)
            self.assertEqual(set(_OPTION.findall(own)) - set(_OPTION.findall(messages)), set(), command)
            self.assertEqual(set(re.findall(r"^  (--[a-z-]+)", messages, re.MULTILINE)) - set(_OPTION.findall(own)), set(), command)
            self.assertIn(words(messages.split("\n\n")[1])[:200], words(own))

    def test_ovl_layers(self) -> None:
        text = page("ovl_layers.1")
        for help_text in sorted((ROOT / "examples" / "help").glob("[!u]*.txt")):
            own = text.split(f"\n.SS {help_text.stem}\n", 1)[1].split("\n.S", 1)[0]
            messages = help_text.read_text(encoding="utf-8")
            self.assertEqual(set(_OPTION.findall(own)), set(_OPTION.findall(messages)), help_text.stem)
            for paragraph in messages.split("\n\nOptions:")[1].split("\n\n")[1:-1]:
                self.assertIn(words(paragraph), words(own))

    def test_troff_takes_them(self) -> None:
        if shutil.which("groff") is None:
            self.skipTest("needs groff")
        for name in ("layers.1", "ovl_layers.1"):
            ran = subprocess.run(
                ["groff", "-man", "-ww", "-Tutf8", "-z", ROOT / "man" / name], stderr=subprocess.PIPE, text=True, check=False
            )
            self.assertEqual((ran.returncode, ran.stderr), (0, ""), name)

    def test_no_line_of_help_is_too_wide(self) -> None:
        with mock.patch.dict(os.environ, COLUMNS="80"):
            helps = [call("--help")[1], *(call(command, "--help")[1] for command in _COMMANDS)]
        for line in "".join(helps).splitlines():
            self.assertLessEqual(len(line), _WIDTH, line)

    def test_version(self) -> None:
        self.assertEqual(call("--version"), (0, f"layers {VERSION}\n", ""))
        if VERSION_TEXT.exists():
            self.assertEqual(VERSION_TEXT.read_text(encoding="utf-8"), f"ovl_layers {VERSION}\n")
        for name in ("layers", "ovl_layers"):
            self.assertIn(f'"{name} {VERSION}"', page(f"{name}.1"))

    def test_they_are_set_without_warnings(self) -> None:
        if shutil.which("man") is None or shutil.which("groff") is None:
            self.skipTest("needs man and groff")
        for name in ("layers.1", "ovl_layers.1"):
            result = subprocess.run(
                ["man", "--warnings", "-E", "UTF-8", "-l", str(ROOT / "man" / name)],
                capture_output=True, text=True, check=False, env={**os.environ, "MANWIDTH": "100"},
            )
            self.assertEqual((result.returncode, result.stderr), (0, ""))


def modules(folder: Path) -> set[Path]:
    """The files of the converter in a folder, as they lie there."""
    return {path.relative_to(folder) for path in folder.rglob("*") if path.suffix in (".py", ".css", ".js")}


class Installing(FolderTest):
    """`install` from a copy of the repository whose program is a script."""

    def setUp(self) -> None:
        super().setUp()
        copy = self.path("repository")
        shutil.copytree(ROOT / "convert", f"{copy}/convert", ignore=shutil.ignore_patterns("__pycache__"))
        for name in ("man", "completions", "docs"):
            shutil.copytree(ROOT / name, f"{copy}/{name}")
        for name in ("install", "layers", "README.md"):
            shutil.copy(ROOT / name, f"{copy}/{name}")
        os.makedirs(f"{copy}/crates/ovl_layers/out")
        for name in ("ovl_layers", "crates/ovl_layers/out/ovl_layers"):
            self._script(f"{copy}/{name}", "echo the program")

    def _script(self, path: str, text: str) -> None:
        with open(path, "w", encoding="utf-8") as file:
            file.write(f"#!/bin/sh\n{text}\n")
        os.chmod(path, 0o755)

    def install(self, *words: str, destdir: str = "") -> "subprocess.CompletedProcess[str]":
        """Runs the script."""
        return subprocess.run(
            [self.path("repository", "install"), *words], capture_output=True, text=True, check=False, cwd=self.folder,
            env={**os.environ, "DESTDIR": destdir},
        )

    def there(self, prefix: str) -> list[str]:
        """The files below a prefix but for the modules."""
        found = [
            os.path.relpath(os.path.join(folder, name), prefix)
            for folder, _, names in os.walk(prefix) for name in names
        ]
        return sorted(name for name in found if not name.startswith("lib/ovl_layers/"))

    def test_into_a_new_folder(self) -> None:
        for _ in range(2):
            result = self.install("new prefix")
            self.assertEqual(result.returncode, 0, result.stderr)
        prefix = self.path("new prefix")
        self.assertEqual(self.there(prefix), INSTALLED)
        self.assertEqual(modules(Path(prefix, "lib", "ovl_layers", "convert")), modules(ROOT / "convert"))
        shown = subprocess.run([f"{prefix}/bin/ovl_layers"], capture_output=True, text=True, check=True)
        self.assertEqual(shown.stdout, "the program\n")
        os.rename(prefix, self.path("moved"))
        shown = subprocess.run(
            [self.path("moved", "bin", "layers"), "--version"], capture_output=True, text=True, check=True
        )
        self.assertEqual(shown.stdout, f"layers {VERSION}\n")
        if shutil.which("man"):
            found = subprocess.run(
                ["man", "-M", self.path("moved", "share", "man"), "-w", "layers"],
                capture_output=True, text=True, check=False,
            )
            self.assertEqual(found.stdout, self.path("moved", "share", "man", "man1", "layers.1") + "\n")
        self.assertEqual(self.install("--remove", "moved").returncode, 0)
        self.require_nothing_left("repository")

    def test_beside_other_things(self) -> None:
        prefix = self.path("prefix")
        os.makedirs(f"{prefix}/bin")
        os.makedirs(f"{prefix}/share")
        with open(f"{prefix}/bin/other", "wb"):
            pass
        self.assertEqual(self.install(prefix).returncode, 0)
        self.assertEqual(self.there(prefix), sorted([*INSTALLED, "bin/other"]))
        self.assertEqual(self.install("--remove", prefix).returncode, 0)
        self.assertEqual(self.there(prefix), ["bin/other"])
        self.assertEqual(sorted(os.listdir(prefix)), ["bin", "share"])

    def test_below_a_destination(self) -> None:
        self.assertEqual(self.install("/usr", destdir=self.path("root")).returncode, 0)
        self.assertEqual(self.there(self.path("root", "usr")), INSTALLED)
        self.assertEqual(os.listdir(self.path("root")), ["usr"])
        self.assertEqual(self.install("usr", destdir=self.path("root")).returncode, 2)
        self.assertEqual(self.install("--remove", "/usr", destdir=self.path("root")).returncode, 0)
        self.require_nothing_left("repository", "root")

    def test_help(self) -> None:
        for word in ("-h", "--help"):
            result = self.install(word)
            self.assertEqual((result.returncode, result.stderr), (0, ""))
            self.assertIn("DESTDIR", result.stdout)

    def test_faults(self) -> None:
        for words in ((), ("-x",), ("--remove",), ("a", "b"), ("--remove", "a", "b"), ("",)):
            self.assertEqual(self.install(*words).returncode, 2, words)
        self.assertEqual(self.install("--remove", "absent").returncode, 3)
        self._script(self.path("repository", "ovl_layers"), "exit 126")
        result = self.install("prefix")
        self.assertEqual(result.returncode, 3)
        self.assertIn("the program isn't built", result.stderr)
        self.require_nothing_left("repository")


if __name__ == "__main__":
    unittest.main()
