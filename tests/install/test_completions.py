"""Completions: made from the words of the programs, and what bash and zsh offer with them."""

import os
import shutil
import subprocess
import sys
import unittest

sys.path.append(os.path.join(os.path.dirname(__file__), "..", "convert"))

from support import ROOT, FolderTest

_FOLDER = ROOT / "completions"
_BASH = """
compopt() { :; }
. "$1/$2.bash"
COMP_WORDS=("${@:2}")
COMP_CWORD=$((${#COMP_WORDS[@]} - 1))
_$2
printf '%s\\n' "${COMPREPLY[@]}"
"""
# A terminal in which zsh completes what is typed.
ZSH = """
zmodload zsh/zpty
zpty shell zsh -fi
zpty -w shell "PS1= ; fpath=($1 \\$fpath); autoload -Uz compinit; compinit -D -u; compdef _layers layers
compdef _ovl_layers ovl_layers; autoload -Uz _layers _ovl_layers; setopt no_beep list_rows_first; stty rows 99 columns 200; print rea''dy"
while zpty -r shell line; do [[ $line == *ready* && $line != *print* ]] && break; done
zpty -w -n shell "$2"$'\\t\\t'
sleep 1
while zpty -rt shell line; do print -r -- $line; done
zpty -d shell
"""


class Completions(FolderTest):
    """What is offered for what is typed."""

    def test_they_are_as_they_would_be_made(self) -> None:
        made = subprocess.run(
            [sys.executable, "-B", ROOT / "tools" / "completions.py", "--check"],
            stdout=subprocess.PIPE, text=True, check=False,
        )
        self.assertEqual((made.returncode, made.stdout), (0, ""))

    def bash(self, *words: str) -> list[str]:
        """What bash offers for the last word."""
        ran = subprocess.run(
            ["bash", "-euc", _BASH, "bash", _FOLDER, *words], capture_output=True, text=True, check=False, cwd=self.folder
        )
        self.assertEqual((ran.returncode, ran.stderr), (0, ""), words)
        return ran.stdout.split()

    def test_bash(self) -> None:
        os.makedirs(self.path("blobs"))
        with open(self.path("blob.json"), "wb"):
            pass
        for words, offered in (
            (("layers", "fl"), ["flatten"]), (("ovl_layers", "f"), ["fsck", "flatten"]),
            (("layers", "--unproved", "fl"), ["flatten"]), (("layers", "--v"), ["--verbose", "--version"]),
            (("layers", "flatten", "--dry"), ["--dry-run"]), (("ovl_layers", "merge", "--d"), ["--down-to", "--data-layers"]),
            (("layers", "pack", "--compress", ""), ["none", "gzip", "zstd"]),
            (("ovl_layers", "fsck", "--blobs", "bl"), ["blobs"]),
            (("layers", "sizes", "bl"), []), (("layers", "sizes", "--fail-over", ""), []),  # (the first by readline)
        ):
            self.assertEqual(self.bash(*words), offered, words)

    def test_zsh(self) -> None:
        if shutil.which("zsh") is None:
            self.skipTest("needs zsh")
        functions = self.path("functions")
        os.mkdir(functions)
        for name in ("layers", "ovl_layers"):
            shutil.copy(_FOLDER / f"{name}.zsh", f"{functions}/_{name}")
        for typed, offered in (
            ("layers ", ("flatten", "sizes", "mounted")), ("layers flatten --dry", ("--dry-run",)),
            ("layers pack --compress ", ("gzip", "zstd")), ("ovl_layers merge --d", ("--down-to", "--data-layers")),
        ):
            ran = subprocess.run(
                ["zsh", "-fc", ZSH, "zsh", functions, typed], stdin=subprocess.DEVNULL, capture_output=True, text=True,
                check=False, cwd=self.folder, timeout=60, env={**os.environ, "HOME": self.folder, "TERM": "dumb"},
            )
            for word in offered:
                self.assertIn(word, ran.stdout, typed)


if __name__ == "__main__":
    unittest.main()
