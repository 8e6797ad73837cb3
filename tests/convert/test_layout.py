"""Where the converter's modules are: a package takes modules only from those before it."""

import ast
import unittest
from collections.abc import Iterator
from pathlib import Path

from support import ROOT

_CONVERTER = ROOT / "convert"
_PACKAGES = ("common", "model", "tar", "image", "squashfs", "folder", "flatten", "sizes", "look", "check")


def taken(module: Path) -> Iterator[str]:
    """The packages, or modules at the top, from which a module takes something."""
    within = module.relative_to(ROOT).parts[:-1]
    for node in ast.walk(ast.parse(module.read_text(encoding="utf-8"))):
        if isinstance(node, ast.ImportFrom) and node.level:
            base = within[:len(within) + 1 - node.level]
            names = [node.module] if node.module else [alias.name for alias in node.names]
            yield from ((*base, *name.split("."))[1] for name in names)


class Layout(unittest.TestCase):
    """The folders of the converter."""

    def test_packages(self) -> None:
        self.assertEqual({path.parent.name for path in _CONVERTER.glob("*/__init__.py")}, set(_PACKAGES))
        for place, package in enumerate(_PACKAGES):
            for module in sorted((_CONVERTER / package).rglob("*.py")):
                for other in set(taken(module)) - {package}:
                    with self.subTest(module=str(module.relative_to(_CONVERTER)), takes=other):
                        self.assertIn(other, _PACKAGES[:place])
