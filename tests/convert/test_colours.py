"""Colours of reports: what is painted of an image, and that nothing else of a report changes by it."""

import re
import sys
import tarfile
import unittest

from images import archive, folder, member, write_layout
from support import FolderTest, call, program_words

_LOWER = [
    folder("d"), member("d/run", b"#!", mode=0o755), member("d/plain", b"p" * 900), member("gone", b"g" * 2_000),
    member("link", kind=tarfile.SYMTYPE, target="d", mode=0o777), member("pipe", kind=tarfile.FIFOTYPE),
]
_UPPER = [member(".wh.gone"), member("d/plain", b"q" * 900)]
_PAINTED = re.compile(r"\x1b\[(3\d)m([^\x1b]*)\x1b\[0m")
_RED, _GREEN, _YELLOW, _BLUE, _CYAN = map(str, (31, 32, 33, 34, 36))
# Words of a command on the image, and what is painted.
_REPORTS = (
    (("ls",), [
        (_BLUE, "/"), (_BLUE, "/d"), (_GREEN, "/d/run"), (_CYAN, "/link"), (_YELLOW, "/pipe"),
    ]),
    (("ls", "--layer", "0"), [(_BLUE, "/"), (_BLUE, "/d"), (_RED, "-")]),
    (("ls", "--removed"), [(_YELLOW, "replaced"), (_RED, "removed")]),
    (("ls", "--json"), []),
    (("sizes",), [
        (_YELLOW, "  2.9K"), (_YELLOW, "99.9 %"), (_YELLOW, "  2.9K"), (_YELLOW, "76.2 %"),
        (_YELLOW, "2.9 KiB of 3.8 KiB (76.2 %) are wasted; 2.0 KiB by /gone, removed in layer 0"),
    ]),
    (("sizes", "--json"), []),
    (("check",), [*[(_CYAN, "note")] * 3, (_GREEN, "fit")]),
)


class Coloured(FolderTest):
    """An image of two layers."""

    def setUp(self) -> None:
        super().setUp()
        if not program_words():
            self.skipTest("the program isn't built")
        write_layout(self.path("image"), [archive(_LOWER), archive(_UPPER)])

    def test_what_is_painted(self) -> None:
        for (command, *words), painted in _REPORTS:
            with self.subTest(command=command, words=words):
                plain = call(command, self.path("image"), *words)
                never = call(command, self.path("image"), *words, "--color", "never")
                always = call(command, self.path("image"), *words, "--color", "always")
                self.assertNotIn("\x1b", plain[1])
                self.assertEqual((never[1], _PAINTED.sub(r"\2", always[1])), (plain[1], plain[1]))
                self.assertEqual(_PAINTED.findall(always[1]), painted)


if __name__ == "__main__":
    unittest.main(argv=sys.argv)
