"""The file of entries: each comes back as it was put in, in whatever order, and names of one file as such."""

import itertools
import os
import random
import sys
import unittest
from dataclasses import replace

from generator import Generator, Style
from support import FolderTest

from convert.common.faults import ReadFault
from convert.model import rules
from convert.model.entries import FILE, SYMLINK, Entry
from convert.model.entry_file import EntryFile
from convert.model.times import ONE_SECOND

_COUNT = 8_000  # which take more than is held before it is written
_ENDS = (
    Entry("", FILE, rules.MAX_MODE, rules.MAX_NUMBER, rules.MAX_NUMBER, rules.MAX_TIME * ONE_SECOND + 999_999_999,
          size=rules.MAX_SIZE, blob="f" * 64, major=rules.MAX_NUMBER, minor=rules.MAX_NUMBER),
    Entry("", SYMLINK, 0, mtime_ns=rules.MIN_TIME * ONE_SECOND, target="é" * (rules.MAX_TARGET_BYTES // 2)),
)


def _entries() -> list[Entry]:
    generator = Generator(1, Style())
    layers = (generator.layer().entries for _ in itertools.count())
    given = itertools.islice(itertools.chain.from_iterable(layers), _COUNT)
    return [*_ENDS, *(replace(entry, path="") for entry in given), *_ENDS]


class EntryFiles(FolderTest):
    """Entries that are put into a file."""

    def test_each_comes_back(self) -> None:
        entries, pick = _entries(), random.Random(2)
        with EntryFile(self.path("")) as file:
            places = []
            for number, entry in enumerate(entries):
                places.append(file.put(entry))
                seen = pick.randrange(number + 1)
                self.assertEqual(file.entry(places[seen]), entries[seen])
            found = list(zip(places, entries))
            for order in (found, pick.sample(found, len(found))):
                for place, entry in order:
                    self.assertEqual((file.entry(place), file.entry(place).place), (entry, place))
        self.assertEqual(os.listdir(self.path("")), [])

    def test_names_of_one_file(self) -> None:
        with EntryFile(self.path("")) as file:
            one, other, single = (file.put(_ENDS[0]) for _ in range(3))
            self.assertFalse(file.has_links())
            for place in (one, other, one):
                file.add_name(place)
            self.assertEqual([file.entry(place).link for place in (one, single, other)], [1, 0, 2])
            nodes = [("/a", one), ("/b", single), ("/c", other), ("/d", _ENDS[1]), ("/e", None)]
            self.assertEqual([path for path, _ in file.linked(nodes)], ["/a", "/c", "/d"])

    def test_what_is_cut_off_is_a_fault(self) -> None:
        with EntryFile(self.path("")) as file:
            places = [file.put(_ENDS[1]) for _ in range(_COUNT // 16)]
            assert file._file is not None
            file._file.truncate(places[5])
            with self.assertRaisesRegex(ReadFault, "is cut off"):
                file.entry(places[5])


if __name__ == "__main__":
    unittest.main(argv=sys.argv)
