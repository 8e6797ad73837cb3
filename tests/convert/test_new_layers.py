"""Layers of a new image that are read as they are written: their digests, and which of them needn't be read again."""

import hashlib
import os
import shutil
import unittest
from unittest import mock

from images import archive, folder, member, write_layout
from support import FolderTest

from convert.common.budgets import Budget
from convert.common.faults import ReadFault
from convert.image.images import opened_image
from convert.image.new_layers import NewLayers

LAYERS = [archive([folder("./"), member("f", data)]) for data in (b"one", b"two" * 1_000_000)]


class Read(FolderTest):
    """Each layer is read once."""

    def setUp(self) -> None:
        super().setUp()
        write_layout(self.path("image"), LAYERS, LAYERS)
        self.last = mock.Mock()
        self.layers = NewLayers(self.folder, "out", len(LAYERS), self.last)
        self.addCleanup(self.layers.__exit__, None, None, None)

    def read(self, data: bytes) -> str:
        """Reads the layer of these bytes, where the image has it."""
        with open(self.blob(data), "rb") as file:
            return self.layers.read(file.fileno(), 0, len(data))

    def blob(self, data: bytes) -> str:
        """The path of a layer's file."""
        return self.path("image", "blobs", "sha256", hashlib.sha256(data).hexdigest())

    def names(self) -> list[list[bytes] | None]:
        """The names of the entries that are known of each layer of the image."""
        with opened_image(self.path("image"), None, None) as image:
            found = [self.layers.kept(layer) for layer in image.layers]
            return [kept and [header.name for header, _ in kept.entries(Budget())] for kept in found]

    def test_what_is_known(self) -> None:
        self.assertEqual(self.names(), [None, None])
        self.assertEqual(self.read(LAYERS[0]), hashlib.sha256(LAYERS[0]).hexdigest())
        self.assertEqual(self.names(), [[b"./", b"f"], None])
        self.last.assert_not_called()
        self.read(LAYERS[1])
        self.last.assert_called_once_with()
        self.assertEqual(self.names(), [[b"./", b"f"]] * 2)

    def test_another_file(self) -> None:
        """A file that was put in the place of the one that was read is read itself."""
        self.read(LAYERS[0])
        shutil.copy(self.blob(LAYERS[0]), self.path("copy"))
        os.replace(self.path("copy"), self.blob(LAYERS[0]))
        self.assertEqual(self.names(), [None, None])

    def test_broken(self) -> None:
        with open(self.blob(LAYERS[1]), "r+b") as file:
            file.truncate(2_000)
        with self.assertRaisesRegex(ReadFault, "cannot read out: "):
            self.read(LAYERS[1])


if __name__ == "__main__":
    unittest.main()
