"""What is built is scanned as it was, and what is packed is unpacked as it was, byte for byte."""

import os
import random
import shutil
import subprocess
import unittest

from generator import Generator, RandomLayer, Style, write_layer
from images import write_layout
from support import FolderTest, call, why_no_trusted

from convert.model.manifests import read_manifest
from convert.model.times import ONE_SECOND

LAYERS = 300
STACKS = 100
USER_LAYERS = 60


def read(path: str) -> bytes:
    with open(path, "rb") as file:
        return file.read()


def make_folder(root: str) -> None:
    """Fills a folder: with a time of its own for each thing, before 1970 and after it, or that of its making."""
    pick = random.Random(5)
    for number in range(40):
        folder = os.path.join(root, *pick.sample("abc", pick.randrange(4)))
        os.makedirs(folder, exist_ok=True)
        path = os.path.join(folder, str(number))
        if number % 3 == 0:
            os.symlink("a", path)
        elif number % 7 == 0:
            os.mkfifo(path)
        else:
            with open(path, "xb") as file:
                file.write(pick.randbytes(number))
        if number % 2:
            time = pick.choice((0, 0, 1, -1, 1_700_000_000, -86_400)) * ONE_SECOND + pick.randrange(ONE_SECOND)
            os.utime(path, ns=(time, time), follow_symlinks=False)
    for number, name in enumerate("abc"):
        time = (0, -1, -1_500_000_000)[number]
        os.utime(os.path.join(root, name), ns=(time, time))


def require_times_below_a_second(test: FolderTest, manifest: str) -> None:
    """The manifest has times before 1970 and after it that aren't whole seconds."""
    times = {(entry.mtime_ns >= 0, entry.mtime_ns % ONE_SECOND != 0) for entry in read_manifest(manifest)}
    test.assertLessEqual({(False, True), (True, True)}, times)


class Scanned(FolderTest):
    """scan(build(m)) = m."""

    def test_layers_with_everything(self) -> None:
        reason = why_no_trusted(self.folder)
        if reason:
            self.skipTest(reason)
        generator = Generator(1, Style())
        for number in range(LAYERS):
            with self.subTest(layer=number):
                self._round_trip(generator.layer())

    def test_layers_of_any_user(self) -> None:
        try:
            os.setxattr(self.folder, "user.probe", b"")
            os.removexattr(self.folder, "user.probe")
        except OSError as error:
            self.skipTest(f"the file system of {self.folder} has no user.* attributes: {error.strerror}")
        generator = Generator(2, Style(is_root=False))
        for number in range(USER_LAYERS):
            with self.subTest(layer=number):
                self._round_trip(generator.layer(), "--userxattr")

    def test_a_folder_with_the_times_of_its_making(self) -> None:
        os.mkdir(self.path("real"))
        make_folder(self.path("real"))
        words = [] if why_no_trusted(self.folder) is None else ["--userxattr"]
        for folder, out in (("real", "first.json"), ("built", "second.json")):
            result = call("scan", self.path(folder), "--out", self.path(out), "--blobs", self.path("blobs"), *words)
            self.require_done(result)
            self.assertNotIn("cut", result[2])
            if folder == "real":
                build = ("build", self.path(out), "--blobs", self.path("blobs"), "--out", self.path("built"))
                self.require_done(call(*build, *words))
        self.assertEqual(read(self.path("second.json")), read(self.path("first.json")))
        require_times_below_a_second(self, self.path("first.json"))

    def _round_trip(self, layer: RandomLayer, *words: str) -> None:
        paths = [self.path(name) for name in ("in.json", "contents", "out", "out.json", "blobs")]
        manifest, contents, folder, scanned, blobs = paths
        self.empty()
        write_layer(layer, manifest, contents)
        self.require_done(call("build", manifest, "--blobs", contents, "--out", folder, *words))
        self.require_done(call("scan", folder, "--out", scanned, "--blobs", blobs, *words))
        self.assertEqual(read(scanned), layer.manifest())
        self.assertEqual(sorted(os.listdir(blobs)), sorted(layer.contents))
        for digest, bytes_ in layer.contents.items():
            self.assertEqual(read(os.path.join(blobs, digest)), bytes_)
        self.require_nothing_left("blobs", "contents", "in.json", "out", "out.json")


class Unpacked(FolderTest):
    """unpack(pack(layers)) = layers."""

    def test_stacks(self) -> None:
        generator = Generator(3, Style(is_image=True))
        for number in range(STACKS):
            with self.subTest(stack=number):
                self._round_trip([generator.layer() for _ in range(3)], "image" if number % 2 else "image.tar")

    def _round_trip(self, layers: list[RandomLayer], image: str) -> None:
        self.empty()
        names = [self.path(f"in{number}.json") for number in range(len(layers))]
        for layer, name in zip(layers, names):
            write_layer(layer, name, self.path("in"))
        words = ("pack", *names, "--blobs", self.path("in"), "--out")
        self.require_done(call(*words, self.path(image)))
        self.require_done(call("unpack", self.path(image), "--out", self.path("out"), "--overlay-marks"))
        for number, layer in enumerate(layers):
            self.assertEqual(read(self.path("out", f"l{number}.json")), layer.manifest())
        for digest in {digest for layer in layers for digest in layer.contents}:
            self.assertEqual(read(self.path("out", "blobs", digest)), read(self.path("in", digest)))
        self.assertEqual(sorted(os.listdir(self.path("out", "blobs"))), sorted(os.listdir(self.path("in"))))

    def test_an_archive_of_gnu_tar(self) -> None:
        if "GNU tar" not in subprocess.run(["tar", "--version"], capture_output=True, text=True, check=False).stdout:
            self.skipTest("needs GNU tar")
        os.mkdir(self.path("real"))
        make_folder(self.path("real"))
        words = ["tar", "--format=posix", "--numeric-owner", "-C", self.path("real"), "-c", "."]
        made = subprocess.run(words, capture_output=True, check=True)
        write_layout(self.path("image"), [made.stdout])
        for image, out in (("image", "one"), ("again.tar", "two")):
            result = call("unpack", self.path(image), "--out", self.path(out))
            self.require_done(result)
            self.assertNotIn("cut", result[2])
            words = ["pack", self.path(out, "l0.json"), "--blobs", self.path(out, "blobs"), "--out", self.path("again.tar")]
            self.require_done(call(*words))
        self.assertEqual(read(self.path("two", "l0.json")), read(self.path("one", "l0.json")))
        self.assertEqual(*(sorted(os.listdir(self.path(out, "blobs"))) for out in ("one", "two")))
        require_times_below_a_second(self, self.path("one", "l0.json"))
        # The times are those of the folder.
        for entry in read_manifest(self.path("one", "l0.json")):
            self.assertEqual(entry.mtime_ns, os.lstat(self.path("real") + entry.path).st_mtime_ns, entry.path)

    def test_the_same_bytes_for_the_same_input(self) -> None:
        layer = Generator(4, Style(is_image=True)).layer()
        write_layer(layer, self.path("l.json"), self.path("in"))
        for image in ("a.tar", "b.tar"):
            self.require_done(
                call("pack", self.path("l.json"), "--blobs", self.path("in"), "--out", self.path(image))
            )
        self.assertEqual(read(self.path("a.tar")), read(self.path("b.tar")))


if __name__ == "__main__":
    unittest.main()
