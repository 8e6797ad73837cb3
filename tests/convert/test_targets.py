"""`--out`: what its words mean, and which files an image has in each form; packed archives as input."""

import bz2
import contextlib
import fcntl
import gzip
import json
import os
import shutil
import signal
import subprocess
import sys
import tarfile
import termios
import time
import unittest

from images import archive, folder, member, write_layout, write_saved
from support import COMMAND, FolderTest, call

LAYER = archive([folder("./"), member("a", b"a")])
REF_NAME = "org.opencontainers.image.ref.name"
LAYOUT = ["blobs", "index.json", "oci-layout"]
SECONDS = 30  # that the end of a process may take


class Targets(FolderTest):
    """A stack of one layer that is packed."""

    def setUp(self) -> None:
        super().setUp()
        write_layout(self.path("image"), [LAYER])
        self.require_done(call("unpack", self.path("image"), "--out", self.path("stack")))
        stack = self.path("stack")
        self.words = ["pack", f"{stack}/l0.json", "--blobs", f"{stack}/blobs", "--config", f"{stack}/config.json"]
        self.enterContext(contextlib.chdir(self.folder))

    def names(self, path: str) -> list[str]:
        """The names in an image, a folder or an archive, but for blobs."""
        if os.path.isdir(path):
            return sorted(name for name in os.listdir(path) if len(name) < 64)
        with tarfile.open(path) as file:
            return sorted({name.split("/")[0] for name in file.getnames()})

    def read(self, path: str, name: str) -> object:
        """A document of an image."""
        if os.path.isdir(path):
            with open(f"{path}/{name}", "rb") as file:
                return json.load(file)
        with tarfile.open(path) as archive_file:
            data = archive_file.extractfile(name)
            assert data is not None
            return json.load(data)

    def test_forms(self) -> None:
        """Words, what is there then, and the names that the index and docker have."""
        saved = sorted([*LAYOUT, "manifest.json"])
        for word, more, path, names, name, docker in (
            ("new", (), "new", LAYOUT, None, None), ("new/", (), "new", LAYOUT, None, None),
            ("new.tar", (), "new.tar", saved, None, None), ("new.d", (), "new.d", LAYOUT, None, None),
            ("new", ("--name", "x"), "new", LAYOUT, "x", None), ("oci:new", (), "new", LAYOUT, None, None),
            ("oci:new.tar:x", (), "new.tar", LAYOUT, "x", None), ("oci:new.gz", (), "new.gz", LAYOUT, None, None),
            ("oci-archive:new:x", (), "new", saved, "x", None),
            ("oci-archive:new.tar:x/y", (), "new.tar", saved, "x/y", "x/y:latest"),
            ("docker-archive:new:x", (), "new", saved, "x", "x:latest"),
            ("docker-archive:new:localhost:5000/x:1", (), "new", saved, "localhost:5000/x:1", "localhost:5000/x:1"),
            ("docker-archive:new", ("--tag", "x"), "new", saved, "x", "x:latest"),
            ("docker-archive:new", ("-t", "X"), "new", saved, "X", None),
            ("new.tar", ("--tag", "x"), "new.tar", saved, "x", None),
            ("new.tar", ("--tag", "x:1"), "new.tar", saved, "x:1", "x:1"),
            ("dir:new", (), "new", ["manifest.json", "version"], None, None),
            ("dir:new:x", (), "new:x", ["manifest.json", "version"], None, None),
        ):
            with self.subTest(word=word, more=more):
                self.require_done(call(*self.words, "--out", word, *more))
                self.assertEqual(self.names(path), names)
                if "index.json" in names:
                    (listed,) = self.read(path, "index.json")["manifests"]  # type: ignore[index]
                    self.assertEqual(listed.get("annotations"), name and {REF_NAME: name})
                if "oci-layout" in names and "manifest.json" in names:
                    (image,) = self.read(path, "manifest.json")  # type: ignore[misc]
                    self.assertEqual(image["RepoTags"], docker and [docker])
                self.require_done(call("unpack", path, "--out", "again"))
                with open("again/l0.json", "rb") as new, open("stack/l0.json", "rb") as old:
                    self.assertEqual(new.read(), old.read())
                for each in ("again", path):
                    shutil.rmtree(each) if os.path.isdir(each) else os.unlink(each)
        self.require_nothing_left("image", "stack")

    def test_what_docker_reads(self) -> None:
        """The archive without its index is what `docker save` writes."""
        self.require_done(call(*self.words, "--out", "docker-archive:new.tar:x", "--compress", "gzip"))
        os.mkdir("saved")
        with tarfile.open("new.tar") as file:
            file.extractall("saved")
        os.unlink("saved/index.json")
        self.require_done(call("unpack", "saved", "--out", "again", "--from-tag", "x"))
        with open("again/config.json", "rb") as new, open("stack/config.json", "rb") as old:
            self.assertEqual(json.load(new)["os"], json.load(old)["os"])

    def test_words_that_are_refused(self) -> None:
        hint = "an archive isn't packed as a whole; name a .tar, --compress packs its layers"
        for word, reason in (
            ("x.tar.gz", hint), ("x.tgz", hint), ("x.tar.zst", hint), ("oci-archive:x.gz", hint),
            ("docker-archive:x.tar:A", "A is no name that docker takes"), ("oci:x:y", "oci:x:y and --name give two names"),
        ):
            for words in (self.words, ["flatten", "image"]):
                if word != "oci:x:y" or words[0] == "pack":
                    self.require_fault(call(*words, "--out", word, "--tag", "z"), 2, reason)
        self.require_nothing_left("image", "stack")

    def test_a_folder_dir_has_no_name(self) -> None:
        result = call(*self.words, "--out", "dir:new", "--tag", "x")
        self.assertEqual(result, (0, "", "layers: new: a folder dir: has no place for the name x\n"))

    def test_standard_output(self) -> None:
        self.require_done(call(*self.words, "--out", "wanted.tar", "--tag", "x:1"))
        for word in ("-", "oci-archive:-", "docker-archive:-:x:1"):
            command = [sys.executable, "-B", str(COMMAND), *self.words, "--out", word, "--tag", "x:1"]
            result = subprocess.run(command, capture_output=True, check=False)
            with open("wanted.tar", "rb") as file:
                self.assertTrue(result.stdout == file.read(), result.stderr)
        with open("/dev/full", "wb") as full:
            result = subprocess.run(command, stdout=full, stderr=subprocess.PIPE, check=False)
        self.assertEqual((result.returncode, result.stderr), (
            4, b"layers: cannot write standard output: No space left on device\n"
        ))
        self.require_nothing_left("image", "stack", "wanted.tar")

    def test_a_terminal(self) -> None:
        """No image goes to one."""
        main, other = os.openpty()
        try:
            command = [sys.executable, "-B", str(COMMAND), *self.words, "--out", "-"]
            result = subprocess.run(command, stdout=other, stderr=subprocess.PIPE, text=True, check=False)
        finally:
            os.close(main)
            os.close(other)
        self.assertEqual((result.returncode, result.stderr), (
            2, "layers: standard output is a terminal; send the image into a file or a pipe; see `layers pack --help`\n"
        ))


class PackedArchives(FolderTest):
    """Archives of images that are packed as a whole."""

    def setUp(self) -> None:
        super().setUp()
        write_saved(self.path("image"), [LAYER])
        with open(self.path("image"), "rb") as file:
            self.data = file.read()
        os.unlink(self.path("image"))

    def unpack(self, data: bytes) -> tuple[int, str]:
        """Unpacks these bytes, as a file and from a pipe; both do the same."""
        results = []
        for path in (self.path("image"), "-"):
            if path == "-":
                os.unlink(self.path("image"))
            else:
                with open(path, "wb") as file:
                    file.write(data)
            command = [sys.executable, "-B", str(COMMAND), "unpack", path, "--out", self.path("out")]
            result = subprocess.run(command, input=data, capture_output=True, check=False)
            messages = result.stderr.decode().replace(self.path("image"), "standard input")
            results.append((result.returncode, messages))
            if result.returncode == 0:
                self.assertIn("l0.json", os.listdir(self.path("out")))
                shutil.rmtree(self.path("out"))
            self.require_nothing_left(*(["image"] if path != "-" else []))
        self.assertEqual(*results)
        return results[0]

    def test_packed(self) -> None:
        zstd = shutil.which("zstd")
        kinds = [gzip.compress(self.data), gzip.compress(self.data[:1024]) + gzip.compress(self.data[1024:])]
        if zstd:
            kinds.append(subprocess.run([zstd], input=self.data, capture_output=True, check=True).stdout)
        for data in kinds:
            self.assertEqual(self.unpack(data), (0, ""))
            status, messages = self.unpack(data[:-20])
            self.assertEqual(status, 3, messages)
            self.assertRegex(messages, "stream (is broken|ends too early)")
        status, messages = self.unpack(bz2.compress(self.data))
        self.assertEqual((status, messages), (
            3, "layers: cannot read standard input: it is packed by bzip2, which isn't read; unpack it first (`bzip2 -d`)\n"
        ))

    def test_ended_while_it_waits(self) -> None:
        """For a pipe of which no more comes."""
        zstd = shutil.which("zstd")
        kinds = [gzip.compress(self.data)]
        if zstd:
            kinds.append(subprocess.run([zstd], input=self.data, capture_output=True, check=True).stdout)
        for data in kinds:
            command = [sys.executable, "-B", str(COMMAND), "unpack", "-", "--out", self.path("out")]
            with subprocess.Popen(command, stdin=subprocess.PIPE) as process:
                assert process.stdin is not None
                process.stdin.write(data[:-20])
                process.stdin.flush()
                while process.poll() is None and any(fcntl.ioctl(process.stdin, termios.FIONREAD, bytes(4))):
                    time.sleep(0.05)
                process.terminate()
                self.assertEqual(process.wait(SECONDS), 128 + signal.SIGTERM)
            self.require_nothing_left()


if __name__ == "__main__":
    unittest.main()
