"""Layers that are one file: squashfs and archives of a layer's folder."""

import os
import re
import resource
import shutil
import socket
import subprocess
import sys
import tarfile
import unittest
from unittest import mock

from generator import Generator, Style, write_layer
from images import archive, folder, member, write_layout
from squashfs_files import doubling, from_archive, require, spoilt, turned
from support import COMMAND, ROOT, FolderTest, call, run, why_no_trusted

from convert.squashfs import layer_files
from convert.model.entries import Entry, named
from convert.squashfs.limits import fitted
from convert.common.omissions import Losses
from convert.model.manifests import read_manifest, written

MARK = {"SCHILY.xattr.trusted.overlay.opaque": "y"}
LAYERS = 30
SECONDS = 20  # of processor time


def device(name: str, major: int, minor: int, kind: bytes = tarfile.CHRTYPE) -> tuple[tarfile.TarInfo, bytes]:
    """A device in a layer's archive."""
    info, data = member(name, kind=kind)
    info.devmajor, info.devminor = major, minor
    return info, data


def layer() -> bytes:
    """The archive of a layer's folder with something of each kind."""
    capability = {"SCHILY.xattr.security.capability": "\x01\x00\x00\x02\x00\x04" + "\x00" * 14}
    return archive([
        folder("./", mode=0o750), folder("d", pax=MARK), member("d/f", b"1", mode=0o4755, pax=capability),
        member("g", kind=tarfile.LNKTYPE, target="d/f"), member("l", kind=tarfile.SYMTYPE, target="/é"),
        device("w", 0, 0), member("v", kind=tarfile.LNKTYPE, target="w"), device("b", 8, 1, tarfile.BLKTYPE),
        member("p", kind=tarfile.FIFOTYPE), member(".wh.x", b"x"), folder(".wh.d"), member(".wh.d/y", b"z" * 300_000),
    ])


class FileTest(FolderTest):
    """A test on files that hold a layer."""

    def write(self, name: str, data: bytes) -> str:
        """A file in the folder."""
        with open(self.path(name), "wb") as file:
            file.write(data)
        return self.path(name)

    def scan(self, path: str, *words: str) -> tuple[bytes, str]:
        """The manifest of a layer, and what was reported."""
        result = call("scan", path, "--out", self.path("out.json"), "--blobs", self.path("blobs"), *words)
        self.require_done(result)
        with open(self.path("out.json"), "rb") as file:
            return file.read(), result[2]


class Reading(FileTest):
    """Layers in."""

    def test_archives_and_squashfs(self) -> None:
        """Both are read as the layer's folder is: whiteouts are devices, marks count, names mean nothing."""
        require("sqfs2tar", "tar2sqfs")
        from_archive(layer(), self.path("l.squashfs"))
        texts = [self.scan(path) for path in (self.write("l.tar", layer()), self.path("l.squashfs"))]
        self.assertEqual(texts[0][0], texts[1][0])
        entries = {entry.path: entry for entry in read_manifest(self.path("out.json"))}
        kinds = {path: entry.kind for path, entry in entries.items()}
        self.assertEqual(kinds, {
            "/": "dir", "/.wh.d": "dir", "/.wh.d/y": "file", "/.wh.x": "file", "/b": "block", "/d": "dir",
            "/d/f": "file", "/g": "file", "/l": "symlink", "/p": "fifo", "/v": "char", "/w": "char",
        })
        self.assertEqual((entries["/v"].major, entries["/v"].minor, entries["/"].mode), (0, 0, 0o750))
        self.assertEqual(entries["/d"].attributes, {"trusted.overlay.opaque": b"y"})
        self.assertEqual(entries["/g"].attributes, entries["/d/f"].attributes)
        self.assertEqual((entries["/g"].mode, len(entries["/g"].attributes)), (0o4755, 1))
        self.assertEqual(len(os.listdir(self.path("blobs"))), 3)
        with open(self.path("out.links"), encoding="utf-8") as file:
            self.assertIn('"names":{"/d/f":1,"/g":1}', file.read())
        for _, messages in texts:
            self.assertIn("2 names that begin with .wh., which mean whiteouts in images alone", messages)
            self.assertNotIn("/v", messages)

    def test_userxattr(self) -> None:
        mark = {"SCHILY.xattr.user.overlay.opaque": "y"}
        self.scan(self.write("l.tar", archive([folder("d", pax=mark)])), "--userxattr")
        self.assertEqual(read_manifest(self.path("out.json"))[1].attributes, {"trusted.overlay.opaque": b"y"})
        path = self.write("l.tar", archive([folder("d", pax=MARK)]))
        result = call("scan", path, "--out", "-", "--digests-only", "--userxattr")
        self.require_fault(result, 3, "d/: it has trusted.overlay.opaque, which is an ordinary attribute")

    def test_sockets(self) -> None:
        require("sqfs2tar", "mksquashfs")
        os.mkdir(self.path("layer"))
        for name in ("s", "t\nu: cannot pack socket"):
            with socket.socket(socket.AF_UNIX) as made:
                made.bind(self.path("layer", name))
        words = [self.path("layer"), self.path("l.squashfs"), "-quiet", "-no-progress"]
        os.spawnlp(os.P_WAIT, "mksquashfs", "mksquashfs", *words)
        _, messages = self.scan(self.path("l.squashfs"))
        self.assertIn("l.squashfs: 2 sockets left out, which archives don't have: /s, ..\n", messages)
        self.assertEqual(len(read_manifest(self.path("out.json"))), 1)

    def test_what_is_no_layer(self) -> None:
        for data, words in (
            (b"", "it is neither a folder, nor a squashfs, nor a tar archive"), (b"a" * 9000, "nor a tar archive"),
            (b"hsqs", "its squashfs is cut"), (b'{"entries"', "perhaps the manifest of one"),
            (layer()[:700], "the archive ends too early"), (b"BZh91AY&SY", "it is packed by bzip2"),
            (b"hsqs" + bytes(24) + b"\x03" + bytes(68), "a squashfs of version 3.0; version 4 alone is read"),
            (b"hsqs" + bytes(24) + b"\x04" + bytes(13) + b"\x01" + bytes(53), "has 65,536 bytes, and there are 96"),
        ):
            path = self.write("l", data)
            self.require_fault(call("scan", path, "--out", "-", "--digests-only"), 3, words)
        self.require_fault(call("scan", "/dev/null", "--out", "-", "--digests-only"), 3, "it is neither")

    def test_without_the_program(self) -> None:
        path = self.write("l", b"hsqs" + bytes(24) + b"\x04" + bytes(68))
        with mock.patch.dict(os.environ, {"PATH": self.folder}):
            result = call("scan", path, "--out", "-", "--digests-only")
        self.assertEqual(result[2], (
            "layers: there is no program sqfs2tar, which reads and writes squashfs; install squashfs-tools-ng\n"
        ))
        self.assertEqual(result[0], 3)


class Building(FileTest):
    """Layers out."""

    def setUp(self) -> None:
        super().setUp()
        require("sqfs2tar", "tar2sqfs")

    def put(self, *entries: Entry) -> str:
        """The manifest of these entries, below a root."""
        with open(self.path("given.json"), "w", encoding="utf-8") as file:
            file.writelines(written(named([Entry("/", "dir", 0o755), *entries])))
        return self.path("given.json")

    def build(self, manifest: str, *words: str) -> tuple[int, str, str]:
        """Makes a squashfs of a manifest."""
        return call("build", manifest, "--blobs", self.path("blobs"), "--out", self.path("o.squashfs"), *words)

    def test_round_trips(self) -> None:
        """What is built is scanned as it was, but for sockets and what is below a second; of that a folder too."""
        generators, reason = (Generator(11, Style()), Generator(12, Style(False))), why_no_trusted(self.folder)
        for number in range(LAYERS):
            with self.subTest(layer=number):
                random_layer = generators[number % 2].layer()
                write_layer(random_layer, self.path("given.json"), self.path("blobs"))
                words = ["--userxattr"] if number % 2 else []
                self.require_done(self.build(self.path("given.json"), *words))
                text, _ = self.scan(self.path("o.squashfs"), *words)
                self.assertEqual(text, "".join(written(named(fitted(random_layer.entries, Losses())))).encode())
                if reason is None:
                    words += ["--blobs", self.path("blobs"), "--out", self.path("built")]
                    self.require_done(call("build", self.path("out.json"), *words))
                    self.assertEqual(self.scan(self.path("built"), *words[:number % 2])[0], text)
                self.empty()

    def test_between_images_and_squashfs(self) -> None:
        """The commands of the README, run as they are there."""
        text = (ROOT / "convert" / "README.md").read_text(encoding="utf-8")
        chapter = text.split("## Between images and squashfs\n", 1)[1].split("\n## ", 1)[0]
        commands = re.findall(r"^```sh\n(.*?)^```$", chapter, re.MULTILINE | re.DOTALL)
        self.write("layers", f"#!/bin/sh\nexec {sys.executable} -B {COMMAND} \"$@\"\n".encode())
        os.chmod(self.path("layers"), 0o755)
        lower = [folder("./"), folder("d"), member("d/f", b"1"), member("g", kind=tarfile.LNKTYPE, target="d/f")]
        upper = [folder("d"), member("d/.wh..wh..opq"), member(".wh.g"), member("d/h", b"2")]
        write_layout(self.path("image"), [archive(lower), archive(upper)])
        result = subprocess.run(
            ["sh", "-ec", "\n".join(commands)], cwd=self.folder, capture_output=True, text=True, check=False
        )
        self.assertEqual(result.returncode, 0, result.stderr)
        self.require_done(call("unpack", self.path("new-image"), "--out", self.path("again")))
        for name in ("l0.json", "l1.json", "l1.links"):
            with open(self.path("stack", name), "rb") as one, open(self.path("again", name), "rb") as other:
                self.assertEqual(one.read(), other.read())

    def test_what_is_told(self) -> None:
        times = (-1, 0, 1, 999_999_999, 2**32 * 10**9 - 1, 2**32 * 10**9, -(2**63) * 10**9)
        manifest = self.put(*(Entry(f"/{n}", "fifo", 0o644, mtime_ns=time) for n, time in enumerate(times)),
                            Entry("/s", "socket", 0o755))
        _, _, messages = self.build(manifest)
        for line in (
            "3 times cut to whole seconds: /2, ..", "3 times before 1970 or after the year 2105, now the nearest ",
            "1 socket left out, which archives don't have: /s",
        ):
            self.assertIn(f"layers: {self.path('o.squashfs')}: {line}", messages)
        self.scan(self.path("o.squashfs"))
        seconds = [entry.mtime_ns // 10**9 for entry in read_manifest(self.path("out.json"))[1:]]
        self.assertEqual(seconds, [0, 0, 0, 0, 2**32 - 1, 2**32 - 1, 0])

    def test_same_bytes(self) -> None:
        """Of the same input, by any number of processors and at any time; links are kept."""
        self.addCleanup(os.umask, os.umask(0o027))
        self.scan(self.write("l.tar", layer()))
        found = set()
        for words in (("--compress", "gzip"), ("--compress", "gzip"), ("--compress", "lz4"), ()):
            with mock.patch.dict(os.environ, {"SOURCE_DATE_EPOCH": str(len(found))}):
                self.require_done(self.build(self.path("out.json"), *words))
            with open(self.path("o.squashfs"), "rb") as file:
                found.add(file.read())
            self.assertEqual(os.stat(self.path("o.squashfs")).st_mode & 0o777, 0o640)
        self.assertEqual(len(found), 3)
        self.scan(self.path("o.squashfs"))
        with open(self.path("out.links"), encoding="utf-8") as file:
            self.assertIn('"names":{"/d/f":1,"/g":1}', file.read())

    def test_what_a_squashfs_has_no_place_for(self) -> None:
        for entry, words in (
            (Entry("/a", "fifo", 0, attributes={"system.posix_acl_access": b""}), "attribute system.posix_acl_access: "),
            (Entry("/a", "fifo", 0, attributes={"trusted.a=b": b""}), "attribute trusted.a=b: "),
            (Entry("/a", "fifo", 0, attributes={"trusted.": b""}), "attribute trusted.: "),
            (Entry("/a", "fifo", 0, attributes={"trusted.a": bytes(65_509)}), "65,539 bytes, and tar2sqfs takes"),
            (Entry("/a", "char", 0, major=4_096), "a device 4096:0"),
            (Entry("/a", "file", 0, attributes={"trusted.overlay.metacopy": b""}, size=1 << 35), "17,179,869,184"),
        ):
            self.require_fault(self.build(self.put(entry)), 4, f"{self.path('o.squashfs')}/a: ", words)
            self.require_nothing_left("given.json")
        owners = [Entry(f"/{n:05}", "fifo", 0, uid=n, gid=40_000 + n) for n in range(33_000)]
        self.require_fault(self.build(self.put(*owners)), 4, "66,000 users and groups: a squashfs has at most 65,535")

    def test_faults(self) -> None:
        manifest = self.put(Entry("/a", "fifo", 0o644))
        words = "--blobs", self.path("blobs"), "--out"
        result = call("build", manifest, *words, self.path("o"), "--compress", "gzip")
        self.require_fault(result, 2, "--compress is of a squashfs")
        self.write("tar2sqfs", f"#!/bin/sh\n{shutil.which('tar2sqfs')} \"$@\" </dev/null\n".encode())
        os.chmod(self.path("tar2sqfs"), 0o755)
        path = f"{self.folder}:{os.environ['PATH']}"
        for name, wanted in ((path, "o.squashfs: read again it has another /a, so it"), ("", "install squashfs-tools")):
            with mock.patch.dict(os.environ, {"PATH": name}):
                self.require_fault(self.build(manifest), 5 if name else 3, wanted)
            self.require_nothing_left("given.json", "tar2sqfs")
        self.write("tar2sqfs", b"#!/bin/sh\necho 'o: No space left on device' >&2; exit 1\n")
        with mock.patch.dict(os.environ, {"PATH": path}):
            self.require_fault(self.build(manifest), 4, "o.squashfs: o: No space left on device")
        os.mkdir(self.path("o.squashfs"))
        self.require_fault(self.build(manifest), 4, "it is no regular file")
        self.require_nothing_left("given.json", "o.squashfs", "tar2sqfs")


class Hostile(FileTest):
    """Spoilt and hostile squashfs files: one line, bounded, nothing left."""

    def require_refused(self, data: bytes, *parts: str) -> None:
        """It is refused, by this process."""
        path = self.write("l", data)
        result = call("scan", path, "--out", self.path("out.json"), "--blobs", self.path("blobs"))
        self.require_fault(result, 3, *parts)
        self.assertEqual(len(result[2].splitlines()), 1, result[2])
        self.require_nothing_left("l")

    def test_spoilt(self) -> None:
        require("sqfs2tar", "tar2sqfs")
        from_archive(layer(), self.path("whole"))
        with open(self.path("whole"), "rb") as file:
            whole = file.read()
        os.unlink(self.path("whole"))
        for number, data in enumerate(spoilt(whole)):
            with self.subTest(spoilt=number):
                self.require_refused(data)
        for number, data in enumerate(turned(whole)):
            with self.subTest(turned=number):
                result = call("scan", self.write("l", data), "--out", self.path("out.json"), "--digests-only")
                self.assertIn(result[0], (0, 3))
                self.assertTrue(result[0] == 0 or len(result[2].splitlines()) == 1, result[2])
                self.require_nothing_left("l", *(["out.json", "out.links"] if result[0] == 0 else []))
                self.empty()

    def test_doubling_directories(self) -> None:
        """3 KB that show 2^30 directories."""
        require("sqfs2tar", "mksquashfs")
        path, before = self.write("l", doubling(self.folder)), resource.getrusage(resource.RUSAGE_CHILDREN)
        result = run("scan", path, "--out", self.path("out.json"), "--digests-only", "-q")
        after = resource.getrusage(resource.RUSAGE_CHILDREN)
        self.assertEqual((result.returncode, len(result.stderr.splitlines())), (3, 1), result.stderr)
        self.assertIn("out of memory", result.stderr)
        self.assertLess(after.ru_utime + after.ru_stime - before.ru_utime - before.ru_stime, SECONDS)
        self.require_nothing_left("l")

    def test_more_contents_than_its_size_speaks_for(self) -> None:
        require("sqfs2tar", "tar2sqfs")
        from_archive(archive([member("x", bytes(2 << 20)), member("y", bytes(2 << 20))]), self.path("holes"))
        with open(self.path("holes"), "rb") as file:
            data = file.read()
        os.unlink(self.path("holes"))
        with mock.patch.object(layer_files, "_MOST_CONTENTS", 3 << 20):
            self.require_refused(data, "its files have over 3,145,728 bytes")


if __name__ == "__main__":
    unittest.main()
