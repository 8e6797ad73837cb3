"""`flatten --rootfs`: what an image shows as one tree; `build` of an archive. test_flatten.py compares them with umoci's."""

import os
import subprocess
import tarfile
import unittest
from pathlib import Path

from images import archive, folder, member, packed
from squashfs_files import require
from support import call, why_no_trusted
from test_base import HISTORY, LAYERS, BaseTest

from convert.image.compression import Compression
from convert.model.manifests import read_manifest
from convert.squashfs.programs import packing_of


class Rootfs(BaseTest):
    """Trees of an image."""

    def entries(self, layer: str) -> list[tuple[str, str, int]]:
        """Path, kind and size of each entry of a layer in a file or a folder, and which are one file."""
        manifest = self.path("in", "again.json")
        self.require_done(call("scan", layer, "--out", manifest, "--digests-only"))
        return [(entry.path, entry.kind, entry.size) for entry in read_manifest(manifest)]

    def test_each_form(self) -> None:
        require("sqfs2tar", "tar2sqfs")
        wanted = [
            ("/", "dir", 0), ("/d", "dir", 0), ("/d/f", "file", 7), ("/d/h", "file", 5_000), ("/l2", "file", 6),
        ]
        self.addCleanup(os.umask, os.umask(0o027))
        for out, words in (
            ("x.tar", ()), ("y.tar", ()), ("x.squashfs", ("--compress", "zstd:4")), ("odd", ("--form", "tar")),
        ):
            result = self.flatten("--rootfs", *words, out=out)
            self.require_done(result)
            self.assertRegex(result[2].splitlines()[-1], rf"{out}: 1 layer in place of 3, .* in place of ")
            self.assertEqual(self.entries(self.path("all", out)), wanted)
            self.assertEqual(os.stat(self.path("all", out)).st_mode & 0o777, 0o640)
        self.assertEqual(packing_of(self.path("all", "x.squashfs")).compression, Compression("zstd", 4))
        data = [Path(self.path("all", name)).read_bytes() for name in ("x.tar", "y.tar", "odd")]
        self.assertEqual(data[0], data[1])
        self.assertEqual(data[0], data[2])
        self.left("odd", "x.squashfs", "x.tar", "y.tar")

    def test_hard_links(self) -> None:
        linked = archive([folder("./"), member("a", b"1", mode=0o4711), member("b", kind=b"1", target="a", mode=0o4711)])
        self.given.write([packed(linked)], [linked], HISTORY[:1])
        self.require_done(self.flatten("--rootfs", out="x.tar"))
        with tarfile.open(self.path("all", "x.tar")) as file:
            infos = {info.name: info for info in file}
        self.assertEqual((infos["b"].type, infos["b"].linkname, infos["b"].mode), (tarfile.LNKTYPE, "a", 0o4711))
        reason = why_no_trusted(self.folder)
        if reason:
            self.skipTest(reason)
        self.require_done(self.flatten("--rootfs", out="x"))
        self.assertTrue(os.path.samefile(self.path("all", "x", "a"), self.path("all", "x", "b")))

    def test_standard_output(self) -> None:
        """Only the tree goes there, faults of layers to standard error; nothing is left in the temporary folder."""
        self.require_done(self.flatten("--rootfs", out="wanted.tar"))
        os.mkdir(temporary := self.path("in", "temporary"))
        environment = {**os.environ, "TMPDIR": temporary}
        words = [*self.words, "flatten", self.image, "--rootfs", "--out", "-"]
        ran = subprocess.run(words, capture_output=True, check=True, env=environment)
        self.assertEqual(ran.stdout, Path(self.path("all", "wanted.tar")).read_bytes())
        self.assertIn(b"layers: standard output: 1 layer in place of 3, ", ran.stderr)
        with open(self.program, encoding="utf-8") as file:
            real = file.read()
        with open(self.program, "w", encoding="utf-8") as file:
            file.write(real.replace("exec", "[ $1 != flatten ] || { echo report; exit 1; }\nexec", 1))
        ran = subprocess.run(words, capture_output=True, check=False, env=environment)
        self.assertEqual((ran.returncode, ran.stdout), (1, b""))
        self.assertIn(b"\nreport\n", ran.stderr)
        self.assertEqual(os.listdir(temporary), [])

    def test_a_stack_as_an_archive(self) -> None:
        for number, layer in enumerate(LAYERS[:1]):
            Path(self.path("in", f"{number}.tar")).write_bytes(layer)
        Path(self.path("in", "top.tar")).write_bytes(archive([folder("./"), folder("d"), member("d/f", kind=b"3")]))
        layers = "--stack", self.path("in", "top.tar"), self.path("in", "0.tar")
        self.require_done(call("flatten", *layers, "--rootfs", "--out", self.path("all", "x.tar")))
        self.assertEqual([it[0] for it in self.entries(self.path("all", "x.tar"))], ["/", "/d", "/d/g", "/l"])
        self.require_done(call("flatten", *layers, "--layers", 2, "--form", "tar", "--out", self.path("all", "two")))
        self.assertEqual(self.entries(self.path("all", "two", "l0.tar"))[-1], ("/d/f", "char", 0))

    def test_what_is_refused(self) -> None:
        for words, out, problem in (
            (("--base", "1"), "x", "--rootfs makes one tree and no image, without --base"),
            (("--layers", "2"), "x", "without --layers"), (("-t", "a"), "x", "without --name"),
            (("--dry-run",), "x", "without --dry-run"), (("--compress", "none"), "x.tar", "--compress none is for images"),
            (("--compress", "gzip"), "x.tar", "--compress is of a squashfs"), ((), "x.img", "a file whose name ends in"),
            ((), "image", "is a layer that is read"),
        ):
            self.require_fault(self.flatten("--rootfs", *words, out=out), 2, problem)
            self.left()
        fault = "--out - takes one file: an archive, or with --form squashfs a squashfs"
        self.require_fault(call("flatten", self.image, "--rootfs", "--form", "folder", "--out", "-"), 2, fault)
        self.require_fault(call("vacuum", "--stack", self.image, "--out", "-"), 2, "there goes the report of vacuum")

    def test_nothing_is_left(self) -> None:
        with open(self.program, encoding="utf-8") as file:
            real = file.read()
        for text, status, problem in (
            ("[ $1 != show ] || { echo >> $0.calls; [ $(wc -l < $0.calls) -lt 3 ] || exec echo entries 0; }", 5,
             "show something else"),
            ("[ $1 != flatten ] || exit 3", 3, "ovl_layers flatten ended with status 3"),
        ):
            with open(self.program, "w", encoding="utf-8") as file:
                file.write(real.replace("exec", f"{text}\nexec", 1))
            for out in ("x.tar", "x.squashfs"):
                if os.path.exists(f"{self.program}.calls"):
                    os.unlink(f"{self.program}.calls")
                result = self.flatten("--rootfs", out=out)
                self.assertEqual(result[0], status, result[2])
                self.assertIn(problem, result[2].splitlines()[-1])
                self.left()

    def test_build_of_an_archive(self) -> None:
        """It keeps fractions of seconds, and leaves out sockets."""
        Path(self.path("in", "up.tar")).write_bytes(archive([folder("./", pax={"mtime": "-1.5"}), member("p", kind=b"6")]))
        manifest = self.path("in", "up.json")
        self.require_done(call("scan", self.path("in", "up.tar"), "--out", manifest, "--digests-only"))
        words = "build", manifest, "--blobs", self.hands, "--out", self.path("all", "b.tar")
        self.require_done(call(*words))
        self.require_done(call("scan", words[-1], "--out", self.path("in", "again.json"), "--digests-only"))
        self.assertEqual(read_manifest(self.path("in", "again.json")), read_manifest(manifest))
        self.assertEqual(read_manifest(manifest)[0].mtime_ns, -1_500_000_000)
        self.require_fault(call(*words, "--compress", "gzip"), 2, "--compress is of a squashfs")


if __name__ == "__main__":
    unittest.main()
