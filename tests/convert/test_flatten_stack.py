"""`flatten --stack`: layers on a disk as fewer ones, beside what the kernel shows of them."""

import os
import socket
import subprocess
import sys
import unittest
from pathlib import Path
from unittest import mock

from images import archive, folder, member
from squashfs_files import from_archive, require
from support import FolderTest, call, program_words, why_no_trusted
from test_kernel import IN_A_NAMESPACE, why_no_overlay

from convert.common.amounts import amount_text
from convert.image.compression import Compression
from convert.model.manifests import read_manifest
from convert.squashfs.programs import Packing, packing_of

STACKS = 6
SEED = 2
_SCRIPT = Path(__file__).with_name("squashfs_stacks.py")
# Takes the topmost layer for each that it makes.
_STAND_IN = """#!/bin/sh
{}
while [ $# -gt 0 ]; do [ "$1" = --out ] && out=$2; shift; done
[ -z "$out" ] || for n in 0 1; do cp stack/l0.json "$out/layer-$n.json"; done
"""
_OTHER_AT_THE_END = """
case $1 in
    show) echo >> "$0.calls"; [ "$(wc -l < "$0.calls")" -lt 3 ] && echo 'entries 0' || echo 'entries 1' ;;
    fsck) echo 'faults 0 notes 0' ;;
esac"""
LOWEST = [folder("./"), folder("d"), member("d/f", b"lowest"), member("d/g", b"g"), member("l", kind=b"1", target="d/g")]
MIDDLE = [folder("./"), folder("d"), member("d/g", kind=b"3"), member("d/h", b"h")]
TOPMOST = [folder("./"), folder("d", pax={"SCHILY.xattr.trusted.overlay.origin": "x"}), member("d/f", b"topmost")]


class StackTest(FolderTest):
    """A test with three layers: an archive over a manifest over a squashfs."""

    def setUp(self) -> None:
        super().setUp()
        require("sqfs2tar", "tar2sqfs")
        self.program = program_words()
        os.mkdir(self.path("in"))
        self.lowest, self.middle, self.topmost = (
            self.path("in", name) for name in ("0.squashfs", "middle.json", "topmost.tar")
        )
        from_archive(archive(LOWEST), self.lowest)
        for path, layer in ((self.topmost, TOPMOST), (self.path("in", "middle.tar"), MIDDLE)):
            with open(path, "wb") as file:
                file.write(archive(layer))
        self.blobs = "--blobs", self.path("in", "blobs")
        self.require_done(call("scan", self.path("in", "middle.tar"), "--out", self.middle, *self.blobs))

    def require_program(self) -> None:
        """Skips a test if the program isn't built."""
        if not self.program:
            self.skipTest("needs the built program")
        for name in ("convert.flatten.image.find_program", "convert.common.program.find_program"):
            patch = mock.patch(name, return_value=self.program[0])
            patch.start()
            self.addCleanup(patch.stop)

    def flatten(self, *words: object, out: str = "flat.squashfs") -> tuple[int, str, str]:
        """Calls the command with the three layers."""
        layers = self.topmost, self.middle, self.lowest
        return call("flatten", "--stack", *layers, *self.blobs, "--out", self.path(out), *words)

    def shown(self, *layers: str) -> dict[str, tuple[str, str]]:
        """What layers hold: kind and size of each entry."""
        found = {}
        for layer in layers:
            self.require_done(call("scan", layer, "--out", self.path("in", "again.json"), "--digests-only"))
            found |= {entry.path: (entry.kind, str(entry.size)) for entry in read_manifest(self.path("in", "again.json"))}
        return found


class Stacks(StackTest):
    """Layers of each form."""

    WANTED = {"/": ("dir", "0"), "/d": ("dir", "0"), "/d/f": ("file", "7"), "/d/h": ("file", "1"), "/l": ("file", "1")}

    def test_one_layer(self) -> None:
        self.require_program()
        result = self.flatten("--compress", "gzip", "--keep", self.path("kept"))
        self.require_done(result)
        self.assertEqual(self.shown(self.path("flat.squashfs")), self.WANTED)
        steps = [line.split(": ")[1] for line in result[2].splitlines()]
        self.assertEqual(steps[0], "scan")
        self.assertEqual(steps[-3:], ["build", "the new layers, read again", self.path("flat.squashfs")])
        self.assertIn("1 layer in place of 3", result[2])
        self.require_nothing_left("flat.squashfs", "in", "kept")
        with open(self.path("kept", "new.show"), "rb") as one, open(self.path("kept", "before.show"), "rb") as other:
            self.assertEqual(one.read(), other.read())

    def test_paths_that_are_excluded(self) -> None:
        self.require_program()
        self.require_done(self.flatten("--exclude", "d/h", "--exclude", "/l"))
        wanted = {path: what for path, what in self.WANTED.items() if path not in ("/d/h", "/l")}
        self.assertEqual(self.shown(self.path("flat.squashfs")), wanted)
        self.require_done(self.flatten("--exclude", "/l", "--layers", 2, "--form", "squashfs", out="two"))
        upper = self.shown(self.path("two", "l0.squashfs"))
        self.assertEqual(upper["/l"], ("char", "0"))

    def test_several_layers(self) -> None:
        self.require_program()
        self.require_done(self.flatten("--layers", 2, "--form", "squashfs", out="flat"))
        self.assertEqual(sorted(os.listdir(self.path("flat"))), ["l0.squashfs", "l1.squashfs"])
        upper = self.shown(self.path("flat", "l0.squashfs"))
        self.assertEqual((upper["/d/g"], upper["/d/f"]), (("char", "0"), ("file", "7")))
        self.assertNotIn("/l", upper)
        result = self.flatten("--layers", 3, "--form", "squashfs", out="three")
        self.assertIn("1 mark of the host's overlay left out", result[2])
        self.assertEqual(dict(self.shown(self.path("three", "l0.squashfs"))), {
            "/": ("dir", "0"), "/d": ("dir", "0"), "/d/f": ("file", "7"),
        })
        reason = why_no_trusted(self.folder)
        if reason is None:
            self.require_done(self.flatten("--layers", 2, out="folders"))
            self.assertEqual(self.shown(self.path("folders", "l0")), upper)
            self.require_nothing_left("flat", "folders", "in", "three")

    def test_packed_as_the_given_one(self) -> None:
        """The topmost squashfs: its compression with the level, and its blocks; the file's mode is the umask's."""
        self.require_program()
        words = "--compressor", "zstd", "--comp-extra", "level=3", "--block-size", "16384"
        from_archive(archive([folder("./"), member("z", bytes(50_000))]), self.path("in", "zstd.squashfs"), *words)
        given = Packing(Compression("zstd", 3), 16_384)
        self.addCleanup(os.umask, os.umask(0o022))
        for layers, more, mask, wanted in (
            ((self.topmost, self.path("in", "zstd.squashfs"), self.lowest), (), 0o022, given),
            ((self.path("in", "zstd.squashfs"), self.lowest), ("--compress", "gzip:1"), 0o077,
             Packing(Compression("gzip", 1), 16_384)),
            ((self.topmost, self.topmost), (), 0o002, Packing(Compression("xz"), 131_072)),
        ):
            os.umask(mask)
            out = self.path("out.squashfs")
            result = call("flatten", "--stack", *layers, *more, "--out", out)
            self.require_done(result)
            self.assertEqual(packing_of(out), wanted)
            self.assertEqual(os.stat(out).st_mode & 0o777, 0o644 & ~mask)
            size, whole = os.path.getsize(out), sum(map(os.path.getsize, layers))
            self.assertIn(f", {amount_text(size)} in place of {amount_text(whole)} (", result[2])
        data = bytearray(Path(out).read_bytes())
        data[20:22] = b"\x03\x00"  # by lzo
        Path(out).write_bytes(data)
        self.assertEqual(packing_of(out), Packing())

    def test_data_only_layers(self) -> None:
        self.require_program()
        marks = {"SCHILY.xattr.trusted.overlay.metacopy": "", "SCHILY.xattr.trusted.overlay.redirect": "/data/f"}
        with open(self.path("in", "meta.tar"), "wb") as file:
            file.write(archive([folder("./"), member("f", bytes(6), pax=marks)]))
        with open(self.path("in", "data.tar"), "wb") as file:
            file.write(archive([folder("./"), folder("data"), member("data/f", b"abcdef")]))
        layers = self.path("in", "meta.tar"), self.path("in", "data.tar")
        out = self.path("flat.squashfs")
        self.require_done(call("flatten", "--stack", *layers, "--data-layers", 1, "--out", out))
        self.require_done(call("scan", out, "--out", self.path("flat.json"), "--blobs", self.path("blobs")))
        root, only = read_manifest(self.path("flat.json"))
        self.assertEqual((only.path, only.size, dict(only.attributes)), ("/f", 6, {}))
        with open(self.path("blobs", str(only.blob)), "rb") as file:
            self.assertEqual(file.read(), b"abcdef")

    def test_sockets_hide_what_is_below(self) -> None:
        """That of a squashfs, which can't be had, and that of a folder, which a squashfs can't have."""
        self.require_program()
        require("mksquashfs")
        reason = why_no_trusted(self.folder)
        if reason:
            self.skipTest(reason)
        os.mkdir(self.path("in", "upper"))
        with socket.socket(socket.AF_UNIX) as made:
            made.bind(self.path("in", "upper", "l"))
        upper = self.path("in", "upper.squashfs")
        words = ["mksquashfs", self.path("in", "upper"), upper, "-quiet", "-no-progress"]
        subprocess.run(words, check=True, capture_output=True)
        for number, layer in enumerate((upper, self.path("in", "upper"))):
            for count in (1, 2):
                out = self.path(f"flat{number}{count}")
                words = ["flatten", "--stack", layer, self.lowest, "--form", "squashfs", "--layers", str(count)]
                result = call(*words, "--out", out)
                self.require_done(result)
                self.assertIn("1 socket left out", result[2])
                files = [out] if count == 1 else [f"{out}/l1.squashfs", f"{out}/l0.squashfs"]
                self.assertEqual(self.shown(*files).get("/l", ("char", "0")), ("char", "0"))

    def test_words_that_do_not_fit(self) -> None:
        for words, messages in (
            (("--from-tag", "x"), "--from-tag is for images alone"), (("-t", "x"), "--name is for images alone"), (("--dry-run",), "--dry-run is for images alone"),
            (("--compress", "none"), "--compress none is for images alone"), ((self.topmost,), "name an IMAGE"),
            (("--layers", 2), "--form squashfs makes them squashfs files"), (("--data-layers", 3), "of 3 layers 3 can't"),
            (("--keep", self.path("flat.squashfs")), "--keep and --out must be two places"),
            (("--form", "folder", "--compress", "xz"), "--compress is of a squashfs"),
        ):
            result = self.flatten(*words)
            self.require_fault(result, 2, messages)
        layers = "--stack", self.middle, self.lowest, "--out", self.path("flat.squashfs")
        self.require_fault(call("flatten", *layers), 2, "middle.json is a manifest: --blobs must name")
        self.require_fault(call("flatten", "x.tar", "--form", "folder", "--out", "y"), 2, "--form is for --stack and --rootfs alone")
        self.require_fault(call("flatten", "x.tar", "--compress", "xz", "--out", "y"), 2, "xz is for a squashfs alone")
        os.mkdir(self.path("flat.squashfs"))
        self.require_fault(self.flatten(), 4, "flat.squashfs: it is no regular file")
        self.require_nothing_left("flat.squashfs", "in")

    def test_nothing_is_left(self) -> None:
        """When the new layers show something else, and when the program ends with a fault."""
        program = self.path("in", "ovl_layers")
        for text, status, messages in (
            ("case $1 in show) echo $$;; fsck) echo 'faults 0 notes 0';; esac", 5, "show something else"),
            (_OTHER_AT_THE_END, 5, "show something else"), ("exit 3", 3, "ovl_layers flatten ended with status 3"),
        ):
            with open(program, "w", encoding="utf-8") as file:
                file.write(_STAND_IN.format(text))
            os.chmod(program, 0o755)
            self.program = [program]
            self.require_program()
            result = self.flatten()
            self.require_fault_at_end(result, status, messages)
            self.assertEqual("layers: build: 1 layer, " in result[2], text is _OTHER_AT_THE_END)
            self.require_nothing_left("in")

    def require_fault_at_end(self, result: tuple[int, str, str], status: int, messages: str) -> None:
        """The last line that was printed."""
        self.assertEqual(result[0], status, result[2])
        self.assertIn(messages, result[2].splitlines()[-1])


class Kernel(FolderTest):
    """Stacks that the kernel makes."""

    def test_stacks_of_squashfs(self) -> None:
        require("sqfs2tar", "tar2sqfs")
        reason = why_no_overlay(self.folder, "l")
        if reason or not program_words():
            self.skipTest(reason or "needs the built program")
        words = [*IN_A_NAMESPACE, sys.executable, "-B", str(_SCRIPT), self.folder, str(SEED), str(STACKS)]
        result = subprocess.run([*words, *program_words()], capture_output=True, text=True, check=False)
        self.assertEqual(result.returncode, 0, result.stdout[-5_000:] + result.stderr[-5_000:])
        self.require_nothing_left()


if __name__ == "__main__":
    unittest.main()
