"""Room: what is needed is asked for before anything is written, and a full disk is reported by the name of `--out`."""

import contextlib
import os
import resource
import shutil
import subprocess
import sys
import tarfile
import unittest
from types import SimpleNamespace
from unittest import mock

from images import archive, folder, member, packed, write_layout
from support import COMMAND, FolderTest, call

from convert.model.links import take_links
from convert.model.manifests import read_manifest
from convert.tar.least_sizes import least_archive, least_shown

FREE = 4_096
BYTES = 100_000
MEGABYTE = 1 << 20
DATA = os.urandom(BYTES)
LAYER = archive([
    folder("./"), member("a", DATA), member("h", kind=tarfile.LNKTYPE, target="a"), folder("d"),
    member("t", b"x", pax={"mtime": "1.5", "SCHILY.xattr.user.k": "v"}),
])
# The program's stand-in: what it shows, and nothing that it writes.
_STAND_IN = f"""#!/bin/sh
echo "dir 0755 0 0 0 - - /"
echo "file 0644 0 0 0 {BYTES} {'a' * 64} /a"
echo "file 0644 0 0 0 {BYTES} {'a' * 64} /b"
echo "entries 3"
"""


class Room(FolderTest):
    """An image and its layer."""

    def setUp(self) -> None:
        super().setUp()
        write_layout(self.path("image"), [LAYER])
        self.require_done(call("unpack", self.path("image"), "--out", self.path("stack")))
        program = self.path("ovl_layers")
        with open(program, "w", encoding="utf-8") as file:
            file.write(_STAND_IN)
        os.chmod(program, 0o755)
        self.enterContext(mock.patch("convert.common.program.find_program", return_value=program))
        stack = self.path("stack")
        self.packing = ("pack", f"{stack}/l0.json", "--blobs", f"{stack}/blobs", "--config", f"{stack}/config.json")
        self.building = ("build", f"{stack}/l0.json", "--blobs", f"{stack}/blobs")
        self.there = os.listdir(self.folder)

    def test_refused_before_anything_is_written(self) -> None:
        for words, name, need in (
            (self.packing, "new", 105_472), (self.packing, "new.tar", 105_472), (self.packing, "oci:new", 105_472),
            (self.building, "new", BYTES + 1), (("unpack", self.path("image")), "new", len(LAYER)),
            (("flatten", self.path("image")), "new.tar", len(LAYER)),
        ):
            system = SimpleNamespace(f_blocks=1, f_bfree=1, f_bavail=1, f_frsize=FREE)
            with self.subTest(words=words, name=name), mock.patch("os.statvfs", return_value=system), \
                    mock.patch("convert.folder.build.may_clone", return_value=False), \
                    self.no_stage() if words[0] != "flatten" else contextlib.nullcontext():
                out = self.path(name) if ":" not in name else name.replace(":", f":{self.folder}/")
                path = out.removeprefix("oci:")
                result = call(*words, "--out", out)
                wanted = f"cannot write {path}: it takes at least {need:,} bytes, and {FREE:,} are free\n"
                self.assertEqual((result[0], result[2].splitlines(True)[-1]), (4, f"layers: {wanted}"))
            self.require_nothing_left(*self.there)
        self.assertEqual(call("unpack", self.path("image"), "--out", self.path("new"), "--digests-only")[0], 0)

    def no_stage(self) -> contextlib.AbstractContextManager[object]:
        """Has each beginning of an output fail."""
        return mock.patch("convert.common.outputs.Stage", side_effect=AssertionError)

    def test_what_is_needed(self) -> None:
        entries = read_manifest(self.path("stack", "l0.json"))
        take_links(self.path("stack", "l0.json"), entries)
        self.require_done(call(*self.packing, "--out", self.path("new")))
        sizes = [os.path.getsize(entry.path) for entry in os.scandir(self.path("new", "blobs", "sha256"))]
        self.assertEqual(least_archive(entries), max(sizes))
        with open(self.path("report"), "wb") as file:
            subprocess.run([self.path("ovl_layers")], stdout=file, check=True)
        self.assertEqual(least_shown(self.path("report")), BYTES + 4 * 512)

    def test_a_full_disk_is_told_by_the_name(self) -> None:
        for words, name in (
            (self.packing, "new"), (self.packing, "new.tar"), ((*self.packing, "--compress", "gzip"), "new.tar"),
            (("unpack", self.path("image")), "new"), (("flatten", self.path("image")), "new.tar"),
            (("flatten", self.path("image")), "new"),
        ):
            with self.subTest(words=words, name=name):
                command = [sys.executable, "-B", str(COMMAND), *words, "--out", name]
                result = subprocess.run(
                    command, capture_output=True, text=True, check=False, cwd=self.folder,
                    env={**os.environ, "PATH": f"{self.folder}:{os.environ['PATH']}"},
                    preexec_fn=lambda: resource.setrlimit(resource.RLIMIT_FSIZE, (50_000, 50_000)),
                )
                messages = f"layers: cannot write {name}: File too large\n"
                self.assertEqual((result.returncode, result.stderr.splitlines(True)[-1]), (4, messages))
            self.require_nothing_left(*self.there)

    def test_a_small_file_system(self) -> None:
        """An archive is written once; holes take no room."""
        sparse = {"GNU.sparse.map": f"0,{BYTES}", "GNU.sparse.size": str(1 << 30)}
        layers = [archive([member("f", os.urandom(4 * MEGABYTE))]), archive([member("s", DATA, pax=sparse)])]
        write_layout(self.path("big"), [layers[0], packed(layers[1])])
        os.mkdir(self.path("small"))
        stack = "small/stack"
        made = " ".join(["pack", f"{stack}/l1.json", "--blobs", f"{stack}/blobs", "--out", "small/new.tar"])
        tool = f"{sys.executable} -B {COMMAND}"
        script = (
            f"mount -t tmpfs -o size={9 * MEGABYTE} none small || exit 99\n"
            f"{tool} unpack big --out {stack} && {tool} {made} && stat -c %s small/new.tar && rm small/new.tar\n"
            f"head -c {MEGABYTE} /dev/urandom > small/other; {tool} {made}; ls -A small"
        )
        if os.geteuid() != 0 or shutil.which("unshare") is None:
            self.skipTest("needs root, for a file system of its own")
        result = subprocess.run(
            ["unshare", "--mount", "sh", "-c", script], capture_output=True, text=True, check=False, cwd=self.folder
        )
        if result.returncode == 99:
            self.skipTest(f"no tmpfs can be mounted: {result.stderr}")
        size, *left = result.stdout.split()
        self.assertLess(int(size) - 4 * MEGABYTE, 20_000, result.stderr)
        self.assertEqual(left, ["other", "stack"])
        self.assertRegex(result.stderr, r"cannot write small/new.tar: it takes at least 4,[0-9,]+ bytes, and [0-9,]+ are")


if __name__ == "__main__":
    unittest.main()
