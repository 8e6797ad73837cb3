"""Archives that readers take in several ways: as Go's reader does, or refused."""

import shutil
import subprocess
import sys
import tarfile
import unittest
from collections.abc import Iterable
from pathlib import Path

from images import archive, folder, member, put_index, put_manifest, write_layout
from support import FolderTest, call

from convert.model.manifests import read_manifest
from convert.tar.headers import pax_record

END = bytes(1024)


def raw(name: str, kind: bytes, data: bytes = b"", size: int | None = None, **fields: object) -> bytes:
    """A header as it is in an archive of GNU's, and its data."""
    info = tarfile.TarInfo(name)
    info.type, info.size, info.mode = kind, len(data) if size is None else size, 0o755
    for field, value in fields.items():
        setattr(info, field, value)
    header = bytearray(info.tobuf(tarfile.GNU_FORMAT))
    header[:len(name)] = name.encode()  # as given: tarfile takes away a slash at the end
    return with_checksum(bytes(header)) + data + bytes(-len(data) % 512)


def with_checksum(header: bytes) -> bytes:
    """A header with the checksum that it should have."""
    blank = header[:148] + b" " * 8 + header[156:512]
    return blank[:148] + b"%06o\0 " % sum(blank) + blank[156:] + header[512:]


def records(values: dict[str, str], kind: bytes = b"x") -> bytes:
    """PAX records for the next entry, or for all."""
    return raw("records", kind, b"".join(pax_record(key.encode(), value.encode()) for key, value in values.items()))


class Rules(FolderTest):
    """One layer of given bytes."""

    def unpacked(self, layer: bytes) -> tuple[int, str, dict[str, str]]:
        """The status, what was said, and the kind of each path."""
        write_layout(self.path("image"), [layer])
        status, _, said = call("unpack", self.path("image"), "--out", self.path("out"))
        found: dict[str, str] = {}
        if status == 0:
            found = {entry.path: entry.kind for entry in read_manifest(self.path("out", "l0.json"))}
            found.pop("/")
        self.empty()
        return status, said, found

    def test_read_as_go_reads_them(self) -> None:
        long_name = raw("././@LongLink", b"L", b"long\0")
        cases: Iterable[tuple[str, bytes, dict[str, str]]] = (
            ("type 0 with a slash is a file", raw("tool/", b"0", b"abc"), {"/tool": "file"}),
            ("type NUL with a slash is a directory", raw("tool/", b"\0"), {"/tool": "dir"}),
            ("a long name counts before a record", records({"path": "short"}) + long_name + raw("x", b"0"), {"/long": "file"}),
            ("in either order", long_name + records({"path": "short"}) + raw("x", b"0"), {"/long": "file"}),
            ("a NUL ends a long name", raw("L", b"L", b"a\0b\0") + raw("x", b"0"), {"/a": "file"}),
            ("an empty long name is none", raw("L", b"L", b"\0") + raw("x", b"0"), {"/x": "file"}),
            ("a long target counts before a record", records({"linkpath": "a"}) + raw("K", b"K", b"b\0") + raw("x", b"2"), {"/x": "symlink"}),
        )
        for messages, layer, kinds in cases:
            with self.subTest(messages):
                status, said, found = self.unpacked(layer + END)
                self.assertEqual((status, found), (0, kinds), said)

    def test_refused(self) -> None:
        for layer, words in (
            (raw("x", b"0") + bytes(512) + raw("y", b"0") + END, "a single block of zeros before its end"),
            (raw("d/", b"\0", b"abc") + END, "a directory with data"),
        ):
            with self.subTest(words):
                status, said, _ = self.unpacked(layer)
                self.assertEqual(status, 3)
                self.assertIn(words, said)

    def test_leading_nul_of_a_number(self) -> None:
        """Go passes it over, so the mode is 0755 and not 0."""
        header = bytearray(raw("x", b"0"))
        header[100:108] = b"\0000755\0\0"
        write_layout(self.path("image"), [with_checksum(bytes(header)) + END])
        self.require_done(call("unpack", self.path("image"), "--out", self.path("out")))
        modes = [entry.mode for entry in read_manifest(self.path("out", "l0.json")) if entry.path == "/x"]
        self.assertEqual(modes, [0o755])

    def test_records_for_all_are_said(self) -> None:
        status, said, _ = self.unpacked(records({"uid": "7"}, b"g") + raw("x", b"0") + raw("y", b"0") + END)
        self.assertEqual(status, 0, said)
        self.assertIn("2 entries with values of PAX records for all entries, which docker passes over: x, ..", said.replace("/x", "x"))
        status, said, _ = self.unpacked(records({"comment": "a commit"}, b"g") + raw("x", b"0") + END)
        self.assertEqual((status, said), (0, ""))
        own = records({"uid": "7"}, b"g") + records({"uid": "8"}) + raw("x", b"0") + END
        self.assertEqual(self.unpacked(own)[:2], (0, ""))

    def test_headers_of_links_are_said(self) -> None:
        for mode, words in ((0o755, ""), (0o4755, "hard link with another mode or owner than its file")):
            link = raw("y", b"1", linkname="x", mode=mode)
            status, said, _ = self.unpacked(raw("x", b"0") + link + END)
            self.assertEqual(status, 0)
            self.assertIn(words, said)
            self.assertEqual(bool(words), bool(said))

    def test_sparse_files(self) -> None:
        """Records make a sparse file by their version, or by a map."""
        for values, size in (
            ({"GNU.sparse.size": "9"}, 3), ({"GNU.sparse.size": "9", "GNU.sparse.map": ""}, 3),
            ({"GNU.sparse.size": "9", "GNU.sparse.map": "5,3"}, 9), ({"GNU.sparse.name": "other"}, 3),
        ):
            write_layout(self.path("image"), [records(values) + raw("x", b"0", b"abc") + END])
            self.require_done(call("unpack", self.path("image"), "--out", self.path("out")))
            sizes = {entry.path: entry.size for entry in read_manifest(self.path("out", "l0.json"))}
            self.assertEqual(sizes, {"/": 0, "/x": size})
            self.empty()
        status, said, _ = self.unpacked(records({"GNU.sparse.major": "2"}) + raw("x", b"0", b"abc") + END)
        self.assertEqual(status, 3)
        self.assertIn("a sparse file of an unknown version", said)

    def test_as_umoci_unpacks_them(self) -> None:
        if shutil.which("umoci") is None:
            self.skipTest("needs umoci")
        layer = (
            raw("tool/", b"0", b"abc") + raw("d/", b"\0") + records({"path": "short"}) + raw("L", b"L", b"long\0")
            + raw("x", b"0", b"y") + END
        )
        put_index_of(self.path("image"), layer)
        subprocess.run(
            ["umoci", "raw", "unpack", "--rootless", "--image", f"{self.path('image')}:t", self.path("tree")],
            check=True, stdout=subprocess.DEVNULL, stderr=subprocess.PIPE,
        )
        there = {str(path.relative_to(self.path("tree"))): path.is_dir() for path in Path(self.path("tree")).rglob("*")}
        self.assertEqual(there, {"tool": False, "d": True, "long": False})


def put_index_of(path: str, layer: bytes) -> None:
    """A layout with one image, named `t`."""
    Path(path).mkdir()
    descriptor = put_manifest(path, [layer], [layer], "linux/amd64", {
        "os": "linux", "architecture": "amd64", "config": {}, "history": [],
    })
    put_index(path, [{**descriptor, "annotations": {"org.opencontainers.image.ref.name": "t"}}])


if __name__ == "__main__":
    unittest.main(argv=sys.argv)
