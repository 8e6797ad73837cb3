"""Images as tools write them: what becomes of their entries, and which forms are read."""

import hashlib
import io
import os
import random
import shutil
import subprocess
import tarfile
import unittest
from fractions import Fraction
from pathlib import Path
from unittest import mock

from images import (
    archive, folder, is_document, member, packed, put_index, put_manifest, write_layout, write_saved,
)
from support import FolderTest, call, links

from convert.model.entries import Entry
from convert.model.links import links_path
from convert.model.manifests import read_manifest

A = hashlib.sha256(b"a").hexdigest()
PLAIN = [folder("d"), member("d/f", b"a")]
PLAIN_SHOWN = ["dir 755 /", "dir 755 /d", f"file 644 /d/f {A[:4]}"]


def short(entry: Entry) -> str:
    """An entry in a few words."""
    words = [entry.kind, f"{entry.mode:o}", entry.path]
    if entry.blob is not None:
        words.append(entry.blob[:4])
    if entry.kind in ("char", "block"):
        words.append(f"{entry.major}:{entry.minor}")
    if entry.target:
        words.append(entry.target)
    return " ".join(words + [f"{name}={value.decode()}" for name, value in sorted(entry.attributes.items())])


class ImageTest(FolderTest):
    """A test that unpacks images."""

    def layers(self, *words: object) -> list[list[str]]:
        """The layers of an image as short words, the topmost first."""
        result = call("unpack", self.path("image"), "--out", self.path("out"), *words)
        self.require_done(result)
        names = [f"l{number}.json" for number in range(len(list(Path(self.path("out")).glob("l*.json"))))]
        beside = [links_path(name) for name in names]
        others = {"blobs", "config.json"} & set(os.listdir(self.path("out")))
        self.assertEqual(sorted(os.listdir(self.path("out"))), sorted([*names, *beside, "shown.links", *others]))
        found = [list(map(short, read_manifest(self.path("out", name)))) for name in names]
        shutil.rmtree(self.path("out"))
        return found

    def one(self, *members: tuple[tarfile.TarInfo, bytes]) -> list[str]:
        """The one layer of an image of these entries."""
        write_layout(self.path("image"), [archive(members)])
        return self.layers()[0]


class Entries(ImageTest):
    """What the entries of an archive become."""

    def test_kinds_and_parents_that_are_left_out(self) -> None:
        device = member("a/c", kind=tarfile.CHRTYPE)
        device[0].devmajor, device[0].devminor = 5, 1
        self.assertEqual(
            self.one(
                member("x/y/f", b"a"), member("l", kind=tarfile.SYMTYPE, target="/etc", mode=0o600), device,
                member("a/p", kind=tarfile.FIFOTYPE), member("empty"), member("/abs", b"a"), folder("./", 0o700),
            ),
            [
                "dir 700 /", "dir 755 /a", "char 644 /a/c 5:1", "fifo 644 /a/p", f"file 644 /abs {A[:4]}",
                "file 644 /empty", "symlink 777 /l /etc", "dir 755 /x", "dir 755 /x/y", f"file 644 /x/y/f {A[:4]}",
            ],
        )

    def test_whiteouts_and_opaque_directories(self) -> None:
        opaque = "trusted.overlay.opaque=y"
        self.assertEqual(
            self.one(
                member(".wh.gone"), folder("o"), member("o/.wh..wh..opq"), member("o/k", b"a"),
                member("n/.wh..wh..opq"), member("n/f"), member(".wh.again"), member("again/f", b"a"),
                member("file", b"a"),
                member(".wh.file"),
            ),
            [
                "dir 755 /", f"dir 755 /again {opaque}", f"file 644 /again/f {A[:4]}", f"file 644 /file {A[:4]}",
                "char 0 /gone 0:0", f"dir 755 /n {opaque}", "file 644 /n/f", f"dir 755 /o {opaque}",
                f"file 644 /o/k {A[:4]}",
            ],
        )

    def test_later_entries_take_the_place_of_earlier_ones(self) -> None:
        self.assertEqual(
            self.one(
                folder("d", 0o700), member("d/f", b"b"), folder("d", 0o711), member("d/f", b"a"),
                folder("t"), member("t/inner", b"a"), member("t", b"a"), member("u", b"a"), folder("u"),
            ),
            ["dir 755 /", "dir 711 /d", f"file 644 /d/f {A[:4]}", f"file 644 /t {A[:4]}", "dir 755 /u"],
        )

    def test_the_number_of_entries(self) -> None:
        inner = [folder("t"), member("t/a"), member("t/b"), member("t")]
        for members, is_good in (
            ([*inner, member("u")], True), ([*inner, member("u"), member("v")], True),
            ([*inner, member("u"), member("v"), member("w")], False), ([member("a/b/c"), member(".wh.d")], False),
        ):
            write_layout(self.path("image"), [archive(members)])
            with mock.patch("convert.model.rules.MAX_ENTRIES", 4):
                result = call("unpack", self.path("image"), "--out", self.path("out"))
            if is_good:
                self.require_done(result)
            else:
                self.require_fault(result, 3, "the layer has over 4 entries")
            self.empty()

    def test_hard_links_and_attributes(self) -> None:
        pax = {"SCHILY.xattr.user.k": "v", "mtime": "-1.5"}
        write_layout(
            self.path("image"),
            [archive([member("f", b"a", mode=0o600, pax=pax), member("h", kind=tarfile.LNKTYPE, target="./f")])],
        )
        result = call("unpack", self.path("image"), "--out", self.path("out"))
        self.require_done(result)
        self.assertEqual(links(self.path("out", "l0.links")), [["/f", "/h"]])
        self.assertNotIn("cut", result[2])
        entries = read_manifest(self.path("out", "l0.json"))
        self.assertEqual([entry.mtime_ns for entry in entries], [0, -1_500_000_000, -1_500_000_000])
        self.assertEqual(
            list(map(short, entries[1:])), [f"file 600 /f {A[:4]} user.k=v", f"file 600 /h {A[:4]} user.k=v"]
        )

    def test_times_of_records(self) -> None:
        for record, time_ns, is_cut in (
            ("1.5", 1_500_000_000, False), ("-1.5", -1_500_000_000, False), ("-.5", -500_000_000, False),
            ("-0.5", -500_000_000, False), ("7.", 7_000_000_000, False), (".000000001", 1, False),
            ("-0.000000001", -1, False), ("1.123456789", 1_123_456_789, False), ("-1.999999999", -1_999_999_999, False),
            ("2.50000000000000", 2_500_000_000, False), ("-2.00000000000", -2_000_000_000, False),
            ("0.9999999999", 999_999_999, True), ("-0.0000000001", -1, True), ("-1.9999999999", -2_000_000_000, True),
            # More digits than a float holds.
            ("1700000000.123456789", 1_700_000_000_123_456_789, False),
            (f"{2**63 - 1}.999999999", (2**63 - 1) * 10**9 + 999_999_999, False), (f"-{2**63}", -(2**63) * 10**9, False),
        ):
            write_layout(self.path("image"), [archive([member("f", pax={"mtime": record})])])
            result = call("unpack", self.path("image"), "--out", self.path("out"))
            self.require_done(result)
            self.assertEqual("1 time cut to whole nanoseconds: /f" in result[2], is_cut, record)
            self.assertEqual(read_manifest(self.path("out", "l0.json"))[1].mtime_ns, time_ns, record)
            self._require_packed(time_ns)
            self.empty()
        for record in (f"{2**63}", f"-{2**63}.000000001", "1.5.5", "1.-5", "1.x", "x.5", "--1.5", "nan"):
            write_layout(self.path("image"), [archive([member("f", pax={"mtime": record})])])
            self.assertEqual(call("unpack", self.path("image"), "--out", self.path("out"))[0], 3, record)
            self.empty()

    def _require_packed(self, time_ns: int) -> None:
        """What was unpacked is packed with this time: exactly in a record, or only in the header if it has place."""
        words = ("pack", self.path("out", "l0.json"), "--blobs", self.path("out", "blobs"), "--out", self.path("again"))
        self.require_done(call(*words))
        (layer,) = [path for path in os.scandir(self.path("again", "blobs", "sha256")) if not is_document(path.path)]
        with tarfile.open(layer.path, encoding="utf-8") as file:
            found = file.getmember("f")
        with open(layer.path, "rb") as data:
            self.assertEqual(b"mtime=" in data.read(), "mtime" in found.pax_headers)
        whole, has_place = time_ns % 10**9 == 0, 0 <= time_ns < 8**11 * 10**9
        if whole and has_place:
            self.assertEqual((found.mtime, found.pax_headers), (time_ns // 10**9, {}))
        else:
            self.assertEqual(Fraction(found.pax_headers["mtime"]), Fraction(time_ns, 10**9))

    def test_gnu_headers(self) -> None:
        out = io.BytesIO()
        with tarfile.open(fileobj=out, mode="w", format=tarfile.GNU_FORMAT) as file:
            for name, target in (("n" * 200, ""), ("d/" * 60 + "f", "t" * 150)):
                info, _ = member(name, kind=tarfile.SYMTYPE if target else tarfile.REGTYPE, target=target)
                info.mtime, info.uid = -5, 3_000_000_000
                file.addfile(info)
        write_layout(self.path("image"), [out.getvalue()])
        self.require_done(call("unpack", self.path("image"), "--out", self.path("out")))
        found = [entry for entry in read_manifest(self.path("out", "l0.json")) if entry.kind != "dir"]
        self.assertEqual(
            [(entry.path, entry.mtime_ns, entry.uid, entry.target) for entry in found],
            [
                ("/" + "d/" * 60 + "f", -5_000_000_000, 3_000_000_000, "t" * 150),
                ("/" + "n" * 200, -5_000_000_000, 3_000_000_000, ""),
            ],
        )

    def test_an_opaque_root_hides_names_of_lower_layers(self) -> None:
        lower = archive([member("f", b"a"), member("d/f", b"a"), member(".wh.w")])
        upper = archive([member(".wh..wh..opq"), folder("d")])
        write_layout(self.path("image"), [lower, upper])
        self.assertEqual(
            self.layers()[0], ["dir 755 /", "dir 755 /d trusted.overlay.opaque=y", "char 0 /f 0:0"]
        )


class Forms(ImageTest):
    """Which images and layers are read."""

    def test_packed_layers(self) -> None:
        plain = archive(PLAIN)
        for data in (plain, packed(plain), packed(plain[:700]) + packed(plain[700:])):
            write_layout(self.path("image"), [data], [plain])
            self.assertEqual(self.layers(), [PLAIN_SHOWN])

    def test_zstd(self) -> None:
        if shutil.which("zstd") is None:
            self.skipTest("needs the zstd program")
        plain = archive(PLAIN)
        data = subprocess.run(["zstd", "-q", "-c"], input=plain, capture_output=True, check=True).stdout
        write_layout(self.path("image"), [data], [plain])
        self.assertEqual(self.layers(), [PLAIN_SHOWN])
        with mock.patch("convert.common.streams.shutil.which", return_value=None):
            result = call("unpack", self.path("image"), "--out", self.path("out"))
        self.require_fault(result, 3, "packed by zstd", "install zstd")
        shutil.rmtree(self.path("image"))
        large = archive([member("large", random.Random(1).randbytes(3_000_000))])
        squeezed = subprocess.run(["zstd", "-q", "-c"], input=large, capture_output=True, check=True).stdout
        for broken in (data[:-20], data[:-4] + b"sum?", squeezed[:2_000_000]):
            write_layout(self.path("image"), [broken], None)
            result = call("unpack", self.path("image"), "--out", self.path("out"))
            self.require_fault(result, 3, "its zstd stream is broken: ")
            self.assertRegex(result[2], r"is broken: [A-Z][a-z]+ .*\n\Z")
            self.require_nothing_left("image")
            shutil.rmtree(self.path("image"))

    def test_digests_only(self) -> None:
        write_layout(self.path("image"), [archive([*PLAIN, member("d/g", bytes(700_000)), member("d/h")])])
        words = ("unpack", self.path("image"), "--out")
        self.require_done(call(*words, self.path("whole")))
        self.require_done(call(*words, self.path("digests"), "--digests-only"))
        self.assertEqual(sorted(os.listdir(self.path("digests"))), ["config.json", "l0.json", "l0.links", "shown.links"])
        manifests = [read_manifest(self.path(name, "l0.json")) for name in ("whole", "digests")]
        self.assertEqual(*manifests)

    def test_layers_are_in_order_and_equal_ones_stay_two(self) -> None:
        one, two = archive([member("one", b"a")]), archive([member("two", b"a")])
        shown = [["dir 755 /", f"file 644 /{name} {A[:4]}"] for name in ("one", "two", "one")]
        write_layout(self.path("image"), [one, two, one])
        self.assertEqual(self.layers(), shown)
        shutil.rmtree(self.path("image"))
        write_saved(self.path("image"), [one, two, one])
        self.assertEqual(self.layers(), shown)

    def test_a_layout_in_an_archive(self) -> None:
        write_layout(self.path("layout"), [archive(PLAIN)])
        with tarfile.open(self.path("image"), "w") as file:
            file.add(self.path("layout"), "./")
        self.assertEqual(self.layers(), [PLAIN_SHOWN])

    def test_several_images(self) -> None:
        path = self.path("image")
        amd = put_manifest(path, [archive(PLAIN)], None, "linux/amd64")
        arm = put_manifest(path, [archive([member("arm", b"a")])], None, "linux/arm64")
        note = {**put_manifest(path, [archive([])], None, "unknown/unknown"),
                "annotations": {"vnd.docker.reference.type": "attestation-manifest"}}
        gone = {**arm, "digest": "sha256:" + "0" * 64}
        put_index(path, [amd, arm, note, gone])
        result = call("unpack", path, "--out", self.path("out"))
        self.require_fault(result, 3, "2 images (linux/amd64; linux/arm64)", "--platform")
        self.assertEqual(self.layers("--platform", "linux/amd64"), [PLAIN_SHOWN])
        result = call("unpack", path, "--out", self.path("out"), "--platform", "linux/s390x")
        self.require_fault(result, 3, "none of them is --platform linux/s390x")
        put_index(path, [amd, note, gone])
        self.assertEqual(self.layers(), [PLAIN_SHOWN])

    def test_an_index_inside_another(self) -> None:
        path = self.path("image")
        inner = put_manifest(path, [archive(PLAIN)], None, "linux/amd64")
        put_index(path, [inner])
        with open(f"{path}/index.json", "rb") as file:
            data = file.read()
        digest = hashlib.sha256(data).hexdigest()
        with open(f"{path}/blobs/sha256/{digest}", "wb") as out:
            out.write(data)
        put_index(path, [{
            "mediaType": "application/vnd.oci.image.index.v1+json", "digest": f"sha256:{digest}", "size": len(data),
        }])
        self.assertEqual(self.layers(), [PLAIN_SHOWN])


if __name__ == "__main__":
    unittest.main()
