"""Hostile and broken images: refused with a reason, nothing left, memory bounded."""

import contextlib
import gzip
import hashlib
import io
import json
import os
import random
import re
import resource
import shutil
import subprocess
import sys
import tarfile
import threading
import unittest
import zlib
from collections.abc import Iterator
from unittest import mock

from images import archive, folder, member, packed, put_index, put_manifest, write_layout, write_saved
from support import IS_SIDE_BY_SIDE, FolderTest, call, run

from convert import cli as command
from convert.common.streams import MAX_MEMBERS, MEMBER_BYTES
from convert.tar.headers import pax_record

GIGABYTE = 1 << 30
BOMB_BYTES = GIGABYTE
MEMORY = 200 * 1024  # KB, that the whole process may write to
SECONDS = 20  # of processor time
FILES = 24  # that it may have open


class HostileTest(FolderTest):
    """A test that images are refused."""

    def require_refused(self, *parts: str, words: tuple[str, ...] = ()) -> None:
        """The image is refused with these words, and nothing is left of the attempt."""
        before = sorted(os.listdir(self.folder))
        result = call("unpack", self.path("image"), "--out", self.path("out"), *words)
        self.require_fault(result, 3, *parts)
        self.assertEqual(len(result[2].splitlines()), 1)
        self.require_nothing_left(*before)

    def refuse(
        self, *members: tuple[tarfile.TarInfo, bytes], because: str, words: tuple[str, ...] = ()
    ) -> None:
        """A layer of these entries is refused; without its last entry it is read."""
        write_layout(self.path("image"), [archive(members)])
        self.require_refused(because, words=words)
        result = call("unpack", self.path("image"), "--out", self.path("out"), "--skip-unsupported", *words)
        self.require_done(result)
        self.assertIn("left out", result[2])
        skipped = self._manifest()
        self.empty()
        write_layout(self.path("image"), [archive(members[:-1])])
        self.require_done(call("unpack", self.path("image"), "--out", self.path("out")))
        self.assertEqual(skipped, self._manifest())
        self.empty()

    def _manifest(self) -> bytes:
        with open(self.path("out", "l0.json"), "rb") as file:
            return file.read()


class Paths(HostileTest):
    """Paths never lead outside."""

    def test_ways_up(self) -> None:
        for name in ("../x", "a/../../x", "..", "/../x", "a/../.."):
            self.refuse(member(name, b"a"), because="its name leads out of the layer by ..")
        self.refuse(member("a/..", b"a"), because="the root is no directory")

    def test_links_on_the_way(self) -> None:
        link = member("l", kind=tarfile.SYMTYPE, target="/")
        for name in ("l/etc/passwd", "l/x"):
            self.refuse(link, member(name, b"a"), because="its path leads through the symlink /l")
        self.refuse(link, folder("l/d"), because="its path leads through the symlink /l")

    def test_hard_links_to_the_outside(self) -> None:
        for target in ("../../etc/passwd", "/etc/passwd", "absent", "d", ".", "later"):
            self.refuse(
                folder("d"), member("h", kind=tarfile.LNKTYPE, target=target), because="h: "
            )

    def test_absolute_names_count_from_the_layer(self) -> None:
        write_layout(self.path("image"), [archive([member("/etc/passwd", b"a"), member("//x", b"a")])])
        self.require_done(call("unpack", self.path("image"), "--out", self.path("out")))
        self.assertIn(b'"path":"/etc/passwd"', self._manifest())
        self.assertEqual(sorted(os.listdir(self.folder)), ["image", "out"])

    def test_names(self) -> None:
        for name, because in (
            ("n" * 256, "its name has 256 bytes"), ("d/" * 128 + "f", "129 names deep"),
            ("\udcff", "isn't UTF-8"), ("/".join(["n" * 255] * 16), "its path has 4096 bytes"),
        ):
            info, data = member(name, b"a")
            write_layout(self.path("image"), [self._gnu(info, data)])
            self.require_refused(because)
            self.empty()

    def _gnu(self, info: tarfile.TarInfo, data: bytes) -> bytes:
        out = io.BytesIO()
        with tarfile.open(fileobj=out, mode="w", format=tarfile.GNU_FORMAT, errors="surrogateescape") as file:
            file.addfile(info, io.BytesIO(data))
        return out.getvalue()


class Whiteouts(HostileTest):
    """Names that look like whiteouts."""

    def test_whiteouts_of_nothing(self) -> None:
        for name in (".wh.", "d/.wh.", ".wh..", ".wh..."):
            self.refuse(member(name), because="a whiteout of nothing")
        self.refuse(member(".wh.d/f", b"a"), because="leads through a whiteout")

    def test_a_file_below_a_file(self) -> None:
        self.refuse(member("f", b"a"), member("f/g", b"a"), because="through what is no directory, /f")


class Values(HostileTest):
    """Values that no manifest has."""

    def test_attributes(self) -> None:
        """An attribute that can't be stated is left out by itself, too many with their entry."""
        pax = {"SCHILY.xattr.trusted.overlay.overlay.opaque": "y"}
        write_layout(self.path("image"), [archive([member("f", pax=pax)])])
        self.require_refused("trusted.overlay.overlay.opaque", words=("--overlay-marks",))
        result = call("unpack", self.path("image"), "--out", self.path("out"), "--skip-unsupported", "--overlay-marks")
        self.require_done(result)
        self.assertIn("left out", result[2])
        self.assertIn(b'"path":"/f","size":0,"uid":0,"xattrs":{}', self._manifest())
        self.empty()
        pax = {f"SCHILY.xattr.user.{number:0200}": "" for number in range(320)}
        self.refuse(member("f", pax=pax), because="the names of its attributes have over 65536 bytes")

    def test_types(self) -> None:
        self.refuse(member("f", kind=b"V"), because="an entry of type")
        self.refuse(member("l", kind=tarfile.SYMTYPE), because="its target isn't")

    def test_numbers(self) -> None:
        for key, value in (("uid", "4294967296"), ("gid", "-1"), ("mtime", str(2**63))):
            self.refuse(member("f", pax={key: value}), because=value)

    def test_the_root_as_a_file(self) -> None:
        self.refuse(member(".", b"a"), because="the root is no directory")


class Broken(HostileTest):
    """Archives that end early, wrong digests, wrong documents."""

    def test_truncated_gzip(self) -> None:
        whole = packed(archive([member("f", os.urandom(5_000))]))
        for length in (11, len(whole) // 2, len(whole) - 9, len(whole) - 1):
            write_layout(self.path("image"), [whole[:length]])
            self.require_refused("it is cut off: its gzip stream ends too early")
            self.empty()
        write_layout(self.path("image"), [whole[:-6] + b"x" + whole[-5:]])
        self.require_refused("gzip stream is broken")

    def test_what_is_read_ahead(self) -> None:
        """An entry is reported before a stream that breaks off after it, and no thread is left."""
        data = os.urandom(1 << 20)
        for first, because in ((member("v", kind=b"V"), "an entry of type"), (member("f"), None)):
            layer = archive([first, member("g", data)])
            breaks = ("ends too early", "stream is broken")
            for whole, broken in zip((packed(layer), *_by_zstd(layer)), breaks):
                write_layout(self.path("image"), [whole[:-1_000]], [layer])
                self.require_refused(because or broken)
                self.assertEqual(threading.active_count(), 1)
                self.empty()

    def test_truncated_archives(self) -> None:
        whole = archive([member("f", bytes(1_000)), member("g", bytes(1_000))])
        for length in (1, 511, 700, 1_600):
            write_layout(self.path("image"), [whole[:length]])
            self.require_refused("")
            self.empty()

    def test_bytes_that_are_no_archive(self) -> None:
        for data, because in (
            (b"x" * 512, "isn't octal"), (b"0" * 1024, "checksum"), (b"BZh91AY&SY", "bzip2"),
        ):
            write_layout(self.path("image"), [data])
            self.require_refused(because)
            self.empty()

    def test_records_of_a_wrong_length(self) -> None:
        for records in (b"5 a=b\n", b"99999 a=b\n", b"a=b\n", b"0 a=b\n", b"-1 a=b\n", b"7 ab=c"):
            info, _ = member("x", kind=b"x")
            info.size = len(records)
            data = info.tobuf(tarfile.USTAR_FORMAT) + records.ljust(512, b"\0") + bytes(1024)
            write_layout(self.path("image"), [data])
            self.require_refused("PAX record")
            self.empty()

    def test_a_header_of_10_gigabytes(self) -> None:
        for kind in (b"x", b"g", b"L", b"K"):
            info, _ = member("x", kind=kind)
            info.size = 10 * GIGABYTE
            write_layout(self.path("image"), [info.tobuf(tarfile.GNU_FORMAT) + bytes(1024)])
            self.require_refused("a header of 10737418240 bytes")
            self.empty()

    def test_wrong_digests(self) -> None:
        plain = archive([member("f", b"a")])
        digest = hashlib.sha256(plain).hexdigest()
        write_layout(self.path("image"), [plain])
        with open(self.path("image", "blobs", "sha256", digest), "r+b") as file:
            file.write(b"g")
        self.require_refused(f"blobs/sha256/{digest}: its bytes aren't those")
        self.empty()
        write_layout(self.path("image"), [plain], [plain + b"x"])
        self.require_refused("its unpacked bytes aren't those")
        self.empty()
        write_layout(self.path("image"), [packed(plain)], [packed(plain)])
        self.require_refused("its unpacked bytes aren't those")

    @unittest.skipIf(IS_SIDE_BY_SIDE, "looks at what this process digests")
    def test_one_digest_of_a_plain_layer(self) -> None:
        plain = archive([member("f", b"a")])
        write_layout(self.path("image"), [plain, packed(plain)], [plain, plain])
        with mock.patch("convert.image.archives.hashlib", wraps=hashlib) as digests:
            self.require_done(call("unpack", self.path("image"), "--out", self.path("out")))
        self.assertEqual(digests.new.call_count, 1)

    def test_a_wrong_digest_is_reported_first(self) -> None:
        """Whatever is wrong with what the bytes hold, and wherever they are found to be others."""
        for plain in (archive([member("../x", b"a")]), archive([member("f", b"a")]) + b"x" * 999_999, b"x" * 999_999):
            for data in (plain, packed(plain), packed(plain)[:-9], packed(plain) + b"x" * 600_000):
                write_layout(self.path("image"), [data])
                with open(self.path("image", "blobs", "sha256", hashlib.sha256(data).hexdigest()), "r+b") as file:
                    file.seek(-1, os.SEEK_END)
                    file.write(b"?")
                self.require_refused("its bytes aren't those of the digest")
                self.empty()

    def test_documents(self) -> None:
        os.mkdir(self.path("image"))
        self.require_refused("it is no image")
        layer = {"mediaType": "x", "digest": "sha256:../../../etc/passwd", "size": 1}
        for text, because in (
            ("", "isn't JSON"), ("[" * 100_000, "isn't JSON"), ("[]", "is no object"), ("{}", "manifests is missing"),
            ('{"manifests":[]}', "no image whose manifest is there"),
            (json.dumps({"manifests": [layer]}), "manifests[0].digest is no digest"),
        ):
            with open(self.path("image", "index.json"), "w", encoding="utf-8") as file:
                file.write(text)
            self.require_refused(because)

    def test_layers_outside_of_the_image(self) -> None:
        os.mkdir(self.path("image"))
        with open(self.path("outside"), "wb") as file:
            file.write(archive([member("f", b"a")]))
        os.symlink(self.path("outside"), self.path("image", "link"))
        with open(self.path("image", "config"), "w", encoding="utf-8") as out:
            out.write('{"os":"linux","architecture":"amd64"}')
        for name in ("../outside", self.path("outside"), "link", "config/../../outside", "."):
            with open(self.path("image", "manifest.json"), "w", encoding="utf-8") as out:
                json.dump([{"Config": "config", "Layers": [name]}], out)
            self.require_refused("the image has no such file")

    def test_a_layout_that_holds_itself(self) -> None:
        put_index(self.path(), [])
        os.mkdir(self.path("image"))
        descriptor = put_manifest(self.path("image"), [archive([])], None, "linux/amd64")
        put_index(self.path("image"), [{**descriptor, "mediaType": "application/vnd.oci.image.index.v1+json"}])
        self.require_refused("config belongs to a document of another kind")


class Documents(HostileTest):
    """Values of another kind in an image's documents, and names that a terminal would obey."""

    def _image(self) -> tuple[dict[str, object], str]:
        """The descriptor of an image, and the path of its manifest."""
        os.makedirs(self.path("image"), exist_ok=True)
        descriptor = put_manifest(self.path("image"), [archive([folder("./")])], None, "linux/amd64")
        return descriptor, self.path("image", "blobs", "sha256", str(descriptor["digest"])[7:])

    def test_sizes(self) -> None:
        for size in ("1e999", "-1", "1.5", '"1"', "[]", "null", "1" * 5_000):
            self._image_of_size(size)
            self.require_refused("")
            self.empty()

    def _image_of_size(self, size: str) -> None:
        descriptor, path = self._image()
        with open(path, encoding="utf-8") as file:
            manifest = json.load(file)
        old = f'"size": {manifest["layers"][0]["size"]}}}]'
        text = json.dumps(manifest).replace(old, f'"size": {size}}}]').encode()
        digest = hashlib.sha256(text).hexdigest()
        with open(self.path("image", "blobs", "sha256", digest), "wb") as out:
            out.write(text)
        put_index(self.path("image"), [{**descriptor, "digest": f"sha256:{digest}", "size": len(text)}])

    def test_names_of_another_kind(self) -> None:
        for value in ({}, [], 5, None):
            descriptor, _ = self._image()
            notes = {"org.opencontainers.image.ref.name": value}
            put_index(self.path("image"), [{**descriptor, "annotations": notes}])
            self.require_refused("manifests[0].annotations.org.opencontainers.image.ref.name is no string")
            self.empty()
        os.mkdir(self.path("image"))
        with open(self.path("image", "manifest.json"), "w", encoding="utf-8") as file:
            json.dump([{"Config": "c", "Layers": ["l"], "RepoTags": [5]}] * 2, file)
        self.require_refused("manifest.json: [0].RepoTags[0] is no string")

    def test_names_are_printable(self) -> None:
        descriptor, _ = self._image()
        other = put_manifest(self.path("image"), [archive([folder("x")])], None, "linux/arm64")
        name = {"org.opencontainers.image.ref.name": "a\nlayers: all is well\x1b[2J\u202e"}
        put_index(self.path("image"), [{**descriptor, "annotations": name}, {**other, "annotations": name}])
        self.require_refused("a\\x0alayers: all is well\\x1b[2J")
        self.empty()
        layer = archive([member("a", kind=tarfile.LNKTYPE, target="b"), member("b")])
        write_saved(self.path("image"), [layer], name="x\ny/layer.tar")
        self.require_refused("x\\x0ay/layer.tar")
        self.empty()
        members = [folder("./"), member("x\ny", b"a", pax={"mtime": "1.0000000001"})]
        write_layout(self.path("image"), [archive(members)])
        result = call("unpack", self.path("image"), "--out", self.path("out"))
        self.assertEqual((result[0], len(result[2].splitlines())), (0, 1), result[2])

    def test_anything(self) -> None:
        """Images with bytes put in, taken away and turned: read or refused, and never anything else."""
        pick = random.Random(7)
        members = [
            folder("./"), member("f", b"abc", pax={"SCHILY.xattr.user.k": "v", "mtime": "1.5"}), member("d/.wh.x"),
            member("l", kind=tarfile.SYMTYPE, target="f"), member("h", kind=tarfile.LNKTYPE, target="f"),
            member("s", b"abc", pax={"GNU.sparse.map": "5,3", "GNU.sparse.size": "99"}), member("n" * 120, b"x"),
        ]
        for number in range(600):
            layer = archive(members)
            if number % 3 == 0:
                layer = _spoilt(pick, layer)
            write_layout(self.path("image"), [layer])
            if number % 3:
                places = [self.path("image", "index.json")] if number % 3 == 1 else sorted(
                    entry.path for entry in os.scandir(self.path("image", "blobs", "sha256"))
                )
                self._spoil(pick, pick.choice(places))
            with self.subTest(number=number), contextlib.redirect_stderr(io.StringIO()) as messages:
                status = command.main(["unpack", self.path("image"), "--out", self.path("out")])
            self.assertIn(status, (0, 3), messages.getvalue())
            self.empty()

    def _spoil(self, pick: random.Random, path: str) -> None:
        """Spoils a document, and gives it the digest by which it is named again."""
        with open(path, "rb") as file:
            old = file.read()
        new = _spoilt(pick, old)
        digests = hashlib.sha256(old).hexdigest(), hashlib.sha256(new).hexdigest()
        os.unlink(path)
        with open(path.replace(*digests), "wb") as out:
            out.write(new)
        for entry in [*os.scandir(self.path("image")), *os.scandir(self.path("image", "blobs", "sha256"))]:
            if entry.is_file():
                with open(entry.path, "rb") as file:
                    data = file.read()
                if digests[0].encode() in data:
                    os.unlink(entry.path)
                    self._name_anew(entry.path, data, data.replace(digests[0].encode(), digests[1].encode()))

    def _name_anew(self, path: str, old: bytes, new: bytes) -> None:
        digests = hashlib.sha256(old).hexdigest(), hashlib.sha256(new).hexdigest()
        with open(path.replace(*digests), "wb") as out:
            out.write(new)
        index = self.path("image", "index.json")
        if path != index:
            with open(index, "rb") as file:
                data = file.read()
            with open(index, "wb") as out:
                out.write(data.replace(digests[0].encode(), digests[1].encode()))


_VALUES = (b"null", b"1e999", b"-1", b'"\\ud800"', b"[]", b"{}", b"1" * 30, b"true", b'"x"')


def _spoilt(pick: random.Random, data: bytes) -> bytes:
    """Bytes with a few of them changed, or of a JSON text one value."""
    for _ in range(pick.randrange(1, 4)):
        at = pick.randrange(len(data))
        sort = pick.randrange(4)
        if sort == 0 and data[:1] == b"{":
            parts = re.split(rb"([:\[,])", data)
            parts[pick.randrange(len(parts))] = pick.choice(_VALUES)
            data = b"".join(parts)
        elif sort == 1:
            data = data[:at] + data[at + pick.randrange(1, 600):]
        elif sort == 2:
            data = data[:at] + pick.randbytes(pick.randrange(1, 9)) + data[at:]
        else:
            data = data[:at] + pick.randbytes(1) + data[at + 1:]
        data = data or b"x"
    return data


class Bomb(HostileTest):
    """What is small and unpacks to much, by a process with little memory and time, and few open files."""

    def bounded(self, *words: object) -> "subprocess.CompletedProcess[str]":
        """Unpacks the image within the bounds."""
        return run("unpack", self.path("image"), "--out", self.path("out"), *words, preexec_fn=_limit)

    def require_bounded(self, *parts: str) -> None:
        """The image is refused with these words within the bounds, and nothing is left."""
        result = self.bounded()
        self.assertEqual(result.returncode, 3, result.stderr[-2_000:])
        for part in parts:
            self.assertIn(part, result.stderr.splitlines()[-1])
        self.require_nothing_left("image")

    def test_a_gigabyte_of_zeros(self) -> None:
        """They take no place on the disk."""
        write_layout(self.path("image"), [self._bomb()])
        result = self.bounded()
        self.assertEqual(result.returncode, 0, result.stderr)
        (blob,) = os.listdir(self.path("out", "blobs"))
        status = os.stat(self.path("out", "blobs", blob))
        self.assertEqual(status.st_size, BOMB_BYTES)
        self.assertLess(status.st_blocks * 512, 1 << 20)

    def test_records_for_all_entries(self) -> None:
        """Many of them in a small stream, and a few that each of many entries would have."""
        one = _global_records({f"k{number}": "v" * 1_000 for number in range(1_000)})
        write_layout(self.path("image"), [packed(one * 10 + archive([folder("./")]))])
        self.require_bounded("an entry with too long headers")
        self.empty()
        attributes = _global_records({f"SCHILY.xattr.user.{number}": "" for number in range(30_000)})
        write_layout(self.path("image"), [packed(attributes + archive([member(str(number)) for number in range(99)]))])
        self.require_bounded("PAX records for all entries of over 65,536 bytes")
        self.empty()
        attributes = _global_records({f"SCHILY.xattr.user.{number}": "" for number in range(2_000)})
        write_layout(self.path("image"), [packed(attributes + b"".join(_small_entries(20_000)))])
        self.require_bounded("over 134,217,728 bytes of PAX records that its entries have from those for all")
        self.empty()
        first = _global_records({f"SCHILY.acl.{number}": "v" * 40 for number in range(900)})
        write_layout(self.path("image"), [packed(first + _global_records({"SCHILY.acl.0": "v"}) * 30_000)])
        self.require_bounded("over 1,000 PAX headers for all entries")

    def test_members_of_gzip_streams(self) -> None:
        """Many that unpack to nothing, and as many as there may be."""
        write_layout(self.path("image"), [packed(b"") * 3_200_000])
        self.require_bounded("its gzip stream has 16,385 members, which unpack to 0 bytes")
        self.empty()
        layer = archive([member("f", bytes(MAX_MEMBERS * MEMBER_BYTES))])
        small = [packed(layer[begin:begin + 130]) for begin in range(0, len(layer), 130)]
        write_layout(self.path("image"), [b"".join(small) + bytes(700_000)])
        self.assertEqual(self.bounded().returncode, 0)
        self.empty()
        write_layout(self.path("image"), [b"".join(small) + packed(b"") * 999])
        self.require_bounded("members, which unpack to")

    def test_maps_of_sparse_files(self) -> None:
        if shutil.which("zstd") is None:
            self.skipTest("needs zstd")
        parts = 240_000
        text = b"%d\n" % parts + b"0\n0\n" * parts
        text += bytes(-len(text) % 512)
        head = _header("f", len(text), {"GNU.sparse.major": "1", "GNU.sparse.minor": "0", "GNU.sparse.realsize": "0"})
        layer = subprocess.run(["zstd", "-q"], input=(head + text) * 200, stdout=subprocess.PIPE, check=True).stdout
        self.assertLess(len(layer), 30_000)
        write_layout(self.path("image"), [layer])
        self.require_bounded("over 1,048,576 parts of sparse files")

    def test_a_layer_that_is_named_again(self) -> None:
        """It is read once, however often its image names it."""
        layer = _header("f", 0, {"GNU.sparse.map": "0,0", "GNU.sparse.size": str(GIGABYTE // 4)}) + bytes(1024)
        write_layout(self.path("image"), [layer] * 100)
        result = self.bounded("--digests-only")
        self.assertEqual(result.returncode, 0, result.stderr[-500:])
        self.empty()
        write_saved(self.path("image"), [layer] * 100)
        result = self.bounded("--digests-only")
        self.assertEqual(result.returncode, 0, result.stderr[-500:])
        self.empty()
        other = _header("f", 0, {"GNU.sparse.map": "0,0", "GNU.sparse.size": str(GIGABYTE * 16 - 1)})
        write_layout(self.path("image"), [layer, other])
        self.require_bounded("over 17,179,869,184 bytes of holes")

    def test_what_is_made_of_few_entries(self) -> None:
        """Directories that are left out, and attributes that many names of a file have."""
        names = (f"{number:05}/" + "d/" * 100 + "f" for number in range(3_000))
        layer = b"".join(member(name)[0].tobuf(tarfile.USTAR_FORMAT) for name in names)
        write_layout(self.path("image"), [packed(layer)])
        self.require_bounded("over 262,144 directories that its archives leave out")
        self.empty()
        first = _header("a", 0, {"SCHILY.xattr.user.x": "v" * 1_000_000})
        links = [member(str(number), kind=tarfile.LNKTYPE, target="a")[0] for number in range(120)]
        layer = b"".join(info.tobuf(tarfile.USTAR_FORMAT) for info in links)
        write_layout(self.path("image"), [packed(first + layer)] + [packed(layer)] * 127)
        self.require_bounded("the manifests of the layers have over 1,073,741,824 bytes")
        self.empty()
        first = _header("a", 0, {f"SCHILY.xattr.{number}": "" for number in range(10_000)})
        write_layout(self.path("image"), [packed(first + layer)] + [packed(layer)] * 127)
        self.require_bounded("over 8,388,608 attributes")

    def test_long_paths(self) -> None:
        write_layout(self.path("image"), [packed(b"".join(_long_paths(100_000)))])
        self.require_bounded("its manifest has over 268,435,456 bytes")

    def test_indexes_inside_one_another(self) -> None:
        path = self.path("image")
        os.mkdir(path)
        level = [put_manifest(path, [archive([folder("./")])], None, "linux/amd64")]
        for _ in range(4):
            put_index(path, level * 60)
            level = [_index_descriptor(path)]
        put_index(path, level * 60)
        result = self.bounded()
        self.assertEqual(result.returncode, 0, result.stderr[-500:])

    def test_names_of_indexes_inside_one_another(self) -> None:
        path = self.path("image")
        os.mkdir(path)
        level = [put_manifest(path, [archive([folder("./")])], None, "linux/amd64")]
        for depth in range(4):
            put_index(path, [
                {**descriptor, "annotations": {"org.opencontainers.image.ref.name": f"{depth}.{number}"}}
                for number in range(300) for descriptor in level
            ])
            level = [_index_descriptor(path)]
        put_index(path, level)
        self.require_bounded("its manifests and indexes have over 16,777,216 bytes")

    def test_deep_paths(self) -> None:
        for name in ("d/" * 3_000 + ".wh..wh..opq", "d/" * 3_000, "d/" * 3_000 + ".wh.x"):
            write_layout(self.path("image"), [archive([member(name)])])
            self.require_bounded("names deep, over 128")
            self.empty()

    def test_a_big_document(self) -> None:
        path = self.path("image")
        os.mkdir(path)
        with open(f"{path}/index.json", "wb") as file:
            file.write(b'{"manifests":[' + b"[]," * (1 << 24) + b"[]]}")
        self.require_bounded("it has over 4,194,304 bytes")
        with open(f"{path}/index.json", "wb") as file:
            file.write(b'{"manifests":[' + b"[]," * 1_000_000 + b"[]]}")
        self.require_bounded("it has over 262,144 objects and lists")
        with open(f"{path}/index.json", "wb") as file:
            file.write(b'{"manifests":[' + b"[]," * 260_000 + b"[]]}")
        self.require_bounded("manifests[0] is no object")

    def _bomb(self) -> bytes:
        """One file of zeros, packed as many equal gzip members."""
        info, _ = member("zeros")
        info.size = BOMB_BYTES
        return (
            gzip.compress(info.tobuf(tarfile.GNU_FORMAT), mtime=0)
            + _packed_zeros(GIGABYTE // 16) * (BOMB_BYTES // (GIGABYTE // 16))
            + gzip.compress(bytes(1024), mtime=0)
        )


def _by_zstd(data: bytes) -> list[bytes]:
    """Packed by zstd, if that is there."""
    zstd = shutil.which("zstd")
    return [subprocess.run([zstd, "-q"], input=data, stdout=subprocess.PIPE, check=True).stdout] if zstd else []


def _global_records(records: dict[str, str]) -> bytes:
    text = b"".join(pax_record(key.encode(), value.encode()) for key, value in records.items())
    info, _ = member("g", kind=b"g")
    info.size = len(text)
    return info.tobuf(tarfile.GNU_FORMAT) + text + bytes(-len(text) % 512)


def _header(name: str, size: int, records: dict[str, str]) -> bytes:
    """A file's header with PAX records before it."""
    info, _ = member(name, pax=records)
    info.size = size
    return info.tobuf(tarfile.PAX_FORMAT)


def _small_entries(count: int) -> Iterator[bytes]:
    for number in range(count):
        yield member(str(number))[0].tobuf(tarfile.USTAR_FORMAT)


def _long_paths(count: int) -> Iterator[bytes]:
    way = "/".join(["w" * 250] * 15)
    for number in range(count):
        yield member(f"{way}/{number:0200}")[0].tobuf(tarfile.GNU_FORMAT)


def _index_descriptor(path: str) -> dict[str, object]:
    """Keeps the index of a layout as a blob of it; gives its descriptor."""
    with open(f"{path}/index.json", "rb") as file:
        data = file.read()
    digest = hashlib.sha256(data).hexdigest()
    with open(f"{path}/blobs/sha256/{digest}", "wb") as out:
        out.write(data)
    kind = "application/vnd.oci.image.index.v1+json"
    return {"mediaType": kind, "digest": f"sha256:{digest}", "size": len(data)}


def _packed_zeros(count: int) -> bytes:
    packer = zlib.compressobj(9, zlib.DEFLATED, 31)
    return b"".join(packer.compress(bytes(1 << 20)) for _ in range(count >> 20)) + packer.flush()


def _limit() -> None:
    resource.setrlimit(resource.RLIMIT_DATA, (MEMORY * 1024, MEMORY * 1024))
    resource.setrlimit(resource.RLIMIT_CPU, (SECONDS, SECONDS))
    resource.setrlimit(resource.RLIMIT_NOFILE, (FILES, FILES))


if __name__ == "__main__":
    unittest.main(argv=sys.argv)
