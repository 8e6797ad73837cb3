"""Layers of an image above others: what they leave out, and what other tools write that no manifest has."""

import hashlib
import os
import shutil
import subprocess
import tarfile
import unittest

from images import archive, folder, member, packed, write_layout
from support import FolderTest, call

from convert.model.entries import Entry
from convert.model.manifests import read_manifest
from convert.model.times import shown

Member = tuple[tarfile.TarInfo, bytes]
OPAQUE = "trusted.overlay.opaque"
LINK = tarfile.LNKTYPE


def owned(item: Member, owner: int, time: int, **attributes: str) -> Member:
    """The same entry with an owner, a time and attributes."""
    item[0].uid, item[0].gid, item[0].mtime = owner, owner + 1, time
    item[0].pax_headers = {f"SCHILY.xattr.{name.replace('__', '.')}": value for name, value in attributes.items()}
    return item


def line_of(entry: Entry) -> str:
    """A directory or another entry in a few words."""
    marks = "".join(f" {name}={value.decode()}" for name, value in sorted(entry.attributes.items()))
    return f"{entry.kind} {entry.mode:o} {entry.uid}:{entry.gid} {shown(entry.mtime_ns)} {entry.path}{marks}"


class LayersTest(FolderTest):
    """A test that unpacks layers, the lowest first."""

    def unpack(self, *layers: list[Member], words: tuple[str, ...] = ()) -> tuple[list[list[Entry]], list[str]]:
        """The layers' entries, the lowest first, and the notes."""
        return self.unpack_bytes(*map(archive, layers), words=words)

    def unpack_bytes(self, *layers: bytes, words: tuple[str, ...] = ()) -> tuple[list[list[Entry]], list[str]]:
        """The same of layers' archives."""
        self.empty()
        write_layout(self.path("image"), list(layers))
        result = call("unpack", self.path("image"), "--out", self.path("out"), *words)
        self.require_done(result)
        found = [read_manifest(self.path("out", f"l{number}.json")) for number in range(len(layers))]
        return found[::-1], result[2].splitlines()

    def require_note(self, notes: list[str], text: str) -> None:
        """One note has this text."""
        self.assertEqual(len([line for line in notes if text in line]), 1, notes)


class Parents(LayersTest):
    """Directories that a layer leaves out."""

    LOWEST = [
        owned(folder("./", 0o711), 5, 50, user__r="r"), owned(folder("a", 0o700), 1, 10, user__k="v"),
        owned(folder("a/b", 0o750), 2, 20), member("a/b/f", b"x"), member("file", b"x"),
        member("link", kind=tarfile.SYMTYPE, target="a"),
    ]

    def upper(self, *members: Member) -> tuple[list[str], list[str]]:
        """A layer above as short words, and the notes of it."""
        layers, notes = self.unpack(self.LOWEST, list(members))
        return list(map(line_of, layers[1])), notes

    def test_as_the_layers_below_show_them(self) -> None:
        shown, notes = self.upper(member("a/b/new", b"y"))
        self.assertEqual(shown, [
            "dir 711 5:6 50 / user.r=r", "dir 700 1:2 10 /a user.k=v", "dir 750 2:3 20 /a/b", "file 644 0:0 0 /a/b/new",
        ])
        self.assertEqual(notes, [])

    def test_where_nothing_is_below(self) -> None:
        shown, notes = self.upper(member("a/c/d/new", b"y"))
        self.assertEqual(shown[2:], ["dir 755 0:0 0 /a/c", "dir 755 0:0 0 /a/c/d", "file 644 0:0 0 /a/c/d/new"])
        self.require_note(notes, "2 directories that no layer states, now of mode 0755")
        _, notes = self.unpack([member("x/y", b"y")])
        self.require_note(notes, "1 directory that no layer states, now of mode 0755, owner 0 and time 0: /x")
        self.assertEqual(self.unpack([member("x", b"y")])[1], [])

    def test_of_opaque_directories(self) -> None:
        for members in ([member("a/.wh..wh..opq"), member("a/b/new")], [member("a/b/new"), member("a/.wh..wh..opq")]):
            shown, _ = self.upper(*members)
            self.assertEqual(shown[1:3], [f"dir 700 1:2 10 /a {OPAQUE}=y user.k=v", "dir 755 0:0 0 /a/b"])

    def test_of_whiteouts(self) -> None:
        shown, _ = self.upper(member(".wh.a"), member("a/b/new"))
        self.assertEqual(shown[1:3], [f"dir 755 0:0 0 /a {OPAQUE}=y", "dir 755 0:0 0 /a/b"])
        layers, _ = self.unpack(self.LOWEST, [member("a/.wh.b")], [member("a/b/new")])
        self.assertEqual(list(map(line_of, layers[2]))[1:3], ["dir 700 1:2 10 /a user.k=v", "dir 755 0:0 0 /a/b"])

    def test_in_place_of_a_file_of_the_same_layer(self) -> None:
        """It hides the directories of the layers below, as in a folder where one comes after the other."""
        for first in (member("a", b"f"), member("a", kind=tarfile.SYMTYPE, target="b")):
            shown, notes = self.upper(first, owned(folder("a", 0o711), 7, 70), member("a/b/new", b"y"))
            self.assertEqual(shown[1:3], [f"dir 711 7:8 70 /a {OPAQUE}=y", "dir 755 0:0 0 /a/b"])
            self.require_note(notes, "1 directory that its layer has in place of a file hides that of the layers below: /a")
        link = member("h", kind=LINK, target="a/b/f")
        self.assertEqual(self.upper(link)[0][1], "file 644 0:0 0 /h")
        write_layout(self.path("image"), [archive(self.LOWEST), archive([member("a", b"f"), folder("a"), link])])
        result = call("unpack", self.path("image"), "--out", self.path("other"))
        self.require_fault(result, 3, "h: it links to a/b/f, which is no file of this layer so far or of those below")
        shown, notes = self.upper(member("file", b"f"), folder("file", 0o711), member("c", b"f"), folder("c", 0o711))
        self.assertEqual([line.split()[-1] for line in shown[1:]], ["/c", "/file"])
        self.assertEqual(notes, [])

    def test_of_what_was_made_anew(self) -> None:
        layers, _ = self.unpack(
            self.LOWEST, [member("a", b"now a file")], [owned(folder("a", 0o1777), 3, 30)], [member("a/b/new")]
        )
        self.assertEqual(list(map(line_of, layers[3]))[1:3], ["dir 1777 3:4 30 /a", "dir 755 0:0 0 /a/b"])

    def test_of_an_opaque_root(self) -> None:
        shown, _ = self.upper(member(".wh..wh..opq"), member("a/new"))
        self.assertEqual(shown, [
            "dir 711 5:6 50 / user.r=r", f"dir 755 0:0 0 /a {OPAQUE}=y", "file 644 0:0 0 /a/new",
            "char 0 0:0 0 /file", "char 0 0:0 0 /link",
        ])

    def test_marks_are_not_taken_over(self) -> None:
        marked = owned(folder("a", 0o700), 1, 10, trusted__overlay__opaque="y", user__k="v")
        layers, _ = self.unpack([], [marked, member("a/f")], [member("a/g")], words=("--overlay-marks",))
        self.assertEqual(line_of(layers[2][1]), "dir 700 1:2 10 /a user.k=v")

    def test_above_a_link_or_a_file(self) -> None:
        for name in ("link", "file"):
            shown, notes = self.upper(member(f"{name}/new", b"y"))
            self.assertEqual(shown[1:], [f"dir 755 0:0 0 /{name}", f"file 644 0:0 0 /{name}/new"])
            self.require_note(notes, f"directory left out by the layer hides a file or a link of those below: /{name}")


class Whiteouts(LayersTest):
    """Whiteouts that hide nothing, and what isn't written as one."""

    def test_below_what_is_no_directory(self) -> None:
        lowest = [folder("./"), folder("d"), member("d/x", b"x"), folder("e"), member("e/x", b"x")]
        upper = [
            member("d", kind=tarfile.SYMTYPE, target="e"), member("d/.wh.x"), member("e", b"a file"), member("e/.wh.x"),
            member("e/.wh..wh..opq"),
        ]
        layers, notes = self.unpack(lowest, upper, [member("d/.wh.y"), member("z", b"")])
        self.assertEqual([entry.path for entry in layers[1]], ["/", "/d", "/e"])
        self.assertEqual([entry.path for entry in layers[2]], ["/", "/z"])
        self.require_note(notes, "3 whiteouts left out that hide nothing, as there is no directory for them: /d/.wh.x")
        self.require_note(notes, "1 whiteout left out that hides nothing")

    def test_in_no_directory(self) -> None:
        layers, notes = self.unpack([folder("./")], [member("no/dir/.wh.x"), member("no/.wh..wh..opq")])
        self.assertEqual([entry.path for entry in layers[1]], ["/"])
        self.require_note(notes, "2 whiteouts left out that hide nothing")

    def test_a_device_of_an_archive(self) -> None:
        layers, notes = self.unpack([folder("./")], [member("c", kind=tarfile.CHRTYPE)])
        self.assertEqual([(entry.path, entry.kind) for entry in layers[1]], [("/", "dir"), ("/c", "char")])
        self.require_note(notes, "1 char device 0:0, which an overlay takes as a whiteout: /c")

    def test_marks_of_an_overlay(self) -> None:
        marks = {"trusted__overlay__opaque": "y", "trusted__overlay__origin": "o", "user__k": "v"}
        members = [folder("./"), owned(folder("d"), 0, 0, **marks)]
        layers, notes = self.unpack(members)
        self.assertEqual(line_of(layers[0][1]), "dir 755 0:1 0 /d user.k=v")
        self.require_note(notes, "2 attributes trusted.overlay.* left out (--overlay-marks takes them): /d")
        layers, notes = self.unpack(members, words=("--overlay-marks",))
        self.assertEqual(line_of(layers[0][1]), f"dir 755 0:1 0 /d {OPAQUE}=y trusted.overlay.origin=o user.k=v")
        self.assertEqual(notes, [])


class OtherTools(LayersTest):
    """What umoci, bsdtar, GNU tar, buildkit and aufs write."""

    def test_links_to_files_of_lower_layers(self) -> None:
        lowest = [folder("./"), owned(member("f", b"abc", mode=0o640), 7, 70, user__k="v"), member("gone", b"x")]
        link = member("h", kind=tarfile.LNKTYPE, target="f")
        layers, notes = self.unpack(lowest, [], [link])
        self.assertEqual(line_of(layers[2][1]), "file 640 7:8 70 /h user.k=v")
        self.assertEqual(layers[2][1].blob, hashlib.sha256(b"abc").hexdigest())
        self.require_note(notes, "1 hard link to a file of the layers below, now a copy: /h")
        for hiding in ([member(".wh.f")], [member(".wh..wh..opq")], [folder("f")]):
            for layers_of in ([lowest, hiding, [link]], [lowest, [*hiding, link]]):
                self.empty()
                write_layout(self.path("image"), list(map(archive, layers_of)))
                result = call("unpack", self.path("image"), "--out", self.path("out"))
                self.require_fault(result, 3, "h: it links to f, which is no file")

    def test_ways_up_that_stay_inside(self) -> None:
        layers, _ = self.unpack([folder("./"), folder("a"), member("a/../x", b"x"), member("./a/b/../../y/./z", b"z")])
        self.assertEqual([entry.path for entry in layers[0]], ["/", "/a", "/x", "/y", "/y/z"])
        layers, _ = self.unpack([member("f", b"a"), member("h", kind=tarfile.LNKTYPE, target="a/../f")])
        self.assertEqual([entry.path for entry in layers[0]], ["/", "/f", "/h"])

    def test_what_aufs_keeps(self) -> None:
        layers, notes = self.unpack([
            folder("./"), member(".wh..wh.aufs"), folder(".wh..wh.plnk"), member(".wh..wh.plnk/1.2", b"x", mode=0o600),
            member("h", kind=tarfile.LNKTYPE, target=".wh..wh.plnk/1.2"), folder(".wh..wh.orph"),
        ])
        self.assertEqual(list(map(line_of, layers[0])), ["dir 755 0:0 0 /", "file 600 0:0 0 /h"])
        self.assertEqual(layers[0][1].blob, hashlib.sha256(b"x").hexdigest())
        self.require_note(notes, "4 entries of aufs' own (.wh..wh.*) left out: /.wh..wh.aufs, ..")

    def test_archives_that_are_short(self) -> None:
        whole = archive([folder("./"), member("f", b"abc")])
        for data, paths in (
            (b"", ["/"]), (packed(b""), ["/"]), (whole[:1024 + 3], ["/", "/f"]), (whole[:1024 + 200], ["/", "/f"]),
            (whole[:1024 + 512], ["/", "/f"]), (packed(whole[:1024 + 3]), ["/", "/f"]),
        ):
            layers, _ = self.unpack_bytes(data)
            self.assertEqual([entry.path for entry in layers[0]], paths)

    def test_a_signed_checksum(self) -> None:
        block = bytearray(archive([member("f", b"")])[:512])
        block[0:3] = b"\xc3\xa9f"
        block[148:156] = b" " * 8
        for total in (sum(block), sum(byte - 256 * (byte >= 128) for byte in block)):
            layers, _ = self.unpack_bytes(bytes(block[:148]) + b"%06o\0 " % total + bytes(block[156:]))
            self.assertEqual([entry.path for entry in layers[0]], ["/", "/éf"])

    def test_empty_records(self) -> None:
        records = {name: "" for name in ("path", "linkpath", "size", "uid", "gid", "mtime", "SCHILY.xattr.user.k")}
        info, data = member("f", b"abc", mode=0o600)
        info.uid, info.gid, info.mtime = 3, 4, 5
        raw = self._with_records(records, info.tobuf(tarfile.USTAR_FORMAT) + data.ljust(512, b"\0"))
        layers, _ = self.unpack_bytes(raw)
        self.assertEqual(line_of(layers[0][1]), "file 600 3:4 5 /f user.k=")
        raw = self._with_records({"mtime": "9", "uid": "8"}, raw, b"g")
        layers, _ = self.unpack_bytes(raw)
        self.assertEqual(line_of(layers[0][1]), "file 600 3:4 5 /f user.k=")

    def _with_records(self, records: dict[str, str], rest: bytes, kind: bytes = b"x") -> bytes:
        text = b"".join(tarfile.TarInfo._create_pax_generic_header({name: value}, tarfile.XHDTYPE, "utf-8")[512:]
                        .rstrip(b"\0") for name, value in records.items())
        info, _ = member("x", kind=kind)
        info.size = len(text)
        return info.tobuf(tarfile.USTAR_FORMAT) + text + bytes(-len(text) % 512) + rest

    def test_access_lists(self) -> None:
        pax = {"SCHILY.acl.access": "user::rw-,group::r--,other::---"}
        _, notes = self.unpack([folder("./"), member("f", b"a", pax=pax), member("g", b"a", pax=pax)])
        self.require_note(notes, "2 entries with access lists (SCHILY.acl.*), left out: /f, ..")

    def test_attributes_of_other_programs(self) -> None:
        pax = {
            "LIBARCHIVE.xattr.user.a%3Db": "AAE", "SCHILY.xattr.user.c": "1", "LIBARCHIVE.xattr.user.c": "Mg",
            "RHT.security.selinux": "u:r:t:s0", "SCHILY.fflags": "nodump", "comment": "c", "atime": "5",
        }
        layers, notes = self.unpack([folder("./"), member("f", b"a", pax=pax), member("g", pax={"X.y": "z"})])
        self.assertEqual(layers[0][1].attributes, {"user.a=b": b"\0\1", "user.c": b"1"})
        self.require_note(notes, "1 entry with a label of SELinux (RHT.security.selinux), left out: /f")
        self.require_note(notes, "2 entries with PAX records that aren't read: /f (SCHILY.fflags), ..")
        self.assertEqual(len(notes), 2)
        for value in ("A", "A===", "&&&&"):
            self.empty()
            bad = member("f", pax={"LIBARCHIVE.xattr.user.a": value})
            write_layout(self.path("image"), [archive([bad])])
            result = call("unpack", self.path("image"), "--out", self.path("out"))
            self.require_fault(result, 3, "an attribute in a PAX record isn't in base 64")


class Again(LayersTest):
    """Layers that their image names again."""

    def test_the_same_layer_above_others(self) -> None:
        """It gives what another file of the same entries gives."""
        again = archive([
            member("d/f", b"1"), member("h", kind=LINK, target="d/f"), member("l", kind=LINK, target="below"),
            member("x/y/z", b"2", pax={"SCHILY.xattr.user.k": "v", "mtime": "1.5"}), member("x/.wh.w"),
            member("o/.wh..wh..opq"), member("x/y/z", b"3"),
            member("s", b"abc", pax={"GNU.sparse.map": "5,3", "GNU.sparse.size": "9"}),
            member(".wh..wh.plnk/1.2", b"p"), member("p", kind=LINK, target=".wh..wh.plnk/1.2"),
        ])
        lower = [folder("./", 0o711), member("below", b"b"), folder("x", 0o700), member("x/w", b"w"), member("d", b"d")]
        between = [folder("./"), member("below", b"c"), folder("x/y", 0o750), folder("o"), member("o/p", b"q")]
        once, notes_once = self.unpack_bytes(archive(lower), again, archive(between), packed(again))
        twice, notes_twice = self.unpack_bytes(archive(lower), again, archive(between), again)
        self.assertEqual(twice, once)
        self.assertNotEqual(twice[3], twice[1])
        self.assertEqual([line.split(": ", 2)[2:] for line in notes_twice], [line.split(": ", 2)[2:] for line in notes_once])


class Sparse(LayersTest):
    """Sparse files, in each of the forms that are."""

    def setUp(self) -> None:
        super().setUp()
        self.files = {
            "holes": bytes(5_000) + b"a" * 3_000 + bytes(1_000_000) + b"b" + bytes(300_000),
            "end": b"c" * 70_000 + bytes(99_999), "many": (b"d" * 512 + bytes(4_096)) * 60,
            "all": bytes(700_000), "none": b"e" * 10_000, "empty": b"",
        }

    def _unpacked(self, command: list[str]) -> None:
        """The files are what they were, through an archive of this command."""
        os.mkdir(self.path("in"))
        for name, data in self.files.items():
            with open(self.path("in", name), "wb") as file:
                for start in range(0, len(data), 512):
                    if any(data[start:start + 512]):
                        file.seek(start)
                        file.write(data[start:start + 512])
                file.truncate(len(data))
        subprocess.run([*command, *self.files], cwd=self.path("in"), check=True)
        with open(self.path("in", "out.tar"), "rb") as file:
            raw = file.read()
        self.assertLess(len(raw), 600_000)
        layers, _ = self.unpack_bytes(raw)
        found = {entry.path[1:]: (entry.size, entry.blob) for entry in layers[0][1:]}
        wanted = {
            name: (len(data), hashlib.sha256(data).hexdigest() if data else None) for name, data in self.files.items()
        }
        self.assertEqual(found, wanted)
        for name, data in self.files.items():
            if data:
                with open(self.path("out", "blobs", str(found[name][1])), "rb") as blob:
                    self.assertEqual(blob.read(), data)

    def test_by_gnu_tar(self) -> None:
        if "GNU tar" not in subprocess.run(["tar", "--version"], capture_output=True, text=True, check=False).stdout:
            self.skipTest("needs GNU tar")
        for form in ("gnu", "0.0", "0.1", "1.0"):
            words = ["--format=gnu"] if form == "gnu" else ["--format=posix", f"--sparse-version={form}"]
            with self.subTest(form=form):
                self.empty()
                self._unpacked(["tar", "--sparse", "--hole-detection=raw", *words, "-cf", "out.tar"])

    def test_by_bsdtar(self) -> None:
        if shutil.which("bsdtar") is None:
            self.skipTest("needs bsdtar")
        self._unpacked(["bsdtar", "--format=pax", "-cf", "out.tar"])

    def test_maps_that_are_wrong(self) -> None:
        sizes = {"GNU.sparse.size": "100"}
        for records, because in (
            ({**sizes, "GNU.sparse.map": "0"}, "half a pair"),
            ({**sizes, "GNU.sparse.map": "50,1,0,2"}, "aren't in order"),
            ({**sizes, "GNU.sparse.map": "99,3"}, "don't fit"), ({**sizes, "GNU.sparse.map": "0,2"}, "don't fit"),
            ({**sizes, "GNU.sparse.map": "x,3"}, "isn't decimal"), ({"GNU.sparse.map": "0,3", "GNU.sparse.realsize": "-5"}, "don't fit"),
            ({"GNU.sparse.major": "1", "GNU.sparse.minor": "0", "GNU.sparse.realsize": "9"}, "has no end"),
            ({"GNU.sparse.major": "2", "GNU.sparse.realsize": "9"}, "an unknown version"),
            ({"GNU.sparse.size": str(1 << 62), "GNU.sparse.map": "0,3"}, "the image has over 17,179,869,184 bytes of holes"),
        ):
            with self.subTest(records=records):
                self.empty()
                write_layout(self.path("image"), [archive([member("f", b"abc", pax=records)])])
                self.require_fault(call("unpack", self.path("image"), "--out", self.path("out")), 3, because)
                self.require_nothing_left("image")


if __name__ == "__main__":
    unittest.main()
