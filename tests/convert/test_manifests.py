"""The manifest's one text, and the faults that a wrong one has in either version, as docs/FORMATS.md has them."""

import json
import os
import unittest
from typing import Any

from support import ROOT, FolderTest, call

from convert.model.entries import Entry, named
from convert.model.manifests import read_manifest, written

FIRST = b'{"entries":[{"gid":0,"kind":"dir","mode":493,"mtime":0,"path":"/","uid":0,"xattrs":{}}],"overlay-layer":1}\n'
SECOND = (
    b'{"entries":[{"gid":0,"kind":"dir","mode":493,"mtime":0,"mtime-nsec":0,"path":"/","uid":0,"xattrs":{}}],'
    b'"overlay-layer":2}\n'
)
DEEPEST = {1: 64, 2: 128}
NSEC = "mtime-nsec"


def entry(path: str, kind: str = "dir", **more: Any) -> dict[str, Any]:
    """An entry of a manifest of version 1, or with more members of one of version 2."""
    return {"path": path, "kind": kind, "mode": 493, "uid": 0, "gid": 0, "mtime": 0, "xattrs": {}, **more}


def manifest(version: int, *entries: dict[str, Any]) -> bytes:
    """A manifest of these entries, which have no nanoseconds in version 2 if nothing is said of them."""
    members = {NSEC: 0} if version == 2 else {}
    return json.dumps({"overlay-layer": version, "entries": [{**members, **it} for it in entries]}).encode()


ROOT_ENTRY = entry("/")
CHAIN = [entry("/" + "/".join(["d"] * depth)) for depth in range(1, 130)]
REFUSED: list[tuple[bytes, str]] = [
    *((FIRST[:length], "not JSON") for length in range(106)),
    *((SECOND[:length], "not JSON") for length in range(121)),
    (b"\xff", "not JSON"),
    (b'{"a":NaN}', "not JSON"),
    (b"[]", "wrong shape"),
    (b'{"overlay-layer":1}', "wrong shape"),
    (b'{"overlay-layer":1.0,"entries":[]}', "wrong shape"),
    (b'{"overlay-layer":true,"entries":[]}', "wrong shape"),
    (b'{"overlay-layer":3,"entries":[]}', "unknown version"),
    (b'{"overlay-layer":0,"entries":[]}', "unknown version"),
    (b'{"overlay-layer":1,"entries":[]}', "entry count"),
    (b'{"overlay-layer":2,"entries":[]}', "entry count"),
    (manifest(1, {**ROOT_ENTRY, NSEC: 0}), "entry 0: wrong entry"),
    (manifest(1, ROOT_ENTRY, entry("/a", **{NSEC: 0})), "entry 1: wrong entry"),
    (FIRST.replace(b'":1}', b'":2}'), "entry 0: wrong entry"),
    (SECOND.replace(b'":2}', b'":1}'), "entry 0: wrong entry"),
    *(
        (manifest(2, ROOT_ENTRY, entry("/a", **{NSEC: wrong})), "entry 1: wrong entry")
        for wrong in (10**9, -1, 0.5, 1.0, -0.0, "0", None, True)
    ),
    (manifest(2, ROOT_ENTRY, entry("/a")).replace(b'{"mtime-nsec": 0, "path": "/a"', b'{"path": "/a"'), "entry 1: wrong entry"),
    (SECOND.replace(b'"mtime-nsec":0', b'"mtime-nsec":-0'), "entry 0: wrong entry"),
    *(
        (manifest(version, *entries), fault)
        for version in (1, 2)
        for entries, fault in (
            ([entry("/a")], "no root directory first"),
            ([entry("/", "file", size=0)], "no root directory first"),
            ([ROOT_ENTRY, entry("/b"), entry("/a")], "entry 2: out of order"),
            ([ROOT_ENTRY, entry("/a"), entry("/a")], "entry 2: out of order"),
            ([ROOT_ENTRY, entry("/a-b"), entry("/a/b")], "entry 2: out of order"),
            ([ROOT_ENTRY, entry("/a/b")], "entry 1: no parent directory"),
            ([ROOT_ENTRY, entry("/a", "fifo"), entry("/a/b")], "entry 2: no parent directory"),
            ([ROOT_ENTRY, entry("/" + "n" * 256)], "entry 1: wrong entry"),
            ([ROOT_ENTRY, *CHAIN], f"entry {DEEPEST[version] + 1}: wrong entry"),
            ([ROOT_ENTRY, entry("/a", xattrs={"trusted.overlay.overlay.opaque": "79"})], "entry 1: escaped attribute"),
        )
    ),
    *(
        (manifest(version, ROOT_ENTRY, wrong), "entry 1: wrong entry")
        for version in (1, 2)
        for wrong in (
            entry("/a", "door"), entry("/a", mode=4096), entry("/a", mode=-1), entry("/a", mode=True),
            entry("/a", uid=2**32), entry("/a", mtime=2**63), entry("/a", size=0), entry("/a/"), entry("a"),
            entry("/a/.."), entry("/a", xattrs={"": ""}), entry("/a", xattrs={"k": "0"}),
            entry("/a", xattrs={"k": "AA"}),
            entry("/a", "file"), entry("/a", "file", size=1), entry("/a", "file", size=0, blob="0" * 64),
            entry("/a", "file", size=1, blob="A" * 64), entry("/a", "file", size=2**63, blob="0" * 64),
            entry("/a", "file", size=1, blob="0" * 64, xattrs={"trusted.overlay.metacopy": ""}),
            entry("/a", "symlink"), entry("/a", "symlink", target=""), entry("/a", "symlink", target="x" * 4096),
            entry("/a", "char", major=0), entry("/a", "block", major=0, minor=2**32),
        )
    ),
]


class Manifests(FolderTest):
    """Reading and writing."""

    def test_examples_are_written_as_they_stand(self) -> None:
        found = [path for path in sorted((ROOT / "examples").rglob("*.json")) if not {"out", "image"} & set(path.parts)]
        self.assertGreater(len(found), 5)
        firsts = set()
        for path in found:
            text = path.read_bytes()
            if text.endswith(b'"overlay-layer":1}\n'):
                firsts.add(path.name)
                text = text.replace(b',"path":', b',"mtime-nsec":0,"path":').replace(b'"overlay-layer":1', b'"overlay-layer":2')
            self.assertEqual("".join(written(named(read_manifest(str(path))))).encode(), text, path)
        self.assertEqual(firsts, {"debian.json"})

    def test_escapes(self) -> None:
        name = "".join(map(chr, [*range(1, 47), *range(48, 128)])) + "é日\U0001f600\u2028"
        path = self.path("l.json")
        with open(path, "wb") as file:
            file.write(manifest(2, ROOT_ENTRY, entry("/" + name)))
        text = "".join(written(named(read_manifest(path))))
        self.assertIn(r'"/\u0001\u0002\u0003\u0004\u0005\u0006\u0007\b\t\n\u000b\f\r\u000e', text)
        self.assertIn('\\u001f !\\"#', text)
        self.assertIn("[\\\\]^_", text)
        self.assertIn('~\x7fé日\U0001f600\u2028"', text)

    def test_limits_that_are_kept(self) -> None:
        chains = (manifest(version, ROOT_ENTRY, *CHAIN[:deepest]) for version, deepest in DEEPEST.items())
        for good in (FIRST[:106], SECOND[:121], manifest(2, ROOT_ENTRY, entry("/" + "n" * 255)), *chains):
            self.read(good)

    def test_both_versions_are_read_and_the_second_is_written(self) -> None:
        text = manifest(1, {**ROOT_ENTRY, "mtime": -2}, entry("/f", "file", size=1, blob="0" * 64))
        compact = json.dumps(json.loads(text), separators=(",", ":"), sort_keys=True).encode()
        for data in (text, compact, compact + b"\n"):
            found = self.read(data)
            self.assertEqual([it.mtime_ns for it in found], [-2 * 10**9, 0])
            again = "".join(written(named(found))).encode()
            self.assertEqual(self.read(again), found)
            self.assertEqual(json.loads(again)["overlay-layer"], 2)
        self.assertEqual("".join(written(named(self.read(FIRST)))).encode(), SECOND)

    def test_times(self) -> None:
        for seconds in (-(2**63), -1, 0, 2**63 - 1):
            for over in (0, 1, 999_999_999):
                text = SECOND.replace(b'"mtime":0,"mtime-nsec":0', b'"mtime":%d,"mtime-nsec":%d' % (seconds, over))
                for data in (text, b" " + text):
                    found = self.read(data)
                    self.assertEqual(found[0].mtime_ns, seconds * 10**9 + over)
                    self.assertEqual("".join(written(named(found))).encode(), text)

    def read(self, data: bytes) -> list[Entry]:
        """The entries of a manifest of these bytes."""
        with open(self.path("l.json"), "wb") as file:
            file.write(data)
        return read_manifest(self.path("l.json"))

    def test_faults(self) -> None:
        path = self.path("l.json")
        for text, fault in REFUSED:
            with self.subTest(text=text[:200]):
                with open(path, "wb") as file:
                    file.write(text)
                result = call("build", path, "--blobs", self.folder, "--out", self.path("out"))
                self.assertEqual(result, (3, "", f"layers: cannot read {path}: {fault}\n"))
                self.assertEqual(os.listdir(self.folder), ["l.json"])


if __name__ == "__main__":
    unittest.main()
