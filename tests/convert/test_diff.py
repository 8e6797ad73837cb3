"""`diff`: what it prints of small images and trees, its statuses, and random pairs beside trees that umoci unpacked."""

import contextlib
import json
import os
import random
import shutil
import subprocess
import tarfile
import unittest
from collections.abc import Mapping
from unittest import mock

from hostile import State, walked
from images import archive, folder, member, put_index, put_manifest
from support import FolderTest, call, program_words, why_no_trusted

_PAIRS = 50
_OLD = [
    [folder("./"), folder("bin"), member("bin/tool", b"one"), member("bin/same", b"s"), member("gone", b"g")],
    [member("link", kind=tarfile.SYMTYPE, target="bin", mode=0o777), member("swap", b"w")],
]
_NEW = [
    [folder("./"), folder("bin", mode=0o700), member("bin/tool", b"two!"), member("bin/same", b"s")],
    [member("link", kind=tarfile.SYMTYPE, target="bin/x", mode=0o777), folder("swap")],
    [member("bin/new é\n", b""), member("noted", pax={"SCHILY.xattr.user.note": "1"})],
]
_CHANGED = """\
M configuration: config.Env ["A=1"] -> ["A=2"]
+ configuration: config.Labels.x "y"
- configuration: config.User "1"
M /bin: mode 0755 -> 0700
+ /bin/new é\\x0a
M /bin/tool: contents 3 bytes -> 4 bytes
- /gone
M /link: link bin -> bin/x
+ /noted
M /swap: kind file -> dir, mode 0644 -> 0755
"""
_CONFIGURATION = {"os": "linux", "architecture": "amd64"}
_OLD_CONFIGURATION = {**_CONFIGURATION, "created": "2020-01-01T00:00:00Z", "config": {"Env": ["A=1"], "User": "1", "Cmd": None}}
_NEW_CONFIGURATION = {**_CONFIGURATION, "config": {"Env": ["A=2"], "Labels": {"x": "y"}}}
Members = list[tuple[tarfile.TarInfo, bytes]]


def write_image(path: str, layers: list[Members], configuration: Mapping[str, object] = _CONFIGURATION) -> None:
    """Writes a layout, which umoci knows as `t`."""
    os.mkdir(path)
    written = [archive(layer) for layer in layers]
    descriptor = put_manifest(path, written, written, "linux/amd64", dict(configuration))
    put_index(path, [{**descriptor, "annotations": {"org.opencontainers.image.ref.name": "t"}}])


class Small(FolderTest):
    """Two small images."""

    maxDiff = None

    def setUp(self) -> None:
        super().setUp()
        if not program_words():
            self.skipTest("the program isn't built")
        write_image(self.path("old"), _OLD, _OLD_CONFIGURATION)
        write_image(self.path("new"), _NEW, _NEW_CONFIGURATION)

    def diff(self, *words: str, old: str = "old", new: str = "new") -> tuple[int, str, str]:
        """Runs the command on two of them."""
        return call("diff", self.path(old), self.path(new), *words)

    def test_lines(self) -> None:
        status, printed, messages = self.diff()
        self.assertEqual((status, printed), (1, _CHANGED))
        self.assertIn("new differ: 2 added, 1 removed, 4 changed, 3 members of the configuration", messages)
        self.assertEqual(self.diff("--no-config")[1].splitlines(), _CHANGED.splitlines()[3:])

    def test_ignored(self) -> None:
        status, printed, _ = self.diff("--no-config", "--ignore", "mode,contents,link")
        messages = ["+ /bin/new é\\x0a", "- /gone", "+ /noted", "M /swap: kind file -> dir"]
        self.assertEqual((status, printed.splitlines()), (1, messages))
        status, _, fault = self.diff("--ignore", "kind")
        self.assertEqual(status, 2)
        self.assertIn("what is ignored is one of contents, mode", fault)

    def test_each_aspect(self) -> None:
        plain = member("f", b"x")
        for aspect, messages, change in (
            ("contents", "contents", lambda: member("f", b"y")),
            ("mode", "mode 0644 -> 4755", lambda: member("f", b"x", mode=0o4755)),
            ("attributes", "attributes user.a", lambda: member("f", b"x", pax={"SCHILY.xattr.user.a": "1"})),
            ("owner", "owner 0:0 -> 7:8", lambda: self.dressed(uid=7, gid=8)),
            ("mtime", "mtime 1970-01-01 ", lambda: self.dressed(mtime=1)),
        ):
            with self.subTest(aspect=aspect):
                for name, entry in (("a", plain), ("b", change())):
                    shutil.rmtree(self.path(name), ignore_errors=True)
                    write_image(self.path(name), [[folder("./"), entry]])
                with mock.patch.dict(os.environ, {"TZ": "UTC"}):
                    status, printed, _ = self.diff(old="a", new="b")
                self.assertEqual((status, printed[:len(f"M /f: {messages}")]), (1, f"M /f: {messages}"))
                self.assertEqual(self.diff("--ignore", aspect, old="a", new="b")[:2], (0, ""))

    def dressed(self, **stated: int) -> tuple[tarfile.TarInfo, bytes]:
        """The file with another owner or time."""
        info, data = member("f", b"x")
        for name, value in stated.items():
            setattr(info, name, value)
        return info, data

    def test_json_and_numbers(self) -> None:
        status, printed, _ = self.diff("--json")
        first, *found, last = map(json.loads, printed.splitlines())
        self.assertEqual((status, first, len(found)), (1, {"layers-diff": 1}, 10))
        self.assertEqual(found[5]["aspects"], ["contents"])
        self.assertEqual((found[5]["old"]["size"], found[5]["new"]["size"]), (3, 4))
        self.assertEqual(found[4]["path"], "/bin/new é\n")
        self.assertEqual(found[8]["new"]["attributes"], {"user.note": "31"})
        self.assertEqual((last["added"], last["removed"], last["changed"], last["configuration"]), (2, 1, 4, 3))
        self.assertEqual(json.loads(self.diff("--json", "--stat")[1]), last)
        self.assertEqual(self.diff("--stat")[1].splitlines(), [f"{name} {number}" for name, number in last.items()])

    def test_same(self) -> None:
        self.require_done(call("unpack", self.path("new"), "--out", self.path("stack"), "--digests-only"))
        for old in ("new", "stack"):
            self.assertEqual(self.diff(old=old), (0, "", ""))

    def test_refused(self) -> None:
        self.require_fault(call("diff", "-", "-"), 2, "only one of the two")
        self.require_fault(self.diff(old="absent"), 3, "absent: No such file")
        self.assertEqual(self.diff(old="absent")[1], "")

    def test_tree(self) -> None:
        os.makedirs(self.path("tree", "bin"))
        os.utime(self.path("tree"), (0, 0))
        with contextlib.suppress(PermissionError):
            os.chown(self.path("tree"), 0, 0)
        status, printed, messages = self.diff("--ignore", "mtime,owner,mode", new="tree")
        lines = ["- /bin/same", "- /bin/tool", "- /gone", "- /link", "- /swap"]
        self.assertEqual((status, printed.splitlines()), (1, lines))
        self.assertIn("it is read as a tree", messages)
        self.assertIn("tree has no configuration", messages)


class BesideUmoci(FolderTest):
    """Random pairs: what differs between the trees that umoci unpacks."""

    def setUp(self) -> None:
        super().setUp()
        if shutil.which("umoci") is None:
            self.skipTest("needs umoci")
        if reason := why_no_trusted(self.folder):
            self.skipTest(reason)
        if not program_words():
            self.skipTest("the program isn't built")

    def test_pairs(self) -> None:
        met = set[str]()
        for seed in range(_PAIRS):
            pick = random.Random(seed)
            old = [[_entry(pick, name) for name in _NAMES] for _ in range(2)]
            new = [[_entry(pick, _name(it)) if pick.random() < 0.3 else it for it in layer] for layer in old]
            for name, layers in (("old", old), ("new", new)):
                write_image(self.path(name), [_fit(layer) for layer in layers])
            printed = call("diff", self.path("old"), self.path("new"), "--json", "--no-config")[1]
            wanted = _different(self.tree("old"), self.tree("new"))
            with self.subTest(seed=seed):
                self.assertEqual(_found(printed), wanted)
            met.update(mark for mark, _ in wanted.values())
            self.empty()
        self.assertEqual(met, {"+", "-", "M"})

    def tree(self, name: str) -> dict[str, State]:
        """What umoci unpacks."""
        tree = self.path(f"{name}-tree")
        subprocess.run(["umoci", "raw", "unpack", "--image", f"{self.path(name)}:t", tree], check=True, capture_output=True)
        return dict(walked(tree))


_NAMES = ("a", "b", "a-b", "a/f", "a/g", "b/f", "b/Z", "top", "b/sp ace", "b/\x01")
_PARTS = (("kind",), ("mode",), ("owner",), ("owner",), ("mtime",), ("contents",), ("link",), ("device",), ("attributes",))
Member = tuple[tarfile.TarInfo, bytes] | None


def _name(entry: Member) -> str:
    return entry[0].name if entry else "top"


def _entry(pick: random.Random, name: str) -> Member:
    """A directory if there are names in it, or else anything; at times nothing."""
    if name in ("a", "b"):
        return folder(name, mode=pick.choice((0o755, 0o700)))
    if pick.random() < 0.3:
        return None
    kind = pick.choice((tarfile.REGTYPE, tarfile.REGTYPE, tarfile.REGTYPE, tarfile.SYMTYPE, tarfile.FIFOTYPE, tarfile.CHRTYPE))
    data = pick.choice((b"", b"x", b"y" * 600)) if kind == tarfile.REGTYPE else b""
    pax = {"SCHILY.xattr.user.n": pick.choice("12")} if kind == tarfile.REGTYPE and pick.random() < 0.3 else {}
    mode = 0o777 if kind == tarfile.SYMTYPE else pick.choice((0o644, 0o4755, 0o600))
    info, data = member(name, data, kind, pick.choice(("a", "../b")) if kind == tarfile.SYMTYPE else "", mode, pax)
    info.uid, info.gid, info.mtime = pick.choice((0, 7)), pick.choice((0, 9)), pick.choice((0, 1_700_000_000))
    info.devmajor, info.devminor = 1, pick.choice((3, 5))
    return info, data


def _fit(layer: list[Member]) -> Members:
    return [folder("./"), *(entry for entry in layer if entry is not None)]


def _different(old: Mapping[str, State], new: Mapping[str, State]) -> dict[str, tuple[str, frozenset[str]]]:
    """The paths that differ, with a mark, and the aspects of those that both trees have."""
    found = dict[str, tuple[str, frozenset[str]]]()
    for path in {*old, *new}:
        if path not in new or path not in old:
            found[path] = ("-" if path in old else "+", frozenset())
        elif old[path] != new[path]:
            pairs = zip(_PARTS, old[path], new[path])
            aspects = frozenset(part[0] for part, one, other in pairs if one != other)
            is_kind = old[path][0] == new[path][0]
            found[path] = ("M", aspects if is_kind else aspects - {"contents", "link", "device"})
    return found


def _found(printed: str) -> dict[str, tuple[str, frozenset[str]]]:
    """The same of what `diff` prints, without times of directories."""
    found = dict[str, tuple[str, frozenset[str]]]()
    for line in map(json.loads, printed.splitlines()[1:-1]):
        aspects = frozenset(line.get("aspects", []))
        if "dir" in [line.get(side, {}).get("kind") for side in ("old", "new")] and aspects:
            aspects -= {"mtime"}
        if line["path"] != "/" and (aspects or line["change"] != "M"):
            found[line["path"]] = (line["change"], aspects)
    return found


if __name__ == "__main__":
    unittest.main()
