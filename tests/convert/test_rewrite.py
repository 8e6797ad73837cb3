"""`vacuum`, `deref` and `merge` of layers on a disk: what the new layer holds, and what the kernel shows with it."""

import os
import signal
import socket
import stat
import subprocess
import sys
import tarfile
import time
import unittest
from collections.abc import Mapping, Sequence
from dataclasses import dataclass
from pathlib import Path
from unittest import mock

import linked_stacks
from images import archive, folder, member
from squashfs_files import require
from support import COMMAND, ROOT, FolderTest, call, links, program_words, why_no_trusted
from test_kernel import IN_A_NAMESPACE, why_no_overlay

from convert.model.entries import CHAR, METACOPY, OPAQUE, REDIRECT, Entry
from convert.model.links import take_links
from convert.model.manifests import read_manifest

STACKS = int(os.environ.get("LAYERS_TEST_IMAGES", "6"))
SEED, FIRST_LINKED = 3, 17
_SCRIPT = Path(__file__).with_name("rewritten_stacks.py")
LINK = tarfile.LNKTYPE
Layer = list[tuple[tarfile.TarInfo, bytes]]
COMMANDS = ("vacuum", "deref", "merge")


def marked(**values: str) -> dict[str, str]:
    """Marks of an overlay, as an archive has them."""
    return {f"SCHILY.xattr.trusted.overlay.{name}": value for name, value in values.items()}


def removed(name: str) -> tuple[tarfile.TarInfo, bytes]:
    """A whiteout."""
    return member(name, kind=tarfile.CHRTYPE)


def text_of(entry: Entry) -> str:
    """What an entry is: its kind, or the size of a file, and its marks."""
    kind = "whiteout" if entry.kind == CHAR else str(entry.size) if entry.kind == "file" else entry.kind
    marks = {OPAQUE: "opaque", REDIRECT: "redirect", METACOPY: "metacopy"}
    return " ".join([kind, *(marks.get(name, name) for name in sorted(entry.attributes))])


@dataclass(frozen=True)
class Row:
    """A stack of archives, the topmost first, with words of a command, and the entries, report and notes it gives."""

    words: Sequence[str]
    layers: Sequence[Layer]
    wanted: Mapping[str, str]
    report: Sequence[str]
    taken: int = 1
    links: Sequence[Sequence[str]] = ()
    notes: Sequence[str] = ()


_BASE = [folder("./"), folder("d"), member("d/f", b"four"), member("d/g", b"g"), member("h", kind=LINK, target="d/g")]
_LINKED = [folder("./"), member("a", b"12"), member("b", kind=LINK, target="a"), folder("e")]
_MOVED = [folder("./"), removed("d"), folder("n", pax=marked(redirect="/d")), member("n/x", b"new")]
_META = member("m", bytes(4), pax=marked(metacopy="", redirect="/d/f"))
ROWS = (
    Row(("vacuum",), [[folder("./"), folder("d", pax=marked(origin="x")), member("d/f", b"four"), member("n", b"new")], _BASE],
        {"/": "dir", "/n": "3"}, ["removed /d", "removed /d/f", "removed 2 kept 2"]),
    Row(("vacuum",), [[folder("./"), member("a", b"12"), folder("e")], _LINKED],  # a file of its own, and one with b below
        {"/": "dir", "/a": "2"}, ["removed /e", "removed 1 kept 2"], notes=["vacuum: 1 name of a hard link stays"]),
    Row(("vacuum",), [[folder("./"), folder("d"), member("d/f", b"four"), member("d/g", b"g")], _BASE],
        {"/": "dir", "/d": "dir", "/d/g": "1"}, ["removed /d/f", "removed 1 kept 3"],
        notes=["vacuum: 1 name of a hard link stays"]),
    Row(("vacuum",), [_LINKED, _LINKED], {"/": "dir"}, ["removed /a", "removed /b", "removed /e", "removed 3 kept 1"]),
    Row(("vacuum",), [_LINKED, [*_LINKED[:2], member("b", b"12"), folder("e")]],  # one file, and two below
        {"/": "dir", "/a": "2", "/b": "2"}, ["removed /e", "removed 1 kept 3"], links=[["/a", "/b"]],
        notes=["vacuum: 2 names of hard links stay"]),
    Row(("vacuum",), [[folder("./"), removed("d"), folder("n", pax=marked(redirect="/d")), member("n/g", b"g")], _BASE],
        {"/": "dir", "/d": "whiteout", "/n": "dir redirect", "/n/g": "1"}, ["removed 0 kept 4"],
        notes=["vacuum: 1 name of a hard link stays"]),  # which is with /h below, by another path
    Row(("deref",), [_MOVED, _BASE],
        {"/": "dir", "/d": "whiteout", "/n": "dir opaque", "/n/f": "4", "/n/g": "1", "/n/x": "3"},
        ["whiteout /d", "opaque /n", "leaf /n/f", "leaf /n/g", "leaf /n/x", "entries 6"],
        notes=["1 hard link between the new layer and those below is a copy now"]),
    Row(("deref",), [[folder("./"), _META, member("o", kind=LINK, target="m")], _BASE],
        {"/": "dir", "/m": "4", "/o": "4"}, ["leaf /m", "leaf /o", "entries 3"], links=[["/m", "/o"]]),
    Row(("deref", "--data-layers", "1"), [[folder("./"), _META], [folder("./")], _BASE],
        {"/": "dir", "/m": "4"}, ["leaf /m", "entries 2"]),
    Row(("merge",), [[folder("./"), removed("h"), folder("e")], _MOVED, _BASE],
        {"/": "dir", "/d": "whiteout", "/e": "dir", "/h": "whiteout", "/n": "dir redirect", "/n/x": "3"},
        ["whiteout /d", "plain /e", "whiteout /h", "moved /n d", "leaf /n/x", "entries 6"], taken=2),
    Row(("merge",), [_MOVED, _BASE], {"/": "dir", "/h": "1", "/n": "dir", "/n/f": "4", "/n/g": "1", "/n/x": "3"},
        ["leaf /h", "plain /n", "leaf /n/f", "leaf /n/g", "leaf /n/x", "entries 6"], taken=2, links=[["/h", "/n/g"]]),
    Row(("merge", "--data-layers", "1"), [[folder("./"), removed("a")], [folder("./"), member("a", b"1")], _LINKED],
        {"/": "dir"}, ["entries 1"], taken=2),  # names of data-only layers aren't shown
    Row(("merge", "--down-to", "2"), [[folder("./"), removed("n")], [folder("./"), folder("u")], _MOVED, _BASE],
        {"/": "dir", "/d": "whiteout", "/u": "dir"}, ["whiteout /d", "plain /u", "entries 3"], taken=3),
)
_LOST = [[folder("./"), removed("lost"), folder("n", pax=marked(redirect="/lost"))], _BASE, _BASE]


class RewriteTest(FolderTest):
    """A test with stacks of archives, whose new layers are squashfs files."""

    def setUp(self) -> None:
        super().setUp()
        require("sqfs2tar", "tar2sqfs")
        if not program_words():
            self.skipTest("needs the built program")
        self.use(program_words()[0])
        os.mkdir(self.path("in"))

    def use(self, program: str) -> None:
        """Has the command find this program."""
        patch = mock.patch("convert.common.program.find_program", return_value=program)
        patch.start()
        self.addCleanup(patch.stop)

    def stack(self, layers: Sequence[Layer]) -> list[str]:
        """Writes the archives."""
        paths = [self.path("in", f"{number}.tar") for number in range(len(layers))]
        for path, layer in zip(paths, layers):
            with open(path, "wb") as file:
                file.write(archive(layer))
        return paths

    def scanned(self, layer: str) -> tuple[str, list[Entry]]:
        """The manifest of a layer, and its entries."""
        manifest = self.path("in", f"{os.path.basename(layer)}.json")
        self.require_done(call("scan", layer, "--out", manifest, "--digests-only"))
        return manifest, read_manifest(manifest)

    def shown(self, layers: Sequence[str], words: Sequence[str]) -> str:
        """What the program shows of layers."""
        manifests = [self.scanned(layer)[0] for layer in layers]
        data = ["--data-layers", "1"] if "--data-layers" in words else []
        return subprocess.run(
            [*program_words(), "show", *data, *manifests], capture_output=True, text=True, check=True
        ).stdout


class Rows(RewriteTest):
    """Small stacks."""

    def test_rows(self) -> None:
        for number, row in enumerate(ROWS):
            with self.subTest(number):
                layers, out = self.stack(row.layers), self.path("in", "new.squashfs")
                result = call(*row.words, "--stack", *layers, "--out", out)
                self.require_done(result)
                self.assertEqual(result[1].splitlines(), list(row.report))
                manifest, entries = self.scanned(out)
                self.assertEqual({entry.path: text_of(entry) for entry in entries}, dict(row.wanted))
                beside = manifest.replace(".json", ".links")
                self.assertEqual(links(beside) if os.path.exists(beside) else [], list(map(list, row.links)))
                notes = [line for line in result[2].splitlines() if " link" in line]
                self.assertEqual(len(notes), len(row.notes), result[2])
                for wanted, line in zip(row.notes, notes):
                    self.assertIn(wanted, line)
                below = layers[row.taken:]
                self.assertEqual(self.shown([out, *below], row.words), self.shown(layers, row.words))
                self.require_nothing_left("in")

    def test_flatten_to_several_layers(self) -> None:
        """It says what isn't one file any more, but for what is excluded."""
        layers = self.stack([[folder("./"), folder("e")], _MOVED, _BASE])
        for number, (excluded, parted) in enumerate((((), 1), (("/h",), 0), (("/n/g",), 0), (("/n/x",), 1))):
            words = [word for path in excluded for word in ("--exclude", path)]
            out = self.path("in", f"new-{number}")
            result = call("flatten", "--stack", *layers, "--layers", 2, "--form", "squashfs", "--out", out, *words)
            self.require_done(result)
            note = f"{out}: 1 hard link between the new layer and those below is a copy now\n"
            self.assertEqual(result[2].count(note), parted, (excluded, result[2]))

    def test_times_of_a_squashfs(self) -> None:
        """Those of the new layer are cut, those of the layers below aren't."""
        layers = [[folder("./"), member("n", b"n")], [folder("./"), member("o", b"o")]]
        for layer in layers:
            layer[1][0].pax_headers = {"mtime": "7.5"}
        result = call("merge", "--stack", *self.stack([*layers, _BASE]), "--out", self.path("in", "new.squashfs"))
        self.require_done(result)
        self.assertIn("2 times cut to whole seconds: /n, ..", result[2])
        result = call("vacuum", "--stack", *self.stack(layers), "--out", self.path("in", "new.squashfs"))
        self.require_done(result)
        self.assertIn("1 time cut to whole seconds: /n\n", result[2])
        result = call("vacuum", "--stack", *self.stack(layers), "--out", self.path("in", "new.tar"))
        self.require_done(result)
        self.assertNotIn("cut", result[2])
        self.assertEqual(self.scanned(self.path("in", "new.tar"))[1][1].mtime_ns, 7_500_000_000)

    def test_userxattr(self) -> None:
        """Marks of a mount with this option are read and written so."""
        upper, out = self.path("in", "upper"), self.path("in", "new")
        os.makedirs(f"{upper}/n")
        try:
            os.chown(f"{upper}/n", 0, 0)
            os.mknod(f"{upper}/d", stat.S_IFCHR)
            os.setxattr(f"{upper}/n", "user.overlay.redirect", b"/d")
        except OSError as error:
            self.skipTest(f"needs root, and user.* attributes in {self.folder}: {error.strerror}")
        self.require_done(call("deref", "--userxattr", "--stack", upper, *self.stack([_BASE]), "--out", out))
        self.assertEqual(os.listxattr(f"{out}/n"), ["user.overlay.opaque"])
        self.assertEqual(sorted(os.listdir(f"{out}/n")), ["f", "g"])

    def test_sockets(self) -> None:
        """One that a file can't have hides what is below it all the same."""
        reason = why_no_trusted(self.folder)
        if reason:
            self.skipTest(reason)
        upper = self.path("in", "upper")
        os.mkdir(upper)
        with socket.socket(socket.AF_UNIX) as made:
            made.bind(f"{upper}/h")
        for out in (self.path("in", "new.squashfs"), self.path("in", "new.tar")):
            result = call("deref", "--stack", upper, *self.stack([_BASE]), "--out", out)
            self.require_done(result)
            self.assertIn("1 socket left out, which archives don't have: /h\n", result[2])
            self.assertEqual([text_of(entry) for entry in self.scanned(out)[1]], ["dir", "whiteout"])

    def test_what_is_kept(self) -> None:
        layers = self.stack(ROWS[1].layers)
        kept, out = self.path("kept"), self.path("new.squashfs")
        result = call("vacuum", "--stack", *layers, "--out", out, "--keep", kept)
        self.require_done(result)
        with open(f"{kept}/vacuum-linked/report", encoding="ascii") as file:
            self.assertEqual(file.read(), result[1])
        with open(f"{kept}/vacuum/report", encoding="ascii") as file:
            self.assertIn("removed /a\n", file.read())
        for report in ("after.show", "new.show"):
            with open(f"{kept}/before.show", "rb") as one, open(f"{kept}/{report}", "rb") as other:
                self.assertEqual(one.read(), other.read())
        self.require_nothing_left("in", "kept", "new.squashfs")

    def test_folders(self) -> None:
        """A folder over an archive, and a folder that `unpack` wrote."""
        reason = why_no_trusted(self.folder)
        if reason:
            self.skipTest(reason)
        image, out = ROOT / "examples" / "image", self.path("out")
        self.require_done(call("unpack", image, "--out", self.path("in", "s")))
        self.require_done(call("merge", "--stack", self.path("in", "s"), "--out", out))
        topmost = self.path("in", "s", "l0.json"), self.path("in", "s", "l1.json")
        names = {entry.path for manifest in topmost for entry in read_manifest(manifest)}
        self.assertEqual(names, {entry.path for entry in self.scanned(out)[1]})
        with mock.patch("convert.folder.scan.note_mounted") as mounted:
            self.require_done(call("vacuum", "--stack", out, *self.stack([_BASE]), "--out", self.path("again")))
        self.assertIn(mock.call(out), mounted.call_args_list)
        self.assertEqual(os.lstat(self.path("again")).st_mode, os.lstat(out).st_mode)
        self.require_nothing_left("again", "in", "out")


class Random(RewriteTest):
    """Random stacks with hard links, beside what is read plainly off the definitions."""

    def test_links(self) -> None:
        stayed = 0
        for seed in range(FIRST_LINKED, FIRST_LINKED + STACKS):
            folder_of_stack = self.path("in", str(seed))
            layers = linked_stacks.random_stack(seed)
            manifests = linked_stacks.write_stack(layers, folder_of_stack)
            shown = linked_stacks.shown(layers)
            for command in COMMANDS:
                out = self.path("in", f"{command}.tar")
                result = call(command, "--stack", *manifests, "--blobs", f"{folder_of_stack}/blobs", "--out", out)
                self.require_done(result)
                manifest, entries = self.scanned(out)
                take_links(manifest, entries)
                below = layers[2 if command == "merge" else 1:]
                self.assertEqual(linked_stacks.shown([entries, *below]), shown, (seed, command))
                stayed += " stay" in result[2]
        self.assertGreater(stayed, 0)


class Refused(RewriteTest):
    """What ends with a fault, and leaves nothing."""

    def test_words_that_do_not_fit(self) -> None:
        layers = self.stack([_BASE, _BASE])
        out = "--out", self.path("new.squashfs")
        for words, told in (
            (("merge", "--stack", layers[0], *out), "merge takes two layers or more that aren't data-only"),
            (("merge", "--stack", *layers, "--data-layers", 1, *out), "merge takes two layers or more"),
            (("merge", "--stack", *layers, "--down-to", 2, *out), "--down-to must be 1 to 1, less than the layers"),
            (("vacuum", "--stack", *layers, "--data-layers", 2, *out), "of 2 layers 2 can't be data-only"),
            (("vacuum", "--stack", *layers, "--out", layers[0]), "0.tar is a layer that is read"),
            (("deref", "--stack", self.path("in"), layers[0], "--out", self.path("in", "new.squashfs")), "is in the layer "),
            (("deref", "--stack", self.path("in"), layers[0], *out, "--keep", self.path("in", "a", "b")), "is in the layer "),
            (("deref", "--stack", *layers, "--out", self.path("new.img")), "layers are written as folders, or as a file"),
            (("deref", "--stack", *layers, *out, "--form", "folder", "--compress", "xz"), "--compress is of a squashfs"),
        ):
            with self.subTest(words):
                self.require_fault(call(*words), 2, told)
        for command in COMMANDS:
            for words in ((), out, ("--stack", *layers), (*layers, *out), ("--down-to", 0, "--stack", *layers, *out)):
                self.assertEqual(call(command, *words)[:2], (2, ""))
        self.require_nothing_left("in")

    def test_layers_at_fault(self) -> None:
        layers = self.stack(_LOST)
        for command in COMMANDS:
            status, printed, messages = call(command, "--stack", *layers, "--out", self.path("new.squashfs"))
            self.assertEqual((status, printed), (1, "note orphan-whiteout 0 /lost\nfault redirect-lost 0 /n\nfaults 1 notes 1\n"))
            self.assertIn(f"ovl_layers {command} ended with status 1; nothing is written; the first fault is: redirect-lost 0 /n (is the", messages.splitlines()[-1])
            self.require_nothing_left("in")

    def test_something_else_is_shown(self) -> None:
        """By the program's new layer, and by one that is spoilt after it was built."""
        script, out = self.path("in", "ovl_layers"), self.path("new.squashfs")
        layers = self.stack([_LINKED, _BASE])
        for spoilt in ("grep -q vacuum/", "grep -q again/"):
            with open(script, "w", encoding="ascii") as file:
                file.write(f'#!/bin/sh\n{program_words()[0]} "$@"; echo "$*" | {spoilt} && [ $1 = show ] && echo; true\n')
            os.chmod(script, 0o755)
            self.use(script)
            result = call("vacuum", "--stack", *layers, "--out", out)
            self.assertEqual(result[:2], (5, ""))
            self.assertIn("show something else, so nothing is written", result[2].splitlines()[-1])
            self.require_nothing_left("in")

    def test_links_that_came(self) -> None:
        """Names that the new layers would show as one file, and the given ones don't."""
        layers = self.stack([[*_LINKED[:2], member("c", b"3")], _LINKED])
        with mock.patch("convert.flatten.steps.files_in", return_value={}):
            result = call("deref", "--stack", *layers, "--out", self.path("new.squashfs"))
        self.require_done(result)
        layers = self.stack([[folder("./"), member("c", b"3")], _LINKED])
        with mock.patch("convert.flatten.steps.files_in", return_value={}):
            result = call("deref", "--stack", *layers, "--out", self.path("other.squashfs"))
        self.assertEqual(result[:2], (5, ""))
        self.assertIn("have names as one file that were several, so nothing is written", result[2].splitlines()[-1])
        self.require_nothing_left("in", "new.squashfs")


class Interrupted(RewriteTest):
    """A run that a signal ends."""

    def test_nothing_is_left(self) -> None:
        script, started = self.path("in", "ovl_layers"), self.path("in", "started")
        with open(script, "w", encoding="ascii") as file:
            file.write(f"#!/bin/sh\necho $$ > {started}.new; mv {started}.new {started}; exec sleep 60\n")
        os.chmod(script, 0o755)
        words = ["merge", "--stack", *self.stack([_LINKED, _BASE]), "--out", self.path("new.squashfs")]
        code = (
            "import sys; from unittest import mock; sys.path.insert(0, sys.argv[1]); from convert.cli import main; "
            "mock.patch('convert.common.program.find_program', return_value=sys.argv[2]).start(); sys.exit(main(sys.argv[3:]))"
        )
        command = [sys.executable, "-B", "-c", code, str(COMMAND.parent), script, *words]
        for number in (signal.SIGTERM, signal.SIGINT, signal.SIGHUP):
            with subprocess.Popen(
                command, stderr=subprocess.DEVNULL,
                # A shell has commands in the background ignore it, and so all that they start.
                preexec_fn=lambda: signal.signal(signal.SIGINT, signal.SIG_DFL),
            ) as process:
                while process.poll() is None and not os.path.exists(started):
                    time.sleep(0.01)
                process.send_signal(number)
            self.assertEqual(process.returncode, 128 + number)
            os.unlink(started)
            self.require_nothing_left("in")


class Kernel(FolderTest):
    """Stacks that the kernel makes."""

    def test_stacks(self) -> None:
        require("sqfs2tar", "tar2sqfs")
        reason = why_no_overlay(self.folder, "l")
        if reason or not program_words():
            self.skipTest(reason or "needs the built program")
        words = [*IN_A_NAMESPACE, sys.executable, "-B", str(_SCRIPT), self.folder, str(SEED), str(STACKS)]
        result = subprocess.run([*words, *program_words()], capture_output=True, text=True, check=False)
        self.assertEqual(result.returncode, 0, result.stdout[-5_000:] + result.stderr[-5_000:])
        self.require_nothing_left()


if __name__ == "__main__":
    unittest.main()
