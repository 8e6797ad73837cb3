"""The command line: statuses, fault lines, and what is refused before anything is written."""

import ast
import contextlib
import errno
import fcntl
import filecmp
import gzip
import hashlib
import io
import itertools
import json
import os
import re
import runpy
import shutil
import signal
import socket
import stat
import subprocess
import sys
import tarfile
import time
import unittest
import zlib
from unittest import mock

from images import archive, folder, member, write_layout
from support import (
    COMMAND, ROOT, ROOT_LAYER, FolderTest, call, left_stage, links, run, run_as_anybody, why_no_trusted,
)

from convert import cli as command
from convert.common import open_dirs as places
from convert.common.colours import Colour, When, choose_colours, painted
from convert.image.compression import BLOCK, GZIP, Compression, packing
from convert.model.manifests import read_manifest
from convert.words import COMMANDS

_IMPORTED = """
import sys
sys.path.insert(0, sys.argv[1])
from convert.cli import main
try:
    main(sys.argv[2:])
except SystemExit:
    pass
print(*sys.modules)
"""
_OF_COMMANDS = frozenset(["check", "flatten", "folder", "image", "look", "sizes", "squashfs", "tar"])
A = hashlib.sha256(b"a").hexdigest()


def _clone(target: int, _: int, source: int) -> None:
    """What the system does for a reflink, on a file system that has none."""
    os.pwrite(target, os.pread(source, 1 << 30, 0), 0)


class CommandTest(FolderTest):
    """A test with a manifest of one file."""

    def write_manifest(self, *entries: dict[str, object]) -> str:
        """A manifest of a root and these entries, with the blob of `a`."""
        layer = json.loads(ROOT_LAYER.read_text(encoding="utf-8"))
        root = {**layer["entries"][0], "uid": os.geteuid(), "gid": os.getegid()}
        with open(self.path("l.json"), "w", encoding="utf-8") as file:
            json.dump({**layer, "entries": [root, *({**root, **entry} for entry in entries)]}, file)
        os.makedirs(self.path("blobs"), exist_ok=True)
        with open(self.path("blobs", A), "wb") as blob:
            blob.write(b"a")
        return self.path("l.json")


class Words(FolderTest):
    """Usage and help."""

    def test_usage(self) -> None:
        for words in (
            ("dance",), ("-q",), ("scan",), ("scan", "x"), ("build", "x", "--out", "y"), ("mounted",), ("--he",),
            ("scan", "x", "--out", "y", "--blobs", "z", "--workers", "0"), ("pack", "--blobs", "b", "--out", "o"),
            ("pack", "l", "--blobs", "b", "--out", "o", "--platform", "linux"), ("store", "x"),
            ("scan", "x", "--out", "y", "--blobs", "z", "--digests-only"),
        ):
            status, printed, messages = call(*words)
            self.assertEqual((status, printed, messages.count("\n")), (2, "", 1), words)
            self.assertRegex(messages, r"^layers: .*; see `layers .*--help`\n$")
        self.assertIn("there is no command flaten (is it flatten?); see `layers --help`", call("flaten")[2])
        self.assertIn("or layers by --stack LAYER..; see `layers sizes --help`\n", call("sizes")[2])

    def test_help(self) -> None:
        for words in (("--help",), *((name, "-h") for name in command._RUNS)):
            status, printed, messages = call(*words)
            self.assertEqual((status, messages), (0, ""))
            self.assertTrue(printed.startswith("usage: layers"))
        self.assertEqual(call(), (2, call("--help")[1], ""))

    def test_help_in_80_columns_has_every_command(self) -> None:
        with mock.patch.dict(os.environ):
            os.environ.pop("COLUMNS", None)
            whole, names = call("--help")[1], [it.name for it in COMMANDS]
            helps = [whole, *(call(name, "--help")[1] for name in command._RUNS)]
        self.assertEqual([line for text in helps for line in text.splitlines() if len(line) > 80], [])
        listed = re.findall(r"^    (\w+)  ", whole, re.MULTILINE)
        self.assertEqual(listed, names)
        self.assertEqual(set(listed), set(command._RUNS))
        self.assertLessEqual(len(whole.splitlines()), 64)

    def test_words_before_and_after(self) -> None:
        image = self.path("image")
        write_layout(image, [archive([folder("./"), member("a/b", b"c")])])
        more = ("--out", self.path("out"), "--digests-only", "--color", "never")
        for words, is_quiet in (
            (("-q", "unpack"), True), (("unpack", "-q"), True), (("unpack",), False), (("-q", "unpack", "-v"), False),
        ):
            status, printed, messages = call(*words, image, *more)
            self.assertEqual((status, printed, messages == ""), (0, "", is_quiet), messages)
            shutil.rmtree(self.path("out"))
        self.assertEqual(call("-V"), call("--version"))

    def test_a_start_imports_only_what_is_needed(self) -> None:
        for words, imported in (
            (["--version"], []), (["--help"], []), (["dance"], []), (["mounted", "/absent"], ["folder", "look"]),
            (["scan", "--help"], []), (["ls", "--help"], []), (["diff", "--help"], ["look"]),
        ):
            ran = subprocess.run(
                [sys.executable, "-B", "-c", _IMPORTED, str(ROOT), *words], capture_output=True, text=True, check=True,
            )
            found = {name.split(".")[1] for name in ran.stdout.splitlines()[-1].split() if name.startswith("convert.")}
            self.assertEqual(sorted(found & _OF_COMMANDS), imported, words)

    def test_colours(self) -> None:
        for when, environment, is_terminal, has_colours in (
            (When.AUTO, {}, True, True), (When.AUTO, {}, False, False), (When.AUTO, {"NO_COLOR": "1"}, True, False),
            (When.AUTO, {"NO_COLOR": ""}, True, True), (When.AUTO, {"TERM": "dumb"}, True, False),
            (When.ALWAYS, {"NO_COLOR": "1"}, False, True), (When.NEVER, {}, True, False),
        ):
            out = io.StringIO()
            out.isatty = lambda: is_terminal  # type: ignore[method-assign]
            with mock.patch.dict(os.environ, {"TERM": "xterm", **environment}), contextlib.redirect_stdout(out):
                if "NO_COLOR" not in environment:
                    os.environ.pop("NO_COLOR", None)
                choose_colours(when)
                self.assertEqual(painted("x", Colour.RED), "\x1b[31mx\x1b[0m" if has_colours else "x", (when, environment))
        choose_colours(When.AUTO)

    def test_older_pythons(self) -> None:
        with open(COMMAND, encoding="utf-8") as file:
            text = file.read()
        ast.parse(text, feature_version=(3, 4))
        messages = io.StringIO()
        for version, wanted in (((2, 7, 18), "2.7"), ((3, 9, 2), "3.9"), ((3, 10, 0), "3.10")):
            with mock.patch("sys.version_info", version), contextlib.redirect_stderr(messages):
                self.assertEqual(runpy.run_path(str(COMMAND))["run"](["--help"]), 5)
            self.assertIn(f"layers: this is Python {wanted}, and 3.11 or later is needed\n", messages.getvalue())
        self.assertEqual(messages.getvalue().count("\n"), 3)

    def test_as_a_program(self) -> None:
        result = run("mounted", self.path("absent"))
        text = f"layers: cannot read {self.path('absent')}: No such file or directory\n"
        self.assertEqual((result.returncode, result.stdout), (3, ""))
        self.assertTrue(result.stderr.endswith(text), result.stderr)


class Building(CommandTest):
    """`build`."""

    def test_contents_are_checked(self) -> None:
        layer = self.write_manifest({"path": "/f", "kind": "file", "size": 1, "blob": A})
        words = ("build", layer, "--blobs", self.path("blobs"), "--out", self.path("out"))
        blob = self.path("blobs", A)
        for contents, reason in (
            (b"b", "its contents have another digest"), (b"ab", "it has 2 bytes"), (None, "No such file"),
        ):
            os.unlink(blob)
            if contents is not None:
                with open(blob, "wb") as file:
                    file.write(contents)
            self.require_fault(call(*words), 3, f"cannot read {blob}: {reason}")
            self.require_nothing_left("blobs", "l.json")
            if contents is None:
                os.symlink("/dev/null", blob)
        self.require_fault(call(*words), 3, f"cannot read {blob}")

    def test_folder_must_be_empty(self) -> None:
        layer = self.write_manifest({"path": "/f", "kind": "file", "size": 1, "blob": A})
        words = ("build", layer, "--blobs", self.path("blobs"), "--out")
        os.mkdir(self.path("out"))
        self.require_done(call(*words, self.path("out")))
        self.require_fault(call(*words, self.path("out")), 4, "cannot write", "it isn't empty")
        self.require_fault(call(*words, self.path("l.json")), 4, "Not a directory")
        self.require_fault(call(*words, self.path("no", "out")), 4, "No such file")
        self.assertEqual(os.listdir(self.path("out")), ["f"])

    def test_what_linux_has_not(self) -> None:
        for entry, reason in (
            ({"kind": "symlink", "target": "x", "mode": 0o755}, "a symlink of mode 0755"),
            ({"kind": "char", "major": 4096, "minor": 0}, "a device 4096:0"),
            ({"uid": 2**32 - 1}, "an owner or group 4294967295"),
            ({"kind": "fifo", "xattrs": {"user.k": ""}}, "attribute user.k"),
        ):
            layer = self.write_manifest({"path": "/x", **entry})
            result = call("build", layer, "--blobs", self.path("blobs"), "--out", self.path("out"))
            self.require_fault(result, 4, f"cannot write {self.path('out')}/x: {reason}")
            self.require_nothing_left("blobs", "l.json")


class Scanning(CommandTest):
    """`scan`. Without the right to read `trusted.*` by `--userxattr`."""

    def scan(self, *words: object) -> tuple[int, str, str]:
        """Scans the folder `in`."""
        out, blobs = self.path("out.json"), self.path("blobs")
        return call("scan", self.path("in"), "--out", out, "--blobs", blobs, "--userxattr", *words)

    def paths(self) -> list[str]:
        """The paths of the manifest that was written."""
        return [entry.path for entry in read_manifest(self.path("out.json"))]

    def test_links_are_not_followed(self) -> None:
        os.makedirs(self.path("in", "d"))
        os.symlink("/etc", self.path("in", "etc"))
        os.symlink("absent", self.path("in", "d", "l"))
        self.require_done(self.scan())
        self.assertEqual(self.paths(), ["/", "/d", "/d/l", "/etc"])

    def test_unsupported_names(self) -> None:
        os.mkdir(self.path("in"))
        bad = os.fsencode(self.path("in")) + b"/\xff"
        os.mkdir(bad)
        os.mkdir(bad + b"/inner")
        self.require_fault(self.scan(), 3, f"cannot read {self.path('in')}/\\xff: its name isn't UTF-8")
        self.require_nothing_left("in")
        result = self.scan("--skip-unsupported")
        self.require_done(result)
        self.assertIn("\\xff: left out: its name isn't UTF-8", result[2])
        self.assertEqual(self.paths(), ["/"])

    def test_depth(self) -> None:
        os.makedirs(self.path("in", *["d"] * 129))
        self.require_fault(self.scan(), 3, "it is 129 names deep, over 128")
        self.require_nothing_left("in")
        self.require_done(self.scan("--skip-unsupported"))
        self.assertEqual(len(self.paths()), 129)

    def test_the_number_of_entries(self) -> None:
        os.makedirs(self.path("in", "a", "b"))
        os.mkdir(self.path("in", "c"))
        with mock.patch("convert.model.rules.MAX_ENTRIES", 3):
            self.require_fault(self.scan(), 3, "/c: the folder has over 3 entries")
            self.require_nothing_left("in")
            self.require_done(self.scan("--skip-unsupported"))
            self.assertEqual(self.paths(), ["/", "/a", "/a/b"])
        with mock.patch("convert.model.rules.MAX_ENTRIES", 4):
            self.require_done(self.scan())

    def test_a_folder_that_becomes_a_link(self) -> None:
        os.makedirs(self.path("in", "d"))
        os.symlink("d", self.path("in", "l"))
        root = places.open_root(self.path("in"))
        try:
            os.close(places.open_folder("d", root))
            self.assertRaises(OSError, places.open_folder, "l", root)
            self.assertRaises(OSError, places.Chain(root).folder, ["l"])
        finally:
            os.close(root)

    def test_a_file_that_always_changes(self) -> None:
        os.mkdir(self.path("in"))
        with open(self.path("in", "f"), "wb") as file:
            file.write(b"abc")
        numbers = itertools.count()
        for words in ("--blobs", self.path("blobs")), ("--digests-only",):
            with mock.patch("convert.folder.scan.state_of", side_effect=lambda _: b"%d" % next(numbers)):
                result = call("scan", self.path("in"), "--out", self.path("out.json"), "--userxattr", *words)
            self.require_fault(result, 3, "/in/f: it was changed meanwhile, and again")
            self.require_nothing_left("in")

    def test_ways_of_copying(self) -> None:
        os.mkdir(self.path("in"))
        wanted = {}
        for number, size in enumerate((1, 5_000, (1 << 18) + 1, 1_000_000, 1_000_000)):
            data = bytes([number % 4]) * size
            wanted[hashlib.sha256(data).hexdigest()] = data
            with open(self.path("in", str(number)), "wb") as file:
                file.write(data)
        refused = OSError(errno.EXDEV, "")
        for patches in (
            [], [mock.patch("fcntl.ioctl", _clone)], [mock.patch("os.copy_file_range", side_effect=refused)],
        ):
            with contextlib.ExitStack() as patched:
                for patch in patches:
                    patched.enter_context(patch)
                self.require_done(self.scan("--workers", 1))
            self.assertEqual(sorted(os.listdir(self.path("blobs"))), sorted(wanted))
            for digest, data in wanted.items():
                with open(self.path("blobs", digest), "rb") as blob:
                    self.assertEqual(blob.read(), data)
            shutil.rmtree(self.path("blobs"))

    def test_a_blob_of_a_wrong_size_is_mended(self) -> None:
        os.mkdir(self.path("in"))
        with open(self.path("in", "f"), "wb") as file:
            file.write(b"a")
        os.mkdir(self.path("blobs"))
        for contents in (b"", b"a"):
            with open(self.path("blobs", A), "wb") as blob:
                blob.write(contents)
            self.require_done(self.scan())
            with open(self.path("blobs", A), "rb") as blob:
                self.assertEqual(blob.read(), b"a")

    def test_losses_are_said(self) -> None:
        os.mkdir(self.path("in"))
        with open(self.path("in", "f"), "wb") as file:
            file.write(b"a")
        os.link(self.path("in", "f"), self.path("in", "g"))
        for name in ("in", "in/f"):
            os.utime(self.path(name), ns=(0, 1_500_000_000))
        with socket.socket(socket.AF_UNIX) as end:
            end.bind(os.path.relpath(self.path("in", "s")))
        os.utime(self.path("in"), ns=(0, -1))
        os.utime(self.path("in", "s"), (0, 0))
        result = self.scan()
        self.require_done(result)
        self.assertEqual(result[2], "")
        self.assertEqual(links(self.path("out.links")), [["/f", "/g"]])
        entries = read_manifest(self.path("out.json"))
        self.assertEqual(
            [(entry.kind, entry.mtime_ns) for entry in entries],
            [("dir", -1), ("file", 1_500_000_000), ("file", 1_500_000_000), ("socket", 0)],
        )
        self.assertEqual(os.listdir(self.path("blobs")), [A])

    def test_marks_of_user_mounts(self) -> None:
        os.makedirs(self.path("in", "d"))
        try:
            os.setxattr(self.path("in", "d"), "user.overlay.opaque", b"y")
        except OSError as error:
            self.skipTest(f"no user.* attributes here: {error.strerror}")
        self.require_done(self.scan())
        self.assertEqual(read_manifest(self.path("out.json"))[1].attributes, {"trusted.overlay.opaque": b"y"})
        os.setxattr(self.path("in", "d"), "user.overlay.overlay.opaque", b"y")
        self.require_fault(self.scan(), 3, "trusted.overlay.overlay.opaque")

    def test_the_right_to_read_marks(self) -> None:
        os.mkdir(self.path("in"))
        os.chmod(self.folder, 0o755)
        result = run_as_anybody(
            "scan", self.path("in"), "--out", self.path("out.json"), "--blobs", self.path("blobs")
        )
        self.assertEqual(result.returncode, 3, result.stderr)
        self.assertIn("run it with sudo, or give --userxattr", result.stderr)
        self.require_nothing_left("in")

    def test_many_files_by_several_workers(self) -> None:
        os.mkdir(self.path("in"))
        for number in range(1_200):
            with open(self.path("in", f"{number:04}"), "wb") as file:
                file.write(b"%d" % (number % 1_000))
        manifests = []
        for workers in (1, 3):
            self.require_done(self.scan("--workers", workers))
            with open(self.path("out.json"), "rb") as file:
                manifests.append(file.read())
            self.assertEqual(len(os.listdir(self.path("blobs"))), 1_000)
        self.assertEqual(manifests[0], manifests[1])

    def test_digests_only(self) -> None:
        os.mkdir(self.path("in"))
        for number in range(600):
            with open(self.path("in", str(number)), "wb") as file:
                file.write(bytes([number % 256]) * (number % 3 * 200_000))
        self.require_done(self.scan())
        os.rename(self.path("out.json"), self.path("with-blobs.json"))
        shutil.rmtree(self.path("blobs"))
        words = ("scan", self.path("in"), "--out", self.path("out.json"), "--digests-only", "--userxattr")
        for workers in (1, 3):
            self.require_done(call(*words, "--workers", workers))
            self.assertTrue(filecmp.cmp(self.path("out.json"), self.path("with-blobs.json"), shallow=False))
            self.require_nothing_left("in", "out.json", "with-blobs.json")

    def _stages(self) -> list[str]:
        return os.listdir(self.path("blobs")) if os.path.exists(self.path("blobs")) else []

    def test_an_interrupted_scan_leaves_nothing(self) -> None:
        os.mkdir(self.path("in"))
        for number in range(3_000):
            with open(self.path("in", str(number)), "wb") as file:
                file.write(b"%d" % number)
        words = ["scan", self.path("in"), "--out", self.path("out.json"), "--blobs", self.path("blobs"), "--userxattr"]
        for workers in ("1", "3"):
            with subprocess.Popen(
                [sys.executable, "-B", str(COMMAND), *words, "--workers", workers], stderr=subprocess.PIPE
            ) as process:
                while process.poll() is None and not self._stages():
                    time.sleep(0.001)
                time.sleep(0.02)
                process.send_signal(signal.SIGTERM)
            if process.returncode != 0:
                self.assertEqual(process.returncode, 128 + signal.SIGTERM)
                self.require_nothing_left("in")
            else:
                self.empty()
                os.mkdir(self.path("in"))


class Outputs(CommandTest):
    """What is written over, and by whom it can be read."""

    def setUp(self) -> None:
        super().setUp()
        os.mkdir(self.path("in"))
        with open(self.path("in", "f"), "wb") as file:
            file.write(b"a")
        os.utime(self.path("in"), (0, 0))
        self.words = ("scan", self.path("in"), "--blobs", self.path("blobs"), "--userxattr", "--out")
        self.require_done(call(*self.words, self.path("plain")))
        with open(self.path("plain"), encoding="utf-8") as file:
            self.text = file.read()

    def test_standard_output(self) -> None:
        for word in ("-", "/dev/stdout", "/dev/fd/1"):
            result = run(*self.words, word)
            self.assertEqual((result.returncode, result.stdout), (0, self.text), result.stderr)
        with open(self.path("file"), "wb") as file:
            file.write(b"before\n")
            file.flush()
            words = [sys.executable, "-B", str(COMMAND), *self.words, "/dev/stdout"]
            subprocess.run(words, stdout=file, stderr=subprocess.DEVNULL, check=True)
        with open(self.path("file"), encoding="utf-8") as file:
            self.assertEqual(file.read(), "before\n" + self.text)

    def test_pipes_and_devices_stay(self) -> None:
        os.mkfifo(self.path("pipe"))
        reader = os.open(self.path("pipe"), os.O_RDONLY | os.O_NONBLOCK)
        try:
            self.require_done(call(*self.words, self.path("pipe")))
            self.assertEqual(os.read(reader, 1 << 16).decode(), self.text)
        finally:
            os.close(reader)
        os.symlink("/dev/null", self.path("null"))
        self.require_done(call(*self.words, self.path("null")))
        os.symlink("/dev/full", self.path("full"))
        self.require_fault(call(*self.words, self.path("full")), 4, f"cannot write {self.path('full')}: No space left")
        kinds = [stat.S_IFMT(os.lstat(self.path(name)).st_mode) for name in ("pipe", "null", "full")]
        self.assertEqual(kinds, [stat.S_IFIFO, stat.S_IFLNK, stat.S_IFLNK])
        self.assertTrue(stat.S_ISCHR(os.stat("/dev/null").st_mode) and stat.S_ISCHR(os.stat("/dev/full").st_mode))

    def test_a_device_node_stays(self) -> None:
        reason = why_no_trusted(self.folder)
        if reason:
            self.skipTest(reason)
        os.mknod(self.path("node"), 0o20600, os.makedev(1, 3))
        self.require_done(call(*self.words, self.path("node")))
        self.assertEqual(os.lstat(self.path("node")).st_rdev, os.makedev(1, 3))

    def test_links_to_files(self) -> None:
        os.mkdir(self.path("d"))
        os.symlink("../target", self.path("d", "link"))
        for _ in range(2):
            self.require_done(call(*self.words, self.path("d", "link")))
            self.assertEqual(os.readlink(self.path("d", "link")), "../target")
            with open(self.path("target"), encoding="utf-8") as file:
                self.assertEqual(file.read(), self.text)
        self.require_fault(call(*self.words, self.path("d")), 4, "it is a folder")
        self.require_nothing_left("blobs", "d", "in", "plain", "target")

    def test_who_can_read(self) -> None:
        self.assertEqual(self._modes("blobs", f"blobs/{A}"), [0o700, 0o600])
        pack = ("pack", self.path("plain"), "--blobs", self.path("blobs"), "--out")
        self.require_done(call(*pack, self.path("image")))
        self.require_done(call(*pack, self.path("image.tar")))
        self.require_done(call("unpack", self.path("image.tar"), "--out", self.path("out")))
        self.assertEqual(
            self._modes("image", "image.tar", "out", "out/blobs", f"out/blobs/{A}"), [0o700, 0o600, 0o700, 0o700, 0o600]
        )

    def _modes(self, *names: str) -> list[int]:
        return [stat.S_IMODE(os.stat(self.path(name)).st_mode) for name in names]

    def test_blobs_with_other_bytes(self) -> None:
        for size in (1, 5_000, 300_000):
            data = b"a" * size
            blob = self.path("blobs", hashlib.sha256(data).hexdigest())
            with open(self.path("in", "f"), "wb") as file:
                file.write(data)
            for there in (b"b" * size, data):
                with open(blob, "wb") as file:
                    file.write(there)
                before = os.stat(blob).st_ino
                self.require_done(call(*self.words, self.path("plain")))
                with open(blob, "rb") as file:
                    self.assertEqual(file.read(), data)
                self.assertEqual(os.stat(blob).st_ino == before, there == data)


class Stages(CommandTest):
    """What a run that was cut off leaves, and full disks."""

    def setUp(self) -> None:
        super().setUp()
        os.mkdir(self.path("in"))
        with open(self.path("in", "f"), "wb") as file:
            file.write(os.urandom(100_000))
        self.words = (
            "scan", self.path("in"), "--out", self.path("l.json"), "--blobs", self.path("blobs"), "--userxattr",
        )

    def test_old_ones_go(self) -> None:
        os.mkdir(self.path("blobs"))
        old, young = left_stage(self.path("blobs"), 90_000), left_stage(self.path("blobs"), 80_000)
        here = left_stage(self.folder, 90_000)
        result = call(*self.words)
        self.require_done(result)
        for path in (old, here):
            self.assertFalse(os.path.exists(path))
            self.assertIn(f"took away {path}, which a run that was cut off left", result[2])
        self.assertTrue(os.path.exists(young))
        self.assertIn(f"there is {young}, the stage of a run that was cut off", result[2])

    def test_one_of_a_run_that_lives(self) -> None:
        os.mkdir(self.path("blobs"))
        old = left_stage(self.path("blobs"), 90_000)
        file = os.open(old, os.O_RDONLY)
        try:
            fcntl.flock(file, fcntl.LOCK_EX)
            self.assertIn(f"there is {old}, the stage of a run that is at work", call(*self.words)[2])
            self.assertTrue(os.path.exists(old))
        finally:
            os.close(file)

    def test_one_in_an_output(self) -> None:
        self.require_done(call(*self.words))
        build = ("build", self.path("l.json"), "--blobs", self.path("blobs"), "--out", self.path("out"))
        os.mkdir(self.path("out"))
        young = left_stage(self.path("out"), 80_000)
        self.require_fault(call(*build), 4, f"it holds {young}, the stage of a run that was cut off")
        shutil.rmtree(young)
        left_stage(self.path("out"), 90_000)
        self.require_done(call(*build))
        self.assertEqual(os.listdir(self.path("out")), ["f"])

    def test_killed(self) -> None:
        for number in range(2_000):
            with open(self.path("in", str(number)), "wb") as file:
                file.write(b"%d" % number)
        words = [sys.executable, "-B", str(COMMAND), *self.words, "--workers", "1"]
        with subprocess.Popen(words, stderr=subprocess.DEVNULL) as process:
            while process.poll() is None and not os.path.exists(self.path("blobs")):
                time.sleep(0.001)
            time.sleep(0.02)
            process.kill()
        left = os.listdir(self.path("blobs"))
        if process.returncode == -signal.SIGKILL and left and left[0].startswith(".layers-"):
            self.assertIn(f"{left[0]}, the stage of a run that was cut off", call(*self.words)[2])

    def test_a_full_disk(self) -> None:
        limit = "import resource, sys; resource.setrlimit(resource.RLIMIT_FSIZE, (50_000, 50_000)); "
        start = f"sys.path.insert(0, {str(ROOT)!r}); from convert.cli import main; sys.exit(main(sys.argv[1:]))"
        for size in (100_000, 1_000_000):
            with open(self.path("in", "f"), "wb") as file:
                file.write(os.urandom(size))
            result = subprocess.run(
                [sys.executable, "-B", "-c", limit + start, *self.words], capture_output=True, text=True, check=False
            )
            messages = f"layers: cannot write {self.path('blobs')}: File too large\n"
            self.assertEqual((result.returncode, result.stderr), (4, messages))
            self.require_nothing_left("in")


class Packing(CommandTest):
    """`pack`."""

    def test_marks_of_the_host(self) -> None:
        marks = {f"trusted.overlay.{name}": "79" for name in ("origin", "impure", "uuid", "nlink", "upper", "opaque")}
        layer = self.write_manifest({"path": "/d", "xattrs": {**marks, "user.k": "76"}})
        result = call("pack", layer, "--blobs", self.path("blobs"), "--out", self.path("image"))
        self.require_done(result)
        self.assertIn("5 marks of the host's overlay left out", result[2])
        self.require_done(call("unpack", self.path("image"), "--out", self.path("out"), "--overlay-marks"))
        found = read_manifest(self.path("out", "l0.json"))[1].attributes
        self.assertEqual(found, {"trusted.overlay.opaque": b"y", "user.k": b"v"})

    def test_packed_layers(self) -> None:
        layer = self.write_manifest({"path": "/f", "kind": "file", "size": 1, "blob": A})
        for compress, magic in (("none", b"./"), ("gzip", b"\x1f\x8b"), ("zstd", b"\x28\xb5\x2f\xfd")):
            if compress == "zstd" and shutil.which("zstd") is None:
                continue
            words = ("pack", layer, "--blobs", self.path("blobs"), "--compress", compress, "--out")
            for name in ("image", "image.tar", "again.tar"):
                self.require_done(call(*words, self.path(name)))
            with open(self.path("image.tar"), "rb") as one, open(self.path("again.tar"), "rb") as two:
                self.assertEqual(one.read(), two.read())
            for name in ("image", "image.tar"):
                self.require_done(call("unpack", self.path(name), "--out", self.path("out")))
                self.assertEqual(read_manifest(self.path("out", "l0.json")), read_manifest(layer))
                shutil.rmtree(self.path("out"))
            (described,) = self._manifest(self.path("image"))["layers"]
            suffix = "" if compress == "none" else f"+{compress}"
            self.assertEqual(described["mediaType"], f"application/vnd.oci.image.layer.v1.tar{suffix}")
            with open(self.path("image", "blobs", "sha256", described["digest"][7:]), "rb") as file:
                self.assertTrue(file.read().startswith(magic))
            shutil.rmtree(self.path("image"))

    def test_layers_that_are_twice_in_an_archive(self) -> None:
        layer = self.write_manifest({"path": "/f", "kind": "file", "size": 1, "blob": A})
        for compress in ("none", "gzip"):
            words = ("pack", layer, layer, "--blobs", self.path("blobs"), "--compress", compress, "--out")
            self.require_done(call(*words, self.path("image.tar")))
            with tarfile.open(self.path("image.tar")) as file:
                names = file.getnames()
            self.assertEqual(len(names), len(set(names)))
            self.require_done(call("unpack", self.path("image.tar"), "--out", self.path("out")))
            self.assertEqual(read_manifest(self.path("out", "l1.json")), read_manifest(layer))
            shutil.rmtree(self.path("out"))

    def test_gzip_by_any_number_of_processors(self) -> None:
        for size in (0, 1, BLOCK - 1, BLOCK, BLOCK + 1, 5 * BLOCK + 7):
            data = os.urandom(1_000) * (size // 1_000) + bytes(size % 1_000)
            found = set()
            for processors in (1, 3):
                out = io.BytesIO()
                affinity = mock.patch("os.sched_getaffinity", return_value=range(processors))
                with affinity, packing(Compression(GZIP), out) as packer:
                    for at in range(0, size, 100_000):
                        packer.write(data[at:at + 100_000])
                found.add(out.getvalue())
                self.assertEqual(packer.digest(), hashlib.sha256(out.getvalue()).hexdigest())
            (whole,) = found
            self.assertEqual(gzip.decompress(whole), data)
            self.assertLess(len(whole), 1.05 * len(zlib.compress(data)) + 30)

    def _manifest(self, image: str) -> dict[str, list[dict[str, str]]]:
        with open(f"{image}/index.json", encoding="utf-8") as file:
            digest = json.load(file)["manifests"][0]["digest"][7:]
        with open(f"{image}/blobs/sha256/{digest}", encoding="utf-8") as file:
            return json.load(file)

    def test_without_the_zstd_program(self) -> None:
        layer = self.write_manifest()
        with mock.patch("convert.image.compression.shutil.which", return_value=None):
            words = ("--blobs", self.path("blobs"), "--out", self.path("image"), "--compress", "zstd")
            self.require_fault(call("pack", layer, *words), 3, "there is no zstd program")
        self.require_nothing_left("blobs", "l.json")

    def test_what_no_image_has(self) -> None:
        for entry, reason in (
            ({"xattrs": {"trusted.overlay.redirect": "2f78"}}, "run `ovl_layers deref`"),
            ({"xattrs": {"trusted.overlay.redirect": ""}}, "run `ovl_layers deref`"),
            ({"kind": "file", "size": 1, "xattrs": {"trusted.overlay.metacopy": ""}}, "run `ovl_layers deref`"),
            ({"kind": "socket"}, "archives have no sockets"),
            ({"path": "/.wh.x"}, "a whiteout in an image"),
            ({"kind": "symlink", "target": "x"}, "a symlink of mode 0755"),
        ):
            layer = self.write_manifest({"path": "/x", **entry})
            words = ("pack", layer, "--blobs", self.path("blobs"), "--out")
            for out in ("image", "image.tar"):
                self.require_fault(call(*words, self.path(out)), 3, f"cannot read {layer}: /", reason)
                self.require_nothing_left("blobs", "l.json")

    def test_contents_are_checked(self) -> None:
        layer = self.write_manifest({"path": "/f", "kind": "file", "size": 1, "blob": A})
        with open(self.path("blobs", A), "wb") as file:
            file.write(b"b")
        for out in ("image", "image.tar"):
            result = call("pack", layer, "--blobs", self.path("blobs"), "--out", self.path(out))
            self.require_fault(result, 3, "another digest")
            self.require_nothing_left("blobs", "l.json")

    def test_a_redirect_that_says_nothing(self) -> None:
        marks = {"trusted.overlay.redirect": "2f78", "trusted.overlay.opaque": "79"}
        layer = self.write_manifest({"path": "/x", "xattrs": marks})
        words = ("--blobs", self.path("blobs"), "--out", self.path("image"), "--tag", "t")
        self.require_done(call("pack", layer, *words))
        more = ("--from-tag", "t", "--overlay-marks")
        self.require_done(call("unpack", self.path("image"), "--out", self.path("out"), *more))
        self.assertEqual(read_manifest(self.path("out", "l0.json")), read_manifest(layer))


class Mounted(CommandTest):
    """`mounted`."""

    def test_the_report(self) -> None:
        os.mkdir(self.path("in"), 0o755)
        os.chmod(self.path("in"), 0o755)
        with open(self.path("in", "a b"), "wb") as file:
            file.write(b"a")
        os.chmod(self.path("in", "a b"), 0o640)
        os.symlink("é\\", self.path("in", "l"))
        os.mkfifo(self.path("in", "p"), 0o600)
        for name, time_ns in (("a b", 7_000_000_001), ("l", -1_500_000_000), ("p", -1), ("", 7_000_000_000)):
            os.utime(self.path("in", name), ns=(0, time_ns), follow_symlinks=False)
        owner = f"{os.geteuid()} {os.getegid()}"
        self.assertEqual(call("mounted", self.path("in"))[1].splitlines(), [
            f"dir 0755 {owner} 7 - - /", f"file 0640 {owner} 7+000000001 1 {A} /a\\x20b",
            f"symlink 0777 {owner} -2+500000000 - \\xc3\\xa9\\x5c /l", f"fifo 0600 {owner} -1+999999999 - - /p", "entries 4",
        ])

    def test_for_a_program(self) -> None:
        os.mkdir(self.path("in"))
        os.symlink("a\xe9", self.path("in", "l"))
        first, *found = map(json.loads, call("mounted", self.path("in"), "--json")[1].splitlines())
        self.assertEqual(first, {"layers-mounted": 1})
        kinds = [(it["path"], it["kind"], it.get("target")) for it in found]
        self.assertEqual(kinds, [("/", "dir", None), ("/l", "symlink", "a\xe9")])

    def test_a_report_that_can_not_be_written(self) -> None:
        with open("/dev/full", "wb") as full:
            result = subprocess.run(
                [sys.executable, "-B", str(COMMAND), "mounted", self.folder],
                stdout=full, stderr=subprocess.PIPE, check=False,
            )
        self.assertEqual(result.returncode, 4)
        self.assertTrue(result.stderr.endswith(b"layers: cannot write standard output: No space left on device\n"), result.stderr)


if __name__ == "__main__":
    unittest.main()
