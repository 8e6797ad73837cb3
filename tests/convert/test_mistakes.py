"""Honest mistakes, and what nobody foresaw: each ends with one line that says what to do, and never with a wrong tree."""

import inspect
import json
import os
import pkgutil
import shutil
import signal
import subprocess
import sys
import tarfile
import unittest
from importlib import import_module
from pathlib import Path
from unittest import mock

from images import archive, folder, member, packed, put_index, put_manifest, write_layout
from support import COMMAND, FolderTest, call, run_as_anybody, why_no_trusted

import convert
from convert.common.faults import OTHER, ClosedPipe, Fault
from convert.folder import mounts
from convert.image.targets import target_of
from convert.model.manifests import read_manifest
from convert.model.stacks import layer_paths, require_order


class Marks(FolderTest):
    """Marks of a mount with `userxattr`."""

    def setUp(self) -> None:
        super().setUp()
        os.makedirs(self.path("upper", "d"))
        try:
            os.setxattr(self.path("upper", "d"), "user.overlay.opaque", b"y")
        except OSError as error:
            self.skipTest(f"no attributes here: {error}")

    def test_neither_word(self) -> None:
        if reason := why_no_trusted(self.path()):
            self.skipTest(reason)
        words = "upper/d: it has user.overlay.opaque, a mark of a mount with userxattr: give --userxattr, or --no-userxattr"
        self.require_fault(self._scan(), 3, words)
        self.require_done(self._scan("--no-userxattr"))
        self.assertEqual(self._attributes(), {"user.overlay.opaque"})

    def test_the_word(self) -> None:
        self.require_done(self._scan("--userxattr"))
        self.assertEqual(self._attributes(), {"trusted.overlay.opaque"})

    def test_in_an_archive(self) -> None:
        attributes = {"SCHILY.xattr.user.overlay.redirect": "/x"}
        with open(self.path("upper.tar"), "wb") as file:
            file.write(archive([folder("./"), folder("d", pax=attributes)]))
        self.require_fault(self._scan(layer="upper.tar"), 3, "it has user.overlay.redirect, a mark of a mount with userxattr")
        self.require_done(self._scan("--userxattr", layer="upper.tar"))
        write_layout(self.path("image"), [archive([folder("d", pax=attributes)])])  # there it is an ordinary attribute
        self.require_done(call("unpack", self.path("image"), "--out", self.path("out")))

    def _scan(self, *words: str, layer: str = "upper") -> tuple[int, str, str]:
        return call("scan", self.path(layer), "--out", self.path("m.json"), "--digests-only", *words)

    def _attributes(self) -> set[str]:
        return {name for entry in read_manifest(self.path("m.json")) for name in entry.attributes}


class Order(FolderTest):
    """Numbered layers."""

    def test_the_shells_order(self) -> None:
        names = [f"s/l{number}.json" for number in range(12)]
        with self.assertRaises(Fault) as found:
            require_order(sorted(names))
        self.assertIn("s/l10.json stands before s/l2.json, as a shell sorts names", found.exception.text)
        self.require_fault(call("pack", *sorted(names), "--blobs", "b", "--out", "o"), 2, "l0.json .. s/l11.json")
        self.require_fault(call("sizes", "--stack", *sorted(names)), 2, "`ls -v` sorts so")

    def test_other_orders(self) -> None:
        for names in (
            [f"l{number}" for number in range(12)], [f"l{number:02}" for number in range(12)], ["l2", "l1"], ["l12", "l10", "l9"],
            ["a1", "b10", "b2"], ["upper", "l10", "l2"], ["l1"], [], ["1/x", "10/x"],
        ):
            with self.subTest(names=names):
                require_order(names)

    def test_as_many_digits(self) -> None:
        """So the order of a shell is that of the layers."""
        for count in (1, 10, 11, 100, 101, 128):
            paths = layer_paths("f", count)
            self.assertEqual(paths, sorted(paths))
        write_layout(self.path("image"), [archive([member(f"f{number}", b"a")]) for number in range(11)])
        self.require_done(call("unpack", self.path("image"), "--out", self.path("out"), "--digests-only"))
        self.assertEqual(sorted(name for name in os.listdir(self.path("out")) if name.endswith("0.json")), ["l00.json", "l10.json"])


class FoldersOfUnpack(FolderTest):
    """What `unpack` wrote, where a stack, an image or a layer may be given."""

    def setUp(self) -> None:
        super().setUp()
        write_layout(self.path("image"), [archive([member("f", b"a")]), archive([member("g", b"b")])])
        self.require_done(call("unpack", self.path("image"), "--out", self.path("stack")))

    def test_as_the_stack_that_it_is(self) -> None:
        for words in (["--stack", self.path("stack")], [self.path("stack")], [self.path("stack") + "/"]):
            with self.subTest(words=words), mock.patch("convert.sizes.command.sizes") as sizes:
                self.require_done(call("sizes", *words))
            options = sizes.call_args.args[0]
            self.assertIsNone(options.image)
            self.assertEqual(options.stack.layers, layer_paths(self.path("stack"), 2))
        with mock.patch("convert.flatten.stack.flatten_stack") as flatten_stack:
            self.require_done(call("flatten", self.path("stack"), "--out", self.path("new")))
        options = flatten_stack.call_args.args[0]
        self.assertEqual((options.stack.layers, options.stack.blobs), (layer_paths(self.path("stack"), 2), self.path("stack", "blobs")))

    def test_not_as_a_layer(self) -> None:
        os.mkdir(self.path("upper"))
        self.require_fault(call("sizes", "--stack", self.path("upper"), self.path("stack")), 2, "a stack of its own and no layer")
        self.require_fault(call("scan", self.path("stack"), "--out", "m", "--digests-only"), 2, "that unpack wrote, and no layer")


class Places(FolderTest):
    """Where something is written."""

    def test_words_of_out(self) -> None:
        for word, said in (
            ("docker-daemon:shop:flat", "docker load"), ("containers-storage:shop", "podman load"),
            ("docker://reg/shop:flat", "skopeo copy oci:DIR docker://NAME"), ("tarball:x", "docker-archive:FILE.tar"),
            ("shop:flat", "is an image's name: say docker-archive:FILE.tar:shop:flat"), ("z.squashfs", "layers flatten --rootfs"),
            ("z.ext4", "a folder or a .tar"), ("z.img", "a folder or a .tar"),
        ):
            with self.subTest(word), self.assertRaises(Fault) as found:
                target_of(word)
            self.assertIn(said, found.exception.text)
            self.assertEqual(found.exception.status, 2)
        for word in ("shop", "./shop:flat", "new/shop:flat", "oci:z.squashfs", "z.tar", "-", "oci:d:t", "Shop:Flat:x"):
            with self.subTest(word):
                target_of(word)

    def test_layers_of_another_kind(self) -> None:
        os.mkdir(self.path("upper"))
        for name in ("z.qcow2", "z.ext4", "z.img"):
            result = call("flatten", "--stack", self.path("upper"), "--userxattr", "--out", self.path(name))
            self.require_fault(result, 2, "layers are written as folders, or as a file whose name ends in .squashfs")

    def test_no_right_to_write(self) -> None:
        """Only what needs root is said to."""
        os.chmod(self.folder, 0o755)
        write_layout(self.path("image"), [archive([folder("./"), member("f", b"a")])])
        os.mkdir(self.path("shut"), 0o555)
        ran = run_as_anybody("unpack", self.path("image"), "--out", self.path("shut", "out"))
        self.assertEqual((ran.returncode, ran.stderr), (4, f"layers: cannot write {self.path('shut', 'out')}: Permission denied\n"))
        os.mkdir(self.path("open"), 0o777)
        os.chmod(self.path("open"), 0o777)
        self.require_done(call("unpack", self.path("image"), "--out", self.path("stack")))
        subprocess.run(["chmod", "-R", "a+rX", self.path("stack")], check=True)
        ran = run_as_anybody("build", self.path("stack", "l0.json"), "--blobs", self.path("stack", "blobs"), "--out", self.path("open", "o"))
        self.assertEqual(ran.returncode, 4)
        self.assertIn("Operation not permitted; owners, devices and trusted.* attributes need root", ran.stderr)

    def test_the_input(self) -> None:
        write_layout(self.path("image"), [archive([member("f", b"a")])])
        for out in (self.path("image"), f"oci:{self.path('image')}"):
            self.require_fault(call("flatten", self.path("image"), "--out", out), 2, "is the image that is read")
        os.mkdir(self.path("upper"))
        os.symlink("upper", self.path("link"))
        for out in ("upper", "link"):
            result = call("flatten", "--stack", self.path("upper"), "--userxattr", "--out", self.path(out))
            self.require_fault(result, 2, "is a layer that is read")

    def test_in_what_is_read(self) -> None:
        os.makedirs(self.path("upper", "d"))
        os.symlink("upper/d", self.path("link"))
        digests, upper = ("--digests-only", "--userxattr"), self.path("upper")
        for words in (
            ("scan", upper, "--out", f"{upper}/x.json", *digests), ("scan", upper, "--out", self.path("link", "x.json"), *digests),
            ("scan", upper, "--out", self.path("x.json"), "--userxattr", "--blobs", f"{upper}/d/new/blobs"),
            ("unpack", "--stack", upper, "--out", f"{upper}/new", *digests),
        ):
            with self.subTest(words):
                self.require_fault(call(*words), 2, f"is in the layer {upper}, which is read: name another place")
        self.assertEqual([names for _, *names in os.walk(upper)], [[["d"], []], [[], []]])
        self.require_done(call("scan", upper, "--out", self.path("upper.json"), *digests))


class Mounted(FolderTest):
    """An upper directory that is in use."""

    def test_said(self) -> None:
        os.makedirs(self.path("a b", "upper"))
        upper = self.path("a\\040b", "upper")
        with open(self.path("mounts"), "w", encoding="utf-8") as file:
            file.write(
                "22 1 254:0 / / rw - ext4 /dev/vda rw\n"
                f"29 22 0:26 / /mnt/m\\040n rw - overlay overlay rw,lowerdir=/l,upperdir={upper},workdir=/w\n"
            )
        with mock.patch.object(mounts, "_MOUNTS", Path(self.path("mounts"))):
            result = call("scan", self.path("a b", "upper"), "--out", self.path("m"), "--digests-only", "--userxattr")
        self.require_done(result)
        self.assertIn("the upper directory of the overlay that is mounted at /mnt/m n; what is written meanwhile", result[2])
        result = call("scan", self.path("a b", "upper"), "--out", self.path("m"), "--digests-only", "--userxattr")
        self.assertEqual(result, (0, "", ""))


class LeftOut(FolderTest):
    """What `--skip-unsupported` leaves out of an image."""

    def test_all_below_it(self) -> None:
        """A private directory that can't be stated doesn't become one that is open to all."""
        private = folder("home", mode=0o700, pax={"uid": str(1 << 32)})
        for members in ([private, member("home/key", b"k")], [member("home/key", b"k"), private, member("home/d/x")]):
            write_layout(self.path("image"), [archive([*members, member("etc", b"e")])])
            self.assertEqual(self._paths(), ["/", "/etc"])
        write_layout(self.path("image"), [archive([private, member("home/a"), folder("home", mode=0o750), member("home/b")])])
        self.assertEqual(self._paths(), ["/", "/home", "/home/b"])

    def test_an_attribute_only(self) -> None:
        name = "user." + "n" * 255
        home = folder("home", mode=0o700, pax={f"SCHILY.xattr.{name}": "v", "SCHILY.xattr.user.k": "v"})
        write_layout(self.path("image"), [archive([home, member("home/key", b"k")])])
        self.assertEqual(self._paths(), ["/", "/home", "/home/key"])
        self.require_fault(call("unpack", self.path("image"), "--out", self.path("out")), 3, "the name of an attribute")

    def _paths(self) -> list[str]:
        result = call("unpack", self.path("image"), "--out", self.path("out"), "--digests-only", "--skip-unsupported")
        self.require_done(result)
        self.assertIn("left out", result[2])
        entries = read_manifest(self.path("out", "l0.json"))
        self.assertTrue(all(entry.mode != 0o755 for entry in entries if entry.path == "/home"))
        shutil.rmtree(self.path("out"))
        return [entry.path for entry in entries]


class Edges(FolderTest):
    """What is odd and right."""

    def test_zeros_after_a_gzip_stream(self) -> None:
        for count in (1_000, 300_000):
            write_layout(self.path("image"), [packed(archive([member("f", b"a")])) + bytes(count)])
            self.require_done(call("unpack", self.path("image"), "--out", self.path("out")))
            self.empty()

    def test_a_configuration_of_many_letters(self) -> None:
        """What it takes in UTF-8 counts, when it is read and when it is written."""
        layer = archive([member("f", b"a")])
        write_layout(self.path("image"), [layer])
        self.require_done(call("unpack", self.path("image"), "--out", self.path("out")))
        with open(self.path("config"), "w", encoding="utf-8") as file:
            json.dump({"os": "linux", "architecture": "amd64", "author": "\u00e9" * 800_000}, file, ensure_ascii=False)
        words = ["--blobs", self.path("out", "blobs"), "--config", self.path("config"), "--out", self.path("new")]
        self.require_done(call("pack", self.path("out", "l0.json"), *words))
        self.require_done(call("unpack", self.path("new"), "--out", self.path("again")))

    def test_a_later_file_in_place_of_a_link(self) -> None:
        layer, config = archive([member("f", b"a")]), b'{"os":"linux","architecture":"amd64"}'
        listed = json.dumps([{"Config": "c.json", "Layers": ["l.tar"]}]).encode()
        with open(self.path("image.tar"), "wb") as file:
            file.write(archive([
                member("manifest.json", kind=tarfile.SYMTYPE, target="other.json"), member("other.json", b"[]"),
                member("c.json", config), member("l.tar", layer), member("manifest.json", listed),
            ]))
        self.require_done(call("unpack", self.path("image.tar"), "--out", self.path("out")))

    def test_no_contents_and_no_folder_of_them(self) -> None:
        write_layout(self.path("image"), [archive([folder("./"), folder("d")])])
        self.require_done(call("unpack", self.path("image"), "--out", self.path("out")))
        words = ["--blobs", self.path("absent"), "--out", self.path("built")]
        self.require_done(call("build", self.path("out", "l0.json"), *words))
        self.assertEqual(os.listdir(self.path("built")), ["d"])


class Names(FolderTest):
    """Names of a hostile image in a script for a shell."""

    def test_what_a_terminal_obeys(self) -> None:
        for name in ("v1\x1b]0;owned\x07'%s\\", "--help", "a b", "$(x)", "\u3164"):
            with self.subTest(name=name):
                os.mkdir(self.path("image"))
                descriptor = put_manifest(self.path("image"), [archive([member("f", b"a")])], None, "linux/amd64")
                note = {"org.opencontainers.image.ref.name": name}
                put_index(self.path("image"), [{**descriptor, "annotations": note}])
                status, script, said = call("flatten", self.path("image"), "--out", self.path("new"), "--dry-run")
                self.assertEqual(status, 0, said)
                self.assertTrue(all(line.isprintable() for line in script.splitlines()))
                (line,) = [line for line in script.splitlines() if " pack " in line]
                words = subprocess.run(
                    ["sh", "-c", f"tool() {{ printf '%s\\0' \"$@\"; }}; work=w; {line.replace(line.split()[0], 'tool', 1)}"],
                    capture_output=True, check=True,
                ).stdout.split(b"\0")
                self.assertIn(f"--name={name}".encode(), words)
                self.empty()


class Unforeseen(FolderTest):
    """Whatever is raised ends with one line, and a status that means no answer."""

    def test_each_exception_of_ours(self) -> None:
        kinds = {ValueError, KeyError, AssertionError, UnicodeEncodeError, RecursionError, ZeroDivisionError}
        for module in pkgutil.walk_packages(convert.__path__, "convert."):
            members = inspect.getmembers(import_module(module.name), inspect.isclass)
            kinds |= {kind for _, kind in members if issubclass(kind, Exception) and kind.__module__.startswith("convert.")}
        self.assertGreater(len(kinds), 12)
        for kind in sorted(kinds, key=str):
            error = kind.__new__(kind)
            error.args = ("a\nb\x1b",)
            error.__dict__ |= {"text": "a", "_place": [], "_words": "a\n"}
            with self.subTest(kind=kind), mock.patch("convert.image.unpack.unpack", side_effect=error):
                status, _, said = call("unpack", "image", "--out", "out")
            self.assertEqual(status, 128 + signal.SIGPIPE if kind is ClosedPipe else getattr(kind, "status", OTHER), said)
            self.assertLessEqual(len(said.splitlines()), 1)
            self.assertTrue(said.strip("\n").isprintable())

    def test_a_closed_pipe(self) -> None:
        os.mkdir(self.path("tree"))
        for number in range(2_000):
            os.mkdir(self.path("tree", f"{number:0200}"))
        reader, writer = os.pipe()
        os.close(reader)
        done = subprocess.run(
            [sys.executable, "-B", str(COMMAND), "mounted", self.path("tree")], stdout=writer, stderr=subprocess.PIPE, check=False
        )
        os.close(writer)
        self.assertEqual((done.returncode, done.stderr), (128 + signal.SIGPIPE, b""))


if __name__ == "__main__":
    unittest.main(argv=sys.argv)
