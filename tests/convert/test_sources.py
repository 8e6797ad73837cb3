"""Sources: names by which skopeo fetches images, layers in place of an image, and what is no image and says what it is."""

import bz2
import gzip
import json
import lzma
import os
import shutil
import signal
import stat
import subprocess
import sys
import tarfile
import time
import unittest
from unittest import mock

from images import archive, folder, member, write_layout, write_saved
from support import COMMAND, FolderTest, call, program_words

from convert.image.fetched import name_of
from convert.model.stacks import layer_paths

_LAYER = archive([folder("./"), member("f", b"a")])
_SKOPEO = """\
#!/bin/sh
echo "$TMPDIR" > "{folder}/place"
echo "$@" > "{folder}/words"
for last; do :; done
{does}
"""
_COPIES = 'cp -r "{folder}/copy" "${{last#dir:}}"'
_FAILS = """\
echo 'time="2026-01-01T00:00:00Z" level=info msg="first"' >&2
echo 'time="2026-01-01T00:00:00Z" level=fatal msg="reading manifest: \\"x\\" is unknown"' >&2
exit 1"""
_WAITS = "mkfifo \"{folder}/fifo\"; echo $$ > \"{folder}/pid\"; read word < \"{folder}/fifo\""


def copy_of(layout: str, path: str) -> None:
    """Writes an image of a layout as skopeo's `dir:`."""
    os.mkdir(path)
    with open(f"{layout}/index.json", encoding="utf-8") as file:
        digest = json.load(file)["manifests"][0]["digest"].removeprefix("sha256:")
    for name in os.listdir(f"{layout}/blobs/sha256"):
        shutil.copy(f"{layout}/blobs/sha256/{name}", f"{path}/{'manifest.json' if name == digest else name}")


class Fetched(FolderTest):
    """Names of images, with something in skopeo's place."""

    def setUp(self) -> None:
        super().setUp()
        write_layout(self.path("image"), [_LAYER], [_LAYER])
        copy_of(self.path("image"), self.path("copy"))
        os.mkdir(self.path("bin"))
        os.mkdir(self.path("tmp"))
        self.environment = {"PATH": f"{self.path('bin')}:{os.environ['PATH']}", "TMPDIR": self.path("tmp")}

    def put_skopeo(self, does: str) -> None:
        """Writes what is run in its place."""
        with open(self.path("bin", "skopeo"), "w", encoding="utf-8") as file:
            file.write(_SKOPEO.format(folder=self.folder, does=does.format(folder=self.folder)))
        os.chmod(self.path("bin", "skopeo"), 0o755)

    def unpack(self, word: str, *words: str, **environment: str) -> tuple[int, str, str]:
        """Runs `unpack`, which must leave nothing of what was fetched."""
        with mock.patch.dict(os.environ, self.environment | environment), mock.patch("tempfile.tempdir", self.path("tmp")):
            result = call("unpack", word, "--out", self.path("out"), *words)
        self.assertEqual(os.listdir(self.path("tmp")), [])
        return result

    def test_names(self) -> None:
        self.put_skopeo(_COPIES)
        for word, words, environment, wanted in (
            ("docker-daemon:shop", [], {}, "copy --quiet docker-daemon:shop:latest dir:"),
            ("docker-daemon:r/shop:1", [], {"DOCKER_HOST": "unix:///d"}, "copy --quiet --src-daemon-host unix:///d docker-daemon:r/shop:1 dir:"),
            ("containers-storage:shop", [], {"DOCKER_HOST": "unix:///d"}, "copy --quiet containers-storage:shop dir:"),
            ("docker://shop", ["--platform", "linux/amd64"], {}, "--override-os linux --override-arch amd64 copy --quiet docker://shop dir:"),
        ):
            with self.subTest(word):
                result = self.unpack(word, *words, **environment)
                self.require_done(result)
                self.assertEqual(result[2], f"layers: skopeo fetches {word}\n")
                self.assertEqual(sorted(os.listdir(self.path("out"))), ["blobs", "config.json", "l0.json", "l0.links", "shown.links"])
                shutil.rmtree(self.path("out"))
                with open(self.path("words"), encoding="utf-8") as file, open(self.path("place"), encoding="utf-8") as place:
                    self.assertEqual(file.read(), f"{wanted}{place.read().strip()}/image\n")

    def test_flattened(self) -> None:
        """The new image has the name."""
        if not program_words():
            self.skipTest("the program isn't built")
        self.put_skopeo(_COPIES)
        with mock.patch.dict(os.environ, self.environment):
            self.require_done(call("flatten", "docker-daemon:shop", "--out", self.path("flat.tar")))
        with tarfile.open(self.path("flat.tar")) as file:
            listed = file.extractfile("manifest.json")
            assert listed is not None
            self.assertEqual(json.load(listed)[0]["RepoTags"], ["shop:latest"])

    def test_names_of_images(self) -> None:
        for word, name in (
            ("docker-daemon:shop", "shop:latest"), ("docker://r:5000/a/shop", "r:5000/a/shop:latest"),
            ("docker://r:5000/shop:1@sha256:0", "r:5000/shop:1"), ("containers-storage:[vfs@/r+/s]shop:1", "shop:1"),
            ("containers-storage:@abc", None), (f"docker-daemon:sha256:{'0' * 64}", None),
        ):
            with self.subTest(word):
                self.assertEqual(name_of(word), name)

    def test_faults(self) -> None:
        self.put_skopeo(_FAILS)
        self.require_fault(self.unpack("docker://x"), 3, 'cannot read docker://x: skopeo: reading manifest: "x" is unknown\n')
        self.put_skopeo("exit 7")
        self.require_fault(self.unpack("docker://x"), 3, "cannot read docker://x: skopeo: skopeo ended with status 7")
        self.put_skopeo(_COPIES)
        self.require_fault(self.unpack("docker://x", "--platform", "linux/arm64"), 3, "none of them is --platform linux/arm64")
        self.require_fault(self.unpack("docker://x:1", "--from-tag", "2"), 2, "docker://x:1 and --from-tag name two images")
        with open(self.path("copy", "manifest.json"), encoding="utf-8") as file:
            layer = json.load(file)["layers"][0]["digest"].removeprefix("sha256:")
        with open(self.path("copy", layer), "r+b") as file:
            file.write(b"?")
        self.require_fault(self.unpack("docker://x"), 3, f"cannot read docker://x/{layer}: its bytes aren't those of the digest")

    def test_without_it(self) -> None:
        for word, more in (
            ("docker-daemon:shop:1", ", or say `docker save shop:1 | layers .. -`"), ("docker://shop", ""),
            ("containers-storage:shop", ", or say `podman save shop:latest | layers .. -`"),
        ):
            result = self.unpack(word, PATH=self.path("bin"))
            self.require_fault(result, 3, f"no program skopeo, which fetches {word}; install the package skopeo{more}\n")

    def test_an_interrupt(self) -> None:
        self.put_skopeo(_WAITS)
        for number in (signal.SIGINT, signal.SIGTERM):
            words = [sys.executable, "-B", str(COMMAND), "unpack", "docker://x", "--out", self.path("out")]
            with subprocess.Popen(words, env={**os.environ, **self.environment}, stderr=subprocess.PIPE) as process:
                while not (os.path.exists(self.path("pid")) and os.path.getsize(self.path("pid"))):
                    time.sleep(0.01)
                process.send_signal(number)
                self.assertEqual(process.wait(), 128 + number)
            with open(self.path("pid"), encoding="ascii") as file, self.assertRaises(ProcessLookupError):
                os.kill(int(file.read()), 0)
            self.assertEqual(os.listdir(self.path("tmp")), [])
            os.unlink(self.path("pid"))
            os.unlink(self.path("fifo"))

    def test_the_real_one(self) -> None:
        if shutil.which("skopeo") is None or not os.path.exists("/etc/containers/policy.json"):
            self.skipTest("needs skopeo and its policy")
        if os.geteuid() != 0:
            self.skipTest("needs root")
        store = f"containers-storage:[vfs@{self.path('root')}+{self.path('run')}]localhost/shop:1"
        made = subprocess.run(["skopeo", "copy", f"oci:{self.path('image')}", store], capture_output=True, text=True, check=False)
        if made.returncode != 0:
            self.skipTest(f"skopeo can't write a store here: {made.stderr}")
        self.require_done(self.unpack(store))
        self.require_done(call("unpack", self.path("image"), "--out", self.path("wanted")))
        for name in ("config.json", "l0.json"):
            with open(self.path("out", name), encoding="utf-8") as file, open(self.path("wanted", name), encoding="utf-8") as wanted:
                self.assertEqual(file.read(), wanted.read())


class NoImages(FolderTest):
    """What isn't an image."""

    def put(self, name: str, data: bytes) -> str:
        """Writes a file."""
        with open(self.path(name), "wb") as file:
            file.write(data)
        return self.path(name)

    def require_said(self, word: str, *parts: str) -> None:
        """The image is refused in these words."""
        with self.subTest(word):
            result = call("unpack", word, "--out", self.path("out"))
            self.require_fault(result, 3, f"cannot read {word}", *parts)
            self.assertEqual(result[2].count("\n"), 1)

    def test_names(self) -> None:
        os.chdir(self.folder)
        self.addCleanup(os.chdir, "/")
        os.mkdir("d")
        for word in ("debian:bookworm", "debian", "library/debian", "r.io/a/b:1", "r:5000/x:v1.2"):
            self.require_said(word, f"No such file or directory; an image in docker is docker-daemon:{word}, one in a registry docker://{word}\n")
        for word in ("image.tar", "d/shop", "./x:1", "A:b"):
            self.require_said(word, "No such file or directory\n")
        self.require_said("tarball:x", "; copy it by `skopeo copy tarball:x oci:DIR`, and name oci:DIR\n")

    def test_files(self) -> None:
        write_saved(self.path("whole.tar"), [_LAYER])
        with open(self.path("whole.tar"), "rb") as file:
            whole = file.read()
        for name, data, said in (
            ("a.squashfs", b"hsqs" + bytes(2_000), f"a squashfs, which is a layer and no image: say --stack {self.path('a.squashfs')}"),
            ("Dockerfile", b"# syntax\nFROM debian\nRUN x\n" * 40, "it is a Dockerfile: build the image"),
            ("words", "é text\n".encode() * 10, "it is a text"), ("l0.json", b'{"entries":[', "a layer is named by --stack, by its manifest"),
            ("empty", b"", "it is empty"), ("cut.tar", whole[:3_000], "it is cut off: the archive ends too early"),
            ("cut.tar.gz", gzip.compress(whole)[:400], "it is cut off: its gzip stream ends too early"),
            ("i.tar.xz", lzma.compress(whole), "it is packed by xz, which isn't read; unpack it first (`xz -d`)"),
            ("i.tar.bz2", bz2.compress(whole), "unpack it first (`bzip2 -d`)"), ("live.iso", bytes(0x8001) + b"CD001" + bytes(99), "it is an ISO image"),
            ("disk", bytes(0x438) + b"\x53\xef" + bytes(999), "a file system: mount it"), ("odd", b"\x01\x02" * 999, "it is no tar archive"),
        ):
            self.require_said(self.put(name, data), said)

    def test_archives(self) -> None:
        old = [member("repositories", b"{}"), member("0/VERSION", b"1.0"), member("0/json", b"{}"), member("0/layer.tar", _LAYER)]
        root = [folder("etc"), member("etc/passwd"), member("usr/bin/x"), member("bin/sh")]
        for name, members, said in (
            ("old.tar", old, "docker before 1.10 saved it so"), ("root.tar", root, f"say --stack {self.path('root.tar')}"),
            ("part.tar", [member("blobs/sha256/0"), member("oci-layout")], "it is cut off, or a part of an image"),
            ("some.tar", [member("x")], "neither index.json (OCI image layout) nor manifest.json (docker save) is there"),
        ):
            self.require_said(self.put(name, archive(members)), "it is no image", said)

    def test_folders(self) -> None:
        for name, names, said in (
            ("context", ["Dockerfile", "src"], "there is a Dockerfile"), ("root", ["etc", "usr", "bin"], "--stack"), ("none", [], "nothing is in it"),
        ):
            for inner in names:
                os.makedirs(self.path(name, inner))
            os.makedirs(self.path(name), exist_ok=True)
            self.require_said(self.path(name), said)

    def test_images_as_layers(self) -> None:
        write_layout(self.path("image"), [_LAYER])
        write_saved(self.path("saved.tar"), [_LAYER])
        with open(self.path("layout.tar"), "wb") as file:
            subprocess.run(["tar", "-C", self.path("image"), "-c", "."], stdout=file, check=True)
        subprocess.run(["tar", "-C", self.folder, "-rf", self.path("saved.tar"), "--transform", "s/.*/repositories/", "layout.tar"], check=True)
        for name in ("image", "layout.tar", "saved.tar"):
            result = call("unpack", "--stack", self.path(name), "--userxattr", "--out", self.path("out"))
            self.require_fault(result, 2, f"{self.path(name)} is an image and no layer: name it without --stack")
            self.assertFalse(os.path.exists(self.path("out")))


class Layers(FolderTest):
    """Layers in place of an image."""

    def test_unpacked(self) -> None:
        for name, data in (("upper", b"b"), ("lower", b"a")):
            with open(self.path(f"{name}.tar"), "wb") as file:
                file.write(archive([folder("./"), member("f", data)]))
        words = ["--stack", self.path("upper.tar"), self.path("lower.tar"), "--out", self.path("out")]
        self.require_done(call("unpack", *words))
        self.assertEqual(layer_paths(self.path("out"), 2), [self.path("out", f"l{number}.json") for number in range(2)])
        self.assertEqual(len(os.listdir(self.path("out", "blobs"))), 2)
        self.assertEqual(stat.S_IMODE(os.stat(self.path("out")).st_mode), 0o700)
        again = ["--stack", *layer_paths(self.path("out"), 2), "--blobs", self.path("out", "blobs"), "--out", self.path("again")]
        self.require_done(call("unpack", *again))
        self.require_fault(call("unpack", "image", *words), 2, "name an IMAGE, or layers by --stack")
        self.require_fault(call("unpack", *words[:3], "--from-tag", "x", *words[3:]), 2, "--from-tag is for images")


if __name__ == "__main__":
    unittest.main()
