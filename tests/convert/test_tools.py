"""Images beside umoci, skopeo and buildah: the trees that they unpack, and the forms that they name and write."""

import hashlib
import json
import os
import shutil
import stat
import subprocess
import tarfile
import unittest
from typing import Any

from images import archive, folder, member, put_index, put_manifest, write_layout, write_saved
from support import COMMAND, FolderTest, call
from test_layers import owned

LAYERS = [
    [
        owned(folder("./", 0o711), 5, 50), owned(folder("root", 0o700), 0, 10), owned(folder("home", 0o755), 0, 10),
        owned(folder("home/u", 0o750), 1000, 20), member("home/u/f", b"abc", mode=0o640, pax={"mtime": "-30.000000001"}), member("gone", b"x"),
        owned(folder("dir"), 0, 30), member("dir/x", b"x"), member("link", kind=tarfile.SYMTYPE, target="home"),
    ],
    [
        member("root/new", b"y"), member("home/u/new", b"z"), member(".wh.gone"),
        member("home/u/h", kind=tarfile.LNKTYPE, target="home/u/f"),
    ],
    [
        member("dir", kind=tarfile.SYMTYPE, target="/etc"), member("dir/.wh.x"), member("a/../root/up", b"u"),
        member("no/.wh.x"), owned(folder("home"), 0, 40), member("home/u/.wh..wh..opq"), member("home/u/new", b"n"),
    ],
]


def tree(root: str) -> dict[str, tuple[Any, ...]]:
    """What is in a folder, but for the times of directories, which tools set as they come."""
    found = {}
    for place, folders, files in os.walk(root):
        for name in [*folders, *files, "."]:
            path = os.path.join(place, name)
            status = os.lstat(path)
            what: Any = None
            if stat.S_ISREG(status.st_mode):
                with open(path, "rb") as file:
                    what = (status.st_mtime_ns, hashlib.sha256(file.read()).hexdigest())
            elif stat.S_ISLNK(status.st_mode):
                what = os.readlink(path)
            names = os.listxattr(path, follow_symlinks=False)
            attributes = {key: os.getxattr(path, key, follow_symlinks=False) for key in names}
            found[os.path.relpath(path, root)] = (status.st_mode, status.st_uid, status.st_gid, what, attributes)
    return found


class ToolTest(FolderTest):
    """A test with an image of three layers."""

    def setUp(self) -> None:
        super().setUp()
        layers = list(map(archive, LAYERS))
        os.mkdir(self.path("image"))
        descriptor = put_manifest(self.path("image"), layers, layers, "linux/amd64", {
            "os": "linux", "architecture": "amd64", "config": {"Cmd": ["x"]},
            "history": [{"created_by": name} for name in "abc"],
        })
        notes = {"org.opencontainers.image.ref.name": "t"}
        put_index(self.path("image"), [{**descriptor, "annotations": notes}])

    def need(self, *programs: str) -> None:
        """Skips if a program isn't there."""
        for program in programs:
            if shutil.which(program) is None:
                self.skipTest(f"needs {program}")

    def done(self, *words: str) -> str:
        """Runs a program."""
        result = subprocess.run(words, capture_output=True, text=True, check=False)
        self.assertEqual(result.returncode, 0, f"{words}: {result.stderr}")
        return result.stdout

    def manifests(self, out: str) -> list[bytes]:
        """The manifests that were unpacked."""
        found = []
        while os.path.exists(self.path(out, f"l{len(found)}.json")):
            with open(self.path(out, f"l{len(found)}.json"), "rb") as file:
                found.append(file.read())
        return found


class Trees(ToolTest):
    """What umoci unpacks of an image, and of the same image after `unpack` and `pack`."""

    def test_by_umoci(self) -> None:
        self.need("umoci")
        if os.geteuid() != 0:
            self.skipTest("needs root")
        self.done("umoci", "unpack", "--image", f"{self.path('image')}:t", self.path("before"))
        self.require_done(call("unpack", self.path("image"), "--out", self.path("out")))
        names = [self.path("out", f"l{number}.json") for number in range(3)]
        for compress in ("none", "gzip"):
            self.require_done(call(
                "pack", *names, "--blobs", self.path("out", "blobs"), "--config", self.path("out", "config.json"),
                "--tag", "t", "--compress", compress, "--out", self.path("new"),
            ))
            self.done("umoci", "unpack", "--image", f"{self.path('new')}:t", self.path("after"))
            self.assertEqual(tree(self.path("after", "rootfs")), tree(self.path("before", "rootfs")))
            for name in ("new", "after"):
                shutil.rmtree(self.path(name))

    def test_by_buildah(self) -> None:
        """A layer of buildah's own, above those of the image."""
        self.need("buildah")
        if os.geteuid() != 0:
            self.skipTest("needs root")
        store = ["buildah", "--root", self.path("store"), "--runroot", self.path("run"), "--storage-driver", "vfs"]
        # The image gets its folder's name in the store, in which not every path can be one.
        made = subprocess.run(
            [*store, "from", "--quiet", "oci:image:t"], cwd=self.folder, capture_output=True, text=True, check=False,
        )
        if made.returncode != 0:
            self.skipTest(f"buildah can't work here: {made.stderr.strip()[-200:]}")
        container = made.stdout.strip()
        with open(self.path("added"), "wb") as file:
            file.write(b"added")
        self.done(*store, "copy", "--quiet", container, self.path("added"), "/root/added")
        self.done(*store, "commit", "--quiet", container, f"oci:{self.path('built')}:t")
        self.require_done(call("unpack", f"oci:{self.path('built')}:t", "--out", self.path("out")))
        entries = json.loads(self.manifests("out")[0])["entries"]
        found = {entry["path"]: (entry["mode"], entry["uid"]) for entry in entries}
        self.assertEqual(found["/root"], (0o700, 0))
        self.assertIn("/root/added", found)


class Forms(ToolTest):
    """How an image is named and handed over."""

    def setUp(self) -> None:
        super().setUp()
        self.require_done(call("unpack", self.path("image"), "--out", self.path("plain")))
        self.wanted = self.manifests("plain")

    def require_same(self, *words: str) -> None:
        """Unpacking these words gives the layers of the image."""
        self.require_done(call("unpack", *words, "--out", self.path("out")))
        self.assertEqual(self.manifests("out"), self.wanted)
        shutil.rmtree(self.path("out"))

    def test_words_of_skopeo(self) -> None:
        image = self.path("image")
        for words in ((f"oci:{image}",), (f"oci:{image}:t",), (f"oci:{image}", "--from-tag", "t")):
            self.require_same(*words)
        result = call("unpack", f"oci:{image}:u", "--out", self.path("out"))
        self.require_fault(result, 3, "1 images (linux/amd64 t); none of them is --from-tag u")
        result = call("unpack", f"oci:{image}:t", "--from-tag", "u", "--out", self.path("out"))
        self.require_fault(result, 2, "name two images")

    def test_copies_of_skopeo(self) -> None:
        self.need("skopeo")
        for place in (
            f"dir:{self.path('dir')}", f"oci-archive:{self.path('oci.tar')}:t",
            f"docker-archive:{self.path('docker.tar')}:small:t",
        ):
            self.done("skopeo", "copy", "--insecure-policy", f"oci:{self.path('image')}:t", place)
            self.require_same(place)
            self.require_same(place.split(":")[1])

    def test_an_archive_from_a_pipe(self) -> None:
        with tarfile.open(self.path("image.tar"), "w") as file:
            file.add(self.path("image"), "./")
        out = self.path("out")
        for command in (
            'cat "$1" | "$2" unpack - --out "$3"', '"$2" unpack - --out "$3" < "$1"',
            'mkfifo "$1.pipe"; cat "$1" > "$1.pipe" & "$2" unpack "$1.pipe" --out "$3"',
        ):
            self.done("sh", "-c", command, "sh", self.path("image.tar"), str(COMMAND), out)
            self.assertEqual(self.manifests("out"), self.wanted)
            shutil.rmtree(out)

    def test_what_is_no_image(self) -> None:
        os.mkdir(self.path("dir"))
        with open(self.path("dir", "manifest.json"), "w", encoding="utf-8") as file:
            json.dump({"manifests": []}, file)
        out = self.path("out")
        self.require_fault(call("unpack", f"dir:{self.path('dir')}", "--out", out), 3, "copy one image of it")
        self.require_fault(call("unpack", "/dev/null", "--out", out), 3, "neither a folder, nor a regular file")
        write_saved(self.path("saved"), [archive([])] * 129)
        self.require_fault(call("unpack", self.path("saved"), "--out", self.path("out")), 3, "it has 129 layers")
        write_layout(self.path("many"), [archive([])] * 129)
        self.require_fault(call("unpack", self.path("many"), "--out", self.path("out")), 3, "it has 129 layers")


if __name__ == "__main__":
    unittest.main()
