"""`store`: the chains of docker's overlay2 and of containers-storage."""

import json
import os
import shutil
import subprocess
import sys
import unittest
from pathlib import Path

from kernel_stacks import Store
from support import FolderTest, call, links, run_as_anybody
from test_kernel import why_no_overlay

from convert.model.manifests import read_manifest

_SCRIPT = Path(__file__).with_name("buildah_store.py")


class Chains(FolderTest):
    """Stores made by hand. The marks aren't read, so that anybody can."""

    def setUp(self) -> None:
        super().setUp()
        self.home = self.path("overlay2")
        store = Store(self.home)
        self.layers = [store.new_layer() for _ in range(3)]
        for number, layer in enumerate(self.layers):
            self.write(f"{layer}/diff/f{number}", "a")

    def write(self, path: str, text: str) -> None:
        """Writes a file in place of what is there."""
        with open(path, "w", encoding="utf-8") as file:
            file.write(text)

    def store(self, *words: object, layer: int = 2) -> tuple[int, str, str]:
        """Calls the command for a layer, counted from the lowest one."""
        return call("store", self.layers[layer], "--out", self.path("out"), "--userxattr", *words)

    def stored(self) -> list[list[str]]:
        """The paths of each manifest, the topmost first, and the folder taken away."""
        names = sorted(name for name in os.listdir(self.path("out")) if name.endswith(".json"))
        found = [[entry.path for entry in read_manifest(self.path("out", name))][1:] for name in names]
        shutil.rmtree(self.path("out"))
        return found

    def test_the_topmost_comes_first(self) -> None:
        for layer in range(3):
            result = self.store(layer=layer)
            self.require_done(result)
            self.assertIn(f"{self.layers[layer]}/diff: is l0.json", result[2])
            self.assertEqual(os.listdir(self.path("out", "blobs")), [
                "ca978112ca1bbdcafac231b39a23dc4da786eff8147c4e72b9807785afee48bb"
            ])
            self.assertEqual(self.stored(), [[f"/f{number}"] for number in range(layer, -1, -1)])

    def test_digests_only(self) -> None:
        self.require_done(self.store("--digests-only"))
        names = ["l0.json", "l0.links", "l1.json", "l1.links", "l2.json", "l2.links", "shown.links"]
        self.assertEqual(sorted(os.listdir(self.path("out"))), names)
        self.assertEqual(self.stored(), [["/f2"], ["/f1"], ["/f0"]])

    def test_hard_links(self) -> None:
        """Each layer's own, and what they show: names that a layer above has anew aren't of the file below."""
        for layer, names in ((0, ("a", "b", "c", "d")), (1, ("b", "e"))):
            self.write(f"{self.layers[layer]}/diff/{names[0]}", "1")
            for name in names[1:]:
                os.link(f"{self.layers[layer]}/diff/{names[0]}", f"{self.layers[layer]}/diff/{name}")
        self.require_done(self.store())
        found = {name: links(self.path("out", name)) for name in os.listdir(self.path("out")) if "links" in name}
        self.assertEqual(found, {
            "l0.links": [], "l1.links": [["/b", "/e"]], "l2.links": [["/a", "/b", "/c", "/d"]],
            "shown.links": [["/a", "/c", "/d"], ["/b", "/e"]],
        })

    def test_a_lost_link_is_found_by_the_layer_that_has_its_name(self) -> None:
        os.unlink(f"{self.home}/l/SHORT{0:021}")
        self.require_done(self.store())
        self.assertEqual(self.stored(), [["/f2"], ["/f1"], ["/f0"]])
        os.unlink(f"{self.layers[0]}/link")
        self.require_fault(self.store(), 3, f"/l/SHORT{0:021}: it isn't there, and no layer of this store has")
        self.require_nothing_left("overlay2")

    def test_layers_in_parts(self) -> None:
        for layer, part in ((2, 1), (2, 2), (0, 1), (0, 3)):
            os.mkdir(f"{self.layers[layer]}/diff{part}")
            self.write(f"{self.layers[layer]}/diff{part}/part{part}", "")
        self.require_done(self.store())
        self.assertEqual(self.stored(), [["/f2"], ["/part1"], ["/part2"], ["/f1"], ["/f0"], ["/part1"]])

    def test_into_a_layer(self) -> None:
        for layer in self.layers:
            out = f"{layer}/diff/new"
            result = call("store", self.layers[2], "--out", out, "--userxattr", "--digests-only")
            self.require_fault(result, 2, f"--out {out} is in the layer ")

    def test_chains_that_are_not_read(self) -> None:
        layer, lower = self.layers[2], f"{self.layers[2]}/lower"
        os.mkdir(self.path("secret"))
        os.makedirs(self.path("secret", "diff"))
        for text in ("l/../../secret", "../secret/diff", "l/", self.path("secret"), "l/A B", "l/A::l/B"):
            self.write(lower, text)
            self.require_fault(self.store(), 3, f"cannot read {layer}/lower: ", "is no name of a layer")
        self.write(lower, "l/BAD")
        for target in ("../../secret/diff", self.path("secret", "diff"), "../..", "../../diff", "../.hidden/diff"):
            os.symlink(target, f"{self.home}/l/BAD")
            self.require_fault(self.store(), 3, f"/l/BAD: it leads to {target}, which is no layer of this store")
            os.unlink(f"{self.home}/l/BAD")
        os.mkdir(f"{self.home}/ID")
        os.symlink("../ID/diff", f"{self.home}/l/BAD")
        os.symlink(self.path("secret"), f"{self.home}/ID/diff")
        self.require_fault(self.store(), 3, f"cannot read {self.home}/ID/diff: it is no folder")
        self.write(lower, "l/" + "A" * 70_000)
        self.require_fault(self.store(), 3, "lower: it has over 65,536 bytes")
        self.require_nothing_left("overlay2", "secret")

    def test_folders_that_are_no_layers(self) -> None:
        words = ("--out", self.path("out"), "--userxattr")
        for folder, reason in (
            (self.home, "; name the folder of a layer in it"),
            (f"{self.layers[0]}/diff", "; name the folder that it is in"),
            (self.folder, "; name the folder of a layer in it"), (f"{self.home}/l", "or of containers-storage\n"),
            (self.path("absent"), "No such file"), (f"{self.layers[0]}/link", "Not a directory"),
        ):
            self.require_fault(call("store", folder, *words), 3, f"cannot read {folder}: ", reason)
        for name in ("composefs-data", "lower-id"):
            os.mkdir(f"{self.layers[0]}/{name}")
            messages = f"cannot read {self.layers[0]}: it is kept in a way that isn't read: it has {name}"
            self.require_fault(self.store(), 3, messages)
            os.rmdir(f"{self.layers[0]}/{name}")
        self.require_nothing_left("overlay2")

    def test_the_right_to_read_marks(self) -> None:
        os.chmod(self.folder, 0o755)
        os.chmod(self.home, 0o700)
        result = run_as_anybody("store", self.layers[2], "--out", self.path("out"))
        self.assertEqual(result.returncode, 3, result.stderr)
        self.assertIn("run it with sudo, or give --userxattr", result.stderr)
        self.require_nothing_left("overlay2")

    def test_the_number_of_layers(self) -> None:
        store = Store(self.path("many"))
        layers = [store.new_layer() for _ in range(129)]
        out = ("--out", self.path("out"), "--userxattr")
        self.require_fault(call("store", layers[128], *out), 3, "it has 129 layers, over 128")
        self.require_done(call("store", layers[127], *out))
        self.assertEqual(len(self.stored()), 128)


class Buildah(FolderTest):
    """A store that buildah makes, beside what it mounts and what the kernel shows of that."""

    def test_store(self) -> None:
        reason = why_no_overlay(self.folder, "l") or (None if shutil.which("buildah") else "needs buildah")
        if reason:
            self.skipTest(reason)
        result = subprocess.run(
            ["unshare", "--mount", "--propagation", "private", sys.executable, "-B", str(_SCRIPT), self.folder],
            capture_output=True, text=True, check=False,
        )
        self.assertEqual(result.returncode, 0, result.stdout[-5_000:] + result.stderr[-5_000:])
        messages = json.loads(result.stdout.splitlines()[-1])
        self.assertEqual(messages["chain"], messages["mounted"])
        self.assertEqual(len(messages["chain"]), 3)
        self.assertEqual(messages["shown"], messages["kernel"])
        self.assertIn(": it is mounted; what was written meanwhile may be missing\n", messages["noted"])


if __name__ == "__main__":
    unittest.main()
