"""`flatten --platform all`: each platform's image flattened, and an index of all."""

import json
import os
import shutil
import subprocess
import tarfile
import unittest
from pathlib import Path
from typing import Any

from images import archive, folder, member, packed, put_index, put_manifest, write_saved
from support import call
from test_flatten import ImageTest

PLATFORMS = {"linux-amd64": None, "linux-arm64": "v8", "linux-arm": "v7"}
REF_NAME = "org.opencontainers.image.ref.name"


class EveryPlatform(ImageTest):
    """An image of three platforms, in an index inside of the layout's."""

    def setUp(self) -> None:
        super().setUp()
        shutil.rmtree(self.image)
        os.mkdir(self.image)
        described = []
        for name, variant in PLATFORMS.items():
            system, machine = name.split("-")
            layers = [archive([folder("./"), member("f", name.encode()), member("g", b"g")]), archive([member(".wh.g")])]
            config = {"os": system, "architecture": machine} | ({"variant": variant} if variant else {})
            one = put_manifest(self.image, [packed(layer) for layer in layers], layers, f"{system}/{machine}", config)
            described.append({**one, "platform": config})
        index = json.dumps({"schemaVersion": 2, "manifests": described}).encode()
        put_index(self.image, [{**self.put(index, "application/vnd.oci.image.index.v1+json"), "annotations": {REF_NAME: "x:1"}}])

    def put(self, data: bytes, kind: str) -> dict[str, Any]:
        """Writes a blob into the image."""
        (digits,) = subprocess.run(["sha256sum"], input=data, capture_output=True, check=True).stdout.decode().split()[:1]
        Path(self.image, "blobs", "sha256", digits).write_bytes(data)
        return {"mediaType": kind, "digest": f"sha256:{digits}", "size": len(data)}

    def listed(self, place: str) -> list[tuple[str, str, int]]:
        """The name and platform of each image of a layout, and how many layers it has."""
        index = json.loads(Path(place, "index.json").read_bytes())
        (inner,) = index["manifests"]
        found = []
        for it in self.blob(place, inner)["manifests"]:
            platform = "/".join(filter(None, (it["platform"].get(name) for name in ("os", "architecture", "variant"))))
            self.assertNotIn("annotations", it)
            found.append((inner["annotations"][REF_NAME], platform, len(self.blob(place, it)["layers"])))
        return found

    def blob(self, place: str, descriptor: dict[str, Any]) -> Any:
        """A document of a layout."""
        return json.loads(Path(place, "blobs", *descriptor["digest"].split(":")).read_bytes())

    def test_all_of_them(self) -> None:
        wanted = [("y:2", "linux/amd64", 1), ("y:2", "linux/arm64/v8", 1), ("y:2", "linux/arm/v7", 1)]
        for out in ("flat", "flat.tar", "again.tar"):
            result = self.flatten("--platform", "all", "--name", "y:2", out=out)
            self.require_done(result)
            self.assertRegex(result[2].splitlines()[-1], rf"{out}: 3 platforms, .* in place of .* %\), ")
            self.assertEqual("of all platforms it has no manifest.json" in result[2], out != "flat")
            self.assertRegex(result[2], rf"{out}, linux/arm64/v8: 1 layer in place of 2, ")
            place = self.path("all", out)
            if out != "flat":
                with tarfile.open(place) as file:
                    self.assertNotIn("manifest.json", file.getnames())
                    file.extractall(place := self.path("in", out), filter="data")
            self.assertEqual(self.listed(place), wanted)
            for platform in ("linux/amd64", "arm64", "arm/v7"):
                words = "--platform", platform
                self.assertEqual(self.shown(self.path("all", out), *words), self.shown(self.image, *words))
        self.assertEqual(Path(self.path("all", "flat.tar")).read_bytes(), Path(self.path("all", "again.tar")).read_bytes())
        self.left("flat", "flat.tar", "again.tar")

    def test_the_name_and_layers_that_stay(self) -> None:
        self.require_done(self.flatten("--platform", "all", "--base", "1", "--keep", self.path("in", "kept")))
        self.assertEqual({it[0] for it in self.listed(self.path("all", "flat"))}, {"x:1"})
        self.assertEqual({it[2] for it in self.listed(self.path("all", "flat"))}, {2})
        self.assertEqual(sorted(os.listdir(self.path("in", "kept"))), ["linux-amd64", "linux-arm-v7", "linux-arm64-v8"])

    def test_skopeo_takes_all(self) -> None:
        if shutil.which("skopeo") is None:
            self.skipTest("needs skopeo")
        self.require_done(self.flatten("--platform", "all"))
        words = ["skopeo", "copy", "--quiet", "--all", "--insecure-policy", f"oci:{self.path('all', 'flat')}:x:1"]
        subprocess.run([*words, f"oci:{self.path('in', 'copied')}:x"], check=True, capture_output=True)
        self.assertEqual(len(self.listed(self.path("in", "copied"))), 3)

    def test_one_that_fails(self) -> None:
        """A wrong byte of the last platform leaves nothing."""
        with open(self.program, encoding="utf-8") as file:
            real = file.read()
        with open(self.program, "w", encoding="utf-8") as file:
            file.write(real.replace("exec", "echo >> $0.calls; [ $(wc -l < $0.calls) -lt 9 ] || exit 3\nexec"))
        for out in ("flat", "flat.tar"):
            result = self.flatten("--platform", "all", out=out)
            self.assertEqual(result[0], 3, result[2])
            os.unlink(f"{self.program}.calls")
            self.left()

    def test_what_can_not_be(self) -> None:
        write_saved(self.path("in", "saved"), [archive([member("f")])])
        for image, out, words, problem in (
            ("-", "x", (), "--platform all reads the image for each platform"),
            ("docker://x", "x", (), "`skopeo copy --all docker://NAME oci:DIR` fetches one"),
            (self.image, "docker-archive:x.tar:y", (), "has room for one platform"), (self.image, "dir:x", (), "has room for one"),
            (self.image, "x", ("--dry-run",), "--dry-run has no commands for --platform all"),
            (self.image, "x", ("--rootfs",), "--rootfs makes one tree, not those of --platform all"),
        ):
            result = call("flatten", image, "--out", self.path("all", out) if ":" not in out else out, "--platform", "all", *words)
            self.require_fault(result, 2, problem)
        status, _, messages = call("sizes", self.image, "--platform", "all")
        self.assertEqual((status, "all is for flatten alone" in messages), (2, True))
        described = [put_manifest(self.image, [archive([member(name)])], None, "linux/amd64") for name in "ab"]
        put_index(self.image, described)
        result = self.flatten("--platform", "all")
        self.require_fault(result, 3, "it has several images of linux/amd64; say which by --from-tag")
        self.left()
        self.require_done(self.flatten("--platform", "all", image=self.path("in", "saved")))


if __name__ == "__main__":
    unittest.main()
