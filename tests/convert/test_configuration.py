"""The configuration of an image, through `unpack` and `pack`."""

import hashlib
import json
import os
import shutil
import subprocess
import tarfile
import unittest
from typing import Any

from images import archive, member, put_index, put_manifest, write_layout, write_saved
from support import FolderTest, call

CONFIG = {
    "created": "2024-01-02T03:04:05.678Z", "author": "é \U0001f600", "docker_version": "20.10", "x-own": [1.5, {}],
    "os": "linux", "architecture": "arm64", "variant": "v8", "os.features": ["f"],
    "config": {
        "Cmd": ["/bin/sh", "-c", "x"], "Entrypoint": ["e"], "Env": ["A=b"], "User": "1:2", "WorkingDir": "/w",
        "Labels": {"l": "\n"}, "Volumes": {"/v": {}}, "ExposedPorts": {"80/tcp": {}},
    },
    "history": [
        {"created_by": "one", "created": "2024-01-02T03:04:05Z"}, {"created_by": "env", "empty_layer": True},
        {"created_by": "two"},
    ],
}
LAYERS = [archive([member("one", b"a")]), archive([member("two", b"a")])]


class ConfigurationTest(FolderTest):
    """A test with an image of two layers."""

    def write_image(self, config: Any, stated: dict[str, object] | None = None) -> None:
        """The image, with what its index states."""
        os.mkdir(self.path("image"))
        descriptor = put_manifest(self.path("image"), LAYERS, LAYERS, "linux/arm64", config)
        put_index(self.path("image"), [{**descriptor, "platform": stated or {}}])

    def unpack(self, image: str, out: str) -> dict[str, Any]:
        """Unpacks an image and gives its configuration."""
        self.require_done(call("unpack", self.path(image), "--out", self.path(out)))
        with open(self.path(out, "config.json"), encoding="utf-8") as file:
            return json.load(file)

    def pack(self, count: int, image: str, *words: object) -> tuple[int, str, str]:
        """Packs this many layers of what was unpacked."""
        names = [self.path("out", f"l{number}.json") for number in range(count)]
        return call("pack", *names, "--blobs", self.path("out", "blobs"), "--out", self.path(image), *words)


class Kept(ConfigurationTest):
    """What is kept, and what is written anew."""

    def test_all_but_the_root_file_system(self) -> None:
        for image in ("new", "new.tar"):
            self.write_image(CONFIG)
            first = self.unpack("image", "out")
            self.assertEqual({name: first[name] for name in CONFIG}, CONFIG)
            result = self.pack(2, image, "--config", self.path("out", "config.json"))
            self.assertEqual(result, (0, "", ""))
            second = self.unpack(image, "again")
            self.assertEqual(second.pop("rootfs")["type"], first.pop("rootfs")["type"])
            self.assertEqual(second, first)
            self.empty()

    def test_what_docker_save_wrote(self) -> None:
        write_saved(self.path("image"), LAYERS, CONFIG)
        first = self.unpack("image", "out")
        self.assertEqual({name: first[name] for name in CONFIG}, CONFIG)

    def test_the_platform_of_the_index(self) -> None:
        stated = {"os": "linux", "architecture": "arm64", "variant": "v8", "os.version": "1"}
        self.write_image({"architecture": "arm64", "os": "", "config": None}, stated)
        found = self.unpack("image", "out")
        self.assertEqual({name: found[name] for name in stated}, stated)

    def test_the_platform_that_is_asked_for(self) -> None:
        self.write_image(CONFIG)
        self.unpack("image", "out")
        config = self.path("out", "config.json")
        self.require_done(self.pack(1, "new", "--config", config, "--platform", "plan9/mips/x"))
        made = self.unpack("new", "again")
        self.assertEqual([made[name] for name in ("os", "architecture", "variant")], ["plan9", "mips", "x"])
        self.assertNotIn("os.features", made)

    def test_the_history_of_other_layers(self) -> None:
        self.write_image(CONFIG)
        self.unpack("image", "out")
        self.require_done(self.pack(1, "new", "--config", self.path("out", "config.json")))
        old = [{**entry, "empty_layer": True} for entry in CONFIG["history"]]
        history = self.unpack("new", "again")["history"]
        self.assertEqual(history[:-1], old)
        self.assertEqual(history[-1], {"created_by": "layers pack", "comment": "layer 1 of 1, the lowest first"})

    def test_without_one(self) -> None:
        self.write_image(CONFIG)
        self.unpack("image", "out")
        for words, platform in (((), "linux/amd64"), (("--platform", "linux/s390x"), "linux/s390x")):
            result = self.pack(2, "new", *words)
            self.require_done(result)
            self.assertIn("without --config the image has no command", result[2])
            self.assertIn(f"its platform is {platform}\n", result[2])
            made = self.unpack("new", "again")
            self.assertEqual((f"{made['os']}/{made['architecture']}", made["config"]), (platform, {}))
            for name in ("new", "again"):
                shutil.rmtree(self.path(name))

    def test_what_is_no_configuration(self) -> None:
        write_layout(self.path("image"), LAYERS)
        self.unpack("image", "out")
        for text, reason in (
            ("", "it isn't JSON"), ("[" * 100_000, "it isn't JSON"), ('{"a":' * 65 + "1" + "}" * 65, "over 64 objects"),
            ('{"x":1e999}', "it isn't JSON"), ('{"x":NaN}', "it isn't JSON"), ("[]", "it is no object"),
            ('{"config":[1]}', "config is no object"), ('{"os":1}', "is no string"), ('{"history":[1]}', "history"),
            (json.dumps({"x": "y" * (1 << 22)}), "over 4,194,304 bytes"), (" " * (1 << 26) + "{}", "isn't JSON"),
            ("[" + "[]," * 300_000 + "[]]", "over 262,144 objects and lists"),
        ):
            with open(self.path("c.json"), "w", encoding="utf-8") as file:
                file.write(text)
            self.require_fault(self.pack(1, "new", "--config", self.path("c.json")), 3, "cannot read", "c.json", reason)
            self.require_nothing_left("c.json", "image", "out")
        self.require_fault(self.pack(1, "new", "--config", self.path("absent")), 3, "No such file")
        with open(self.path("c.json"), "w", encoding="utf-8") as file:
            file.write("{}")
        result = self.pack(1, "new", "--config", self.path("c.json"))
        self.assertIn("it names no platform; the image's is linux/amd64", result[2])

    def test_reported_when_the_image_is_read(self) -> None:
        for config, reason in (
            ({"os": 5}, "is no string"), ({"config": [1]}, "config is no object"), ({"history": "x"}, "history"),
        ):
            write_layout(self.path("image"), LAYERS)
            put_index(self.path("image"), [put_manifest(self.path("image"), LAYERS, None, "linux/amd64", config)])
            result = call("unpack", self.path("image"), "--out", self.path("out"))
            self.require_fault(result, 3, f"cannot read {self.path('image')}/blobs/sha256/", reason)
            self.require_nothing_left("image")
            shutil.rmtree(self.path("image"))
        descriptor = put_manifest(self.path("image"), LAYERS, None, "linux/amd64", {"x": 1})
        put_index(self.path("image"), [{**descriptor, "platform": {"os": 5, "architecture": "amd64"}}])
        self.require_fault(call("unpack", self.path("image"), "--out", self.path("out")), 3, "index.json")

    def test_a_big_one(self) -> None:
        """Its text without spaces counts."""
        config = {"os": "linux", "architecture": "amd64", "x": [0] * 1_500_000}
        os.mkdir(self.path("image"))
        descriptor = put_manifest(self.path("image"), LAYERS, None, "linux/amd64")
        self._name_config(descriptor, json.dumps(config, separators=(",", ":")).encode())
        self.unpack("image", "out")
        self.assertLess(os.path.getsize(self.path("out", "config.json")), 1 << 22)
        self.require_done(self.pack(2, "new", "--config", self.path("out", "config.json")))

    def _name_config(self, descriptor: dict[str, Any], text: bytes) -> None:
        """Gives an image another configuration."""
        blobs = self.path("image", "blobs", "sha256")
        with open(f"{blobs}/{descriptor['digest'][7:]}", encoding="utf-8") as file:
            manifest = json.load(file)
        for data, place in ((text, manifest["config"]), (None, descriptor)):
            data = json.dumps(manifest).encode() if data is None else data
            digest = hashlib.sha256(data).hexdigest()
            with open(f"{blobs}/{digest}", "wb") as out:
                out.write(data)
            place.update(digest=f"sha256:{digest}", size=len(data))
        put_index(self.path("image"), [descriptor])

    def test_annotations(self) -> None:
        """They stay, but for those of a base."""
        kept = {"org.opencontainers.image.source": "https://x.example/é", "k": ""}
        write_layout(self.path("image"), LAYERS)
        given = {**kept, "org.opencontainers.image.base.name": "b", "org.opencontainers.image.base.digest": "sha256:0"}
        put_index(self.path("image"), [
            put_manifest(self.path("image"), LAYERS, None, "linux/amd64", annotations=given)
        ])
        self.unpack("image", "out")
        with open(self.path("out", "annotations.json"), encoding="utf-8") as file:
            self.assertEqual(json.load(file), kept)
        self.require_done(self.pack(2, "new", "--annotations", self.path("out", "annotations.json")))
        self.unpack("new", "again")
        with open(self.path("again", "annotations.json"), encoding="utf-8") as file:
            self.assertEqual(json.load(file), kept)
        with open(self.path("a.json"), "w", encoding="utf-8") as file:
            file.write('{"k":1}')
        result = self.pack(2, "other", "--annotations", self.path("a.json"))
        self.require_fault(result, 3, "a.json: it is no JSON object of strings")


class Inspected(ConfigurationTest):
    """What another tool reads of an image."""

    def _inspected(self, place: str) -> dict[str, Any]:
        result = subprocess.run(["skopeo", "inspect", place], capture_output=True, text=True, check=True)
        found = json.loads(result.stdout)
        return {name: found[name] for name in found if not name.startswith(("Layers", "Digest"))}

    def test_by_skopeo(self) -> None:
        if shutil.which("skopeo") is None:
            self.skipTest("needs skopeo")
        plain = {**CONFIG, "author": "é"}
        self.write_image(plain)
        before = self._inspected(f"oci:{self.path('image')}")
        self.assertEqual(before["Architecture"], "arm64")
        self.unpack("image", "out")
        for count in (2, 1):
            self.require_done(self.pack(count, "new", "--config", self.path("out", "config.json")))
            self.assertEqual(self._inspected(f"oci:{self.path('new')}"), before)
            shutil.rmtree(self.path("new"))
        self.require_done(self.pack(1, "new.tar", "--config", self.path("out", "config.json")))
        with tarfile.open(self.path("new.tar")) as file:
            file.extractall(self.path("new"), filter="data")
        self.assertEqual(self._inspected(f"oci:{self.path('new')}"), before)


if __name__ == "__main__":
    unittest.main()
