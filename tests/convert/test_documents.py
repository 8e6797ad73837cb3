"""The JSON documents of images: what two readers could take in two ways is refused, with the member's place."""

import hashlib
import json
import os
import shutil
import subprocess
import sys
import unittest
from typing import Any

from images import archive, folder, member, packed, put_index, put_manifest, write_layout, write_saved
from support import FolderTest, call

from convert.image.documents import Misshapen, parse

INDEX = "application/vnd.oci.image.index.v1+json"
MANIFEST = "application/vnd.oci.image.manifest.v1+json"


class Texts(unittest.TestCase):
    """JSON texts."""

    def test_refused(self) -> None:
        for text, words in (
            ('{"a":1,"a":1}', "a stands twice"), ('{"a":[{"b":{"c":1,"c":2}}]}', "a[0].b.c stands twice"),
            ('["\\ud800"]', "[0] has half of a surrogate pair"), ('{"\\udc00":1}', "half of a surrogate pair"),
            ("[NaN]", "it isn't JSON"), ("[1e999]", "it isn't JSON"), ("\ufeff{}", "it isn't JSON"), ("", "it isn't JSON"),
            ("[" * 65 + "]" * 65, "lies in over 64 objects and lists"), ("[" * 9_000, "it isn't JSON"),
        ):
            with self.subTest(text=text[:30]), self.assertRaises(Misshapen) as found:
                parse(text.encode("utf-8", "surrogatepass"))
            self.assertIn(words, str(found.exception))
        for data in (b'["\xff"]', "{}".encode("utf-16"), b'["\xed\xa0\x80"]'):
            with self.subTest(data=data), self.assertRaises(Misshapen):
                parse(data)

    def test_read(self) -> None:
        for text, value in (('{"a":1,"A":2}', {"a": 1, "A": 2}), ('"\\ud83d\\ude00"', "\U0001f600"), ("[" * 64 + "]" * 64, None)):
            with self.subTest(text=text[:30]):
                self.assertEqual(parse(text.encode()), json.loads(text) if value is None else value)


class Images(FolderTest):
    """Images of one layer, with one thing in a document changed."""

    def setUp(self) -> None:
        super().setUp()
        self.image = self.path("image")
        os.mkdir(self.image)
        self.layer = archive([folder("./"), member("f", b"abc")])
        self.descriptor = put_manifest(
            self.image, [self.layer], [self.layer], "linux/amd64", {"os": "linux", "architecture": "amd64", "config": {}}
        )
        self.manifest = self.read(self.descriptor)
        self.config = self.read(self.manifest["config"])

    def read(self, descriptor: Any) -> Any:
        """A document of the image."""
        with open(f"{self.image}/blobs/sha256/{descriptor['digest'][7:]}", encoding="utf-8") as file:
            return json.load(file)

    def put(self, value: object, descriptor: Any) -> Any:
        """Writes a document, or a text, as a blob; gives its descriptor."""
        data = (value if isinstance(value, str) else json.dumps(value)).encode()
        digest = hashlib.sha256(data).hexdigest()
        with open(f"{self.image}/blobs/sha256/{digest}", "wb") as file:
            file.write(data)
        return {**descriptor, "digest": f"sha256:{digest}", "size": len(data)}

    def put_config(self, value: object, **more: object) -> None:
        """An image whose configuration is this one."""
        own = {**self.put(value, self.manifest["config"]), **more}
        put_index(self.image, [self.put({**self.manifest, "config": own}, self.descriptor)])

    def put_layer(self, **more: object) -> None:
        """An image whose layer's descriptor has these members."""
        layers = [{**self.manifest["layers"][0], **more}]
        put_index(self.image, [self.put({**self.manifest, "layers": layers}, self.descriptor)])

    def require_refused(self, words: str) -> None:
        """The image is refused with these words, and nothing is left."""
        self.require_fault(call("unpack", self.image, "--out", self.path("out")), 3, words)
        self.require_nothing_left("image")

    def require_read(self) -> None:
        """The image is read."""
        self.require_done(call("unpack", self.image, "--out", self.path("out"), "--digests-only"))
        shutil.rmtree(self.path("out"))

    def test_names_in_another_case(self) -> None:
        """A reader written in Go takes these, others don't."""
        for name, words in (
            ("Layers", "Layers differs from layers in case only"), ("CONFIG", "CONFIG differs from config"),
            ("layer\u017f", "differs from layers"),
        ):
            put_index(self.image, [self.put({**self.manifest, name: []}, self.descriptor)])
            self.require_refused(words)
        for value, words in (
            ({**self.config, "Config": {"User": "1000"}}, "Config differs from config in case only"),
            ({**self.config, "config": {"entrypoint": ["x"]}}, "config.entrypoint differs from Entrypoint"),
            ({**self.config, "rootfs": {**self.config["rootfs"], "Diff_ids": []}}, "rootfs.Diff_ids differs from diff_ids"),
            ({**self.config, "history": [{"Empty_layer": True}]}, "history[0].Empty_layer differs from empty_layer"),
        ):
            self.put_config(value)
            self.require_refused(words)
        put_index(self.image, [{**self.descriptor, "Digest": "x"}])
        self.require_refused("manifests[0].Digest differs from digest in case only")
        labels = {**self.config, "config": {"Labels": {"a": "1", "A": "2"}, "Volumes": {"/x": {}, "/X": {}}}}
        self.put_config(labels)
        self.require_read()

    def test_doubled_names(self) -> None:
        text = json.dumps(self.config)
        self.put_config(f'{text[:-1]},"os":"linux"}}')
        self.require_refused("os stands twice")
        self.put_config(text.replace('"config": {}', '"config": {"Env": ["A=1"], "Env": ["A=2"]}'))
        self.require_refused("config.Env stands twice")

    def test_values_of_other_types(self) -> None:
        for config, words in (
            ({"User": 5}, "config.User is no string"), ({"Env": "A=1"}, "config.Env is no list"),
            ({"Cmd": ["a", 1]}, "config.Cmd[1] is no string"), ({"Labels": {"a": 1}}, "config.Labels.a is no string"),
            ({"Tty": 1}, "config.Tty is no true or false"),
        ):
            self.put_config({**self.config, "config": config})
            self.require_refused(words)
        self.put_config({**self.config, "config": {"Env": None, "Healthcheck": {"Test": ["NONE"], "Retries": 3}}})
        self.require_read()

    def test_sizes_that_are_not_the_bytes(self) -> None:
        for size in (1, 0, len(self.layer) + 1):
            self.put_layer(size=size)
            self.require_refused(f"another size than the {size:,} bytes")
            self.put_config(self.config, size=size)
            self.require_refused(f"another size than the {size:,} bytes")
            put_index(self.image, [{**self.descriptor, "size": size}])
            self.require_refused(f"another size than the {size:,} bytes")
        for size, words in ((-7, "size is negative"), (True, "size is no whole number"), (None, "size is missing")):
            put_index(self.image, [{**self.descriptor, "size": size}])
            self.require_refused(f"manifests[0].{words}")

    def test_a_document_of_two_kinds(self) -> None:
        both = {**self.manifest, "manifests": [self.descriptor]}
        put_index(self.image, [self.put(both, self.descriptor)])
        self.require_refused("manifests belongs to a document of another kind")
        put_index(self.image, [self.put({**both, "mediaType": INDEX}, {**self.descriptor, "mediaType": INDEX})])
        self.require_refused("config belongs to a document of another kind")
        put_index(self.image, [self.put({**self.manifest, "mediaType": INDEX}, self.descriptor)])
        self.require_refused(f"mediaType isn't {MANIFEST}, which its descriptor says")

    def test_media_types(self) -> None:
        for kind in ("application/vnd.oci.image.layer.v1.tar+encrypted", "text/x-shellscript"):
            self.put_layer(mediaType=kind)
            self.require_refused(f"it has a layer of type {kind}")
        self.put_layer(mediaType="application/vnd.oci.image.layer.v1.tar+gzip")
        self.require_refused("its media type says gzip, and its bytes are plain")
        write_layout(self.image, [packed(self.layer)])
        with open(f"{self.image}/index.json", encoding="utf-8") as file:
            self.descriptor = json.load(file)["manifests"][0]
        self.manifest = self.read(self.descriptor)
        self.put_layer(mediaType="application/vnd.oci.image.layer.v1.tar")
        self.require_refused("its media type says plain, and its bytes are gzip")
        self.put_config(self.config, mediaType="application/vnd.cncf.helm.config.v1+json")
        self.require_refused("it is no container image: its configuration is of type application/vnd.cncf.helm")

    def test_two_lists_of_images(self) -> None:
        """docker reads manifest.json where others read index.json."""
        put_index(self.image, [self.descriptor])
        blob = "blobs/sha256/"
        config, layer = (blob + it["digest"][7:] for it in (self.manifest["config"], self.manifest["layers"][0]))
        for listed, is_read in (
            ([{"Config": config, "Layers": [layer]}], True), ([{"Config": layer, "Layers": [layer]}], False),
            ([{"Config": config, "Layers": [layer, layer]}], False), ([{"Config": config, "Layers": ["x/layer.tar"]}], False),
        ):
            with open(f"{self.image}/manifest.json", "w", encoding="utf-8") as file:
                json.dump(listed, file)
            if is_read:
                self.require_read()
            else:
                self.require_refused("manifest.json: it has an image that index.json hasn't, or with other layers")

    def test_one_digest_described_in_two_ways(self) -> None:
        put_index(self.image, [self.descriptor, {**self.descriptor, "size": 7}])
        self.require_refused("its descriptors differ in size or media type")
        put_index(self.image, [self.descriptor, {**self.descriptor, "annotations": {"a": "b"}}])
        self.require_read()

    def test_a_layer_that_is_a_link_to_another(self) -> None:
        """Its bytes aren't those of its digest, though they are those of a layer that was read."""
        wrong = "f" * 64
        first = self.manifest["layers"][0]
        os.link(f"{self.image}/blobs/sha256/{first['digest'][7:]}", f"{self.image}/blobs/sha256/{wrong}")
        config = {**self.config, "rootfs": {"type": "layers", "diff_ids": self.config["rootfs"]["diff_ids"] * 2}}
        self.manifest["layers"] = [first, {**first, "digest": f"sha256:{wrong}"}]
        self.put_config(config)
        self.require_refused("its bytes aren't those of the digest")

    def test_many_names_of_one_image(self) -> None:
        """They take time in proportion."""
        names = [{"org.opencontainers.image.ref.name": f"n{number}"} for number in range(12_000)]
        put_index(self.image, [{**self.descriptor, "annotations": name} for name in names])
        self.require_read()


def run(*words: str) -> None:
    """Runs a program, which must succeed."""
    subprocess.run(words, check=True, stdout=subprocess.DEVNULL, stderr=subprocess.DEVNULL)


class Others(FolderTest):
    """Honest images of other tools are read."""

    def test_what_tools_write(self) -> None:
        for program in ("umoci", "skopeo"):
            if shutil.which(program) is None:
                self.skipTest(f"needs {program}")
        layout = self.path("layout")
        run("umoci", "init", "--layout", layout)
        run("umoci", "new", "--image", f"{layout}:a")
        os.mkdir(self.path("tree"))
        run("umoci", "insert", "--image", f"{layout}:a", self.path("tree"), "/tree")
        run("umoci", "config", "--image", f"{layout}:a", "--config.user", "1000", "--config.cmd", "/bin/sh")
        for place in (f"dir:{self.path('dir')}", f"docker-archive:{self.path('saved.tar')}:a:b", f"oci:{self.path('oci')}:x"):
            run("skopeo", "--insecure-policy", "copy", f"oci:{layout}:a", place)
        run("skopeo", "--insecure-policy", "copy", f"docker-archive:{self.path('saved.tar')}", f"dir:{self.path('dir2')}")
        for image in ("layout", "dir", "saved.tar", "oci", "dir2"):
            with self.subTest(image=image):
                self.require_done(call("unpack", self.path(image), "--out", self.path(f"{image}.out")))

    def test_saved(self) -> None:
        layer = archive([folder("./")])
        write_saved(self.path("image"), [layer, layer])
        self.require_done(call("unpack", self.path("image"), "--out", self.path("out")))


if __name__ == "__main__":
    unittest.main(argv=sys.argv)
