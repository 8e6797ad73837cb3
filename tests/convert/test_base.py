"""`flatten --base` and `--layers`: layers that stay as they are, byte for byte, below one that is made."""

import hashlib
import json
import shutil
import subprocess
import sys
import tarfile
import unittest
from pathlib import Path
from typing import Any

from images import archive, folder, member, packed, put_index, write_layout, write_saved
from support import COMMAND, call
from test_flatten import ImageTest

LAYERS = [
    archive([folder("./"), folder("d"), member("d/f", b"lowest"), member("d/g", b"g"), member("l", kind=b"1", target="d/g")]),
    archive([member("d/.wh.g"), member("d/h", b"h" * 5_000), member("l2", kind=b"1", target="d/f")]),
    archive([folder("d"), member("d/f", b"topmost"), member(".wh.l")]),
]
# Two members, and so as nobody here packs.
PACKED = [packed(layer[:700]) + packed(layer[700:]) for layer in LAYERS]
HISTORY = [
    {"created_by": "ADD base", "created": "2024-01-02T03:04:05Z"}, {"created_by": "CMD sh", "empty_layer": True},
    {"created_by": "RUN two"}, {"created_by": "ENV A=b", "empty_layer": True, "comment": "c"}, {"created_by": "COPY three"},
]
_OCI, _DOCKER = "application/vnd.oci.image", "application/vnd.docker"
_OF_OCI = f"{_OCI}.manifest.v1+json", f"{_OCI}.config.v1+json", f"{_OCI}.layer.v1.tar+gzip"
_OF_DOCKER = (
    f"{_DOCKER}.distribution.manifest.v2+json", f"{_DOCKER}.container.image.v1+json", f"{_DOCKER}.image.rootfs.diff.tar.gzip",
)


_WITH_PROGRAM = """
import sys
sys.path.insert(0, {!r})
from unittest import mock
from convert import cli
with mock.patch("convert.common.program.find_program", return_value={!r}):
    sys.exit(cli.main(sys.argv[1:]))
"""


def sha256(data: bytes) -> str:
    """A digest."""
    return f"sha256:{hashlib.sha256(data).hexdigest()}"


class Layout:
    """An OCI image layout in a folder."""

    def __init__(self, path: str) -> None:
        self.path = Path(path)

    def write(self, layers: list[bytes], plain: list[bytes], history: Any, types: tuple[str, str, str] = _OF_OCI) -> "Layout":
        """Writes an image of these layers, named x:1; descriptors of layers have annotations."""
        config = {"os": "linux", "architecture": "amd64", "created": "2024-02-02T00:00:00Z", "config": {"Cmd": ["sh"]}}
        config |= {"rootfs": {"type": "layers", "diff_ids": [sha256(data) for data in plain]}, "history": history}
        manifest = {"schemaVersion": 2, "mediaType": types[0], "config": self._put(types[1], config), "layers": [
            {**self._put(types[2], data), "annotations": {"number": str(number)}} for number, data in enumerate(layers)
        ]}
        name = {"annotations": {"org.opencontainers.image.ref.name": "x:1"}}
        put_index(str(self.path), [{**self._put(types[0], manifest), **name}])
        return self

    def _put(self, kind: str, value: Any) -> dict[str, Any]:
        data = value if isinstance(value, bytes) else json.dumps(value).encode()
        place = self.path / "blobs" / "sha256" / hashlib.sha256(data).hexdigest()
        place.parent.mkdir(parents=True, exist_ok=True)
        place.write_bytes(data)
        return {"mediaType": kind, "digest": sha256(data), "size": len(data)}

    def blob(self, digest: str) -> bytes:
        """The bytes of a blob."""
        return self.path.joinpath("blobs", *digest.split(":")).read_bytes()

    def manifest(self) -> Any:
        """The manifest of its only image."""
        (listed,) = json.loads((self.path / "index.json").read_bytes())["manifests"]
        found = json.loads(self.blob(listed["digest"]))
        assert found["mediaType"] == listed["mediaType"], listed
        return found

    def configuration(self) -> Any:
        """The configuration of its only image."""
        return json.loads(self.blob(self.manifest()["config"]["digest"]))


class BaseTest(ImageTest):
    """A test with an image of three layers and its base of one."""

    def setUp(self) -> None:
        super().setUp()
        shutil.rmtree(self.image)
        self.given = Layout(self.image).write(PACKED, LAYERS, HISTORY)
        self.base = self.path("in", "base")
        Layout(self.base).write(PACKED[:1], LAYERS[:1], HISTORY[:2])

    def made(self, out: str) -> Layout:
        """The image that was made, as a folder."""
        path = self.path("all", out)
        if out.endswith(".tar"):
            with tarfile.open(path) as file:
                file.extractall(path := self.path("in", f"of-{out}"), filter="data")
        return Layout(path)

    @property
    def words(self) -> list[str]:
        """Words that run the command in a process, with the program."""
        return [sys.executable, "-B", "-c", _WITH_PROGRAM.format(str(COMMAND.parent), self.program)]

    def require_kept(self, new: Layout, count: int, given: Layout | None = None) -> None:
        """The lowest layers, and the history's lines of them, are those of the given image."""
        given = given or self.given
        before, after = given.manifest()["layers"][:count], new.manifest()["layers"][:count]
        self.assertEqual(after, before)
        self.assertEqual([new.blob(it["digest"]) for it in after], [given.blob(it["digest"]) for it in before])
        digests = [layout.configuration()["rootfs"]["diff_ids"][:count] for layout in (new, given)]
        self.assertEqual(*digests)


class Bases(BaseTest):
    """Images over a base."""

    def test_what_stays_and_what_is_made(self) -> None:
        wanted = self.shown(self.image)
        identity = self.given.manifest()["config"]["digest"][:len("sha256:") + 12]
        for number, words in enumerate((("--base", "1"), ("--base", self.base), ("--base", f"{self.base}/"), ("--layers", "2"))):
            for out in (f"flat{number}", f"flat{number}.tar"):
                result = self.flatten(*words, out=out)
                self.require_done(result)
                self.assertRegex(result[2], r"pack: 2 layers, 1 of them as before, ")
                self.assertRegex(result[2], r"flat.*: 2 layers in place of 3, \d+ bytes in place of \d+ bytes \(")
                new = self.made(out)
                self.require_kept(new, 1)
                self.assertEqual(new.manifest()["layers"][1]["mediaType"], f"{_OCI}.layer.v1.tar+gzip")
                self.assertEqual(new.configuration()["history"], [
                    *HISTORY[:2], {**HISTORY[2], "empty_layer": True}, HISTORY[3], {**HISTORY[4], "empty_layer": True},
                    {
                        "created_by": f"layers flatten: lines 3 to 5 of x:1 ({identity})",
                        "comment": "layer 2 of 2, the lowest first",
                    },
                ])
                self.assertEqual(self.shown(self.path("all", out)), wanted)
        index = [Path(self.path("all", f"flat{number}", "index.json")).read_bytes() for number in range(4)]
        self.assertEqual(len(set(index)), 1)

    def test_a_folder_of_skopeo(self) -> None:
        self.require_done(call("flatten", self.image, "--base", 1, "--out", f"dir:{self.path('all', 'copy')}"))
        manifest = json.loads(Path(self.path("all", "copy", "manifest.json")).read_bytes())
        self.assertEqual(manifest["layers"][0], self.given.manifest()["layers"][0])
        digits = manifest["layers"][0]["digest"][len("sha256:"):]
        self.assertEqual(Path(self.path("all", "copy", digits)).read_bytes(), PACKED[0])
        self.assertEqual(self.shown(f"dir:{self.path('all', 'copy')}"), self.shown(self.image))

    def test_all_stay(self) -> None:
        for words in (("--layers", "3"), ("--layers", "128"), ("--base", "2"), ("--base", "3"), ("--base", self.image)):
            result = self.flatten(*words)
            self.require_done(result)
            self.assertIn("pack: 3 layers, 3 of them as before, ", result[2])
            new = self.made("flat")
            self.require_kept(new, 3)
            self.assertEqual(new.configuration(), self.given.configuration())
            self.assertIn(" (100.0 %), ", result[2])
            shutil.rmtree(new.path)

    def test_a_base_that_has_what_changes_nothing(self) -> None:
        layers = [*LAYERS[:2], archive([member("d/.wh.absent"), folder("d")])]
        self.given.write([packed(layer) for layer in layers], layers, HISTORY)
        self.require_done(self.flatten("--base", "3"))
        self.require_kept(self.made("flat"), 3)

    def test_through_pipes(self) -> None:
        """Of the image's base, whose blobs are those of the base's image, if the image has them otherwise."""
        write_saved(self.path("in", "saved.tar"), LAYERS, {"os": "linux", "architecture": "amd64", "history": HISTORY})
        for base, blob in (("1", LAYERS[0]), (self.base, PACKED[0])):
            with open(self.path("in", "saved.tar"), "rb") as given, open(self.path("all", "flat.tar"), "wb") as made:
                words = [*self.words, "flatten", "-", "--base", base, "--out", "-"]
                result = subprocess.run(words, stdin=given, stdout=made, stderr=subprocess.PIPE, check=False)
            self.assertEqual(result.returncode, 0, result.stderr)
            new = self.made("flat.tar")
            self.assertEqual(new.blob(new.manifest()["layers"][0]["digest"]), blob)
            self.assertEqual(self.shown(self.path("all", "flat.tar")), self.shown(self.image))
            shutil.rmtree(new.path)

    def test_by_hand(self) -> None:
        """The script says that layers don't stay; with one layer it makes the same image."""
        status, script, messages = self.flatten("--base", 1, "--dry-run")
        self.assertEqual((status, messages), (0, ""))
        self.assertIn("\n# (flatten copies lower layers that stay the same, with their digests; pack packs all anew)\n", script)
        self.require_done(self.flatten(out="wanted"))
        subprocess.run(["sh"], input=self.flatten("--dry-run")[1], text=True, capture_output=True, check=True)
        index = [Path(self.path("all", name, "index.json")).read_bytes() for name in ("flat", "wanted")]
        self.assertEqual(*index)

    def test_types_of_docker(self) -> None:
        shutil.rmtree(self.image)
        self.given.write(PACKED, LAYERS, HISTORY, _OF_DOCKER)
        self.require_done(self.flatten("--base", 1, "--compress", "none"))
        new = self.made("flat")
        self.require_kept(new, 1)
        manifest = new.manifest()
        self.assertEqual((manifest["mediaType"], manifest["config"]["mediaType"]), _OF_DOCKER[:2])
        self.assertEqual(manifest["layers"][1]["mediaType"], _OF_DOCKER[2].removesuffix(".gzip"))
        if shutil.which("zstd"):
            result = self.flatten("--base", 1, "--compress", "zstd", out="other")
            self.assertEqual((result[0], "which know no zstd: say --compress gzip" in result[2]), (2, True), result[2])
        self.assertEqual(self.shown(self.path("all", "flat")), self.shown(self.image))

    def test_a_name_that_a_terminal_would_obey(self) -> None:
        path = Path(self.image, "index.json")
        path.write_text(path.read_text(encoding="utf-8").replace("x:1", "x\\u001b]0;y"), encoding="utf-8")
        self.require_done(self.flatten("--base", 1))
        made_by = self.made("flat").configuration()["history"][-1]["created_by"]
        self.assertTrue(made_by.startswith("layers flatten: lines 3 to 5 of x\\x1b]0;y (sha256:"), made_by)

    def test_no_history_of_the_layers(self) -> None:
        self.given.write(PACKED, LAYERS, HISTORY[:3])
        self.require_done(self.flatten("--base", 1))
        new = self.made("flat")
        self.require_kept(new, 1)
        self.assertEqual([line.get("empty_layer", False) for line in new.configuration()["history"]], [True] * 3 + [False] * 2)

    def test_what_is_lost_is_reported_once(self) -> None:
        lost = archive([folder("d"), member("d/f", pax={"SCHILY.acl.access": "u::rwx"})])
        self.given.write([packed(lost), *PACKED[1:]], [lost, *LAYERS[1:]], HISTORY)
        result = self.flatten("--base", 1)
        self.require_done(result)
        self.assertEqual(result[2].count("acl"), 1, result[2])


class Refused(BaseTest):
    """Bases that can't stay below."""

    def test_no_base_of_the_image(self) -> None:
        other = archive([member("other")])
        for name, layers in (("other", [LAYERS[0], other]), ("more", [*LAYERS, other]), ("first", [other])):
            Layout(self.path("in", name)).write([packed(layer) for layer in layers], layers, [])
        for base, problem in (
            ("other", f"is no base of {self.image}: they part at layer 1 of the image"),
            ("more", f"is no base of {self.image}: it has 4 layers, and the image has 3"),
            ("first", "they part at layer 2 of the image"),
        ):
            result = self.flatten("--base", self.path("in", base))
            self.require_fault(result, 2, problem)
            self.assertEqual(result[2].count("\n"), 1)
        for words, problem in (
            (("--base", "4"), "--base is 4, and there are 3 layers"), (("--base", "1", "--layers", "2"), "not allowed with"),
        ):
            status, _, messages = self.flatten(*words)
            self.assertEqual((status, problem in messages), (2, True), messages)
        self.require_fault(call("flatten", "-", "--base", "-", "--out", self.path("all", "x")), 2, "can't both be standard")
        self.left()

    def test_wrong_bytes(self) -> None:
        """Those of the base are looked at though they aren't unpacked into the new image."""
        place = Path(self.image, "blobs", "sha256", hashlib.sha256(PACKED[0]).hexdigest())
        place.write_bytes(packed(LAYERS[0])[:-1] + b"x")
        result = self.flatten("--base", 1)
        self.assertEqual((result[0], "layers: cannot read " in result[2]), (3, True), result[2])
        self.left()

    def test_bytes_that_change_meanwhile(self) -> None:
        place = f"{self.image}/blobs/sha256/{hashlib.sha256(PACKED[0]).hexdigest()}"
        with open(self.program, encoding="utf-8") as file:
            real = file.read()
        with open(self.program, "w", encoding="utf-8") as file:
            file.write(real.replace("exec", f"[ $1 != show ] || printf x | dd of={place} bs=1 seek=20 conv=notrunc 2>&-\nexec"))
        for out in ("flat", "flat.tar"):
            result = self.flatten("--base", 1, out=out)
            self.assertEqual(result[0], 3, result[2])
            self.assertIn("its bytes aren't those of the digest sha256:", result[2].splitlines()[-1])
            self.left()

    def test_marks_in_the_base(self) -> None:
        """They stay; those of layers above it go."""
        moved = archive([member(".wh.d"), folder("new", pax={"SCHILY.xattr.trusted.overlay.redirect": "/d"})])
        layers = [LAYERS[0], moved, archive([folder("new"), member("new/f", b"topmost")])]
        self.given.write([packed(layer) for layer in layers], layers, HISTORY)
        wanted = self.shown(self.image, "--overlay-marks")
        for base in (3, 2, 1):
            self.require_done(self.flatten("--overlay-marks", "--base", base))
            self.require_kept(self.made("flat"), base)
            self.assertEqual(self.shown(self.path("all", "flat"), "--overlay-marks"), wanted)
            shutil.rmtree(self.path("all", "flat"))

    def test_digests_that_are_absent(self) -> None:
        """A layer without a digest of its contents is packed anew, or refused as a base."""
        shutil.rmtree(self.image)
        write_layout(self.image, PACKED)
        self.require_fault_at_end(self.flatten("--base", 1), 3, "it has no digest by sha256, so it can't stay as it is")
        self.left()
        self.require_done(self.flatten("--layers", 2))
        self.assertEqual(self.shown(self.path("all", "flat")), self.shown(self.image))

    def require_fault_at_end(self, result: tuple[int, str, str], status: int, text: str) -> None:
        """The last line ends with this."""
        self.assertEqual(result[0], status, result[2])
        self.assertTrue(result[2].endswith(f"{text}\n"), result[2])


if __name__ == "__main__":
    unittest.main()
