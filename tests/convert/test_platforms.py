"""Names of platforms, and images of several."""

import os
import unittest

from images import archive, member, put_index, put_manifest
from support import FolderTest, call

from convert.image.platforms import is_meant, platform_named


class Names(FolderTest):
    """What people write, and what images have."""

    def test_what_is_meant(self) -> None:
        for asked, there, wanted in (
            ("arm64", "linux/arm64", True), ("arm64", "linux/arm64/v8", True), ("linux/arm64/v8", "linux/arm64", True),
            ("linux/arm64", "linux/arm64/v8", True), ("linux/arm64", "linux/arm64/v9", True), ("aarch64", "linux/arm64", True),
            ("arm64/v8", "linux/arm64", True), ("linux/arm64/8", "linux/arm64/v8", True), ("x86_64", "linux/amd64", True),
            ("linux/arm64/v9", "linux/arm64", False), ("linux/arm64/v8", "linux/arm64/v9", False), ("linux", "linux/s390x", True),
            ("arm/v7", "linux/arm", True), ("arm/v6", "linux/arm", False), ("armhf", "linux/arm/v7", True),
            ("linux/arm", "linux/arm/v6", True), ("linux/arm", "linux/arm64", False), ("amd64", "windows/amd64", False),
            ("linux/amd64/v2", "linux/amd64", False), ("linux/amd64/v1", "linux/amd64", True), ("armel", "linux/arm/v6", True),
            ("plan9/odd", "plan9/odd", True), ("odd/x/y", "odd/x/y", True), ("odd/x", "odd/x/y", True), ("unknown", "unknown", True),
        ):
            self.assertEqual(is_meant(asked, there), wanted, (asked, there))
        for text in ("", "/", "linux/", "a/b/c/d", "linux//v8"):
            self.assertIsNone(platform_named(text), text)

    def test_in_commands(self) -> None:
        os.mkdir(self.path("image"))
        described = []
        for platform, variant in (("linux/amd64", None), ("linux/arm64", "v8"), ("linux/arm", "v7")):
            layer = archive([member(platform.rpartition("/")[2], b"x")])
            system, _, machine = platform.partition("/")
            config = {"os": system, "architecture": machine} | ({"variant": variant} if variant else {})
            one = put_manifest(self.path("image"), [layer], [layer], platform, config)
            described.append({**one, "platform": config})
        put_index(self.path("image"), described)
        for word, name in (
            ("arm64", "arm64"), ("linux/arm64/v8", "arm64"), ("linux/arm64", "arm64"), ("aarch64", "arm64"), ("armhf", "arm"),
            ("arm/v7", "arm"), ("linux/arm", "arm"), ("amd64", "amd64"), ("linux/x86-64", "amd64"),
        ):
            out = self.path(word.replace("/", "-"))
            self.require_done(call("unpack", self.path("image"), "--platform", word, "--out", out))
            with open(f"{out}/l0.json", encoding="utf-8") as file:
                self.assertIn(f'"path":"/{name}"', file.read(), word)
        result = call("unpack", self.path("image"), "--platform", "arm/v6", "--out", self.path("out"))
        self.require_fault(result, 3, "none of them is --platform linux/arm/v6")
        for command in (("unpack", "--out", "x"), ("sizes",), ("diff", self.path("image")), ("flatten", "--out", "x")):
            status, _, messages = call(command[0], self.path("image"), *command[1:], "--platform", "a/b/c/d")
            self.assertEqual((status, "a platform is OS/ARCH, OS/ARCH/VARIANT or ARCH" in messages), (2, True), messages)


if __name__ == "__main__":
    unittest.main()
