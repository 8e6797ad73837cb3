"""`flatten --exclude`: as if the topmost layer had removed the paths."""

import os
import random
import subprocess
import unittest
from pathlib import Path

from images import archive, folder, member, packed
from support import call
from test_base import HISTORY, LAYERS, BaseTest, Layout

IMAGES = int(os.environ.get("LAYERS_TEST_IMAGES", "5"))
SEED = 5


class Excluded(BaseTest):
    """Images without some paths."""

    def with_whiteouts(self, layers: list[bytes], paths: list[str]) -> str:
        """The same image with a layer more, which removes these."""
        removing = [member(f"{os.path.dirname(path)}/.wh.{os.path.basename(path)}".lstrip("/")) for path in paths]
        layers = [*layers, archive(removing)]
        image = Layout(self.path("in", "removed")).write([packed(layer) for layer in layers], layers, [])
        return str(image.path)

    def require_without(self, layers: list[bytes], paths: list[str], *words: str) -> Layout:
        """The image is flattened as one that has a layer which removes the paths."""
        excluded = [word for path in paths for word in ("--exclude", path)]
        result = self.flatten(*words, *excluded)
        self.require_done(result)
        wanted = self.shown(self.with_whiteouts(layers, paths))
        self.assertEqual(self.shown(self.path("all", "flat")), wanted)
        self.assertNotEqual(wanted, self.shown(self.image))
        return self.made("flat")

    def test_paths_of_each_layer(self) -> None:
        for words, kept, paths in (
            ((), 0, ["d/h/", "/l2"]), (("--base", "1"), 1, ["/l2", "/d/h", "/d/f"]), (("--base", "1"), 1, ["/d"]),
            (("--layers", "3"), 2, ["/d/f"]), (("--base", "3"), 3, ["/d/f"]), (("--base", "3"), 3, ["/d", "/l2"]),
        ):
            with self.subTest(words=words, paths=paths):
                new = self.require_without(LAYERS, [f"/{path.strip('/')}" for path in paths], *words)
                self.require_kept(new, kept)
                lines = [line.get("empty_layer", False) for line in new.configuration()["history"]]
                self.assertEqual(lines.count(False), len(new.manifest()["layers"]))
                self.assertEqual(len(new.manifest()["layers"]), max(1, kept + 1))
                subprocess.run(["rm", "-r", str(new.path)], check=True)

    def test_contents_are_gone(self) -> None:
        new = self.require_without(LAYERS, ["/d/h"])
        self.require_done(call("unpack", str(new.path), "--out", self.path("in", "again")))
        blobs = Path(self.path("in", "again", "blobs"))
        self.assertNotIn(b"h" * 5_000, [path.read_bytes() for path in blobs.iterdir()])

    def test_random_images(self) -> None:
        pick = random.Random(SEED)
        for _ in range(IMAGES):
            layers = [archive(self.random_layer(pick)) for _ in range(pick.randrange(1, 5))]
            self.given = Layout(self.image).write([packed(layer) for layer in layers], layers, [])
            paths = [line.split()[7] for line in self.shown(self.image).splitlines()[1:-1]]
            if not paths:
                continue
            chosen = pick.sample(paths, min(len(paths), pick.choice((1, 1, 2))))
            words = pick.choice(((), ("--base", str(pick.randrange(len(layers) + 1))), ("--layers", "2")))
            with self.subTest(layers=len(layers), chosen=chosen, words=words):
                self.require_without(layers, [path for path in chosen if not self.is_below(path, chosen)], *words)
            subprocess.run(["rm", "-rf", self.path("all", "flat")], check=True)

    def is_below(self, path: str, others: list[str]) -> bool:
        """Whether a path is below another one."""
        return any(path.startswith(f"{other}/") for other in others)

    def random_layer(self, pick: random.Random) -> list[object]:
        """Files, directories, whiteouts and opaque directories, with few names."""
        found = {}
        for _ in range(pick.randrange(1, 9)):
            way = "/".join(pick.choice("abc") for _ in range(pick.randrange(3)))
            name, kind = f"{way}/{pick.choice('abc')}".strip("/"), pick.random()
            if any(path == way or way.startswith(f"{path}/") for path, (info, _) in found.items() if not info.isdir()):
                continue
            if kind < 0.2:
                found[f"{way}/.wh.{pick.choice('abc')}".strip("/")] = member(f"{way}/.wh.{pick.choice('abc')}".strip("/"))
            elif kind < 0.3 and way:
                found[f"{way}/.wh..wh..opq"] = member(f"{way}/.wh..wh..opq")
            elif name not in found:
                is_folder = kind < 0.6 or any(path.startswith(f"{name}/") for path in found)
                found[name] = folder(name, pick.choice((0o700, 0o755))) if is_folder else member(name, name.encode())
        return list(found.values())

    def test_what_can_not_be_excluded(self) -> None:
        for path, status, problem in (
            ("/", 2, "--exclude / would leave nothing"), ("d/../f", 2, "name the path from the root on, without"),
            ("/absent", 2, "--exclude /absent: the layers show nothing there"), ("/d//f", 2, "name the path from the root"),
            ("/d/g", 2, "--exclude /d/g: the layers show nothing there"), ("", 2, "would leave nothing"),
        ):
            result = self.flatten("--exclude", path)
            self.assertEqual(result[0], status, result[2])
            self.assertIn(problem, result[2].splitlines()[-1])
            self.left()
        self.require_fault(self.flatten("--exclude", "/d", "--dry-run"), 2, "--dry-run has no commands for --exclude")

    def test_history(self) -> None:
        """The lines of layers that were merged; over all of the layers none was."""
        new = self.require_without(LAYERS, ["/d/f"], "--base", "3")
        self.assertEqual(new.configuration()["history"][:-1], HISTORY)
        self.assertRegex(new.configuration()["history"][-1]["created_by"], r"^layers flatten: x:1 \(sha256:[0-9a-f]{12}\)$")


if __name__ == "__main__":
    unittest.main()
