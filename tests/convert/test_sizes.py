"""`sizes`: its numbers beside the definitions, read plainly; its table, its refusals, and images."""

import contextlib
import io
import json
import os
import re
import unittest
from collections.abc import Sequence
from functools import partial
from unittest import mock

from images import archive, folder, member, packed, put_index, put_manifest
from plain_stacks import PlainSizes, PlainStack, random_stack
from support import FolderTest, call, program_words, why_no_trusted

from convert import cli as command
from convert.model.entries import DIRECTORY, REDIRECT, SYMLINK, Entry, named
from convert.common.amounts import size_text
from convert.common.faults import ReadFault
from convert.sizes.layer_sizes import sizes_of
from convert.model.links import count_links, links_path
from convert.model.manifests import read_manifest, written
from convert.model.merged_tree import MergedTree
from convert.sizes.texts import Origin, json_text

_STACKS = 300
_WITH_PROGRAM = 20
# An image, the lowest layer first: a package installed, removed with its cache left, a mode changed, a copy.
_LAYERS = [
    [folder("./"), folder("bin"), member("bin/tool", b"t" * 5_000), member("same", b"s" * 700), member("empty")],
    [folder("cache"), member("cache/package", b"p" * 20_000), member("lib", b"l" * 1_500)],
    [member(".wh.lib"), folder("bin"), member("bin/tool", b"t" * 5_000, mode=0o755), member("copy", b"s" * 700)],
    [folder("cache"), member("cache/.wh..wh..opq"), member("cache/list", b"new")],
]
_HISTORY = [
    {"created_by": "ADD base"}, {"created_by": "ENV", "empty_layer": True}, {"created_by": "RUN install"},
    {"created_by": "RUN \x1b[1m remove"}, {"comment": "cleaned"},
]
_TABLE = """\
LAYER  STEP  BYTES  PACKED  WASTED    SHARE  COMMAND
    0   5/5      3       -       0        -  cleaned
    1   4/5   5.6K       -    5.6K  100.0 %  RUN \\x1b[1m remove
    2   3/5    21K    GZIP     21K  100.0 %  RUN install
    3   1/5   5.6K       -       0        -  ADD base
  sum          33K    GZIP     27K   82.6 %

Wasted, by place:
BYTES  FILES  WHY               PATH
  20K      1  removed in 5/5    /cache/package
 4.9K      1  duplicate in 4/5  /bin/tool
 2.2K      2  all others

Wasted, by command:
BYTES  FILES  WHY               COMMAND
  20K      1  removed in 5/5    cleaned
 5.6K      2  duplicate in 4/5  RUN \\x1b[1m remove
 1.5K      1  removed in 4/5    RUN \\x1b[1m remove

5.6K shown, 21K deleted but shipped, 5.6K duplicate; one layer would take 6.3K
27 KiB of 33 KiB (82.6 %) are wasted; 20 KiB by /cache/package, removed in step 5
"""


def plain_program(_: str, words: Sequence[str], folder: str, report: str, __: object) -> str:
    """A stand-in for the program, in a folder: `show`, as the definitions have it."""
    what, *layers = words
    data_layers = int(layers.pop(1)) if layers[0] == "--data-layers" else 0
    paths = [os.path.join(folder, layer) for layer in layers if layer != "--data-layers"]
    stack = PlainStack(list(map(read_manifest, paths)), data_layers)
    with open(os.path.join(folder, report), "x", encoding="ascii") as file:
        file.writelines(stack.report())
    return what


class SizesTest(FolderTest):
    """A test that does without the program."""

    maxDiff = None

    def setUp(self) -> None:
        super().setUp()
        width = mock.patch.dict(os.environ, COLUMNS="")
        width.start()
        self.addCleanup(width.stop)
        found = mock.patch("convert.sizes.command.require_program", return_value="none")
        run = mock.patch("convert.model.show_runs.run_program", autospec=True, side_effect=plain_program)
        found.start()
        self.program = run.start()
        self.addCleanup(found.stop)
        self.addCleanup(run.stop)

    def write_image(self) -> int:
        """Writes the image, of which one layer is packed, and gives that one's bytes in it."""
        layers = [archive(layer) for layer in _LAYERS]
        small = packed(layers[1])
        os.mkdir(self.path("image"))
        put_index(self.path("image"), [put_manifest(
            self.path("image"), [layers[0], small, *layers[2:]], layers, "linux/amd64",
            {"os": "linux", "architecture": "amd64", "history": _HISTORY},
        )])
        return len(small)

    def put(self, name: str, layers: list[bytes], commands: list[str]) -> str:
        """Writes an image, the lowest layer first."""
        path = self.path(name)
        os.mkdir(path)
        history = [{"created_by": text} for text in commands]
        put_index(path, [put_manifest(
            path, layers, layers, "linux/amd64", {"os": "linux", "architecture": "amd64", "history": history},
        )])
        return path


class StacksTest(FolderTest):
    """A test with stacks of small layers."""

    def write(self, layers: Sequence[Sequence[Entry]]) -> list[str]:
        """Writes manifests, and which names are one file."""
        paths = [self.path(f"l{number}.json") for number in range(len(layers))]
        for path, layer in zip(paths, layers):
            with open(path, "w", encoding="utf-8") as file:
                file.writelines(written(named(layer)))
            count_links(named(layer)).write(links_path(path), partial(named, layer), path)
        return paths


class Definitions(StacksTest):
    """Random stacks with every mark, equal contents, and names of one file."""

    def test_numbers(self) -> None:
        met = set[str]()
        for seed in range(_STACKS):
            layers, data_layers = random_stack(seed)
            stack = PlainStack(layers, data_layers)
            wanted = PlainSizes(stack)
            paths = self.write(layers)
            with open(self.path("report"), "w", encoding="ascii") as file:
                file.writelines(stack.report())
            sizes = sizes_of(paths, data_layers, self.path("report"))
            messages = json.loads("".join(json_text(sizes, [Origin()] * len(layers))))
            with self.subTest(seed=seed):
                for number, own in enumerate(messages["layers"]):
                    numbers = wanted.numbers(number)
                    self.assertEqual({name: own[name] for name in numbers}, numbers)
                    self.assertEqual(own["shown"] + own["hidden"] + own["repeated"], own["bytes"])
                    self.assertEqual(messages["sums"]["bytes"], sum(layer["bytes"] for layer in messages["layers"]))
                self.assertEqual(messages["one-layer"], wanted.one_layer())
                self.assertEqual(messages["not-shown"], wanted.not_shown())
            met |= {one["why"] for one in messages["not-shown"]} | {f"by {one['by']}" for one in messages["not-shown"]}
        self.assertLessEqual({"hidden", "repeated", "by None", "by 0", "by 3"}, met)

    def test_with_the_program(self) -> None:
        if not program_words():
            self.skipTest("the program isn't built")
        for seed in range(_WITH_PROGRAM):
            layers, data_layers = random_stack(seed)
            result = call("sizes", "--json", "--data-layers", data_layers, "--stack", *self.write(layers))
            self.require_done(result)
            wanted = PlainSizes(PlainStack(layers, data_layers))
            messages = json.loads(result[1])
            with self.subTest(seed=seed):
                self.assertEqual(messages["one-layer"], wanted.one_layer())
                self.assertEqual(messages["not-shown"], wanted.not_shown())

    def test_what_redirects_repeat_is_bounded(self) -> None:
        lower = [Entry("/", DIRECTORY, 0o755), Entry("/d", DIRECTORY, 0o755)]
        lower += [Entry(f"/d/{number}", SYMLINK, 0o777, target="a") for number in range(4)]
        upper = [lower[0], *(Entry(f"/{name}", DIRECTORY, 0o755, attributes={REDIRECT: b"/d"}) for name in "abc")]
        for room, is_refused in ((13, False), (12, True)):  # the root's one name, and thrice four
            tree = MergedTree()
            tree._room = room
            tree.cover(named(lower), False)
            with self.assertRaises(ReadFault) if is_refused else contextlib.nullcontext():
                tree.cover(named(upper), True)


class Telling(SizesTest):
    """What is printed of an image, and when it fails."""

    def test_table(self) -> None:
        small = self.write_image()
        status, printed, messages = call("sizes", self.path("image"))
        self.assertEqual((status, messages), (0, ""))
        self.assertEqual(printed, _TABLE.replace("GZIP", f"{small:4}"))
        exact = call("sizes", self.path("image"), "--bytes")[1]
        self.assertIn("\n5703 shown, 21500 deleted but shipped, 5700 duplicate; one layer would take 6403\n", exact)
        self.assertIn("27200 bytes of 32903 bytes (82.6 %) are wasted; 20000 bytes by /cache/package, removed", exact)

    def test_progress(self) -> None:
        """On a terminal a bar says how much of each layer is read, to its end."""

        class Terminal(io.StringIO):
            """Standard error that is one."""

            def isatty(self) -> bool:
                return True

        self.write_image()
        messages = Terminal()
        with contextlib.redirect_stderr(messages), contextlib.redirect_stdout(io.StringIO()):
            with mock.patch("convert.common.progress._EVERY", 0):
                self.assertEqual(command.main(["sizes", self.path("image")]), 0)
        whole = re.findall(rf"layer (\d) of {len(_LAYERS)}: unpacking +\[#+\] +100 %", messages.getvalue())
        self.assertEqual(len(set(whole)), len(_LAYERS), messages.getvalue())

    def test_json(self) -> None:
        small = self.write_image()
        value = json.loads(call("sizes", self.path("image"), "--json")[1])
        self.assertEqual(list(value), ["layer-sizes", "layers", "sums", "one-layer", "not-shown"])
        self.assertEqual(value["layers"][2], {
            "layer": 2, "made-by": "RUN install", "packed": small, "entries": 4, "files": 2, "bytes": 21_500,
            "shown": 0, "hidden": 21_500, "repeated": 0, "whiteouts": 0, "opaque": 0,
        })
        self.assertEqual((value["layers"][0]["packed"], value["sums"]["packed"]), (None, small))
        self.assertEqual(value["one-layer"], {"entries": 8, "files": 5, "bytes": 6_403})
        self.assertEqual(
            value["not-shown"][1], {"bytes": 5_000, "layer": 1, "path": "/bin/tool", "why": "repeated", "by": 3}
        )

    def test_limits(self) -> None:
        """27,200 of 32,903 bytes are wasted: 82.667 %."""
        self.write_image()
        for words, messages in (
            (("--fail-over", "82.66"), "82.66 %"), (("--fail-over", "82.67"), ""), (("--fail-over", "0"), "0 %"),
            (("--fail-over", "100"), ""), (("--max-waste", "82.66%"), "82.66 %"), (("--max-waste", "82.67%"), ""),
            (("--max-waste", "27199"), "27199"), (("--max-waste", "27200"), ""), (("--max-waste", "27KB"), "27KB"),
            (("--max-waste", "27KiB"), ""), (("--max-waste", "27K"), ""),
        ):
            with self.subTest(words=words):
                status, printed, fault = call("sizes", self.path("image"), *words)
                self.assertEqual((status, printed[:5]), (1 if messages else 0, "LAYER"))
                self.assertEqual(
                    fault, f"layers: 27200 of 32903 bytes are wasted, more than {messages}\n" if messages else ""
                )

    def test_stacks(self) -> None:
        """Manifests, and folders if their marks can be read, in one stack."""
        self.write_image()
        self.require_done(call("unpack", self.path("image"), "--out", self.path("stack")))
        layers = [self.path("stack", f"l{number}.json") for number in range(4)]
        value = json.loads(call("sizes", "--json", "--stack", *layers)[1])
        self.assertEqual([one["made-by"] for one in value["layers"]], layers)
        self.assertEqual(value["one-layer"]["bytes"], 6_403)
        reason = why_no_trusted(self.folder)
        if reason:
            self.skipTest(reason)
        self.require_done(call("build", layers[3], "--blobs", self.path("stack", "blobs"), "--out", self.path("l3")))
        again = json.loads(call("sizes", "--json", "--stack", *layers[:3], self.path("l3"))[1])
        self.assertEqual(again["not-shown"], value["not-shown"])

    def test_refused(self) -> None:
        self.write_image()
        image, lone = self.path("image"), self.path("lone.json")
        for status, words, part in (
            (2, (), "name an IMAGE, or layers by --stack LAYER.."),
            (2, (image, "--stack", lone), "name an IMAGE, or layers by --stack LAYER.."),
            (2, (image, "--fail-over", "101"), "a share is a number from 0 to 100"),
            (2, (image, "--fail-over", "1/2"), "a share is a number from 0 to 100"),
            (2, (image, "--max-waste", "101%"), "a limit is a share from 0% to 100%, or bytes, such as 50MB or 50MiB"),
            (2, (image, "--max-waste", "5i"), "a limit is"),
            (2, (image, "--max-waste", "1%", "--fail-over", "1"), "not allowed with"),
            (2, (image, "--base", "5"), "--base is 5, and there are 4 layers"),
            (2, ("--base", image, "--stack", lone), "--base IMAGE is for images"),
            (2, ("-", "--base", "-"), "can't both be standard input"),
            (3, (image, "--base", self.path("none")), "none"),
            (2, (image, "--data-layers", "1"), "--data-layers is for --stack alone"),
            (2, ("--from-tag", "x", "--stack", lone), "--from-tag is for images alone"),
            (2, ("--data-layers", "1", "--stack", lone), "of 1 layer 1 can't be data-only"),
            (3, ("--stack", lone), f"cannot read {lone}: "),
            (3, (self.path("absent"),), "absent"),
        ):
            result = call("sizes", *words)
            self.assertEqual(result[:2], (status, ""), words)
            self.assertIn(part, result[2])

    def test_another_tree_than_the_program_shows(self) -> None:
        self.write_image()
        other, cut = "ovl_layers shows something else at ", "ovl_layers show gave no whole report: "
        for old, new, fault in (
            (" /same", " /some", other), (" 700 ", " 701 ", other), ("file 0644 0 0 0 0 -", "fifo 0644 0 0 0 - -", other),
            ("dir 0755 0 0 0 - - /bin\n", "", other), ("entries 8", "fifo 0644 0 0 0 - - /z\nentries 9", other),
            ("entries 8", "entries 9", cut), ("entries 8\n", "", cut), ("entries 8\n", "entries 8\n\n", cut),
        ):
            def wrong(
                _: str, words: Sequence[str], place: str, report: str, __: object, old: str = old, new: str = new
            ) -> str:
                plain_program(_, words, place, report, __)
                with open(os.path.join(place, report), "r+", encoding="ascii") as file:
                    text = file.read()
                    self.assertIn(old, text)
                    file.seek(0)
                    file.truncate()
                    file.write(text.replace(old, new))
                return ""

            self.program.side_effect = wrong
            self.require_fault(call("sizes", self.path("image")), 5, fault)


class Units(unittest.TestCase):
    """Sizes as `ls -h` has them."""

    def test_sizes(self) -> None:
        for size, text in (
            (0, "0"), (1_023, "1023"), (1_024, "1.0K"), (1_025, "1.1K"), (10_137, "9.9K"), (10_138, "10K"),
            (10_241, "11K"), (1_047_552, "1023K"), (1_047_553, "1.0M"), (1 << 40, "1.0T"), ((1 << 63) - 1, "8.0E"),
        ):
            self.assertEqual(size_text(size), text, size)
        self.assertEqual(size_text(1_047_553, True), "1047553")


if __name__ == "__main__":
    unittest.main()
