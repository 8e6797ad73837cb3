"""What stacks show, put together of parts, beside what they show at once: random stacks, other texts, and memory."""

import contextlib
import io
import os
import random
import re
import subprocess
import sys
import unittest
from collections.abc import Callable, Sequence
from unittest import mock

from generator import Generator, Style
from plain_stacks import PlainStack, random_stack
from support import ROOT, FolderTest, program_words
from test_ls import noted, peaks_in, without_redirect
from test_sizes import plain_program

from convert.common.faults import Fault
from convert.common.program import run_program, words_of
from convert.common.progress import Progress
from convert.model import parts, rules, show_runs
from convert.model.entries import CHAR, DIRECTORY, FILE, OPAQUE, SYMLINK, Entry, named
from convert.model.manifests import written
from convert.model.show_runs import run_show

_PLAIN_STACKS, _STACKS, _SPOILT = 120, 12, 100
_BYTES = (1, 300, 1_000)  # of some one, two and seven entries
_ODD_NAMES = ('},{"gid":0', '],"entries":[', "[", "back\\slash", "\x01", "é", "a-b", "a", "~")
_FAULTS = ("not JSON", "entry N: wrong entry", "entry N: out of order", "entry N: no parent directory")
_WHOLE = "whole"
_GENERATE, _ENTRIES = ROOT / "tests" / "makers" / "generate.py", 120_000


class PartsTest(FolderTest):
    """A test with stacks in files, and very short parts."""

    def setUp(self) -> None:
        super().setUp()
        self.parts = 0
        spacing = mock.patch.object(parts, "SPACING", 1)
        spacing.start()
        self.addCleanup(spacing.stop)

    def write(self, layers: Sequence[Sequence[Entry]]) -> list[str]:
        """Writes manifests; gives their names."""
        names = [f"l{number}.json" for number in range(len(layers))]
        for name, layer in zip(names, layers):
            with open(self.path(name), "w", encoding="utf-8") as file:
                file.writelines(written(named(layer)))
        return names

    def read(self, name: str) -> bytes:
        """The bytes of a file, which is taken away."""
        with open(self.path(name), "rb") as file:
            data = file.read()
        os.unlink(self.path(name))
        return data

    def joined(self, program: str, names: Sequence[str], most: int, data_layers: int = 0) -> bytes:
        """The report of the parts."""
        with mock.patch.object(parts, "MOST_BYTES", most):
            last = run_show(program, names, self.folder, "joined", data_layers)
        report = self.read("joined")
        self.assertEqual(report.decode().splitlines()[-1], last)
        self.assertNotIn("parts", os.listdir(self.folder))
        return report


class BesideDefinitions(PartsTest):
    """A stand-in for the program shows the parts."""

    def test_random_stacks(self) -> None:
        def plain(program: str, words: Sequence[str], folder: str, report: str, progress: Progress) -> tuple[int, str]:
            self.parts += 1
            plain_program(program, words, folder, report, progress)
            return 0, ""

        met = set[str]()
        for seed in range(_PLAIN_STACKS):
            layers, data_layers = random_stack(seed)
            layers = [list(map(without_redirect, layer)) for layer in layers]
            names, wanted = self.write(layers), "".join(PlainStack(layers, data_layers).report()).encode()
            paths = {entry.path for layer in layers for entry in layer}
            for most in _BYTES:
                self.parts = 0
                with mock.patch.object(show_runs, "try_program", plain), self.subTest(seed=seed, most=most):
                    if sum(os.path.getsize(self.path(name)) for name in names) > most:
                        self.assertEqual(self.joined("none", names, most, data_layers), wanted)
                if most == 1:
                    self.assertEqual(self.parts, len(paths))
                met.add("one" if self.parts == 1 else "several")
            met.update(f"{entry.kind}{sorted(entry.attributes)}" for layer in layers for entry in layer)
        self.assertLessEqual({"one", "several", f"dir['{OPAQUE}']", "char[]", "file[]"}, met)


class ProgramTest(PartsTest):
    """The program shows the parts, and the whole."""

    def setUp(self) -> None:
        super().setUp()
        if not program_words():
            self.skipTest("the program isn't built")
        self.program = program_words()[0]
        count = mock.patch.object(show_runs, "try_program", side_effect=show_runs.try_program)
        self.tried = count.start()
        self.addCleanup(count.stop)

    def require_same(self, layers: Sequence[Sequence[Entry]], most: int, data_layers: int = 0) -> None:
        """The parts give the report of the whole."""
        names = self.write(layers)
        run_program(self.program, words_of("show", names, "", "", data_layers), self.folder, _WHOLE, None)
        wanted = self.read(_WHOLE)
        self.tried.reset_mock()
        self.assertEqual(self.joined(self.program, names, most, data_layers), wanted)
        self.assertGreater(self.tried.call_count, 1)


class BesideTheWhole(ProgramTest):
    """Stacks that are written as here."""

    def test_random_stacks(self) -> None:
        for seed in range(_STACKS):
            made = Generator(seed, Style())
            layers = [list(map(without_redirect, made.layer().entries)) for _ in range((2, 5, 20)[seed % 3])]
            with self.subTest(seed=seed):
                self.require_same(layers, _BYTES[seed % 3] * (1 + seed // 3), seed % 2)

    def test_odd_names_and_deep_paths(self) -> None:
        root, odd = Entry("/", DIRECTORY, 0o755), list[Entry]()
        for number, name in enumerate(sorted(_ODD_NAMES, key=str.encode)):
            marks = {OPAQUE: b"y"} if number % 2 else {f'user.{name}","path":': b"1", "entries": b"[", "mtime-nsec": b""}
            odd += [
                Entry(f"/{name}", DIRECTORY, 0o755, attributes=marks), Entry(f"/{name}/entries", FILE, 0o600),
                Entry(f"/{name}/{name}", SYMLINK, 0o777, target=f'entries{name}","path":"/x"'),
            ]
        odd = sorted([root, *odd], key=lambda entry: rules.path_key(entry.path))
        deep = [root, *(Entry("/a" * depth, DIRECTORY, 0o700 + depth % 8) for depth in range(1, rules.MAX_NAMES + 1))]
        below = [*deep[:60], Entry("/a" * 59 + "/b", FILE, 0o644)]
        closed = [*(Entry(entry.path, DIRECTORY, 0o711) for entry in deep[:30]), Entry("/a" * 30, FILE, 0o644)]
        self.require_same([odd, [root], odd], 1)
        for layers in ([odd, closed, deep, below], [[root, Entry("/a", CHAR, 0)], *[below] * 40, deep]):
            self.require_same(layers, 3_000)


class OtherTexts(ProgramTest):
    """Manifests that are wrong, or written otherwise: what is said of them at once is said of their parts."""

    def test_other_forms(self) -> None:
        root = Entry("/", DIRECTORY, 0o755)
        lower = [root, *(Entry(path, DIRECTORY, 0o755) for path in ("/a", "/a/f", "/b", "/b/g", "/y", "/y/k"))]
        upper = [root, Entry("/a", DIRECTORY, 0o755, attributes={OPAQUE: b"y"}), Entry("/a/h", FILE, 0o644), Entry("/c", FILE, 0o644)]
        text = "".join(written(named(upper)))
        second, third, fourth = text.removesuffix('],"overlay-layer":2}\n').split(",{")[1:]
        for old, new in (
            ("}}", "}} "), ("\n", ""), ("\n", "\n\n"), (":2}", ":1}"), ('"/a"', '"\\u002fa"'), ('"path":"/a"', '"path": "/a"'),
            ('"path":"/a"', '"path":"/c","path":"/a"'), ('"path":"/a"', '"\\u0070ath":"/a"'), ('"/a/h"', '"/z"'),
            ("opaque", "redirect"), ("trusted.overlay.opaque", "trusted.overlay.redirec\\u0074"), (",{" + second, ""),
            (",{" + third, ",{" + third + ",{" + third), (f",{{{third},{{{fourth}", f",{{{fourth},{{{third}"),
            ('"xattrs":{"tr', '"xattrs":{"path":"00"},"xattrs":{"tr'), ('"/a/h"', '"/a\\/h"'), ('"gid":0,', ""), ('"mode":493', '"mode":-0'),
        ):
            with self.subTest(old=old, new=new):
                self.require_same_text(text.replace(old, new, 1), text, lower)

    def test_other_lists_inside(self) -> None:
        """Entries in the value of a member that is there twice aren't the layer's."""
        root, opaque = Entry("/", DIRECTORY, 0o755), Entry("/a", DIRECTORY, 0o755, attributes={OPAQUE: b"y"})
        lower = [root, Entry("/a", DIRECTORY, 0o755), *(Entry(f"/a/{name}", FILE, 0o600) for name in "ghijklz")]
        shown = [Entry(f"/a/{name}", FILE, 0o644) for name in "ghijkl"]
        text = "".join(written(named([root, Entry("/0", FILE, 0o644), opaque, *shown])))
        entries = [f"{{{entry}" for entry in text.split(",{")]
        opened, inner = entries[2], entries[4]  # `/a` and `/a/h`
        fakes = ",".join("".join(written(named([Entry(path, DIRECTORY, 0o755)])))[12:-21] for path in ("/A", "/a", "/a/0"))
        doubled = opened.replace('"gid":0,', "").replace('"xattrs":', f'"gid":0,"xattrs":[{{}},{fakes}],"xattrs":')
        front = "".join(written(named([root])))[:-21]
        for old, new in (
            (opened, doubled), (f",{inner}", f'],"overlay-layer":[{inner}'), (f",{inner}", f'],"entries":{front[11:]},{inner}'),
        ):
            with self.subTest(new=new):
                self.require_same_text(text.replace(old, new, 1), text, lower, 1_300)

    def require_same_text(self, text: str, before: str, lower: Sequence[Entry], most: int = 300) -> None:
        """A text in place of the upper layer's, which differs from what that was before."""
        self.assertNotEqual(text, before)
        names = self.write([[lower[0]], lower])
        with open(self.path(names[0]), "w", encoding="utf-8") as file:
            file.write(text)
        self.require_same_outcome(names, most)

    def test_spoilt(self) -> None:
        said = set[str]()
        for seed in range(_SPOILT):
            pick, made = random.Random(seed), Generator(seed, Style())
            layers = [list(map(without_redirect, made.layer().entries)) for _ in range(2)]
            names = self.write(layers)
            with open(self.path(pick.choice(names)), "r+b") as file:
                data = _spoilt(pick, file.read())
                file.seek(0)
                file.truncate()
                file.write(data)
            with self.subTest(seed=seed):
                said.add(re.sub(r"\d+", "N", self.require_same_outcome(names)[1].partition("\n")[0]))
        self.assertLessEqual({"", *map("ovl_layers: layer N: {}".format, _FAULTS)}, said)

    def require_same_outcome(self, names: Sequence[str], most: int = 300) -> tuple[bytes, str]:
        """The same report, or the same fault."""
        whole = self.outcome(lambda: run_program(self.program, words_of("show", names, "", ""), self.folder, _WHOLE, None), _WHOLE)
        with mock.patch.object(parts, "MOST_BYTES", most):
            self.assertEqual(self.outcome(lambda: run_show(self.program, names, self.folder, "joined"), "joined"), whole)
        return whole

    def outcome(self, show: Callable[[], object], report: str) -> tuple[bytes, str]:
        """The report, or else what is said."""
        messages = io.StringIO()
        with contextlib.redirect_stderr(messages):
            try:
                show()
            except Fault as fault:
                os.unlink(self.path(report))
                return b"", f"{messages.getvalue()}{fault.text} {fault.status}"
        return self.read(report), messages.getvalue()


class Memory(FolderTest):
    """What the program takes of parts as long as they are."""

    def test_bound(self) -> None:
        if not program_words():
            self.skipTest("the program isn't built")
        with open(self.path("l.json"), "wb") as file:
            subprocess.run([sys.executable, "-B", str(_GENERATE), "--entries", str(_ENTRIES)], stdout=file, check=True)
        program = noted(self.path("program"), self.path("peaks"))
        self.assertEqual(run_show(program, ["l.json"], self.folder, "joined"), f"entries {_ENTRIES}")
        peaks = peaks_in(self.path("peaks"))
        self.assertEqual(len(peaks), 3)
        self.assertLess(max(peaks), 32_000)  # KiB; at once it takes 57,000


def _spoilt(pick: random.Random, data: bytes) -> bytes:
    """A text with a few bytes changed, or with entries in other places."""
    if pick.random() < 0.5:
        at, more = pick.randrange(len(data)), pick.choice((b"", b"[", b"]", b"}", b'"', b",", b" ", b"\\", b"0", b"/", b"\xff"))
        return data[:at] + more + data[at + pick.randrange(3):]
    begin, *entries = data.split(b",{")
    entries, last = entries[:-1], entries[-1:]
    for _ in range(pick.randrange(1, 3)):
        if len(entries) > 1:
            one, other = sorted(pick.sample(range(len(entries)), 2))
            some = entries[one:other + 1]
            entries[one:other + 1] = pick.choice((some[:0], some * 2, some[::-1], some[:1]))
    return b",{".join([begin, *entries, *last])


if __name__ == "__main__":
    unittest.main()
