"""`ls` and `cat`: what they print, of which layer, beside the definitions, `find` and the trees that umoci unpacks."""

import gzip
import hashlib
import json
import os
import random
import shutil
import subprocess
import sys
import tarfile
import unittest
from dataclasses import replace
from unittest import mock

from images import archive, folder, member, put_index, put_manifest, write_layout
from plain_stacks import PlainStack, random_stack, text_of
from support import COMMAND, ROOT, FolderTest, call, program_words, run, why_no_trusted
from test_bounds import _contents
from test_diff import _NAMES, _entry, _fit, write_image

from convert.common.escaping import unescaped
from convert.look.places import Layers
from convert.model.entries import DIRECTORY, METACOPY, OPAQUE, REDIRECT, WHITEOUT, Entry, named
from convert.model.manifests import written

_STACKS = 400
_PAIRS = 8
_TIME = 1_700_000_000
_LAYERS = [
    [
        folder("./"), folder("etc"), member("etc/app", b"old"), member("etc/key", b"secret"), folder("etc/d"), member("etc/d/x", b"x"),
        member("gone", b"g" * 2_000),
    ],
    [
        member("etc/app", b"new!", mode=0o4755), member("etc/.wh.key"), folder("etc/d", mode=0o700), member("etc/d/.wh..wh..opq"),
        member("etc/d/y", b""), member(".wh.gone"),
    ],
    [
        member("a\n b", b"z" * 1_500), member("bin", kind=tarfile.SYMTYPE, target="/etc/d/..", mode=0o777),
        member("link", kind=tarfile.SYMTYPE, target="bin/app", mode=0o777), member("out", kind=tarfile.SYMTYPE, target="../../etc/app", mode=0o777),
        folder("s"), member("s/app", kind=tarfile.SYMTYPE, target="../s/../etc/./app", mode=0o777),
        member("s/root", kind=tarfile.SYMTYPE, target="/etc/app", mode=0o777),
        member("loop", kind=tarfile.SYMTYPE, target="loop", mode=0o777), member("null", kind=tarfile.CHRTYPE), member("hard", kind=tarfile.LNKTYPE, target="a\n b"),
    ],
]
_HISTORY = [{"created_by": "/bin/sh -c #(nop) ADD file:1 in / "}, {"created_by": "x", "empty_layer": True}, {"created_by": "RUN rm"}, {"created_by": None}]
_LISTED = """\
drwxr-xr-x     0     0     - 1970-01-01 00:00 0 /
-rw-r--r--     0     0  1.5K 1970-01-01 00:00 0 /a\\x0a b
lrwxrwxrwx     0     0     9 1970-01-01 00:00 0 /bin -> /etc/d/..
drwxr-xr-x     0     0     - 1970-01-01 00:00 1 /etc
-rwsr-xr-x     0     0     4 1970-01-01 00:00 1 /etc/app
drwx------     0     0     - 1970-01-01 00:00 1 /etc/d
-rw-r--r--     0     0     0 1970-01-01 00:00 1 /etc/d/y
-rw-r--r--     0     0  1.5K 1970-01-01 00:00 0 /hard
lrwxrwxrwx     0     0     7 1970-01-01 00:00 0 /link -> bin/app
lrwxrwxrwx     0     0     4 1970-01-01 00:00 0 /loop -> loop
crw-r--r--     0     0  1, 3 1970-01-01 00:00 0 /null
lrwxrwxrwx     0     0    13 1970-01-01 00:00 0 /out -> ../../etc/app
drwxr-xr-x     0     0     - 1970-01-01 00:00 0 /s
lrwxrwxrwx     0     0    17 1970-01-01 00:00 0 /s/app -> ../s/../etc/./app
lrwxrwxrwx     0     0     8 1970-01-01 00:00 0 /s/root -> /etc/app
"""
_BIN = ["lrwxrwxrwx     0     0            9 1970-01-01 00:00 0 /bin -> /etc/d/.."]
_REMOVED = """\
-rw-r--r--     0     0     3 1970-01-01 00:00 2 /etc/app (replaced by 1)
-rw-r--r--     0     0     1 1970-01-01 00:00 2 /etc/d/x (removed by 1)
-rw-r--r--     0     0     6 1970-01-01 00:00 2 /etc/key (removed by 1)
-rw-r--r--     0     0  2.0K 1970-01-01 00:00 2 /gone (removed by 1)
"""
_OF_A_LAYER = """\
drwxr-xr-x     0     0     - 1970-01-01 00:00 1 /
drwxr-xr-x     0     0     - 1970-01-01 00:00 1 /etc
-rwsr-xr-x     0     0     4 1970-01-01 00:00 1 /etc/app
drwx------     0     0     - 1970-01-01 00:00 1 /etc/d (opaque)
-rw-r--r--     0     0     0 1970-01-01 00:00 1 /etc/d/y
- /etc/key
- /gone
"""
_MEASURED = """
import sys
from unittest import mock
sys.path.insert(0, sys.argv[1])
from convert.cli import main
from convert.model import parts
parts.MOST_BYTES //= 25
with mock.patch("convert.common.program.find_program", return_value=sys.argv[2]):
    status = main(sys.argv[3:])
with open("/proc/self/status") as file:
    most = next(line.split()[1] for line in file if line.startswith("VmHWM"))
sys.stderr.write(f"{status} {most}")
"""
# A program, after which its most memory is in a file, or that of this script if it is more.
_NOTED = """#!{python} -BIS
import os, resource, sys
child = os.posix_spawn({program!r}, [{program!r}, *sys.argv[1:]], os.environ)
status = os.waitstatus_to_exitcode(os.waitpid(child, 0)[1])
with open({peaks!r}, "a") as file:
    print(resource.getrusage(resource.RUSAGE_CHILDREN).ru_maxrss, file=file)
sys.exit(status)
"""
_ENTRIES = 40_000
_FILES, _FILE_MEMORY = 40_000, 350  # bytes of a file in all processes, with what reading a long layer takes; if all is shown at once, 500


class Definitions(FolderTest):
    """Random stacks with every mark."""

    def test_layers(self) -> None:
        met = set[str]()
        for seed in range(_STACKS):
            layers, data_layers = random_stack(seed)
            if seed % 2:
                layers = [[without_redirect(entry) for entry in layer] for layer in layers]
            stack = PlainStack(layers, data_layers)
            found = self.layers(layers, stack, data_layers)
            wanted, used = list[tuple[str, int, int | None]](), set[tuple[int, str]]()
            for path in stack.paths():
                place, data = stack.shown(path), stack.contents(path)
                assert place is not None
                is_other = data is not None and data[0] != place[0]
                wanted.append((text_of(path), place[0], data[0] if data is not None and is_other else None))
                used |= {(number, text_of(inner)) for number, inner in ([place] if data is None else [place, data])}
                met.add("other" if is_other else "own")
            not_shown = {
                (entry.path, number) for number, layer in enumerate(layers) for entry in layer
                if entry.kind != DIRECTORY and not _is_whiteout(entry) and (number, entry.path) not in used
            }
            with self.subTest(seed=seed):
                self.assertEqual([(unescaped(it.line.path).decode(), it.layer, it.contents_layer) for it in found.shown()], wanted)
                places = list(found.not_shown())
                listed = [(unescaped(it.line.path).decode(), it.layer) for it in places]
                self.assertEqual((set(listed), len(listed)), (not_shown, len(not_shown)))
                self.assertEqual(listed, sorted(listed, key=lambda it: (it[0].split("/"), it[1])))
                by_top = [used_from(stack, top) for top in range(len(layers) + 1)]
                for place in places:
                    own = (place.layer, unescaped(place.line.path).decode())
                    hiders = [top for top in range(place.layer) if own in by_top[top + 1] and own not in by_top[top]]
                    if place.line.kind == "file" or seed % 2:
                        self.assertEqual([place.hidden_by] * (place.hidden_by is not None), hiders, own)
                    met.add("replaced" if place.is_replaced else "removed")
        self.assertEqual(met, {"own", "other", "replaced", "removed"})

    def layers(self, layers: list[list[Entry]], stack: PlainStack, data_layers: int) -> Layers:
        """The stack in files."""
        paths = [self.path(f"l{number}.json") for number in range(len(layers))]
        for path, layer in zip(paths, layers):
            with open(path, "w", encoding="utf-8") as file:
                file.writelines(written(named(layer)))
        with open(self.path("report"), "w", encoding="ascii") as file:
            file.writelines(stack.report())
        return Layers(paths, data_layers, self.path("report"))

    def test_data_that_went_with_a_metacopy_file(self) -> None:
        root = Entry("/", DIRECTORY, 0o755)
        moved = {METACOPY: b"", REDIRECT: b"/data"}
        layers = [
            [root, Entry("/f", "char", 0)], [root, Entry("/f", "file", 0o644, size=1, attributes=moved)],
            [root, Entry("/data", "file", 0o644, size=1, blob="0" * 64), Entry("/never", "file", 0o644)],
        ]
        for count, wanted in ((3, [("/data", 2, 0), ("/f", 1, 0), ("/never", 2, None)]), (2, [("/never", 1, None)])):
            found = self.layers(layers[-count:], PlainStack(layers[-count:], 1), 1)
            self.assertEqual([(it.line.path, it.layer, it.hidden_by) for it in found.not_shown()], wanted)

    def test_another_report(self) -> None:
        """Nothing is given of a report that isn't that of the layers, whichever line or field of it differs."""
        layers = [[Entry("/", DIRECTORY, 0o755), Entry("/d", DIRECTORY, 0o755), Entry("/d/f", "file", 0o644, size=1, blob="0" * 64)]]
        for more in ([], [Entry("/moved", DIRECTORY, 0o755, attributes={REDIRECT: b"d"})]):
            stack = PlainStack([[layers[0][0], *more], *layers], 0)
            found = self.layers([[layers[0][0], *more], *layers], stack, 0)
            lines = list(stack.report())
            for number, line in enumerate(lines[:-1]):
                for place, field in enumerate(line.split()):
                    if place == 8 or field == "-":
                        continue
                    other = line.split()
                    other[place] = {0: "symlink", 7: f"{field.rstrip('/')}/zz"}.get(place, "7" + field[1:])
                    with open(self.path("report"), "w", encoding="ascii") as file:
                        file.writelines([*lines[:number], " ".join(other) + "\n", *lines[number + 1:]])
                    with self.subTest(line=line, place=place), self.assertRaisesRegex(Exception, "shows something else at"):
                        list(found.shown())


def used_from(stack: PlainStack, top: int) -> set[tuple[int, str]]:
    """The entries that the layers from one down show, or whose contents they show."""
    places = {place for path in stack.paths(top) for place in (stack.shown(path, top), stack.contents(path, top))}
    return {(place[0], text_of(place[1])) for place in places if place is not None}


def without_redirect(entry: Entry) -> Entry:
    """The same entry, but a directory that was moved is opaque."""
    if entry.kind == DIRECTORY and REDIRECT in entry.attributes:
        return replace(entry, attributes={OPAQUE: b"y"})
    return replace(entry, attributes={name: value for name, value in entry.attributes.items() if name != REDIRECT})


def _is_whiteout(entry: Entry) -> bool:
    return entry.kind == "char" or WHITEOUT in entry.attributes


class ImageTest(FolderTest):
    """A test with a small image."""

    maxDiff = None

    def setUp(self) -> None:
        super().setUp()
        if not program_words():
            self.skipTest("the program isn't built")
        zone = mock.patch.dict(os.environ, TZ="UTC")
        zone.start()
        self.addCleanup(zone.stop)
        os.mkdir(self.path("image"))
        layers = [archive(self.members(layer)) for layer in _LAYERS]
        descriptor = put_manifest(self.path("image"), layers, layers, "linux/amd64", {"os": "linux", "architecture": "amd64", "history": _HISTORY})
        put_index(self.path("image"), [descriptor])

    def members(self, layer: list[tuple[tarfile.TarInfo, bytes]]) -> list[tuple[tarfile.TarInfo, bytes]]:
        """The entries of a layer, a device with its numbers."""
        for info, _ in layer:
            info.devmajor, info.devminor = 1, 3
        return layer


class Listed(ImageTest):
    """What `ls` prints."""

    def ls(self, *words: object, source: str = "image") -> str:
        """Runs it."""
        status, printed, messages = call("ls", self.path(source), *words)
        self.assertEqual((status, messages), (0, ""))
        return printed

    def test_lines(self) -> None:
        self.assertEqual(self.ls(), _LISTED)
        self.assertEqual(self.ls("-R"), _LISTED)
        self.assertEqual(self.ls("--removed"), _REMOVED)
        self.assertEqual(self.ls("--layer", 1), _OF_A_LAYER)
        for words, lines in (
            (["/etc"], _LISTED.splitlines()[3:7]), (["etc/d/"], _LISTED.splitlines()[5:7]), (["/bin/app"], _LISTED.splitlines()[4:5]),
            (["/bin"], _LISTED.splitlines()[2:3]), (["/bin/"], _LISTED.splitlines()[3:7]), (["--bytes", "--", "/bin"], _BIN), (["/etc", "--no-recursive"], _LISTED.splitlines()[3:6]),
            (["/etc/d", "--removed"], _REMOVED.splitlines()[1:2]), (["--layer", 1, "/etc/key"], ["- /etc/key"]),
        ):
            with self.subTest(words):
                self.assertEqual(self.ls(*words).splitlines(), lines)

    def test_forms(self) -> None:
        for words, line in (
            (["--full-time"], "-rw-r--r--     0     0  1.5K 1970-01-01 00:00:00.000000000 +0000 0 /a\\x0a b"),
            (["--bytes"], "-rw-r--r--     0     0         1500 1970-01-01 00:00 0 /a\\x0a b"),
            (["--long-layer"], "-rw-r--r--     0     0  1.5K 1970-01-01 00:00 0 -      /a\\x0a b"),
            (["--long-layer"], "-rwsr-xr-x     0     0     4 1970-01-01 00:00 1 RUN rm /etc/app"),
            (["--long-layer", "--removed"], "-rw-r--r--     0     0     3 1970-01-01 00:00 2 ADD /  /etc/app (replaced by 1 RUN rm)"),
        ):
            with self.subTest(words):
                self.assertIn(line, self.ls(*words).splitlines())

    def test_json(self) -> None:
        first, *found, last = map(json.loads, self.ls("--json", "--long-layer").splitlines())
        self.assertEqual((first, last), ({"layers-ls": 1}, {"entries": 15}))
        self.assertEqual(found[1], {
            "path": "/a\n b", "layer": 0, "made-by": None, "kind": "file", "mode": "0644", "uid": 0, "gid": 0, "mtime": "0", "size": 1500,
            "sha256": hashlib.sha256(b"z" * 1_500).hexdigest(),
        })
        lines = list(map(json.loads, self.ls("--json", "--layer", 1, "/etc/key").splitlines()))
        self.assertEqual([lines[1]["kind"], lines[1]["path"], lines[2]], ["whiteout", "/etc/key", {"entries": 1}])

    def test_other_sources(self) -> None:
        self.require_done(call("unpack", self.path("image"), "--out", self.path("stack"), "--digests-only"))
        self.assertEqual(self.ls(source="stack"), _LISTED)
        self.assertEqual(self.ls("--long-layer", source="stack"), self.ls("--long-layer"))
        self.assertEqual(call("ls", "--stack", self.path("stack"))[:2], (0, _LISTED))
        for name, layer in (("up:per.tar", _LAYERS[2]), ("lower.tar", [folder("./"), member("f", b"f")])):
            with open(self.path(name), "wb") as file:
                file.write(archive(layer))
        upper, lower = self.path("up:per.tar"), self.path("lower.tar")
        for words in (["ls", f"lowerdir={self.path('stack')}:{lower}"], ["ls", "--stack", lower, self.path("stack")]):
            self.require_fault(call(*words), 2, "stack is a folder that unpack wrote, a stack of its own and no layer")
        words = [f"lowerdir={upper}:{lower}".replace("up:", "up\\:")]
        result = call("ls", *words, "/f")
        self.assertEqual(result[:2], (0, "-rw-r--r--     0     0     1 1970-01-01 00:00 1 /f\n"))
        self.assertEqual(call("ls", "/f", "--stack", upper, lower), result)
        self.assertEqual(call("ls", "--stack", upper, lower, "--", "/f"), result)
        self.assertIn(f"1 {lower[:9]}", call("ls", "/f", "--long-layer", "--stack", upper, lower)[1])
        self.assertEqual(call("sizes", "--json", *words)[:2], call("sizes", "--json", "--stack", upper, lower)[:2])
        self.assertEqual(call("diff", *words, *words)[:2], (0, ""))

    def test_a_manifest_that_is_written_otherwise(self) -> None:
        self.require_done(call("unpack", self.path("image"), "--out", self.path("stack"), "--digests-only"))
        with open(self.path("stack", "l1.json"), "r+", encoding="utf-8") as file:
            value = json.load(file)
            file.seek(0)
            json.dump(value, file, indent=1)
        self.assertEqual(self.ls(source="stack"), _LISTED)
        with open(self.path("stack", "l1.json"), "a", encoding="utf-8") as file:
            file.write("x")
        self.assertEqual(call("ls", self.path("stack"))[:2], (3, ""))

    def test_as_many_links_as_a_kernel_follows(self) -> None:
        links = [member(f"l{number}", kind=tarfile.SYMTYPE, target=f"l{number - 1}", mode=0o777) for number in range(1, 42)]
        with open(self.path("links.tar"), "wb") as file:
            file.write(archive([folder("./"), folder("l0"), *links]))
        for number, said in ((40, "/l0 is a directory"), (41, "is reached by too many links")):
            self.require_fault(call("cat", f"l{number}", "--stack", self.path("links.tar")), 3, said)

    def test_faults(self) -> None:
        for words, status, said in (
            (["ls", "image", "/absent"], 3, "image shows nothing at /absent"), (["ls", "image", "/gone"], 3, "shows nothing at /gone"),
            (["ls", "image", "/etc/app/x"], 3, "/etc/app/x leads nowhere: /etc/app is no directory"),
            (["ls", "image", "/loop/x"], 3, "/loop is reached by too many links"), (["ls", "image", "--layer", "3"], 2, "--layer is 3, and there are 3 layers"),
            (["ls", "image", "--layer", "1", "--removed"], 2, "give one of them"), (["ls"], 2, "name an IMAGE, or layers"),
            (["ls", "image", "--layer", "1", "/absent"], 3, "there is nothing of layer 1 at /absent"),
            (["ls", "image", "--removed", "/bin"], 3, "there is nothing of a layer that isn't shown at /bin"),
            (["ls", "lowerdir=a::b:c"], 2, "data-only ones after :: each"), (["ls", "lowerdir=a:"], 2, "lowerdir=UPPER:LOWER"),
            (["ls", "lowerdir=a:b", "--data-layers", "1"], 2, "in lowerdir=a:b data-only layers come after ::"),
            (["ls", "/x", "y", "--stack", "image"], 2, "with --stack a PATH alone"),
            (["ls", "--stack", "a", "/etc"], 2, "/etc, as a PATH, comes before --stack"),
            (["cat", "--stack", "a", "/usr/lib/x"], 2, "/usr/lib/x, as a PATH, comes before --stack"), (["cat", "image", "/etc"], 3, "/etc is a directory"),
            (["cat", "image", "/null"], 3, "/null is a device"), (["cat", "image", "/loop"], 3, "/loop is reached by too many links"),
            (["cat", "image"], 2, "name the PATH of a file"),
        ):
            with self.subTest(words):
                os.chdir(self.folder)
                self.addCleanup(os.chdir, "/")
                result = call(*words)
                self.require_fault(result, status, said)
                self.assertEqual(result[1], "")


class Contents(ImageTest):
    """What `cat` prints."""

    def cat(self, *words: str, data: bytes | None = None, **more: object) -> bytes:
        """Runs it in a process of its own."""
        found = subprocess.run(
            [sys.executable, "-B", str(COMMAND), "cat", *words], input=data, cwd=self.folder, capture_output=True, check=False
        )
        self.assertEqual((found.returncode, found.stderr), (0, b""))
        return found.stdout

    def test_each_source(self) -> None:
        subprocess.run(["tar", "-C", self.path("image"), "-cf", self.path("image.tar"), "."], check=True)
        with open(self.path("image.tar"), "rb") as file:
            data = file.read()
        self.require_done(call("unpack", self.path("image"), "--out", self.path("stack")))
        with open(self.path("upper.tar.gz"), "wb") as file:
            file.write(gzip.compress(archive(_LAYERS[2])))
        stack = ["--stack", "upper.tar.gz", "stack/l1.json", "stack/l2.json", "--blobs", "stack/blobs"]
        self.assertEqual(self.cat("-", "/etc/app", data=gzip.compress(data)), b"new!")
        for words, wanted in (
            (["image", "/etc/app"], b"new!"), (["image.tar", "link"], b"new!"), (["image", "/out"], b"new!"), (["image", "s/app"], b"new!"), (["image", "s/root"], b"new!"), (["image", "/s/../bin/../etc/app"], b"new!"), (["image", "/bin/d/y"], b""),
            (["stack", "/hard"], b"z" * 1_500), (["image", "/hard"], b"z" * 1_500), (["image.tar", "a\n b"], b"z" * 1_500),
            (["/hard", *stack], b"z" * 1_500), (["/etc/app", *stack], b"new!"),
        ):
            with self.subTest(words):
                self.assertEqual(self.cat(*words), wanted)

    def test_a_folder_and_a_squashfs(self) -> None:
        if reason := why_no_trusted(self.folder):
            self.skipTest(reason)
        if shutil.which("tar2sqfs") is None:
            self.skipTest("needs tar2sqfs")
        os.makedirs(self.path("upper", "d"))
        with open(self.path("upper", "d", "f"), "wb") as file:
            file.write(b"f" * 100_000)
        subprocess.run(["tar2sqfs", "-q", self.path("low.squashfs")], input=archive(_LAYERS[0]), check=True, capture_output=True)
        for path, wanted in (("/d/f", b"f" * 100_000), ("/etc/key", b"secret")):
            self.assertEqual(self.cat(path, "--stack", "upper", "low.squashfs"), wanted)

    def test_faults(self) -> None:
        self.require_done(call("unpack", self.path("image"), "--out", self.path("stack"), "--digests-only"))
        self.require_fault(call("cat", self.path("stack"), "/etc/app"), 3, "it has no contents, as of --digests-only")
        shutil.rmtree(self.path("stack"))
        self.require_done(call("unpack", self.path("image"), "--out", self.path("stack")))
        digest = hashlib.sha256(b"new!").hexdigest()
        with open(self.path("stack", "blobs", digest), "wb") as file:
            file.write(b"old!")
        result = run("cat", self.path("stack"), "/etc/app")
        self.assertEqual((result.returncode, result.stdout), (3, ""))
        self.assertIn("it no longer has the contents of /etc/app", result.stderr)
        words = ["/etc/app", "--stack", self.path("stack", "l1.json"), self.path("stack", "l2.json")]
        self.require_fault(call("cat", *words), 3, "--blobs must name the folder of its contents")


class BesideFind(FolderTest):
    """Random images: the lines of `find` of the tree that umoci unpacks."""

    def test_lines(self) -> None:
        if shutil.which("umoci") is None:
            self.skipTest("needs umoci")
        if reason := why_no_trusted(self.folder):
            self.skipTest(reason)
        if not program_words():
            self.skipTest("the program isn't built")
        for seed in range(_PAIRS):
            pick = random.Random(seed)
            write_image(self.path("image"), [_fit([_entry(pick, name) for name in _NAMES]) for _ in range(2)])
            subprocess.run(["umoci", "raw", "unpack", "--image", f"{self.path('image')}:t", self.path("tree")], check=True, capture_output=True)
            with mock.patch.dict(os.environ, TZ="UTC"):
                printed = call("ls", self.path("image"), "--bytes")[1]
                wanted = subprocess.run(
                    ["find", "-mindepth", "1", "-printf", "%M %U %G %s %y %TY-%Tm-%Td %TH:%TM /%P %l\\n"], cwd=self.path("tree"),
                    capture_output=True, text=True, check=True,
                ).stdout
            with self.subTest(seed=seed):
                self.assertEqual(sorted(_found(printed)), sorted(_wanted(wanted)))
            self.empty()


def _found(printed: str) -> list[tuple[str, ...]]:
    """The fields of the lines of `ls`, without those that `find` doesn't have or the times of directories."""
    found = []
    for line in printed.splitlines()[1:]:
        mode, uid, gid, *size, date, clock, _, path = line.split(" -> ")[0].replace("sp ace", "sp_ace").split()
        target = line.partition(" -> ")[2]
        is_sized = mode[0] in "-l"
        found.append((mode, uid, gid, size[0] if is_sized else "", "" if mode[0] == "d" else f"{date} {clock}", path, target))
    return found


def _wanted(printed: str) -> list[tuple[str, ...]]:
    found = []
    for line in printed.splitlines():
        mode, uid, gid, size, kind, date, clock, path, *target = line.replace("sp ace", "sp_ace").replace("\x01", "\\x01").split(" ")
        found.append((mode, uid, gid, size if kind in "fl" else "", "" if kind == "d" else f"{date} {clock}", path, target[0]))
    return found


class Memory(FolderTest):
    """Of many entries few are held, in the converter and in the program, which gets parts as short as the stack is."""

    def test_bound(self) -> None:
        if not program_words():
            self.skipTest("the program isn't built")
        os.mkdir(self.path("stack"))
        made = subprocess.run(
            [sys.executable, "-B", str(ROOT / "tests" / "makers" / "generate.py"), "--entries", str(_ENTRIES)], capture_output=True, check=True
        ).stdout
        for number, data in enumerate((ROOT.joinpath("examples", "root.json").read_bytes(), made)):
            with open(self.path("stack", f"l{number}.json"), "wb") as file:
                file.write(data)
        with open(self.path("stack", "shown.links"), "wb"):
            pass
        for words in (["ls", self.path("stack")], ["diff", self.path("stack"), self.path("stack")]):
            lines, most, peaks = self.measured(*words)
            self.assertEqual(lines, _ENTRIES if words[0] == "ls" else 0)
            self.assertLess(most, 36_000, words)  # KiB, of which Python with its modules has 27,000; if all were held, 50,000
            self.assertGreater(len(peaks), 20)
            self.assertLess(max(peaks), 12_000, words)  # at once the program takes 20,000

    def test_images(self) -> None:
        """With the program they take little more for many files than for one."""
        if not program_words():
            self.skipTest("the program isn't built")
        for name, count in (("one", 1), ("many", _FILES)):
            write_layout(self.path(name), [gzip.compress(_contents(count), 1)])
        for words in (["ls"], ["diff"]):
            taken = []
            for name in ("one", "many"):
                _, most, peaks = self.measured(*words, *[self.path(name)] * (1 + (words == ["diff"])))
                taken.append(most + max(peaks))
            self.assertLess((taken[1] - taken[0]) * 1024, _FILE_MEMORY * _FILES, words)

    def measured(self, *words: str) -> tuple[int, int, list[int]]:
        """Runs a command. Gives how many lines it prints, and in KiB the most that it takes and that each of the program's runs does."""
        program = noted(self.path("program"), self.path("peaks"))
        command = [sys.executable, "-B", "-c", _MEASURED, str(ROOT), program, *words]
        done = subprocess.run(command, capture_output=True, text=True, check=True)
        status, most = map(int, done.stderr.splitlines()[-1].split())
        self.assertEqual(status, 0)
        return done.stdout.count("\n"), most, peaks_in(self.path("peaks"))


def noted(path: str, peaks: str) -> str:
    """Writes a script that runs the program, and notes in a file how much memory that took."""
    with open(path, "w", encoding="utf-8") as file:
        file.write(_NOTED.format(python=sys.executable, program=program_words()[0], peaks=peaks))
    os.chmod(path, 0o755)
    return path


def peaks_in(path: str) -> list[int]:
    """What is noted, in KiB, which is taken away."""
    with open(path, encoding="ascii") as file:
        found = list(map(int, file))
    os.unlink(path)
    return found


if __name__ == "__main__":
    unittest.main()
