"""`flatten`: its steps with a stand-in for the program, and its images with the program itself."""

import contextlib
import hashlib
import json
import os
import re
import shutil
import signal
import subprocess
import sys
import time
import unittest
from collections.abc import Iterator
from pathlib import Path
from unittest import mock

from images import archive, folder, member, packed, packed_by_zstd, put_index, put_manifest, write_layout, write_saved
from support import ROOT, FolderTest, call, left_stage, program_words, why_no_trusted

LAYERS = [
    [folder("./"), folder("d"), member("d/f", b"lowest"), member("d/g", b"g")],
    [member("d/.wh.g"), member("d/h", b"h"), member("d/h", b"second")],
    [folder("d"), member("d/f", b"topmost")],
]

# Takes the lower layer for what a merge makes, and the topmost for what the others make.
_STAND_IN = """#!/bin/sh
here={folder}
echo "$*" >> "$here/calls"
what=$1
shift
while [ "${{1#--}}" != "$1" ]; do
    [ "$1" = --any-size ] && shift && continue
    [ "$1" = --out ] && out=$2
    shift 2
done
. "$here/manner"
case $what in
    show) echo 'dir 0755 0 0 0 - - /'; echo 'entries 1' ;;
    fsck) echo 'faults 0 notes 0' ;;
    merge) cp "$1" "$out/layer-0.json" && cp "$2" "$out/layer-1.json" && echo 'entries 2' ;;
    *) cp "$1" "$out/layer-0.json" && echo "done $what" ;;
esac
"""

# Tells its number in a file that is there only with it.
_WAITS = "echo $$ > {0}.new; mv {0}.new {0}; exec sleep 60"


class FlattenTest(FolderTest):
    """A test with a folder `in` for what is given, and `all`, where images are written."""

    def setUp(self) -> None:
        super().setUp()
        self.hands = self.path("in")
        self.image = self.path("all", "image")
        os.mkdir(self.hands)
        os.mkdir(self.path("all"))
        write_layout(self.image, [archive(layer) for layer in LAYERS])

    def use(self, program: str) -> None:
        """Has the command find this program."""
        for name in ("convert.flatten.image.find_program", "convert.common.program.find_program"):
            patch = mock.patch(name, return_value=program)
            patch.start()
            self.addCleanup(patch.stop)

    def flatten(self, *words: object, image: str | None = None, out: str = "flat") -> tuple[int, str, str]:
        """Calls the command."""
        return call("flatten", image or self.image, "--out", self.path("all", out), *words)

    def left(self, *wanted: str) -> None:
        """The folder of images has only these."""
        self.assertEqual(sorted(os.listdir(self.path("all"))), sorted(("image", *wanted)))


class Steps(FlattenTest):
    """The order of the steps, and what is left if one fails."""

    def setUp(self) -> None:
        super().setUp()
        self.program = self.path("in", "ovl_layers")
        with open(self.program, "w", encoding="utf-8") as file:
            file.write(_STAND_IN.format(folder=self.hands))
        os.chmod(self.program, 0o755)
        self.manner("")
        self.use(self.program)

    def manner(self, text: str) -> None:
        """What the stand-in does otherwise, and no calls so far."""
        for name, lines in (("manner", text), ("calls", "")):
            with open(self.path("in", name), "w", encoding="utf-8") as file:
                file.write(lines)

    def calls(self) -> list[str]:
        """What the program was called with, without folders but for the last ones of layers."""
        with open(self.path("in", "calls"), encoding="utf-8") as file:
            return [" ".join(self._short(line.split())) for line in file]

    def _short(self, words: list[str]) -> Iterator[str]:
        yield words[0]
        yield from ("/".join(word.split("/")[-2:]) for word in words[1:] if word.endswith(".json"))

    def layers_of(self, image: str) -> int:
        """How many layers an image has."""
        shutil.rmtree(self.path("in", "stack"), ignore_errors=True)
        self.require_done(call("unpack", image, "--out", self.path("in", "stack")))
        return len(list(Path(self.path("in", "stack")).glob("l*.json")))

    def test_so_many_layers(self) -> None:
        given = self.path("in", "four")
        write_layout(given, [archive(layer) for layer in [*LAYERS, LAYERS[2]]])
        whole = "stack/l0.json stack/l1.json stack/l2.json stack/l3.json"
        lower = "stack/l1.json stack/l2.json stack/l3.json"
        begin = [f"fsck {whole}", f"vacuum {whole}"]
        merged = [
            *begin, f"merge vacuum/layer-0.json {lower}", "vacuum merged/layer-1.json stack/l3.json",
        ]
        for wanted, calls, new, left in (
            (1, [f"flatten {whole}"], "flatten/layer-0.json", 1),
            (2, merged, "vacuum-merged/layer-0.json stack/l3.json", 2),
            (4, begin, f"vacuum/layer-0.json {lower}", 4), (128, begin, f"vacuum/layer-0.json {lower}", 4),
        ):
            self.manner("")
            result = self.flatten("--layers", wanted, image=given)
            self.require_done(result)
            self.assertIn(f"{self.path('all', 'flat')}: {left} layer{'s'[:left > 1]} in place of 4, ", result[2])
            again = " ".join(f"again/l{number}.json" for number in range(left))
            self.assertEqual(self.calls(), [*calls, f"show {whole}", f"show {new}", f"show {again}"])
            self.assertEqual(self.layers_of(self.path("all", "flat")), left)
            self.left("flat")
            shutil.rmtree(self.path("all", "flat"))

    def test_an_image_of_one_layer(self) -> None:
        write_layout(self.path("in", "one"), [archive(LAYERS[0])])
        self.require_done(self.flatten(image=self.path("in", "one"), out="flat.tar"))
        self.assertEqual([words.split()[0] for words in self.calls()], ["flatten", "show", "show", "show"])
        self.left("flat.tar")

    def test_each_step_is_reported_with_its_time(self) -> None:
        several = ["fsck: faults 0 notes 0", "vacuum: done vacuum", "merge of 2 layers: entries 2"]
        several.append("vacuum of the merged layer: done vacuum")
        for left, steps in (("1 layer", ["flatten: done flatten"]), ("2 layers", several)):
            out = f"flat{left[0]}"
            messages = self.flatten("--layers", left[0], out=out)[2].splitlines()
            for line, begin in zip(messages, (
                "unpack: 3 layers", *steps, "show: entries 1", "show of the new layers: entries 1", f"pack: {left}",
                "the new image, read again: entries 1", f"{self.path('all', out)}: {left} in place of 3",
            ), strict=True):
                self.assertRegex(line, rf"^layers: {begin}(?:, .*\))?, \d+\.\d\d s")

    def test_layers_with_redirects_are_unfolded_first(self) -> None:
        moved = folder("new", pax={"SCHILY.xattr.trusted.overlay.redirect": "/d"})
        meta = member("d/f", pax={"SCHILY.xattr.trusted.overlay.metacopy": ""})
        write_layout(self.path("in", "marked"), [archive(layer) for layer in ([folder("d")], [meta], [moved], [moved])])
        # Once a layer is unfolded it has none.
        self.manner("""[ "$what" = deref ] && sed 's/"trusted[^,}]*"//' "$1" > "$out/layer-0.json" && exit 0""")
        self.require_done(self.flatten("--layers", 4, "--overlay-marks", image=self.path("in", "marked")))
        self.assertEqual([words for words in self.calls() if words.startswith("deref")], [
            "deref stack/l2.json stack/l3.json", "deref stack/l1.json deref-2/layer-0.json stack/l3.json",
            "deref vacuum/layer-0.json deref-1/layer-0.json deref-2/layer-0.json stack/l3.json",
        ])

    def test_standard_output(self) -> None:
        """Only the image goes there, faults of layers to standard error; nothing is left in the temporary folder."""
        os.environ["TMPDIR"] = self.path("in", "temporary")
        os.mkdir(os.environ["TMPDIR"])
        self.addCleanup(os.environ.pop, "TMPDIR")
        self.require_done(call("flatten", self.image, "--out", f"oci-archive:{self.path('all', 'wanted.tar')}:x:1"))
        wanted = Path(self.path("all", "wanted.tar")).read_bytes()
        tool = Path(self.path("in", "tool"))
        tool.write_text(f"""import sys
sys.path.insert(0, {str(ROOT)!r})
from unittest import mock
from convert import cli as command
with mock.patch("convert.common.program.find_program", return_value={self.program!r}):
    sys.exit(command.main(sys.argv[1:]))
""", encoding="utf-8")
        words = [sys.executable, "-B", tool, "flatten", self.image, "--out", "oci-archive:-:x:1"]
        result = subprocess.run(words, capture_output=True, check=False)
        self.assertTrue(result.stdout == wanted, result.stderr)
        self.assertIn(b"layers: standard output: 1 layer in place of 3, ", result.stderr)
        self.manner("[ $what = flatten ] && { echo report; exit 1; }")
        result = subprocess.run(words, capture_output=True, check=False)
        self.assertEqual((result.returncode, result.stdout), (1, b""))
        self.assertIn(b"\nreport\nlayers: ovl_layers flatten ended with status 1; nothing is written\n", result.stderr)
        self.manner("")
        script = call(*words[3:], "--dry-run")[1]
        result = subprocess.run(["sh"], input=script.encode(), capture_output=True, check=False)
        self.assertTrue(result.stdout == wanted, result.stderr)
        self.assertEqual(os.listdir(os.environ["TMPDIR"]), [])
        self.left("wanted.tar")

    def test_paths_that_begin_with_a_dash(self) -> None:
        with contextlib.chdir(self.path("all")):
            os.rename("image", "-image")
            self.addCleanup(os.rename, self.path("all", "-image"), self.image)
            self.require_done(call("flatten", "--out=-flat", "--keep=-kept", "--", "-image"))
            with open(self.path("in", "calls"), encoding="utf-8") as file:
                paths = [word for line in file for word in line.split()[1:] if word != "--any-size"]
            self.assertEqual({word for word in paths if word.startswith("-")}, {"--blobs", "--out"})
            self.assertIn("stack/l0.json", paths)
            self.assertTrue(os.path.exists("-kept/stack/l0.json"))
            script = call("flatten", "--out=-more", "--keep=-again", "--dry-run", "--", "-image")[1]
            subprocess.run(["sh"], input=script, text=True, capture_output=True, check=True)
            self.assertEqual(sorted(os.listdir()), ["-again", "-flat", "-image", "-kept", "-more"])
        shutil.rmtree(self.path("in", "stack"), ignore_errors=True)

    def test_a_refusal_is_printed_as_it_is(self) -> None:
        for what, status in (("flatten", 1), ("show", 3), ("fsck", 1), ("vacuum", 4), ("merge", 5)):
            for words in ((), ("--keep", self.path("in", "kept"))):
                self.manner(f"[ $what = {what} ] && {{ echo report; echo 'ovl_layers: because' >&2; exit {status}; }}")
                result = self.flatten(*words, "--layers", 1 if what in ("flatten", "show") else 2, out="flat.tar")
                self.assertEqual(result[:2], (status, "report\n" if status == 1 else ""), what)
                self.assertTrue(result[2].endswith(
                    f"\novl_layers: because\nlayers: ovl_layers {what} ended with status {status}; nothing is written\n"
                ), result[2])
                self.left()
            self.assertTrue(os.path.exists(self.path("in", "kept", "stack", "l2.json")))
            shutil.rmtree(self.path("in", "kept"))

    def test_a_program_that_can_not_be_run(self) -> None:
        with open(self.program, "w", encoding="utf-8") as file:
            file.write("#!/absent\n")
        self.require_fault_at_end(self.flatten(), 3, f"cannot run {self.program}: No such file or directory")
        self.left()

    def test_a_program_that_is_ended(self) -> None:
        self.manner("[ $what = flatten ] && kill -9 $$")
        self.require_fault_at_end(self.flatten(), 5, "ovl_layers flatten was ended by signal 9; nothing is written")
        self.left()

    def require_fault_at_end(self, result: tuple[int, str, str], status: int, text: str) -> None:
        """The last line is this fault."""
        self.assertEqual(result[0], status, result[2])
        self.assertTrue(result[2].endswith(f"layers: {text}\n"), result[2])

    def test_something_else_is_shown(self) -> None:
        for number in (2, 3):
            for out in ("flat", "flat.tar"):
                is_show = f'[ $what = show ] && [ $(grep -c ^show "$here/calls") = {number} ]'
                self.manner(f"{is_show} && {{ echo other; exit; }}")
                self.require_fault_at_end(
                    self.flatten(out=out), 5,
                    "the new layers show something else, so nothing is written; --keep DIR keeps both reports",
                )
                self.left()

    def test_what_is_there_is_refused_at_once(self) -> None:
        os.mkdir(self.path("all", "full"))
        os.mkdir(self.path("all", "full", "x"))
        os.mkfifo(self.path("all", "fifo.tar"))
        for out, words, status, reason in (
            ("full", (), 4, "it isn't empty"), ("fifo.tar", (), 4, "it is no regular file"),
            ("absent/flat", (), 4, "No such file"), ("flat", ("--keep", self.path("all", "full")), 4, "it isn't empty"),
            ("flat", ("--keep", self.path("all", "flat", ".")), 2, "--keep and --out must be two places"),
        ):
            self.require_fault(self.flatten(*words, out=out), status, reason)
            self.assertEqual(self.calls(), [])
        self.left("full", "fifo.tar")

    def test_what_may_be_there(self) -> None:
        os.mkdir(self.path("all", "empty"))
        for name in ("old.tar", "linked"):
            with open(self.path("in", name), "wb"):
                pass
        os.rename(self.path("in", "old.tar"), self.path("all", "old.tar"))
        os.symlink(self.path("in", "linked"), self.path("all", "link.tar"))
        for out in ("empty", "old.tar", "link.tar"):
            self.require_done(self.flatten(out=out))
            self.assertEqual(self.layers_of(self.path("all", out)), 1)
        self.left("empty", "old.tar", "link.tar")
        self.assertTrue(os.path.islink(self.path("all", "link.tar")))
        self.assertEqual(sorted(os.listdir(self.hands)), ["calls", "linked", "manner", "ovl_layers", "stack"])

    def test_stages_of_runs_that_were_cut_off(self) -> None:
        new, old = (left_stage(self.path("all"), age) for age in (0, 90_000))
        result = self.flatten(out="flat.tar")
        self.require_done(result)
        self.assertIn(f"layers: took away {old}, which a run that was cut off left over a day ago\n", result[2])
        self.assertIn(f"layers: there is {new}, the stage of a run that was cut off\n", result[2])
        self.left(os.path.basename(new), "flat.tar")

    def test_names(self) -> None:
        described = [put_manifest(self.image, [archive(layer)], None, "linux/amd64") for layer in LAYERS[:2]]
        put_index(self.image, [
            {**one, "annotations": {"org.opencontainers.image.ref.name": name}} for one, name in zip(described, "ab")
        ])
        result = self.flatten("--tag", "b")
        self.require_done(result)
        self.assertEqual(result[2].splitlines()[0], (
            "layers: --tag is --from-tag: which of several images is read; --name names a new one"
        ))
        self.require_done(self.flatten("--from-tag", "b", image=self.path("all", "flat"), out="again"))
        self.require_done(self.flatten(image=self.path("all", "flat"), out="more"))
        for name in ("flat", "again", "more"):
            with open(self.path("all", name, "index.json"), encoding="utf-8") as file:
                (listed,) = json.load(file)["manifests"]
            self.assertEqual(listed["annotations"], {"org.opencontainers.image.ref.name": "b"})
        self.require_done(self.flatten(image=f"oci:{self.image}:a", out="named"))
        with open(self.path("all", "named", "index.json"), encoding="utf-8") as file:
            self.assertIn('"a"', file.read())
        write_saved(self.path("in", "saved"), [archive(LAYERS[0])])
        self.require_done(self.flatten("--from-tag", "small", image=self.path("in", "saved"), out="saved"))
        with open(self.path("all", "saved", "index.json"), encoding="utf-8") as file:
            self.assertIn('"small:latest"', file.read())
        self.require_done(call("flatten", self.path("in", "saved"), "--out", f"oci:{self.path('all', 'own')}:x"))
        with open(self.path("all", "own", "index.json"), encoding="utf-8") as file:
            self.assertIn('"x"', file.read())

    def test_a_name_for_the_new_image(self) -> None:
        """That of --name or -t, or of --out; docker's list has it if docker takes it."""
        for words, out, name, docker, said in (
            (("--name", "shop:2"), "new.tar", "shop:2", ["shop:2"], None), (("-t", "shop"), "x", "shop", None, None),
            (("-t", "shop"), "x.tar", "shop", None, "layers: docker takes no name shop; shop:latest is one"),
            (("-t", "S:1"), "x.tar", "S:1", None, "layers: docker takes no name S:1"),
            (("-t", "a"), "oci-archive:o", "a", None, None), (("--name", "r/a"), "docker-archive:d", "r/a", ["r/a:latest"], None),
        ):
            transport, colon, path = out.rpartition(":")
            place = self.path("all", path)
            result = call("flatten", self.image, "--out", f"{transport}{colon}{place}", *words)
            self.require_done(result)
            self.assertEqual(next((line for line in result[2].splitlines() if "docker takes" in line), None), said)
            with contextlib.chdir(self.path("all")):
                if not os.path.isdir(path):
                    shutil.unpack_archive(path, "of", "tar")
                    os.unlink(path)
                folder = path if os.path.isdir(path) else "of"
                (listed,) = json.loads(Path(folder, "index.json").read_bytes())["manifests"]
                saved = Path(folder, "manifest.json")
                names = json.loads(saved.read_bytes())[0]["RepoTags"] if saved.exists() else None
                shutil.rmtree(folder)
            self.assertEqual((listed["annotations"], names), ({"org.opencontainers.image.ref.name": name}, docker))
        result = call("flatten", self.image, "--out", f"oci:{self.path('all', 'x')}:y", "--name", "z")
        self.require_fault(result, 2, ":y and --name give two names")
        self.left()

    def layers_in(self, *names: str) -> list[tuple[str, bytes]]:
        """The media types and bytes of an image's layers, the lowest first."""
        folder = self.path(*names)

        def blob(digest: str) -> bytes:
            return Path(folder, "blobs", *digest.split(":")).read_bytes()

        with open(f"{folder}/index.json", encoding="utf-8") as file:
            document = json.loads(blob(json.load(file)["manifests"][0]["digest"]))
        return [(it["mediaType"].rpartition("layer.v1.")[2], blob(it["digest"])) for it in document["layers"]]

    def test_packed_layers(self) -> None:
        """As the topmost given layer is, or as is asked for, by level too; the last line says how much is saved."""
        plain = [archive(layer) for layer in [*LAYERS[:2], [folder("d"), member("d/f", b"topmost" * 9_999)]]]
        by = {"none": bytes, "gzip": packed, "zstd": packed_by_zstd}
        sizes = []
        for number, (given, words, wanted) in enumerate((
            ("gzip", (), "tar+gzip"), ("none", (), "tar"), ("zstd", (), "tar+zstd"), ("gzip", ("--compress", "none"), "tar"),
            ("none", ("--compress", "gzip:1"), "tar+gzip"), ("none", ("--compress", "gzip:9"), "tar+gzip"),
            ("gzip", ("--compress", "zstd:19"), "tar+zstd"),
        )):
            if shutil.which("zstd") is None and "zstd" in f"{given} {words}":
                continue
            layers = [plain[0], packed(plain[1]), by[given](plain[2])]
            write_layout(self.path("in", str(number)), layers)
            for out in (f"{number}", f"{number}.tar"):
                result = self.flatten(*words, image=self.path("in", str(number)), out=out)
                self.require_done(result)
                self.assertRegex(result[2], r"1 layer in place of 3, .* in place of .*B \(\d+\.\d %\), ")
            ((kind, data),) = self.layers_in("all", str(number))
            self.assertEqual((kind, data[:2]), (wanted, by[wanted.partition("+")[2] or "none"](plain[0])[:2]))
            sizes.append(len(data))
            if not words and given == "none":
                share = 1_000 * len(data) // sum(map(len, layers))
                self.assertIn(f" ({share // 10}.{share % 10} %), ", result[2])
        self.assertGreater(sizes[-3], sizes[-2])

    def test_levels_that_there_are(self) -> None:
        for word, problem in (
            ("gzip:0", "gzip has levels 1 to 9"), ("gzip:10", "gzip has levels 1 to 9"), ("none:1", "none has no levels"),
            ("zstd:x", "it is a method, or one with its level, such as gzip:9"), ("bzip2", "bzip2 is none of none, gzip"),
            ("gzip:", "it is a method, or"), ("zstd:22", "--compress zstd:22 is for a squashfs alone"),
        ):
            status, printed, messages = self.flatten("--compress", word)
            self.assertEqual((status, printed), (2, ""), word)
            self.assertIn(problem, messages)
        self.left()

    def test_dry_run(self) -> None:
        given = self.path("in", "an image's $x")
        shutil.copytree(self.image, given)
        os.environ["TMPDIR"] = self.hands
        self.addCleanup(os.environ.pop, "TMPDIR")
        kept = ("--keep", self.path("in", "kept \"here\""))
        for words, keep in (((), ()), (("--layers", 2, "--platform", "linux/amd64", "--compress", "gzip"), kept)):
            self.manner("")
            status, script, messages = self.flatten(*words, *keep, "--dry-run", image=given)
            self.assertEqual((status, messages, self.calls()), (0, "", []))
            self.left()
            self.require_done(self.flatten(*words, image=given, out="wanted"))
            calls = self.calls()
            self.manner("")
            result = subprocess.run(["sh"], input=script, capture_output=True, text=True, check=False)
            self.assertEqual(result.returncode, 0, result.stderr)
            self.assertEqual(self.calls(), calls)
            self.assertEqual([name for name in os.listdir(self.hands) if name.startswith("tmp.")], [])
            written = []
            for name in ("flat", "wanted"):
                written.append(sorted(os.listdir(self.path("all", name, "blobs", "sha256"))))
                shutil.rmtree(self.path("all", name))
            self.assertEqual(*written)
        self.assertTrue(os.path.exists(self.path("in", "kept \"here\"", "before.show")))
        words = (*kept, "--overlay-marks", "--skip-unsupported", "--layers", 2, "--dry-run")
        self.assertIn("\n# here `ovl_layers deref` of each layer", self.flatten(*words)[1])

    def test_usage(self) -> None:
        for words in ((), ("x",), ("x", "--out", "y", "--layers", "0"), ("x", "--out", "y", "--layers", "129")):
            self.assertEqual(call("flatten", *words)[:2], (2, ""), words)


class Processes(FlattenTest):
    """A copy of the converter, which finds the program by itself."""

    def setUp(self) -> None:
        super().setUp()
        ignored = shutil.ignore_patterns("__pycache__")
        shutil.copytree(ROOT / "convert", self.path("in", "lib", "ovl_layers", "convert"), ignore=ignored)
        shutil.copy(ROOT / "layers", self.path("in", "lib", "ovl_layers", "layers"))

    def place(self, *names: str, says: str = "entries 1") -> None:
        """Puts a program somewhere."""
        path = self.path("in", *names)
        os.makedirs(os.path.dirname(path), exist_ok=True)
        with open(path, "w", encoding="utf-8") as file:
            file.write(f"#!/bin/sh\n{says}\n")
        os.chmod(path, 0o755)

    def words(self, *more: str) -> list[str]:
        """The words that run the command."""
        tool = self.path("in", "lib", "ovl_layers", "layers")
        return [sys.executable, "-B", tool, "flatten", self.image, "--out", self.path("all", "flat"), *more]

    def test_where_the_program_is_found(self) -> None:
        (path,) = {os.path.dirname(sys.executable)}
        environment = {**os.environ, "PATH": f"{self.path('in', 'path')}:{path}:/usr/bin:/bin"}

        def printed() -> str:
            result = subprocess.run(
                self.words("--dry-run"), capture_output=True, text=True, check=True, env=environment
            )
            (line,) = [line for line in result.stdout.splitlines() if " --any-size " in line]
            return line.split()[0]

        self.assertEqual(printed(), "ovl_layers")
        result = subprocess.run(self.words(), capture_output=True, text=True, check=False, env=environment)
        self.assertEqual(result.returncode, 3)
        self.assertIn("layers: the program ovl_layers is neither beside this one nor on the PATH; ", result.stderr)
        self.left()
        for names in (
            ("path", "ovl_layers"), ("bin", "ovl_layers"),
            ("lib", "ovl_layers", "crates", "ovl_layers", "out", "ovl_layers"),
        ):
            self.place(*names)
            self.assertEqual(printed(), self.path("in", *names))

    def test_interrupted(self) -> None:
        for number in (signal.SIGTERM, signal.SIGINT, signal.SIGHUP):
            for keep in ((), ("--keep", self.path("in", "kept"))):
                self.interrupt(number, *keep)
            self.assertEqual(sorted(os.listdir(self.path("in", "kept"))), ["flatten", "stack"])
            shutil.rmtree(self.path("in", "kept"))
        for words in (("--layers", "2"), ("--rootfs", "--form", "tar"), ("--platform", "all"), ("--exclude", "d")):
            self.interrupt(signal.SIGTERM, *words)

    def interrupt(self, number: signal.Signals, *words: str) -> None:
        """Has a signal end the command while it runs the program, which is ended too; nothing is left."""
        self.place("bin", "ovl_layers", says=_WAITS.format(self.path("in", "started")))
        with subprocess.Popen(
            self.words(*words), stderr=subprocess.DEVNULL,
            # A shell has commands in the background ignore it, and so all that they start.
            preexec_fn=lambda: signal.signal(signal.SIGINT, signal.SIG_DFL),
        ) as process:
            while process.poll() is None and not os.path.exists(self.path("in", "started")):
                time.sleep(0.01)
            process.send_signal(number)
        self.assertEqual(process.returncode, 128 + number, words)
        self.left()
        with open(self.path("in", "started"), encoding="utf-8") as file:
            self.assertFalse(os.path.exists(f"/proc/{int(file.read())}"))
        os.unlink(self.path("in", "started"))


class ImageTest(FlattenTest):
    """A test with the program itself."""

    def setUp(self) -> None:
        super().setUp()
        words = program_words()
        if not words:
            self.skipTest("the program isn't built")
        self.program = self.path("in", "ovl_layers")
        with open(self.program, "w", encoding="utf-8") as file:
            file.write(f"#!/bin/sh\nexec {' '.join(words)} \"$@\"\n")
        os.chmod(self.program, 0o755)
        self.use(self.program)

    def shown(self, image: str, *more: str) -> str:
        """What the layers of an image show."""
        stack = self.path("in", "stack")
        self.require_done(call("unpack", image, "--out", stack, *more))
        layers = [f"{stack}/l{number}.json" for number in range(len(list(Path(stack).glob("l*.json"))))]
        result = subprocess.run([self.program, "show", *layers], capture_output=True, text=True, check=True)
        words = [self.program, "fsck", "--any-size", "--blobs", f"{stack}/blobs", *layers]
        checked = subprocess.run(words, capture_output=True, check=False)
        self.assertEqual(checked.returncode, 0, checked.stdout)
        shutil.rmtree(stack)
        return result.stdout


class Images(ImageTest):
    """Images that the program flattens."""

    def test_a_small_image(self) -> None:
        made = self.path("in", "small")
        subprocess.run([sys.executable, "-B", str(ROOT / "examples" / "make_image.py"), made], check=True)
        for image in (self.image, made):
            wanted = self.shown(image)
            for layers in (1, 2):
                self.require_done(self.flatten("--layers", layers, image=image, out=f"flat{layers}.tar"))
                self.assertEqual(self.shown(self.path("all", f"flat{layers}.tar")), wanted)

    def test_contents_that_change_after_they_were_checked(self) -> None:
        """They are packed without being digested again, so reading the new image again reports them."""
        digest = hashlib.sha256(b"topmost").hexdigest()
        with open(self.program, encoding="utf-8") as file:
            real = file.read().replace("exec ", "")
        with open(self.program, "w", encoding="utf-8") as file:
            file.write(f"{real}[ $1 != show ] || printf TOPMOST > stack/blobs/{digest}\n")
        for out in ("flat", "flat.tar"):
            result = self.flatten("--keep", self.path("in", "kept"), out=out)
            self.require_fault((result[0], "", result[2].splitlines()[-1]), 5, "the new layers show something else")
            self.left()
            shutil.rmtree(self.path("in", "kept"))

    def test_faults_of_an_image(self) -> None:
        moved = folder("new", pax={"SCHILY.xattr.trusted.overlay.redirect": "/lost"})
        write_layout(self.path("in", "faulty"), [archive([folder("d")]), archive([moved])])
        result = self.flatten("--overlay-marks", image=self.path("in", "faulty"))
        self.assertEqual(result[:2], (
            1, "fault redirect-lost 0 /new\nfault redirect-open 0 /new\nfaults 2 notes 0\n"
        ), result[2])
        self.left()

    def test_marks_of_an_overlay_in_an_image(self) -> None:
        moved = folder("new", pax={"SCHILY.xattr.trusted.overlay.redirect": "/d"})
        meta = member("d/f", b"topmost", pax={"SCHILY.xattr.trusted.overlay.metacopy": ""})
        for redirected in ([moved, member(".wh.d")], [folder("d"), meta]):
            layers = [*LAYERS, redirected, [member("more", b"more")]]
            write_layout(self.path("in", "marked"), [archive(layer) for layer in layers])
            for marks in ((), ("--overlay-marks",)):
                wanted = self.shown(self.path("in", "marked"), *marks)
                for number in (1, 5):
                    self.require_done(self.flatten("--layers", number, *marks, image=self.path("in", "marked")))
                    self.assertEqual(self.shown(self.path("all", "flat")), wanted)
                    shutil.rmtree(self.path("all", "flat"))
            shutil.rmtree(self.path("in", "marked"))


class Umoci(ImageTest):
    """An image that umoci makes; the new one is the same to umoci and skopeo."""

    def setUp(self) -> None:
        super().setUp()
        for tool in ("umoci", "skopeo"):
            if shutil.which(tool) is None:
                self.skipTest(f"needs {tool}")
        reason = why_no_trusted(self.folder)
        if reason:
            self.skipTest(reason)

    def run_in(self, *words: str) -> str:
        """What a tool prints, run in the folder of what is given."""
        return subprocess.run(words, check=True, capture_output=True, text=True, cwd=self.hands).stdout

    @contextlib.contextmanager
    def layer(self) -> Iterator[str]:
        """The root of a bundle; what is changed in it becomes a layer."""
        root = self.path("in", "bundle", "rootfs")
        yield root
        for path in (root, f"{root}/etc"):
            os.utime(path, (1_700_000_000, 1_700_000_000))
        self.run_in("umoci", "repack", "--refresh-bundle", "--image", "made:small", "bundle")

    def make(self) -> None:
        """An image of three layers, with a configuration."""
        self.run_in("umoci", "init", "--layout", "made")
        self.run_in("umoci", "new", "--image", "made:small")
        self.run_in("umoci", "unpack", "--image", "made:small", "bundle")
        with self.layer() as root:
            for name in ("etc/app", "srv/data", "usr/bin"):
                os.makedirs(f"{root}/{name}")
            for name in ("etc/shadow", "etc/app/a", "etc/app/b", "srv/data/x", "usr/bin/tool"):
                self.write(f"{root}/{name}")
            os.chmod(f"{root}/usr/bin/tool", 0o4755)
            os.chmod(f"{root}/srv", 0o700)
            os.chown(f"{root}/srv", 33, 33)
            os.symlink("../usr/bin/tool", f"{root}/etc/tool")
            os.mknod(f"{root}/etc/null", 0o20666, os.makedev(1, 3))
        with self.layer() as root:
            os.unlink(f"{root}/etc/app/a")
            os.chmod(f"{root}/etc/shadow", 0o640)
            shutil.rmtree(f"{root}/srv/data")
            os.symlink("../etc", f"{root}/srv/data")
            os.setxattr(f"{root}/usr/bin/tool", "user.note", b"2")
        with self.layer() as root:
            shutil.rmtree(f"{root}/etc/app")
            os.mkdir(f"{root}/etc/app", 0o711)
            self.write(f"{root}/etc/app/c")
            self.write(f"{root}/usr/bin/new")
        self.run_in(
            "umoci", "config", "--image", "made:small", "--config.cmd", "/usr/bin/tool", "--config.user", "33:33",
            "--config.env", "A=b", "--config.workingdir", "/srv", "--config.label", "org.example=1", "--config.volume",
            "/srv", "--config.exposedports", "80/tcp", "--author", "A. Uthor", "--architecture", "arm64",
        )

    def write(self, path: str) -> None:
        """Writes a file that holds its own name."""
        with open(path, "w", encoding="utf-8") as file:
            file.write(os.path.basename(path))

    def tree(self, image: str, bundle: str) -> str:
        """The tree that umoci makes of an image."""
        self.run_in("umoci", "unpack", "--image", f"{image}:small", bundle)
        status, printed, messages = call("mounted", self.path("in", bundle, "rootfs"))
        self.assertEqual(status, 0, messages)
        return printed

    def configuration(self, image: str) -> dict[str, object]:
        """The configuration that skopeo prints of an image, but for its layers."""
        messages = json.loads(self.run_in("skopeo", "inspect", "--config", f"oci:{image}:small"))
        return {name: value for name, value in messages.items() if name not in ("rootfs", "history")}

    def test_trees_and_configurations(self) -> None:
        self.make()
        tree, configuration = self.tree("made", "bundle-of-made"), self.configuration("made")
        self.assertEqual(configuration["config"]["Cmd"], ["/usr/bin/tool"])  # type: ignore[index]
        for layers in (1, 2):
            flat = self.path("all", f"flat{layers}")
            self.require_done(self.flatten("--layers", layers, image=self.path("in", "made"), out=f"flat{layers}"))
            self.assertEqual(self.tree(flat, f"bundle-{layers}"), tree)
            self.assertEqual(self.configuration(flat), configuration)

    def test_root_file_systems(self) -> None:
        """Each form of one, unpacked by its own tool, is the tree that umoci makes; without what is excluded, too."""
        for tool in ("tar2sqfs", "sqfs2tar", "unsquashfs"):
            if shutil.which(tool) is None:
                self.skipTest(f"needs {tool}")
        self.make()
        tree = self.tree("made", "bundle-of-made")
        left = [line for line in tree.splitlines(True) if " /usr" not in line]
        for words, wanted in (((), tree), (("--exclude", "/usr"), "".join(left[:-1]) + f"entries {len(left) - 1}\n")):
            for out in ("root", "root.tar", "root.squashfs"):
                self.require_done(self.flatten("--rootfs", *words, image=self.path("in", "made"), out=out))
                place = self.path("all", "root")
                if out != "root":
                    os.mkdir(place)
                    unpack = {
                        "root.tar": ["tar", "--xattrs", "--xattrs-include=*", "-xpf", self.path("all", out), "-C", place],
                        "root.squashfs": ["unsquashfs", "-f", "-d", place, self.path("all", out)],
                    }
                    self.run_in(*unpack[out])
                    os.unlink(self.path("all", out))
                status, printed, messages = call("mounted", place)
                self.assertEqual(status, 0, messages)
                self.assertEqual(without_fractions(printed), without_fractions(wanted), out)
                shutil.rmtree(place)


def without_fractions(report: str) -> str:
    """A report with times in whole seconds, as a squashfs has them."""
    return re.sub(r"(?m)^(\S+ \S+ \S+ \S+ \d+)\+\d+", r"\1", report)


if __name__ == "__main__":
    unittest.main()
