"""Another user, and another run, at each moment of a run: nothing that isn't its own is touched, and nothing is mixed."""

import json
import os
import shutil
import stat
import time
import unittest
from collections.abc import Callable, Iterator
from unittest import mock

from images import archive, folder, member, write_layout
from interleaving import MOVES, NOBODY, READS, WRITES, as_nobody, moments, run_with
from support import FolderTest, call, run_as_anybody

LAYER = archive([
    folder("./"), folder("d", mode=0o755), member("d/f", b"lower"), folder("t", mode=0o1777), member("s", b"s", mode=0o4755),
])
SECRET = b"of root alone"
# The program's stand-in: what it shows is always the same, and it makes a copy of the topmost layer.
_STAND_IN = """#!/bin/sh
what=$1
shift
while [ "${1#--}" != "$1" ]; do
    [ "$1" = --any-size ] && shift && continue
    [ "$1" = --out ] && out=$2
    shift 2
done
case $what in
    show) echo 'dir 0755 0 0 0 - - /'; echo 'entries 1' ;;
    *) cp "$1" "$out/layer-0.json" && echo "done $what" ;;
esac
"""


def state_of(path: str) -> Iterator[tuple[object, ...]]:
    """All that is at a path and below it, but for times of reading."""
    found = os.lstat(path)
    yield path, found.st_mode, found.st_uid, found.st_gid, found.st_mtime_ns, found.st_ino, os.listxattr(path)
    if stat.S_ISDIR(found.st_mode):
        for name in sorted(os.listdir(path)):
            yield from state_of(os.path.join(path, name))
    elif stat.S_ISREG(found.st_mode):
        with open(path, "rb") as file:
            yield (file.read(),)


def copied(source: str, target: str) -> None:
    """Copies a folder with what it is dressed with, as it was."""
    shutil.copytree(source, target, symlinks=True)


class OthersTest(FolderTest):
    """An image, its layer, the layer's folder, and the program's stand-in; a folder of another user."""

    def setUp(self) -> None:
        super().setUp()
        os.chmod(self.folder, 0o711)
        write_layout(self.path("image"), [LAYER])
        self.require_done(call("unpack", self.path("image"), "--out", self.path("stack")))
        self.require_done(call("unpack", self.path("image"), "--out", self.path("digests"), "--digests-only"))
        program = self.path("ovl_layers")
        with open(program, "w", encoding="utf-8") as file:
            file.write(_STAND_IN)
        os.chmod(program, 0o755)
        self.enterContext(mock.patch("convert.common.program.find_program", return_value=program))
        self.layer = [self.path("stack", "l0.json"), "--blobs", self.path("stack", "blobs")]

    def commands(self) -> Iterator[tuple[str, list[str], frozenset[str]]]:
        """Commands that write folders and files, each with the ending of what it writes, and which moments it is tried at.

        What lies in a stage is only the run's, so of those that work long in one only moves are taken.
        """
        config = ["--config", self.path("stack", "config.json")]
        yield "", ["unpack", self.path("image")], WRITES
        yield "", ["build", *self.layer], WRITES
        yield "", ["pack", *self.layer, *config], WRITES
        yield ".tar", ["pack", *self.layer, *config], WRITES
        yield "", ["flatten", self.path("image")], MOVES
        yield ".tar", ["flatten", self.path("image")], MOVES
        yield "", ["flatten", "--stack", *self.layer, "--userxattr"], MOVES
        if shutil.which("tar2sqfs"):
            yield ".squashfs", ["build", *self.layer], WRITES

    def remake(self, path: str, owner: int) -> None:
        """An empty folder of an owner, in place of what was there."""
        shutil.rmtree(path, ignore_errors=True)
        os.mkdir(path, 0o755)
        os.chown(path, owner, owner)


@unittest.skipIf(os.geteuid() != 0, "needs root, for a second user")
class AnotherUser(OthersTest):
    """Root writes into a folder of another user, who moves what is there meanwhile, and puts other things there."""

    def setUp(self) -> None:
        super().setUp()
        self.home, self.victim = self.path("home"), self.path("victim")
        os.makedirs(os.path.join(self.victim, "inner"), 0o700)
        for name in ("secret", "inner/more", "f"):
            with open(os.path.join(self.victim, name), "wb") as file:
                file.write(SECRET)

    def put_links(self) -> None:
        """Has all that is there lead to a folder of root's."""
        for name in os.listdir(self.home):
            os.rename(f"{self.home}/{name}", f"{self.home}/aside-{name}")
            os.symlink(self.victim, f"{self.home}/{name}")

    def put_folders(self) -> None:
        """Puts folders of its own there, with a link inside."""
        for name in os.listdir(self.home):
            os.rename(f"{self.home}/{name}", f"{self.home}/aside-{name}")
            os.mkdir(f"{self.home}/{name}", 0o777)
            for inner in ("blobs", "d", "root", "file", "s", "secret"):
                os.symlink(self.victim, f"{self.home}/{name}/{inner}")

    def swap_names(self) -> None:
        """Has folders change their names, as far as they are there."""
        for one, other in (("d", "t"), ("blobs", "d")):
            if os.path.lexists(f"{self.home}/{one}") and os.path.lexists(f"{self.home}/{other}"):
                os.rename(f"{self.home}/{one}", f"{self.home}/aside")
                os.rename(f"{self.home}/{other}", f"{self.home}/{one}")
                os.rename(f"{self.home}/aside", f"{self.home}/{other}")

    def require_untouched(self, words: list[str], out: str, calls: frozenset[str], act: Callable[[], None]) -> None:
        """Whatever the other user does, and whenever: nothing of root's is changed or shown."""
        before = list(state_of(self.victim))

        def run() -> tuple[int, str, str]:
            return call(*words, "--out", out)

        self.remake(self.home, NOBODY)
        for number in moments(run, calls):
            self.remake(self.home, NOBODY)
            status, _, messages = run_with(run, number, lambda: as_nobody(act), calls)
            with self.subTest(words=words, out=out, act=act.__name__, moment=number):
                self.assertEqual(list(state_of(self.victim)), before)
                self.assertNotIn((SECRET,), list(state_of(self.home)))
                self.assertNotIn("Traceback", messages)
                self.assertIn(status, (0, 3, 4))

    def test_a_folder_in_its_home(self) -> None:
        for ending, words, calls in self.commands():
            for act in (self.put_links, self.put_folders):
                self.require_untouched(words, f"{self.home}/out{ending}", calls, act)

    def test_its_home_itself(self) -> None:
        for ending, words, calls in self.commands():
            for act in (self.put_links, self.put_folders) if not ending else ():
                self.require_untouched(words, self.home, calls, act)

    def test_a_manifest_and_blobs(self) -> None:
        words = ["scan", self.victim, "--userxattr", "--workers", "1", "--blobs", f"{self.home}/blobs"]
        for act in (self.put_links, self.put_folders):
            self.require_untouched(words[:-2] + ["--digests-only"], f"{self.home}/l0.json", WRITES, act)

    def test_no_folder_is_dressed_as_another(self) -> None:
        """What is moved up is dressed as itself, even if it has another name by then."""
        words = ["build", *self.layer, "--out", self.home]
        self.remake(self.home, NOBODY)
        for number in moments(lambda: call(*words)):
            self.remake(self.home, NOBODY)
            status, _, messages = run_with(lambda: call(*words), number, lambda: as_nobody(self.swap_names))
            with self.subTest(moment=number):
                for path, *_ in (found for found in state_of(self.home) if len(found) > 1):
                    found = os.lstat(str(path))
                    if stat.S_IMODE(found.st_mode) == 0o1777:
                        self.assertEqual(os.listdir(str(path)), [])
                self.assertEqual(status in (0, 4), True, messages)

    def test_a_link_of_another_user(self) -> None:
        for ending, words, _ in self.commands():
            self.remake(self.home, NOBODY)
            out = f"{self.home}/out{ending}"
            target = f"{self.victim}/f" if ending else self.path("empty")
            if not ending:
                self.remake(target, 0)
            as_nobody(lambda: os.symlink(target, out))  # pylint: disable=cell-var-from-loop
            before = list(state_of(target))
            with self.subTest(words=words, out=out):
                self.require_fault(call(*words, "--out", out), 4, f"cannot write {out}: it is a link")
                self.assertEqual(list(state_of(target)), before)

    def test_images_are_private(self) -> None:
        self.remake(self.home, 0)
        mask = os.umask(0)
        try:
            self.require_done(call("pack", *self.layer, "--out", self.home))
        finally:
            os.umask(mask)
        for path, *_ in (found for found in state_of(f"{self.home}/blobs") if len(found) > 1):
            self.assertEqual(os.lstat(str(path)).st_mode & 0o077, 0, path)


@unittest.skipIf(os.geteuid() != 0, "needs root, for owners")
class AnotherRun(OthersTest):
    """Two runs into one place, and files that come meanwhile."""

    def test_one_wins_whole(self) -> None:
        out = self.path("out")
        for ending, words, calls in self.commands():
            for is_there in (False, True) if not ending else ():
                self.require_one_whole([*words, "--out", out], out, calls, is_there)

    def require_one_whole(self, words: list[str], out: str, calls: frozenset[str], is_there: bool) -> None:
        """Of two runs of one command, of which one begins and ends at a moment of the other."""

        def run() -> tuple[int, str, str]:
            return call(*words)

        self.make_out(out, is_there)
        numbers, whole = moments(run, calls), sorted(os.listdir(out))
        for number in numbers:
            self.make_out(out, is_there)
            runs: list[tuple[int, str, str]] = []
            runs.append(run_with(run, number, lambda: runs.append(run()), calls))
            with self.subTest(words=words, is_there=is_there, moment=number):
                self.assertEqual(sorted(run[0] for run in runs), [0, 4], runs)
                (messages,) = (run[2] for run in runs if run[0] == 4)
                self.assertEqual(messages.splitlines()[-1].count(f"layers: cannot write {out}: "), 1, messages)
                self.assertEqual(sorted(os.listdir(out)), whole)
                self.require_no_stage()

    def test_what_comes_meanwhile(self) -> None:
        """It stays as it is, and the run fails and leaves nothing of its own, unless it was done before."""
        out = self.path("out")

        def put() -> None:
            for name in ("blobs/precious", "config.json", "d", "index.json"):
                if not os.path.lexists(f"{out}/{name.split('/')[0]}"):
                    os.makedirs(os.path.dirname(f"{out}/{name}"), exist_ok=True)
                    with open(f"{out}/{name}", "wb") as file:
                        file.write(SECRET)
                    put_there.append(name)

        put_there: list[str] = []
        for ending, words, calls in self.commands():
            for is_there in (False, True) if not ending else ():
                self.make_out(out, is_there)
                for number in moments(lambda: call(*words, "--out", out), calls):
                    self.make_out(out, is_there)
                    put_there.clear()
                    status, _, messages = run_with(lambda: call(*words, "--out", out), number, put, calls)
                    with self.subTest(words=words, is_there=is_there, moment=number):
                        for name in put_there:
                            with open(f"{out}/{name}", "rb") as file:
                                self.assertEqual(file.read(), SECRET)
                        if status != 0:
                            self.assertEqual(status, 4, messages)
                            self.assertLessEqual(
                                {name for name in os.listdir(out)}, {"blobs", "config.json", "d", "index.json"}
                            )
                        self.require_no_stage()

    def make_out(self, out: str, is_there: bool) -> None:
        """Takes away what was written, and has an empty folder there or none."""
        shutil.rmtree(out, ignore_errors=True)
        if is_there:
            os.mkdir(out)

    def require_no_stage(self) -> None:
        """No run has left anything half made."""
        found = [name for place, _, _ in os.walk(self.folder) for name in os.listdir(place)]
        self.assertEqual([name for name in found if name.startswith(".layers-")], [])


class OwnFiles(OthersTest):
    """A user's files whose names begin as those of stages do."""

    def setUp(self) -> None:
        super().setUp()
        names = (
            ".layers-project/src/a.c", ".layers-todo", ".layers-0123456789abcdef/a.c", ".layers-0123456789ABCDEF",
            ".layers-0123456789abcde", ".layers-0123456789abcdef0/x", ".layers-00000000000000aa",
        )
        self.old = time.time() - 1_000_000
        for name in names:
            os.makedirs(os.path.dirname(self.path("home", name)), exist_ok=True)
            with open(self.path("home", name), "wb") as file:
                file.write(SECRET)
        for name in os.listdir(self.path("home")):
            os.utime(self.path("home", name), (self.old, self.old))

    def test_they_stay(self) -> None:
        before = list(state_of(self.path("home")))[1:]
        page = ["sizes", self.path("image")]
        with mock.patch("tempfile.tempdir", self.path("home")):
            for ending, words, _ in [*self.commands(), ("", page, MOVES)]:
                out = self.path("home", f"out{ending}")
                result = call(*words, *(["--out", out] if words is not page else ["--json"]))
                with self.subTest(words=words):
                    self.assertNotIn("took away", result[2])
                shutil.rmtree(out, ignore_errors=True)
                if os.path.lexists(out):
                    os.unlink(out)
                self.assertEqual(list(state_of(self.path("home")))[1:], before)


@unittest.skipIf(os.geteuid() != 0, "needs root, to become a user without rights")
class WithoutRights(OthersTest):
    """`build` by a user who is no root, of directories that not even their owner may write to."""

    def setUp(self) -> None:
        super().setUp()
        for place, folders, files in os.walk(self.path("stack")):
            for name in (place, *(os.path.join(place, name) for name in folders + files)):
                os.chmod(name, 0o755)
        self.home = self.path("home")
        self.remake(self.home, NOBODY)
        with open(self.path("stack", "l0.json"), encoding="utf-8") as file:
            layer = json.load(file)
        for entry in layer["entries"]:
            entry["uid"] = entry["gid"] = NOBODY
            if entry["path"] in ("/d", "/", "/t"):
                entry["mode"] = 0o555
        with open(self.path("stack", "l0.json"), "w", encoding="utf-8") as file:
            json.dump(layer, file)
        os.unlink(self.path("stack", "l0.links"))

    def test_directories_that_are_not_to_be_written(self) -> None:
        os.mkdir(f"{self.home}/there")
        os.chown(f"{self.home}/there", NOBODY, NOBODY)
        for name in ("there", "new"):
            result = run_as_anybody("build", *self.layer, "--out", f"{self.home}/{name}")
            self.assertEqual((result.returncode, result.stderr), (0, ""))
            self.assertEqual(sorted(os.listdir(f"{self.home}/{name}")), ["d", "s", "t"])
            for inner in ("", "/d", "/t"):
                self.assertEqual(stat.S_IMODE(os.lstat(f"{self.home}/{name}{inner}").st_mode), 0o555)

    def test_a_run_that_fails_leaves_nothing(self) -> None:
        blobs = self.path("stack", "blobs")
        for name in os.listdir(blobs):
            if os.path.getsize(f"{blobs}/{name}") == 1:
                with open(f"{blobs}/{name}", "wb") as file:
                    file.write(b"x")
        result = run_as_anybody("build", *self.layer, "--out", f"{self.home}/new")
        self.assertEqual(result.returncode, 3, result.stderr)
        self.assertEqual(os.listdir(self.home), [])


@unittest.skipIf(os.geteuid() != 0, "needs root, for owners")
class ChangedMeanwhile(FolderTest):
    """`scan` of a folder in which files change: what the manifest states was all true at one moment."""

    def setUp(self) -> None:
        super().setUp()
        self.home = self.path("home")
        self.words = (
            "scan", self.home, "--out", self.path("l.json"), "--blobs", self.path("blobs"), "--userxattr",
            "--workers", "1",
        )

    def make(self) -> None:
        """A folder of another user, with a file of root's that any may run as root."""
        self.empty()
        os.makedirs(f"{self.home}/d")
        for name, data, owner, mode in (("z", b"good", 0, 0o4755), ("d/f", b"good", NOBODY, 0o644), ("e", b"", 0, 0o644)):
            path = f"{self.home}/{name}"
            with open(path, "wb") as file:
                file.write(data)
            os.chown(path, owner, owner)
            os.chmod(path, mode)
            os.utime(path, ns=(1, 1))

    def require_true(self, act: Callable[[], None], may_be: set[tuple[object, ...]]) -> None:
        """Whenever it happens, a manifest is refused or states one of these."""
        self.make()
        for number in moments(lambda: call(*self.words), READS):
            self.make()
            status, _, messages = run_with(lambda: call(*self.words), number, act, READS)
            with self.subTest(act=act.__name__, moment=number):
                if status != 0:
                    self.assertEqual((status, messages.count("meanwhile")), (3, 1), messages)
                    continue
                with open(self.path("l.json"), encoding="utf-8") as file:
                    entries = {entry["path"]: entry for entry in json.load(file)["entries"]}
                entry = entries["/z"]
                with open(self.path("blobs", entry["blob"]), "rb") as blob:
                    self.assertIn((entry["mode"], entry["uid"], entry.get("mtime-nsec", 0), blob.read()), may_be)

    def test_another_users_file(self) -> None:
        def replace_z() -> None:
            with open(f"{self.home}/new", "wb") as file:
                file.write(b"evil")
            os.chown(f"{self.home}/new", NOBODY, NOBODY)
            os.chmod(f"{self.home}/new", 0o755)
            os.utime(f"{self.home}/new", ns=(1, 1))
            os.rename(f"{self.home}/new", f"{self.home}/z")

        self.require_true(replace_z, {(0o4755, 0, 1, b"good"), (0o755, NOBODY, 1, b"evil")})

    def test_written_anew(self) -> None:
        def write_z() -> None:
            with open(f"{self.home}/z", "r+b") as file:
                file.write(b"next")
            os.chmod(f"{self.home}/z", 0o4755)
            os.utime(f"{self.home}/z", ns=(2, 2))

        self.require_true(write_z, {(0o4755, 0, 1, b"good"), (0o4755, 0, 2, b"next")})


if __name__ == "__main__":
    unittest.main()
