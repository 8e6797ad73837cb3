"""What the launcher prints if nothing is built; how it proves, builds and previews, with a stand-in for `rt`."""

import fcntl
import os
import shutil
import signal
import subprocess
import sys
import time
import unittest
from collections.abc import Callable
from pathlib import Path

sys.path.append(os.path.join(os.path.dirname(__file__), "..", "convert"))

from support import PROGRAM, ROOT, FolderTest

_TEXTS = ROOT / "examples" / "help"
_COMMANDS = ("show", "fsck", "vacuum", "deref", "merge", "flatten")
_NO_BUILD = "ovl_layers: the program must be built, and rt is not on the PATH\n"
_UNPROVED = "ovl_layers: unproved: this program is compiled without proofs\n"
# What each crate depends on, and how many lines it has: `left` is longer than `right`. The program depends on no tests.
_CRATES = {"high": "left right std", "low": "hex", "left": "low", "right": "low", "ovl_layers": "high", "tests": "high"}
_LINES = {"left": 9}
_SECONDS = 120


def text(name: str) -> str:
    """A stored text."""
    return (_TEXTS / f"{name}.txt").read_text(encoding="utf-8")


class LauncherTest(FolderTest):
    """The launcher of a repository in which nothing is built, on a machine without `rt`."""

    search = "/usr/bin:/bin"

    def setUp(self) -> None:
        super().setUp()
        shutil.copy(ROOT / "ovl_layers", self.path("ovl_layers"))
        shutil.copytree(ROOT / "examples", self.path("examples"))
        shutil.copytree(ROOT / "launch", self.path("launch"), ignore=shutil.ignore_patterns("__pycache__"))

    def start(self, *words: str | bytes) -> "subprocess.Popen[str]":
        """Starts the launcher, whose standard error is a file."""
        with open(self.path("messages"), "w", encoding="utf-8") as messages:
            launcher = subprocess.Popen(
                [self.path("ovl_layers"), *words], stdin=subprocess.DEVNULL, stdout=subprocess.PIPE, stderr=messages,
                text=True, cwd=self.folder,
                env={**os.environ, "PATH": self.search, "FAKE_RT": self.path("notes"), "TMPDIR": self.path("tmp")},
            )
        os.rename(self.path("messages"), self.path(f"messages-{launcher.pid}"))
        return launcher

    def messages_of(self, launcher: "subprocess.Popen[str]") -> str:
        """What one has printed so far."""
        return Path(self.path(f"messages-{launcher.pid}")).read_text(encoding="utf-8")

    def ended(self, launcher: "subprocess.Popen[str]") -> tuple[int, str, str]:
        """Status, standard output and standard error of one that ends."""
        printed, _ = launcher.communicate(timeout=_SECONDS)
        return launcher.returncode, printed, self.messages_of(launcher)

    def run_launcher(self, *words: str | bytes) -> tuple[int, str, str]:
        """The same of one that is started with these words."""
        return self.ended(self.start(*words))


class Texts(LauncherTest):
    """What is printed without a build."""

    def test_texts(self) -> None:
        for words, name in (
            (("--help",), "../help"), (("-h", "show"), "../help"),
            (("--version",), "../version"), (("-V",), "../version"),
            *(((command, word), command) for command in _COMMANDS for word in ("-h", "--help")),
        ):
            self.assertEqual(self.run_launcher(*words), (0, text(name), ""), words)
            self.assertEqual(self.run_launcher("--unproved", *words), (0, text(name), _UNPROVED), words)

    def test_unknown_words(self) -> None:
        for word in ("", "help", "shwo", "examples/root.json", "a b", "é&\\1", "$x", "*"):
            self.assertEqual(
                self.run_launcher(word, "x"), (2, "", text("unknown-word").replace("unknown'", f"{word}'")), word
            )
        for word, messages in (("--hlep", "--hlep"), ("-x", "-x"), ("--blobs=x", "--blobs"), ("---", "---")):
            self.assertEqual(
                self.run_launcher(word), (2, "", text("unknown-option").replace("--unknown", messages)), word
            )

    def test_what_wants_the_program(self) -> None:
        for words in (
            (), ("show",), ("show", "--hlep"), ("show", "examples/root.json", "--help"), ("fsck", "x"), ("-hx",),
            ("--",), ("--help=x",), ("a\x1b[31m",), (b"\xff",),
        ):
            self.assertEqual(self.run_launcher(*words), (126, "", _NO_BUILD), words)
        self.assertEqual(self.run_launcher("--unproved", "show"), (126, "", _UNPROVED + _NO_BUILD))


class Making(LauncherTest):
    """A small repository, on a machine with a stand-in for `rt`."""

    def setUp(self) -> None:
        super().setUp()
        os.mkdir(self.path("tmp"))
        os.mkdir(self.path("bin"))
        self.search = f"{self.path('bin')}:{self.search}"
        shutil.copy(Path(__file__).with_name("fake_rt.py"), self.path("bin", "rt"))
        self.notes = Path(self.path("notes"))
        self.notes.mkdir()
        lines = ["# A comment: of nothing", *(f"{name}: {uses}" for name, uses in _CRATES.items())]
        Path(self.path("crates.txt")).write_text("\n".join(lines), encoding="utf-8")
        for name in _CRATES:
            self.source(name).parent.mkdir(parents=True)
            self.source(name).write_text("//\n" * _LINES.get(name, 1), encoding="utf-8")
        for part in ("specs", "proofs"):
            os.mkdir(self.path("crates", "low", part))
        self.built = self.out("ovl_layers") / "ovl_layers"

    def source(self, name: str) -> Path:
        """The source of a crate."""
        return Path(self.path("crates", name, "src", "lib.rt"))

    def out(self, name: str) -> Path:
        """The folder of what is made of a crate."""
        return Path(self.path("crates", name, "out"))

    def put(self, name: str, messages: str = "") -> None:
        """Gives the stand-in a message."""
        (self.notes / name).write_text(messages, encoding="utf-8")

    def asked(self, name: str) -> str:
        """The words that the stand-in was last started with for a crate."""
        return (self.notes / name).read_text(encoding="utf-8").split("\n")[0]

    def nice(self, name: str) -> int:
        """How nice the stand-in was, when it was last started for a crate."""
        return int((self.notes / name).read_text(encoding="utf-8").split("\n")[3])

    def times(self) -> dict[str, int]:
        """How often it was asked for each."""
        files = (it for it in self.notes.iterdir() if "-" not in it.name and not it.name.startswith("."))
        return {it.name: int(it.read_text(encoding="utf-8").split("\n")[2]) for it in files}

    def wait_until(self, holds: Callable[[], bool]) -> None:
        """Waits until a thing holds."""
        end = time.monotonic() + _SECONDS
        while not holds():
            self.assertLess(time.monotonic(), end)
            time.sleep(0.01)

    def wait_to_report(self, launcher: "subprocess.Popen[str]", part: str) -> None:
        """Waits until a launcher has printed something."""
        self.wait_until(lambda: part in self.messages_of(launcher))

    def wait_for(self, name: str) -> int:
        """Waits until the stand-in is asked for a crate, and gives its process."""
        self.wait_until((self.notes / name).exists)
        return int((self.notes / name).read_text(encoding="utf-8").split("\n")[1])

    def require_ended(self, process: int) -> None:
        """A process is gone, or goes."""
        self.wait_until(lambda: not os.path.exists(f"/proc/{process}"))

    def edit(self, name: str) -> None:
        """Makes a source newer than what was begun before."""
        os.utime(self.source(name))


class Build(Making):
    """The program is proved and built."""

    def test_all(self) -> None:
        status, printed, messages = self.run_launcher("show", "a b")
        self.assertEqual((status, printed), (0, "proved show a b\n"), messages)
        self.assertEqual(self.times(), {name: 1 for name in _CRATES if name != "tests"})
        self.assertIn("meanwhile, with --unproved as the first word", messages)
        last = messages.splitlines()[-1]
        self.assertRegex(last, r"^ovl_layers: ovl_layers is proved, in \d+:\d\d; 0 left, \d+:\d\d so far$")
        for name in self.times():
            self.assertIn(f"ovl_layers: {name} is proved", messages)
            kept = ["incremental", "ovl_layers" if name == "ovl_layers" else "rlib", "proved"]
            self.assertEqual(sorted(os.listdir(self.out(name))), sorted(kept))
            line = f"logic=proved functions=1 sum={name}"
            self.assertEqual((self.out(name) / "proved").read_text(encoding="ascii"), f"\nkit-1 logic 0123\n{line}\n")
        self.assertEqual(self.run_launcher("show"), (0, "proved show\n", ""))
        self.assertEqual(self.times(), {name: 1 for name in _CRATES if name != "tests"})

    def test_side_by_side(self) -> None:
        self.put("with-left", "right")
        self.put("with-right", "left")
        status, _, messages = self.run_launcher("show")
        self.assertEqual(status, 0, messages)
        for name in ("low", "left", "high"):
            self.assertRegex(self.asked(name), f"^lib --jobs [1-{min(len(os.sched_getaffinity(0)), 4)}]$")
        self.assertEqual(self.asked("right"), f"lib --jobs {max(min(len(os.sched_getaffinity(0)) // 2, 4), 1)}")
        self.assertEqual([self.nice(it) for it in ("low", "left", "high")], [os.nice(0)] * 3)
        self.assertEqual(self.nice("right"), min(os.nice(0) + 10, 19))

    def test_little_memory(self) -> None:
        file = Path(self.path("launch", "prove.py"))
        file.write_text(file.read_text(encoding="utf-8").replace("3_000_000_000", str(1 << 60)), encoding="utf-8")
        self.put("hold-left")
        launcher = self.start("show")
        self.wait_for("left")
        time.sleep(0.5)
        self.assertNotIn("right", self.times())
        os.unlink(self.notes / "hold-left")
        self.assertEqual(self.ended(launcher)[0], 0)

    def test_failed_proof(self) -> None:
        self.put("fail-left")
        self.put("hold-right")
        launcher = self.start("show")
        self.wait_to_report(launcher, "waiting for right, to keep what is proved of it\n")
        os.unlink(self.notes / "hold-right")
        status, printed, messages = self.ended(launcher)
        self.assertEqual((status, printed), (126, ""), messages)
        for part in ("a goal is open\n", "left is not proved", "right is proved", "the program could not be built"):
            self.assertIn(part, messages)
        self.assertEqual(self.times(), {"low": 1, "left": 1, "right": 1})
        self.assertTrue((self.out("right") / "rlib" / "stamp").exists())
        self.assertEqual(os.listdir(self.out("left")), ["incremental"])
        self.assertEqual(os.listdir(self.out("ovl_layers")), [])
        os.unlink(self.notes / "fail-left")
        self.assertEqual(self.run_launcher("show")[:2], (0, "proved show\n"))

    def test_interrupt(self) -> None:
        self.put("hold-left")
        for number in (signal.SIGINT, signal.SIGTERM, signal.SIGHUP):
            launcher = self.start("show")
            process = self.wait_for("left")
            self.wait_for("right")
            launcher.send_signal(number)
            status, printed, messages = self.ended(launcher)
            self.assertEqual((status, printed), (-number, ""), messages)
            self.assertEqual(messages.splitlines()[-1], "ovl_layers: interrupted; what was proved is kept")
            self.require_ended(process)
            self.assertEqual(os.listdir(self.out("left")), ["incremental"])
            self.assertEqual(os.listdir(self.out("ovl_layers")), [])
            os.unlink(self.notes / "left")
            os.unlink(self.notes / "right")
        os.unlink(self.notes / "hold-left")
        self.assertEqual(self.run_launcher("show")[0], 0)
        self.assertEqual((self.out("left") / "incremental" / "begun").read_text(encoding="ascii"), "once\n" * 4)

    def test_killed(self) -> None:
        self.put("hold-left")
        launcher = self.start("show")
        process = self.wait_for("left")
        launcher.kill()
        second = self.start("show")
        self.wait_to_report(second, "waiting for another ./ovl_layers or rt")
        self.assertTrue(os.path.exists(f"/proc/{process}"), "the proof goes on, and the second launcher waits for it")
        self.assertEqual(self.times()["left"], 1)
        os.unlink(self.notes / "hold-left")
        launcher.communicate(timeout=_SECONDS)
        self.assertEqual(self.ended(second)[0], 0)
        self.assertEqual((self.out("left") / "incremental" / "begun").read_text(encoding="ascii"), "once\n" * 2)

    def test_waiting(self) -> None:
        self.put("hold-left")
        first = self.start("show", "first")
        self.wait_for("left")
        second = self.start("show", "second")
        third = self.start("show", "third")
        for launcher in (second, third):
            self.wait_to_report(launcher, "waiting for another ./ovl_layers or rt")
        third.send_signal(signal.SIGINT)
        self.assertEqual(self.ended(third)[0], -signal.SIGINT)
        os.unlink(self.notes / "hold-left")
        self.assertEqual(self.ended(first)[:2], (0, "proved show first\n"))
        self.assertEqual(self.ended(second)[:2], (0, "proved show second\n"))
        self.assertEqual(set(self.times().values()), {1})

    def test_rt_beside_it(self) -> None:
        folder = os.open(self.path("crates", "low"), os.O_RDONLY)
        self.addCleanup(os.close, folder)
        fcntl.flock(folder, fcntl.LOCK_EX)
        self.put("hold-left")
        launcher = self.start("show")
        place = os.path.realpath(self.path("crates", "low"))
        self.wait_to_report(launcher, f"waiting for another ./ovl_layers or rt, which is at work in {place}\n")
        self.assertEqual(self.times(), {})
        fcntl.flock(folder, fcntl.LOCK_UN)
        self.wait_for("left")
        self.assertRaises(BlockingIOError, fcntl.flock, folder, fcntl.LOCK_EX | fcntl.LOCK_NB)
        os.unlink(self.notes / "hold-left")
        self.assertEqual(self.ended(launcher)[0], 0)

    def test_edit_meanwhile(self) -> None:
        self.put("hold-left")
        launcher = self.start("show")
        self.wait_for("left")
        self.edit("right")
        os.unlink(self.notes / "hold-left")
        self.assertEqual(self.ended(launcher)[0], 0)
        status, _, messages = self.run_launcher("show")
        self.assertEqual(status, 0, messages)
        self.assertIn("what has changed since the last build", messages)
        self.assertEqual(set(self.times().values()), {2})


class Preview(Making):
    """The program is compiled without proofs."""

    def test_all(self) -> None:
        status, printed, messages = self.run_launcher("--unproved", "show", "a b")
        self.assertEqual((status, printed), (0, "unproved show a b\n"), messages)
        self.assertTrue(messages.startswith(_UNPROVED), messages)
        self.assertFalse(self.built.exists())
        self.assertEqual(self.run_launcher("--unproved"), (0, "unproved\n", _UNPROVED))
        self.assertEqual(self.times(), {"try": 1})
        self.assertEqual(os.listdir(self.out("ovl_layers")), ["unproved"])
        kept = self.out("ovl_layers") / "unproved"
        self.assertEqual(os.listdir(kept), ["ovl_layers"])
        self.assertEqual((kept / "ovl_layers").stat().st_mode & 0o777, 0o755)
        self.assertEqual(os.listdir(self.path("tmp")), [])

    def test_beside_the_proved_program(self) -> None:
        self.run_launcher("--unproved", "show")
        self.assertEqual(self.run_launcher("show")[:2], (0, "proved show\n"))
        self.assertEqual(self.run_launcher("--unproved", "show"), (0, "unproved show\n", _UNPROVED))
        self.edit("low")
        self.assertEqual(self.run_launcher("--unproved", "show")[:2], (0, "unproved show\n"))
        self.assertEqual(self.times()["try"], 2)

    def test_failed(self) -> None:
        self.put("fail-try")
        status, printed, messages = self.run_launcher("--unproved", "show")
        self.assertEqual((status, printed), (126, ""), messages)
        self.assertIn("it doesn't compile\n", messages)
        self.assertFalse(self.out("ovl_layers").exists())
        self.assertEqual(os.listdir(self.path("tmp")), [])

    def test_interrupt(self) -> None:
        self.put("hold-try")
        for number in (signal.SIGINT, signal.SIGTERM, signal.SIGHUP):
            launcher = self.start("--unproved", "show")
            process = self.wait_for("try")
            launcher.send_signal(number)
            self.assertEqual(self.ended(launcher)[:2], (128 + number, ""))
            self.require_ended(process)
            self.assertEqual(os.listdir(self.path("tmp")), [])
            os.unlink(self.notes / "try")


class Program(unittest.TestCase):
    """The built program prints the stored texts."""

    def test_texts(self) -> None:
        if not PROGRAM.exists():
            self.skipTest("the program isn't built")
        cases = {command: ([command, "--help"], 0) for command in _COMMANDS}
        cases |= {"unknown-word": (["unknown"], 2), "unknown-option": (["--unknown"], 2)}
        self.assertEqual(sorted(f"{name}.txt" for name in cases), sorted(os.listdir(_TEXTS)))
        for name, (words, status) in cases.items():
            result = subprocess.run([PROGRAM, *words], capture_output=True, text=True, check=False)
            self.assertEqual((result.returncode, result.stdout + result.stderr), (status, text(name)), words)


if __name__ == "__main__":
    unittest.main()
