#!/usr/bin/env python3
"""Plants the bodies of bodies.txt, and prints which test finds each.

Python 3.11, standard library, `rt`, and a C compiler `cc`. All bodies are compiled into one program, without proofs, each under
a number that is written into its file. Then each has the tests of tests/program run, the one that must find it first and the
others from the quickest on, until one fails. The status is 1 if a body isn't found, isn't found by its test, or has a text
that is gone. It takes an hour of a processor.

    python3 tests/planted/plant.py                  # all
    python3 tests/planted/plant.py first_blobs      # these
    python3 tests/planted/plant.py --named          # quicker: runs no other test
    python3 tests/planted/plant.py --keep P         # also keeps the program
    python3 tests/planted/plant.py --program P      # takes one that was kept
"""
import argparse
import concurrent.futures
import functools
import os
import re
import shutil
import signal
import subprocess
import sys
import tempfile
import time
from collections.abc import Iterator, Sequence
from dataclasses import dataclass, field
from pathlib import Path

HERE = Path(__file__).resolve().parent
ROOT = HERE.parents[1]
sys.path.append(str(ROOT / "launch"))

from crates import PROGRAM
from preview import compile_unproved

# The tests, from the quickest on; the seconds after which a run of one counts as failed, and those between two looks at it.
TESTS = {
    "examples": ["examples.sh", "{program}"],
    "threads": ["threads.py", "--program", "{program}"],
    "reading": ["reading.py", "--program", "{program}"],
    "bounds": ["bounds.py", "--program", "{program}", "--beside", "{none}"],
    "faults": ["faults.sh", "{program}"],
    "large": ["large.py", "--program", "{program}"],
    "ample": ["ample.py", "--program", "{program}"],
    "refusals": ["refusals.py", "--program", "{program}"],
}
LONGEST, LOOK = 1_200, 0.1
NUMBER = b"PLANTED=%04d"
# The crate that asks for the number.
ASKS = """#![tactic(auto)]

unsafe extern "C" {
    safe fn planted_body() -> u32;
}

pub fn is(number: u32) -> bool {
    planted_body() == number
}
"""


@dataclass
class Edit:
    """A text that stands once in a file, and the one in its place."""

    file: str
    old: list[str] = field(default_factory=list)
    new: list[str] = field(default_factory=list)


@dataclass
class Body:
    """A body: its name, what it does, the test that must find it, or why none can, and its edits."""

    name: str
    what: str = ""
    seen_by: str = ""
    edits: list[Edit] = field(default_factory=list)


# ---- bodies

def bodies_of(text: str) -> list[Body]:
    """The bodies that a text states."""
    bodies: list[Body] = []
    file = ""
    for line in text.splitlines():
        word, found, rest = line.partition(": " if not re.match("(old|new):$", line) else ":")
        if not found or line.startswith("#"):
            continue
        if word == "body":
            bodies.append(Body(rest))
        elif word == "what":
            bodies[-1].what = rest
        elif word == "seen by":
            bodies[-1].seen_by = rest
        elif word == "file":
            file = rest
            bodies[-1].edits.append(Edit(file))
        elif word == "old":
            if bodies[-1].edits[-1].new:
                bodies[-1].edits.append(Edit(file))
            bodies[-1].edits[-1].old.append(rest)
        elif word == "new":
            bodies[-1].edits[-1].new.append(rest)
    return bodies


def plant(crates: Path, number: int, body: Body) -> bool:
    """Puts a body under its number; whether all its texts are there. Else nothing is changed."""
    texts: dict[Path, str] = {}
    for edit in body.edits:
        path = crates / edit.file
        text = texts.get(path) or (path.read_text(encoding="utf-8") if path.exists() else "")
        old, new = "\n".join(edit.old), "\n".join(edit.new)
        if text.count(old) != 1:
            return False
        texts[path] = text.replace(old, new.replace("PLANTED", f"planted::is({number})"))
    for path, text in texts.items():
        path.write_text(text, encoding="utf-8")
    return True


# ---- the program

def with_crate(room: Path) -> None:
    """Adds the crate that asks for the number, under all others."""
    (room / "crates/planted/src").mkdir(parents=True)
    (room / "crates/planted/src/lib.rt").write_text(ASKS, encoding="utf-8")
    (room / "crates/planted/c").mkdir()
    shutil.copy(HERE / "planted.c", room / "crates/planted/c")
    lines = (ROOT / "crates.txt").read_text(encoding="utf-8")
    (room / "crates.txt").write_text(re.sub("(?m)^(ovl_[^:]*:)", r"\1 planted", lines) + "planted:\n", encoding="utf-8")


def link_all(folder: Path, made: Path, *but: str) -> None:
    """Makes a folder with links to all that another has but for these names."""
    made.mkdir()
    for it in folder.iterdir():
        if it.name not in but:
            (made / it.name).symlink_to(it)


def kit_in(room: Path) -> Path:
    """The kit again, by links, with our clang, and without the library of the checks."""
    page = subprocess.run(["rt", "doc"], stdin=subprocess.DEVNULL, capture_output=True, text=True, check=True).stdout
    kit, made = Path(page.strip()).parent, room / "kit"
    link_all(kit, made, "bin", "c", "toolchain")
    link_all(kit / "bin", made / "bin", "rt", "rtlib.py")
    for name in ("rt", "rtlib.py"):  # which look for the kit around their own files
        shutil.copy(kit / "bin" / name, made / "bin")
    link_all(kit / "c", made / "c", "asan.a")
    (made / "c/asan.a").write_bytes(b"!<arch>\n")
    link_all(kit / "toolchain", made / "toolchain", "bin")
    link_all(kit / "toolchain/bin", made / "toolchain/bin", "clang")
    clang = made / "toolchain/bin/clang"
    subprocess.run(["cc", "-O1", f'-DCLANG="{kit}/toolchain/bin/clang"', "-o", clang, HERE / "clang.c"], check=True)
    return made


def compiled(room: Path, bodies: Sequence[Body], gone: list[str]) -> bytes:
    """The program with all bodies but those whose texts are gone, whose names are added to those."""
    shutil.copytree(ROOT / "crates", room / "crates", ignore=shutil.ignore_patterns("out", "proofs", "specs", "must-fail"))
    shutil.copy(ROOT / "HANDLES", room)
    gone += [body.name for number, body in enumerate(bodies, 1) if not plant(room / "crates", number, body)]
    with_crate(room)
    os.environ |= {"PATH": f"{kit_in(room)}/bin:{os.environ['PATH']}", "RT_ALLOW_C": "planted"}
    (room / "try").mkdir()
    return compile_unproved(room / "try", room / "crates/ovl_layers").read_bytes()


# ---- runs

@dataclass(frozen=True)
class Run:
    """Whether a program passes a test, and how long it takes."""

    test: str
    passed: bool
    seconds: float


def run(wanted: str, program: Path, none: Path) -> Run:
    """Runs a test, or only a case of it, which has failed once it reports something on standard error. A program without a body
    is there too."""
    test, only, case = wanted.partition(": ")
    name, *words = TESTS[test] + (["--only", case] if only else [])
    script, begun = ROOT / "tests/program" / name, time.monotonic()
    command = [*(["python3", "-B"] if script.suffix == ".py" else []), str(script)]
    command += [it.format(program=program, none=none) for it in words]
    with tempfile.TemporaryFile() as told, subprocess.Popen(
        command, stdin=subprocess.DEVNULL, stdout=subprocess.DEVNULL, stderr=told, start_new_session=True
    ) as process:
        while process.poll() is None and not os.fstat(told.fileno()).st_size and time.monotonic() - begun < LONGEST:
            time.sleep(LOOK)
        if process.poll() is None:
            os.killpg(process.pid, signal.SIGTERM)
        passed = process.wait() == 0 and not os.fstat(told.fileno()).st_size
    return Run(test, passed, time.monotonic() - begun)


def planted(program: bytes, room: Path, number: int) -> Path:
    """The program with the body of this number."""
    made = room / f"{number}" / PROGRAM
    made.parent.mkdir()
    made.write_bytes(program.replace(NUMBER % 0, NUMBER % number))
    made.chmod(0o755)
    return made


def runs(program: bytes, room: Path, tests: Sequence[str], number: int, body: Body) -> Iterator[Run]:
    """Runs tests until one fails, the body's own first."""
    made = planted(program, room, number)
    for test in [body.seen_by, *(tests or [])]:
        one = run(test, made, room / "0" / PROGRAM)
        yield one
        if not one.passed:
            break
    shutil.rmtree(made.parent)


def judged(program: bytes, room: Path, tests: Sequence[str], number: int, body: Body) -> tuple[str, bool]:
    """The row of a body, and whether it is as it should be."""
    if body.seen_by.partition(":")[0] not in TESTS:
        return f"{body.name:32} {body.seen_by}", True
    done = list(runs(program, room, tests, number, body))
    seconds, last = sum(it.seconds for it in done), done[-1]
    is_good = len(done) == 1 and not last.passed
    seen = "NOT SEEN" if last.passed else last.test
    return f"{body.name:32} {seen:8} {seconds:8.1f} s" + ("" if is_good else f"  not by {body.seen_by}"), is_good


def words_of() -> argparse.Namespace:
    words = argparse.ArgumentParser(description="Plants bodies, and prints which test finds each.")
    words.add_argument("names", nargs="*", metavar="BODY", help="the bodies (default: all)")
    words.add_argument("--program", type=Path, help="a program that was kept, of these bodies")
    words.add_argument("--keep", type=Path, metavar="FILE", help="keep the program")
    words.add_argument("--named", action="store_true", help="only the test that must find a body, and none without a body")
    words.add_argument("--jobs", type=int, default=1, help="how many bodies at once (default 1)")
    return words.parse_args()


def passing(none: Path) -> list[str]:
    """The tests that pass with no body; the others find nothing."""
    passed = []
    for test in TESTS:
        if run(test, none, none).passed:
            passed.append(test)
        else:
            print(f"{test} fails with no body, and isn't run", flush=True)
    return passed


def main() -> None:
    given, bad = words_of(), list[str]()
    bodies = bodies_of((HERE / "bodies.txt").read_text(encoding="utf-8"))
    with tempfile.TemporaryDirectory(prefix="ovl-planted-") as folder:
        room = Path(folder)
        program = given.program.read_bytes() if given.program else compiled(room, bodies, bad)
        if given.keep:
            given.keep.write_bytes(program)
        for name in bad:
            print(f"{name:32} its text is gone")
        chosen = [(n, it) for n, it in enumerate(bodies, 1) if it.name not in bad and it.name in (given.names or [it.name])]
        none = planted(program, room, 0)
        judge = functools.partial(judged, program, room, [] if given.named else passing(none))
        with concurrent.futures.ThreadPoolExecutor(given.jobs) as pool:
            for (_, body), (row, is_good) in zip(chosen, pool.map(lambda it: judge(*it), chosen)):
                print(row, flush=True)
                bad += [] if is_good else [body.name]
    print(f"{len(chosen)} bodies, {len(bad)} not as they should be")
    sys.exit(1 if bad else 0)


if __name__ == "__main__":
    main()
