#!/usr/bin/env python3
"""Counts what the program asks of the system, of which no contract says how much, and refuses more.

Python 3.11, standard library, and `rt`, whose compiler builds refuse.c. A manifest as the commands and the converter write
it is read piece by piece, with no value of JSON in between; a program that made a value of it would give the same bytes, at
several times the cost. So requests for memory are counted: of a manifest of 10,000 entries, and of the same with white space
in it, with the members of the manifest and of its entries in the other order, and with an escape that needn't be, of which
a value is made: the report must be the same, with at least five times the requests; and of manifests that have one thing each
that might be left to the other way, up to the second layer, which is none.

Then come the requests of commands that make a layer and of lines, the bytes that are held at once, threads that start
others, reads, writes and opens of files, idle workers that yield their processor, and peaks of memory.

    python3 tests/program/reading.py --program crates/ovl_layers/out/ovl_layers
"""
import argparse
import hashlib
import json
import os
import subprocess
import sys
import tempfile
from collections.abc import Callable, Iterator
from dataclasses import dataclass
from pathlib import Path

sys.path.append(os.path.join(os.path.dirname(__file__), "..", "makers"))

from generate import Generator
from entries import REDIRECT, Entry, entry
from refusals import build
from small_layers import Layer, manifest_of

ENTRIES, MOST = 10_000, 0.2
OPAQUE = "trusted.overlay.opaque"
GENERATE = str(Path(__file__).resolve().parents[1] / "makers" / "generate.py")
# The most bytes that one read may give: of a file that is held, and of a part.
HELD, PART = 16_384, 65_536


@dataclass(frozen=True)
class Count:
    """What was counted, and what it may be."""

    what: str
    number: float
    least: float
    most: float

    def is_good(self) -> bool:
        return self.least <= self.number <= self.most

    def __str__(self) -> str:
        bounds = f"at most {self.most:g}" if self.most < float("inf") else f"at least {self.least:g}"
        return f"{self.what}: {self.number:.3g}, {bounds}"


def at_most(what: str, number: float, most: float) -> Count:
    return Count(what, number, 0, most)


def names_of(it: Entry) -> list[bytes]:
    path: str = it["path"]
    return path.encode().split(b"/")


# ---- runs

@dataclass(frozen=True)
class Bench:
    """The program, the library that counts, and a folder."""

    program: str
    library: str
    room: Path

    def met(self, sort: str, words: list[str], statuses: tuple[int, ...] = (0,), **more: object) -> tuple[bytes, int]:
        """What a run prints, and how many calls of this sort it met."""
        told = self.room / "told"
        told.unlink(missing_ok=True)
        env = {"LD_PRELOAD": self.library, "REFUSE": sort, "REFUSE_TOLD": str(told)}
        env |= {f"REFUSE_{name.upper()}": str(value) for name, value in more.items()}
        ran = subprocess.run([self.program, *words], env=env, stdin=subprocess.DEVNULL, capture_output=True, check=False)
        if ran.returncode not in statuses:
            sys.exit(f"reading.py: {words[0]} ended with status {ran.returncode}: {ran.stderr.decode(errors='replace')[:200]}")
        return ran.stdout, int(told.read_text().split()[0])

    def peak(self, words: list[str]) -> int:
        """The peak of memory of a run, in kilobytes."""
        process = subprocess.Popen([self.program, *words], stdin=subprocess.DEVNULL, stdout=subprocess.DEVNULL)
        _, status, used = os.wait4(process.pid, 0)
        if status:
            sys.exit(f"reading.py: {words[0]} ended with status {status}")
        return int(used.ru_maxrss)

    def folder(self, name: str) -> Path:
        made = self.room / name
        made.mkdir(exist_ok=True)
        return made

    def write(self, name: str, entries: Layer) -> str:
        """A manifest as it is written, of the root and these."""
        entries = sorted([entry("/"), *entries], key=names_of)
        value = json.dumps(manifest_of(entries, entries), ensure_ascii=False, separators=(",", ":"), sort_keys=True)
        made = self.room / f"{name}.json"
        made.write_text(value + "\n", encoding="utf-8")
        return str(made)


# ---- manifests

def files(directory: str, count: int) -> Layer:
    return [entry(directory)] + [entry(f"{directory}/f{n:05d}", "file", size=0) for n in range(count)]


def named(path: str, **more: object) -> Entry:
    return entry(path, "file", size=0) | more


def one_of_each() -> Iterator[tuple[str, Layer]]:
    """What is said of a manifest, and its entries below the root."""
    some = files("/d", 2_000)
    blob = hashlib.sha256(b"large").hexdigest()
    yield "20,000 entries", files("/d", 20_000)
    yield "a backslash", [*some, named("/z\\")]
    yield "a quotation mark", [*some, named('/z"')]
    yield "a control byte", [*some, named("/z\x01")]
    yield "a name that isn't ASCII", [*some, named("/zé")]
    yield "a time before 1970", [*some, named("/z", mtime=-1)]
    yield "a file of 20 GB", [*some, named("/z", size=20_000_000_000, blob=blob)]
    yield "an opaque directory", [*some, entry("/z", attrs={OPAQUE: "y"})]
    yield "a moved directory", [*some, entry("/z", attrs={REDIRECT: "/d"})]
    yield "40 attributes", [*some, entry("/z", attrs={f"user.{n:02d}": "v" for n in range(40)})]
    yield "a path of 120 names", [*some, *(entry("/z" * n) for n in range(1, 121))]
    yield "a path of 4,000 bytes", [*some, *(entry(("/" + "n" * 199) * n) for n in range(1, 21))]


def of_manifests(bench: Bench) -> Iterator[Count]:
    unread = bench.room / "unread.json"
    unread.write_bytes(b"")
    for what, entries in one_of_each():
        written = bench.write("one", entries)
        _, count = bench.met("memory", ["show", "--workers", "1", written, str(unread)], (3,))
        yield at_most(f"requests for memory an entry, {what}", count / len(entries), 0.5)


def backwards(members: dict[str, object]) -> dict[str, object]:
    """A manifest or an entry with its members in the other order, and attributes as they are."""
    return dict(reversed(members.items())) if {"entries", "path"} & members.keys() else members


def of_forms(bench: Bench) -> Iterator[Count]:
    written, spaced, turned, other = (bench.room / f"{name}.json" for name in ("written", "spaced", "turned", "other"))
    with open(written, "wb") as out:
        Generator(ENTRIES).write(out)
    text = written.read_text(encoding="utf-8")
    spaced.write_text(json.dumps(json.loads(text), ensure_ascii=False, indent=1) + "\n", encoding="utf-8")
    back = json.loads(text, object_hook=backwards)
    turned.write_text(json.dumps(back, ensure_ascii=False, separators=(",", ":")), encoding="utf-8")
    other.write_text(text.replace('"path":"/"', '"path":"\\/"', 1), encoding="utf-8")
    report, count = bench.met("memory", ["show", "--workers", "1", str(written)])
    for what, form in (("with white space", spaced), ("in another order", turned), ("with an escape that needn't be", other)):
        same, more = bench.met("memory", ["show", "--workers", "1", str(form)])
        if report != same:
            sys.exit(f"reading.py: {what}: another report of the same entries")
        yield at_most(f"requests for memory as it is written, beside those {what}", count / more, MOST)


# ---- commands

def two_layers(bench: Bench, count: int) -> list[str]:
    """Layers of other names in directories that both have."""
    return [bench.write(side, [it for n in range(0, count, 200) for it in files(f"/{n:06d}", 200)]
                        + [entry(f"/{n:06d}/{side}", "file", size=0) for n in range(0, count, 200)]) for side in ("upper", "lower")]


def of_commands(bench: Bench) -> Iterator[Count]:
    layers, blobs, out = two_layers(bench, 4_000), bench.folder("none"), bench.folder("out")
    for command, most in (("vacuum", 0.7), ("deref", 0.2), ("merge", 0.2), ("flatten", 0.2)):
        words = [command, "--workers", "1", "--blobs", str(blobs), "--out", str(out), *layers]
        yield at_most(f"requests for memory an entry, {command}", bench.met("memory", words)[1] / 8_000, most)
    notes = bench.write("notes", [entry(f"/d{n:05d}", attrs={OPAQUE: "z"}) for n in range(4_000)])
    _, count = bench.met("memory", ["fsck", "--workers", "1", "--blobs", str(blobs), notes])
    yield at_most("requests for memory a finding", count / 4_000, 11.5)


def of_peaks(bench: Bench) -> Iterator[Count]:
    """A process that this one starts is never reported as smaller than it, so other processes make the layers, and this is first."""
    layers, blobs, out = [], bench.folder("none"), bench.folder("out")
    for seed in ("1", "2"):
        layers.append(str(bench.room / f"{seed}.json"))
        made = [sys.executable, "-B", GENERATE, "--entries", "60000", "--empty", "--seed", seed, "--out", layers[-1]]
        subprocess.run(made, stdin=subprocess.DEVNULL, check=True)
    shown = bench.peak(["show", "--workers", "1", *layers])
    for command, most in (("merge", 1.35), ("flatten", 1.35)):
        words = [command, "--workers", "1", "--blobs", str(blobs), "--out", str(out), *layers]
        yield at_most(f"peak of {command} beside that of show", bench.peak(words) / shown, most)


def one_directory(bench: Bench, count: int) -> list[str]:
    """Layers of other names in one directory."""
    below = [[entry("/d"), *(named(f"/d/{side}{n:05d}") for n in range(count))] for side in "fg"]
    return [bench.write(side, entries) for side, entries in zip(("one-upper", "one-lower"), below)]


def of_held(bench: Bench) -> Iterator[Count]:
    """The bytes that are held at once, which are the same in each run by one worker: if a stack stays beside its new layer
    they are more. If a directory is large, so is what is made of it at once."""
    blobs, out = bench.folder("none"), bench.folder("out")
    made = {"vacuum": 1.0, "deref": 1.1, "merge": 1.01, "flatten": 1.01}
    for what, layers, bounds in (("many directories", two_layers(bench, 20_000), made),
                                 ("one directory", one_directory(bench, 20_000), {"merge": 1.1})):
        _, shown = bench.met("held", ["show", "--workers", "1", *layers])
        for command, most in bounds.items():
            words = [command, "--workers", "1", "--blobs", str(blobs), "--out", str(out), *layers]
            yield at_most(f"bytes held by {command} of {what} beside those of show", bench.met("held", words)[1] / shown, most)


def of_rooms(bench: Bench) -> Iterator[Count]:
    """The bytes that are held at once, an entry or a worker: room is made once, for what there is and no more, and rows go before
    lines are written and layers are made of others."""
    count, blobs, out = 20_000, str(bench.folder("none")), str(bench.folder("out"))
    plain, root = bench.write("plain", files("/d", count)), bench.write("root", [])
    noted = bench.write("noted", [entry(f"/d{n:05d}", attrs={OPAQUE: "z"}) for n in range(count)])
    three = [bench.write(side, [entry("/d"), *(named(f"/d/{side}{n:05d}") for n in range(count))]) for side in "abc"]
    upper, lower = ([entry(f"{top}/d{n:05d}") for n in range(count)] for top in ("/m", "/x"))
    moved = [bench.write("moved", [entry("/m", attrs={REDIRECT: "/x"}), *upper, entry("/x", "char", major=0, minor=0)]),
             bench.write("under", [entry("/x"), *lower])]
    for what, words, entries, most in (
            ("show", ["show", plain], count, 375),
            ("fsck", ["fsck", "--blobs", blobs, plain], count, 325),
            ("fsck of notes", ["fsck", "--blobs", blobs, noted], count, 1_165),
            ("fsck below a moved directory", ["fsck", "--blobs", blobs, *moved], count, 1_300),
            ("merge --down-to", ["merge", "--down-to", "1", "--blobs", blobs, "--out", out, *three], 3 * count, 360)):
        yield at_most(f"bytes held an entry, {what}", bench.met("held", [*words, "--workers", "1"])[1] / entries, most)
    yield at_most("bytes held a worker of 64", bench.met("held", ["show", "--workers", "64", root])[1] / 64, 8_000)


def of_repeats(bench: Bench) -> Iterator[Count]:
    """Requests for memory of what could be done twice: long places of moved directories are copied, and a layer that has escapes is
    written, by several workers."""
    deep, count, blobs = ["n" * 32] * 100, 1_000, str(bench.folder("none"))
    layers = [[entry(top + "/".join(["", *deep[:n]])) for n in range(101)]
              + [entry(top + "/".join(["", *deep, f"d{n:05d}"])) for n in range(count)] for top in ("/m", "/x")]
    layers[0][0] = entry("/m", attrs={REDIRECT: "/x"})
    written = [bench.write("upper", [*layers[0], entry("/x", "char", major=0, minor=0)]), bench.write("lower", layers[1])]
    _, met = bench.met("memory", ["fsck", "--workers", "1", "--blobs", blobs, *written])
    yield at_most("requests for memory of a long place", met / len(layers[1]), 16)
    odd = bench.write("odd", [named(f'/"{n:05d}') for n in range(count)])
    _, met = bench.met("memory", ["flatten", "--workers", "4", "--blobs", blobs, "--out", str(bench.folder("out")), odd])
    yield at_most("requests for memory of an escape", met / count, 7)


def of_ends(bench: Bench) -> Iterator[Count]:
    """Once a request is refused to one of four workers, the others do no more of the work."""
    nested = bench.write("nested", [entry(f"/d{n:04d}" + "/d" * below) for n in range(2_000) for below in range(3)])
    words = ["show", "--workers", "4", nested]
    at = bench.met("memory", words)[1] // 5
    yield at_most("requests for memory after one is refused", bench.met("memory", words, (5,), at=at)[1] - at, 2_000)


def of_lines(bench: Bench) -> Iterator[Count]:
    """Room is made for the lines of a report's shares before they are written, and for a new layer's manifest."""
    lines, layers = bench.write("lines", files("/d", 40_000)), one_directory(bench, 20_000)
    _, count = bench.met("memory", ["show", "--workers", "4", lines])
    yield at_most("requests for memory of 40,000 lines by four workers", count, 200)
    words = ["merge", "--workers", "1", "--blobs", str(bench.folder("none")), "--out", str(bench.folder("out")), *layers]
    yield at_most("requests for memory of a merge in one directory", bench.met("memory", words)[1], 270)


def of_starters(bench: Bench) -> Iterator[Count]:
    """Workers start each other by halves, so that about half of them start others; and so do those that write lines."""
    layer = bench.write("starters", [entry(f"/d{n:05d}") for n in range(30_000)])
    _, count = bench.met("starter", ["show", "--workers", "16", layer])
    yield Count("threads that start others, of twice sixteen, one of them in both", count, 12, float("inf"))
    yield at_most("threads that start others, of twice sixteen, one of them in both", count, 18)


# ---- files

def of_reads(bench: Bench) -> Iterator[Count]:
    size = 400_000
    blobs, contents = bench.folder("blobs"), b"x" * size
    name = hashlib.sha256(contents).hexdigest()
    (blobs / name).write_bytes(contents)
    layer = bench.write("named", [named("/f", size=size, blob=name)])
    padded = bench.room / "padded.json"
    padded.write_bytes(b" " * size + Path(layer).read_bytes())
    fsck = ["fsck", "--workers", "1", "--blobs", str(blobs)]
    for what, words, path, part in (("a manifest", [*fsck, str(padded)], "padded.json", HELD),
                                    ("a blob", [*fsck, layer], name, HELD),
                                    ("a blob in parts", [*fsck, "--any-size", layer], name, PART)):
        yield at_most(f"reads of 400 KB of {what}", bench.met("read", words, path=path)[1], size // part + 3)


def of_writes(bench: Bench) -> Iterator[Count]:
    layer, blobs, out = bench.write("lines", files("/d", 10_000)), str(bench.folder("none")), str(bench.folder("out"))
    for what, words, path in (("a report", ["show", layer], "/dev/stdout"),
                              ("a new layer", ["flatten", "--blobs", blobs, "--out", out, layer], "layer-0.json")):
        yield at_most(f"writes of 400 KB of {what}", bench.met("write", words, path=path)[1], 2)


def of_opens(bench: Bench) -> Iterator[Count]:
    """Of many blobs whose names end alike the first that is opened can't be."""
    blobs = bench.folder("many")
    names = [f"{n:02x}" + "0" * 60 + "ff" for n in range(64)]
    for name in names:
        with open(blobs / name, "wb") as out:
            out.truncate(4_000_000)
    layer = bench.write("many", [named(f"/f{n:02d}", size=4_000_000, blob=name) for n, name in enumerate(names)])
    for how, most in (("--workers=1", 1), ("--any-size --workers=1", 1), ("--any-size --workers=4", 32)):
        words = ["fsck", *how.split(), "--blobs", str(blobs), layer]
        _, count = bench.met("open", words, (3,), path="ff", at=1, error=5)
        yield at_most(f"opens of 64 blobs of which the first fails, {how}", count, most)


def of_yields(bench: Bench) -> Iterator[Count]:
    """If directories are nested, one worker has work, and the others wait for it; if the processors have other
    work, they may come when all is done."""
    layer = bench.write("chain", [it for n in range(1, 121) for it in files("/d" * n, 200)])
    runs = (bench.met("yield", ["show", "--workers", "4", layer])[1] for _ in range(20))
    count = next((it for it in runs if it), 0)
    yield Count("times that three idle workers yield their processor", count, 1, float("inf"))


PARTS: tuple[Callable[[Bench], Iterator[Count]], ...] = (
    of_peaks, of_forms, of_manifests, of_commands, of_held, of_rooms, of_repeats, of_ends, of_lines, of_starters, of_reads,
    of_writes, of_opens, of_yields)


def main() -> None:
    words = argparse.ArgumentParser(description="Counts what the program asks of the system, and refuses more.")
    words.add_argument("--program", required=True, help="path of the program")
    given = words.parse_args()
    program, good = os.path.abspath(given.program), True
    for part in PARTS:
        with tempfile.TemporaryDirectory(prefix="ovl-reading-") as folder:
            library = os.path.join(folder, "refuse.so")
            build(library)
            for count in part(Bench(program, library, Path(folder))):
                print(count, "" if count.is_good() else "  NOT SO", flush=True)
                good = good and count.is_good()
    sys.exit(0 if good else 1)


if __name__ == "__main__":
    main()
