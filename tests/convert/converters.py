#!/usr/bin/env python3
"""Compares the converter with that of another checkout, on random images: the same files, bytes, modes and statuses.

Python 3.11, standard library; needs the built program in both checkouts, and zstd. Each image is unpacked and flattened in
several forms by both; here layers are read side by side, whatever their size, by every other run. Ends with 0 if nothing
differs.

    python3 tests/convert/converters.py OTHER [--images N] [--seed N] [--forms N] [--messages]

OTHER is a folder with `layers` or `layers.py`. With --messages what is printed must be the same too.
"""
import argparse
import gzip
import hashlib
import os
import random
import re
import shutil
import subprocess
import sys
import tarfile
import tempfile
from collections.abc import Iterator
from pathlib import Path

HERE = Path(__file__).resolve().parents[2]
sys.path.insert(0, str(HERE))

from images import archive, folder, member, write_layout, write_saved

SIDE_BY_SIDE = """
import sys
sys.path.insert(0, sys.argv[1])
from convert.image import ahead
from convert.cli import main
ahead.LEAST_BYTES = 0
sys.exit(main(sys.argv[2:]))
"""
NAMES = ("a", "b", "usr", "é", "日本", "n" * 120, "x y", "-", "new\nline")
SIZES = (0, 1, 511, 512, 513, 4_000, (1 << 18) - 1, 1 << 18, (1 << 18) + 1, (1 << 20) + 12_345)
FORMS: tuple[tuple[str, tuple[str, ...]], ...] = (
    ("out", ()), ("out.tar", ()), ("dir:out", ()), ("out", ("--compress", "gzip")), ("out.tar", ("--compress", "zstd")),
    ("out", ("--layers", "2")), ("docker-archive:out.tar:x:y", ("--compress", "gzip")), ("-", ()),
)
VARYING = re.compile(r"\d+\.\d\d s|\.layers-[0-9a-f]{16}")


def members(pick: random.Random) -> Iterator[tuple[tarfile.TarInfo, bytes]]:
    """The entries of a layer, some of which take the place of others."""
    yield folder("./", mode=pick.choice((0o755, 0o700)))
    files = []
    for number in range(pick.randint(1, 14)):
        way = f"{pick.choice(NAMES)}/{pick.choice(NAMES)}"
        name = f"{way}/{pick.choice(NAMES)}{pick.randint(0, 3)}"
        sort = pick.randrange(12)
        if sort < 5:
            files.append(name)
            data = pick.choice((bytes, pick.randbytes, lambda size: b"text " * (size // 5)))(pick.choice(SIZES))
            info, _ = member(name, data, mode=pick.choice((0o644, 0o4755, 0o600)), pax={
                "mtime": f"{number}.{pick.randint(0, 99)}", "SCHILY.xattr.user.a": pick.choice(("", "v")),
            })
            info.uid = pick.choice((0, 1_000, 3_000_000))
            yield info, data
        elif sort == 5:
            yield member(f"{way}/.wh.{pick.choice(NAMES)}{pick.randint(0, 3)}")
        elif sort == 6:
            yield member(f"{way}/.wh..wh..opq")
        elif sort == 7:
            yield member(f"{way}/link", kind=tarfile.SYMTYPE, target=pick.choice(("x", "/" * 150, "é")))
        elif sort == 8 and files:
            yield member(f"{way}/hard{number}", kind=tarfile.LNKTYPE, target=pick.choice(files))
        elif sort == 9:
            yield member(f"{way}/s", b"abc", pax={"GNU.sparse.map": "5,3", "GNU.sparse.size": str(pick.choice((9, 999_999)))})
        elif sort == 10:
            yield member(f"{way}/fifo", kind=tarfile.FIFOTYPE)
        else:
            yield folder(way, mode=0o711, pax={"SCHILY.xattr.security.x": "y"})


def packed(pick: random.Random, data: bytes) -> bytes:
    """A layer as it is, or packed; of gzip in one member or several, of zstd by the program."""
    sort = pick.randrange(4)
    if sort == 0:
        return data
    if sort == 1:
        return subprocess.run(["zstd", "-q"], input=data, stdout=subprocess.PIPE, check=True).stdout
    at = pick.randrange(len(data)) if sort == 2 else 0
    return b"".join(gzip.compress(part, mtime=0) for part in (data[:at], data[at:]) if part)


def make_image(pick: random.Random, place: Path) -> str:
    """Makes an image; gives the word for it, which is - for one that comes through a pipe."""
    layers = [archive(members(pick)) for _ in range(pick.randint(1, 5))]
    layers += pick.choices(layers, k=pick.choice((0, 0, 1)))
    if pick.random() < 0.15:
        layers[-1] = layers[-1][:pick.randrange(len(layers[-1]))] + b"spoilt"
    if pick.random() < 0.25:
        write_saved(str(place / "image.tar"), layers)
        return "image.tar"
    write_layout(str(place / "image"), [packed(pick, layer) for layer in layers], pick.choice((layers, layers, None)))
    if pick.random() < 0.5:
        return "image"
    with tarfile.open(place / "image.tar", "w") as file:
        for path in sorted((place / "image").rglob("*")):
            file.add(path, str(path.relative_to(place / "image")), recursive=False)
    return "-"


def found(place: Path) -> dict[str, tuple[int, str]]:
    """The modes and digests of all that stands in a folder."""
    return {
        str(path.relative_to(place)): (
            path.stat().st_mode, hashlib.sha256(path.read_bytes()).hexdigest() if path.is_file() else ""
        )
        for path in place.rglob("*") if path.relative_to(place).parts[0] not in ("image", "image.tar")
    }


def done(command: list[str], place: Path, words: list[str]) -> tuple[object, ...]:
    """What a command gives: its status, what it prints, and what it leaves, which is taken away."""
    with open(place / "image.tar", "rb") if "-" in words[:2] else open(os.devnull, "rb") as given:
        result = subprocess.run([*command, *words], cwd=place, stdin=given, capture_output=True, check=False)
    printed = hashlib.sha256(result.stdout).hexdigest() if "-" in words[2:] else VARYING.sub("", result.stdout.decode())
    files = found(place)
    for path in place.iterdir():
        if path.name not in ("image", "image.tar"):
            shutil.rmtree(path) if path.is_dir() else path.unlink()
    return result.returncode, files, printed, VARYING.sub("", result.stderr.decode())


def commands(checkout: Path) -> list[str]:
    names = [checkout / name for name in ("layers", "layers.py") if (checkout / name).exists()]
    return [sys.executable, "-B", str(names[0])]


def compare(pick: random.Random, other: list[str], place: Path, forms: int, with_messages: bool) -> list[str]:
    """Makes an image, and compares what both do with it; reports the words for which that differs."""
    image = make_image(pick, place)
    todo = [["unpack", image, "--out", "out"], ["unpack", image, "--out", "out", "--digests-only"]]
    todo += [["flatten", image, "--out", form, *words] for form, words in pick.sample(FORMS, forms)]
    wrong = []
    for number, words in enumerate(todo):
        beside = [sys.executable, "-B", "-c", SIDE_BY_SIDE, str(HERE)]
        ours = done(beside if (number + len(image)) % 2 else commands(HERE), place, words)
        theirs = done(other, place, words)
        count = 4 if with_messages else 2
        if ours[:count] != theirs[:count]:
            wrong.append(f"{' '.join(words)}: {ours[0]} {ours[3]!r}, the other {theirs[0]} {theirs[3]!r}")
    return wrong


def main() -> None:
    parser = argparse.ArgumentParser(description=__doc__, formatter_class=argparse.RawDescriptionHelpFormatter)
    parser.add_argument("other", type=Path, help="another checkout")
    parser.add_argument("--images", type=int, default=60, help="how many [default: 60]")
    parser.add_argument("--seed", type=int, default=1, help="the first image [default: 1]")
    parser.add_argument("--forms", type=int, default=3, help="in how many each is flattened [default: 3]")
    parser.add_argument("--messages", action="store_true", help="compare what is printed too")
    given = parser.parse_args()
    different = 0
    for seed in range(given.seed, given.seed + given.images):
        with tempfile.TemporaryDirectory(prefix="layers-test-") as place:
            for text in compare(random.Random(seed), commands(given.other), Path(place), given.forms, given.messages):
                different += 1
                print(f"image {seed}: {text}")
    print(f"{given.images} images, {different} differences")
    sys.exit(1 if different else 0)


if __name__ == "__main__":
    main()
