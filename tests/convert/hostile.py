#!/usr/bin/env python3
"""Spoils images and layers' archives in many ways, and looks at what the converter makes of them.

Python 3.11, standard library; as root. Each case is a small image of one or two layers of odd names, kinds, records,
links, whiteouts and sparse files, plain or packed by gzip or zstd. Of most of them bytes of an archive, a value of a
document, or a name is spoilt. `layers unpack` must read or refuse it with one line, within 2 s of a processor and 300 MB, and
leave nothing outside of `--out`, and nothing at all if it refuses. With `--folders` they are folders of layers, which
`layers scan` must read or refuse in the same way. With `--umoci N`, N of the images that it reads
are unpacked by umoci too: the trees must be equal, or one of the two refuses. What they read in two ways for a reason is
left out, and counted. A case depends only on the seed and its number.

    python3 tests/convert/hostile.py --count 2000 --umoci 200 --seed 1
"""
import argparse
import collections
import concurrent.futures
import contextlib
import gzip
import hashlib
import io
import json
import os
import random
import re
import resource
import shutil
import socket
import stat
import subprocess
import sys
import tarfile
import tempfile
import time
import traceback
from collections.abc import Iterable, Iterator
from dataclasses import dataclass

from images import archive, member, put_index, put_manifest
from convert import cli
from convert.model.entries import Entry, is_whiteout
from convert.model.manifests import read_manifest
from convert.tar.headers import pax_record

SECONDS = 2.0  # of a processor that a case may take
MEMORY = 300_000_000  # bytes of a process, whatever it has read
CHUNK = 50  # cases that a process does at a time
NAMES = ("a", "b", "d", "d/a", "d/b", "d/e/f", "\u00e9", "x" * 99, "x" * 101, "y" * 255, "p/" * 30 + "q", "a b", "l", "m", "n", "o")
ODD_NAMES = ("..", "../x", "d/../a", "/abs", "./a", "a//b", "a/", ".", "", "d/..", "z" * 256, "d/.wh.a", ".wh.a", ".wh..wh..opq",
             "d/.wh..wh..opq", ".wh.", ".wh..wh.aufs", "a\n", "\x1b[2J", "q/" * 200 + "r", "\udcff")
KINDS = (tarfile.REGTYPE,) * 6 + (tarfile.DIRTYPE,) * 5 + (tarfile.SYMTYPE, tarfile.LNKTYPE) * 2 + (
    tarfile.CHRTYPE, tarfile.BLKTYPE, tarfile.FIFOTYPE, tarfile.AREGTYPE)
ODD_KINDS = (tarfile.CONTTYPE, b"S", b"V", b"9", b"g", b"x", b"L", b"K")
RECORDS = (("mtime", "1.5"), ("mtime", "-7.25"), ("mtime", "123456789.123456789"), ("uid", "70000"), ("gid", "4000000000"),
           ("path", "r"), ("path", "d/r"), ("linkpath", "a"), ("size", "3"), ("SCHILY.xattr.user.k", "v"),
           ("SCHILY.xattr.security.capability", "\1\0\0\2\0\4\0\0\0\0\0\0\0\0\0\0\0\0\0\0"), ("comment", "c"),
           ("atime", "1"), ("GNU.sparse.map", "0,1,5,2"), ("GNU.sparse.size", "9"))
ODD_RECORDS = (("mtime", "x"), ("mtime", "1e3"), ("uid", "-1"), ("uid", "99999999999"), ("size", "-1"), ("path", ""),
               ("path", "../up"), ("SCHILY.xattr.trusted.overlay.opaque", "y"), ("SCHILY.xattr.k", "v"),
               ("SCHILY.acl.access", "u"), ("GNU.sparse.map", "5,1,0,1"), ("GNU.sparse.major", "1"), ("a" * 300, "b"))
VALUES = (b"null", b"1e999", b"-1", b'"\\ud800"', b"[]", b"{}", b"1" * 30, b"true", b'"x"', b"0")
NAMESPACES = ("user.", "security.", "system.")  # of attributes that a file system has, and the marks of an overlay aside
SAID = "docker passes over"  # of records for all entries, which umoci passes over as well
WHITEOUT = ("char", (0, 0))  # an entry of an archive that the two take as a device, and an overlay as a whiteout


@dataclass
class Case:
    """An image and what was done to it."""

    pick: random.Random
    path: str

    def write(self) -> None:
        """Writes the image."""
        layers = [self._layer() for _ in range(self.pick.choice((1, 1, 1, 2)))]
        spoil = self.pick.randrange(10)
        if spoil < 3:
            layers[0] = self._spoilt(layers[0])
        packed = [self._packed(layer) for layer in layers]
        if spoil == 3:
            packed[0] = self._spoilt(packed[0])
        os.mkdir(self.path)
        config: dict[str, object] = {
            "os": "linux", "architecture": "amd64", "config": {"User": "1", "Env": ["A=b"]}, "history": [],
        }
        descriptor = put_manifest(self.path, packed, layers, "linux/amd64", config)
        put_index(self.path, [{**descriptor, "annotations": {"org.opencontainers.image.ref.name": "t"}}])
        if spoil in (4, 5):
            self._spoil_document()

    def _layer(self) -> bytes:
        odd = self.pick.random() < 0.3
        names: list[str] = []
        data = archive([self._entry(odd, names) for _ in range(self.pick.randrange(9))]).rstrip(b"\0")
        data += bytes(-len(data) % 512)
        if self.pick.random() < 0.1:
            data = _global_records(dict([self.pick.choice(RECORDS)])) + data
        return data + bytes(1024)

    def _entry(self, odd: bool, names: list[str]) -> tuple[tarfile.TarInfo, bytes]:
        """An entry, odd at times, mostly of a name that wasn't given before."""
        pick = self.pick
        strange = odd and pick.random() < 0.3
        kind = pick.choice(ODD_KINDS if strange and pick.random() < 0.3 else KINDS)
        name = pick.choice(ODD_NAMES if strange and pick.random() < 0.6 else NAMES)
        data = pick.choice((b"", b"abc", b"x" * 511, b"y" * 513)) if kind in (tarfile.REGTYPE, tarfile.AREGTYPE) else b""
        pax = dict([pick.choice(ODD_RECORDS if strange else RECORDS)]) if pick.random() < 0.3 else {}
        if "GNU.sparse.map" in pax:
            pax["GNU.sparse.size"], data = "9", b"abc"
        targets = names if kind == tarfile.LNKTYPE and names else [*NAMES, "../x", "/a", ""]
        info, _ = member(name, kind=kind, target=pick.choice(targets), mode=pick.choice((0o644, 0o4755, 0, 0o1777)), pax=pax)
        names.append(name)
        info.size, info.mtime = len(data), pick.choice((0, 1, 1_700_000_000))
        info.uid, info.gid = pick.choice((0, 0, 1000, 65_534)), pick.choice((0, 5))
        info.devmajor, info.devminor = pick.choice((0, 1, 7)), pick.choice((0, 3, 9))
        return info, data

    def _packed(self, layer: bytes) -> bytes:
        sort = self.pick.randrange(6)
        if sort == 0:
            return gzip.compress(layer, mtime=0)
        if sort == 1:
            half = len(layer) // 2
            return gzip.compress(layer[:half], mtime=0) + gzip.compress(layer[half:], mtime=0)
        if sort == 2 and shutil.which("zstd"):
            return subprocess.run(["zstd", "-q"], input=layer, stdout=subprocess.PIPE, check=True).stdout
        return layer

    def _spoilt(self, data: bytes) -> bytes:
        pick = self.pick
        for _ in range(pick.randrange(1, 3)):
            at = pick.randrange(len(data))
            data = pick.choice((
                data[:at] + data[at + pick.randrange(1, 600):], data[:at] + pick.randbytes(pick.randrange(1, 9)) + data[at:],
                data[:at] + pick.randbytes(1) + data[at + 1:], data[:at],
            )) or b"x"
        return _with_checksums(data) if pick.random() < 0.5 else data

    def _spoil_document(self) -> None:
        """Changes a value or a name of a document, and names it anew where it is named."""
        blobs = f"{self.path}/blobs/sha256"
        documents = [f"{self.path}/index.json", *(entry.path for entry in os.scandir(blobs) if _is_document(entry.path))]
        path = self.pick.choice(sorted(documents))
        with open(path, "rb") as file:
            old = file.read()
        parts = re.split(rb"([:\[,{])", old)
        at = self.pick.randrange(len(parts))
        parts[at] = self.pick.choice((*VALUES, parts[at].swapcase(), parts[at] + b"," + parts[at], parts[at][1:]))
        self._put(path, old, b"".join(parts))

    def _put(self, path: str, old: bytes, new: bytes) -> None:
        """Puts a document in the place of another, and so in all that name it by its digest and size."""
        before, after = (hashlib.sha256(data).hexdigest() for data in (old, new))
        os.unlink(path)
        with open(path.replace(before, after), "wb") as file:
            file.write(new)
        for entry in [*os.scandir(self.path), *os.scandir(f"{self.path}/blobs/sha256")]:
            if entry.is_file() and _is_document(entry.path):
                with open(entry.path, "rb") as file:
                    data = file.read()
                changed = data.replace(before.encode(), after.encode())
                if changed != data:
                    size = (b'"size": %d' % len(old), b'"size": %d' % len(new))
                    self._put(entry.path, data, changed.replace(*size) if len(old) != len(new) else changed)


ODD_FILES = (b"\xff", b"a\n", b"\x1b[2J", b"x" * 255, b".wh.a", b"\xed\xa0\x80", b" ", b"-", b"--help")
ATTRIBUTES = ("user.k", "user." + "n" * 200, "user.overlay.opaque", "trusted.overlay.opaque", "trusted.overlay.redirect",
              "trusted.overlay.metacopy", "trusted.overlay.overlay.opaque", "security.capability")


def write_folder(pick: random.Random, path: bytes, depth: int = 0) -> None:
    """Writes the folder of a layer with odd names, kinds, attributes and links, some of which can't be stated."""
    os.mkdir(path)
    written: list[bytes] = []
    for _ in range(pick.randrange(7)):
        odd = pick.random() < 0.03
        place = path + b"/" + (pick.choice(ODD_FILES) if odd else pick.choice(NAMES[:9]).replace("/", "_").encode())
        if not os.path.lexists(place):
            _write_entry(pick, place, written, depth)
            written.append(place)
    _attribute(pick, path)


def _write_entry(pick: random.Random, place: bytes, written: list[bytes], depth: int) -> None:
    kind = pick.choice("dddfffffslcbpk" if depth < 4 else "fffslp")
    files = [it for it in written if os.path.isfile(it) and not os.path.islink(it)]
    if kind == "d":
        write_folder(pick, place, depth + 1)
    elif kind == "l" and files:
        os.link(pick.choice(files), place)
    elif kind == "s":
        os.symlink(pick.choice((b"a", b"/" + b"t" * 4_000, b"\xff", b"..")), place)
    elif kind in "cbp":
        mode = {"c": stat.S_IFCHR, "b": stat.S_IFBLK, "p": stat.S_IFIFO}[kind]
        os.mknod(place, mode | 0o600, os.makedev(pick.choice((0, 1)), pick.choice((0, 3))))
    elif kind == "k":
        with contextlib.suppress(OSError), socket.socket(socket.AF_UNIX) as made:
            made.bind(place)
    else:
        _write_file(pick, place)


def _write_file(pick: random.Random, place: bytes) -> None:
    with open(place, "wb") as file:
        file.write(pick.choice((b"", b"abc", b"x" * 5_000)))
    os.chmod(place, pick.choice((0o644, 0o4755, 0)))
    with contextlib.suppress(OSError):
        os.utime(place, ns=(0, pick.choice((0, -1_500_000_000, 1 << 61))))
    _attribute(pick, place)


def _attribute(pick: random.Random, place: bytes) -> None:
    """Now and then an attribute."""
    if pick.random() < 0.2:
        with contextlib.suppress(OSError):
            os.setxattr(place, pick.choice(ATTRIBUTES), pick.choice((b"", b"y", b"/x", b"a/b")))


def _is_document(path: str) -> bool:
    with open(path, "rb") as file:
        return file.read(1) == b"{"


def _with_checksums(data: bytes) -> bytes:
    """The same archive, its first headers with the checksums that they should have."""
    out = bytearray(data)
    for place in range(0, min(len(out) - 511, 4096), 512):
        if out[place + 257:place + 262] == b"ustar":
            out[place + 148:place + 156] = b" " * 8
            out[place + 148:place + 156] = b"%06o\0 " % sum(out[place:place + 512])
    return bytes(out)


def _global_records(records: dict[str, str]) -> bytes:
    text = b"".join(pax_record(key.encode(), value.encode()) for key, value in records.items())
    info, _ = member("g", kind=b"g")
    info.size = len(text)
    return info.tobuf(tarfile.GNU_FORMAT) + text + bytes(-len(text) % 512)


@dataclass
class Result:
    """What came of some cases: how many of each kind, and what is wrong."""

    kinds: collections.Counter[str]
    reasons: collections.Counter[str]
    wrong: list[str]


def run_cases(seed: int, numbers: Iterable[int], umoci: int, folders: bool) -> Result:
    """Runs cases in a folder of their own; this many of those that are read are unpacked by umoci too."""
    result = Result(collections.Counter(), collections.Counter(), [])
    with tempfile.TemporaryDirectory(prefix="layers-hostile-") as room:
        for number in numbers:
            pick = random.Random(f"{seed}/{number}")
            if folders:
                write_folder(pick, os.fsencode(f"{room}/image"))
                problem, kind, reason = _run(room, ["scan", f"{room}/image", "--digests-only", "--out"])
            else:
                Case(pick, f"{room}/image").write()
                problem, kind, reason = _run(room, ["unpack", f"{room}/image", "--out"])
            result.reasons[reason] += 1
            if kind == "read" and umoci > 0 and problem is None:
                umoci -= 1
                problem, kind = _beside_umoci(room, kind)
            result.kinds[kind] += 1
            if problem:
                result.wrong.append(f"{seed}/{number}: {problem}")
            for name in os.listdir(room):
                path = f"{room}/{name}"
                shutil.rmtree(path) if os.path.isdir(path) else os.unlink(path)
    taken = resource.getrusage(resource.RUSAGE_SELF).ru_maxrss * 1024
    if taken > MEMORY:
        result.wrong.append(f"{seed}/{numbers}: {taken:,} bytes of memory")
    return result


def _run(room: str, words: list[str]) -> tuple[str | None, str, str]:
    """What is wrong with what the converter does of the image, whether it reads it, and why not."""
    begun, said = time.process_time(), io.StringIO()
    try:
        with contextlib.redirect_stderr(said), contextlib.redirect_stdout(io.StringIO()):
            status = cli.main([*words, f"{room}/out"])
    except BaseException:  # pylint: disable=broad-except
        return f"a traceback: {traceback.format_exc()}", "traceback", ""
    took, lines = time.process_time() - begun, said.getvalue().splitlines()
    left = sorted({*os.listdir(room)} - {"out.links"} if status == 0 else os.listdir(room))
    if status not in (0, 3) or took > SECONDS:
        return f"status {status} in {took:.1f} s: {lines[-1:]}", "wrong", ""
    if left != ["image", "out"] if status == 0 else left != ["image"]:
        return f"status {status}, and there are {left}", "wrong", ""
    if status == 3 and (not lines or not lines[-1].startswith("layers: cannot read ")):
        return f"refused without its reason: {lines[-1:]}", "wrong", ""
    if not all(line.isprintable() for line in lines):
        return f"a line that isn't printable: {lines}", "wrong", ""
    if status == 0:
        return None, "read with records for all" if any(SAID in line for line in lines) else "read", ""
    return None, "refused", re.sub(r"sha\d+:\w+|\d[\d,]*", "N", lines[-1].rpartition(": ")[2])[:90]


def _beside_umoci(room: str, kind: str) -> tuple[str | None, str]:
    """What is different in the tree that umoci unpacks."""
    done = subprocess.run(
        ["umoci", "raw", "unpack", "--image", f"{room}/image:t", f"{room}/tree"],
        stdout=subprocess.DEVNULL, stderr=subprocess.PIPE, text=True, check=False,
    )
    if done.returncode != 0:
        return None, "refused by umoci"
    if os.path.exists(f"{room}/out/l1.json"):
        return None, kind
    ours, theirs = dict(_stated(f"{room}/out")), dict(walked(f"{room}/tree"))
    different = [path for path in sorted({*ours, *theirs}) if ours.get(path) != theirs.get(path)]
    if not different:
        return None, "equal"
    path = different[0]
    return f"{path!r}: {ours.get(path)} here, {theirs.get(path)} of umoci", "different"


State = tuple[object, ...]


def _stated(folder: str) -> Iterator[tuple[str, State]]:
    """What a layer's manifest says of each path but for whiteouts, and for times of directories."""
    for entry in read_manifest(f"{folder}/l0.json"):
        if not is_whiteout(entry) and entry.path != "/":
            yield entry.path, _state_of(entry)


def _state_of(entry: Entry) -> State:
    attributes = {name: value for name, value in entry.attributes.items() if name.startswith(NAMESPACES)}
    mode = 0o777 if entry.kind == "symlink" else entry.mode
    device = (entry.major, entry.minor) if entry.kind in ("char", "block") else None
    time_ns = None if entry.kind == "dir" else entry.mtime_ns
    return entry.kind, mode, entry.uid, entry.gid, time_ns, entry.blob, entry.target or None, device, tuple(sorted(attributes.items()))


def walked(folder: str) -> Iterator[tuple[str, State]]:
    """The same of a tree."""
    for way, folders, files in os.walk(folder):
        for name in [*folders, *files]:
            path = f"{way}/{name}"
            status = os.lstat(path)
            kind = _KIND_OF[stat.S_IFMT(status.st_mode)]
            blob = None
            if kind == "file" and status.st_size:
                with open(path, "rb") as file:
                    blob = hashlib.sha256(file.read()).hexdigest()
            device = (os.major(status.st_rdev), os.minor(status.st_rdev)) if kind in ("char", "block") else None
            attributes = {it: os.getxattr(path, it, follow_symlinks=False) for it in os.listxattr(path, follow_symlinks=False)}
            if (kind, device) == WHITEOUT:
                continue
            yield path[len(folder):], (
                kind, stat.S_IMODE(status.st_mode), status.st_uid, status.st_gid,
                None if kind == "dir" else status.st_mtime_ns, blob,
                os.readlink(path) if kind == "symlink" else None, device, tuple(sorted(attributes.items())),
            )


_KIND_OF = {
    stat.S_IFDIR: "dir", stat.S_IFREG: "file", stat.S_IFLNK: "symlink", stat.S_IFCHR: "char", stat.S_IFBLK: "block",
    stat.S_IFIFO: "fifo", stat.S_IFSOCK: "socket",
}


def main() -> int:
    """Runs all cases; 0 if nothing is wrong."""
    parser = argparse.ArgumentParser(description=__doc__, formatter_class=argparse.RawDescriptionHelpFormatter)
    parser.add_argument("--seed", type=int, default=1)
    parser.add_argument("--count", type=int, default=2_000)
    parser.add_argument("--first", type=int, default=0, help="the number of the first case")
    parser.add_argument("--folders", action="store_true", help="scans folders in place of unpacking images")
    parser.add_argument("--umoci", type=int, default=0, help="how many trees are compared with those of umoci")
    parser.add_argument("--reasons", action="store_true", help="prints why images are refused, and how often")
    parser.add_argument("--workers", type=int, default=len(os.sched_getaffinity(0)))
    words = parser.parse_args()
    starts = range(words.first, words.first + words.count, CHUNK)
    share = -(-words.umoci // max(1, len(starts)))
    total = Result(collections.Counter(), collections.Counter(), [])
    with concurrent.futures.ProcessPoolExecutor(words.workers) as pool:
        ends = (min(start + CHUNK, words.first + words.count) for start in starts)
        jobs = [pool.submit(run_cases, words.seed, range(start, end), share, words.folders) for start, end in zip(starts, ends)]
        for job in concurrent.futures.as_completed(jobs):
            result = job.result()
            total.kinds.update(result.kinds)
            total.reasons.update(result.reasons)
            total.wrong += result.wrong
    if words.reasons:
        for reason, count in total.reasons.most_common():
            print(f"{count:7} {reason or 'read'}")
    for line in sorted(total.wrong)[:40]:
        print(line)
    print(", ".join(f"{count} {kind}" for kind, count in sorted(total.kinds.items())))
    print(f"{words.count} cases, {len(total.wrong)} wrong")
    return 1 if total.wrong else 0


if __name__ == "__main__":
    sys.exit(main())
