#!/usr/bin/env python3
"""Writes a large layer manifest, the same bytes for the same parameters.

Python 3.11, standard library. The manifest is valid: compact text with sorted
members, entries in path order (name by name as bytes, so a directory's subtree
follows it directly), every parent a directory listed before. It is written as
it is made, so memory stays small however many entries there are. In version 2
half of the times are not whole seconds; all else is the same in both versions.

    python3 tests/makers/generate.py --entries 100000 > layer.json
    python3 tests/makers/generate.py --self-test
"""
import argparse
import hashlib
import json
import random
import sys
from collections.abc import Iterator
from typing import BinaryIO

MOST_ENTRIES = 1_048_576
MOST_NAMES = {1: 64, 2: 128}
LAST = max(MOST_NAMES)
MOST_BYTES = 268_435_456  # of one manifest, read by the program
PIECES = 4096             # pieces that names are made of
FLUSH = 4096              # entries written at once

ENDS = ("", "", "", "", ".so", ".py", ".conf", ".txt", ".h", "-1.2", "_x", "+")
OWNERS = ('0', '0', '0', '0', '0', '0', '33', '1000')
FILE_MODES = (420, 420, 420, 420, 420, 493, 493, 384)
DIR_MODES = (493, 493, 493, 493, 493, 493, 448, 509)
LABELS = ("system_u:object_r:etc_t:s0\0", "system_u:object_r:bin_t:s0\0",
          "system_u:object_r:lib_t:s0\0", "unconfined_u:object_r:user_home_t:s0\0")


def pieces(rng: random.Random) -> list[str]:
    """Short words of 2 to 6 letters."""
    soft, hard = "aeiou", "bcdfghklmnprstvz"
    out = []
    for _ in range(PIECES):
        length = 2 + rng.getrandbits(16) % 5
        out.append("".join((hard, soft)[k % 2][rng.getrandbits(16) % (16, 5)[k % 2]]
                           for k in range(length)))
    return out


class Generator:
    def __init__(self, entries: int, fan_out: int = 24, depth: int = 16, attributes: float = 0.05, seed: int = 1,
                 whiteouts: float = 0.0, opaque: float = 0.0, empty: bool = False, version: int = LAST) -> None:
        if not 1 <= entries <= MOST_ENTRIES:
            raise ValueError("entries must be 1 to %d" % MOST_ENTRIES)
        if not 1 <= fan_out <= MOST_ENTRIES:
            raise ValueError("fan-out must be 1 to %d" % MOST_ENTRIES)
        if not 1 <= depth <= MOST_NAMES[version]:
            raise ValueError("depth must be 1 to %d" % MOST_NAMES[version])
        for share in (attributes, whiteouts, opaque):
            if not 0 <= share <= 1:
                raise ValueError("a share must be 0 to 1")
        self.entries = entries
        self.fan_out = fan_out
        self.depth = depth
        # Shares are compared with 24 random bits.
        self.attributes = round(attributes * 2 ** 24)
        self.whiteouts = round(whiteouts * 2 ** 24)
        self.opaque = round(opaque * 2 ** 24)
        self.empty = empty
        self.version = version
        self.rng = random.Random(seed)
        # Of its own, so that the versions differ in nothing else.
        self.nanoseconds = random.Random("%d nanoseconds" % seed)
        self.pieces = pieces(self.rng)
        self.count = 0
        self.bytes = 0

    def lot(self, share: int) -> bool:
        return share > 0 and self.rng.getrandbits(24) < share

    def time(self, seconds: int, whole: bool = False) -> str:
        """The text of a time, after the name of its first member."""
        if self.version == 1:
            return str(seconds)
        below = 0 if whole or self.nanoseconds.getrandbits(1) else self.nanoseconds.randrange(10 ** 9)
        return '%d,"mtime-nsec":%d' % (seconds, below)

    def names(self, count: int) -> list[str]:
        """count different names of 4 to 20 bytes, in byte order."""
        bits, table = self.rng.getrandbits, self.pieces
        out: set[str] = set()
        while len(out) < count:
            r = bits(32)
            name = table[r & 4095] + table[(r >> 12) & 4095] + ENDS[(r >> 24) % 12]
            if len(out) & 7 == 7:
                name = name[:15] + "-" + format(bits(16), "04x")
            if name in out:
                # Rare, and frequent only in huge directories: make it longer.
                name = name[:11] + "-" + format(bits(32), "08x")
            out.add(name)
        return sorted(out)

    def xattrs(self, mark: str = "") -> str:
        """The text of the attributes' object; its members are sorted."""
        parts = []
        if self.lot(self.attributes):
            r = self.rng.getrandbits(16)
            if r % 3 != 0:
                parts.append('"security.selinux":"%s"' % LABELS[r >> 3 & 3].encode().hex())
            if mark:
                parts.append(mark)
            if r % 3 != 1:
                parts.append('"user.k":"%04x"' % r)
        elif mark:
            parts.append(mark)
        return "{" + ",".join(parts) + "}"

    def directory(self, path: str, mark: str = "") -> str:
        r = self.rng.getrandbits(32)
        owner = OWNERS[r >> 3 & 7]
        return ('{"gid":%s,"kind":"dir","mode":%d,"mtime":%s,"path":"%s","uid":%s,"xattrs":%s}'
                % (owner, DIR_MODES[r & 7], self.time(1_500_000_000 + (r >> 6)), path, owner, self.xattrs(mark)))

    def other(self, path: str) -> str:
        """An entry that isn't a directory: mostly a file."""
        if self.lot(self.whiteouts):
            return ('{"gid":0,"kind":"char","major":0,"minor":0,"mode":0,"mtime":%s,"path":"%s",'
                    '"uid":0,"xattrs":{}}' % (self.time(0, whole=True), path))
        r = self.rng.getrandbits(48)
        owner = OWNERS[r >> 3 & 7]
        mtime = self.time(1_500_000_000 + (r >> 6 & 0xFFFFFFF))
        what = (r >> 34) % 1000
        xattrs = self.xattrs()
        if what < 940 and not self.empty:
            size = 1 + (r >> 8 & (1 << (4 + r % 17)) - 1)
            blob = hashlib.sha256(path.encode()).hexdigest()
            return ('{"blob":"%s","gid":%s,"kind":"file","mode":%d,"mtime":%s,"path":"%s","size":%d,'
                    '"uid":%s,"xattrs":%s}'
                    % (blob, owner, FILE_MODES[r & 7], mtime, path, size, owner, xattrs))
        if what < 960:
            return ('{"gid":%s,"kind":"file","mode":%d,"mtime":%s,"path":"%s","size":0,"uid":%s,'
                    '"xattrs":%s}' % (owner, FILE_MODES[r & 7], mtime, path, owner, xattrs))
        if what < 994:
            up = "../" * (r >> 20 & 3)
            target = up + self.pieces[r & 4095] + "/" + self.pieces[r >> 12 & 4095]
            return ('{"gid":%s,"kind":"symlink","mode":511,"mtime":%s,"path":"%s","target":"%s",'
                    '"uid":%s,"xattrs":%s}' % (owner, mtime, path, target, owner, xattrs))
        if what < 998:
            return ('{"gid":%s,"kind":"%s","major":%d,"minor":%d,"mode":432,"mtime":%s,"path":"%s",'
                    '"uid":%s,"xattrs":%s}'
                    % (owner, ("char", "block")[what & 1], 1 + (r >> 9 & 255), r >> 17 & 255,
                       mtime, path, owner, xattrs))
        return ('{"gid":%s,"kind":"%s","mode":384,"mtime":%s,"path":"%s","uid":%s,"xattrs":%s}'
                % (owner, ("fifo", "socket")[what & 1], mtime, path, owner, xattrs))

    def below(self, path: str, left: int, room: int) -> Iterator[str]:
        """The entries under a directory: room of them, at most left names deeper."""
        if room == 0:
            return
        rng = self.rng
        if left == 1 or room <= self.fan_out:
            # All directly below; a few of them are empty directories.
            for name in self.names(room):
                at = path + "/" + name
                if rng.getrandbits(5) == 0:
                    yield self.directory(at, self.opaque_mark())
                else:
                    yield self.other(at)
            return
        width = max(1, self.fan_out // 2 + rng.getrandbits(24) % (self.fan_out + 1))
        width = min(width, room)
        dirs = max(1, width // 3)
        # Enough directories that the levels left can hold the rest.
        while dirs < room and dirs * self.fan_out ** min(left - 1, 20) < room:
            dirs += 1 + dirs // 4
        dirs = min(dirs, room)
        width = max(width, dirs)
        rest = room - width
        weights = [1 + rng.getrandbits(10) for _ in range(dirs)]
        total = sum(weights)
        shares, before, seen = [], 0, 0
        for weight in weights:
            seen += weight
            upto = rest * seen // total
            shares.append(upto - before)
            before = upto
        # Which of the names are directories.
        places: set[int] = set()
        while len(places) < dirs:
            places.add(rng.getrandbits(24) % width)
        for k, name in enumerate(self.names(width)):
            at = path + "/" + name
            if k in places:
                yield self.directory(at, self.opaque_mark())
                yield from self.below(at, left - 1, shares.pop())
            else:
                yield self.other(at)

    def opaque_mark(self) -> str:
        return '"trusted.overlay.opaque":"79"' if self.lot(self.opaque) else ""

    def all_entries(self) -> Iterator[str]:
        yield ('{"gid":0,"kind":"dir","mode":493,"mtime":%s,"path":"/","uid":0,"xattrs":{}}'
               % self.time(1_500_000_000, whole=True))
        yield from self.below("", self.depth, self.entries - 1)

    def write(self, out: BinaryIO) -> None:
        """Writes the manifest to a binary stream."""
        def put(text: str) -> None:
            data = text.encode()
            out.write(data)
            self.bytes += len(data)
        buffer = []
        put('{"entries":[')
        for entry in self.all_entries():
            buffer.append(entry)
            if len(buffer) == FLUSH:
                put(("," if self.count else "") + ",".join(buffer))
                self.count += FLUSH
                buffer.clear()
        if buffer:
            put(("," if self.count else "") + ",".join(buffer))
            self.count += len(buffer)
        put('],"overlay-layer":%d}\n' % self.version)


# ------------------------------------------------------------------ self-test

COMMON = {"gid", "kind", "mode", "mtime", "path", "uid", "xattrs"}
MORE: dict[str, set[str]] = {"dir": set(), "file": {"size"}, "symlink": {"target"}, "char": {"major", "minor"},
                             "block": {"major", "minor"}, "fifo": set(), "socket": set()}


def names_of(path: str) -> tuple[bytes, ...]:
    return () if path == "/" else tuple(name.encode() for name in path[1:].split("/"))


def wrong(data: bytes, entries: int, depth: int, version: int) -> str | None:
    """What is wrong with a manifest, or None. It reads the whole text into memory."""
    value = json.loads(data)
    again = json.dumps(value, sort_keys=True, separators=(",", ":"), ensure_ascii=False) + "\n"
    if again.encode() != data:
        return "not the compact text with sorted members and one newline"
    if set(value) != {"entries", "overlay-layer"} or value["overlay-layer"] != version:
        return "wrong shape"
    if len(value["entries"]) != entries:
        return "%d entries in place of %d" % (len(value["entries"]), entries)
    directories, before = set(), names_of("/")
    for n, e in enumerate(value["entries"]):
        at = names_of(e["path"])
        want = COMMON | MORE[e["kind"]] | ({"mtime-nsec"} if version == 2 else set())
        if e["kind"] == "file" and e["size"] > 0:
            want = want | {"blob"}
            if len(e["blob"]) != 64 or set(e["blob"]) - set("0123456789abcdef"):
                return "entry %d: blob" % n
        if set(e) != want:
            return "entry %d: members" % n
        if not 0 <= e["mode"] <= 4095 or not 0 <= e.get("size", 0) < 2 ** 63 or not 0 <= e.get("mtime-nsec", 0) < 10 ** 9:
            return "entry %d: numbers" % n
        for value_text in e["xattrs"].values():
            if bytes.fromhex(value_text).hex() != value_text:
                return "entry %d: attribute" % n
        if n == 0:
            if e["path"] != "/" or e["kind"] != "dir":
                return "no root first"
        else:
            if not at > before:
                return "entry %d: order" % n
            if at[:-1] not in directories:
                return "entry %d: parent" % n
            if not 4 <= len(at[-1]) <= 20:
                return "entry %d: length of the name" % n
        if len(at) > depth or len(e["path"].encode()) > 4095:
            return "entry %d: depth" % n
        if e["kind"] == "dir":
            directories.add(at)
        before = at
    return None


def self_test() -> None:
    import io
    tried = 0
    for entries in (1, 2, 3, 10, 100, 1000, 5000):
        for fan_out, depth, version in ((24, 16, 1), (1, 64, 1), (24, 16, 2), (1, 128, 2), (2, 64, 2), (3, 8, 2), (40, 2, 2),
                                        (500, 3, 2), (12, 1, 2)):
            for seed in (1, 2):
                for attributes, whiteouts, opaque in ((0.05, 0, 0), (1, 0.1, 0.5), (0, 1, 1)):
                    made = []
                    for _ in range(2):
                        out = io.BytesIO()
                        g = Generator(entries, fan_out, depth, attributes, seed, whiteouts, opaque, version=version)
                        g.write(out)
                        made.append(out.getvalue())
                    fault = "not the same bytes twice" if made[0] != made[1] else \
                        wrong(made[0], entries, depth, version)
                    if fault or g.count != entries or g.bytes != len(made[0]):
                        sys.exit("self-test: entries %d fan-out %d depth %d version %d seed %d: %s"
                                 % (entries, fan_out, depth, version, seed, fault or "counts"))
                    tried += 1
    print("self-test: %d manifests, nothing wrong" % tried)


def main() -> None:
    words = argparse.ArgumentParser(description="Writes a large layer manifest.")
    words.add_argument("--entries", type=int, default=100_000, help="entries, the root counted (default 100000)")
    words.add_argument("--fan-out", type=int, default=24, help="a directory with directories below it holds half to one and a half times as many entries (default 24); more if --depth leaves no other place")
    words.add_argument("--depth", type=int, default=16, help="most names of a path, 1 to 128, in version 1 to 64 (default 16)")
    words.add_argument("--attributes", type=float, default=0.05, help="share of entries with extended attributes, 0 to 1 (default 0.05)")
    words.add_argument("--whiteouts", type=float, default=0.0, help="share of non-directories that are whiteouts, char 0:0 (default 0)")
    words.add_argument("--opaque", type=float, default=0.0, help="share of directories below the root that are opaque (default 0)")
    words.add_argument("--empty", action="store_true", help="files are empty, so that no contents are wanted")
    words.add_argument("--seed", type=int, default=1, help="other seeds give other layers (default 1)")
    words.add_argument("--version", type=int, choices=MOST_NAMES, default=LAST, help="version of the manifest (default %d)" % LAST)
    words.add_argument("--out", help="file to write (default: standard output)")
    words.add_argument("--self-test", action="store_true", help="make small layers of many shapes and check each")
    given = words.parse_args()
    if given.self_test:
        self_test()
        return
    try:
        generator = Generator(given.entries, given.fan_out, given.depth, given.attributes,
                              given.seed, given.whiteouts, given.opaque, given.empty, given.version)
    except ValueError as fault:
        words.error(str(fault))
    if given.out:
        with open(given.out, "wb") as out:
            generator.write(out)
    else:
        generator.write(sys.stdout.buffer)
        sys.stdout.buffer.flush()
    if generator.bytes > MOST_BYTES:
        print("generate.py: %d bytes, more than the program reads (%d)"
              % (generator.bytes, MOST_BYTES), file=sys.stderr)


if __name__ == "__main__":
    main()
