"""Small images that cost much: each stays within the time and memory that the converter's manual promises."""

import gzip
import hashlib
import json
import os
import subprocess
import sys
import tarfile
import unittest
import zlib
from collections.abc import Iterable

from images import archive, folder, member, put_index, put_manifest, write_layout
from support import COMMAND, ROOT, FolderTest

MEGABYTE = 1_000_000
SECONDS, SECONDS_A_MEGABYTE = 2.0, 0.02  # of processor, beside what Python's start takes
START = 1.0
MEMORY = 300 * MEGABYTE
_BLOCK = 512  # bytes, in which the system counts what a process writes and archives are made
_ENTRY_MEMORY, _ENTRIES = 275, 50_000  # bytes of an entry, with what reading a long layer takes
_WITH_PEAK = """
import sys
sys.path.insert(0, sys.argv[1])
from convert.cli import main
status = main(sys.argv[2:])
with open("/proc/self/status", encoding="ascii") as lines:
    print(next(line.split()[1] for line in lines if line.startswith("VmHWM:")))
sys.exit(status)
"""


class Bounds(FolderTest):
    """Unpacks images, and looks at what that took."""

    def require_bounded(self, image: str, unpacked_megabytes: float, status: int, words: str) -> int:
        """The image ends with this status and words, within the bounds. Gives how many bytes were written to disks."""
        command = [sys.executable, "-B", str(COMMAND), "unpack", self.path(image), "--out", self.path("out")]
        with open(self.path("said"), "w+", encoding="utf-8") as said:
            process = subprocess.Popen(command, stderr=said, env={**os.environ, "TMPDIR": self.path("")})
            _, ended, used = os.wait4(process.pid, 0)
            process.returncode = os.waitstatus_to_exitcode(ended)
            said.seek(0)
            text = said.read()
        self.assertEqual(process.returncode, status, text[-2_000:])
        self.assertIn(words, text)
        self.assertLess(used.ru_utime + used.ru_stime, START + SECONDS + SECONDS_A_MEGABYTE * unpacked_megabytes)
        self.assertLess(used.ru_maxrss * 1024, MEMORY)
        return used.ru_oublock * _BLOCK

    def put(self, name: str, pieces: Iterable[bytes]) -> float:
        """Writes a file packed by gzip; gives how many megabytes it unpacks to."""
        packer, size = zlib.compressobj(1, zlib.DEFLATED, 31), 0
        with open(self.path(name), "wb") as file:
            for piece in pieces:
                size += len(piece)
                file.write(packer.compress(piece))
            file.write(packer.flush())
        return size / MEGABYTE

    def test_many_empty_gzip_members(self) -> None:
        layer = archive([folder("./")])
        write_layout(self.path("image"), [gzip.compress(layer, mtime=0) + gzip.compress(b"", mtime=0) * 400_000])
        self.require_bounded("image", 8, 3, "members, which unpack to")

    def test_many_names_of_one_image(self) -> None:
        os.mkdir(self.path("image"))
        descriptor = put_manifest(self.path("image"), [archive([folder("./")])], None, "linux/amd64")
        named = [
            {**descriptor, "annotations": {"org.opencontainers.image.ref.name": str(number)}} for number in range(14_000)
        ]
        put_index(self.path("image"), named)
        self.require_bounded("image", 4, 0, "")

    def test_long_names_in_the_archive_of_an_image(self) -> None:
        size = self.put("image.tar.gz", [_long_name()] * 100)
        self.require_bounded("image.tar.gz", size, 3, "a name of over 4,095 bytes")
        size = self.put("image.tar.gz", [_entry("n" * 4_000)] * 5_000)
        self.require_bounded("image.tar.gz", size, 3, "over 16,777,216 bytes of their names")

    def test_zeros_packed_as_a_whole(self) -> None:
        """They take no room on the disk (which a folder in memory doesn't show)."""
        info = tarfile.TarInfo("zeros")
        info.size = 1 << 30
        size = self.put("image.tar.gz", [info.tobuf(), *[bytes(1 << 24)] * 64, bytes(1024)])
        self.assertLess(self.require_bounded("image.tar.gz", size, 3, "it is no image"), 64 * MEGABYTE)

    def test_a_deep_configuration(self) -> None:
        deep = "[" * 60 + "]" * 60
        config = {"os": "linux", "architecture": "amd64", "x": []}
        text = json.dumps(config, separators=(",", ":")).replace("[]", "[" + ",".join([deep] * 4_000) + "]")
        os.mkdir(self.path("image"))
        descriptor = put_manifest(self.path("image"), [archive([folder("./")])], None, "linux/amd64")
        put_index(self.path("image"), [_with_config(self.path("image"), descriptor, text.encode())])
        self.require_bounded("image", len(text) / MEGABYTE, 0, "")

    def test_what_entries_take(self) -> None:
        """In one directory, and with two layers, the lower of which is held."""
        few, many = _contents(1), _contents(_ENTRIES)
        least = self.peak([few, few])
        for layers in ([many], [many, few]):
            self.assertLess(self.peak(layers) - least, _ENTRY_MEMORY * _ENTRIES)

    def peak(self, layers: list[bytes]) -> int:
        """The most memory that a process takes which unpacks these layers."""
        self.empty()
        write_layout(self.path("image"), [gzip.compress(layer, 1) for layer in layers])
        command = [sys.executable, "-B", "-c", _WITH_PEAK, str(ROOT), "unpack", self.path("image"), "--out", self.path("out")]
        return int(subprocess.run([*command, "--digests-only"], check=True, capture_output=True).stdout) * 1024

    def test_many_headers_in_the_archive_of_an_image(self) -> None:
        size = self.put("image.tar.gz", [_entry("d", tarfile.DIRTYPE) * 1_000] * 400)
        self.require_bounded("image.tar.gz", size, 3, "over 100,000 files in its archive")


def _contents(count: int) -> bytes:
    """An archive of so many files, each of other contents and times."""
    pieces = [folder("./")[0].tobuf()]
    for number in range(count):
        info, data = member(f"file-{number:06}", b"%d" % number)
        info.mtime = 1_700_000_000 + number
        pieces += [info.tobuf(tarfile.USTAR_FORMAT), data.ljust(_BLOCK, b"\0")]
    return b"".join([*pieces, bytes(2 * _BLOCK)])


def _long_name() -> bytes:
    """An entry whose name takes four bytes a character in memory."""
    return member("x", pax={"path": "\U0001f600" + "p" * 1_000_000})[0].tobuf(tarfile.PAX_FORMAT)


def _entry(name: str, kind: bytes = tarfile.REGTYPE) -> bytes:
    return member(name, kind=kind)[0].tobuf(tarfile.GNU_FORMAT)


def _with_config(path: str, descriptor: dict[str, object], config: bytes) -> dict[str, object]:
    """The descriptor of an image with another configuration."""
    with open(f"{path}/blobs/sha256/{str(descriptor['digest'])[7:]}", encoding="utf-8") as file:
        manifest = json.load(file)
    manifest["config"] |= _put(path, config)
    return descriptor | _put(path, json.dumps(manifest).encode())


def _put(path: str, data: bytes) -> dict[str, object]:
    digest = hashlib.sha256(data).hexdigest()
    with open(f"{path}/blobs/sha256/{digest}", "wb") as file:
        file.write(data)
    return {"digest": f"sha256:{digest}", "size": len(data)}


if __name__ == "__main__":
    unittest.main(argv=sys.argv)
