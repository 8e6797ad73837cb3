"""OCI image layouts to measure with, the same bytes for the same parameters: files whose bytes gzip packs to about a third."""
import gzip
import hashlib
import io
import itertools
import json
import os
import random
import tarfile
from collections.abc import Iterable, Iterator
from concurrent.futures import ProcessPoolExecutor
from dataclasses import dataclass
from functools import cache

TAG = "x"
POOL = 24 << 20  # bytes that the contents of files are cut from
SHARES = (0.38, 0.25, 0.17, 0.12, 0.08)  # of an image's bytes that its layers have, the lowest first
REPLACED = 0.05  # of the files so far that a layer has anew
IN_FOLDER = 250
GZIP_LEVEL = 6
TIME = 1_700_000_000


@dataclass(frozen=True)
class Made:
    """An image: its layout, the archives of its layers, and how many bytes of files it shows."""

    layout: str
    layers: list[str]
    shown: int


@dataclass(frozen=True)
class _File:
    """A file of a layer: its number, of which its name comes, its size, and which of its contents it has."""

    number: int
    size: int
    turn: int = 0


def many_bytes(folder: str, size: int, files: int, layers: int) -> Made:
    """An image of this many bytes in all: files of very different sizes, of which the layers above replace some."""
    pick = random.Random(7)
    weights = [pick.lognormvariate(0, 1.8) for _ in range(files)]
    unit = size / sum(weights)
    given = [_File(number, int(weight * unit)) for number, weight in enumerate(weights)]
    return _written(folder, list(_with_replaced(pick, list(_cut(given, layers)))))


def many_files(folder: str, size: int, files: int) -> Made:
    """An image of one layer with many files of one size."""
    return _written(folder, [[_File(number, size) for number in range(files)]])


def _cut(files: list[_File], layers: int) -> Iterator[list[_File]]:
    """The files by layers: of five some have more than others, of more all have as many."""
    shares = SHARES if layers == len(SHARES) else (1 / layers,) * layers
    ends = [round(end * len(files)) for end in itertools.accumulate(shares)]
    for begin, end in zip([0, *ends], ends):
        yield files[begin:end]


def _with_replaced(pick: random.Random, layers: list[list[_File]]) -> Iterator[list[_File]]:
    """The layers, in each of which some files take the place of ones below."""
    below: list[_File] = []
    for turn, layer in enumerate(layers):
        count = int(REPLACED * len(layer)) if below else 0
        yield layer + [_File(file.number, file.size, turn) for file in pick.sample(below, min(count, len(below)))]
        below += layer


def _written(folder: str, layers: list[list[_File]]) -> Made:
    os.makedirs(f"{folder}/blobs/sha256")
    with ProcessPoolExecutor() as processes:
        written = list(processes.map(_write_layer, itertools.repeat(folder), layers))
    config: dict[str, object] = {
        "architecture": "amd64", "os": "linux", "config": {},
        "rootfs": {"type": "layers", "diff_ids": [f"sha256:{unpacked}" for _, unpacked in written]},
    }
    manifest: dict[str, object] = {
        "schemaVersion": 2, "config": _described(folder, "image.config.v1+json", _json(config)).json(),
        "layers": [layer.json() for layer, _ in written],
    }
    described = _described(folder, "image.manifest.v1+json", _json(manifest))
    names: dict[str, object] = {"annotations": {"org.opencontainers.image.ref.name": TAG}}
    listed = {**described.json(), **names}
    _put(f"{folder}/index.json", _json({"schemaVersion": 2, "manifests": [listed]}))
    _put(f"{folder}/oci-layout", _json({"imageLayoutVersion": "1.0.0"}))
    paths = [_place(folder, layer.digest) for layer, _ in written]
    sizes = {file.number: file.size for layer in layers for file in layer}
    return Made(folder, paths, sum(sizes.values()))


def _write_layer(folder: str, files: list[_File]) -> tuple["_Blob", str]:
    """Writes a layer's archive; gives what it is, and the digest of its bytes before they were packed."""
    data = _archive(files)
    kind = "image.layer.v1.tar+gzip"
    return _described(folder, kind, gzip.compress(data, GZIP_LEVEL, mtime=0)), hashlib.sha256(data).hexdigest()


def _archive(files: Iterable[_File]) -> bytes:
    out, folders = io.BytesIO(), set[str]()
    with tarfile.open(fileobj=out, mode="w", format=tarfile.USTAR_FORMAT) as archive:
        for file in sorted(files, key=lambda file: file.number):
            way = f"usr/lib/directory-{file.number // IN_FOLDER:04d}"
            if way not in folders:
                folders.add(way)
                archive.addfile(_info(way, tarfile.DIRTYPE, 0o755))
            info = _info(f"{way}/file-{file.number:06d}.so", tarfile.REGTYPE, 0o644, file.size)
            archive.addfile(info, io.BytesIO(_contents(file)))
    return out.getvalue()


def _info(name: str, kind: bytes, mode: int, size: int = 0) -> tarfile.TarInfo:
    info = tarfile.TarInfo(name)
    info.type, info.mode, info.size, info.mtime = kind, mode, size, TIME
    return info


def _contents(file: _File) -> bytes:
    """Bytes of its own, whatever others have."""
    pool, pick = _pool(), random.Random(f"{file.number} {file.turn}")
    data = bytearray(pick.randbytes(16))
    while len(data) < file.size:
        begin = pick.randrange(POOL)
        data += pool[begin:begin + file.size - len(data)]
    return bytes(data[:file.size])


@cache
def _pool() -> bytes:
    """Words, of which some are frequent, and now and then bytes that can't be packed, as programs have them."""
    pick = random.Random(11)
    words = [pick.randbytes(pick.randint(3, 16)) for _ in range(1_500)]
    weights = [1 / (number + 4) for number in range(len(words))]
    pool = bytearray()
    while len(pool) < POOL:
        pool += b"".join(pick.choices(words, weights, k=12_000))
        pool += pick.randbytes(2_000)
    return bytes(pool[:POOL])


def _json(value: object) -> bytes:
    return json.dumps(value, separators=(",", ":"), sort_keys=True).encode()


@dataclass(frozen=True)
class _Blob:
    """A blob of a layout, as a descriptor has it."""

    kind: str
    digest: str
    size: int

    def json(self) -> dict[str, object]:
        """The descriptor."""
        return {"mediaType": f"application/vnd.oci.{self.kind}", "digest": f"sha256:{self.digest}", "size": self.size}


def _described(folder: str, kind: str, data: bytes) -> _Blob:
    """Writes a blob; gives what it is."""
    digest = hashlib.sha256(data).hexdigest()
    _put(_place(folder, digest), data)
    return _Blob(kind, digest, len(data))


def _place(folder: str, digest: str) -> str:
    return f"{folder}/blobs/sha256/{digest}"


def _put(path: str, data: bytes) -> None:
    with open(path, "wb") as file:
        file.write(data)
