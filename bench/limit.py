#!/usr/bin/env python3
"""Does the least that flattening an image takes, by zlib and OpenSSL, for `images.py` to measure.

Each layer of gzip is read, unpacked and digested once, by as many processes as there are processors, the largest first. With
`--out` this many bytes are written to a file then, and digested once, by two threads.

    python3 bench/limit.py LAYER.. [--out FILE --bytes N]
"""
import argparse
import hashlib
import os
import zlib
from concurrent.futures import ProcessPoolExecutor, ThreadPoolExecutor

PIECE = 1 << 20
GZIP = 31  # zlib's number for a gzip header and trailer


def read(layer: str) -> str:
    """Unpacks a layer, and gives the digest of its bytes."""
    unpacker, digest = zlib.decompressobj(GZIP), hashlib.sha256()
    with open(layer, "rb", buffering=0) as file:
        while piece := file.read(PIECE):
            digest.update(unpacker.decompress(piece))
    return digest.hexdigest()


def digest_of(size: int) -> str:
    digest, piece = hashlib.sha256(), os.urandom(PIECE)
    for done in range(0, size, PIECE):
        digest.update(piece[:size - done])
    return digest.hexdigest()


def write(path: str, size: int) -> None:
    piece = os.urandom(PIECE)
    with open(path, "wb", buffering=0) as file:
        for done in range(0, size, PIECE):
            file.write(piece[:size - done])


def main() -> None:
    parser = argparse.ArgumentParser(description=__doc__, formatter_class=argparse.RawDescriptionHelpFormatter)
    parser.add_argument("layers", nargs="+", metavar="LAYER", help="archives that gzip packed")
    parser.add_argument("--out", help="file to write")
    parser.add_argument("--bytes", type=int, default=0, help="how many bytes to write")
    given = parser.parse_args()
    with ProcessPoolExecutor(len(os.sched_getaffinity(0))) as processes:
        list(processes.map(read, sorted(given.layers, key=os.path.getsize, reverse=True)))
    if given.out is not None:
        with ThreadPoolExecutor(1) as digesting:
            digest = digesting.submit(digest_of, given.bytes)
            write(given.out, given.bytes)
            digest.result()


if __name__ == "__main__":
    main()
