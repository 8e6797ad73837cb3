"""`build` of one file: a manifest and the contents of its files as a squashfs, or a plain archive of the layer's folder."""

import itertools
import os
from collections.abc import Callable, Iterable, Iterator
from dataclasses import dataclass, replace

from ..common.contents import PIECE, ZEROS
from ..common.faults import Fault, UsageFault, cannot_write, writing
from ..common.omissions import Losses
from ..common.open_dirs import CREATE, place_of
from ..common.outputs import NEW, USUAL_MODE, new_file
from ..common.progress import Progress
from ..common.stages import Stage
from ..image.pack import contents_of
from ..model.attributes import marks_to_user
from ..model.blobs import opened_blob
from ..model.entries import DIRECTORY, Entry
from ..model.entry_file import EntryFile
from ..model.links import FirstNames, take_links
from ..model.manifests import read_manifest
from ..squashfs import programs as squashfs
from ..squashfs.layer_files import Form, tree_of_file
from ..squashfs.limits import attributes_problem, fitted, owners_problem, without_sockets
from ..tar.headers import BLOCK_BYTES, HARD_LINK, Header
from ..tar.writer import TYPES, TarWriter, record_bytes
from .build import BuildOptions, build, entry_problem

SUFFIXES = {".squashfs": Form.SQUASHFS, ".tar": Form.ARCHIVE}
_MAX_RECORDS = 65_536  # bytes of PAX records that tar2sqfs takes of an entry
_MAX_ZEROS = 1 << 34  # bytes of files without contents, which have to be written as zeros
_AT_ONCE = 1 << 18


def file_form(out: str) -> Form | None:
    """As what a file of this name is written; nothing if it is a folder."""
    return next((form for suffix, form in SUFFIXES.items() if out.endswith(suffix)), None)


def build_layer(options: BuildOptions) -> None:
    """Makes the folder of a manifest, or a squashfs or an archive if the name ends so."""
    form = file_form(options.out)
    if options.packing.compression is not None and form is not Form.SQUASHFS:
        raise UsageFault("--compress is of a squashfs, and --out doesn't end in .squashfs")
    if form is None:
        build(options)
    else:
        build_file(options, form)


def build_file(options: BuildOptions, form: Form) -> None:
    """Makes the file of a manifest. It gets its name once it gives the manifest back, except for what is reported."""
    losses = Losses()
    entries = _fitting(options, losses, _SQUASHFS if form is Form.SQUASHFS else _ARCHIVE)
    with new_file(options.out, options.label) as stage:
        write = _write_squashfs if form is Form.SQUASHFS else _write_plain
        write(entries, options, stage)
        _require_same(place_of(stage.file, NEW), entries, options, form)
    losses.report(options.label)


def _write_squashfs(entries: list[Entry], options: BuildOptions, stage: Stage) -> None:
    with squashfs.written(stage.path, NEW, options.label, options.packing) as write:
        _write_archive(entries, options, TarWriter(write), is_plain=False)


def _write_plain(entries: list[Entry], options: BuildOptions, stage: Stage) -> None:
    with writing(options.label):
        file = os.open(NEW, CREATE, USUAL_MODE, dir_fd=stage.file)
        with open(file, "wb", buffering=_AT_ONCE) as out:
            _write_archive(entries, options, TarWriter(out.write), is_plain=True)


@dataclass(frozen=True)
class _Kind:
    """What one sort of file can hold: the entries as it has them, why it has no such entry, and not all of these."""

    fitted: Callable[[Iterable[Entry], Losses], Iterator[Entry]]
    problem: Callable[[Entry, bool], str | None]
    problem_of_all: Callable[[Iterable[Entry]], str | None]


def _fitting(options: BuildOptions, losses: Losses, kind: _Kind) -> list[Entry]:
    """The entries as the file is to have them; refuses what it can't have before anything is written."""
    entries = read_manifest(options.layer)
    take_links(options.layer, entries)
    entries = list(kind.fitted(entries, losses))
    zeros = 0
    for entry in entries:
        problem = entry_problem(entry, options.userxattr) or kind.problem(entry, options.userxattr)
        zeros += 0 if entry.names_contents() else entry.size
        if zeros > _MAX_ZEROS:
            problem = f"with it, files without their contents have over {_MAX_ZEROS:,} bytes"
        if problem:
            raise cannot_write(options.label + entry.path, problem)
        if entry.names_contents():
            with opened_blob(options.blobs, str(entry.blob), entry.size):
                pass
    problem = kind.problem_of_all(entries)
    if problem:
        raise cannot_write(options.label, problem)
    return entries


def _squashfs_problem(entry: Entry, userxattr: bool) -> str | None:
    """Why no squashfs can have what Linux can."""
    header = _header(entry, userxattr)
    problem = attributes_problem(map(os.fsdecode, header.attributes))
    size = record_bytes(header)
    if problem is None and size > _MAX_RECORDS:
        return f"its attributes and names take {size:,} bytes, and tar2sqfs takes {_MAX_RECORDS:,}"
    return problem


def _archive_problem(entry: Entry, _: bool) -> str | None:
    name = next((name for name in entry.attributes if "=" in name), None)
    return None if name is None else f"attribute {name}: an archive has no = in names"


_SQUASHFS = _Kind(fitted, _squashfs_problem, owners_problem)
_ARCHIVE = _Kind(without_sockets, _archive_problem, lambda _: None)


def _write_archive(entries: list[Entry], options: BuildOptions, archive: TarWriter, is_plain: bool) -> None:
    """Writes all entries. In an archive that stays one, more names of a file repeat all of it, as some unpackers need."""
    firsts, progress = FirstNames(), Progress("building", sum(BLOCK_BYTES + entry.size for entry in entries))
    for entry in entries:
        header, first = _header(entry, options.userxattr), firsts.before(entry)
        if first is not None:
            repeated = header if is_plain else Header(header.name, HARD_LINK, 0, 0, 0, 0, entry.mtime_ns, b"", 0, 0)
            archive.entry(replace(repeated, type=HARD_LINK, target=first[1:].encode(), size=0, major=0, minor=0))
        else:
            archive.entry(header)
            for piece in contents_of(entry, options.blobs) if entry.names_contents() else _zeros(entry.size):
                archive.data(piece)
            archive.end_data(entry.size)
        progress.step(BLOCK_BYTES + entry.size)
    archive.end()
    progress.end()


def _zeros(size: int) -> Iterator[bytes]:
    for start in range(0, size, PIECE):
        yield ZEROS[:size - start]


def _header(entry: Entry, userxattr: bool) -> Header:
    """The header of an entry as the kernel has it, whiteouts as devices."""
    name = entry.path[1:] or "."
    attributes = marks_to_user(entry.attributes) if userxattr else entry.attributes
    return Header(
        (name + "/" if entry.kind == DIRECTORY else name).encode(), TYPES[entry.kind], entry.mode, entry.uid,
        entry.gid, entry.size, entry.mtime_ns, entry.target.encode(), entry.major, entry.minor,
        {name.encode(): value for name, value in attributes.items()},
    )


def _require_same(path: str, entries: list[Entry], options: BuildOptions, form: Form) -> None:
    """Reads the new file again: it gives the very entries, and the same of them are one file."""
    here, there = FirstNames(), FirstNames()
    with EntryFile() as file:
        tree = tree_of_file(path, form, options.label, options.userxattr, file)
        there_are = (replace(entry, path=path) for path, entry in tree.entries())
        for wanted, found in itertools.zip_longest(entries, there_are):
            if wanted is None or found is None or wanted != found or here.before(wanted) != there.before(found):
                raise Fault(f"{options.label}: read again it has another {(wanted or found).path}, so it isn't written")
