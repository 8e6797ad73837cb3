"""The words of the command line, and its help. Those of a command are made once it is chosen."""

from __future__ import annotations

import argparse
import functools
from collections.abc import Callable, Mapping, Sequence
from dataclasses import dataclass
from enum import Enum

from . import VERSION, values
from . import help_texts as texts
from .common.progress import note
from .model.workers import MOST_WORKERS, usual_workers
from .usage import HelpFormatter, Parser, common_words

NAME = "layers"
Run = Callable[[argparse.Namespace], None]
_IMAGE = (
    "OCI image layout (folder or tar), or what docker save wrote; - is standard input; or by skopeo docker-daemon:NAME, "
    "containers-storage:NAME, docker://NAME"
)
_WITH_STACK = "with --stack: "
_ON_A_DISK = "layers on a disk"
_NEW_IMAGE = (
    "folder to make, or a file whose name ends in .tar; - is such an archive on standard output; or as skopeo "
    "names it: oci:DIR:TAG, oci-archive:FILE:TAG, docker-archive:FILE:NAME, dir:DIR"
)
_PACKS = (
    "packs the layers, at a level such as gzip:9; zstd needs the program of that name, and is read by podman, buildah, "
    "containerd and docker from 23 on, not by umoci and older dockers"
)
_MORE_WASTE = "more is wasted, such as 10%%, 50MB or 50MiB"


def parser_of(runs: Mapping[str, Run], words: Sequence[str]) -> argparse.ArgumentParser:
    """The parser of all words, with what each command runs. Only the commands among these words get their own."""
    parser = Parser(
        prog=NAME, description=texts.ABOUT, epilog=texts.MORE.format(name=NAME), allow_abbrev=False,
        parents=[common_words(False)], formatter_class=functools.partial(HelpFormatter, jobs=jobs()),
    )
    parser.add_argument("-V", "--version", action="version", version=f"{NAME} {VERSION}", help="prints the version")
    commands = parser.add_subparsers(title="commands", metavar="COMMAND", required=True)
    for it in COMMANDS:
        command = commands.add_parser(
            it.name, help=it.short, description=it.text, allow_abbrev=False, parents=[common_words(True)],
            formatter_class=HelpFormatter,
        )
        command.set_defaults(run=runs[it.name], command=it.name)
        if it.name in words:
            it.add(command)
    return parser


def jobs() -> dict[str, list[str]]:
    """The names of the commands for each job."""
    return {job.value: [it.name for it in COMMANDS if it.job is job] for job in Job}


def _of_files() -> str:
    """How the names of layers end that are written as one file."""
    from .folder.build_file import SUFFIXES

    return " or ".join(SUFFIXES)


def _add_scan(parser: argparse.ArgumentParser) -> None:
    parser.add_argument("layer", metavar="LAYER", help="folder of a layer, a squashfs, or a tar archive of the folder")
    parser.add_argument("--out", metavar="FILE", required=True, help="manifest to write; - is standard output")
    contents = parser.add_mutually_exclusive_group(required=True)
    contents.add_argument("--blobs", metavar="DIR", help="folder of blobs, made if it is absent")
    _add_digests_only(contents)
    _add_reading(parser)


def _add_store(parser: argparse.ArgumentParser) -> None:
    parser.add_argument("folder", metavar="DIR", help="folder of the topmost layer in its store")
    parser.add_argument("--out", metavar="OUT", required=True, help="folder to make, absent or empty")
    _add_digests_only(parser)
    _add_reading(parser)


def _add_digests_only(parser: argparse._ActionsContainer) -> None:
    parser.add_argument(
        "--digests-only", action="store_true", help="writes no blobs: contents are read only for their digests"
    )


def _add_reading(parser: argparse.ArgumentParser) -> None:
    """How folders are read."""
    _add_userxattr(parser, "reads")
    _add_cross(parser)
    _add_skip(parser)
    _add_workers(parser)


def _add_workers(parser: argparse._ActionsContainer) -> None:
    parser.add_argument(
        "--workers", metavar="N", type=values.workers, default=usual_workers(),
        help=f"how many processes read files, 1 to {MOST_WORKERS} [default: the processors, at most 4]",
    )


def _add_build(parser: argparse.ArgumentParser) -> None:
    from .squashfs import programs as squashfs

    parser.add_argument("layer", metavar="LAYER", help="manifest of a layer")
    parser.add_argument("--blobs", metavar="DIR", required=True, help="folder with the contents of its files")
    parser.add_argument(
        "--out", metavar="OUT", required=True,
        help=f"folder to make, absent or empty, or a file whose name ends in {_of_files()}",
    )
    parser.add_argument(
        "--compress", metavar=_methods(squashfs.LEVELS), type=values.compression(squashfs.LEVELS),
        help="packs the squashfs, at a level such as gzip:9 [default: as tar2sqfs does it]",
    )
    _add_userxattr(parser, "writes")


def _add_unpack(parser: argparse.ArgumentParser) -> None:
    _add_image(parser, may_be_absent=True)
    parser.add_argument("--out", metavar="DIR", required=True, help="folder to make, absent or empty")
    _add_digests_only(parser)
    _add_stack_layers(parser, "reads")
    _add_blobs(parser)


def _add_image(parser: argparse.ArgumentParser, may_be_absent: bool = False, may_be_all: bool = False) -> None:
    """Which image is read, and how."""
    if may_be_absent:
        parser.add_argument("image", metavar="IMAGE", nargs="?", help=_IMAGE)
    else:
        parser.add_argument("image", metavar="IMAGE", help=_IMAGE)
    _add_choice(parser, may_be_all)


def _add_choice(parser: argparse.ArgumentParser, may_be_all: bool = False) -> None:
    """Which of several images is read, and how."""
    choice = _group(parser, "which image")
    every = "; `all` writes an index of all" if may_be_all else ""
    choice.add_argument(
        "--platform", metavar="OS/ARCH", type=values.platform_or_all if may_be_all else values.platform,
        help=f"which of several images, such as linux/amd64 or arm64{every}",
    )
    choice.add_argument("--from-tag", metavar="NAME", help="which of several images, by its name in the image's index")
    choice.add_argument("--tag", dest="from_tag", action=_OldTag, help=argparse.SUPPRESS)
    choice.add_argument(
        "--overlay-marks", action="store_true",
        help="takes attributes trusted.overlay.* of the image's archives too, which change what the layers show",
    )
    _add_skip(choice)


def _group(parser: argparse.ArgumentParser, title: str) -> argparse._ArgumentGroup:
    """Options of one matter, which help lists together."""
    groups = {group.title: group for group in parser._action_groups}
    return groups.get(title) or parser.add_argument_group(title)


def _add_pack(parser: argparse.ArgumentParser) -> None:
    from .image.configuration import MAKER, USUAL_PLATFORM

    parser.add_argument("layers", metavar="LAYER", nargs="+", help="manifest of a layer, the topmost layer first")
    parser.add_argument("--blobs", metavar="DIR", required=True, help="folder with the contents of their files")
    _add_new_image(parser)
    parser.add_argument(
        "--config", metavar="FILE",
        help="what the image runs, as whom and on which platform, such as the config.json that unpack writes",
    )
    parser.add_argument(
        "--platform", metavar="OS/ARCH", type=values.whole_platform,
        help=f"what the image says that it is for [default: that of --config, or {USUAL_PLATFORM}]",
    )
    _add_name(parser, "--tag")
    parser.add_argument(
        "--annotations", metavar="FILE",
        help="annotations of the image's manifest, such as the annotations.json that unpack writes",
    )
    parser.add_argument(
        "--links", metavar="FILE",
        help="hard links of layers that have no such file beside them: the shown.links of unpack or store",
    )
    parser.add_argument(
        "--created-by", metavar="TEXT", type=values.name, default=MAKER,
        help=f"what the history says of layers that --config has no line for [default: {MAKER}]",
    )
    _add_skip(parser)


def _add_new_image(parser: argparse.ArgumentParser) -> None:
    """Which image is written."""
    from .image.compression import LEVELS, PLAIN

    _add_out(parser, _NEW_IMAGE)
    parser.add_argument(
        "--compress", metavar=_methods(LEVELS), type=values.compression(LEVELS), default=PLAIN,
        help=f"{_PACKS} [default: none]",
    )


def _add_name(parser: argparse.ArgumentParser, *others: str) -> None:
    """How a new image is called."""
    parser.add_argument(
        "-t", "--name", *others, metavar="NAME", type=values.name, dest="name", help="name of the new image, such as shop:2",
    )


class _OldTag(argparse.Action):
    """The old word of --from-tag, which says so."""

    def __call__(
        self, parser: argparse.ArgumentParser, namespace: argparse.Namespace, values: object,
        option_string: str | None = None,
    ) -> None:
        note("--tag is --from-tag: which of several images is read; --name names a new one")
        setattr(namespace, self.dest, values)


def _add_out(parser: argparse.ArgumentParser, explanation: str) -> None:
    parser.add_argument("--out", metavar="IMAGE", required=True, help=explanation)


def _methods(levels: Mapping[str, range]) -> str:
    """How methods of packing are written in a help text."""
    return "|".join([*levels, "METHOD:LEVEL"])


def _add_flatten(parser: argparse.ArgumentParser) -> None:
    from .image.compression import LEVELS
    from .squashfs import programs as squashfs

    every = {**LEVELS, **squashfs.LEVELS}
    _add_image(parser, may_be_absent=True, may_be_all=True)
    in_files = f"a folder, a file whose name ends in {_of_files()}, or - for an archive"
    _add_out(parser, f"{_NEW_IMAGE}; with --stack or --rootfs {in_files}")
    parser.add_argument(
        "--compress", metavar=_methods(every), type=values.compression(every),
        help=f"{_PACKS}; xz and lz4 are for a squashfs [default: as the topmost given layer, or squashfs, is packed]",
    )
    _add_name(parser)
    left = parser.add_mutually_exclusive_group()
    left.add_argument(
        "--layers", metavar="N", type=values.layers, default=1,
        help="how many layers are left at most; lower ones that don't change stay byte for byte [default: 1]",
    )
    left.add_argument(
        "--base", metavar="N|IMAGE",
        help="the lowest N layers, or those of this image, stay byte for byte, and all above becomes one layer",
    )
    _add_keep(parser)
    parser.add_argument(
        "--rootfs", action="store_true",
        help=f"what is shown in place of an image: a folder, or a file whose name ends in {_of_files()}",
    )
    parser.add_argument(
        "--exclude", metavar="PATH", action="append", default=[],
        help="leaves PATH out with all below it, as if the topmost layer had removed it; may be given again",
    )
    parser.add_argument(
        "--dry-run", action="store_true", help="prints the commands, as a shell takes them, and runs none"
    )
    _add_stack(parser, _WITH_STACK)


def _add_stack(parser: argparse.ArgumentParser, only: str) -> None:
    """Which layers are read, and how, and as what layers are written; `only` says when that counts."""
    from .flatten.stack import OutForm

    _add_stack_layers(parser, "reads and writes", only)
    _add_blobs(parser, only)
    _group(parser, _ON_A_DISK).add_argument(
        "--form", choices=[form.value for form in OutForm],
        help=f"{only}what layers are written as [default: what the name of --out says]",
    )


def _add_blobs(parser: argparse.ArgumentParser, only: str = _WITH_STACK) -> None:
    _group(parser, _ON_A_DISK).add_argument(
        "--blobs", metavar="DIR", help=f"{only}folder with the contents of manifests"
    )


def _add_stack_layers(parser: argparse.ArgumentParser, does: str, only: str = _WITH_STACK) -> None:
    instead = "layers in place of an image" if only else "layers"
    layers = _group(parser, _ON_A_DISK)
    layers.add_argument(
        "--stack", metavar="LAYER", nargs="+", required=not only,
        help=f"{instead}, the topmost first: folders, squashfs files, tar archives or manifests",
    )
    layers.add_argument(
        "--data-layers", metavar="K", type=values.data_layers, default=0,
        help=f"{only}how many of the layers, the lowest ones, are data-only [default: 0]",
    )
    _add_userxattr(layers, f"{only}{does}")
    _add_cross(layers)
    _add_workers(layers)


def _add_rewriting(parser: argparse.ArgumentParser) -> None:
    """The options of a command that writes a layer of a stack anew."""
    from .squashfs import programs as squashfs

    parser.add_argument(
        "--out", metavar="OUT", required=True,
        help=f"folder to make, absent or empty, or a file whose name ends in {_of_files()}",
    )
    parser.add_argument(
        "--compress", metavar=_methods(squashfs.LEVELS), type=values.compression(squashfs.LEVELS),
        help="packs the squashfs, at a level such as gzip:9 [default: as the topmost given one is packed]",
    )
    _add_keep(parser)
    _add_stack(parser, "")
    _add_skip(parser)


def _add_merge(parser: argparse.ArgumentParser) -> None:
    parser.add_argument(
        "--down-to", metavar="N", type=values.layers, help="how many layers are left [default: one less than there are]"
    )
    _add_rewriting(parser)


def _add_keep(parser: argparse.ArgumentParser) -> None:
    parser.add_argument(
        "--keep", metavar="DIR", help="folder to make, absent or empty, for all that is made on the way"
    )


def _add_sizes(parser: argparse.ArgumentParser) -> None:
    _add_image(parser, may_be_absent=True)
    _add_stack_layers(parser, "reads")
    parser.add_argument("--json", action="store_true", help="prints it all for a program")
    parser.add_argument("--bytes", action="store_true", help="prints exact numbers of bytes")
    parser.add_argument(
        "--advice", action="store_true", help="prints what would save bytes, for each layer and kind of waste"
    )
    parser.add_argument("--html", metavar="FILE", help="page to write besides; - is standard output, in its place")
    _add_base(parser)
    limits = parser.add_mutually_exclusive_group()
    limits.add_argument(
        "--max-waste", metavar="PERCENT|BYTES", type=values.limit, help=f"ends with status 1 if {_MORE_WASTE}",
    )
    limits.add_argument(
        "--fail-over", metavar="PERCENT", type=values.percent, dest="max_waste", help="the same as --max-waste PERCENT%%"
    )


def _add_check(parser: argparse.ArgumentParser) -> None:
    parser.add_argument("image", metavar="SOURCE", nargs="?", help=f"{_IMAGE}; or a folder that unpack wrote")
    parser.add_argument("--strict", action="store_true", help="takes warnings for faults")
    parser.add_argument("--json", action="store_true", help="prints one object for a program")
    _add_base(parser)
    parser.add_argument(
        "--max-waste", metavar="PERCENT|BYTES", type=values.limit, help=f"takes it for a fault if {_MORE_WASTE}"
    )
    _add_choice(parser)
    _add_stack_layers(parser, "reads")
    _add_blobs(parser)


def _add_base(parser: argparse.ArgumentParser) -> None:
    parser.add_argument(
        "--base", metavar="N|IMAGE",
        help="the lowest N layers, or those of this image, are a base, which doesn't count as waste",
    )


def _add_ls(parser: argparse.ArgumentParser) -> None:
    _add_source_and_path(parser, "path that is listed with all below it [default: /]")
    parser.add_argument("--layer", metavar="N", type=values.number, help="lists what this layer has; 0 is the topmost")
    parser.add_argument("--removed", action="store_true", help="lists what is shipped and not shown")
    parser.add_argument(
        "-R", "--recursive", action=argparse.BooleanOptionalAction, default=True,
        help="lists all below it too, not only what is right in it [default]",
    )
    parser.add_argument("--full-time", action="store_true", help="prints times to the nanosecond, with their zone")
    parser.add_argument("--long-layer", action="store_true", help="prints what made each layer")
    parser.add_argument("--bytes", action="store_true", help="prints exact numbers of bytes")
    parser.add_argument("--json", action="store_true", help="prints objects for a program, one a line")


def _add_cat(parser: argparse.ArgumentParser) -> None:
    _add_source_and_path(parser, "path of a file")
    _add_blobs(parser)


def _add_source_and_path(parser: argparse.ArgumentParser, path: str) -> None:
    _add_image(parser, may_be_absent=True)
    parser.add_argument("path", metavar="PATH", nargs="?", help=path)
    _add_stack_layers(parser, "reads")


def _add_diff(parser: argparse.ArgumentParser) -> None:
    from .look.changes import ASPECTS

    parser.add_argument("old", metavar="OLD", help="image, folder that unpack wrote, or mounted tree; - is standard input")
    parser.add_argument("new", metavar="NEW", help="the same")
    parser.add_argument(
        "--ignore", metavar="WHAT,..", type=values.aspects, default=frozenset(),
        help=f"doesn't compare these: {', '.join(ASPECTS)}",
    )
    parser.add_argument("--no-config", dest="config", action="store_false", help="doesn't compare the configurations")
    parser.add_argument("--stat", action="store_true", help="prints only numbers")
    parser.add_argument("--json", action="store_true", help="prints objects for a program, one a line")
    _add_choice(parser)
    _add_userxattr(parser, "of layers on a disk: reads")
    _add_cross(parser)
    _add_workers(parser)


def _add_mounted(parser: argparse.ArgumentParser) -> None:
    parser.add_argument("folder", metavar="DIR", help="mounted tree")
    parser.add_argument("--json", action="store_true", help="prints objects for a program, one a line")
    _add_cross(parser)


def _add_userxattr(parser: argparse._ActionsContainer, does: str) -> None:
    parser.add_argument(
        "--userxattr", action=argparse.BooleanOptionalAction,
        help=f"{does} marks as user.overlay.*, as the mount option of this name does",
    )


def _add_cross(parser: argparse._ActionsContainer) -> None:
    parser.add_argument("--cross-file-systems", action="store_true", help="enters other file systems too")


def _add_skip(parser: argparse._ActionsContainer) -> None:
    parser.add_argument(
        "--skip-unsupported", action="store_true",
        help="leaves out what can't be stated, with a warning each, instead of refusing it",
    )


class Job(Enum):
    """What commands are for, in the order of help."""

    LOOK = "look at images, stacks and trees"
    SHRINK = "make them smaller"
    REBUILD = "take them apart, and put them together"


@dataclass(frozen=True)
class Command:
    """A command: what it is for, what it does in short and in full, and what adds its options."""

    name: str
    job: Job
    short: str
    text: str
    add: Callable[[argparse.ArgumentParser], None]


COMMANDS = (
    Command("check", Job.LOOK, "print whether an image is fit to ship, and why not", texts.CHECK, _add_check),
    Command("sizes", Job.LOOK, "print what each layer holds, and what of it isn't shown", texts.SIZES, _add_sizes),
    Command("ls", Job.LOOK, "list what is shown, and the layer that each comes from", texts.LS, _add_ls),
    Command("cat", Job.LOOK, "print the contents of a file that is shown", texts.CAT, _add_cat),
    Command("diff", Job.LOOK, "print what differs between two images, or trees", texts.DIFF, _add_diff),
    Command("mounted", Job.LOOK, "print what a folder shows, like ovl_layers show", texts.MOUNTED, _add_mounted),
    Command("flatten", Job.SHRINK, "write an image or a stack as one layer", texts.FLATTEN, _add_flatten),
    Command(
        "vacuum", Job.SHRINK, "write a stack's topmost layer without what changes nothing", texts.VACUUM, _add_rewriting,
    ),
    Command(
        "deref", Job.SHRINK, "write a stack's topmost layer without redirects and metacopy", texts.DEREF, _add_rewriting,
    ),
    Command("merge", Job.SHRINK, "write a stack's two topmost layers as one", texts.MERGE, _add_merge),
    Command("unpack", Job.REBUILD, "write an image's layers as manifests and blobs", texts.UNPACK, _add_unpack),
    Command("pack", Job.REBUILD, "write manifests and blobs as an image", texts.PACK, _add_pack),
    Command("scan", Job.REBUILD, "write a layer as a manifest and blobs", texts.SCAN, _add_scan),
    Command("store", Job.REBUILD, "write a layer of docker or podman, and those below it", texts.STORE, _add_store),
    Command("build", Job.REBUILD, "make the folder, or squashfs, of a manifest", texts.BUILD, _add_build),
)
