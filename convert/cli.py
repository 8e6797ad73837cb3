"""The command line: what each command runs, statuses and fault lines.

The modules of a command are imported once it is chosen: all of them take most of the time of a short run.
"""

from __future__ import annotations

import argparse
import os
import re
import signal
import sys
import traceback
from collections.abc import Iterable, Mapping, Sequence
from dataclasses import replace
from typing import TYPE_CHECKING

from .common.colours import When, choose_colours
from .common.faults import OTHER, USAGE, ClosedPipe, Fault, UsageFault
from .common.outputs import STANDARD_OUTPUT, standard_output
from .common.program import choose_program
from .common.progress import Verbosity, choose_verbosity, complain, note
from .model.stacks import BLOBS, require_no_stack, require_order, stack_in
from .usage import with_hint
from .values import ALL
from .words import Run, parser_of

if TYPE_CHECKING:
    from .flatten.rewrite import Rewriting
    from .flatten.stack import NewLayersOptions
    from .folder.stack_layers import StackOptions
    from .image.targets import Target
    from .look.sources import Choice, Source

_INTERRUPTED = 128
_OF_IMAGES = ("platform", "from_tag", "overlay_marks", "dry_run")  # words of commands that take an image or a stack
_OF_THIS_MACHINE = re.compile(r"/((bin|boot|dev|etc|lib\w*|proc|sbin|sys|usr)(/.*)?|home|opt|root|run|srv|tmp|var)/?")
_OF_STACKS = ("blobs", "data_layers", "userxattr", "cross_file_systems")


def main(words: Sequence[str]) -> int:
    """Runs the command that the words name; gives the exit status."""
    for number in (signal.SIGTERM, signal.SIGHUP):
        signal.signal(number, _end)
    try:
        parser = parser_of(_RUNS, words)
        if not words:
            parser.print_help()
            return USAGE
        _run(parser, words)
        return 0
    except ClosedPipe:
        return _INTERRUPTED + signal.SIGPIPE
    except Fault as fault:
        if fault.text:
            complain(fault.text)
        return fault.status
    except KeyboardInterrupt:
        return _INTERRUPTED + signal.SIGINT
    except MemoryError:
        complain("out of memory")
        return OTHER
    except OSError as error:
        complain(str(error))
        return OTHER
    except Exception as error:  # pylint: disable=broad-except
        complain(f"unforeseen, please report it: {_description(error)}")
        return OTHER


def _run(parser: argparse.ArgumentParser, words: Sequence[str]) -> None:
    """Runs the command; words that don't fit together are refused as others are, with where help is."""
    options = parser.parse_args(list(words))
    choose_program(getattr(options, "unproved", False))
    choose_verbosity(getattr(options, "verbosity", Verbosity.USUAL))
    choose_colours(When(getattr(options, "color", When.AUTO)))
    run: Run = options.run
    try:
        run(options)
    except UsageFault as fault:
        raise UsageFault(with_hint(fault.text, f"{parser.prog} {options.command}")) from None


def _description(error: Exception) -> str:
    """An exception that no code here expects, and where it was raised."""
    place = traceback.extract_tb(error.__traceback__)[-1]
    return f"{type(error).__name__}: {error} ({os.path.basename(place.filename)}:{place.lineno})"


def _end(number: int, _: object) -> None:
    """Ends on a signal like an exit, so that what is half made is taken away."""
    sys.exit(_INTERRUPTED + number)


def _folder(path: str) -> str:
    """A folder as given, without slashes at its end, so that paths in it read well."""
    return path.rstrip("/") or ("/" if path else "")


def _scan(words: argparse.Namespace) -> None:
    from .folder.scan import ScanOptions, scan

    if stack_in(_folder(words.layer)):
        raise UsageFault(f"{words.layer} is a folder that unpack wrote, and no layer: it has manifests already")
    scan(ScanOptions(
        layer=_folder(words.layer), out=words.out, blobs=None if words.digests_only else _folder(words.blobs),
        userxattr=words.userxattr, cross_file_systems=words.cross_file_systems,
        skip_unsupported=words.skip_unsupported, workers=words.workers,
    ))


def _store(words: argparse.Namespace) -> None:
    from .folder.stores import StoreOptions, store

    store(StoreOptions(
        folder=_folder(words.folder), out=_folder(words.out), userxattr=words.userxattr,
        cross_file_systems=words.cross_file_systems, skip_unsupported=words.skip_unsupported,
        digests_only=words.digests_only, workers=words.workers,
    ))


def _build(words: argparse.Namespace) -> None:
    from .folder.build import BuildOptions
    from .folder.build_file import build_layer
    from .squashfs.programs import Packing

    build_layer(BuildOptions(
        layer=words.layer, blobs=_folder(words.blobs), out=_folder(words.out), userxattr=bool(words.userxattr),
        packing=Packing(words.compress),
    ))


def _unpack(words: argparse.Namespace) -> None:
    from .folder.stack_layers import write_stack
    from .image.unpack import UnpackOptions, unpack

    _require_one_sort(words)
    if words.stack is not None:
        write_stack(_stack_of(words, words.digests_only), _folder(words.out))
        return
    unpack(UnpackOptions(
        image=_folder(words.image), out=_folder(words.out), platform=words.platform, tag=words.from_tag,
        skip_unsupported=words.skip_unsupported, overlay_marks=words.overlay_marks, digests_only=words.digests_only,
    ))


def _pack(words: argparse.Namespace) -> None:
    from .image.configuration import Making
    from .image.pack import PackOptions, pack

    require_order(words.layers)
    out = _target(words.out)
    pack(PackOptions(
        layers=words.layers, blobs=_folder(words.blobs), out=out, platform=words.platform, name=_name(out, words.name),
        skip_unsupported=words.skip_unsupported, config=words.config, compress=words.compress, links=words.links,
        annotations=words.annotations, making=Making(words.created_by),
    ))


def _name(out: Target, name: str | None) -> str | None:
    """The name of a new image, which the word of its place may have too."""
    from .image.targets import Form

    if None not in (out.tag, name) and out.tag != name:
        raise UsageFault(f"{out.word}:{out.tag} and --name give two names")
    if name is not None and out.form is Form.ARCHIVE and out.is_path and not out.docker_names(name):
        note(f"docker takes no name {name}" + ("" if ":" in name else f"; {name}:latest is one"))
    return out.tag or name


def _take_mount(words: argparse.Namespace) -> None:
    """Takes layers that are named as a mount does, in an image's place."""
    from .folder.stack_layers import layers_of_mount

    image = getattr(words, "image", None)
    mount = layers_of_mount(image) if image and words.stack is None else None
    if mount is not None:
        if getattr(words, "data_layers", 0):
            raise UsageFault(f"--data-layers is for --stack; in {image} data-only layers come after ::")
        words.image, (words.stack, words.data_layers) = None, mount


def _take_folder_of_unpack(words: argparse.Namespace) -> None:
    """Takes a folder that `unpack` or `store` wrote, in place of an image or as the only layer, as the stack that it is."""
    _take_mount(words)
    image = getattr(words, "image", None)
    given = words.stack or [image] if image or words.stack else []
    layers = stack_in(_folder(given[0])) if len(given) == 1 else []
    if layers:
        words.image, words.stack = None, layers
        words.blobs = getattr(words, "blobs", None) or f"{_folder(given[0])}/{BLOBS}"
    if len(given) > 1:
        require_no_stack(list(map(_folder, given)))
    require_order(words.stack or [])


def _require_one_sort(words: argparse.Namespace) -> None:
    """Refuses an image beside a stack, neither of them, and what is for the other one."""
    _take_folder_of_unpack(words)
    _require_fitting(words)


def _require_fitting(words: argparse.Namespace) -> None:
    """The same of words that are taken as they are given."""
    if (words.image is None) == (words.stack is None):
        raise UsageFault("name an IMAGE, or layers by --stack LAYER..")
    strange = _OF_STACKS if words.stack is None else _OF_IMAGES
    for name in strange:
        if getattr(words, name, None):
            owner = "--stack alone" if words.stack is None else "images alone"
            raise UsageFault(f"--{name.replace('_', '-')} is for {owner}")


def _stack_of(words: argparse.Namespace, digests_only: bool = False) -> StackOptions:
    """The layers of --stack, and how they are read."""
    from .folder.stack_layers import StackOptions

    blobs = getattr(words, "blobs", None)
    return StackOptions(
        layers=[_folder(layer) for layer in words.stack], blobs=blobs and _folder(blobs), userxattr=words.userxattr,
        cross_file_systems=words.cross_file_systems, skip_unsupported=words.skip_unsupported,
        digests_only=digests_only, workers=words.workers,
    )


def _flatten(words: argparse.Namespace) -> None:
    _require_one_sort(words)
    if words.stack is not None:
        _flatten_stack(words)
    elif words.rootfs:
        _flatten_rootfs(words)
    else:
        _flatten_image(words)


def _flatten_rootfs(words: argparse.Namespace) -> None:
    from .flatten.exclusion import excluded_path
    from .flatten.rootfs import RootfsOptions, flatten_rootfs
    from .flatten.stack import NewLayersOptions, OutForm
    from .folder.stack_layers import StackOptions
    from .image.compression import NONE
    from .image.images import image_place, paths_of_image

    of_images = {"base": words.base, "layers": words.layers != 1, "name": words.name, "dry-run": words.dry_run}
    for name, is_given in of_images.items():
        if is_given:
            raise UsageFault(f"--rootfs makes one tree and no image, without --{name}")
    if words.out == STANDARD_OUTPUT:
        _require_no_terminal("the tree")
    if words.platform == ALL:
        raise UsageFault(f"--rootfs makes one tree, not those of --platform {ALL}")
    if words.compress and words.compress.method == NONE:
        raise UsageFault("--compress none is for images alone")
    image = _folder(words.image)
    path, _ = image_place(image, words.from_tag)
    flatten_rootfs(RootfsOptions(
        image=image, platform=words.platform, tag=words.from_tag, skip_unsupported=words.skip_unsupported,
        overlay_marks=words.overlay_marks, new=NewLayersOptions(
            stack=StackOptions(layers=paths_of_image(path)), out=_folder(words.out),
            form=words.form and OutForm(words.form), keep=words.keep and _folder(words.keep), compress=words.compress,
            excluded=list(map(excluded_path, words.exclude)),
        ),
    ))


def _flatten_image(words: argparse.Namespace) -> None:
    from .flatten.exclusion import excluded_path
    from .flatten.image import FlattenOptions, flatten, flatten_commands
    from .flatten.platforms import flatten_all
    from .image.compression import LEVELS

    if words.form is not None:
        raise UsageFault("--form is for --stack and --rootfs alone")
    if words.compress and words.compress.problem(LEVELS):
        raise UsageFault(f"--compress {words.compress} is for a squashfs alone")
    out = _target(words.out, words.dry_run)
    options = FlattenOptions(
        image=_folder(words.image), out=out, name=_name(out, words.name), layers=words.layers,
        base=words.base and _folder(words.base), excluded=list(map(excluded_path, words.exclude)),
        keep=words.keep and _folder(words.keep), platform=words.platform, tag=words.from_tag,
        skip_unsupported=words.skip_unsupported, overlay_marks=words.overlay_marks, compress=words.compress,
    )
    if words.platform == ALL:
        if words.dry_run:
            raise UsageFault(f"--dry-run has no commands for --platform {ALL}")
        flatten_all(options)
    elif words.dry_run:
        _print(flatten_commands(options))
    else:
        flatten(options)


def _flatten_stack(words: argparse.Namespace) -> None:
    from .flatten.exclusion import excluded_path
    from .flatten.stack import flatten_stack
    from .image.compression import NONE

    if words.name is not None:
        raise UsageFault("--name is for images alone")
    if words.out == STANDARD_OUTPUT:
        _require_no_terminal("the tree")
    if words.rootfs and words.layers != 1:
        raise UsageFault("--rootfs makes one tree, without --layers")
    if words.base is not None:
        raise UsageFault("--base is for images alone; --layers N leaves N layers of a stack")
    if words.compress and words.compress.method == NONE:
        raise UsageFault("--compress none is for images alone")
    excluded = list(map(excluded_path, words.exclude))
    flatten_stack(replace(_new_layers(words, words.layers), excluded=excluded))


def _new_layers(words: argparse.Namespace, layers: int) -> NewLayersOptions:
    from .flatten.stack import NewLayersOptions, OutForm

    return NewLayersOptions(
        stack=_stack_of(words), out=_folder(words.out), form=words.form and OutForm(words.form), layers=layers,
        data_layers=words.data_layers, keep=words.keep and _folder(words.keep), compress=words.compress,
    )


def _vacuum(words: argparse.Namespace) -> None:
    from .flatten.rewrite import Rewriting

    _rewrite(words, Rewriting.VACUUM)


def _deref(words: argparse.Namespace) -> None:
    from .flatten.rewrite import Rewriting

    _rewrite(words, Rewriting.DEREF)


def _merge(words: argparse.Namespace) -> None:
    from .flatten.rewrite import Rewriting

    _rewrite(words, Rewriting.MERGE)


def _rewrite(words: argparse.Namespace, rewriting: Rewriting) -> None:
    from .flatten.rewrite import RewriteOptions, Rewriting, rewrite

    _take_folder_of_unpack(words)
    down_to = words.down_to if rewriting is Rewriting.MERGE else None
    rewrite(RewriteOptions(rewriting=rewriting, new=_new_layers(words, 1), down_to=down_to), _print)


def _sizes(words: argparse.Namespace) -> None:
    from .sizes.command import SizesOptions, sizes

    _require_one_sort(words)
    stack = None if words.stack is None else _stack_of(words, True)
    sizes(SizesOptions(
        image=None if words.image is None else _folder(words.image), stack=stack, data_layers=words.data_layers,
        platform=words.platform, tag=words.from_tag, skip_unsupported=words.skip_unsupported,
        overlay_marks=words.overlay_marks, as_json=words.json, exact=words.bytes, advice=words.advice,
        page=words.html, max_waste=words.max_waste, base=words.base and _folder(words.base),
    ), _print)


def _check(words: argparse.Namespace) -> None:
    from .check.command import CheckOptions, check

    check(CheckOptions(
        source=_source(words), max_waste=words.max_waste, base=words.base and _folder(words.base),
        is_strict=words.strict, as_json=words.json,
    ), _print)


def _source(words: argparse.Namespace) -> Source:
    """What is looked at: an image, a folder that `unpack` or `store` wrote with its configuration, or layers."""
    from .look.sources import Source

    if words.stack is not None and len(words.stack) == 1 and stack_in(_folder(words.stack[0])) and words.image is None:
        words.image, words.stack = words.stack[0], None
    _take_mount(words)
    _require_fitting(words)
    if words.stack is None:
        return Source(word=_folder(words.image), choice=_choice(words))
    require_order(words.stack)
    return Source(stack=_stack_of(words), data_layers=words.data_layers)


def _ls(words: argparse.Namespace) -> None:
    from .look.listing import ListOptions, list_entries

    source, path = _source_and_path(words)
    list_entries(ListOptions(
        source=source, path=path or "/", layer=words.layer, only_removed=words.removed, is_recursive=words.recursive,
        full_time=words.full_time, with_making=words.long_layer, exact=words.bytes, as_json=words.json,
    ), _print)


def _cat(words: argparse.Namespace) -> None:
    from .look.contents import print_contents

    source, path = _source_and_path(words)
    if path is None:
        raise UsageFault("name the PATH of a file" + " before --stack" * (words.stack is not None))
    print_contents(source, path)


def _source_and_path(words: argparse.Namespace) -> tuple[Source, str | None]:
    """What is looked at, and the path there. With --stack the only other word is the path."""
    if words.stack is not None:
        if words.path is not None:
            raise UsageFault("with --stack a PATH alone comes before it")
        words.path, words.image = words.image, None
        last = words.stack[-1]
        if words.path is None and len(words.stack) > 1 and _OF_THIS_MACHINE.fullmatch(last):
            raise UsageFault(f"{last}, as a PATH, comes before --stack or after --; lowerdir=UPPER:LOWER takes it for a layer")
    return _source(words), words.path


def _named_source(words: argparse.Namespace, word: str) -> Source:
    """What a word names, of several."""
    from .folder.stack_layers import layers_of_mount
    from .look.sources import Source

    mount = layers_of_mount(word)
    if mount is None:
        return Source(word=_folder(word), choice=_choice(words))
    words.stack, data_layers = mount
    return Source(word=word, stack=_stack_of(words), data_layers=data_layers)


def _diff(words: argparse.Namespace) -> None:
    from .look.diff import DiffOptions, diff

    diff(DiffOptions(
        old=_named_source(words, words.old), new=_named_source(words, words.new), ignored=words.ignore,
        with_configuration=words.config, as_json=words.json, only_sums=words.stat,
    ), _print)


def _choice(words: argparse.Namespace) -> Choice:
    from .look.sources import Choice

    return Choice(
        platform=words.platform, tag=words.from_tag, skip_unsupported=words.skip_unsupported,
        overlay_marks=words.overlay_marks,
    )


def _target(word: str, is_told: bool = False) -> Target:
    """Where an image goes; never to a terminal."""
    from .image.targets import target_of

    target = target_of(word)
    if target.is_standard_output and not is_told:
        _require_no_terminal("the image")
    return target


def _require_no_terminal(what: str) -> None:
    if sys.stdout.isatty():
        raise UsageFault(f"standard output is a terminal; send {what} into a file or a pipe")


def _mounted(words: argparse.Namespace) -> None:
    from .folder.mounted import mounted_lines
    from .look.texts import json_report
    from .model.show_report import report_of

    lines = mounted_lines(_folder(words.folder), words.cross_file_systems)
    _print(json_report(lines) if words.json else report_of(lines))


def _print(lines: Iterable[str]) -> None:
    with standard_output() as out:
        out.writelines(lines)


_RUNS: Mapping[str, Run] = {
    "flatten": _flatten,
    "check": _check,
    "sizes": _sizes,
    "ls": _ls,
    "cat": _cat,
    "diff": _diff,
    "vacuum": _vacuum,
    "deref": _deref,
    "merge": _merge,
    "unpack": _unpack,
    "pack": _pack,
    "scan": _scan,
    "store": _store,
    "build": _build,
    "mounted": _mounted,
}
