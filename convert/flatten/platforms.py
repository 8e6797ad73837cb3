"""`flatten --platform all`: the image of each platform flattened, and an index of all of them."""

import contextlib
import os
import shutil
import time
from dataclasses import replace

from ..common.amounts import amount_text, per_cent
from ..common.faults import UsageFault, writing
from ..common.outputs import NEW
from ..common.progress import counted, note_path
from ..image.images import opened_image, paths_of_image, platforms_in
from ..image.joined import join_images
from ..image.targets import Form, Target
from .image import FlattenOptions, ImageRunner, new_image, require_free, with_place
from .steps import carry_out, work_folder


def flatten_all(options: FlattenOptions) -> None:
    """Writes an image of all platforms that the given one has, each with its layers merged.

    Nothing is written unless each shows, read again, what the given image of that platform shows.
    """
    options = with_place(options)
    _require_files(options)
    require_free(options)
    begun = time.monotonic()
    platforms = platforms_in(options.image, options.tag)
    if options.out.form is Form.ARCHIVE and options.out.is_path:
        note_path(options.out.label, "of all platforms it has no manifest.json, without which only newer dockers load it")
    with new_image(options.out) as stage:
        with work_folder(stage, options.keep) as folder:
            runners = [_flattened(replace(options, platform=platform), stage, folder) for platform in platforms]
            out = replace(options.out, path=f"{stage}/{NEW}", given=options.out.path)
            join_images([runner.image for runner in runners], out, runners[0].name)
            for runner in runners:
                shutil.rmtree(runner.image)
        _require_whole(out, platforms)
    made, given = (sum(size or 0 for size in sizes) for sizes in zip(*((it.bytes_made, it.bytes_given) for it in runners)))
    note_path(options.out.label, (
        f"{counted(len(platforms), 'platform', 'platforms')}, {amount_text(made)} in place of {amount_text(given)} "
        f"({per_cent(made, given)}), {time.monotonic() - begun:.2f} s in all"
    ))


def _require_files(options: FlattenOptions) -> None:
    """Refuses an image that can't be read again and again, and a place that has room for one platform alone."""
    if not paths_of_image(options.image):
        raise UsageFault(
            f"--platform all reads the image for each platform: name a file or a folder "
            "(`skopeo copy --all docker://NAME oci:DIR` fetches one)"
        )
    if options.out.form is Form.COPY or options.out.word.startswith("docker-archive:"):
        raise UsageFault(f"--out {options.out.word} has room for one platform: write a folder, a .tar or oci-archive:FILE")


def _flattened(options: FlattenOptions, stage: str, folder: str) -> "_OfPlatform":
    """Makes the image of one platform, in a folder of its own beside the others."""
    name = str(options.platform).replace("/", "-")
    work, image, begun = f"{folder}/{name}", f"{stage}/{name}", time.monotonic()
    with writing(work):
        os.mkdir(work)
    with contextlib.ExitStack() as opened:
        runner = _OfPlatform(options, work, image, opened)
        before, after = carry_out(runner, options.layers)
    if options.keep is None:
        shutil.rmtree(work)
    runner.sum_up(f"{options.out.label}, {options.platform}", before, after, time.monotonic() - begun)
    return runner


class _OfPlatform(ImageRunner):
    """Does the steps of an image that is made as a folder."""

    def target(self) -> Target:
        """See `ImageRunner`."""
        return replace(super().target(), form=Form.LAYOUT)


def _require_whole(out: Target, platforms: list[str]) -> None:
    """Reads all layers of the new image again, which have the digests of those that were compared."""
    for platform in platforms:
        with opened_image(out.path, platform, None) as image:
            for layer in image.layers:
                layer.require_digests()
