"""`flatten --rootfs`: what an image shows, as a folder, a squashfs or a plain archive in place of an image."""

import time
from dataclasses import dataclass

from ..common.open_dirs import place_of
from ..common.outputs import NEW
from ..common.progress import counted
from ..image.images import image_place, opened_image
from ..image.unpack import UnpackOptions, unpack_opened
from .stack import NewLayersOptions, StackRunner, new_layers_stage, require_place
from .steps import STACK, carry_out, timed, work_folder


@dataclass(frozen=True, kw_only=True)
class RootfsOptions:
    """Which image is read, and what is written. `new.stack.layers` is where the image is, if it is in files."""

    image: str
    new: NewLayersOptions
    platform: str | None = None
    tag: str | None = None
    skip_unsupported: bool = False
    overlay_marks: bool = False


def flatten_rootfs(options: RootfsOptions) -> None:
    """Writes all that an image's layers show as one tree.

    Nothing is written unless that shows, read again, what the image shows, except for what was reported.
    """
    require_place(options.new)
    begun = time.monotonic()
    with new_layers_stage(options.new) as stage, work_folder(stage.path, options.new.keep) as folder:
        runner = _RootfsRunner(options, folder, place_of(stage.file, NEW))
        before, after = carry_out(runner, 1)
    runner.sum_up(options.new.label, before, after, time.monotonic() - begun)


class _RootfsRunner(StackRunner):
    """Does the steps. The layers are an image's."""

    def __init__(self, options: RootfsOptions, folder: str, made: str) -> None:
        super().__init__(options.new, folder, made, ())
        self._source = options

    def unpack(self) -> int:
        """See `Plan`."""
        source = self._source
        path, tag = image_place(source.image, source.tag)
        with timed("unpack") as words, opened_image(path, source.platform, tag) as image:
            unpack_opened(UnpackOptions(
                image=path, out=self.path(STACK), skip_unsupported=source.skip_unsupported,
                overlay_marks=source.overlay_marks,
            ), image)
            self.count, self.bytes_given = len(image.layers), image.layer_bytes()
            words.append(counted(self.count, "layer", "layers"))
        return self.count
