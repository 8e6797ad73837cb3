"""What help says of each command, and of all."""

ABOUT = """\
Inspects and rewrites container images, and other stacks of overlayfs layers; what they show stays the same.
What layers show comes from the proved program ovl_layers; reading and writing them is tested."""

MORE = """\
IMAGE is an OCI image layout, what docker save wrote, or - for standard input; skopeo fetches
docker-daemon:NAME, containers-storage:NAME and docker://NAME. A layer on a disk is a folder, a squashfs, a
tar archive, or a manifest: a JSON file of what is in it, with contents in a folder of blobs. The topmost
layer comes first. lowerdir=UPPER:LOWER in IMAGE's place names layers as a mount does.

examples:
  docker save NAME | {name} flatten - --out - | docker load
  {name} sizes image.tar --html sizes.html
  sudo {name} flatten --stack /srv/upper live.squashfs --out new.squashfs

exit status:
  0  done
  1  faults in layers; check: not fit; sizes: over --max-waste; diff: different
  2  the words don't fit
  3  something can't be read, or can't be stated in a manifest or an image
  4  something can't be written
  5  anything else

`{name} COMMAND --help` explains a command. -q, -v, --color and --unproved may come after it too."""

SCAN = """\
Write the manifest of a layer, and the contents of its files into the folder of blobs. LAYER is the layer's
folder, a squashfs file, or a tar archive of the folder with its attributes. In all of them a char device 0:0
is a whiteout, trusted.overlay.* are marks, and names that begin with .wh. are names like others. A squashfs
is read by sqfs2tar (in Debian's squashfs-tools-ng); it gives no sockets, which is counted and printed.

Links are never followed, and other file systems aren't entered. Anything that a manifest can't state is
refused, before anything is written: names that aren't UTF-8, paths over 128 names or 4,095 bytes, over
1,048,576 entries, trusted.overlay.overlay.* attributes. If names are one file (hard links), NAME.links beside
NAME.json says so, for `build` and `pack`; for standard output they are files of their own.

With --digests-only in place of --blobs contents are read for their digests and copied nowhere, which is
enough for `ovl_layers show`.

Only root can read the marks of an overlay (trusted.overlay.*) of a folder; those of a file anyone can."""

STORE = """\
Write a layer that docker (overlay2) or podman and buildah (containers-storage) keep on this machine, and
those below it, as manifests: OUT/l0.json, the topmost, OUT/l1.json and so on, and the contents of all their
files into OUT/blobs, as `scan` does. OUT/l0.links and so on have the hard links of each layer, and
OUT/shown.links those that the layers show together.

DIR is the folder of the topmost layer, such as /var/lib/docker/overlay2/ID or
/var/lib/containers/storage/overlay/ID; its `lower` says which layers are below it.

Only root can read the marks of an overlay (trusted.overlay.*)."""

BUILD = """\
Make the folder of a manifest, or a squashfs or a plain archive of it if the name ends in .squashfs or .tar:
kinds, modes, owners, times, attributes, devices and whiteouts, as the kernel has them. Contents are checked
against their digests. Names that are one file, by the LAYER.links that `scan` writes beside LAYER.json,
become hard links. Owners, devices and trusted.overlay.* attributes of a folder need root.

A squashfs is made by tar2sqfs (in Debian's squashfs-tools-ng), without any rights, of the same bytes for the
same input. It has no sockets, and times in whole seconds from 1970 to 2105, which is counted and printed. It
gets its name once it was read again and gives the manifest back."""

UNPACK = """\
Write the layers of an image as manifests: DIR/l0.json, the topmost, DIR/l1.json and so on, and the contents
of all their files into DIR/blobs. DIR/config.json is the image's configuration with its platform, for `pack
--config`; DIR/annotations.json has the annotations of its manifest, if it has any. With --digests-only
contents are read for their digests and copied nowhere, which is enough for `ovl_layers show`.

IMAGE is an OCI image layout (a folder or a tar archive of it), what `docker save` writes, or a folder of
skopeo's dir:. It may also be named as skopeo does it (oci:DIR:TAG, docker-archive:FILE), and is fetched by
skopeo if it is docker-daemon:NAME, containers-storage:NAME or docker://NAME; - is an archive from standard
input. An archive may be packed by gzip or zstd. Layers may be plain, gzip, or zstd if the zstd program is
there. Their digests are checked. A directory that a layer leaves out is as the layers below show it. Names
that are one file (hard links) are listed in DIR/l0.links and so on, those that all layers show in
DIR/shown.links. A whiteout (.wh.NAME) becomes a char device 0:0, and .wh..wh..opq an opaque directory.

--stack takes layers on a disk in an image's place."""

PACK = """\
Write manifests, the topmost first, as an OCI image layout: a folder, or one tar archive if the name ends in
.tar, which `docker load` and `podman load` take too. --out may also be named as skopeo does it; - is an
archive on standard output. The same input gives the same bytes. The image's configuration (command,
environment, user, labels, platform and all else) is that of --config. A history of as many layers is kept as
it is; any other stays as entries without layers, and each layer gets an entry of its own.

Names are hard links if the file of links beside a manifest has them as one file, or for a manifest without
such a file that of --links, and all else that the manifest says of them is the same.

A layer that has moved directories (redirects) or files without contents (metacopy) is refused: no image can
state them. Run `ovl_layers deref` first, or `merge` down to one layer."""

FLATTEN = """\
Write an image with one layer, or at most N, that shows the same. The image's configuration, name, annotations
and hard links stay. Contents of files that upper layers deleted or replaced aren't in it. With --base the
layers of a base image stay byte for byte, and all above becomes one layer.

The proved program ovl_layers does it: in a checkout it is built first if it must be; else it is the one
beside this program, or on the PATH. After `unpack` it checks the layers and writes all that they show as one.
If several are to be left, it checks them (`fsck`), drops what changes nothing (`vacuum`), unfolds moved
directories and metacopy files (`deref`), and merges the topmost layers (`merge`). Then `pack` writes the
image. Each step is printed with its time.

A layer that is made is packed as the topmost given one, unless --compress says otherwise.

Nothing is written unless the new layers, and the new image when it is read again, show what the given image
shows, byte for byte. If the program refuses the layers, its report and its status are those of this command.
--out is as for `pack`: with -, an archive on standard output, nothing else goes there.

--dry-run prints the commands that do the same by hand, and says what by hand can't be done.

With --stack LAYER.. layers on a disk take an image's place, the topmost first: folders, squashfs files, tar
archives of folders, or manifests with --blobs. One layer is written: a squashfs or a plain archive if the
name of --out ends in .squashfs or .tar, else a folder; with --layers over 1, a folder of layers l0, the
topmost, l1 and so on. The steps and comparisons are the same, but files have no sockets, and a squashfs only
times in whole seconds. --rootfs writes what an image shows in these forms.

--exclude PATH leaves out what is shown there, with all below it, as if the topmost layer had removed it."""

SIZES = """\
Print where the bytes of an image's layers go, the topmost layer first: the step of the Dockerfile, the bytes,
and what of them is wasted: deleted but shipped (layers above remove or replace it), or a duplicate of a lower
layer. Then the places and the commands that waste most, and the verdict. The table is as wide as the
terminal, or COLUMNS says, else 80. convert/README.md defines each number.

--advice says for each layer what would save bytes: COPY --chown or --chmod, one RUN in place of two, no
caches of package managers, a symlink in place of a copy.

Contents are copied nowhere. What the layers show comes from the proved program ovl_layers, as in `flatten`.

--stack takes layers in place of an image, the topmost first: folders, squashfs files, tar archives of
folders, and manifests, whose contents aren't needed. Only root can read the marks of folders."""

LS = """\
Print what a source shows, a line for each path, as `ls -l` does: mode, owner and group as numbers, size,
local time, the layer that it comes from, path, and a symlink's target. Layers are counted from the topmost,
0. 2:4 is a file whose entry is in layer 2 and whose contents are in layer 4 (metacopy). In a path \\xHH is a
byte that can't be seen. PATH restricts it to what is there and below.

--layer N prints what that layer has, its whiteouts as `- PATH`; --removed what is shipped and not shown: the
entries of all layers, but for directories, that an upper layer removes or replaces, and which. Nothing is
printed unless all is what the proved program ovl_layers shows. With --stack, PATH comes before it, or after --.

--json prints an object a line: {"layers-ls":1}, the entries, their number."""

CAT = """\
Print the contents of the file to which a path leads. Links are followed inside of what is shown, 40 at most.
The contents come from the layer that has them, and are printed once their digest is known to be right. With
--stack, PATH comes before it, or after --."""

DIFF = """\
Print what differs between what two sources show, a line for each path, in path order: + PATH if only NEW
shows it, - PATH if only OLD does, M PATH if both do, with what differs: contents, mode, owner, mtime,
attributes, link (a symlink's target), device, kind. In a path \\xHH is a byte that can't be seen.

OLD and NEW are each an IMAGE, a folder that `unpack` or `store` wrote, or any other folder: a tree as it is
mounted, without a configuration, whose trusted.* attributes only root can read. lowerdir=UPPER:LOWER names
layers on a disk, the topmost first, as a mount does (data-only ones after ::). Contents are copied nowhere.
What layers show comes from the proved program ovl_layers, as in `flatten`.

The lines before these have the members of the configuration that differ. rootfs, history and created, which
say how the layers were made, aren't compared. Neither are hard links.

--json prints an object a line: {"layers-diff":1}, the changes, the numbers. Status 1 says that they differ.
Two builds of one image are compared by `--ignore mtime`."""

CHECK = """\
Print what is wrong with an image, a line each: fault, warning or note, a code, the layer (0 is the topmost),
the path, and words; then the verdict. It looks at

  - descriptors and digests, and by the proved `ovl_layers fsck` at the layers
    and at all contents
  - the configuration: the entrypoint or command, and the health check, found by
    PATH and executable by the image's user, with their interpreters and for its
    processor; the user and groups; the working directory
  - waste, as `sizes` has it: bytes that were removed or replaced, and those
    that are there twice
  - files whose names are those of keys and credentials: a warning if they were
    deleted or replaced and so are shipped all the same, else a note

SOURCE is an IMAGE, or a folder that `unpack` wrote with contents. All contents are written to TMPDIR
meanwhile. Status 0 says that it is fit, 1 that it isn't: there are faults, or with --strict warnings. --json
prints one object."""

REWRITING = """\
The proved program ovl_layers does it, and first checks the layers; its report goes to standard output. LAYER
is a folder, a squashfs, a tar archive of a folder, or a manifest with --blobs, the topmost first. The new
layer is a folder, or a squashfs or a tar archive if the name of --out ends in .squashfs or .tar. It is
written only if all layers, with it read again in place of those given, show the same; the given ones stay as
they are. Names that are one file (hard links) stay so, except with names in layers below. Files have no
sockets, and a squashfs no times below a second, which is counted and printed."""

VACUUM = f"""\
Write the topmost layer of a stack without what changes nothing: files and directories that only repeat what
the layers below show, such as those that an upgrade wrote again. Each is printed as a line `removed PATH`.
For the upper directory of a live system, or an overlay of firmware, that is to be smaller.

{REWRITING}"""

DEREF = f"""\
Write the topmost layer of a stack without redirects and metacopy files, which mean nothing outside of an
overlay: a directory that was moved becomes one with all that is shown in it, and a file without its contents
gets them.

{REWRITING}"""

MERGE = f"""\
Write the two topmost layers of a stack as one, such as an upper directory and the layer below it. The new
layer takes the place of both. With --down-to N merging goes on until N layers are left: the new one, and the
N - 1 lowest of those given; data-only layers aren't counted.

{REWRITING}"""

MOUNTED = """\
Print what is in a folder, such as a mounted overlay, as `ovl_layers show` prints it, so that the two can be
compared."""
