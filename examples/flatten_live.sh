#!/usr/bin/env bash
# Makes the layers of a live system, flattens them to one squashfs, and has the kernel show both:
#
#     sudo examples/flatten_live.sh [DIR]
#
# The lower layer is a Debian system as filesystem.squashfs, the upper one a folder in which a mounted overlay keeps what
# was done there: packages installed and removed, directories renamed, files changed in mode and owner. The new squashfs,
# mounted, must show what the kernel showed of the overlay, with times cut to whole seconds, as squashfs has them. It
# works in DIR, which must be absent or empty and stays; without one it works in a temporary folder. It needs root, loop
# and overlay mounts, a network, some 2 GB and, of Debian's packages, mmdebstrap and squashfs-tools-ng. It ends with
# status 0 if all is the same.
set -euo pipefail

here=$(dirname -- "$(readlink -f -- "${BASH_SOURCE[0]}")")
layers=$here/../layers

for tool in mmdebstrap sqfs2tar tar2sqfs; do
    command -v "$tool" > /dev/null || { echo "$0: $tool isn't there" >&2; exit 1; }
done
# Mounts are made in a namespace of their own, and end with it.
if [[ ${FLATTEN_LIVE_INSIDE-} != yes ]]; then
    FLATTEN_LIVE_INSIDE=yes exec unshare --mount --propagation private -- "$0" "$@"
fi
if (($# > 0)); then
    mkdir -p -- "$1"
    work=$(readlink -f -- "$1")
    [[ -z $(ls -A -- "$work") ]] || { echo "$0: $work isn't empty" >&2; exit 1; }
else
    work=$(mktemp -d)
    trap 'cd /; umount --quiet "$work"/{system,lower,flat} || true; rm -rf -- "$work"' EXIT
fi
cd -- "$work"

# What a live medium has.
mmdebstrap --quiet --variant=apt --include=less --format=squashfs bookworm filesystem.squashfs

# The live system at work: all that is done goes into the folder `upper`.
mkdir lower upper work system flat
mount -t squashfs -o loop,ro filesystem.squashfs lower
mount -t overlay -o lowerdir=lower,upperdir=upper,workdir=work,redirect_dir=on,metacopy=on overlay system
cp /etc/resolv.conf system/etc/resolv.conf
chroot system apt-get -qq update
DEBIAN_FRONTEND=noninteractive chroot system apt-get -qq install --no-install-recommends file iputils-ping python3
DEBIAN_FRONTEND=noninteractive chroot system apt-get -qq purge less
rm -rf system/var/lib/apt/lists system/var/cache/apt/*.bin
mv system/usr/share/doc system/usr/share/texts
mv system/usr/share/texts/libc6 system/usr/share/perl5 system/srv
chmod 4711 system/usr/bin/mawk
chown 33:33 system/etc/debian_version
ln system/usr/bin/perl system/usr/bin/perl-again
"$layers" mounted system > system.show
umount system

"$layers" flatten --stack upper filesystem.squashfs --out flat.squashfs --compress gzip

mount -t squashfs -o loop,ro flat.squashfs flat
"$layers" mounted flat > flat.show
# The fifth field of a line is a time: seconds, and what is over them.
sed -E 's/^(([^ ]+ ){4}[0-9]+)\+[0-9]+ /\1 /' system.show > wanted.show
if cmp wanted.show flat.show; then
    echo "the same $(tail -n 1 flat.show)"
else
    echo "$0: the flat squashfs shows something else" >&2
    exit 1
fi
