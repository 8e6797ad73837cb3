#!/usr/bin/env bash
# Makes a Debian image of three layers, flattens it to one, and has umoci and skopeo compare both images:
#
#     sudo examples/flatten_debian.sh [DIR]
#
# What `umoci unpack` makes of both must be the same tree, what `skopeo inspect` prints of both the same configuration
# but for the layers and their history, and the check of the new image must find no fault. It works in DIR, which must
# be absent or empty and stays; without one it works in a temporary folder. It needs root, a network, some 2 GB and, of
# Debian's packages, mmdebstrap, umoci and skopeo. It ends with status 0 if all is the same.
set -euo pipefail

here=$(dirname -- "$(readlink -f -- "${BASH_SOURCE[0]}")")
layers=$here/../layers
program=$here/../crates/ovl_layers/out/ovl_layers
[[ -x $program ]] || program=ovl_layers

for tool in mmdebstrap umoci skopeo "$program"; do
    command -v "$tool" > /dev/null || { echo "$0: $tool isn't there" >&2; exit 1; }
done
if (($# > 0)); then
    mkdir -p -- "$1"
    work=$(readlink -f -- "$1")
    [[ -z $(ls -A -- "$work") ]] || { echo "$0: $work isn't empty" >&2; exit 1; }
else
    work=$(mktemp -d)
    trap 'rm -rf -- "$work"' EXIT
fi
cd -- "$work"

# Takes the changes in the bundle's folder into the image as one more layer.
add_layer() {
    umoci repack --refresh-bundle --image image:debian bundle
}

# The lowest layer: a system of packages.
mmdebstrap --quiet --variant=apt --format=directory bookworm base
umoci init --layout image
umoci new --image image:debian
umoci unpack --image image:debian bundle
cp -a base/. bundle/rootfs
add_layer

# Above it packages are installed, and files changed in mode, owner, time and contents.
cp /etc/resolv.conf bundle/rootfs/etc/resolv.conf
chroot bundle/rootfs apt-get -qq update
DEBIAN_FRONTEND=noninteractive chroot bundle/rootfs apt-get -qq install --no-install-recommends file iputils-ping
rm -rf bundle/rootfs/var/lib/apt/lists bundle/rootfs/var/cache/apt/*.bin
chmod 4711 bundle/rootfs/usr/bin/mawk
chown 33:33 bundle/rootfs/srv
echo changed >> bundle/rootfs/etc/motd
add_layer

# The topmost takes things away, and puts others in their place.
DEBIAN_FRONTEND=noninteractive chroot bundle/rootfs apt-get -qq purge file
rm -r bundle/rootfs/usr/share/man
ln -s doc bundle/rootfs/usr/share/man
rm bundle/rootfs/etc/motd
mkdir -p bundle/rootfs/etc/motd/d
rm -r bundle/rootfs/usr/share/doc/libc6
mkdir bundle/rootfs/usr/share/doc/libc6
echo new > bundle/rootfs/usr/share/doc/libc6/new
ln bundle/rootfs/usr/bin/perl bundle/rootfs/usr/bin/perl-again
add_layer
umoci config --image image:debian --config.cmd /bin/bash --config.entrypoint /usr/bin/env --config.user 33:33 \
    --config.env LANG=C.UTF-8 --config.workingdir /srv --config.label org.example=flatten --config.exposedports 80/tcp \
    --config.volume /var/lib/data --author 'A. Uthor <a@example.org>' --architecture arm64

"$layers" flatten image --out flat

# Compares what a command makes of both images; the rest of the words is put after the image's name.
same=0 other=0
compare() {
    local what=$1
    shift
    if cmp -- <("$@" image) <("$@" flat); then
        same=$((same + 1))
    else
        echo "$what: not the same" >&2
        other=$((other + 1))
    fi
}

# The tree that umoci makes of an image, as `show` prints trees.
tree() {
    umoci unpack --image "$1:debian" "$1-bundle" > /dev/null
    "$layers" mounted "$1-bundle/rootfs"
}

# The configuration of an image without its layers and how they came to be.
configuration() {
    skopeo inspect --config "oci:$1:debian" | python3 -c '
import json, sys
print({name: value for name, value in json.load(sys.stdin).items() if name not in ("rootfs", "history")})'
}

compare 'the trees of umoci' tree
compare 'the configurations of skopeo' configuration
"$layers" unpack flat --out stack
if "$program" fsck --blobs stack/blobs stack/l0.json; then
    same=$((same + 1))
else
    other=$((other + 1))
fi
echo "$same same, $other other"
((other == 0))
