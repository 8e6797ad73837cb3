"""squashfs files, by the programs of squashfs-tools-ng."""
