#compdef layers
# made by tools/completions.py from the words of layers
_layers() {
    local curcontext=$curcontext state line
    local -a commands=(
        'check:print whether an image is fit to ship, and why not'
        'sizes:print what each layer holds, and what of it isn'\''t shown'
        'ls:list what is shown, and the layer that each comes from'
        'cat:print the contents of a file that is shown'
        'diff:print what differs between two images, or trees'
        'mounted:print what a folder shows, like ovl_layers show'
        'flatten:write an image or a stack as one layer'
        'vacuum:write a stack'\''s topmost layer without what changes nothing'
        'deref:write a stack'\''s topmost layer without redirects and metacopy'
        'merge:write a stack'\''s two topmost layers as one'
        'unpack:write an image'\''s layers as manifests and blobs'
        'pack:write manifests and blobs as an image'
        'scan:write a layer as a manifest and blobs'
        'store:write a layer of docker or podman, and those below it'
        'build:make the folder, or squashfs, of a manifest'
    )
    _arguments -C \
        '-h[show this help message and exit]' \
        '--help[show this help message and exit]' \
        '-q[prints faults only, without notes and progress]' \
        '--quiet[prints faults only, without notes and progress]' \
        '-v[prints what is run too]' \
        '--verbose[prints what is run too]' \
        '--color[colours]:COLOR:(auto always never)' \
        '--unproved[in a checkout]' \
        '-V[prints the version]' \
        '--version[prints the version]' \
        '1:command:->command' '*::words:->words'
    case $state in
        command) _describe command commands ;;
        words)
            case $words[1] in
                check)
                    _arguments \
                    '-h[show this help message and exit]' \
                    '--help[show this help message and exit]' \
                    '--strict[takes warnings for faults]' \
                    '--json[prints one object for a program]' \
                    '--base[the lowest N layers, or those of this image, are a base, which doesn'\''t count as waste]:N|IMAGE:' \
                    '--max-waste[takes it for a fault if more is wasted, such as 10%%, 50MB or 50MiB]:PERCENT|BYTES:' \
                    '--platform[which of several images, such as linux/amd64 or arm64]:OS/ARCH:' \
                    '--from-tag[which of several images, by its name in the image'\''s index]:NAME:' \
                    '--overlay-marks[takes attributes trusted.overlay.* of the image'\''s archives too, which change what the layers show]' \
                    '--skip-unsupported[leaves out what can'\''t be stated, with a warning each, instead of refusing it]' \
                    '--stack[layers in place of an image, the topmost first]:LAYER:_files' \
                    '--data-layers[with --stack]:K:' \
                    '--userxattr[with --stack]' \
                    '--no-userxattr[with --stack]' \
                    '--cross-file-systems[enters other file systems too]' \
                    '--workers[how many processes read files, 1 to 64]:N:' \
                    '--blobs[with --stack]:DIR:_files -/' \
                    '*:SOURCE:'
                    ;;
                sizes)
                    _arguments \
                    '-h[show this help message and exit]' \
                    '--help[show this help message and exit]' \
                    '--platform[which of several images, such as linux/amd64 or arm64]:OS/ARCH:' \
                    '--from-tag[which of several images, by its name in the image'\''s index]:NAME:' \
                    '--overlay-marks[takes attributes trusted.overlay.* of the image'\''s archives too, which change what the layers show]' \
                    '--skip-unsupported[leaves out what can'\''t be stated, with a warning each, instead of refusing it]' \
                    '--stack[layers in place of an image, the topmost first]:LAYER:_files' \
                    '--data-layers[with --stack]:K:' \
                    '--userxattr[with --stack]' \
                    '--no-userxattr[with --stack]' \
                    '--cross-file-systems[enters other file systems too]' \
                    '--workers[how many processes read files, 1 to 64]:N:' \
                    '--json[prints it all for a program]' \
                    '--bytes[prints exact numbers of bytes]' \
                    '--advice[prints what would save bytes, for each layer and kind of waste]' \
                    '--html[page to write besides]:FILE:_files' \
                    '--base[the lowest N layers, or those of this image, are a base, which doesn'\''t count as waste]:N|IMAGE:' \
                    '--max-waste[ends with status 1 if more is wasted, such as 10%%, 50MB or 50MiB]:PERCENT|BYTES:' \
                    '--fail-over[the same as --max-waste PERCENT%%]:PERCENT:' \
                    '*:IMAGE:_files'
                    ;;
                ls)
                    _arguments \
                    '-h[show this help message and exit]' \
                    '--help[show this help message and exit]' \
                    '--platform[which of several images, such as linux/amd64 or arm64]:OS/ARCH:' \
                    '--from-tag[which of several images, by its name in the image'\''s index]:NAME:' \
                    '--overlay-marks[takes attributes trusted.overlay.* of the image'\''s archives too, which change what the layers show]' \
                    '--skip-unsupported[leaves out what can'\''t be stated, with a warning each, instead of refusing it]' \
                    '--stack[layers in place of an image, the topmost first]:LAYER:_files' \
                    '--data-layers[with --stack]:K:' \
                    '--userxattr[with --stack]' \
                    '--no-userxattr[with --stack]' \
                    '--cross-file-systems[enters other file systems too]' \
                    '--workers[how many processes read files, 1 to 64]:N:' \
                    '--layer[lists what this layer has]:N:' \
                    '--removed[lists what is shipped and not shown]' \
                    '-R[lists all below it too, not only what is right in it]' \
                    '--recursive[lists all below it too, not only what is right in it]' \
                    '--no-recursive[lists all below it too, not only what is right in it]' \
                    '--full-time[prints times to the nanosecond, with their zone]' \
                    '--long-layer[prints what made each layer]' \
                    '--bytes[prints exact numbers of bytes]' \
                    '--json[prints objects for a program, one a line]' \
                    '*:IMAGE:_files'
                    ;;
                cat)
                    _arguments \
                    '-h[show this help message and exit]' \
                    '--help[show this help message and exit]' \
                    '--platform[which of several images, such as linux/amd64 or arm64]:OS/ARCH:' \
                    '--from-tag[which of several images, by its name in the image'\''s index]:NAME:' \
                    '--overlay-marks[takes attributes trusted.overlay.* of the image'\''s archives too, which change what the layers show]' \
                    '--skip-unsupported[leaves out what can'\''t be stated, with a warning each, instead of refusing it]' \
                    '--stack[layers in place of an image, the topmost first]:LAYER:_files' \
                    '--data-layers[with --stack]:K:' \
                    '--userxattr[with --stack]' \
                    '--no-userxattr[with --stack]' \
                    '--cross-file-systems[enters other file systems too]' \
                    '--workers[how many processes read files, 1 to 64]:N:' \
                    '--blobs[with --stack]:DIR:_files -/' \
                    '*:IMAGE:_files'
                    ;;
                diff)
                    _arguments \
                    '-h[show this help message and exit]' \
                    '--help[show this help message and exit]' \
                    '--ignore[doesn'\''t compare these]:WHAT,..:' \
                    '--no-config[doesn'\''t compare the configurations]' \
                    '--stat[prints only numbers]' \
                    '--json[prints objects for a program, one a line]' \
                    '--platform[which of several images, such as linux/amd64 or arm64]:OS/ARCH:' \
                    '--from-tag[which of several images, by its name in the image'\''s index]:NAME:' \
                    '--overlay-marks[takes attributes trusted.overlay.* of the image'\''s archives too, which change what the layers show]' \
                    '--skip-unsupported[leaves out what can'\''t be stated, with a warning each, instead of refusing it]' \
                    '--userxattr[of layers on a disk]' \
                    '--no-userxattr[of layers on a disk]' \
                    '--cross-file-systems[enters other file systems too]' \
                    '--workers[how many processes read files, 1 to 64]:N:' \
                    '*:OLD:'
                    ;;
                mounted)
                    _arguments \
                    '-h[show this help message and exit]' \
                    '--help[show this help message and exit]' \
                    '--json[prints objects for a program, one a line]' \
                    '--cross-file-systems[enters other file systems too]' \
                    '*:DIR:_files -/'
                    ;;
                flatten)
                    _arguments \
                    '-h[show this help message and exit]' \
                    '--help[show this help message and exit]' \
                    '--platform[which of several images, such as linux/amd64 or arm64]:OS/ARCH:' \
                    '--from-tag[which of several images, by its name in the image'\''s index]:NAME:' \
                    '--overlay-marks[takes attributes trusted.overlay.* of the image'\''s archives too, which change what the layers show]' \
                    '--skip-unsupported[leaves out what can'\''t be stated, with a warning each, instead of refusing it]' \
                    '--out[folder to make, or a file whose name ends in .tar]:IMAGE:_files' \
                    '--compress[packs the layers, at a level such as gzip\:9]:none|gzip|zstd|xz|lz4|METHOD\:LEVEL:(none gzip zstd xz lz4)' \
                    '-t[name of the new image, such as shop\:2]:NAME:' \
                    '--name[name of the new image, such as shop\:2]:NAME:' \
                    '--layers[how many layers are left at most]:N:' \
                    '--base[the lowest N layers, or those of this image, stay byte for byte, and all above becomes one layer]:N|IMAGE:' \
                    '--keep[folder to make, absent or empty, for all that is made on the way]:DIR:_files -/' \
                    '--rootfs[what is shown in place of an image]' \
                    '--exclude[leaves PATH out with all below it, as if the topmost layer had removed it]:PATH:' \
                    '--dry-run[prints the commands, as a shell takes them, and runs none]' \
                    '--stack[layers in place of an image, the topmost first]:LAYER:_files' \
                    '--data-layers[with --stack]:K:' \
                    '--userxattr[with --stack]' \
                    '--no-userxattr[with --stack]' \
                    '--cross-file-systems[enters other file systems too]' \
                    '--workers[how many processes read files, 1 to 64]:N:' \
                    '--blobs[with --stack]:DIR:_files -/' \
                    '--form[with --stack]:FORM:(folder squashfs tar)' \
                    '*:IMAGE:_files'
                    ;;
                vacuum)
                    _arguments \
                    '-h[show this help message and exit]' \
                    '--help[show this help message and exit]' \
                    '--out[folder to make, absent or empty, or a file whose name ends in .squashfs or .tar]:OUT:_files' \
                    '--compress[packs the squashfs, at a level such as gzip\:9]:gzip|xz|zstd|lz4|METHOD\:LEVEL:(gzip xz zstd lz4)' \
                    '--keep[folder to make, absent or empty, for all that is made on the way]:DIR:_files -/' \
                    '--stack[layers, the topmost first]:LAYER:_files' \
                    '--data-layers[how many of the layers, the lowest ones, are data-only]:K:' \
                    '--userxattr[reads and writes marks as user.overlay.*, as the mount option of this name does]' \
                    '--no-userxattr[reads and writes marks as user.overlay.*, as the mount option of this name does]' \
                    '--cross-file-systems[enters other file systems too]' \
                    '--workers[how many processes read files, 1 to 64]:N:' \
                    '--blobs[folder with the contents of manifests]:DIR:_files -/' \
                    '--form[what layers are written as]:FORM:(folder squashfs tar)' \
                    '--skip-unsupported[leaves out what can'\''t be stated, with a warning each, instead of refusing it]' \
                    '*::'
                    ;;
                deref)
                    _arguments \
                    '-h[show this help message and exit]' \
                    '--help[show this help message and exit]' \
                    '--out[folder to make, absent or empty, or a file whose name ends in .squashfs or .tar]:OUT:_files' \
                    '--compress[packs the squashfs, at a level such as gzip\:9]:gzip|xz|zstd|lz4|METHOD\:LEVEL:(gzip xz zstd lz4)' \
                    '--keep[folder to make, absent or empty, for all that is made on the way]:DIR:_files -/' \
                    '--stack[layers, the topmost first]:LAYER:_files' \
                    '--data-layers[how many of the layers, the lowest ones, are data-only]:K:' \
                    '--userxattr[reads and writes marks as user.overlay.*, as the mount option of this name does]' \
                    '--no-userxattr[reads and writes marks as user.overlay.*, as the mount option of this name does]' \
                    '--cross-file-systems[enters other file systems too]' \
                    '--workers[how many processes read files, 1 to 64]:N:' \
                    '--blobs[folder with the contents of manifests]:DIR:_files -/' \
                    '--form[what layers are written as]:FORM:(folder squashfs tar)' \
                    '--skip-unsupported[leaves out what can'\''t be stated, with a warning each, instead of refusing it]' \
                    '*::'
                    ;;
                merge)
                    _arguments \
                    '-h[show this help message and exit]' \
                    '--help[show this help message and exit]' \
                    '--down-to[how many layers are left]:N:' \
                    '--out[folder to make, absent or empty, or a file whose name ends in .squashfs or .tar]:OUT:_files' \
                    '--compress[packs the squashfs, at a level such as gzip\:9]:gzip|xz|zstd|lz4|METHOD\:LEVEL:(gzip xz zstd lz4)' \
                    '--keep[folder to make, absent or empty, for all that is made on the way]:DIR:_files -/' \
                    '--stack[layers, the topmost first]:LAYER:_files' \
                    '--data-layers[how many of the layers, the lowest ones, are data-only]:K:' \
                    '--userxattr[reads and writes marks as user.overlay.*, as the mount option of this name does]' \
                    '--no-userxattr[reads and writes marks as user.overlay.*, as the mount option of this name does]' \
                    '--cross-file-systems[enters other file systems too]' \
                    '--workers[how many processes read files, 1 to 64]:N:' \
                    '--blobs[folder with the contents of manifests]:DIR:_files -/' \
                    '--form[what layers are written as]:FORM:(folder squashfs tar)' \
                    '--skip-unsupported[leaves out what can'\''t be stated, with a warning each, instead of refusing it]' \
                    '*::'
                    ;;
                unpack)
                    _arguments \
                    '-h[show this help message and exit]' \
                    '--help[show this help message and exit]' \
                    '--platform[which of several images, such as linux/amd64 or arm64]:OS/ARCH:' \
                    '--from-tag[which of several images, by its name in the image'\''s index]:NAME:' \
                    '--overlay-marks[takes attributes trusted.overlay.* of the image'\''s archives too, which change what the layers show]' \
                    '--skip-unsupported[leaves out what can'\''t be stated, with a warning each, instead of refusing it]' \
                    '--out[folder to make, absent or empty]:DIR:_files -/' \
                    '--digests-only[writes no blobs]' \
                    '--stack[layers in place of an image, the topmost first]:LAYER:_files' \
                    '--data-layers[with --stack]:K:' \
                    '--userxattr[with --stack]' \
                    '--no-userxattr[with --stack]' \
                    '--cross-file-systems[enters other file systems too]' \
                    '--workers[how many processes read files, 1 to 64]:N:' \
                    '--blobs[with --stack]:DIR:_files -/' \
                    '*:IMAGE:_files'
                    ;;
                pack)
                    _arguments \
                    '-h[show this help message and exit]' \
                    '--help[show this help message and exit]' \
                    '--blobs[folder with the contents of their files]:DIR:_files -/' \
                    '--out[folder to make, or a file whose name ends in .tar]:IMAGE:_files' \
                    '--compress[packs the layers, at a level such as gzip\:9]:none|gzip|zstd|METHOD\:LEVEL:(none gzip zstd)' \
                    '--config[what the image runs, as whom and on which platform, such as the config.json that unpack writes]:FILE:_files' \
                    '--platform[what the image says that it is for]:OS/ARCH:' \
                    '-t[name of the new image, such as shop\:2]:NAME:' \
                    '--name[name of the new image, such as shop\:2]:NAME:' \
                    '--tag[name of the new image, such as shop\:2]:NAME:' \
                    '--annotations[annotations of the image'\''s manifest, such as the annotations.json that unpack writes]:FILE:_files' \
                    '--links[hard links of layers that have no such file beside them]:FILE:_files' \
                    '--created-by[what the history says of layers that --config has no line for]:TEXT:' \
                    '--skip-unsupported[leaves out what can'\''t be stated, with a warning each, instead of refusing it]' \
                    '*:LAYER:_files'
                    ;;
                scan)
                    _arguments \
                    '-h[show this help message and exit]' \
                    '--help[show this help message and exit]' \
                    '--out[manifest to write]:FILE:_files' \
                    '--blobs[folder of blobs, made if it is absent]:DIR:_files -/' \
                    '--digests-only[writes no blobs]' \
                    '--userxattr[reads marks as user.overlay.*, as the mount option of this name does]' \
                    '--no-userxattr[reads marks as user.overlay.*, as the mount option of this name does]' \
                    '--cross-file-systems[enters other file systems too]' \
                    '--skip-unsupported[leaves out what can'\''t be stated, with a warning each, instead of refusing it]' \
                    '--workers[how many processes read files, 1 to 64]:N:' \
                    '*:LAYER:_files'
                    ;;
                store)
                    _arguments \
                    '-h[show this help message and exit]' \
                    '--help[show this help message and exit]' \
                    '--out[folder to make, absent or empty]:OUT:_files' \
                    '--digests-only[writes no blobs]' \
                    '--userxattr[reads marks as user.overlay.*, as the mount option of this name does]' \
                    '--no-userxattr[reads marks as user.overlay.*, as the mount option of this name does]' \
                    '--cross-file-systems[enters other file systems too]' \
                    '--skip-unsupported[leaves out what can'\''t be stated, with a warning each, instead of refusing it]' \
                    '--workers[how many processes read files, 1 to 64]:N:' \
                    '*:DIR:_files -/'
                    ;;
                build)
                    _arguments \
                    '-h[show this help message and exit]' \
                    '--help[show this help message and exit]' \
                    '--blobs[folder with the contents of its files]:DIR:_files -/' \
                    '--out[folder to make, absent or empty, or a file whose name ends in .squashfs or .tar]:OUT:_files' \
                    '--compress[packs the squashfs, at a level such as gzip\:9]:gzip|xz|zstd|lz4|METHOD\:LEVEL:(gzip xz zstd lz4)' \
                    '--userxattr[writes marks as user.overlay.*, as the mount option of this name does]' \
                    '--no-userxattr[writes marks as user.overlay.*, as the mount option of this name does]' \
                    '*:LAYER:_files'
                    ;;
            esac
            ;;
    esac
}
_layers "$@"
