#compdef ovl_layers
# made by tools/completions.py from the words of ovl_layers
_ovl_layers() {
    local curcontext=$curcontext state line
    local -a commands=(
        'show:List each path that the overlay of the layers shows, with what is there'
        'fsck:Check that the layers fit one another and that the contents of their files are whole'
        'vacuum:Drop from the topmost layer what changes nothing in what the overlay shows'
        'deref:Write the topmost layer without redirects and metacopy files'
        'merge:Put the topmost layer into the one below it'
        'flatten:Write all that the overlay shows as one layer'
    )
    _arguments -C \
        '-h[Print help]' \
        '--help[Print help]' \
        '-V[Print version]' \
        '--version[Print version]' \
        '1:command:->command' '*::words:->words'
    case $state in
        command) _describe command commands ;;
        words)
            case $words[1] in
                show)
                    _arguments \
                    '--workers[How many workers share the directories, 1 to 64]:N:' \
                    '--data-layers[How many of the layers, the lowest ones, are data-only, 0 to 127]:K:' \
                    '-h[Print help]' \
                    '--help[Print help]' \
                    '*:LAYER:_files'
                    ;;
                fsck)
                    _arguments \
                    '--blobs[Folder with the contents of the layers'\'' files, each file named by its SHA-256 digest]:DIR:_files -/' \
                    '--any-size[Read only contents that the layers name, in parts, whatever their size]' \
                    '--workers[How many workers share the directories, 1 to 64]:N:' \
                    '--data-layers[How many of the layers, the lowest ones, are data-only, 0 to 127]:K:' \
                    '-h[Print help]' \
                    '--help[Print help]' \
                    '*:LAYER:_files'
                    ;;
                vacuum)
                    _arguments \
                    '--blobs[Folder with the contents of the layers'\'' files, each file named by its SHA-256 digest]:DIR:_files -/' \
                    '--any-size[Read only contents that the layers name, in parts, whatever their size]' \
                    '--out[Folder for the new layers, written there as layer-0.json and so on]:DIR:_files -/' \
                    '--workers[How many workers share the directories, 1 to 64]:N:' \
                    '--data-layers[How many of the layers, the lowest ones, are data-only, 0 to 127]:K:' \
                    '-h[Print help]' \
                    '--help[Print help]' \
                    '*:LAYER:_files'
                    ;;
                deref)
                    _arguments \
                    '--blobs[Folder with the contents of the layers'\'' files, each file named by its SHA-256 digest]:DIR:_files -/' \
                    '--any-size[Read only contents that the layers name, in parts, whatever their size]' \
                    '--out[Folder for the new layers, written there as layer-0.json and so on]:DIR:_files -/' \
                    '--workers[How many workers share the directories, 1 to 64]:N:' \
                    '--data-layers[How many of the layers, the lowest ones, are data-only, 0 to 127]:K:' \
                    '-h[Print help]' \
                    '--help[Print help]' \
                    '*:LAYER:_files'
                    ;;
                merge)
                    _arguments \
                    '--blobs[Folder with the contents of the layers'\'' files, each file named by its SHA-256 digest]:DIR:_files -/' \
                    '--any-size[Read only contents that the layers name, in parts, whatever their size]' \
                    '--out[Folder for the new layers, written there as layer-0.json and so on]:DIR:_files -/' \
                    '--down-to[Merge until N layers that aren'\''t data-only are left, 1 to 127]:N:' \
                    '--workers[How many workers share the directories, 1 to 64]:N:' \
                    '--data-layers[How many of the layers, the lowest ones, are data-only, 0 to 127]:K:' \
                    '-h[Print help]' \
                    '--help[Print help]' \
                    '*:LAYER:_files'
                    ;;
                flatten)
                    _arguments \
                    '--blobs[Folder with the contents of the layers'\'' files, each file named by its SHA-256 digest]:DIR:_files -/' \
                    '--any-size[Read only contents that the layers name, in parts, whatever their size]' \
                    '--out[Folder for the new layers, written there as layer-0.json and so on]:DIR:_files -/' \
                    '--workers[How many workers share the directories, 1 to 64]:N:' \
                    '--data-layers[How many of the layers, the lowest ones, are data-only, 0 to 127]:K:' \
                    '-h[Print help]' \
                    '--help[Print help]' \
                    '*:LAYER:_files'
                    ;;
            esac
            ;;
    esac
}
_ovl_layers "$@"
