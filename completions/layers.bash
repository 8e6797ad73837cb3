# made by tools/completions.py from the words of layers
_layers() {
    local word=${COMP_WORDS[COMP_CWORD]} before=${COMP_WORDS[COMP_CWORD - 1]} command='' index
    for ((index = 1; index < COMP_CWORD; index++)); do
        case ${COMP_WORDS[index]} in
            check | sizes | ls | cat | diff | mounted | flatten | vacuum | deref | merge | unpack | pack | scan | store | build) command=${COMP_WORDS[index]} && break ;;
        esac
    done
    COMPREPLY=()
    case $command/$before in
        check/--base) compopt +o default && return ;;
        check/--max-waste) compopt +o default && return ;;
        check/--platform) compopt +o default && return ;;
        check/--from-tag) compopt +o default && return ;;
        check/--data-layers) compopt +o default && return ;;
        check/--workers) compopt +o default && return ;;
        check/--blobs) compopt -o filenames; mapfile -t COMPREPLY < <(compgen -d -- "$word") && return ;;
        sizes/--platform) compopt +o default && return ;;
        sizes/--from-tag) compopt +o default && return ;;
        sizes/--data-layers) compopt +o default && return ;;
        sizes/--workers) compopt +o default && return ;;
        sizes/--base) compopt +o default && return ;;
        sizes/--max-waste) compopt +o default && return ;;
        sizes/--fail-over) compopt +o default && return ;;
        ls/--platform) compopt +o default && return ;;
        ls/--from-tag) compopt +o default && return ;;
        ls/--data-layers) compopt +o default && return ;;
        ls/--workers) compopt +o default && return ;;
        ls/--layer) compopt +o default && return ;;
        cat/--platform) compopt +o default && return ;;
        cat/--from-tag) compopt +o default && return ;;
        cat/--data-layers) compopt +o default && return ;;
        cat/--workers) compopt +o default && return ;;
        cat/--blobs) compopt -o filenames; mapfile -t COMPREPLY < <(compgen -d -- "$word") && return ;;
        diff/--ignore) compopt +o default && return ;;
        diff/--platform) compopt +o default && return ;;
        diff/--from-tag) compopt +o default && return ;;
        diff/--workers) compopt +o default && return ;;
        flatten/--platform) compopt +o default && return ;;
        flatten/--from-tag) compopt +o default && return ;;
        flatten/--compress) mapfile -t COMPREPLY < <(compgen -W 'none gzip zstd xz lz4' -- "$word") && return ;;
        flatten/-t | flatten/--name) compopt +o default && return ;;
        flatten/--layers) compopt +o default && return ;;
        flatten/--base) compopt +o default && return ;;
        flatten/--keep) compopt -o filenames; mapfile -t COMPREPLY < <(compgen -d -- "$word") && return ;;
        flatten/--exclude) compopt +o default && return ;;
        flatten/--data-layers) compopt +o default && return ;;
        flatten/--workers) compopt +o default && return ;;
        flatten/--blobs) compopt -o filenames; mapfile -t COMPREPLY < <(compgen -d -- "$word") && return ;;
        flatten/--form) mapfile -t COMPREPLY < <(compgen -W 'folder squashfs tar' -- "$word") && return ;;
        vacuum/--compress) mapfile -t COMPREPLY < <(compgen -W 'gzip xz zstd lz4' -- "$word") && return ;;
        vacuum/--keep) compopt -o filenames; mapfile -t COMPREPLY < <(compgen -d -- "$word") && return ;;
        vacuum/--data-layers) compopt +o default && return ;;
        vacuum/--workers) compopt +o default && return ;;
        vacuum/--blobs) compopt -o filenames; mapfile -t COMPREPLY < <(compgen -d -- "$word") && return ;;
        vacuum/--form) mapfile -t COMPREPLY < <(compgen -W 'folder squashfs tar' -- "$word") && return ;;
        deref/--compress) mapfile -t COMPREPLY < <(compgen -W 'gzip xz zstd lz4' -- "$word") && return ;;
        deref/--keep) compopt -o filenames; mapfile -t COMPREPLY < <(compgen -d -- "$word") && return ;;
        deref/--data-layers) compopt +o default && return ;;
        deref/--workers) compopt +o default && return ;;
        deref/--blobs) compopt -o filenames; mapfile -t COMPREPLY < <(compgen -d -- "$word") && return ;;
        deref/--form) mapfile -t COMPREPLY < <(compgen -W 'folder squashfs tar' -- "$word") && return ;;
        merge/--down-to) compopt +o default && return ;;
        merge/--compress) mapfile -t COMPREPLY < <(compgen -W 'gzip xz zstd lz4' -- "$word") && return ;;
        merge/--keep) compopt -o filenames; mapfile -t COMPREPLY < <(compgen -d -- "$word") && return ;;
        merge/--data-layers) compopt +o default && return ;;
        merge/--workers) compopt +o default && return ;;
        merge/--blobs) compopt -o filenames; mapfile -t COMPREPLY < <(compgen -d -- "$word") && return ;;
        merge/--form) mapfile -t COMPREPLY < <(compgen -W 'folder squashfs tar' -- "$word") && return ;;
        unpack/--platform) compopt +o default && return ;;
        unpack/--from-tag) compopt +o default && return ;;
        unpack/--out) compopt -o filenames; mapfile -t COMPREPLY < <(compgen -d -- "$word") && return ;;
        unpack/--data-layers) compopt +o default && return ;;
        unpack/--workers) compopt +o default && return ;;
        unpack/--blobs) compopt -o filenames; mapfile -t COMPREPLY < <(compgen -d -- "$word") && return ;;
        pack/--blobs) compopt -o filenames; mapfile -t COMPREPLY < <(compgen -d -- "$word") && return ;;
        pack/--compress) mapfile -t COMPREPLY < <(compgen -W 'none gzip zstd' -- "$word") && return ;;
        pack/--platform) compopt +o default && return ;;
        pack/-t | pack/--name | pack/--tag) compopt +o default && return ;;
        pack/--created-by) compopt +o default && return ;;
        scan/--blobs) compopt -o filenames; mapfile -t COMPREPLY < <(compgen -d -- "$word") && return ;;
        scan/--workers) compopt +o default && return ;;
        store/--workers) compopt +o default && return ;;
        build/--blobs) compopt -o filenames; mapfile -t COMPREPLY < <(compgen -d -- "$word") && return ;;
        build/--compress) mapfile -t COMPREPLY < <(compgen -W 'gzip xz zstd lz4' -- "$word") && return ;;
    esac
    case $command in
        '') mapfile -t COMPREPLY < <(compgen -W 'check sizes ls cat diff mounted flatten vacuum deref merge unpack pack scan store build -h --help -q --quiet -v --verbose --color --unproved -V --version' -- "$word") ;;
        check) [[ $word != -* ]] || mapfile -t COMPREPLY < <(compgen -W '-h --help --strict --json --base --max-waste --platform --from-tag --overlay-marks --skip-unsupported --stack --data-layers --userxattr --no-userxattr --cross-file-systems --workers --blobs' -- "$word") ;;
        sizes) [[ $word != -* ]] || mapfile -t COMPREPLY < <(compgen -W '-h --help --platform --from-tag --overlay-marks --skip-unsupported --stack --data-layers --userxattr --no-userxattr --cross-file-systems --workers --json --bytes --advice --html --base --max-waste --fail-over' -- "$word") ;;
        ls) [[ $word != -* ]] || mapfile -t COMPREPLY < <(compgen -W '-h --help --platform --from-tag --overlay-marks --skip-unsupported --stack --data-layers --userxattr --no-userxattr --cross-file-systems --workers --layer --removed -R --recursive --no-recursive --full-time --long-layer --bytes --json' -- "$word") ;;
        cat) [[ $word != -* ]] || mapfile -t COMPREPLY < <(compgen -W '-h --help --platform --from-tag --overlay-marks --skip-unsupported --stack --data-layers --userxattr --no-userxattr --cross-file-systems --workers --blobs' -- "$word") ;;
        diff) [[ $word != -* ]] || mapfile -t COMPREPLY < <(compgen -W '-h --help --ignore --no-config --stat --json --platform --from-tag --overlay-marks --skip-unsupported --userxattr --no-userxattr --cross-file-systems --workers' -- "$word") ;;
        mounted) [[ $word != -* ]] || mapfile -t COMPREPLY < <(compgen -W '-h --help --json --cross-file-systems' -- "$word") ;;
        flatten) [[ $word != -* ]] || mapfile -t COMPREPLY < <(compgen -W '-h --help --platform --from-tag --overlay-marks --skip-unsupported --out --compress -t --name --layers --base --keep --rootfs --exclude --dry-run --stack --data-layers --userxattr --no-userxattr --cross-file-systems --workers --blobs --form' -- "$word") ;;
        vacuum) [[ $word != -* ]] || mapfile -t COMPREPLY < <(compgen -W '-h --help --out --compress --keep --stack --data-layers --userxattr --no-userxattr --cross-file-systems --workers --blobs --form --skip-unsupported' -- "$word") ;;
        deref) [[ $word != -* ]] || mapfile -t COMPREPLY < <(compgen -W '-h --help --out --compress --keep --stack --data-layers --userxattr --no-userxattr --cross-file-systems --workers --blobs --form --skip-unsupported' -- "$word") ;;
        merge) [[ $word != -* ]] || mapfile -t COMPREPLY < <(compgen -W '-h --help --down-to --out --compress --keep --stack --data-layers --userxattr --no-userxattr --cross-file-systems --workers --blobs --form --skip-unsupported' -- "$word") ;;
        unpack) [[ $word != -* ]] || mapfile -t COMPREPLY < <(compgen -W '-h --help --platform --from-tag --overlay-marks --skip-unsupported --out --digests-only --stack --data-layers --userxattr --no-userxattr --cross-file-systems --workers --blobs' -- "$word") ;;
        pack) [[ $word != -* ]] || mapfile -t COMPREPLY < <(compgen -W '-h --help --blobs --out --compress --config --platform -t --name --tag --annotations --links --created-by --skip-unsupported' -- "$word") ;;
        scan) [[ $word != -* ]] || mapfile -t COMPREPLY < <(compgen -W '-h --help --out --blobs --digests-only --userxattr --no-userxattr --cross-file-systems --skip-unsupported --workers' -- "$word") ;;
        store) [[ $word != -* ]] || mapfile -t COMPREPLY < <(compgen -W '-h --help --out --digests-only --userxattr --no-userxattr --cross-file-systems --skip-unsupported --workers' -- "$word") ;;
        build) [[ $word != -* ]] || mapfile -t COMPREPLY < <(compgen -W '-h --help --blobs --out --compress --userxattr --no-userxattr' -- "$word") ;;
    esac
}
complete -o default -F _layers layers
