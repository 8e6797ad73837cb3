# made by tools/completions.py from the words of ovl_layers
_ovl_layers() {
    local word=${COMP_WORDS[COMP_CWORD]} before=${COMP_WORDS[COMP_CWORD - 1]} command='' index
    for ((index = 1; index < COMP_CWORD; index++)); do
        case ${COMP_WORDS[index]} in
            show | fsck | vacuum | deref | merge | flatten) command=${COMP_WORDS[index]} && break ;;
        esac
    done
    COMPREPLY=()
    case $command/$before in
        show/--workers) compopt +o default && return ;;
        show/--data-layers) compopt +o default && return ;;
        fsck/--blobs) compopt -o filenames; mapfile -t COMPREPLY < <(compgen -d -- "$word") && return ;;
        fsck/--workers) compopt +o default && return ;;
        fsck/--data-layers) compopt +o default && return ;;
        vacuum/--blobs) compopt -o filenames; mapfile -t COMPREPLY < <(compgen -d -- "$word") && return ;;
        vacuum/--out) compopt -o filenames; mapfile -t COMPREPLY < <(compgen -d -- "$word") && return ;;
        vacuum/--workers) compopt +o default && return ;;
        vacuum/--data-layers) compopt +o default && return ;;
        deref/--blobs) compopt -o filenames; mapfile -t COMPREPLY < <(compgen -d -- "$word") && return ;;
        deref/--out) compopt -o filenames; mapfile -t COMPREPLY < <(compgen -d -- "$word") && return ;;
        deref/--workers) compopt +o default && return ;;
        deref/--data-layers) compopt +o default && return ;;
        merge/--blobs) compopt -o filenames; mapfile -t COMPREPLY < <(compgen -d -- "$word") && return ;;
        merge/--out) compopt -o filenames; mapfile -t COMPREPLY < <(compgen -d -- "$word") && return ;;
        merge/--down-to) compopt +o default && return ;;
        merge/--workers) compopt +o default && return ;;
        merge/--data-layers) compopt +o default && return ;;
        flatten/--blobs) compopt -o filenames; mapfile -t COMPREPLY < <(compgen -d -- "$word") && return ;;
        flatten/--out) compopt -o filenames; mapfile -t COMPREPLY < <(compgen -d -- "$word") && return ;;
        flatten/--workers) compopt +o default && return ;;
        flatten/--data-layers) compopt +o default && return ;;
    esac
    case $command in
        '') mapfile -t COMPREPLY < <(compgen -W 'show fsck vacuum deref merge flatten -h --help -V --version' -- "$word") ;;
        show) [[ $word != -* ]] || mapfile -t COMPREPLY < <(compgen -W '--workers --data-layers -h --help' -- "$word") ;;
        fsck) [[ $word != -* ]] || mapfile -t COMPREPLY < <(compgen -W '--blobs --any-size --workers --data-layers -h --help' -- "$word") ;;
        vacuum) [[ $word != -* ]] || mapfile -t COMPREPLY < <(compgen -W '--blobs --any-size --out --workers --data-layers -h --help' -- "$word") ;;
        deref) [[ $word != -* ]] || mapfile -t COMPREPLY < <(compgen -W '--blobs --any-size --out --workers --data-layers -h --help' -- "$word") ;;
        merge) [[ $word != -* ]] || mapfile -t COMPREPLY < <(compgen -W '--blobs --any-size --out --down-to --workers --data-layers -h --help' -- "$word") ;;
        flatten) [[ $word != -* ]] || mapfile -t COMPREPLY < <(compgen -W '--blobs --any-size --out --workers --data-layers -h --help' -- "$word") ;;
    esac
}
complete -o default -F _ovl_layers ovl_layers
