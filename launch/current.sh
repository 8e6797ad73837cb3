# Whether a program is there, and no source is newer. $1: the repository; $2: the program.
is_current() {
    [[ -x $2 ]] || return 1
    local newer
    newer=$(find "$1/crates.txt" "$1"/crates/*/{src,specs,proofs} -newer "$2" -print -quit)
    [[ -z $newer ]]
}
