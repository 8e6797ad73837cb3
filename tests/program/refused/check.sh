#!/usr/bin/env bash
# Has PROGRAM show each manifest of manifests.txt in both versions, those of versions.txt, and some that are long or hold
# bytes that no text has, by itself and under the smallest layer, and compares the status and the line that is printed with those
# expected.
set -uo pipefail

if (($# != 1)); then
    echo "usage: $0 PROGRAM" >&2
    exit 2
fi
program=$(readlink -f -- "$1")
here=$(dirname -- "$(readlink -f -- "${BASH_SOURCE[0]}")")
folder=$(mktemp -d)
trap 'rm -rf -- "$folder"' EXIT
cd -- "$folder" || exit 1
cp -- "$here/../../../examples/root.json" root.json

same=0 other=0
# The manifest of the file `case` under the words after NAME: this status, and this line, the last of the report or what
# is said of a fault, of which nothing is printed then.
compare() {
    local name=$1 status=$2 wanted=$3 ended
    shift 3
    "$program" "$@" < case > printed 2> told
    ended=$?
    if ((status == 0)); then
        [[ $(tail -n 1 printed) == "$wanted" && ! -s told ]]
    else
        [[ $(cat told) == "ovl_layers: $wanted" && ! -s printed ]]
    fi && ((ended == status)) && same=$((same + 1)) && return
    echo "$name ($*): status $ended, not $status, or not '$wanted':" >&2
    head -c 300 told >&2
    other=$((other + 1))
}

# The manifest of standard input.
check() {
    cat > case
    compare "$1" "$2" "$3"
    compare "$1" "$2" "${3/layer 0/layer 1}" show --workers 2 root.json case
}

# A manifest of version 1 in version 2, with whole seconds.
second() {
    LC_ALL=C sed -E 's/("mtime":[^,]*,)/\1"mtime-nsec":0,/g; s/"overlay-layer":1\b/"overlay-layer":2/g'
}

# The manifest of standard input, of version 1, and the same in version 2.
both() {
    cat > first
    check "$1" "$2" "$3" < first
    check "$1 in version 2" "$2" "$3" < <(second < first)
}

directory='{"gid":0,"kind":"dir","mode":493,"mtime":0,"path":"\1","uid":0,"xattrs":{}}'
named='{"gid":0,"kind":"dir","mode":493,"mtime":0,"path":"/a","uid":0,"xattrs":{\1}}'
file='{"gid":0,"kind":"file","mode":420,"mtime":0,"path":"/a","uid":0,\1}'
link='{"gid":0,"kind":"symlink","mode":511,"mtime":0,"path":"/a","target":"\1","uid":0,"xattrs":{}}'
char='{"gid":0,"kind":"char","mode":384,"mtime":0,"path":"/a","uid":0,"xattrs":{},\1}'
timed='{"gid":0,"kind":"dir","mode":493,"mtime":0,"mtime-nsec":\1,"path":"/","uid":0,"xattrs":{}}'
written() {
    sed -E "s#\\bDIR\\(([^)]*)\\)#$directory#g; s#\\bNAMED\\(([^)]*)\\)#$named#; s#\\bFILE\\(([^)]*)\\)#$file#
        s#\\bLINK\\(([^)]*)\\)#$link#; s#\\bCHAR\\(([^)]*)\\)#$char#; s#\\bTIMED\\(([^)]*)\\)#$timed#"
}
# What `check` or `both` says of each manifest of a file.
all_of() {
    local name status line manifest
    grep -v -e '^#' -e '^$' "$here/$2" | written > cases
    while IFS='|' read -r name status line manifest; do
        read -r name <<< "$name"
        read -r line <<< "$line"
        "$1" "$name" "$((status))" "$line" <<< "${manifest# }"
    done < cases
}
all_of both manifests.txt
all_of check versions.txt

# The smallest manifest of either version, cut after each of its bytes: its last one is a newline, which may be missing.
written <<< '{"entries":[DIR(/)],"overlay-layer":1}' > root1.json
for smallest in root1.json root.json; do
    length=$(wc -c < $smallest)
    for ((count = 0; count < length - 1; count++)); do
        check "$smallest cut after $count" 3 'layer 0: not JSON' < <(head -c "$count" $smallest)
    done
    check "$smallest without newline" 0 'entries 1' < <(head -c "$((length - 1))" $smallest)
done

# This text as often, with these texts before and after.
often() {
    printf '%s' "$1"
    printf "$3%.0s" $(seq "$2")
    printf '%s\n' "$4"
}
both byte_ff_in_a_text 3 'layer 0: not JSON' < <(printf '{"entries":["\xff"],"overlay-layer":1}\n')
both newline_in_a_text 3 'layer 0: not JSON' < <(printf '{"entries":["\n"],"overlay-layer":1}\n')
both byte_order_mark 3 'layer 0: not JSON' < <(printf '\xef\xbb\xbf' | cat - root.json)
both brackets_in_each_other 3 'layer 0: not JSON' < <(often '' 200 '[' "$(often '' 200 ']' '')")
both entries_1048577 3 'layer 0: entry count' < <(often '{"entries":[' 1048576 '0,' '0],"overlay-layer":1}')
both entries_1048576 3 'layer 0: entry 0: wrong entry' < <(often '{"entries":[' 1048575 '0,' '0],"overlay-layer":1}')

# These entries after a root.
layer() {
    printf '{"entries":[DIR(/)'
    printf ',%s' "$@"
    printf '],"overlay-layer":1}\n'
}
name_of() {
    often '' "$1" n ''
}
both name_of_255_bytes 0 'entries 2' < <(layer "DIR(/$(name_of 255))" | written)
both name_of_256_bytes 3 'layer 0: entry 1: wrong entry' < <(layer "DIR(/$(name_of 256))" | written)
both attribute_name_of_255_bytes 0 'entries 2' < <(layer "NAMED(\"$(name_of 255)\":\"00\")" | written)
both attribute_name_of_256_bytes 3 'layer 0: entry 1: wrong entry' < <(layer "NAMED(\"$(name_of 256)\":\"00\")" | written)
both target_of_4095_bytes 0 'entries 2' < <(layer "LINK($(name_of 4095))" | written)
both target_of_4096_bytes 3 'layer 0: entry 1: wrong entry' < <(layer "LINK($(name_of 4096))" | written)

# Directories in each other, of names of this many bytes.
chain() {
    local path='' entries=()
    while (($# > 0)); do
        path+=/$(name_of "$1")
        entries+=("DIR($path)")
        shift
    done
    layer "${entries[@]}" | written
}
mapfile -t ones < <(often '' 129 '1\n' '')
check path_of_64_names 0 'entries 65' < <(chain "${ones[@]:0:64}")
check path_of_65_names 3 'layer 0: entry 65: wrong entry' < <(chain "${ones[@]:0:65}")
check path_of_128_names 0 'entries 129' < <(chain "${ones[@]:0:128}" | second)
check path_of_129_names 3 'layer 0: entry 129: wrong entry' < <(chain "${ones[@]:0:129}" | second)
mapfile -t full < <(often '' 15 '255\n' '')
both path_of_4095_bytes 0 'entries 17' < <(chain "${full[@]:0:15}" 254)
both path_of_4096_bytes 3 'layer 0: entry 16: wrong entry' < <(chain "${full[@]:0:15}" 255)

echo "$same manifests told of as they should be, $other not"
((other == 0))
