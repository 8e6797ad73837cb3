#!/usr/bin/env bash
# Compares what PROGRAM makes of each folder's layers (l0.json, the topmost, l1.json and so on) by 1, 2, 7 and 64
# workers with the files there, byte for byte: `show` with expected.show, and if there is a folder of blobs, `fsck`
# with expected.fsck, or with a report that finds nothing if there is no such file. If there is expected.vacuum,
# expected.deref, expected.merge or expected.flatten, the report of that command is compared with it, the new layers with
# expected.vacuum.layer-0.json and so on, and what the stack with the new layers shows, or only the one of flatten, with
# expected.show. A file data-layers has the number of the lowest layers that are data-only, if there are some.
set -uo pipefail

if (($# < 2)); then
    echo "usage: $0 PROGRAM FOLDER.." >&2
    exit 2
fi
program=$1
shift
report=$(mktemp)
clean=$(mktemp)
new=$(mktemp -d)
trap 'rm -rf -- "$report" "$clean" "$new"' EXIT
echo 'faults 0 notes 0' > "$clean"

other=0
# The same bytes as the file that is named first, by the words after it.
compare() {
    local expected=$1
    shift
    "$program" "$@" > "$report"
    local status=$?
    if ((status > 1)) || ! cmp -- "$report" "$expected"; then
        echo "$*: other than $expected" >&2
        other=$((other + 1))
    fi
}

for folder in "$@"; do
    layers=()
    while [[ -f $folder/l${#layers[@]}.json ]]; do
        layers+=("$folder/l${#layers[@]}.json")
    done
    data=()
    [[ -f $folder/data-layers ]] && data=(--data-layers "$(< "$folder/data-layers")")
    found=$clean
    [[ -f $folder/expected.fsck ]] && found=$folder/expected.fsck
    for workers in 1 2 7 64; do
        compare "$folder/expected.show" show --workers "$workers" "${data[@]}" "${layers[@]}"
        if [[ -d $folder/blobs ]]; then
            compare "$found" fsck --blobs "$folder/blobs" --workers "$workers" "${data[@]}" "${layers[@]}"
        fi
        for command in vacuum deref merge flatten; do
            [[ -f $folder/expected.$command ]] || continue
            words=(--blobs "$folder/blobs" --out "$new" --workers "$workers" "${data[@]}")
            compare "$folder/expected.$command" "$command" "${words[@]}" "${layers[@]}"
            made=()
            while [[ -f $folder/expected.$command.layer-${#made[@]}.json ]]; do
                cmp -- "$new/layer-${#made[@]}.json" "$folder/expected.$command.layer-${#made[@]}.json" || other=$((other + 1))
                made+=("$new/layer-${#made[@]}.json")
            done
            after=("${data[@]}" "${made[@]}" "${layers[@]:${#made[@]}}")
            [[ $command == flatten ]] && after=("${made[@]}")
            compare "$folder/expected.show" show "${after[@]}"
        done
    done
    echo "$folder: ${#layers[@]} layers compared"
done
echo "$other other"
((other == 0))
