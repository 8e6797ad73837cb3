#!/usr/bin/env bash
# Compares PROGRAM's report of each layer in examples with the `.show` file beside it, its reports of the stacks there, by
# several numbers of workers, with what is expected of them, and its help, its version and what it says of unknown words
# with `help.txt`, `version.txt` and the texts in `help`, byte for byte; its answers of worked stacks with those of
# `stacks.txt`; and what it says of the manifests of `refused`. Without PROGRAM it is the launcher's.
set -uo pipefail

tests=$(dirname -- "$(readlink -f -- "${BASH_SOURCE[0]}")")
here=$(readlink -f -- "$tests/../../examples")
if (($# > 1)); then
    echo "usage: $0 [PROGRAM]" >&2
    exit 2
fi
program=$(readlink -f -- "${1:-$here/../ovl_layers}")
report=$(mktemp)
trap 'rm -f -- "$report"' EXIT

same=0 other=0
# Counts whether the report is this file here.
compare() {
    if cmp -- "$report" "$here/$1"; then
        same=$((same + 1))
    else
        echo "$1: the program prints something else" >&2
        other=$((other + 1))
    fi
}

for layer in "$here"/*.json; do
    name=$(basename -- "$layer" .json)
    [[ -f $here/$name.show ]] || continue
    "$program" < "$layer" > "$report" || other=$((other + 1))
    compare "$name.show"
done
for word in help version; do
    "$program" "--$word" < /dev/null > "$report" || other=$((other + 1))
    compare "$word.txt"
done
for text in "$here"/help/*.txt; do
    name=$(basename -- "$text" .txt)
    case $name in
        unknown-word) "$program" unknown < /dev/null 2> "$report" ;;
        unknown-option) "$program" --unknown < /dev/null 2> "$report" ;;
        *) "$program" "$name" --help < /dev/null > "$report" ;;
    esac
    status=$?
    [[ $name == unknown-* ]] && wanted=2 || wanted=0
    ((status == wanted)) || other=$((other + 1))
    compare "help/$name.txt"
done
echo "$same same, $other other"
stacks=("$here"/{moved,faulty,copied,renamed,composed})
"$tests/compare.sh" "$program" "${stacks[@]}" || other=$((other + 1))
python3 -B "$tests/stacks.py" "$program" || other=$((other + 1))
"$tests/refused/check.sh" "$program" || other=$((other + 1))
((other == 0 && same > 2))
