#!/usr/bin/env bash
# Runs PROGRAM on files and folders that can't be read or written, on words that don't fit and on what its command
# refuses, and compares status, standard output and standard error with what docs/FORMATS.md says. The program may take
# 3 GB of memory, fewer than the blobs of one of the folders have. Calls of the system that fail are made so by
# refuse.c, which is loaded before the C library and which the compiler of `rt` builds.
set -uo pipefail
ulimit -v 3000000

if (($# != 1)); then
    echo "usage: $0 PROGRAM" >&2
    exit 2
fi
program=$(readlink -f -- "$1")
here=$(dirname -- "$(readlink -f -- "${BASH_SOURCE[0]}")")
folder=$(mktemp -d)
trap 'rm -rf -- "$folder"' EXIT
cd -- "$folder" || exit 1

same=0 other=0
# What runs the program, if it isn't run as it is.
over=
# The words come after what is wanted; `told` and `printed` hold what was written.
differs() {
    local what=$1
    shift
    echo "$what: $*" >&2
    echo "  standard output: $(head -c 300 printed)" >&2
    echo "  standard error: $(head -c 300 told)" >&2
    other=$((other + 1))
}

# Runs the words after STATUS and FILE; true if the program ends with this status and leaves this file empty.
ends() {
    local wanted=$1 silent=$2
    shift 2
    $over "$program" "$@" < input > printed 2> told
    local status=$?
    if ((status != wanted)); then
        differs "status $status, not $wanted" "$@"
    elif [[ -s $silent ]]; then
        differs "something in $silent" "$@"
    else
        return 0
    fi
    return 1
}

# Counts the run of the words after FILE and TEXT by whether the file has this text.
says() {
    local file=$1 text=$2
    shift 2
    if printf '%s' "$text" | cmp -s - "$file"; then
        same=$((same + 1))
    else
        differs "not the text '$text'" "$@"
    fi
}

# By the words after STATUS and TEXT: this status, this line on standard error, nothing on standard output.
refuses() {
    local wanted=$1 text=$2
    shift 2
    ends "$wanted" printed "$@" && says told "ovl_layers: $text"$'\n' "$@"
}

# The same, but something may be on standard output.
cuts() {
    local wanted=$1 text=$2
    shift 2
    ends "$wanted" empty.json "$@" && says told "ovl_layers: $text"$'\n' "$@"
}

# By the words after STATUS and TEXT: this status and text on standard output, nothing on standard error.
prints() {
    local wanted=$1 text
    printf -v text '%b' "$2"
    shift 2
    ends "$wanted" told "$@" && says printed "$text" "$@"
}

# By the words after LINES: status 0, and these last lines of the report.
closes() {
    local text
    printf -v text '%b' "$1"
    shift
    ends 0 told "$@" || return
    tail -n "$(printf '%s' "$text" | wc -l)" printed > last
    says last "$text" "$@"
}

# By the words after it: status 2, a text that is no fault's line on standard error, nothing on standard output.
misfits() {
    ends 2 printed "$@" || return
    if [[ ! -s told ]] || grep -q '^ovl_layers: ' told; then
        differs 'no text of usage' "$@"
    else
        same=$((same + 1))
    fi
}

# By the words after REASON and USAGE: status 2, nothing on standard output, and the text of `clap` with this reason and,
# if USAGE isn't empty, this line of usage.
explains() {
    local text=$'error: '$1$'\n\n'${2:+"Usage: ovl_layers $2"$'\n\n'}$'For more information, try \'--help\'.\n'
    shift 2
    ends 2 printed "$@" && says told "$text" "$@"
}

# Counts whether the new layer in FOLDER has the bytes of FILE, or isn't there if there is no FILE.
gives() {
    local new=$1/layer-0.json
    if (($# == 1)) && [[ ! -e $new ]] || { (($# == 2)) && cmp -s -- "$new" "$2"; }; then
        same=$((same + 1))
    else
        echo "$new is not as it should be" >&2
        other=$((other + 1))
    fi
}

# Ways to run the words: standard output is a device without room, or closed, or a pipe that nobody reads; standard error
# is closed, or such a device; `disk` is one of 4,096 bytes, or one that is only read; standard input is closed, or a folder, or gives zeros
# without end, or is a pipe that gives spaces and a layer.
without_room() {
    "$@" > /dev/full
}
without_output() {
    "$@" >&-
}
without_errors() {
    "$@" 2>&-
}
without_room_for_errors() {
    "$@" 2> /dev/full
}
on_a_small_disk() {
    unshare -m sh -c 'mount -t tmpfs -o size=4096 none disk && exec "$@"' sh "$@"
}

without_input() {
    "$@" <&-
}
from_a_folder() {
    "$@" < none
}
from_zeros() {
    "$@" < /dev/zero
}
on_a_disk_for_reading() {
    unshare -m sh -c 'mount -t tmpfs -o ro none disk && exec "$@"' sh "$@"
}
into_a_broken_pipe() {
    python3 -c '
import os, signal, sys
signal.signal(signal.SIGPIPE, signal.SIG_DFL)
reader, writer = os.pipe()
os.dup2(writer, 1)
os.close(reader)
os.execv(sys.argv[1], sys.argv[1:])' "$@"
}
from_a_pipe() {
    head -c 300000 /dev/zero | tr '\0' ' ' | cat - root.json | "$@"
}

# Runs the words after CALL, PATH, AT and ERROR; the call AT of the file whose path ends so fails with this error's number,
# or for 0 moves no byte. Reads and writes move at most `most` bytes, if that is set. `met` gets how many there were.
most=
failing() {
    local words=("REFUSE=$1" "REFUSE_PATH=$2" "REFUSE_AT=$3" "REFUSE_ERROR=$4" "REFUSE_MOST=$most" REFUSE_TOLD=met)
    shift 4
    env LD_PRELOAD="$folder/refuse.so" "${words[@]}" "$@"
}

# Lets each CALL of the file whose path ends in PATH fail in turn with each of the ERRORS, and tries what the words after
# these say: refuses, prints or gives, and their words.
each() {
    local call=$1 path=$2 errors=$3 count error at
    shift 3
    failing "$call" "$path" 0 0 "$program" "${@:4}" < input > printed 2> told
    read -r count _ < met
    ((count > 0)) || differs "no $call of $path" "$@"
    for error in $errors; do
        for ((at = 1; at <= count; at++)); do
            over="failing $call $path $at $error" "$@"
        done
    done
}

root='{"gid":0,"kind":"dir","mode":493,"mtime":0,"mtime-nsec":0,"path":"/","uid":0,"xattrs":{}}'
abc=ba7816bf8f01cfea414140de5dae2223b00361a396177a9cb410ff61f20015ad
kept='{"blob":"'$abc'","gid":0,"kind":"file","mode":420,"mtime":0,"mtime-nsec":0,"path":"/k","size":3,"uid":0,"xattrs":{}}'
printf '{"entries":[%s],"overlay-layer":2}\n' "$root" | tee input > root.json
printf '{"entries":[%s,%s],"overlay-layer":2}\n' "$root" "$kept" > k.json
pipes=
for ((i = 1000; i < 1100; i++)); do
    pipes+=',{"gid":0,"kind":"fifo","mode":384,"mtime":0,"mtime-nsec":0,"path":"/p'$i'","uid":0,"xattrs":{}}'
done
printf '{"entries":[%s%s],"overlay-layer":2}\n' "$root" "$pipes" > pipes.json
printf '[]' > shape.json
: > empty.json
python3 -B "$here/refusals.py" --library refuse.so || exit 1
mkdir blobs wrong short hollow most eight none bad.utf8 large flood closed folder.json
printf abc > "blobs/$abc"
printf note > blobs/note
# (A blob may have two names, and be only for reading.)
ln "blobs/$abc" blobs/again
chmod 400 "blobs/$abc"
mkdir "blobs/${abc//b/f}"
ln -s "$abc" "blobs/${abc//b/0}"
printf abd > "wrong/$abc"
printf ab > "short/$abc"
: > "hollow/$abc"
: > $'bad.utf8/\xff'
truncate -s 268435457 long.json
truncate -s 268435456 most.json
head -c 5000 /dev/zero | tr '\0' ' ' | cat - root.json > padded.json
truncate -s 134217729 "large/$abc" "large/${abc//b/0}"
truncate -s 268435456 "most/${abc//b/0}"
for ((i = 0; i < 24; i++)); do
    printf -v name '%064x' "$i"
    truncate -s 200000000 "flood/$name"
done
mkdir marked
printf '\xef\xbb\xbfabc' > marked/file
marked=$(sha256sum < marked/file)
mv marked/file "marked/${marked%% *}"
printf '{"entries":[%s,%s],"overlay-layer":2}\n' "$root" "$(sed "s/$abc/${marked%% *}/; s/\"size\":3/\"size\":6/" <<< "$kept")" > marked.json
printf '{"entries":[%s],"overlay-layer":2}' "$(printf '0,%.0s' {1..1200000})0" > items.json

# A metacopy file over its contents; and a moved directory with a chain of directories below its old place, of which the
# last lies within the limit of names only for the shorter chain.
at() {
    printf ',{"gid":0,"kind":"%s","mode":493,"mtime":0,"mtime-nsec":0,"path":"%s","uid":0,%s}' "$@"
}
layer() {
    printf '{"entries":[%s' "$root"
    cat
    printf '],"overlay-layer":2}\n'
}
plain='"xattrs":{}'
at file /k '"size":3,"xattrs":{"trusted.overlay.metacopy":""}' | sed 's/493/420/' | layer > meta.json
{
    at dir /p "$plain"
    at dir /p/q '"xattrs":{"trusted.overlay.redirect":"2f78"}'
    at char /x "$plain"',"major":0,"minor":0'
} | layer > moved.json
# Directories of a name, this many in each other, below a path.
chain() {
    local deep=$1
    for ((i = 0; i < $3; i++)); do
        deep+=/$2
        at dir "$deep" "$plain"
    done
}
below() {
    at dir /x "$plain"
    chain /x "$@"
}
below d 63 | layer > half.json
below d 126 | layer > deep.json
below d 127 | layer > deeper.json
# Sixty-four directories in each other, of which the last goes on at the old place; and a directory of a name of 255 bytes,
# which the longer of two chains of such names makes longer than 4,095 bytes.
moved=('"xattrs":{"trusted.overlay.redirect":"2f78"}' "$plain"',"major":0,"minor":0')
printf -v name_255 '%0255d' 0
{
    chain '' d 63
    deepest=$(printf '/d%.0s' {1..64})
    at dir "$deepest" "${moved[0]}"
    at char /x "${moved[1]}"
} | layer > chain_moved.json
{
    at dir "/$name_255" "${moved[0]}"
    at char /x "${moved[1]}"
} | layer > long_named.json
below "$name_255" 14 | layer > long.fits.json
below "$name_255" 15 | layer > long.over.json
# A moved directory and many pipes beside it, and as many below its old place: with the whiteout of that one entry more than
# a layer may have.
fifos() {
    seq -f ',{"gid":0,"kind":"fifo","mode":384,"mtime":0,"mtime-nsec":0,"path":"'"$1"'%07.0f","uid":0,'"$plain"'}' "$2" | tr -d '\n'
}
{
    fifos /a 524288
    at dir /m "${moved[0]}"
    at char /x "${moved[1]}"
} | layer > many_beside.json
{
    at dir /x "$plain"
    fifos /x/ 524286
} | layer > many_below.json
fifos /z 1 | layer > one.json
# A fault after 70,000 entries; and as many files whose contents are missing.
{
    fifos /a 70000
    printf ',0'
} | layer > late.json
seq -f ',{"blob":"'$abc'","gid":0,"kind":"file","mode":420,"mtime":0,"mtime-nsec":0,"path":"/k%07.0f","size":3,"uid":0,'"$plain"'}' 70000 |
    tr -d '\n' | layer > lost.blobs.json
# A redirect of 100,000 names; and a chain of as many directories as a path may have names, the last of which goes on at the
# chain of deeper.json.
at dir /m "\"xattrs\":{\"trusted.overlay.redirect\":\"$(printf '2f61%.0s' {1..100000})\"}" | layer > far.json
{
    path=
    for ((i = 0; i < 127; i++)); do
        path+=/a
        at dir "$path" "$plain"
    done
    at dir "$path/a" '"xattrs":{"trusted.overlay.redirect":"2f78"}'
    at char /x "$plain"',"major":0,"minor":0'
} | layer > moved_deeper.json

# Done.
prints 0 'dir 0755 0 0 0 - - /\nentries 1\n'
prints 0 'dir 0755 0 0 0 - - /\nentries 1\n' show root.json
prints 0 'dir 0755 0 0 0 - - /\nentries 1\n' show padded.json
prints 0 "dir 0755 0 0 0 - - /\nfile 0644 0 0 0 3 $abc /k\nentries 2\n" show --workers 64 root.json k.json
prints 0 'faults 0 notes 0\n' fsck --blobs blobs k.json
prints 0 'faults 0 notes 0\n' fsck --blobs blobs/ --workers 1 root.json k.json
prints 1 'fault blob-digest 0 /k\nfaults 1 notes 0\n' fsck --blobs wrong k.json
prints 1 'fault blob-missing 1 /k\nfaults 1 notes 0\n' fsck --blobs none root.json k.json
prints 1 'fault blob-digest 1 /k\nfaults 1 notes 0\n' fsck --blobs wrong --data-layers 1 root.json k.json
prints 1 'fault blob-size 0 /k\nfault blob-digest 0 /k\nfaults 2 notes 0\n' fsck --blobs short k.json
prints 1 'fault blob-size 0 /k\nfault blob-digest 0 /k\nfaults 2 notes 0\n' fsck --blobs hollow k.json
prints 0 'faults 0 notes 0\n' fsck --blobs most root.json
# (Contents that begin as a byte order mark does are read whole, held and in parts.)
prints 0 'faults 0 notes 0\n' fsck --blobs marked marked.json
prints 0 'faults 0 notes 0\n' fsck --any-size --blobs marked marked.json

# Files and folders.
refuses 3 'cannot read missing.json' show missing.json
for workers in 1 2 64; do
    refuses 3 'cannot read missing.json' show --workers "$workers" root.json missing.json lost.json
done
refuses 3 'cannot read missing' fsck --blobs missing shape.json
refuses 3 'cannot read folder.json' show folder.json
refuses 3 'cannot read long.json' show long.json
refuses 3 'layer 0: not JSON' show most.json
refuses 3 'layer 1: entry count' show root.json items.json
refuses 3 'layer 1: entry 70001: wrong entry' show root.json late.json
refuses 3 'cannot read missing.json' fsck --blobs missing missing.json
refuses 3 'cannot read missing' fsck --blobs missing shape.json
refuses 3 'cannot read missing/' fsck --blobs missing/ root.json
refuses 3 'cannot read root.json' fsck --blobs root.json root.json
refuses 3 'cannot read bad.utf8' fsck --blobs bad.utf8 root.json
if ((EUID != 0)); then
    printf abc > "closed/$abc"
    chmod 000 "closed/$abc"
    refuses 3 "cannot read closed/$abc" fsck --blobs closed root.json
    chmod 000 closed
    refuses 3 'cannot read closed' fsck --blobs closed root.json
    chmod 700 closed
fi

# Links, devices, pipes, sockets and names in place of files and folders.
socket_at() {
    python3 -c 'import socket, sys; socket.socket(socket.AF_UNIX).bind(sys.argv[1])' "$1"
}
ln -s root.json link.json
ln -s link.json chained.json
ln -s lost.json dangling.json
ln -s round.json round.json
ln -s blobs linked
mkfifo pipe.json
socket_at socket.json
alone='dir 0755 0 0 0 - - /\nentries 1\n'
prints 0 "$alone" show chained.json
prints 0 "$alone" show ././//link.json
cp pipes.json ./-
closes 'entries 101\n' show -
printf -v long_name '%0256d' 0
for path in dangling.json round.json socket.json linked root.json/ root.json/x . '' "$long_name" "$(printf './%.0s' {1..2048})" /dev/zero; do
    refuses 3 "cannot read $path" show root.json "$path"
done
refuses 3 'layer 1: not JSON' show root.json /dev/null
for words in pipe.json 'root.json pipe.json'; do
    timeout 60 sh -c 'cat root.json > pipe.json' &
    # shellcheck disable=SC2086
    prints 0 "$alone" show $words
    wait
done
prints 0 'faults 0 notes 0\n' fsck --blobs linked k.json
for path in missing missing/ root.json dangling.json round.json socket.json pipe.json /dev/null '' "$long_name"; do
    for layer in k.json root.json; do
        refuses 3 "cannot read $path" fsck --blobs "$path" "$layer"
    done
done
for kind in 'mkfifo' 'socket_at' 'mkdir' 'ln -s ../root.json' 'ln -s lost' 'ln -s /dev/zero'; do
    mkdir odd
    # shellcheck disable=SC2086
    (cd odd && $kind "$abc")
    prints 1 'fault blob-missing 0 /k\nfaults 1 notes 0\n' fsck --blobs odd k.json
    rm -r odd
done
for way in without_input from_a_folder from_zeros; do
    over=$way refuses 3 'cannot read standard input'
done

# Opens, looks, listings and reads that fail, by EIO (5), ENOMEM (12), EACCES (13) and EMFILE (24), or are interrupted, by
# EINTR (4). Of these only opens are tried again.
clean='faults 0 notes 0\n'
each open k.json '5 12 13 24' refuses 3 'cannot read k.json' fsck --blobs blobs root.json k.json
each open "/$abc" '5 12 13 24' refuses 3 "cannot read blobs/$abc" fsck --blobs blobs k.json
each open blobs/ '5 12 13 24' refuses 3 'cannot read blobs' fsck --blobs blobs k.json
each list blobs/ '4 5 12' refuses 3 'cannot read blobs' fsck --blobs blobs k.json
# (A blob is looked at once, in the listing: what it is, and its length. A layer whose length isn't stated is read all the same.)
each stat "/$abc" '4 5 12' refuses 3 'cannot read blobs' fsck --blobs blobs k.json
each stat k.json '4 5 12' prints 0 "$clean" fsck --blobs blobs root.json k.json
most=100
each read k.json '4 5 12' refuses 3 'cannot read k.json' fsck --blobs blobs root.json k.json
each read "/$abc" '4 5 12' refuses 3 "cannot read blobs/$abc" fsck --blobs blobs k.json
each read /dev/stdin '4 5 12' refuses 3 'cannot read standard input'
most=
each open k.json 4 prints 0 "$clean" fsck --blobs blobs root.json k.json
each open "/$abc" 4 prints 0 "$clean" fsck --blobs blobs k.json

# Contents in parts: names that no layer has aren't looked at, and there is no limit of their bytes. What isn't a regular file
# is missing; what can't be read is reported.
parts=(fsck --any-size --blobs)
prints 0 "$clean" "${parts[@]}" blobs k.json
prints 0 "$clean" "${parts[@]}" blobs/ --workers 1 root.json k.json
for workers in 1 2 7 64; do
    prints 0 "$clean" "${parts[@]}" linked --workers "$workers" k.json
done
prints 1 'fault blob-digest 0 /k\nfaults 1 notes 0\n' "${parts[@]}" wrong k.json
prints 1 'fault blob-missing 1 /k\nfaults 1 notes 0\n' "${parts[@]}" none root.json k.json
prints 1 'fault blob-missing 0 /k\nfaults 1 notes 0\n' "${parts[@]}" bad.utf8 k.json
prints 0 "$clean" "${parts[@]}" large root.json
unlike='fault blob-size 0 /k\nfault blob-digest 0 /k\nfaults 2 notes 0\n'
prints 1 "$unlike" "${parts[@]}" large k.json
prints 1 "$unlike" "${parts[@]}" hollow k.json
# (The longer one has more bytes than a number of 32 bits has.)
mkdir longest && truncate -s 268435457 "longest/$abc"
prints 1 "$unlike" "${parts[@]}" longest k.json
refuses 3 "cannot read longest/$abc" fsck --blobs longest k.json
truncate -s 4294967297 "longest/$abc"
prints 1 "$unlike" "${parts[@]}" longest k.json
# (Of any length it is opened, and ends where its reads end.)
for ((power = 16; power < 44; power++)); do
    truncate -s "$(((1 << power) + 1))" "longest/$abc"
    over='failing read longest/'$abc' 2 0' prints 1 "$unlike" "${parts[@]}" longest k.json
done
for ((power = 15; power < 28; power++)); do
    truncate -s "$(((1 << power) + (1 << (power - 1))))" "longest/$abc"
    over='failing read longest/'$abc' 2 0' prints 1 "$unlike" fsck --blobs longest k.json
done
rm -r longest
refuses 3 'cannot read missing.json' "${parts[@]}" missing missing.json
refuses 3 'layer 0: wrong shape' "${parts[@]}" missing shape.json
for path in missing missing/ root.json dangling.json round.json socket.json pipe.json /dev/null '' "$long_name"; do
    for layer in k.json root.json; do
        refuses 3 "cannot read $path" "${parts[@]}" "$path" "$layer"
    done
done
if ((EUID != 0)); then
    refuses 3 "cannot read closed/$abc" "${parts[@]}" closed k.json
    chmod 000 closed
    refuses 3 "cannot read closed/$abc" "${parts[@]}" closed k.json
    chmod 700 closed
fi
for kind in 'mkfifo' 'socket_at' 'mkdir' 'ln -s ../root.json' 'ln -s lost' 'ln -s /dev/zero'; do
    mkdir odd
    # shellcheck disable=SC2086
    (cd odd && $kind "$abc")
    prints 1 'fault blob-missing 0 /k\nfaults 1 notes 0\n' "${parts[@]}" odd k.json
    rm -r odd
done
if mkdir odd && mknod "odd/$abc" c 1 5 2> told; then
    prints 1 'fault blob-missing 0 /k\nfaults 1 notes 0\n' "${parts[@]}" odd k.json
fi
rm -r odd
each open "/$abc" '5 12 13 24' refuses 3 "cannot read blobs/$abc" "${parts[@]}" blobs k.json
each open "/$abc" 4 prints 0 "$clean" "${parts[@]}" blobs k.json
each stat "/$abc" '4 5 12 13' refuses 3 "cannot read blobs/$abc" "${parts[@]}" blobs k.json
each stat "/$abc" 2 prints 1 'fault blob-missing 0 /k\nfaults 1 notes 0\n' "${parts[@]}" blobs k.json
each stat blobs '2 4 5 12 13' refuses 3 'cannot read blobs' "${parts[@]}" blobs k.json
for most in 1 2 100; do
    each read "/$abc" '4 5 12' refuses 3 "cannot read blobs/$abc" "${parts[@]}" blobs k.json
    over='failing read no-file 0 0' prints 0 "$clean" "${parts[@]}" blobs k.json
done
most=
# (Of eight contents two can't be read, whose names end otherwise: the first of them is reported by any number of workers, also
# if they are held.)
for pair in '0 7' '2 3' '1 6' '5 5'; do
    entries='' told_first=''
    for ((i = 0; i < 8; i++)); do
        [[ " $pair " == *" $i "* ]] && end=ff || end=00
        printf -v name '%d%061d%s' "$i" 0 "$end"
        printf a > "eight/$name"
        entries+=',{"blob":"'$name'","gid":0,"kind":"file","mode":420,"mtime":0,"mtime-nsec":0,"path":"/'$i'","size":1,"uid":0,"xattrs":{}}'
        [[ $end == ff ]] && told_first=${told_first:-$name}
    done
    printf '{"entries":[%s%s],"overlay-layer":2}\n' "$root" "$entries" > eight.json
    for workers in 1 2 7; do
        for call in open read; do
            over="failing $call ff 1 5" REFUSE_ON=1 refuses 3 "cannot read eight/$told_first" fsck --blobs eight --workers "$workers" eight.json
            over="failing $call ff 1 5" REFUSE_ON=1 refuses 3 "cannot read eight/$told_first" "${parts[@]}" eight --workers "$workers" eight.json
        done
    done
    rm eight/*
done
# (Of contents all of which can't be read, each by a worker of its own at the same time, the first is reported too.)
entries=
for ((i = 0; i < 8; i++)); do
    printf -v name '%d%061dff' "$i" 0
    printf a > "eight/$name"
    entries+=',{"blob":"'$name'","gid":0,"kind":"file","mode":420,"mtime":0,"mtime-nsec":0,"path":"/'$i'","size":1,"uid":0,"xattrs":{}}'
done
printf '{"entries":[%s%s],"overlay-layer":2}\n' "$root" "$entries" > eight.json
for how in fsck 'fsck --any-size'; do
    # shellcheck disable=SC2086
    over='failing open ff 1 5' REFUSE_ON=1 REFUSE_WAIT=50 refuses 3 "cannot read eight/${name/#7/0}" $how --workers 8 --blobs eight eight.json
done
rm eight/*
# (Of three contents two can't be read, by two workers that meet them at the same time. Which worker takes the first content is
# by chance, so this is tried again.)
for pair in {1,0}' 2'; do
    entries=
    for ((i = 0; i < 3; i++)); do
        [[ " $pair " == *" $i "* ]] && end=ff || end=00
        printf -v name '%d%061d%s' "$i" 0 "$end"
        truncate -s 2000000 "eight/$name"
        entries+=',{"blob":"'$name'","gid":0,"kind":"file","mode":420,"mtime":0,"mtime-nsec":0,"path":"/'$i'","size":1,"uid":0,"xattrs":{}}'
    done
    printf '{"entries":[%s%s],"overlay-layer":2}\n' "$root" "$entries" > eight.json
    printf -v name '%d%061dff' "${pair% *}" 0
    for ((i = 0; i < 5; i++)); do
        over='failing open ff 1 5' REFUSE_ON=1 REFUSE_WAIT=300 refuses 3 "cannot read eight/$name" "${parts[@]}" eight --workers 2 eight.json
    done
    rm eight/*
done
# (So is the first of layers, which are there.)
for workers in 1 2 64; do
    over='failing open .json 1 5' REFUSE_ON=1 refuses 3 'cannot read root.json' show --workers "$workers" root.json k.json meta.json
done
# (A path of almost 4,000 bytes is reported whole.)
far_folder=$(printf './%.0s' {1..1900})blobs
for how in fsck 'fsck --any-size'; do
    # shellcheck disable=SC2086
    over="failing open /$abc 1 5" refuses 3 "cannot read $far_folder/$abc" $how --blobs "$far_folder" k.json
done
# (It grows, shrinks and is emptied while it is read, and never has the three bytes of its name.)
mkdir restless new && printf abcd > "restless/$abc"
(while :; do
    for length in 5000000 70000 1 4; do truncate -s "$length" "restless/$abc"; done
done) 2> changes &
changes=$!
for workers in 1 2 3 4 5 6 7 8; do
    prints 1 "$unlike" "${parts[@]}" restless --workers "$workers" k.json
    prints 1 "${unlike//0 \/k/1 /k}" vacuum --any-size --blobs restless --out new root.json k.json
done
kill "$changes" && wait "$changes" 2> told
rm -r restless
gives new
rmdir new

# The command.
refuses 3 'layer 1: not JSON' show root.json empty.json
refuses 3 'layer 0: wrong shape' fsck --blobs none shape.json
refuses 3 'layer 0: wrong shape' fsck --blobs large shape.json
refuses 3 'blobs over 268435456 bytes' fsck --blobs large root.json
refuses 3 'blobs over 268435456 bytes' fsck --blobs flood root.json
refuses 3 'blobs over 268435456 bytes' fsck --blobs flood --workers 64 root.json
refuses 3 'layer 0: wrong shape' fsck --blobs flood shape.json
over=from_a_pipe prints 0 'dir 0755 0 0 0 - - /\nentries 1\n' show /dev/stdin
over=from_a_pipe refuses 3 'layer 1: not JSON' show /dev/stdin /dev/stdin
over=from_a_pipe refuses 3 'layer 1: not JSON' show --workers 2 /dev/stdin /dev/stdin
# (Whoever reads beside others gets the end of a pipe by chance.)
layers=()
for ((i = 0; i < 64; i++)); do
    layers+=(/dev/stdin)
done
over=from_a_pipe refuses 3 'layer 1: not JSON' show --workers 64 "${layers[@]}"
for ((i = 0; i < 20; i++)); do
    over=from_a_pipe refuses 3 'layer 1: not JSON' show --workers 4 /dev/stdin /dev/stdin root.json
done
layers=()
for ((i = 0; i < 129; i++)); do
    layers+=(root.json)
done
refuses 3 'layers must be 1 to 128' show "${layers[@]}"
refuses 3 'layer 127: wrong shape' show "${layers[@]:2}" shape.json
prints 0 'dir 0755 0 0 0 - - /\nentries 1\n' show "${layers[@]:1}"
prints 0 "$clean" fsck --blobs none "${layers[@]:1}"
prints 0 "$clean" "${parts[@]}" none "${layers[@]:1}"
prints 0 "$clean" "${parts[@]}" none --data-layers 127 "${layers[@]:1}"
mkdir most.layers
prints 0 'removed 0 kept 1\n' vacuum --blobs none --out most.layers "${layers[@]:1}"
for what in deref merge 'merge --down-to 1'; do
    # shellcheck disable=SC2086
    prints 0 'entries 1\n' $what --blobs none --out most.layers "${layers[@]:1}"
done
# (Each layer is where its word is.)
layers=() found=
for ((i = 0; i < 128; i++)); do
    sed "s/k\"/k$i\"/" k.json > "most.layers/$i.json"
    layers+=("most.layers/$i.json")
    found+="fault blob-missing $i /k$i\n"
done
for workers in 1 4; do
    prints 1 "${found}faults 128 notes 0\n" fsck --workers "$workers" --blobs none "${layers[@]}"
done
rm -r most.layers
refuses 3 'data layers must leave a layer' show --data-layers 1 root.json

# Words.
for workers in 0 65 -1 x '' 4.0 18446744073709551616; do
    misfits show --workers "$workers" root.json
    misfits fsck --blobs none --workers "$workers" root.json
done
misfits show
misfits show --workers
misfits show --workers 4
misfits show --blobs none root.json
misfits fsck root.json
misfits fsck --blobs none
misfits fsck --blobs
misfits fsck --blobs none --out none root.json
misfits fsck --blobs none --any-size --any-size root.json
misfits fsck --blobs none --any-size=true root.json
misfits show --any-size root.json
misfits show --unknown root.json
misfits unknown root.json
misfits ''
explains "invalid value '0' for '--workers <N>': 0 is not in 1..=64" '' show --workers 0 root.json
explains "invalid value 'x' for '--workers <N>': invalid digit found in string" '' show --workers x root.json
explains "invalid value '128' for '--data-layers <K>': 128 is not in 0..=127" '' show --data-layers 128 root.json
explains "a value is required for '--workers <N>' but none was supplied" '' show root.json --workers
explains "unexpected argument '-1' found"$'\n\n'"  tip: to pass '-1' as a value, use '-- -1'" \
    'show [OPTIONS] <LAYER>...' show --data-layers -1 root.json
explains "unexpected argument '--out' found"$'\n\n'"  tip: to pass '--out' as a value, use '-- --out'" \
    'fsck --blobs <DIR> <LAYER>...' fsck --blobs none --out new root.json
wanted=$'the following required arguments were not provided:\n  '
explains "$wanted<LAYER>..." 'show <LAYER>...' show
explains "$wanted--blobs <DIR>" 'fsck --blobs <DIR> <LAYER>...' fsck root.json
explains "$wanted--out <DIR>" 'vacuum --blobs <DIR> --out <DIR> <LAYER>...' vacuum --blobs none root.json
explains "unrecognized subcommand 'mount'" '<COMMAND>' mount root.json
explains "unrecognized subcommand '$far_folder'" '<COMMAND>' "$far_folder"
for what in vacuum deref merge flatten; do
    explains "a value is required for '--out <DIR>' but none was supplied" '' "$what" --blobs blobs --out '' meta.json k.json
    explains "a value is required for '--out <DIR>' but none was supplied" '' "$what" --blobs blobs --out= meta.json k.json
done
refuses 2 'words must be UTF-8' show $'\xff'

# New layers. That of k.json over itself is only a root.
mkdir new taken full disk taken/layer-0.json
ln -s /dev/full full/layer-0.json
for what in vacuum deref flatten; do
    misfits "$what" --blobs blobs k.json
    misfits "$what" --out new k.json
    misfits "$what" --blobs blobs --out new
    refuses 3 'cannot read missing.json' "$what" --blobs missing --out missing missing.json
    refuses 3 'cannot read missing' "$what" --blobs missing --out missing k.json
    refuses 3 'layer 0: wrong shape' "$what" --blobs blobs --out missing shape.json
    prints 1 'fault blob-missing 0 /k\nfaults 1 notes 0\n' "$what" --blobs none --out missing k.json
    prints 1 'fault blob-missing 0 /k\nfaults 1 notes 0\n' "$what" --blobs none --out new k.json
    gives new
    refuses 4 'cannot write missing/layer-0.json' "$what" --blobs blobs --out missing k.json
    refuses 4 'cannot write k.json/layer-0.json' "$what" --blobs blobs --out k.json k.json
    refuses 4 'cannot write taken/layer-0.json' "$what" --blobs blobs --out taken k.json
    refuses 4 'cannot write full//layer-0.json' "$what" --blobs blobs --out full/ k.json
    if ((EUID != 0)); then
        mkdir -m 500 shut
        refuses 4 'cannot write shut/layer-0.json' "$what" --blobs blobs --out shut k.json
        rmdir shut
    fi
    if on_a_small_disk true 2> told; then
        over=on_a_small_disk refuses 4 'cannot write disk/layer-0.json' "$what" --blobs blobs --out disk pipes.json
    fi
    for way in without_output without_room; do
        over=$way refuses 4 'cannot write standard output' "$what" --blobs blobs --out new k.json
        gives new k.json
        rm -f new/layer-0.json
    done
done
# (A new file has the usual rights. From then on it has a second name.)
umask 027
prints 0 'removed 0 kept 2\n' vacuum --blobs blobs --out new k.json root.json
stat -c %a new/layer-0.json > rights
says rights $'640\n' vacuum --out new
umask 022
ln new/layer-0.json new/again
prints 0 'removed /k\nremoved 1 kept 1\n' vacuum --blobs blobs --out new k.json k.json
gives new root.json
for length in 65537 1048577 2147483649 17179869185; do
    truncate -s "$length" new/layer-0.json
    prints 0 'removed 0 kept 2\n' vacuum --blobs blobs --out new k.json root.json
    gives new k.json
done
prints 0 'removed 0 kept 2\n' vacuum --blobs blobs --out new --workers 64 k.json root.json
gives new k.json
sed 's/"mtime-nsec":0,//g; s/"overlay-layer":2/"overlay-layer":1/' k.json > first.json
prints 0 'removed 0 kept 2\n' vacuum --blobs blobs --out new first.json root.json
gives new k.json
# (What goes from directories of one name has the path of its own.)
for top in a b; do
    at dir "/$top" "$plain"
    at dir "/$top/x" "$plain"
    at fifo "/$top/x/f" "$plain"
done | layer > alike.json
sed 's/"dir","mode":493/"dir","mode":448/g' alike.json > alike.lower.json
prints 0 'removed /a/x/f\nremoved /b/x/f\nremoved 2 kept 5\n' vacuum --blobs none --out new alike.json alike.lower.json
rm -f new/layer-0.json
refuses 5 'result over the limits' deref --blobs none --out new moved.json deeper.json
prints 1 'fault blob-missing 1 /k\nfaults 1 notes 0\n' deref --blobs none --out new meta.json k.json
gives new
prints 0 'leaf /k\nentries 2\n' deref --blobs blobs --out new meta.json k.json
gives new k.json
# (An attribute of its own may be empty, as that of a metacopy file is.)
sed 's/"trusted.overlay.metacopy":""/"a":"",&,"user.k":""/' meta.json > tagged.json
sed 's/"path":"\/k",\(.*\)"xattrs":{}/"path":"\/k",\1"xattrs":{"a":"","user.k":""}/' k.json > tagged.k.json
prints 0 'leaf /k\nentries 2\n' deref --blobs blobs --out new tagged.json k.json
gives new tagged.k.json
rewritten=(--blobs none --out new)
closes 'whiteout /x\nentries 67\n' deref "${rewritten[@]}" moved.json half.json
closes 'whiteout /x\nentries 130\n' deref "${rewritten[@]}" moved.json deep.json
closes 'whiteout /x\nentries 17\n' deref "${rewritten[@]}" long_named.json long.fits.json
rm -f new/layer-0.json
refuses 5 'result over the limits' deref "${rewritten[@]}" long_named.json long.over.json
gives new
closes 'entries 130\n' show moved.json deeper.json
closes 'entries 66\n' show moved.json half.json
prints 0 "$clean" fsck --blobs none chain_moved.json half.json
closes 'entries 128\n' show chain_moved.json half.json
refuses 5 'result over the limits' deref "${rewritten[@]}" many_beside.json many_below.json
gives new
closes 'entries 1048576\n' merge "${rewritten[@]}" many_beside.json many_below.json
closes 'entries 129\n' merge "${rewritten[@]}" moved.json deep.json
closes 'entries 128\n' merge "${rewritten[@]}" chain_moved.json half.json
rm -f new/layer-*.json
# (What is shown has no whiteout.)
for more in --workers=4 --any-size; do
    prints 0 'leaf /k\nentries 2\n' flatten "$more" --blobs blobs --out new meta.json k.json
    gives new k.json
    rm new/layer-0.json
done
prints 1 'fault blob-missing 1 /k\nfaults 1 notes 0\n' flatten --blobs none --out new meta.json k.json
gives new
closes 'entries 1048576\n' flatten "${rewritten[@]}" many_beside.json many_below.json
closes 'entries 129\n' flatten "${rewritten[@]}" moved.json deep.json
closes 'entries 128\n' flatten "${rewritten[@]}" chain_moved.json half.json
closes 'entries 16\n' flatten "${rewritten[@]}" long_named.json long.fits.json
rm -f new/layer-0.json
refuses 5 'result over the limits' flatten "${rewritten[@]}" one.json many_beside.json many_below.json
refuses 5 'result over the limits' flatten "${rewritten[@]}" moved.json deeper.json
refuses 5 'result over the limits' flatten "${rewritten[@]}" long_named.json long.over.json
gives new

# (All that is at fault is reported by each of them.)
ends 1 told fsck --blobs none lost.blobs.json root.json && found=$(sha256sum < printed)
for what in vacuum deref merge flatten; do
    ends 1 told "$what" "${rewritten[@]}" lost.blobs.json root.json && sha256sum < printed > digest && says digest "$found"$'\n' "$what"
done
prints 1 'fault redirect-lost 0 /m\nfault redirect-open 0 /m\nfaults 2 notes 0\n' fsck --blobs none far.json root.json
prints 0 'faults 0 notes 0\n' fsck --blobs none moved_deeper.json deeper.json
if ends 0 told show moved_deeper.json deeper.json; then
    tail -n 1 printed > last
    says last $'entries 256\n' show moved_deeper.json deeper.json
fi

rm -f new/layer-0.json
refuses 5 'result over the limits' merge --blobs none --out new moved_deeper.json deeper.json
refuses 3 'no lower layer' merge --blobs blobs --out missing k.json
for left in 2 127; do
    refuses 3 'no lower layer' merge --down-to "$left" --blobs blobs --out missing meta.json k.json
done
refuses 3 'no lower layer' merge --down-to 1 --data-layers 1 --blobs blobs --out missing meta.json k.json
# (Manifests come before the folder, and with --any-size it comes after all else that refuses them.)
refuses 3 'cannot read missing.json' merge --down-to 1 --blobs missing --out new missing.json k.json
refuses 3 'cannot read missing' merge --down-to 1 --blobs missing --out new shape.json k.json
refuses 3 'layer 0: wrong shape' merge --any-size --down-to 1 --blobs missing --out new shape.json k.json
refuses 3 'no lower layer' merge --any-size --down-to 2 --blobs missing --out new meta.json k.json
refuses 3 'cannot read missing' merge --any-size --down-to 1 --blobs missing --out new meta.json k.json
for left in 0 128 two ''; do
    ends 2 printed merge --down-to "$left" --blobs blobs --out missing meta.json k.json && same=$((same + 1))
done
ends 2 printed vacuum --down-to 1 --blobs blobs --out missing meta.json k.json && same=$((same + 1))
prints 1 'fault blob-missing 2 /k\nfaults 1 notes 0\n' merge --down-to 1 --blobs none --out new root.json meta.json k.json
refuses 3 'layer 0: wrong shape' merge --blobs blobs --out missing shape.json
prints 1 'fault blob-missing 1 /k\nfaults 1 notes 0\n' merge --blobs none --out new meta.json k.json
refuses 5 'result over the limits' merge --blobs none --out new moved.json deeper.json
refuses 4 'cannot write missing/layer-0.json' merge --blobs blobs --out missing meta.json k.json
gives new
mkdir taken/second && mkdir taken/second/layer-1.json
cp pipes.json taken/second/layer-0.json
refuses 4 'cannot write taken/second/layer-1.json' merge --blobs blobs --out taken/second meta.json k.json
gives taken/second pipes.json
for more in '' --any-size; do
    # shellcheck disable=SC2086
    prints 0 'leaf /k\nentries 2\n' merge --down-to 1 $more --blobs blobs --out new root.json meta.json k.json
    gives new root.json
    mv new/layer-1.json new/layer-0.json
    gives new k.json
done
prints 0 'leaf /k\nentries 2\n' merge --blobs blobs --out new meta.json k.json
gives new root.json
mv new/layer-1.json new/layer-0.json
gives new k.json

# Links, devices, pipes and sockets in place of the folder for new layers, and of these.
rm -f new/layer-*.json
whole='removed 0 kept 2\n'
ln -s new into
prints 0 "$whole" vacuum --blobs blobs --out into k.json root.json
gives new k.json
rm -f new/layer-0.json
for path in dangling.json round.json socket.json pipe.json /dev/null "$long_name"; do
    refuses 4 "cannot write $path/layer-0.json" vacuum --blobs blobs --out "$path" k.json root.json
done
for target in ../root.json ../made.json ../none/made.json; do
    cp root.json kept.json
    mkdir places && ln -s "$target" places/layer-0.json
    prints 0 "$whole" vacuum --blobs blobs --out places k.json root.json
    gives places k.json
    cp kept.json root.json
    rm -r places
done
rm none/made.json
for kind in 'socket_at' 'ln -s layer-0.json' 'ln -s lost/file'; do
    mkdir places
    # shellcheck disable=SC2086
    (cd places && $kind layer-0.json)
    refuses 4 'cannot write places/layer-0.json' vacuum --blobs blobs --out places k.json root.json
    rm -r places
done
mkdir places && mkfifo places/layer-0.json
timeout 60 sh -c 'cat places/layer-0.json > got.json' &
prints 0 "$whole" vacuum --blobs blobs --out places k.json root.json
wait
says got.json "$(cat k.json)"$'\n' vacuum --out places
rm -r places
mkdir places && ln -s /dev/null places/layer-0.json
prints 0 "$whole" vacuum --blobs blobs --out places k.json root.json
rm -r places
# Both lead to one file: by a hard link, by links to what is there and to what isn't, and to a device.
merge=(merge --blobs blobs --out places meta.json k.json)
for target in ../pipes.json layer-0.json ../none/made.json /dev/null; do
    mkdir places
    if [[ $target == layer-0.json ]]; then
        cp pipes.json places/layer-0.json
        ln places/layer-0.json places/layer-1.json
    else
        ln -s "$target" places/layer-0.json
        ln -s "$target" places/layer-1.json
    fi
    cp pipes.json kept.json
    refuses 4 'cannot write places/layer-1.json' "${merge[@]}"
    [[ $target == *made.json || $target == /dev/* ]] || gives places kept.json
    rm -r places
done
rm none/made.json
# Two files of two file systems, which have one number there, are two.
on_two_disks() {
    unshare -m sh -c 'mount -t tmpfs none one && mount -t tmpfs none two && : > one/new && : > two/new && "$@" && cat one/new' sh "$@"
}
if mkdir one two places && on_two_disks stat -c %i one/new two/new > told 2>&1 && [[ $(sort -u told | wc -l) == 1 ]]; then
    ln -s ../one/new places/layer-0.json
    ln -s ../two/new places/layer-1.json
    over=on_two_disks prints 0 'leaf /k\nentries 2\n'"$(cat root.json)"'\n' "${merge[@]}"
fi
rm -r one two places
if on_a_disk_for_reading true 2> told; then
    over=on_a_disk_for_reading refuses 4 'cannot write disk/layer-0.json' vacuum --blobs blobs --out disk k.json root.json
fi

# New layers and reports that can't be opened, copied, looked at, emptied or written: by EPERM (1), EIO (5), EAGAIN (11), ENOMEM (12),
# EMFILE (24), EFBIG (27), ENOSPC (28), EROFS (30) and EDQUOT (122), or because a write takes nothing. Opens and writes that are
# interrupted are tried again.
merge=(merge --blobs blobs --out new meta.json k.json)
for made in layer-0.json layer-1.json; do
    each open "new/$made" '5 12 24 28 30 122' refuses 4 "cannot write new/$made" "${merge[@]}"
    each open "new/$made" 4 prints 0 'leaf /k\nentries 2\n' "${merge[@]}"
    each copy "new/$made" '12 24' refuses 4 "cannot write new/$made" "${merge[@]}"
    each empty "new/$made" '1 5 28' refuses 4 "cannot write new/$made" "${merge[@]}"
    most=50
    each write "new/$made" '0 5 11 27 28 122' refuses 4 "cannot write new/$made" "${merge[@]}"
    each write "new/$made" 4 prints 0 'leaf /k\nentries 2\n' "${merge[@]}"
    most=
done
# (Whether the second is the first is asked of both, and then of each whether it is to be emptied.)
over='failing stat new/layer-1.json 1 5' refuses 4 'cannot write new/layer-1.json' "${merge[@]}"
over='failing stat new/layer-0.json 1 5' refuses 4 'cannot write new/layer-1.json' "${merge[@]}"
over='failing stat new/layer-0.json 2 5' refuses 4 'cannot write new/layer-0.json' "${merge[@]}"
over='failing stat new/layer-1.json 2 5' refuses 4 'cannot write new/layer-1.json' "${merge[@]}"
each write /dev/stdout '0 5 11 28 32' refuses 4 'cannot write standard output' "${merge[@]}"
each write /dev/stdout 4 prints 0 'leaf /k\nentries 2\n' "${merge[@]}"

# Reads and writes of one byte each.
most=1
over='failing read no-file 0 0' prints 0 'leaf /k\nentries 2\n' "${merge[@]}"
most=
gives new root.json
mv new/layer-1.json new/layer-0.json
gives new k.json

# The output, and what is reported.
for way in without_output without_room into_a_broken_pipe; do
    for words in 'show root.json' --help --version 'merge --help'; do
        # shellcheck disable=SC2086
        over=$way refuses 4 'cannot write standard output' $words
    done
done
# (Or after the first thousand bytes.)
most=1000
each write /dev/stdout '5 28' cuts 4 'cannot write standard output' --help
most=
for way in without_errors without_room_for_errors; do
    over=$way ends 3 told show missing.json && same=$((same + 1))
done

# Help and the version go to standard output.
for words in --help -h --version 'show --help' 'fsck --help' 'vacuum --help' 'deref --help' 'merge --help' 'flatten --help'; do
    # shellcheck disable=SC2086
    "$program" $words < input > printed 2> told
    status=$?
    if ((status == 0)) && [[ -s printed && ! -s told ]]; then
        same=$((same + 1))
    else
        differs "status $status, not 0" "$words"
    fi
done

echo "$same as they should be, $other not"
((other == 0))
