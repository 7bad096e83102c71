#!/bin/sh
# Wrong kernels as edits of the definitions: the theorem has to refuse each one, by the law that its head names.
# A patch changes what the kernel does, and repairs the laws that cite the definition but that the theorem does not need.
# Each is tried on a copy of the tree, from the changed crate up to the one that has that law; history needs all of these.
# Usage: sh wrong/run.sh [NAME..]      NAME: a file of wrong/kernels without its ending; none: all of them
# The last line is 'N refused, M not'; the exit code is 1 if any was proved or was refused by another law.
set -u
cd "$(dirname "$0")/.." || exit 2
[ $# -gt 0 ] || set -- $(ls wrong/kernels | sed 's/\.patch$//')
jobs=${JOBS:-2}
out=target/wrong
# the unchanged tree comes first: rt begins in a copy with what its checks kept here, so what a patch does not touch is not proved again
(cd crates/history && rt check) || exit 2
rm -rf "$out"
mkdir -p "$out"
# not below this folder: rt ci takes no second crates.txt, and no file of specs/ but the crates' own
copies=$(mktemp -d)
trap 'rm -rf "$copies"' EXIT

# the copy as the tree is; what its own checks kept stays
restore() { # COPY
    mkdir -p "$1/crates"
    cp crates.txt "$1"
    for c in $(ls crates); do
        for part in src specs proofs; do
            rm -rf "$1/crates/$c/$part"
            [ ! -d "crates/$c/$part" ] || { mkdir -p "$1/crates/$c" && cp -R "crates/$c/$part" "$1/crates/$c"; }
        done
    done
    # computed examples would refuse most of them first
    for part in demand/specs demand/proofs history/specs history/proofs; do
        rm -f "$1/crates/$part/Plays.antt" "$1/crates/$part/Witness.antt"
        sed -i '/^pub mod \(Plays\|Witness\)$/d' "$1/crates/$part/Lib.antt"
    done
}

# one patch; its result is the file NAME.result
try() { # COPY NAME
    restore "$1"
    wants=$(sed -n 's/^refused: //p' "wrong/kernels/$2.patch")
    crate=$(echo "$wants" | sed 's|^crates/\([^/]*\)/.*|\1|')
    log=$out/$2.log
    start=$(date +%s)
    if ! patch -s -p1 -d "$1" < "wrong/kernels/$2.patch" > "$log" 2>&1; then
        seen="the patch does not apply"
    elif (cd "$1/crates/$crate" && rt check --jobs 1) > "$log" 2>&1; then
        seen="proved"
    else
        # the crate that is not proved, the file and the law of the first error
        fails=$(sed -n 's/^rt: the library \([a-z0-9_]*\) did not build.*/\1/p' "$log" | head -n 1)
        seen=$(sed -n "s|^\./\([^ :]*\):[0-9]*:[0-9]*: error: \`\([^\`]*\)\`.*|crates/${fails:-$crate}/\1 \2|p" "$log" | head -n 1)
    fi
    [ "$seen" = "$wants" ] && word=refused || word="NOT AS SAID ($wants)"
    echo "$2: $word: $seen ($(($(date +%s) - start)) s)" > "$out/$2.result"
    cat "$out/$2.result"
}

worker() { # NUMBER NAME..
    mine=$1
    shift
    i=0
    for name in "$@"; do
        [ $((i % jobs)) -eq "$mine" ] && try "$copies/$mine" "$name"
        i=$((i + 1))
    done
}

w=0
while [ "$w" -lt "$jobs" ]; do
    worker "$w" "$@" &
    w=$((w + 1))
done
wait
refused=$(cat "$out"/*.result | grep -c ': refused: ')
echo "$refused refused, $(($# - refused)) not"
[ "$refused" -eq $# ]
