#!/bin/sh
# One pass: instructions by function, the 15 with the most of their own, then the bytes that each function has copied or set
# by memcpy, memmove and memset. Only kernel_schedule and what it calls is counted.
# Usage: profile.sh PASS PASS-WITH-COPIES BLOCK-FILE..
set -eu
pass=$1
copies=$2
shift 2
out=$(mktemp -d)
trap 'rm -r "$out"' EXIT
# a line of callgrind_annotate: count, share, file:function [object]
lines() { sed -n 's/ *\[[^]]*\]$//; s/^\( *[0-9,]* ([ 0-9.]*%)\)  *[^ :]*:\(.*\)$/\1  \2/p; /PROGRAM TOTALS/p'; }
for block; do
    # every symbol is bound before, so that the loader's work is not counted
    LD_BIND_NOW=1 valgrind -q --tool=callgrind --toggle-collect=kernel_schedule --separate-recs=1 --callgrind-out-file="$out/callgrind" "$pass" "$block"
    "$copies" "$block" > "$out/copies"
    echo "$block: instructions"
    callgrind_annotate --threshold=100 "$out/callgrind" | lines | head -16
    echo "$block: bytes copied or set, calls, function"
    # an address belongs to the last symbol at or below it
    { nm "$copies" | awk '$2 ~ /[tT]/ { print $1, "symbol", $3 }'; cat "$out/copies"; } | sort |
        awk '$2 == "symbol" { name = $3; next } { bytes[name] += $3; calls[name] += $2; all += $3; n += $2 }
            END { for (name in bytes) printf "%10d %6d  %s\n", bytes[name], calls[name], name; printf "%10d %6d  all\n", all, n }' | sort -rn
done
