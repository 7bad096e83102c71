#!/bin/sh
# The header declares exactly what the library exports, the tests call each export, and the library needs no name from outside but
# memcpy and memset. The header allows memmove too, but a host that has only those two would not link. Usage: exports.sh LIBRARY
set -eu
exports=$(nm -g --defined-only "$1" | awk '$3 ~ /^kernel_/ { print $3 }' | sort -u)
declared=$(grep -o 'kernel_[a-z_0-9]*(' include/kernel.h | tr -d '(' | sort -u)
if [ "$exports" != "$declared" ]; then
    printf 'FAILED exports of %s:\n%s\nand declared in include/kernel.h:\n%s\n' "$1" "$exports" "$declared"
    exit 1
fi
for name in $exports; do
    grep -q "= $name(" tests/*.c || { echo "FAILED no test calls $name"; exit 1; }
done
needed=$(nm -u "$1" | awk 'NF == 2 { print $2 }' | grep -vxE 'memcpy|memset' || true)
[ -z "$needed" ] || { printf 'FAILED the library needs from outside:\n%s\n' "$needed"; exit 1; }
