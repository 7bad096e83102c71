#!/bin/sh
# Nobody but units gets from nanoseconds to a number or back: each of these programs has to be refused by the compiler for
# that, and the one that asks nanos_to_ticks has to be taken. A must-fail edit cannot show it: rt counts an edit that does
# not compile as a bad one.
cd "$(dirname "$0")/.." || exit 2
dir=$(mktemp -d)
trap 'rm -rf "$dir"' EXIT
mkdir -p "$dir/crates/units" "$dir/crates/other/src"
cp -R crates/units/src crates/units/specs "$dir/crates/units"
[ ! -d crates/units/proofs ] || cp -R crates/units/proofs "$dir/crates/units"
printf 'units:\nother: units\n' > "$dir/crates.txt"
failed=0

# what the compiler says of the body of a function from nanoseconds and ticks to ticks; WANTED is its error, none if it is to be taken
try() { # WANTED BODY
    printf '#![tactic(auto)]\n\nuse units::{Nanos, Ticks};\n\npub fn other(n: Nanos, t: Ticks) -> Ticks {\n    %s\n}\n' "$2" \
        > "$dir/crates/other/src/lib.rt"
    log=$(cd "$dir/crates/other" && rt check 2>&1)
    code=$?
    said=$(echo "$log" | sed -n 's/^.*: error\[\([a-z-]*\)\].*/\1/p' | head -n 1)
    if [ "$code" -eq 0 ]; then said=none; fi
    [ "$said" = "$1" ] && return
    echo "private.sh: '$2' was to give $1, but gave: ${said:-$log}"
    failed=1
}

try none 'units::nanos_to_ticks(n)'
try private-field 'Ticks(n.0)'
try unknown-name 'units::nanos_to_ticks(Nanos(t.0))'
try unknown-name 'let Nanos(x) = n; Ticks(x)'
exit "$failed"
