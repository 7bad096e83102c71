#!/bin/sh
# Fails where a bare number stands in the place of a unit, an object number or a handle: a parameter or a field with one of
# their names and the type u32 or u64. Not looked at: host, since C passes numbers; codec, which has bytes; sample, whose h is a hash.
# Fails too where an enum is turned into its number anywhere but in the crates that write it down: block into the block,
# collect into the answer slice, question into a column, and of a refusal or an answer where C gets it. Code goes by the variant.
# It becomes its number by `From`, so both `u32::from` and `into` are looked for.
cd "$(dirname "$0")/.." || exit 2
names='tick|ticks|wake|due|since|fire_at|nanos|initial|interval|timeout|h|handle|o|object|process'
bare=$(grep -nE "(^|[ (])($names): *(u32|u64)\b" crates/*/src/*.rt | grep -vE '^crates/(host|codec|sample)/')
enums='kind|reset|status|result|syscall'
tested=$(grep -nE "\b($enums)_number\(" crates/*/src/*.rt | grep -vE '^crates/(block|collect|question|types)/')
made=$(grep -nE "\bu32::from\b|\.into\(\)|\bInto::into\b" crates/*/src/*.rt | grep -vE '^crates/(block|question|sample)/|Err\((r|refusal)\) => u32::from|^crates/outcome/.*u32::from\(a\)')
[ -z "$bare$tested$made" ] && exit 0
[ -z "$bare" ] || { echo "a bare number in the place of a unit, an object number or a handle:"; echo "$bare"; }
[ -z "$tested$made" ] || { echo "an enum turned into its number:"; echo "$tested$made"; }
exit 1
