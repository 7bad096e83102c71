#!/bin/sh
# Copies the unchanged source of the original byte for byte and checks it.
# ORIGINAL is the folder that holds crates/zakuro-core and crates/zakuro-cpu of fearkov/zakuro 3f8995e62f.
set -eu
cd "$(dirname "$0")/.."
ORIGINAL=${ORIGINAL:-../../shared/docs/src}
copy() { cmp -s "$ORIGINAL/$1" "$1" || cp "$ORIGINAL/$1" "$1"; cmp "$ORIGINAL/$1" "$1"; }
for f in mod object sync thread svc; do
  copy "crates/zakuro-core/src/kernel/$f.rs"
done
copy crates/zakuro-cpu/src/lib.rs
sha256sum -c SOURCE.sha256
