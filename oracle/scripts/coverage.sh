#!/bin/sh
# block coverage of the kernel source under the generator. Works on a COPY of the workspace
# (target/coverage) whose kernel files get a counter at each block and match arm; the oracle
# itself always runs the unchanged files.  usage: scripts/coverage.sh [seed] [count]
set -eu
cd "$(dirname "$0")/.."
rm -rf target/coverage/crates; mkdir -p target/coverage
cp -r Cargo.toml Cargo.lock crates target/coverage/
python3 scripts/instrument.py target/coverage/crates
cd target/coverage
cargo build --offline 2>&1 | grep -E '^error' -A6 || true
./target/debug/oracle cover --seed "${1:-1}" --count "${2:-20000}" --nocheck
