#!/bin/sh
# The original beside this crate on real blobs: whole trees, every path, every property by all five calls, damaged copies, and
# the readers. Without blobs, frame S and its neighbours alone.
#   differential.sh [--seed N] [--copies N] BLOB..     50 damaged copies of each blob
#   differential.sh --time BLOB..                      how long load and the lookups take, beside the original
set -eu
here=$(cd "$(dirname "$0")" && pwd)
. "$here/both.sh"

# Times are taken of the original as its users build it: sums unchecked.
if [ "${1:-}" = --time ]; then
    original=target/compare/release/libdevice_tree.rlib
    mkdir -p target/compare/release
    rustc --edition 2015 --cap-lints allow --crate-type rlib --crate-name device_tree -C opt-level=3 -o "$original" "$source/src/lib.rs"
fi
program=target/differential
rustc --edition 2021 -O -C overflow-checks=on --extern original="$original" --extern ours="$ours" \
    -o "$program" bindings/rust/differential/main.rs
exec ${RUNNER:-} "$program" "$@"
