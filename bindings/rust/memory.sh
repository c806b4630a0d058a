#!/bin/sh
# The tests with every access to memory watched: under valgrind, which sees the static library's accesses too, and with the address
# sanitizer of a nightly Rust, which sees this crate's and its tests'. Says what cannot be had.
set -eu
cd "$(dirname "$0")"
if command -v valgrind > /dev/null; then
    CARGO_TARGET_X86_64_UNKNOWN_LINUX_GNU_RUNNER="valgrind --quiet --error-exitcode=9 --leak-check=full --show-leak-kinds=definite --errors-for-leak-kinds=definite" \
        cargo test --offline --tests
else
    echo "memory.sh: no valgrind" >&2
fi
if rustc +nightly --version > /dev/null 2>&1; then
    RUSTFLAGS=-Zsanitizer=address RUSTDOCFLAGS=-Zsanitizer=address \
        cargo +nightly test --offline --target x86_64-unknown-linux-gnu --target-dir ../../target/cargo-sanitizer
else
    echo "memory.sh: no nightly Rust" >&2
fi
