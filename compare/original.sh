# Builds the original, device_tree 1.1.0, into target/compare. Read by the scripts here, at the top of the repository.
# Sums that wrap stop it, as in its own debug builds.
made=target/compare
library=crates/capi/out
source=${DEVICE_TREE_SRC:-/usr/share/cargo/registry/device_tree-1.1.0}

if [ ! -f "$source/src/lib.rs" ]; then
    echo "No device_tree 1.1.0 at $source." >&2
    echo "On Debian: apt install librust-device-tree-dev rustc. Elsewhere set DEVICE_TREE_SRC to the crate's folder." >&2
    exit 2
fi

mkdir -p "$made"
rustc --edition 2015 --cap-lints allow --crate-type rlib --crate-name device_tree -O -C overflow-checks=on \
    -o "$made/libdevice_tree.rlib" "$source/src/lib.rs"

# A program over it: the name in target/compare, its source, and what else rustc is told.
over_original() {
    program_name=$1 program_source=$2
    shift 2
    rustc --edition 2021 -O -C overflow-checks=on --check-cfg 'cfg(library)' \
        --extern device_tree="$made/libdevice_tree.rlib" -o "$made/$program_name" "$@" "$program_source"
}

need_library() {
    if [ ! -f "$library/libcapi.a" ]; then
        echo "No $library/libcapi.a: run rt lib in crates/capi first." >&2
        exit 2
    fi
}

# A program over the original and the static library.
over_library() {
    need_library
    over_original "$1" "$2" --cfg library -L native="$library" -l static=capi
}
