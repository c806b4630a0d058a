# Builds the original and this crate, for the scripts here: $original and $ours are their .rlib. Goes to the top of the repository;
# arguments that are files become whole paths.
for word; do
    shift
    if [ -f "$word" ]; then
        word=$(readlink -f "$word")
    fi
    set -- "$@" "$word"
done
cd "$here"
cargo build --quiet --offline --release --target-dir ../../target/cargo
cd ../..
. compare/original.sh
original=$made/libdevice_tree.rlib
ours=target/cargo/release/libdevice_tree.rlib
