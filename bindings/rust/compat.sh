#!/bin/sh
# Compiles the programs of compat/ against the original and against this crate, unchanged, in every edition, runs both on each blob
# and compares what they print. Those of compat/differs must compile against the original alone: they are what README.md excepts.
#   compat.sh BLOB..
set -eu
here=$(cd "$(dirname "$0")" && pwd)
. "$here/both.sh"

made=target/compat
mkdir -p "$made"
compile() {
    rustc --edition "$1" --cap-lints allow -O --extern device_tree="$2" -o "$3" "$4"
}

failed=0 programs=0 runs=0
for source in bindings/rust/compat/*.rs; do
    name=$(basename "$source" .rs)
    for edition in 2015 2018 2021 2024; do
        compile $edition "$original" "$made/$name-original" "$source"
        if ! compile $edition "$ours" "$made/$name-ours" "$source"; then
            echo "$name: does not compile in edition $edition" >&2
            failed=1
            continue
        fi
        programs=$((programs + 1))
        for blob; do
            "$made/$name-original" "$blob" > "$made/original.out" 2>&1 || echo "exit $?" >> "$made/original.out"
            "$made/$name-ours" "$blob" > "$made/ours.out" 2>&1 || echo "exit $?" >> "$made/ours.out"
            # A panic is told by its message; thread numbers differ.
            sed -i 's/^\(thread .*\) ([0-9]*) panicked/\1 panicked/' "$made/original.out" "$made/ours.out"
            cmp "$made/original.out" "$made/ours.out" || failed=1
            runs=$((runs + 1))
        done
    done
done
for source in bindings/rust/compat/differs/*.rs; do
    compile 2021 "$original" "$made/differs" "$source"
    if compile 2021 "$ours" "$made/differs" "$source" 2> /dev/null; then
        echo "$source: compiles, so README.md excepts too much" >&2
        failed=1
    fi
done
echo "compat: $programs compiled, $runs runs compared; $([ $failed = 0 ] && echo 'no difference' || echo 'DIFFERENCES')"
exit $failed
