#!/bin/sh
# Makes the samples' blobs again, in target/samples, and says which differ from the stored ones.
#   samples/make.sh            exit status 1 where one differs
#   samples/make.sh --write    stores them
set -eu
cd "$(dirname "$0")"
made=../target/samples
mkdir -p "$made"

dtc -I dts -O dtb -o "$made/enclosure.dtb" enclosure.dts
# The size of the unit in slot 13, 11 bytes, said to be 15.
cp "$made/enclosure.dtb" "$made/damaged-shifted.dtb"
printf '\017' | dd of="$made/damaged-shifted.dtb" bs=1 seek=4191 conv=notrunc 2>/dev/null
# The last 448 bytes lost.
head -c 6000 "$made/enclosure.dtb" > "$made/damaged-short.dtb"
dtc -I dts -O dtb -o "$made/daisy-chain.dtb" daisy-chain.dts

differ=0
for blob in enclosure damaged-shifted damaged-short daisy-chain; do
    if [ "${1:-}" = --write ]; then
        cp "$made/$blob.dtb" "$blob.dtb"
    elif cmp "$made/$blob.dtb" "$blob.dtb"; then
        echo "$blob.dtb: the same"
    else
        differ=1
    fi
done
exit $differ
