#!/bin/sh
# Has another reader, netpbm's pngtopnm, read the PNG files that bin/strips writes, and compares every pixel with what the models of the
# rules say. The last line is 'N passed, M failed'; the exit status is 1 where something failed.
program=strips
. "$(dirname "$0")/programs.sh"
model=$root/tests/png.py

same() { # what is tried, picture, map
    if ! "$run" "$2" "$3" "$room/a.png" >"$room/report" || ! grep -q '^  written   .*: PNG' "$room/report"; then
        note 1 "$1: nothing was written"
        return
    fi
    pngtopnm "$room/a.png" >"$room/seen" 2>"$room/said"
    note $? "$1: pngtopnm says $(cat "$room/said")"
    said=$(python3 "$model" compare "$2" "$3" "$room/seen" 2>&1)
    note $? "$1: $said"
    echo "$1: $said"
}

blocks_of() { echo $((($(wc -c <"$1") + 511) / 512)); }

# All blocks came, and all but one, for each or for some at a distance; a block whose loss is refused, as it holds the directory, says
# nothing of the PNG.
each_block() { # what is tried, picture, distance
    blocks=$(blocks_of "$2")
    bytes "$blocks" 1 >"$room/map"
    same "$1, whole" "$2" "$room/map"
    lost=0
    while [ "$lost" -lt "$blocks" ]; do
        { bytes "$lost" 1 && printf '\0' && bytes $((blocks - lost - 1)) 1; } >"$room/map"
        if "$run" "$2" "$room/map" | grep -q '^  pixels'; then
            same "$1, without block $lost" "$2" "$room/map"
        fi
        lost=$((lost + $3))
    done
}

data=$root/crates/strips/data
same 'the camera, without block 44' "$data/camera.tif" "$data/one-block-lost.map"

python3 "$model" pictures "$room" || exit 2
for head in '' -mono; do
    kind=${head:+, monochrome}
    same "every code$kind" "$room/codes$head.tif" "$room/codes$head.map"
    each_block "one row$kind" "$room/wide$head.tif" 40
    each_block "one column$kind" "$room/tall$head.tif" 1
done
bytes "$(blocks_of "$room/full-mono.tif")" 1 >"$room/full-mono.map"
same 'as many pixels as there is room for' "$room/full-mono.tif" "$room/full-mono.map"

libtiff=$root/crates/vectors/data/pictures
each_block 'tiles that stand over' "$libtiff/t03_33x47_t32x16_b.tif" 1
each_block 'tiles with negative values' "$libtiff/t05_50x20_t32x16_neg_l.tif" 1
each_block 'a short last strip' "$libtiff/s13_40x30_rps7_neg_b.tif" 1
each_block 'one pixel' "$libtiff/s01_1x1_l.tif" 1
each_block 'monochrome tiles that stand over' "$libtiff/m06_33x20_t32x16_noise_b.tif" 1
each_block 'monochrome strips with negative values' "$libtiff/m04_40x30_rps7_neg_b.tif" 1
each_block 'one dark pixel' "$libtiff/m01_1x1_zero_l.tif" 1

finish
