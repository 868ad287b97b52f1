#!/bin/sh
# Runs bin/replay on whole, cut, long and broken traces and compares what it prints, errors included, and what it writes, with what
# bin/strips shows of the same picture and map. The last line is 'N passed, M failed'; the exit status is 1 where something failed.
program=replay
. "$(dirname "$0")/programs.sh"
strips=$root/bin/strips

# ---- messages
wide() { long $(($1 % 4294967296)) && long $(($1 / 4294967296)); }
largest() { bytes 8 255; }
start() { byte 1 && wide "$1"; }
block() { byte 2 && wide "$1" && short "$2" && head -c "$2"; } # number, size; standard input has its bytes
zeros() { bytes "$2" 0 | block "$1" "$2"; }                    # number, size
part() { tail -c +$((512 * $2 + 1)) "$1" | head -c 512; }      # file, number
of() { part "$1" "$2" | block "$2" "$(part "$1" "$2" | wc -c)"; } # the block of a file

# ---- what must be printed
told() { # the trace's name, messages accepted, messages refused with 10, 11, 12, how the trace ends
    echo "$1"
    echo "  messages  $(($2 + $3 + $4 + $5)), of which $2 were accepted"
    printf '%9d   %s\n' "$3" 'too long for the buffers (10)' "$4" 'outside the picture, or before any start (11)' "$5" 'of a wrong size (12)'
    echo "  trace     $6"
}
nothing() { echo '  picture   none, as no start was accepted'; }
shown() { # file, its map, perhaps a picture to write: as strips shows it
    echo "  picture   $(wc -c <"$1") bytes in $(wc -c <"$2") blocks"
    "$strips" "$@" | tail -n +2
}
whole='ends after a whole message'
within() { echo "ends within message $1, which was not taken (1)"; }
foreign() { echo "stopped after $1 bytes, as a message begins with 1 or 2 and not with $2 (2)"; }

# Two blocks, the second of 170 bytes; and the same filled up to two whole ones.
tall colour >tall.tif
{ cat tall.tif && bytes 342 0; } >padded.tif
bytes 2 1 >both.map
bytes 2 0 >none.map
{ byte 1 && byte 0; } >first.map
{ byte 0 && byte 1; } >second.map
start 682 >begin
of tall.tif 0 >first
of tall.tif 1 >second
cat begin first second >tall.trace
cp "$root/crates/replay/data/demo.trace" "$root/crates/strips/data/camera.tif" .
: >empty

# ---- arguments and files
prints 'no argument' <<'END'
usage: replay TRACE [OUT]
  TRACE  the recorded messages of a bus, starts and blocks, one after the other
  OUT    where to write L as a picture: NAME.png in grey, and in red, blue or yellow what is not good; NAME.pgm in grey alone
END
prints 'too many arguments' tall.trace grey.pgm more <<'END'
replay: at most two names are taken, TRACE and OUT, and here are 3
END
prints 'another ending' nothing.trace grey.tif <<'END'
replay: cannot tell what to write: 'grey.tif' ends in neither .png nor .pgm
END
prints 'an empty name' tall.trace '' <<'END'
replay: cannot tell what to write: '' ends in neither .png nor .pgm
END
prints 'a name that is too long' "$(bytes 5000 120)" <<'END'
replay: argument 1 is longer than the name of a file can be
END
prints 'a trace that is not there' nothing.trace <<'END'
replay: cannot read the trace 'nothing.trace': No such file or directory
END
prints 'a folder for a trace' . <<'END'
replay: cannot read the trace '.': Is a directory
END
# Root may read any file.
if [ "$(id -u)" -ne 0 ]; then
    cp tall.trace hidden.trace
    chmod 0 hidden.trace
    prints 'a trace without permission' hidden.trace <<'END'
replay: cannot read the trace 'hidden.trace': Permission denied
END
fi

# ---- how a trace ends
{ told empty 0 0 0 0 'has no bytes' && nothing; } >said
prints 'an empty trace' empty <said
for byte in 0 3 255; do
    byte "$byte" >foreign.trace
    { told foreign.trace 0 0 0 0 "$(foreign 0 "$byte")" && nothing; } >said
    prints "a first byte of $byte" foreign.trace <said
    { cat begin first && byte "$byte" && cat second; } >foreign.trace
    { told foreign.trace 2 0 0 0 "$(foreign 532 "$byte")" && shown tall.tif first.map; } >said
    prints "a third message that begins with $byte" foreign.trace <said
done
# Cut behind each byte: within the start, the first block and the second, and between them.
nothing >shown-0
shown tall.tif none.map >shown-1
shown tall.tif first.map >shown-2
shown tall.tif both.map >shown-3
size=$(wc -c <tall.trace)
at=1
while [ "$at" -le "$size" ]; do
    head -c "$at" tall.trace >cut.trace
    taken=$(((at >= 9) + (at >= 532) + (at >= 713)))
    case $at in
    9 | 532 | 713) how=$whole ;;
    *) how=$(within $((taken + 1))) ;;
    esac
    { told cut.trace "$taken" 0 0 0 "$how" && cat "shown-$taken"; } >said
    prints "cut after $at bytes" cut.trace <said
    at=$((at + 1))
done
[ "$size" -eq 713 ]
note $? 'the trace that was cut has three messages of 713 bytes'

# ---- what is refused
{ cat first second && zeros 0 0; } >trace
{ told trace 0 0 3 0 "$whole" && nothing; } >said
prints 'blocks before any start' trace <said
{ cat first tall.trace; } >trace
{ told trace 3 0 1 0 "$whole" && cat shown-3; } >said
prints 'a block before the start, and then the picture' trace <said
{ cat begin first && byte 2 && largest && short 0 && zeros 2 512 && cat second; } >trace
{ told trace 3 0 2 0 "$whole" && cat shown-3; } >said
prints 'numbers 2^64-1 and one too many' trace <said
{ cat begin first && byte 1 && largest && start 2097153 && cat second; } >trace
{ told trace 3 2 0 0 "$whole" && cat shown-3; } >said
prints 'lengths 2^64-1 and one too long: the picture goes on' trace <said
{ byte 1 && largest; } >trace
{ told trace 0 1 0 0 "$whole" && nothing; } >said
prints 'a start that is refused alone' trace <said
{ cat begin && zeros 0 0 && zeros 0 511 && zeros 0 513 && zeros 0 65535 && cat first && zeros 1 0 && zeros 1 169 && zeros 1 171 && zeros 1 512; } >trace
{ told trace 2 0 0 8 "$whole" && cat shown-2; } >said
prints 'wrong sizes, 0 and 65535 among them' trace <said

# ---- what is accepted
{ start 1024 && of padded.tif 1 && of padded.tif 0; } >trace
{ told trace 3 0 0 0 "$whole" && shown padded.tif both.map; } >said
prints 'a last block of 512 bytes, and the blocks out of order' trace <said
{ cat begin && zeros 0 512 && cat second first second; } >trace
{ told trace 5 0 0 0 "$whole" && cat shown-3; } >said
prints 'a block with other bytes, and repeated' trace <said
{ cat tall.trace begin; } >trace
{ told trace 4 0 0 0 "$whole" && cat shown-1; } >said
prints 'two starts: nothing of the first picture came' trace <said
{ cat tall.trace begin second; } >trace
{ told trace 5 0 0 0 "$whole" && shown tall.tif second.map; } >said
prints 'two starts, and one block after them' trace <said
head -c 512 tall.tif >short.tif
byte 1 >one.map
{ cat tall.trace && start 512 && cat first second; } >trace
{ told trace 5 0 1 0 "$whole" && shown short.tif one.map; } >said
prints 'a second start that is shorter' trace <said
two colour 16512 20608 >two.tif
start 520 >trace
of two.tif 0 >>trace
{ told trace 2 0 0 0 "$whole" && cat <<'END'; } >said
  picture   520 bytes in 2 blocks
  pixels    1 x 2
  segments  2, each at most 1 x 1
  blocks    2, of which 1 did not come
  quality   .2
        1   good (1, a dot)
        1   did not come (2)
        0   outside the file (3)
        0   packets not accepted (4)
  charged   169 units
END
prints 'a picture with offsets and counts in its entries, and one of its blocks' trace <said
of two.tif 1 >>trace
{ told trace 3 0 0 0 "$whole" && cat <<'END'; } >said
  picture   520 bytes in 2 blocks
  pixels    1 x 2
  segments  2, each at most 1 x 1
  blocks    2, of which 0 did not come
  quality   ..
        2   good (1, a dot)
        0   did not come (2)
        0   outside the file (3)
        0   packets not accepted (4)
  charged   197 units
END
prints 'its other block too' trace <said
two monochrome 0 16512 >dark.tif
start 516 >trace
of dark.tif 0 >>trace
{ told trace 2 0 0 0 "$whole" && cat <<'END'; } >said
  picture   516 bytes in 2 blocks
  pixels    1 x 2, monochrome
  segments  2, each at most 1 x 1
  blocks    2, of which 1 did not come
  quality   .2
        1   good (1, a dot)
        1   did not come (2)
        0   outside the file (3)
        0   packets not accepted (4)
            two zero bytes can be a pixel here: the quality alone tells what is good
  charged   153 units
  written   dark.png: PNG, 1 x 2, 872 bytes, CRC-32 26c7a776
END
prints 'a monochrome picture, dark in the block that came' trace dark.png <said
of dark.tif 1 >>trace
{ told trace 3 0 0 0 "$whole" && cat <<'END'; } >said
  picture   516 bytes in 2 blocks
  pixels    1 x 2, monochrome
  segments  2, each at most 1 x 1
  blocks    2, of which 0 did not come
  quality   ..
        2   good (1, a dot)
        0   did not come (2)
        0   outside the file (3)
        0   packets not accepted (4)
            two zero bytes can be a pixel here: the quality alone tells what is good
  charged   165 units
  written   dark.pgm: PGM, 1 x 2, 13 bytes, CRC-32 7e2da72b
END
prints 'its other block too, and its grey values' trace dark.pgm <said
{ printf 'P5\n1 2\n255\n' && byte 0 && byte 129; } | cmp -s - dark.pgm
note $? 'these grey values by their bytes'
{ start 0 && zeros 0 0; } >trace
{ told trace 1 0 1 0 "$whole" && echo '  picture   0 bytes in 0 blocks' && "$strips" empty | tail -n +2; } >said
prints 'a picture of no bytes' trace <said
{ cat tall.trace && start 0; } >trace
{ told trace 4 0 0 0 "$whole" && echo '  picture   0 bytes in 0 blocks' && "$strips" empty | tail -n +2; } >said
prints 'a second start of no bytes' trace <said

# ---- traces longer than the window of 131072 bytes
zeros 0 65535 >filler
bytes 2097152 0 >large.tif
{ byte 1 && bytes 4094 0 && byte 1; } >large.map
zeros 0 512 >many
for _ in 1 2 3 4 5 6 7 8 9 10 11 12; do
    cat many many >twice
    mv twice many
done
{ start 2097152 && cat many && zeros 4095 512; } >long.trace
{ told long.trace 4098 0 0 0 "$whole" && shown large.tif large.map; } >said
prints 'the longest picture, and one block 4096 times' long.trace <said
{ cat begin filler filler filler first second; } >long.trace
{ told long.trace 3 0 0 3 "$whole" && cat shown-3; } >said
prints 'blocks of 65535 bytes, one of them across the end of the window' long.trace <said
{ cat long.trace && byte 9; } >foreign.trace
{ told foreign.trace 3 0 0 3 "$(foreign 197351 9)" && cat shown-3; } >said
prints 'a foreign byte behind the first window' foreign.trace <said
head -c 197350 long.trace >cut.trace
{ told cut.trace 2 0 0 3 "$(within 6)" && cat shown-2; } >said
prints 'a message that is cut behind the first window' cut.trace <said
# The window ends within the head of the first block, and just before and behind it.
before=0
while [ "$before" -le 12 ]; do
    { cat begin filler && zeros 0 $((65506 - before)) && cat first second; } >long.trace
    { told long.trace 3 0 0 2 "$whole" && cat shown-3; } >said
    prints "a message of which $before bytes are in the first window" long.trace <said
    head -c $((131072 - before)) long.trace >cut.trace
    { told cut.trace 1 0 0 2 "$whole" && cat shown-1; } >said
    prints "a trace that ends $before bytes before the window" cut.trace <said
    before=$((before + 1))
done

# ---- what is written
bytes 85 1 >demo.map
for lost in 21 44; do
    printf '\000' | dd of=demo.map bs=1 seek="$lost" conv=notrunc 2>/dev/null
done
prints 'the demo' demo.trace picture.png <"$root/crates/replay/stdout"
for kind in png pgm; do
    shown camera.tif demo.map "same.$kind" >want
    mv "same.$kind" "strips.$kind"
    "$run" demo.trace "same.$kind" | tail -n +7 >got
    cmp -s want got
    note $? "the demo's report is that of strips, and its $kind file"
    cmp -s "same.$kind" "strips.$kind"
    note $? "the demo's $kind file has the same bytes"
done
{ echo /dev/stdin && tail -n +2 "$root/crates/replay/stdout" | sed '$d'; } >said
cat demo.trace | "$run" /dev/stdin | cmp -s - said
note $? 'a trace that comes through a pipe'
{ told empty 0 0 0 0 'has no bytes' && nothing && echo '  written   nothing to none.png, as there is no picture'; } >said
prints 'nothing is written without a start' empty none.png <said
head -c 9 tall.trace >trace
{ told trace 1 0 0 0 "$whole" && cat shown-1 && echo '  written   nothing to none.pgm, as there is no picture'; } >said
prints 'nothing is written of a picture that is refused' trace none.pgm <said
[ ! -e none.png ] && [ ! -e none.pgm ]
note $? 'there are no files then'
{ told tall.trace 3 0 0 0 "$whole" && cat shown-3 && echo "replay: cannot write 'nowhere/a.png': No such file or directory"; } >said
prints 'a file in a folder that is not there' tall.trace nowhere/a.png <said

# ---- the launcher
launched

finish
