#!/bin/sh
# Runs bin/strips on whole, patchy and broken pictures and compares what it prints, errors included, and what it writes. The last line
# is 'N passed, M failed'; the exit status is 1 where something failed.
program=strips
. "$(dirname "$0")/programs.sh"

cp "$root/crates/strips/data/camera.tif" "$root/crates/strips/data/one-block-lost.map" .
tall colour >tall.tif
tall monochrome >tall-mono.tif
two colour 16512 20608 >two.tif
two monochrome 16512 20608 >two-mono.tif
two monochrome 0 0 >dark.tif
bytes 85 0 >all-lost.map
bytes 84 1 >short.map
bytes 5000 1 >long.map
: >empty
bytes 2097152 0 >large.tif
bytes 2097153 0 >larger.tif
printf 'GIF89a\000\000' >gif.tif
printf 'II+\000\010\000\000\000' >big.tif
{ printf 'II*\000' && long 8 && short 4097; } >tags.tif
{ printf 'MM\000*' && long 0; } >none.tif

# ---- arguments and files
prints 'no argument' <<'END'
usage: strips FILE [MAP [OUT]]
  FILE  a LogLuv TIFF picture, in colour or monochrome
  MAP   its delivery map, a byte for each block of 512 bytes, 1 where the block came; without it the picture came whole
  OUT   where to write L as a picture: NAME.png in grey, and in red, blue or yellow what is not good; NAME.pgm in grey alone
END
prints 'too many arguments' camera.tif one-block-lost.map grey.pgm more <<'END'
strips: at most three names are taken, FILE, MAP and OUT, and here are 4
END
prints 'another ending' nothing.tif nothing.map grey.tif <<'END'
strips: cannot tell what to write: 'grey.tif' ends in neither .png nor .pgm
END
prints 'an ending in capitals' camera.tif one-block-lost.map grey.PNG <<'END'
strips: cannot tell what to write: 'grey.PNG' ends in neither .png nor .pgm
END
prints 'an ending without its dot' camera.tif one-block-lost.map png <<'END'
strips: cannot tell what to write: 'png' ends in neither .png nor .pgm
END
prints 'an empty name' camera.tif one-block-lost.map '' <<'END'
strips: cannot tell what to write: '' ends in neither .png nor .pgm
END
prints 'a name that is too long' camera.tif "$(bytes 5000 120)" <<'END'
strips: argument 2 is longer than the name of a file can be
END
prints 'a picture that is not there' nothing.tif <<'END'
strips: cannot read the picture 'nothing.tif': No such file or directory
END
prints 'a folder for a picture' . <<'END'
strips: cannot read the picture '.': Is a directory
END
prints 'a picture of more than 2 MiB' larger.tif <<'END'
strips: picture 'larger.tif' has more than 2097152 bytes, the most that is read here
END
prints 'a map that is not there' camera.tif nothing.map <<'END'
strips: cannot read the map 'nothing.map': No such file or directory
END
prints 'a short map' camera.tif short.map grey.pgm <<'END'
strips: map 'short.map' has 84 bytes, and must have 85, one for each block of the picture
END
prints 'a map that is longer than any' camera.tif long.map <<'END'
strips: map 'long.map' has at least 4097 bytes, and must have 85, one for each block of the picture
END
prints 'an empty map' camera.tif empty <<'END'
strips: map 'empty' has 0 bytes, and must have 85, one for each block of the picture
END

# ---- refusals
prints 'an empty picture: 1' empty <<'END'
empty
  blocks    0, of which 0 did not come
  refused   1, Truncated: the file ends before bytes that the header, a directory or a value needs
  charged   0 units
END
prints 'no TIFF file: 2' gif.tif <<'END'
gif.tif
  blocks    1, of which 0 did not come
  refused   2, Invalid: this is no TIFF file, or a directory or an entry is malformed
  charged   0 units
END
prints 'no TIFF file, of exactly 2 MiB: 2' large.tif <<'END'
large.tif
  blocks    4096, of which 0 did not come
  refused   2, Invalid: this is no TIFF file, or a directory or an entry is malformed
  charged   0 units
END
prints 'a BigTIFF file: 3' big.tif <<'END'
big.tif
  blocks    1, of which 0 did not come
  refused   3, Unsupported: the picture is not of a kind that is read here, LogLuv (32845) of three samples or LogL (32844) of one, each of 16 bits, in SGILog packets (34676), no side above 65535
  charged   0 units
END
prints 'more entries than are allowed: 4' tags.tif <<'END'
tags.tif
  blocks    1, of which 0 did not come
  refused   4, Limit: the picture or a directory is larger than this program allows
            here: at most 2097152 bytes for the picture, six a pixel (monochrome two), and for a segment, ten a pixel (monochrome four); 65536 segments, 4096 entries in a directory
  charged   0 units
END
prints 'no directory: 5' none.tif <<'END'
none.tif
  blocks    1, of which 0 did not come
  refused   5, PageNotFound: the file has no picture, as its first directory is at 0
  charged   0 units
END
prints 'nothing came: 8, and nothing is written' camera.tif all-lost.map grey.pgm <<'END'
camera.tif
  blocks    85, of which 85 did not come
  refused   8, NotArrived: the header, a directory or a value is in a block that did not come
  charged   0 units
  written   nothing to grey.pgm, as there is no picture
END
prints 'nothing came, and no PNG is written' camera.tif all-lost.map picture.png <<'END'
camera.tif
  blocks    85, of which 85 did not come
  refused   8, NotArrived: the header, a directory or a value is in a block that did not come
  charged   0 units
  written   nothing to picture.png, as there is no picture
END
[ ! -e grey.pgm ] && [ ! -e picture.png ]
note $? 'after a refusal and after a wrong map there is no picture'

# ---- pictures
prints 'without a map' camera.tif <<'END'
camera.tif
  pixels    640 x 480
  segments  60, each at most 640 x 8
  blocks    85, of which 0 did not come
  quality   .......... .......... .......... .......... .......... ..........
       60   good (1, a dot)
        0   did not come (2)
        0   outside the file (3)
        0   packets not accepted (4)
  charged   6186992 units
END
prints 'one block lost' camera.tif one-block-lost.map picture.png <"$root/crates/strips/stdout"
sed '$d' "$root/crates/strips/stdout" >report
{ cat report && echo '  written   grey.pgm: PGM, 640 x 480, 307215 bytes, CRC-32 a8d41b5d'; } >reported
prints 'the same in grey alone' camera.tif one-block-lost.map grey.pgm <reported
head -c 15 grey.pgm >header
printf 'P5\n640 480\n255\n' | cmp -s - header
note $? "the grey picture's header"
tail -c +158736 grey.pgm | head -c 5120 >lost-strip
bytes 5120 0 | cmp -s - lost-strip
note $? 'the lost strip is black'
bytes 85 1 >all-came.map
"$run" camera.tif all-came.map whole.pgm >got 2>&1
others() { head -c 158735 "$1" && tail -c +163856 "$1"; }
others whole.pgm >want
others grey.pgm | cmp -s - want
note $? 'the other strips are as they are in the whole picture'
cmp -s grey.pgm whole.pgm
[ $? -eq 1 ]
note $? 'the lost one is not black there'
# Rows are stored from byte 823 on, one of 640 pixels in 651 bytes.
tail -c +162272 picture.png | head -c 5208 >lost-strip
k=0
while [ "$k" -lt 8 ]; do
    printf '\000\001\000\376\377\000\000\200\002\177\375' && bytes 640 253
    k=$((k + 1))
done | cmp -s - lost-strip
note $? 'the lost strip is red'
bytes 2 1 >both-came.map
prints 'every quality, in three lines' tall.tif both-came.map tall.pgm <<'END'
tall.tif
  pixels    1 x 130
  segments  130, each at most 1 x 1
  blocks    2, of which 0 did not come
  quality   .......... .......... .......... .......... .......... ..........
       60   .......... .....34... .......... .......... .......... ..........
      120   ..........
      128   good (1, a dot)
        0   did not come (2)
        1   outside the file (3)
        1   packets not accepted (4)
  charged   3881 units
  written   tall.pgm: PGM, 1 x 130, 143 bytes, CRC-32 ae93aade
END
{ printf 'P5\n1 130\n255\n' && bytes 75 129 && bytes 3 0 && bytes 52 129; } | cmp -s - tall.pgm
note $? 'each grey value, a negative one among them'
"$run" tall.tif both-came.map tall.png >got 2>&1
echo '  written   tall.png: PNG, 1 x 130, 2408 bytes, CRC-32 3d0f158a' >want
tail -n 1 got | cmp -s - want
note $? 'its PNG'
tail -c +824 tall.png >rows
k=0
while [ "$k" -lt 130 ]; do
    tail -c +$((12 * k + 12)) rows | head -c 1
    k=$((k + 1))
done >colours
{ bytes 75 132 && bytes 1 254 && bytes 1 255 && bytes 1 0 && bytes 52 132; } | cmp -s - colours
note $? 'each colour, grey 0 for the negative value among them'
{ bytes 1 1 && bytes 1 2; } >second-lost.map
prints 'a map byte of 2 is not 1' tall.tif second-lost.map <<'END'
tall.tif
  pixels    1 x 130
  segments  130, each at most 1 x 1
  blocks    2, of which 1 did not come
  quality   2222222222 2222222222 2222222222 2222222222 2222222222 2222222222
       60   2222222222 2222222222 2222222222 2222222222 2222222222 2222222222
      120   2222222222
        0   good (1, a dot)
      130   did not come (2)
        0   outside the file (3)
        0   packets not accepted (4)
  charged   269 units
END
prints 'two offsets and two counts of two bytes, in the entries' two.tif both-came.map two.pgm <<'END'
two.tif
  pixels    1 x 2
  segments  2, each at most 1 x 1
  blocks    2, of which 0 did not come
  quality   ..
        2   good (1, a dot)
        0   did not come (2)
        0   outside the file (3)
        0   packets not accepted (4)
  charged   197 units
  written   two.pgm: PGM, 1 x 2, 13 bytes, CRC-32 67db2ee9
END
{ printf 'P5\n1 2\n255\n' && byte 129 && byte 161; } | cmp -s - two.pgm
note $? 'their grey values'
prints 'such a picture without its second block' two.tif second-lost.map <<'END'
two.tif
  pixels    1 x 2
  segments  2, each at most 1 x 1
  blocks    2, of which 1 did not come
  quality   .2
        1   good (1, a dot)
        1   did not come (2)
        0   outside the file (3)
        0   packets not accepted (4)
  charged   169 units
END

# ---- monochrome pictures: with the same L they are shown as those of the colour head, and charged less
prints 'a monochrome picture with every quality' tall-mono.tif both-came.map tall-mono.pgm <<'END'
tall-mono.tif
  pixels    1 x 130, monochrome
  segments  130, each at most 1 x 1
  blocks    2, of which 0 did not come
  quality   .......... .......... .......... .......... .......... ..........
       60   .......... .....34... .......... .......... .......... ..........
      120   ..........
      128   good (1, a dot)
        0   did not come (2)
        1   outside the file (3)
        1   packets not accepted (4)
            two zero bytes can be a pixel here: the quality alone tells what is good
  charged   1817 units
  written   tall-mono.pgm: PGM, 1 x 130, 143 bytes, CRC-32 ae93aade
END
cmp -s tall.pgm tall-mono.pgm
note $? 'its grey values'
"$run" tall-mono.tif both-came.map tall-mono.png >got 2>&1
echo '  written   tall-mono.png: PNG, 1 x 130, 2408 bytes, CRC-32 3d0f158a' >want
tail -n 1 got | cmp -s - want
note $? "what is said of a monochrome picture's PNG"
cmp -s tall.png tall-mono.png
note $? 'its colours'
prints 'a monochrome picture of which a block did not come' tall-mono.tif second-lost.map tall-mono.png <<'END'
tall-mono.tif
  pixels    1 x 130, monochrome
  segments  130, each at most 1 x 1
  blocks    2, of which 1 did not come
  quality   2222222222 2222222222 2222222222 2222222222 2222222222 2222222222
       60   2222222222 2222222222 2222222222 2222222222 2222222222 2222222222
      120   2222222222
        0   good (1, a dot)
      130   did not come (2)
        0   outside the file (3)
        0   packets not accepted (4)
            two zero bytes can be a pixel here: the quality alone tells what is good
  charged   269 units
  written   tall-mono.png: PNG, 1 x 130, 2408 bytes, CRC-32 28d8e4e3
END
prints 'a monochrome picture with values in its entries' two-mono.tif both-came.map two-mono.pgm <<'END'
two-mono.tif
  pixels    1 x 2, monochrome
  segments  2, each at most 1 x 1
  blocks    2, of which 0 did not come
  quality   ..
        2   good (1, a dot)
        0   did not come (2)
        0   outside the file (3)
        0   packets not accepted (4)
            two zero bytes can be a pixel here: the quality alone tells what is good
  charged   165 units
  written   two-mono.pgm: PGM, 1 x 2, 13 bytes, CRC-32 67db2ee9
END
cmp -s two.pgm two-mono.pgm
note $? 'the grey values of those'
# L is 0 in both strips, as if nothing had come.
for kind in pgm png; do
    "$run" dark.tif both-came.map "dark.$kind" >got 2>&1
    mv "dark.$kind" "came.$kind"
done
prints 'a dark picture without its second block' dark.tif second-lost.map dark.png <<'END'
dark.tif
  pixels    1 x 2, monochrome
  segments  2, each at most 1 x 1
  blocks    2, of which 1 did not come
  quality   .2
        1   good (1, a dot)
        1   did not come (2)
        0   outside the file (3)
        0   packets not accepted (4)
            two zero bytes can be a pixel here: the quality alone tells what is good
  charged   153 units
  written   dark.png: PNG, 1 x 2, 872 bytes, CRC-32 26c7a776
END
colours_of() { # a PNG file of one column and two rows
    for k in 0 1; do tail -c +$((824 + 12 * k + 11)) "$1" | head -c 1; done
}
{ byte 0 && byte 253; } >want
colours_of dark.png | cmp -s - want
note $? 'the dark strip is black and the lost one red'
bytes 2 0 >want
colours_of came.png | cmp -s - want
note $? 'where both came both are black'
"$run" dark.tif second-lost.map dark.pgm >got 2>&1
{ printf 'P5\n1 2\n255\n' && bytes 2 0; } >want
cmp -s dark.pgm want && cmp -s came.pgm want
note $? 'in grey alone nothing tells them apart'

# ---- where nothing can be written
mkdir folder.png folder.pgm
ln -s /dev/full full.png
ln -s /dev/full full.pgm
for kind in png pgm; do
    { cat report && echo "strips: cannot write 'nowhere/a.$kind': No such file or directory"; } >unwritten
    prints "a $kind file in a folder that is not there" camera.tif one-block-lost.map "nowhere/a.$kind" <unwritten
    { cat report && echo "strips: cannot write 'folder.$kind': Is a directory"; } >unwritten
    prints "a folder for a $kind file" camera.tif one-block-lost.map "folder.$kind" <unwritten
    { cat report && echo "strips: cannot write the whole of 'full.$kind': No space left on device"; } >unwritten
    prints "a $kind file on a full device" camera.tif one-block-lost.map "full.$kind" <unwritten
done

# ---- the launcher
launched

finish
