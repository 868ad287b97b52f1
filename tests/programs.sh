# What the tests of the programs share; they read this file with `.`, after program=NAME. It makes a folder of its own the current one.
root=$(cd "$(dirname "$0")/.." && pwd -P)
run=$root/bin/$program
room=$(cd "$(mktemp -d)" && pwd -P)
trap 'rm -rf "$room"' EXIT
cd "$room" || exit 2
passed=0
failed=0

note() { # whether it passed, what was tried
    if [ "$1" -eq 0 ]; then
        passed=$((passed + 1))
    else
        failed=$((failed + 1))
        echo "FAILED: $2"
    fi
}

prints() { # what is tried, the arguments; standard input has what must be printed
    what=$1
    shift
    cat >want
    "$run" "$@" >got 2>&1
    cmp -s want got
    same=$?
    note "$same" "$what"
    [ "$same" -eq 0 ] || diff want got
}

# The last line is 'N passed, M failed'; the exit status is 1 where something failed.
finish() {
    echo "$passed passed, $failed failed"
    [ "$failed" -eq 0 ]
}

# The launcher by way of a link, and a copy of it in a folder without programs.
launched() {
    ln -s "$run" link
    ./link 2>&1 | head -n 1 | grep -q "^usage: $program "
    note $? 'a link of another name'
    mkdir bin
    cp "$run" "bin/$program"
    run=$room/bin/$program
    echo "$program: the program is not built yet; 'make $program' in $room proves and builds it" >unbuilt
    prints 'a program that is not built' <unbuilt
}

# ---- numbers as bytes, little-endian
byte() { printf "\\$(printf %03o "$1")"; }
short() { byte $(($1 % 256)) && byte $(($1 / 256)); }
long() { short $(($1 % 65536)) && short $(($1 / 65536)); }
bytes() { head -c "$1" /dev/zero | tr '\0' "\\$(printf %03o "$2")"; }

# ---- pictures of the tests' own
entry() { short "$1" && short "$2" && long "$3" && long "$4"; }
pair() { short "$1" && short 3 && long 2 && short "$2" && short "$3"; } # two values of two bytes, which stand in the field

# Tags 262 and 277 of a head, the fields of tags 258 and 339, which are places of three values or the one value, and how many bytes
# the packets of a pixel have.
of_head() { # colour or monochrome
    case $1 in
    colour) photometric=32845 samples=3 depths=134 formats=140 stored=8 ;;
    monochrome) photometric=32844 samples=1 depths=16 formats=2 stored=4 ;;
    esac
}

# The packets of a pixel of the head at hand: L, and for colour always the same u and v.
pixel() { # L
    byte 1 && byte $(($1 / 256)) && byte 1 && byte $(($1 % 256))
    [ "$samples" -eq 1 ] || printf '\001\120\001\140'
}

# A picture one pixel wide in strips of one row, up to byte 146: the directory at 8, then two arrays of three, which are nothing's where
# the values are single ones.
front() { # height, the entry of the offsets, the entry of the counts; of the head at hand
    printf 'II*\000' && long 8
    short 10
    entry 256 3 1 1
    entry 257 3 1 "$1"
    entry 258 3 "$samples" "$depths"
    entry 259 3 1 34676
    entry 262 3 1 "$photometric"
    $2
    entry 277 3 1 "$samples"
    entry 278 3 1 1
    $3
    entry 339 3 "$samples" "$formats"
    long 0
    short 16 && short 16 && short 16
    short 2 && short 2 && short 2
}

# Two strips, with their offsets and counts in the entries: the first is in block 0, the second is the whole of block 1.
two() { # head, L of each
    of_head "$1"
    front 2 'pair 273 146 512' "pair 279 $stored $stored"
    pixel "$2"
    bytes $((512 - 146 - stored)) 0
    pixel "$3"
}

# 130 strips: the offsets at 146, the counts at 406, and from 666 on the packets of two rows, of which the second has a negative L.
tall() { # head
    of_head "$1"
    front 130 'entry 273 3 130 146' 'entry 279 3 130 406'
    k=0
    while [ "$k" -lt 130 ]; do
        case $k in
        75) short 9999 ;;
        76) short 0 ;;
        77) short $((666 + stored)) ;;
        *) short 666 ;;
        esac
        k=$((k + 1))
    done
    k=0
    while [ "$k" -lt 130 ]; do
        short "$stored"
        k=$((k + 1))
    done
    pixel 16512
    pixel 49280
}
