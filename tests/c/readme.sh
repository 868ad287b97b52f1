#!/bin/sh
# Compiles the example in C that a document has, runs it on a picture, and compares what it prints with what the document says.
#
#     readme.sh DOCUMENT PICTURE FLAGS...
#
# By FLAGS the compiler finds header and library.
set -u
document=$1 picture=$2
shift 2
block() { # LANGUAGE: the first fenced block of the document in it
    sed -n "/^\`\`\`$1\$/,/^\`\`\`\$/p" "$document" | sed -e '1d' -e '/^```$/,$d'
}
mkdir -p target/readme
block c >target/readme/example.c
block c-prints >target/readme/says
if [ ! -s target/readme/example.c ] || [ ! -s target/readme/says ]; then
    echo "$document has no example in C, or not what it prints"
    exit 1
fi
gcc -std=c11 -O2 -Wall -Wextra -Werror -o target/readme/example target/readme/example.c "$@" || exit 1
target/readme/example "$picture" >target/readme/printed || { echo "the example of $document fails"; exit 1; }
diff target/readme/says target/readme/printed || { echo "the example of $document prints something else than it says"; exit 1; }
echo "the example of $document compiles, and prints what it says"
