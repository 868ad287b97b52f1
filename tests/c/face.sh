#!/bin/sh
# The header by itself in each dialect that it is for, face.c as C and as C++ linked with the archive and run, the arguments' names
# as in the proved functions, and one version everywhere. gcc and g++ are needed; clang is tried where it is.
#
#     face.sh ARCHIVE
set -eu
archive=$1 work=target/face
strict='-Wall -Wextra -pedantic -Werror'
mkdir -p "$work"
die() { echo "face: $*"; exit 1; }

echo '#include "chelmesut.h"' >"$work/alone.c"
tried=''
for compiler in gcc clang g++ clang++; do
    command -v "$compiler" >/dev/null || continue
    case $compiler in
    *++) dialects='c++11 c++17' language=c++ ;;
    *) dialects='c99 c11' language=c ;;
    esac
    for dialect in $dialects; do
        # shellcheck disable=SC2086
        "$compiler" -std=$dialect $strict -Iinclude -fsyntax-only -x $language "$work/alone.c" ||
            die "the header by itself does not compile with $compiler as $dialect"
        # shellcheck disable=SC2086
        "$compiler" -std=$dialect -O2 $strict -Iinclude -o "$work/face" -x $language tests/c/face.c -x none "$archive" ||
            die "face.c does not compile with $compiler as $dialect"
        "$work/face" >"$work/said" || { cat "$work/said"; die "as built by $compiler from $dialect"; }
        tried="$tried, $compiler $dialect"
    done
done
cat "$work/said"

# Where a length has 32 bits the header must not compile, and must say why. gcc has such a mode on x86-64.
if [ "$(uname -m)" = x86_64 ]; then
    ! gcc -m32 -ffreestanding -Iinclude -fsyntax-only "$work/alone.c" 2>"$work/narrow" || die "the header compiles for 32 bits"
    grep -q is_for_machines_of_64_bits "$work/narrow" || die "the header does not say that it is for 64 bits"
fi

# No compiler sees the names of arguments. Here they are in their order, in the header and in what is proved.
gcc -E -P include/chelmesut.h | tr '\n' ' ' | sed 's/;/;\n/g' | sed -n 's/^ *uint64_t \(chelmesut_[a-z0-9_]*\)(\(.*\));$/\1,\2/p' |
    awk -F ', *' '{ line = $1; for (i = 2; i <= NF; i++) { sub(/\[[0-9]*\]$/, "", $i); sub(/.*[ *]/, "", $i); line = line " " $i } print line }' \
        >"$work/header.names"
for crate in chelmesut chelmesut_c; do # the library, and what exports it to C
    awk '/^pub (extern "C" )?fn / { sub(/.*fn /, ""); sub(/\(.*/, ""); line = $0; inside = 1; next }
         inside && /^\)/ { print line; inside = 0 }
         inside { name = $1; sub(/:$/, "", name); line = line " " name; if (/: &(mut )?\[u8\],$/) line = line " " name "_len" }' \
        crates/$crate/src/lib.rt >"$work/$crate.names"
    diff "$work/header.names" "$work/$crate.names" || die "the header's arguments, above, are not those of crates/$crate, below"
done
[ "$(grep -c '^pub extern "C" fn' crates/chelmesut_c/src/lib.rt)" -eq 9 ] || die "not nine exports"
[ "$(wc -l <"$work/header.names")" -eq 9 ] || die "not nine functions"

version=$(tools/version)
in_rust=$(sed -n 's/^version = "\(.*\)"$/\1/p' bindings/rust/Cargo.toml | head -n 1)
in_changes=$(sed -n 's/^## \([0-9][0-9.]*\).*/\1/p' CHANGELOG.md | head -n 1)
[ "$in_rust" = "$version" ] || die "the header is of version $version, bindings/rust/Cargo.toml of '$in_rust'"
[ "$in_changes" = "$version" ] || die "the header is of version $version, CHANGELOG.md's newest is '$in_changes'"
echo "face: version $version in the header, in Cargo.toml and in CHANGELOG.md; compiled by${tried#,}"
