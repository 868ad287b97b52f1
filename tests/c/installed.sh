#!/bin/sh
# Installs under target/, compiles and runs a document's example with what pkg-config says of it and nothing else, and uninstalls.
#
#     installed.sh DOCUMENT PICTURE
set -eu
document=$1 picture=$2 top=$(pwd -P)/target/installed
die() { echo "installed: $*"; exit 1; }
rm -rf "$top"
files() { (cd "$1" && find . -type f -printf '%m %p\n' | LC_ALL=C sort -k 2); }
expected='644 ./include/chelmesut.h
644 ./lib/libchelmesut.a
644 ./lib/pkgconfig/chelmesut.pc'

# A user's own mask does not keep others from reading.
(umask 077 && tools/install "$top/here") >"$top.out" || die "installing fails"
[ "$(files "$top/here")" = "$expected" ] || die "not the files that were expected: $(files "$top/here")"
[ -z "$(find "$top/here" -type d ! -perm -555)" ] || die "a folder that not all can read"

PKG_CONFIG_PATH=$top/here/lib/pkgconfig
export PKG_CONFIG_PATH
[ "$(pkg-config --modversion chelmesut)" = "$(tools/version)" ] || die "pkg-config has another version than the header"
# shellcheck disable=SC2046
tests/c/readme.sh "$document" "$picture" $(pkg-config --cflags --libs chelmesut) || die "the example, with what was installed"

# Put elsewhere, for programs that find it under PREFIX.
tools/install /opt/chelmesut "$top/there" >"$top.out" || die "installing with DESTDIR fails"
[ "$(files "$top/there/opt/chelmesut")" = "$expected" ] || die "with DESTDIR not the files that were expected"
grep -qx prefix=/opt/chelmesut "$top/there/opt/chelmesut/lib/pkgconfig/chelmesut.pc" || die "DESTDIR is named in chelmesut.pc"

tools/install -u "$top/here" >"$top.out" && tools/install -u /opt/chelmesut "$top/there" >"$top.out"
[ -z "$(find "$top" -type f)" ] || die "something is left: $(find "$top" -type f)"
rm -rf "$top" "$top.out"
echo "installed: header, library and chelmesut.pc serve a program, and are taken away again"
