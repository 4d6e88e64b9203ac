#!/bin/sh
# Installs the library for C programs under a prefix:
#
#   sh install.sh PREFIX      PREFIX/include/wunqaber.h, PREFIX/lib/libwunqaber.a, PREFIX/lib/pkgconfig/wunqaber.pc
#
# The library is $WUNQABER_LIBRARY, a file built before; else crates/wunqaber/out/libwunqaber.a, which is proved and built here where
# it is not there or where a file of the crates is newer. Nothing is put under the prefix before the library is there. To install again
# replaces what differs and leaves the rest alone.
set -eu
version=0.1.0
root=$(CDPATH='' cd -- "$(dirname -- "$0")" && pwd)

fail() {
    echo "install.sh: $1" >&2
    exit 1
}
prefix=${1:-}
[ $# = 1 ] || prefix=
case $prefix in
    '' | -*)
        echo 'usage: sh install.sh PREFIX' >&2
        exit 2
        ;;
    /*) ;;
    *) prefix=$(pwd)/$prefix ;;
esac
if [ -e "$prefix" ] && [ ! -d "$prefix" ]; then
    fail "'$prefix' is not a folder"
fi
# A file of pkg-config cannot name such a folder so that a command line takes it as one word.
case $prefix in
    *[[:space:]\"\'\\\$\#]*) fail "'$prefix' has a blank, a quote, or a \\, \$ or # in it, which pkg-config does not take" ;;
esac

library=${WUNQABER_LIBRARY:-}
if [ -z "$library" ]; then
    library=$root/crates/wunqaber/out/libwunqaber.a
    if [ ! -f "$library" ] || [ -n "$(find "$root/crates" "$root/crates.txt" -name out -prune -o -type f -newer "$library" -print | head -n 1)" ]; then
        command -v rt > /dev/null || fail 'the library is not built and there is no rt to build it: install the Rattle kit, or set WUNQABER_LIBRARY'
        echo 'install.sh: proving and building the library; from nothing this takes minutes'
        sh "$root/tests/library.sh" || fail 'the library is not proved, or not built'
    fi
fi
[ -f "$library" ] || fail "there is no library '$library'"

mkdir -p -- "$prefix/include" "$prefix/lib/pkgconfig" || fail "'$prefix' cannot be made"
prefix=$(CDPATH='' cd -- "$prefix" && pwd)
made=$(mktemp)
trap 'rm -f "$made"' EXIT
# Puts a file in its place, readable by all, unless the same file is there.
put() { # the file, its place
    cmp -s -- "$1" "$2" || cp -- "$1" "$2" || fail "'$2' cannot be written"
    chmod 644 "$2" || fail "'$2' cannot be made readable"
    echo "install.sh: $2"
}
cat > "$made" << END
prefix=$prefix
includedir=\${prefix}/include
libdir=\${prefix}/lib

Name: wunqaber
Description: rounded boxes and ovals on a canvas of bytes, drawn by proof
Version: $version
Cflags: -I\${includedir}
Libs: -L\${libdir} -lwunqaber
END
put "$root/include/wunqaber.h" "$prefix/include/wunqaber.h"
put "$library" "$prefix/lib/libwunqaber.a"
put "$made" "$prefix/lib/pkgconfig/wunqaber.pc"
