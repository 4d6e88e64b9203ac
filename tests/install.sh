#!/bin/sh
# Whether what install.sh puts under a prefix is enough for a C program: hosts/tile.c is compiled by it and run. pkg-config finds
# header and library where it is installed ($PKG_CONFIG names another program); else they are found by -I and -L, and a line says so.
# Installing again must change nothing, and what cannot be installed must be refused with nothing put anywhere.
#
#   sh tests/install.sh [LIBRARY]      LIBRARY, or $WUNQABER_LIBRARY: a library built before; else install.sh builds it
set -eu
root=$(cd "$(dirname "$0")/.." && pwd)
cc=${CC:-cc}
pkg_config=${PKG_CONFIG:-pkg-config}

if [ "$(uname -m)" != x86_64 ]; then
    echo 'tests/install.sh: skipped, the library is compiled for x86-64 alone'
    exit 0
fi
if [ -n "${1:-}" ]; then
    WUNQABER_LIBRARY=$1
    export WUNQABER_LIBRARY
fi

work=$(mktemp -d)
trap 'rm -rf "$work"' EXIT
fail() {
    [ ! -f "$work/log" ] || tail -n 20 "$work/log" >&2
    echo "tests/install.sh: $1" >&2
    exit 1
}
# Every file under the prefix with its bytes' sum, its length and its mode.
listed() {
    (cd "$work/prefix" && find . -type f -exec cksum {} + && find . -type f -exec ls -l {} + | cut -c1-10) | sort
}
# Runs install.sh, which must refuse with this status and leave nothing behind.
refused() { # what is tried, the status, the arguments
    what=$1
    expected=$2
    shift 2
    status=0
    (cd "$work/empty" && sh "$root/install.sh" "$@") > "$work/log" 2>&1 || status=$?
    [ "$status" = "$expected" ] || fail "$what: expected status $expected, found $status"
    [ -z "$(ls -A "$work/empty")" ] || fail "$what: something was put in place"
    [ -s "$work/log" ] || fail "$what: nothing was said"
}

sh "$root/install.sh" "$work/prefix" > "$work/log" 2>&1 || fail 'install.sh failed'
prefix=$work/prefix
cmp "$root/include/wunqaber.h" "$prefix/include/wunqaber.h" > "$work/log" 2>&1 || fail 'the header installed is another one'
[ -s "$prefix/lib/libwunqaber.a" ] || fail 'there is no library under the prefix'
[ -s "$prefix/lib/pkgconfig/wunqaber.pc" ] || fail 'there is no file for pkg-config under the prefix'
listed > "$work/first"
sh "$root/install.sh" "$prefix" > "$work/log" 2>&1 || fail 'install.sh failed the second time'
listed > "$work/second"
cmp "$work/first" "$work/second" > "$work/log" 2>&1 || fail 'installed again, something differs'

command -v "$cc" > /dev/null || fail "there is no C compiler '$cc'"
if command -v "$pkg_config" > /dev/null; then
    how=$pkg_config
    PKG_CONFIG_PATH=$prefix/lib/pkgconfig
    export PKG_CONFIG_PATH
    found=$("$pkg_config" --variable=prefix wunqaber 2> "$work/log") || fail 'pkg-config does not find wunqaber'
    [ "$found" = "$prefix" ] || fail "pkg-config finds wunqaber under '$found'"
    flags=$("$pkg_config" --cflags --libs wunqaber 2> "$work/log") || fail 'pkg-config does not give the flags'
else
    how="-I and -L, since there is no $pkg_config"
    flags="-I$prefix/include -L$prefix/lib -lwunqaber"
fi
# The flags are words.
"$cc" -std=c99 -Wall -Wextra -Werror -pedantic -O1 -o "$work/tile" "$root/hosts/tile.c" $flags > "$work/log" 2>&1 ||
    fail "hosts/tile.c is not compiled by what is installed, found by $how"
"$work/tile" > "$work/tile.pgm" 2> "$work/log" || fail "hosts/tile.c ended with status $?"

mkdir "$work/empty"
refused 'no prefix' 2
refused 'two prefixes' 2 one two
refused 'a prefix that is a file' 1 "$root/install.sh"
refused 'a prefix with a blank' 1 'a prefix'
WUNQABER_LIBRARY=$work/missing
export WUNQABER_LIBRARY
refused 'a library that is not there' 1 prefix

echo "tests/install.sh: tile drew its tile by the header and library installed, found by $how"
