#!/bin/sh
# Programs that link the library: the page of `cafe` drawn from C, from the same file as C++ and from Rust, every call of the
# header once accepted and once for each refusal, on numbers and by its typed form, the corners of tiles with borders outside, and
# tiles that leave while the page is painted.
#
#   sh tests/hosts.sh [LIBRARY]      LIBRARY, or $WUNQABER_LIBRARY: a library built before; else tests/library.sh builds it
#
# Without rustc, or without a C++ compiler, a line says what is skipped.
set -eu
cc=${CC:-cc}
cxx=${CXX:-c++}
. "$(dirname "$0")/linked.sh"

page_is_right() { # the program
    "$work/$1" > "$work/$1.pgm" || fail "$1 ended with status $?"
    cmp "$work/$1.pgm" "$root/crates/cafe/stdout" >&2 || fail "$1: its page differs from crates/cafe/stdout"
    echo "hosts.sh: $1: its page equals the one of cafe"
}

command -v "$cc" > /dev/null || fail "there is no C compiler '$cc'"
for program in page refusals corners leaving; do
    quietly "hosts/$program.c is not compiled" "$cc" -std=c99 -Wall -Wextra -Werror -pedantic -O1 -I"$root/include" \
        -o "$work/$program" "$root/hosts/$program.c" "$library"
done
page_is_right page
"$work/refusals" > "$work/log" || fail 'refusals found an answer or a buffer that is not as the header says'
echo "hosts.sh: $(cat "$work/log")"
"$work/corners" > "$work/corners.pgm" || fail "corners ended with status $?"
echo 'hosts.sh: corners: the borders of its tiles have the corners that they must have'
"$work/leaving" > "$work/leaving.pgm" || fail "leaving ended with status $?"
echo 'hosts.sh: leaving: its page equals the one without the tiles that left'
if command -v "$cxx" > /dev/null; then
    echo '#include "wunqaber.h"' > "$work/header.cc"
    quietly 'include/wunqaber.h is not compiled as C++' "$cxx" -Wall -Wextra -Werror -pedantic -fsyntax-only -I"$root/include" "$work/header.cc"
    quietly 'hosts/page.c is not compiled as C++98' "$cxx" -std=c++98 -Wall -Wextra -Werror -pedantic -O1 -I"$root/include" \
        -o "$work/page_cxx" -x c++ "$root/hosts/page.c" -x none "$library"
    page_is_right page_cxx
else
    echo "hosts.sh: skipped, there is no C++ compiler '$cxx': the header and page.c read as C++"
fi

if command -v rustc > /dev/null; then
    quietly 'hosts/page.rs is not compiled' rustc --edition 2021 -D warnings -O -C "link-arg=$library" -o "$work/page_rs" "$root/hosts/page.rs"
    page_is_right page_rs
else
    echo 'hosts.sh: skipped, there is no rustc: the page from Rust'
fi
