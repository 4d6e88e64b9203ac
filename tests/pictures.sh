#!/bin/sh
# Makes the pictures of README and docs/ anew from the bytes that the programs write: enlarged so that
# pixels show, and with the brightest byte made white. corners.c and leaving.c link the library that
# `sh tests/library.sh` has built of this tree.
set -eu
cd "$(dirname "$0")/.."
picture() { # the program, how much it is enlarged, the brightest byte
    pamenlarge "$2" "crates/$1/stdout" | pnmnorm -bvalue=0 -wvalue="$3" 2>/dev/null | pnmtopng >"docs/pictures/$1.png"
}
picture oval 16 9
picture clock 4 255
picture cafe 3 255
# A 1 bit is black.
pamenlarge 3 crates/panel/stdout | pnmtopng > docs/pictures/panel.png
work=$(mktemp -d)
trap 'rm -rf "$work"' EXIT
drawn() { # the program, how much its picture is enlarged
    cc -Iinclude -o "$work/$1" "hosts/$1.c" crates/wunqaber/out/libwunqaber.a
    "$work/$1" > "$work/$1.pgm"
    pamenlarge "$2" "$work/$1.pgm" | pnmtopng > "docs/pictures/$1.png"
}
drawn corners 4
drawn leaving 3
