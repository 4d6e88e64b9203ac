#!/bin/sh
# The files that the programs write, read by netpbm's own tools. The bytes are the stored runs: `rt ci`
# holds what each program writes to its file `stdout`, byte for byte.
set -eu
cd "$(dirname "$0")/.."

script=netpbm
work=$(mktemp -d)
trap 'rm -rf "$work"' EXIT
. tests/netpbm_tools.sh

# One pixel of a file, as netpbm reads it.
pixel() { pamcut -left "$2" -top "$3" -width 1 -height 1 "$1" | pnmtoplainpnm | tail -n 1 | tr -d ' '; }

oval=crates/oval/stdout
expect 'header of oval' 'PGM raw, 4 by 4  maxval 255' "$(kind "$oval")"
expect 'pixels of oval' '0 9 9 0 9 9 9 9 9 9 9 9 0 9 9 0 ' "$(pnmtoplainpnm "$oval" | tail -n 4 | tr '\n' ' ' | tr -s ' ')"

# Two tiles: the oval on the left is filled, the one on the right hollow.
clock=crates/clock/stdout
expect 'header of clock' 'PGM raw, 144 by 64  maxval 255' "$(kind "$clock")"
expect 'filled oval' 40 "$(pixel "$clock" 38 32)"
expect 'hollow oval' 220 "$(pixel "$clock" 106 32)"
expect 'its border' 40 "$(pixel "$clock" 95 32)"
expect 'outside a corner' 255 "$(pixel "$clock" 6 8)"
# Each tile is its own mirror image.
mirrored() { # the file, left, top
    pamcut -left "$2" -top "$3" -width 64 -height 48 "$1" >"$work/tile"
    pamflip -leftright "$work/tile" | cmp -s - "$work/tile" && echo equal || echo different
}
expect 'left tile and its mirror image' equal "$(mirrored "$clock" 6 8)"
expect 'right tile and its mirror image' equal "$(mirrored "$clock" 74 8)"

# The page of six tiles: filled, hollow, filled above hollow, hollow, filled.
cafe=crates/cafe/stdout
expect 'header of cafe' 'PGM raw, 232 by 120  maxval 255' "$(kind "$cafe")"
# The middle of each oval of the page.
ovals() { # the file
    for y in 32 88; do
        for x in 40 116 192; do
            printf '%s ' "$(pixel "$1" $x $y)"
        done
    done
}
expect 'the six ovals' '40 220 40 220 220 40 ' "$(ovals "$cafe")"
for y in 8 64; do
    for x in 8 84 160; do
        expect "tile at $x, $y and its mirror image" equal "$(mirrored "$cafe" $x $y)"
    done
done

# The same page for the one-colour panel: dark pixels are 1 bits, as netpbm makes them of the grey page.
panel=crates/panel/stdout
expect 'what panel reads, and the page of cafe' equal "$(compared crates/panel/stdin "$cafe")"
expect 'header of panel' 'PBM raw, 232 by 120' "$(kind "$panel")"
expect 'the six ovals of panel' '1 0 1 0 0 1 ' "$(ovals "$panel")"
pamthreshold -simple -threshold=0.5 "$cafe" | pamtopnm | pnmtoplainpnm > "$work/dark"
pnmtoplainpnm "$panel" > "$work/plain"
expect 'the pixels of panel, and the dark ones of cafe' equal "$(compared "$work/plain" "$work/dark")"

all_passed 21
