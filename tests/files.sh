#!/bin/sh
# Netpbm files in both directions, by hosts/convert.c. Files that netpbm's own tools wrote are read by the library; what the library
# writes is held to what netpbm writes. Headers are read in every form that they may have, and netpbm must read them alike. Files that
# are no such pictures, and files that are cut off, are refused by their number, with nothing written.
#
#   sh tests/files.sh [LIBRARY]      LIBRARY, or $WUNQABER_LIBRARY: a library built before; else tests/library.sh builds it
set -eu
cc=${CC:-cc}
. "$(dirname "$0")/linked.sh"
. "$root/tests/netpbm_tools.sh"

command -v "$cc" > /dev/null || fail "there is no C compiler '$cc'"
quietly 'hosts/convert.c is not compiled' "$cc" -std=c99 -Wall -Wextra -Werror -pedantic -O1 -I"$root/include" \
    -o "$work/convert" "$root/hosts/convert.c" "$library"
cd "$work"

# Whether the library makes of a file what it should.
made() { # p4 or p5, the file, what it should make, the sizes
    format=$1
    file=$2
    expected=$3
    shift 3
    ./convert "$format" "$@" < "$file" > made || return 0
    compared made "$expected"
}
# What netpbm makes of a picture, where the library keeps the numbers: bits become the grey values 1 and 0, and every grey value but 0
# becomes a 1 bit. To netpbm a 1 bit is black, and black is the grey value 0: so it is told to invert.
grey_of() { pnminvert "$1" | pamdepth -quiet 255 | pamfunc -divisor=255; }
bits_of() { pamthreshold -simple -threshold=0.002 "$1" | pamtopnm | pnminvert; }

# Pictures of netpbm's, as large as a picture may be: every grey value in its turn, noise, text, and noise in bits.
pgmramp -lr 256 16 | pnmtile 1024 1024 > ramp.pgm
pgmnoise -randomseed=1 1024 1024 > noise.pgm
pbmtext 'clocked in' | pnmcrop -quiet | pnmtile 1024 1024 > text.pbm
pamthreshold -simple -threshold=0.5 noise.pgm | pamtopnm > noise.pbm

# A part of each, of many widths: netpbm's file comes back as it is, becomes what netpbm makes of it in the other format, and that is read
# back as it is.
for size in '1 1' '1 1024' '7 3' '8 5' '9 2' '15 4' '16 1' '17 6' '1023 2' '1024 3' '1024 1024'; do
    width=${size% *}
    height=${size#* }
    left=250
    [ "$width" -lt 512 ] || left=0
    top=3
    [ "$height" -lt 512 ] || top=0
    for name in ramp.pgm noise.pgm text.pbm noise.pbm; do
        what="$name cut to $width by $height"
        pamcut -left "$left" -top "$top" -width "$width" -height "$height" "$name" > part
        case $name in
            *.pgm)
                same=p5 other=p4
                bits_of part > converted
                kinds="PGM raw, $width by $height  maxval 255; PBM raw, $width by $height"
                ;;
            *.pbm)
                same=p4 other=p5
                grey_of part > converted
                kinds="PBM raw, $width by $height; PGM raw, $width by $height  maxval 255"
                ;;
        esac
        expect "$what, what netpbm wrote" "$kinds" "$(kind part); $(kind converted)"
        expect "$what, as it was" equal "$(made "$same" part part "$width" "$height")"
        expect "$what, in the other format" equal "$(made "$other" part converted "$width" "$height")"
        expect "$what, what netpbm says of that" "${kinds#*; }" "$(kind made)"
        mv made back
        expect "$what, in the other format, as it was" equal "$(made "$other" back converted "$width" "$height")"
    done
done

# Decoded by netpbm, bits and the grey values made of them are the same digits.
pamcut -left 0 -top 0 -width 60 -height 16 text.pbm > part
./convert p5 60 16 < part > made
expect 'the digits of text' "$(pnmtoplainpnm part | sed 1,2d | tr -d ' \n')" "$(pnmtoplainpnm made | sed 1,3d | tr -d ' \n')"

# A header in front of a raster, read by the library and by netpbm. The rasters begin with bytes that a header may have too; the one of P4
# has filling bits that are 1.
printf '\n# 1\r\t 255#4\n5 6\n 48 ' > raster.p5
{ printf 'P5\n7 3\n255\n' && cat raster.p5; } > plain.p5
printf '\n\243#\b' > raster.p4
printf 'P4\n9 2\n\n\200#\0' > plain.p4
read_alike() { # p4 or p5, the header with \n, \r and \t in it
    { printf '%b' "$2" && cat "raster.$1"; } > headed
    case $1 in
        p4) by_us=$(made p4 headed plain.p4 9 2) ;;
        p5) by_us=$(made p5 headed plain.p5 7 3) ;;
    esac
    pamtopnm headed > decoded
    expect "the header $2" 'equal, by netpbm equal' "$by_us, by netpbm $(compared decoded "plain.$1")"
}
# What may stand before a number, before each in turn.
for gap in ' ' '\t' '\r' '\n' '\r\n' '   ' ' \t\r\n\n' '#\n' '#\r' '# 8 8\n' '#8 8\r' ' # a\n' '# a\n ' '#a\n#b\r#c\r\n' \
    '\t##a#\n \r# b\r\t'; do
    read_alike p4 "P4${gap}9 2\n"
    read_alike p4 "P4\n9${gap}2\n"
    read_alike p5 "P5${gap}7 3\n255\n"
    read_alike p5 "P5\n7${gap}3\n255\n"
    read_alike p5 "P5\n7 3${gap}255\n"
done
read_alike p5 'P5# one\n7# two\r3# three\n255\n'
read_alike p4 "P4 9#$(printf '%070000d' 4)\n2\n"
# The one byte between the last number and the raster; numbers with zeros before them.
for last in ' ' '\t' '\r' '\n'; do
    read_alike p4 "P4 9 2$last"
    read_alike p5 "P5 7 3 255$last"
done
read_alike p4 'P4 00000000000000000000000000000000000000000000009 02\n'
read_alike p5 "P5 7 $(printf '%070000d' 3) 0255\n"

# Files behind the raster are not read.
cat plain.p5 plain.p4 > two
expect 'a second file behind the first' equal "$(made p5 two plain.p5 7 3)"
{ cat plain.p4 && printf x; } > two
expect 'a byte behind the raster' equal "$(made p4 two plain.p4 9 2)"
# A host with several panels; 3 by 7 pixels are as many as 7 by 3.
expect 'the last of three panels' equal "$(made p5 plain.p5 plain.p5 9 2 3 7 7 3)"

# A file that is refused: the status is 1, the number is said, and nothing is written.
refused() { # what it is, the file, the number, the sizes
    what=$1
    file=$2
    number=$3
    shift 3
    status=0
    ./convert p4 "$@" < "$file" > made 2> said || status=$?
    expect "$what" "status 1, 0 bytes, convert: refused by $number" "status $status, $(($(wc -c < made))) bytes, $(cut -d : -f 1,2 said)"
}
pgmramp -lr 7 3 > grey
ppmmake red 7 3 > P6
pbmmake -gray 7 3 > bits
pnmtoplainpnm bits > P1
pnmtoplainpnm grey > P2
pnmtoplainpnm P6 > P3
pamtopam < grey > P7
pnmtopng -quiet grey > PNG
for other in P1 P2 P3 P6 P7 PNG; do
    refused "$other" "$other" 14 7 3
done
for maximum in 1 15 254 256 65535; do
    pamdepth -quiet "$maximum" grey > deep
    refused "the maximum $maximum" deep 14 7 3
done
# Headers that are none, of P4 or P5 as they are written here; the last two have a side that there is not, too.
for header in '' 'P' 'P5' 'P5#' 'P5 # 7 3 255 ' 'P5 7 3\n' 'P5 7 3 255' 'P5 7 3 255# a\n' 'P5 7 3 255\v' 'P5 7 3 255\f' 'P5\v7 3 255\n' \
    'P5 7\f3 255\n' 'P57 3 255\n' 'P5 7,3 255\n' 'P5 -7 3 255\n' 'P5 +7 3 255\n' 'P5 7 3 0x255\n' 'P5 7 3 2 55\n' 'P5 7 3 255.\n' \
    'p5 7 3 255\n' ' P5 7 3 255\n' 'P8 7 3 255\n' 'P4' 'P4 7 # 3 ' 'P4 7 3' 'P4 7 3# a\n' 'P47 3\n' 'P4 7\n#\n' 'P4 7 3\v' \
    'P5 0 3 254\n' 'P4 1025 3'; do
    printf '%b' "$header" > headed
    refused "the header '$header'" headed 14 7 3
done
pbmmake 1025 1 > wide
refused 'a width of 1025' wide 6 1024 1
pgmmake 0.5 1 1025 > high
refused 'a height of 1025' high 6 1 1024
for header in 'P4 0 3\n' 'P5 7 0 255\n' 'P4 9999999999999999999999999999999999999999 1\n' 'P5 1 4294967297 255\n' \
    'P4 18446744073709551617 1\n'; do
    printf '%b' "$header" > headed
    refused "the header '$header'" headed 6 1 1
done
refused 'another size' grey 8 7 4
refused 'the sides exchanged' grey 8 3 7
# Cut off after each byte: in the header, and in the raster.
cut_off() { # the file, the length of its header, the sizes
    whole=$1
    header_length=$2
    shift 2
    length=$(($(wc -c < "$whole")))
    while [ "$length" -gt 0 ]; do
        length=$((length - 1))
        number=15
        [ "$length" -ge "$header_length" ] || number=14
        head -c "$length" "$whole" > short
        refused "$whole cut off after $length bytes" short "$number" "$@"
    done
}
cut_off grey 11 7 3
cut_off bits 7 7 3
cut_off plain.p4 7 9 2
head -c 1048576 ramp.pgm > short
refused 'the largest grey picture cut off' short 15 1024 1024
refused 'the largest grey picture cut off, and another size' short 8 1024 1023
head -c 131072 text.pbm > short
refused 'the largest picture of bits cut off' short 15 1024 1024

all_passed 418
