#!/bin/sh
# How many instructions a call of the library takes, by valgrind's callgrind (docs/SPEED.md), after those of another library if one is
# named, such as one built of the tree before a change:
#
#   sh tests/instructions.sh [OTHER]
#
# The library is $WUNQABER_LIBRARY, or built by tests/library.sh. Counted is what happens between the entry of an exported call and its
# return, memset included, and nothing of the program that makes the calls; on one machine a count is the same in every run. It is no
# test: no count is judged, and without valgrind it says so and ends with 0.
set -eu
other=${1:-}
command -v valgrind > /dev/null || {
    echo 'instructions.sh: skipped, there is no valgrind'
    exit 0
}
set --
. "$(dirname "$0")/linked.sh"

# What is counted; the rest, such as opening a sheet, is not.
calls='wunqaber_row wunqaber_offset wunqaber_styled_row wunqaber_paint_figure wunqaber_sheet_paint'
# The mean of a measure's calls, set as $mean, and its name as $name; ends with 1 where there is no such measure.
count() { # the program, the measure
    status=0
    "$1" "$2" > "$work/said" || status=$?
    case $status in
        0) ;;
        2) return 1 ;;
        *) fail "measure $2 ended with status $status" ;;
    esac
    name=$(cut -f 1 "$work/said")
    valgrind --tool=callgrind --callgrind-out-file=/dev/null --collect-atstart=no $(printf ' --toggle-collect=%s' $calls) \
        "$1" "$2" > "$work/out" 2> "$work/log" || fail "valgrind failed at measure $2: $(tail -n 1 "$work/log")"
    all=$(sed -n 's/.*Collected : *//p' "$work/log")
    [ "${all:-0}" -gt 0 ] || fail "nothing was counted at measure $2"
    mean=$(awk -v all="$all" -v calls="$(cut -f 2 "$work/said")" 'BEGIN { printf "%.1f", all / calls }')
}
# Names are bound before main, so that no count has the linker's work in it.
for which in other library; do
    eval "archive=\$$which"
    [ -z "$archive" ] ||
        quietly "instructions.c is not built with $archive" \
            gcc -O2 -Wl,-z,now -I "$root/include" -o "$work/$which" "$root/tests/instructions.c" "$archive"
done
n=1
while :; do
    before=
    if [ -n "$other" ]; then
        count "$work/other" "$n" || break
        before="$mean	"
    fi
    count "$work/library" "$n" || break
    printf '%s%s\t%s\n' "$before" "$mean" "$name"
    n=$((n + 1))
done
