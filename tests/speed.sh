#!/bin/sh
# The library's painting timed beside the original Rust's, on five scenes, the removal of two tiles beside their painting, and
# its reading beside a copy and beside a plain unpacking in C, on three files (docs/SPEED.md):
#
#   sh tests/speed.sh [SOURCE]            the tables: microseconds a call, and the ratios
#   sh tests/speed.sh --check [SOURCE]    only that all ways of painting, removing and reading leave the same bytes; no times
#
# It proves and builds `wunqaber` (or takes $WUNQABER_LIBRARY, a library built before), builds the original without
# overflow checks and oracle/unpack.c into a folder of its own, and links all into one program. With --check it takes the
# original from $ORACLE_COMPILED, a folder that oracle/build.sh --compile filled before, where that is set; overflow checks
# are then as they were there. Times are printed and not judged; it fails where bytes differ. Without rustc or the source
# folder (oracle/build.sh says where it is looked for) it says so and ends with 0.
set -eu
root=$(cd "$(dirname "$0")/.." && pwd)
mode=
if [ "${1:-}" = --check ]; then
    mode=check
    shift
fi
source=${1:-${EG_SOURCE:-$root/../shared/docs/src}}
if ! command -v rustc > /dev/null || [ ! -f "$source/src/primitives/mod.rs" ]; then
    echo "speed.sh: skipped, there is no rustc or no source of the original"
    exit 0
fi

work=$(mktemp -d)
trap 'rm -rf "$work"' EXIT
library=${WUNQABER_LIBRARY:-}
if [ -z "$library" ]; then
    sh "$root/tests/library.sh" > "$work/log" 2>&1 || { tail -5 "$work/log" >&2; exit 1; }
    library=$root/crates/wunqaber/out/libwunqaber.a
fi
if [ "$mode" = check ] && [ -n "${ORACLE_COMPILED:-}" ]; then
    build=$ORACLE_COMPILED
    LIBRARY=$library PROGRAM=bench sh "$root/oracle/build.sh" --link "$source" "$build" > "$work/log"
else
    build=$work/build
    LIBRARY=$library PROGRAM=bench OVERFLOW_CHECKS=off sh "$root/oracle/build.sh" "$source" "$build" > "$work/log"
fi
"$build/bench" $mode
