#!/bin/sh
# The library that hosts link, compared at scale with the original Rust and the reference, and whether the stored calls of `replay` are
# the ones that the comparison makes.
#
#   sh tests/compare.sh [LIBRARY]    LIBRARY, or $WUNQABER_LIBRARY: a library built before; else tests/library.sh builds it
#
# $ORACLE_COMPILED is a folder that oracle/build.sh --compile filled before. Without rustc, or without the original's source
# (oracle/build.sh says where it is looked for), a line says that this is skipped.
set -eu
# What the random rounds of the comparison may take, and when it is taken to hang.
seconds=60
limit=900
source=${EG_SOURCE:-$(dirname "$0")/../../shared/docs/src}
if ! command -v rustc > /dev/null || [ ! -f "$source/src/primitives/mod.rs" ]; then
    echo 'compare.sh: skipped, there is no rustc or no source of the original'
    exit 0
fi
. "$(dirname "$0")/linked.sh"

build=${ORACLE_COMPILED:-$work/build}
LIBRARY=$library PROGRAM=oracle quietly 'the oracle is not built' sh "$root/oracle/build.sh" ${ORACLE_COMPILED:+--link} "$source" "$build"
status=0
timeout "$limit" "$build/oracle" scale 1 400 "$seconds" > "$work/scale" || status=$?
if [ "$status" = 124 ]; then
    fail "the comparison at scale did not end within $limit seconds"
elif [ "$status" != 0 ]; then
    tail -n 4 "$work/scale" >&2
    fail 'the comparison at scale found a difference'
fi
sed -n '/^seed/p; /^equal/,/^refused/p' "$work/scale"
echo "compare.sh: $(tail -n 1 "$work/scale")"

mkdir "$work/stored"
timeout "$limit" "$build/oracle" stored "$work/stored" > "$work/log" || {
    tail -n 4 "$work/log" >&2
    fail 'the stored calls could not be made'
}
for file in stdin stdout; do
    cmp "$work/stored/$file" "$root/crates/replay/$file" >&2 || fail "crates/replay/$file is not what \`sh oracle/stored.sh\` makes"
done
echo "compare.sh: the $(wc -l < "$work/stored/stdin") stored lines are the ones that the comparison makes"
