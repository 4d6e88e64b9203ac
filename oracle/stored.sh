#!/bin/sh
# Makes crates/replay/stdin and stdout anew and holds the program `replay` against them:
#
#   sh oracle/stored.sh [SOURCE [BUILD]]            SOURCE and BUILD as build.sh takes them
#   sh oracle/stored.sh --check [SOURCE [BUILD]]    only whether the stored files are the ones that would be made
#
#   LIBRARY=FILE   the library that hosts link; else crates/wunqaber/out/libwunqaber.a
#   STORED=FOLDER  with --check: where the stored files are; else crates/replay
#
# The answers are the ORIGINAL Rust's own where it finishes, else the reference's (written from the definitions). None comes from
# the library or from `replay`: both are held against them, and any difference ends this with 1.
set -eu
here=$(cd "$(dirname "$0")" && pwd)
root=$(cd "$here/.." && pwd)
check=
if [ "${1:-}" = --check ]; then
    check=yes
    shift
fi
source=${1:-${EG_SOURCE:-$root/../shared/docs/src}}
build=${2:-${ORACLE_BUILD:-$here/build}}
library=${LIBRARY:-$root/crates/wunqaber/out/libwunqaber.a}
stored=${STORED:-$root/crates/replay}
fail() {
    echo "stored.sh: $1" >&2
    exit 1
}

[ -f "$library" ] || fail "there is no library '$library'; \`sh tests/library.sh\` proves and builds it"
work=$(mktemp -d)
trap 'rm -rf "$work"' EXIT
LIBRARY=$library PROGRAM=oracle sh "$here/build.sh" "$source" "$build" > "$work/log" 2>&1 || {
    tail -n 20 "$work/log" >&2
    fail 'the oracle is not built'
}
"$build/oracle" stored "$work" > "$work/log" || {
    tail -n 4 "$work/log" >&2
    fail 'the library differs from what it must answer'
}
sed -n '/ stored, /p; /comparisons/p' "$work/log"

if [ -n "$check" ]; then
    for file in stdin stdout; do
        cmp "$work/$file" "$stored/$file" >&2 || fail "$stored/$file is not what would be made"
    done
    echo "stored.sh: the $(wc -l < "$work/stdin") stored lines are the ones that would be made"
    exit 0
fi
cp "$work/stdin" "$work/stdout" "$root/crates/replay/"
cd "$root"
rt ci replay > "$work/log" 2>&1 || {
    tail -n 5 "$work/log" >&2
    fail 'replay is not proved, or what it wrote differs from the stored answers'
}
echo "stored.sh: $(wc -l < "$work/stdin") lines, and what replay writes equals the stored answers"
