#!/bin/sh
# Proves `wunqaber` and builds the library that hosts link, crates/wunqaber/out/libwunqaber.a.
#
#   sh tests/library.sh               by `rt lib`, over what it kept; from nothing it proves one crate after the other
#   sh tests/library.sh --after-ci    right after `rt ci`, over the libraries that this has just proved, which `rt lib` would prove again;
#                                     where these are not there, or others were put back in their place, by `rt lib`
set -eu
cd "$(dirname "$0")/../crates/wunqaber"

# All that a crate stands on, each once.
below=$(awk '
    { sub(/#.*/, "") }
    { i = index($0, ":") }
    i { split(substr($0, 1, i - 1), words, " "); stands[words[1]] = substr($0, i + 1) }
    function visit(name,    parts, k, n) {
        n = split(stands[name], parts, " ")
        for (k = 1; k <= n; k++) if (!(parts[k] in seen)) {
            seen[parts[k]] = 1
            print parts[k]
            visit(parts[k])
        }
    }
    END { visit("wunqaber") }' ../../crates.txt)
# Builds over what `rt ci` left, which has no stamp; `rt lib` builds what has.
over_ci() {
    kit=$(dirname "$(rt doc)")
    set -- --extern "std=$kit/rlibs/std.rlib" -L "dependency=$kit/rlibs"
    for name in $below; do
        library=../$name/out/rlib/$name.rlib
        [ -d "$library" ] && [ ! -e "../$name/out/rlib/stamp" ] || return 1
        set -- "$@" -L "dependency=$(dirname "$library")"
    done
    for name in $(sed -n 's/^wunqaber staticlib://p' ../../crates.txt); do
        set -- "$@" --extern "$name=../$name/out/rlib/$name.rlib"
    done
    mkdir -p out
    "$kit/bin/rattle" build --crate-name wunqaber src/lib.rt "$@" --antt-project "$kit/rattle/logic/antt-project.json" \
        --logic-built "$kit/logic_built" --crate-type staticlib --toolchain "$kit/toolchain" --backend llvm -o out/libwunqaber.a
}

rm -f out/libwunqaber.a
if [ "${1:-}" = --after-ci ] && over_ci; then
    exit 0
fi
rt lib
