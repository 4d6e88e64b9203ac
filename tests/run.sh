#!/bin/sh
# All tests. The gate, `rt ci`, comes first: it proves every crate, tries every must-fail edit and runs every program. Over what it
# proved the static library is built; hosts in C and Rust, the comparison at scale, the speed table's self-check and the installed
# library go by that.
# Each part ends the script where it fails, with the status of `rt ci` where that failed. The last line is that of `rt ci`, and is
# there only if all parts passed.
set -eu
cd "$(dirname "$0")/.."

# The library that is tested is built here, and so is what it is compared with.
unset WUNQABER_LIBRARY ORACLE_COMPILED OVERFLOW_CHECKS PROGRAM

work=$(mktemp -d)
# A test that still runs beside others ends before its files go.
trap 'wait; rm -rf "$work"' EXIT
fail() { # what failed, the status if not 1
    echo "run.sh: $1" >&2
    exit "${2:-1}"
}
began=$(date +%s)
# Says what a part took.
took() { # the part, the second in which it began
    echo "run.sh: $1: $(($(date +%s) - $2)) s"
}
# Runs a script beside others: what it says goes to a file, and its status too.
beside() { # the script, its words
    { sh "$@" > "$work/${1##*/}.out" 2>&1 && echo 0 || echo 1; } > "$work/${1##*/}.status" &
}
# What a script said that ran beside others, once it has ended; ends this one if it failed.
said() { # the script
    cat "$work/${1##*/}.out"
    [ "$(cat "$work/${1##*/}.status")" = 0 ] || fail "$1 failed"
}

# Which public functions promise less than an equation is a list, and complete; and nothing stands here that nobody uses.
python3 tests/promises.py || fail 'tests/promises.py failed'
python3 tests/unused.py || fail 'tests/unused.py failed'

# netpbm's tools, installed where they are missing, read stored files: nothing that is proved here.
beside tests/netpbm.sh

# Shows what the gate says as it comes, but for its last line, which is held back until the rest has passed.
show() {
    any=
    while IFS= read -r line; do
        [ -z "$any" ] || printf '%s\n' "$held"
        any=yes
        held=$line
    done
}
{
    status=0
    rt ci 2>&1 || status=$?
    echo "$status" > "$work/status"
} | tee "$work/log" | show
status=$(cat "$work/status")
last=$(tail -n 1 "$work/log")
[ "$status" = 0 ] || fail "rt ci ended with status $status, and with the line: $last" "$status"
case $last in
    *[0-9]' passed, 0 failed') ;;
    *) fail "rt ci ended with the line: $last" ;;
esac
# A bad edit fails nothing there. Here each edit is read, tried and refused.
edits=$(find crates -path 'crates/*/must-fail/*' -type f | wc -l)
found=$(sed -n 's/^rt: ok;.*; must-fail edits: \([^;]*\);.*/\1/p' "$work/log")
case "$found," in
    *[0-9]' bad,'*) fail "rt ci could not try each must-fail edit: $found" ;;
    *'only by a limit'*) fail "an edit is refused by a limit of the prover, and not by a fact: $found" ;;
    "$((edits)) refused,"*) ;;
    *) fail "there are $((edits)) must-fail edits, and rt ci says of them: ${found:-nothing}" ;;
esac
took 'proofs, edits and programs' "$began"
wait
said tests/netpbm.sh

# The library is compiled for x86-64 alone.
if [ "$(uname -m)" = x86_64 ]; then
    built=$(date +%s)
    # What the comparison and the self-check need of the original is compiled at the same time.
    source=${EG_SOURCE:-../shared/docs/src}
    compiled=
    if command -v rustc > /dev/null && [ -f "$source/src/primitives/mod.rs" ]; then
        compiled=$work/oracle
        beside oracle/build.sh --compile "$source" "$compiled"
    fi
    sh tests/library.sh --after-ci > "$work/library" 2>&1 || {
        tail -n 20 "$work/library" >&2
        fail 'the static library is not built'
    }
    WUNQABER_LIBRARY=$PWD/crates/wunqaber/out/libwunqaber.a
    export WUNQABER_LIBRARY
    wait
    if [ -n "$compiled" ]; then
        said oracle/build.sh
        ORACLE_COMPILED=$compiled
        export ORACLE_COMPILED
    fi
    took 'static library' "$built"

    compared=$(date +%s)
    beside tests/hosts.sh
    beside tests/files.sh
    beside tests/speed.sh --check
    beside tests/install.sh
    sh tests/compare.sh
    wait
    said tests/hosts.sh
    said tests/files.sh
    said tests/speed.sh
    said tests/install.sh
    took 'hosts, comparison, self-check and install' "$compared"
else
    echo 'run.sh: skipped, the library is compiled for x86-64 alone: hosts, comparison, self-check and install'
fi
took 'all tests' "$began"
echo "$last"
