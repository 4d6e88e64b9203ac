#!/bin/sh
# Proves crates and all that they stand on, and says how far it is:
#
#   sh prove.sh NAME...      their must-fail edits are tried too, and a program is run and held to its file `stdout`
#
# It is `rt ci NAME...` with one line for each crate. What has not changed since a run on this machine is not proved again.
set -eu
cd "$(dirname "$0")"
if [ $# = 0 ]; then
    echo 'usage: sh prove.sh NAME...      where NAME is a crate of crates.txt, as clock' >&2
    exit 2
fi

# The crates that are named, and what they stand on.
all=$(WANTED="$*" awk '
    { sub(/#.*/, "") }
    { i = index($0, ":") }
    i { split(substr($0, 1, i - 1), words, " "); stands[words[1]] = substr($0, i + 1) }
    function visit(name,    parts, k, n) {
        if (!(name in stands) || (name in seen)) return
        seen[name] = 1
        count++
        n = split(stands[name], parts, " ")
        for (k = 1; k <= n; k++) visit(parts[k])
    }
    END {
        n = split(ENVIRON["WANTED"], wanted, " ")
        for (k = 1; k <= n; k++) visit(wanted[k])
        print count + 0
    }' crates.txt)

work=$(mktemp -d)
trap 'rm -rf "$work"' EXIT
{
    status=0
    rt ci "$@" 2>&1 || status=$?
    echo "$status" > "$work/status"
} | tee "$work/log" | {
    proved=0
    while IFS= read -r line; do
        case $line in
            'rt: '*': its tests are proved') ;;
            'rt: '*' NOT PROVED'*) echo "${line#rt: }" ;;
            'rt: '*' proved' | 'rt: '*' is kept: an earlier run '*)
                proved=$((proved + 1))
                line=${line#rt: }
                how=
                case $line in *' is kept: '*) how=', by an earlier run' ;; esac
                echo "$proved of $all proved: ${line%% *}$how"
                ;;
            'rt: '*) echo "${line#rt: }" ;;
        esac
    done
}
status=$(cat "$work/status")
# What was not proved, in the prover's words.
[ "$status" = 0 ] || grep -E ': error|^error|no proof' "$work/log" | cut -c 1-400 | head -n 20 >&2
tail -n 1 "$work/log"
exit "$status"
