# Read by hosts.sh, files.sh, compare.sh and instructions.sh: a folder for their files, and the library that hosts link, which is the
# word given, or $WUNQABER_LIBRARY, or built by tests/library.sh.
script=$(basename "$0")
root=$(cd "$(dirname "$0")/.." && pwd)
library=${1:-${WUNQABER_LIBRARY:-}}

work=$(mktemp -d)
trap 'rm -rf "$work"' EXIT
fail() {
    echo "$script: $1" >&2
    exit 1
}
# Runs a command, and shows the end of what it says only if it fails.
quietly() { # what fails, the command
    what=$1
    shift
    "$@" > "$work/log" 2>&1 || {
        tail -n 20 "$work/log" >&2
        fail "$what"
    }
}

if [ "$(uname -m)" != x86_64 ]; then
    echo "$script: skipped, the library is compiled for x86-64 alone"
    exit 0
fi
if [ -z "$library" ]; then
    quietly 'wunqaber is not proved, or its library is not built' sh "$root/tests/library.sh"
    library=$root/crates/wunqaber/out/libwunqaber.a
fi
[ -f "$library" ] || fail "there is no library '$library'"
