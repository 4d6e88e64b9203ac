# Read by netpbm.sh and files.sh: netpbm's tools, installed where they are missing, and checks that are counted. The script that reads
# it has set $script, its name, and $work, a folder for files.
if ! command -v pamfile > /dev/null || ! command -v pnmtoplainpnm > /dev/null; then
    echo "$script: installing netpbm's tools"
    { apt-get update && apt-get install -y netpbm; } > "$work/install" 2>&1 || {
        tail -n 5 "$work/install" >&2
        echo "$script: netpbm's tools are missing and could not be installed" >&2
        exit 1
    }
fi

checks=0
expect() { # what was checked, what is expected, what was found
    if [ "$2" != "$3" ]; then
        printf '%s: %s: expected\n%s\nfound\n%s\n' "$script" "$1" "$2" "$3" >&2
        exit 1
    fi
    checks=$((checks + 1))
}
# Says how many checks passed; ends the script if they are not as many as it has.
all_passed() { # how many checks the script has
    if [ "$checks" != "$1" ]; then
        echo "$script: $checks checks passed, and there are $1" >&2
        exit 1
    fi
    echo "$script: $checks checks passed"
}

# What netpbm says that a file is: its format, its sides, its maximum.
kind() { pamfile < "$1" | sed 's/^[^P]*//'; }
# Whether two files are the same.
compared() { cmp -s "$1" "$2" && echo equal || echo different; }
