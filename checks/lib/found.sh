# For the checks that are shell scripts: what they need, and how they end. Read by `. lib/found.sh` in the folder checks/.
# shellcheck shell=sh
top=$(cd .. && pwd)

# skipped TEXT: ends the check with 77, since something is missing
skipped() {
    echo "$1"
    echo "result: skipped"
    exit 77
}

# need TOOL PACKAGE: ends the check where a tool is missing, which a package of Debian has
need() {
    command -v "$1" >/dev/null 2>&1 || skipped "$1 is not there (Debian: $2)"
}

# need_program CRATE: the file of a built program as $program
need_program() {
    program=${DOM0LESS:-$top/crates/$1/out/$1}
    [ -x "$program" ] || skipped "$1 is not built (cd crates/$1 && rt run </dev/null)"
}

# not_so TEXT: ends the check, since something is not as it has to be
not_so() {
    echo "not so: $1"
    echo "result: not so"
    exit 1
}
