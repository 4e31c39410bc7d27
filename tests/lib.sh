# For the scripts of tests/: they source this first, and end with `total`.
set -uo pipefail
export LC_ALL=C
cd "$(dirname "$0")/.." || exit 1
work=$(mktemp -d)
trap 'rm -rf "$work"' EXIT
passed=0
failed=0

# try NAME WANTED COMMAND ..: the command succeeds and prints the file WANTED.
try() {
    local name=$1 wanted=$2
    shift 2
    if "$@" > "$work/printed" && diff "$wanted" "$work/printed" | head -n 20; then
        passed=$((passed + 1))
    else
        echo "FAILED, $name"
        failed=$((failed + 1))
    fi
}

# says NAME STATUS WANTED COMMAND ..: the command ends with that status and prints these lines; if it does not, what it prints is shown.
says() {
    local name=$1 status=$2 wanted=$3
    shift 3
    "$@" > "$work/said" 2> "$work/errors"
    if [ $? = "$status" ] && diff <([ -z "$wanted" ] || echo "$wanted") "$work/said"; then
        passed=$((passed + 1))
    else
        echo "FAILED, $name"
        failed=$((failed + 1))
    fi
}

# copy_up_to CRATE: copies the crates up to this one into $work, without their must-fail edits, so that one more can be checked there.
# A library that is built already need not be proved again: rt takes what stands in out/rlib where it was made of the same.
copy_up_to() {
    local crate part
    mkdir -p "$work/crates"
    sed "/^$1[ :]/q" crates.txt > "$work/crates.txt"
    for crate in $(sed -n 's/^\(\w\+\)[ :].*/\1/p' "$work/crates.txt"); do
        for part in src specs proofs stdin stdout out/rlib; do
            if [ ! -e "crates/$crate/$part" ]; then continue; fi
            mkdir -p "$(dirname "$work/crates/$crate/$part")"
            cp -r "crates/$crate/$part" "$work/crates/$crate/$part"
        done
    done
}

# What tools/build proves and builds: `library`, `camrun` and `camfit`.
archive=target/staticlib/libcam_abi.a
camrun=target/bin/camrun
camfit=target/bin/camfit

total() {
    echo "$passed passed, $failed failed"
    [ "$failed" = 0 ]
}
