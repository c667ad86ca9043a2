#!/bin/sh
# The stored plans of the program vectors and what it must print of them, which the simulator makes.
#
# tests/vectors.sh check           holds both files against what the simulator makes now
# tests/vectors.sh write           writes both anew
# tests/vectors.sh bites PROGRAM   the program prints the stored text from the stored plans, and another from plans with one byte changed
#
# simulator/src/bin/vectors.rs says how the files are laid out.
set -eu
cd "$(dirname "$0")/.."
plans=crates/vectors/data/plans.data
printed=crates/vectors/stdout
work=$(mktemp -d)
trap 'rm -rf "$work"' EXIT

make_files() { # PLANS PRINTED
    (cd simulator && cargo build --release --offline --quiet)
    simulator/target/release/vectors "$1" "$2"
}

fail() {
    echo "vectors: $*" >&2
    exit 1
}

# What the program prints from the plans in the work folder.
run_there() {
    (cd "$work" && "$program") > "$work/printed"
}

# One byte of the plans gets another value, at a place of their file.
change_byte() { # PLACE OCTAL WHAT
    cp "$plans" "$work/plans.data"
    # shellcheck disable=SC2059
    printf "\\$2" | dd of="$work/plans.data" bs=1 seek="$1" conv=notrunc status=none
    cmp -s "$plans" "$work/plans.data" && fail "$3: the byte at $1 has that value already"
    run_there
    cmp -s "$printed" "$work/printed" && fail "$3 changed, and nothing else is printed"
    bites=$((bites + 1))
}

# The last line printed says what is wrong with the file.
expect_last() { # LINE
    run_there
    [ "$(tail -n 1 "$work/printed")" = "$1" ] || fail "not printed: $1"
    bites=$((bites + 1))
}

bite() {
    bites=0
    cp "$plans" "$work/plans.data"
    run_there
    cmp "$printed" "$work/printed"
    # The file begins with the count of plans and the length of the first plan, case 1. That plan's records begin at 4. The third of
    # its steps sets register 1 to 1, which is stored: it begins at 25, and its number shows in the memory alone.
    change_byte 0 000 "the count of plans"
    change_byte 2 000 "a length"
    change_byte 6 003 "the count of workers"
    change_byte 25 000 "a mark"
    change_byte 27 001 "a worker"
    change_byte 28 021 "an op"
    change_byte 29 002 "a register"
    change_byte 30 002 "the low byte of a stored number"
    change_byte 31 001 "the high byte of a stored number"
    change_byte $(($(wc -c < "$plans") - 4)) 377 "the op of the last step of the last plan"
    head -c -1 "$plans" > "$work/plans.data"
    expect_last "plans.data is cut short"
    head -c 1 "$plans" > "$work/plans.data"
    expect_last "plans.data is cut short"
    { cat "$plans"; printf M; } > "$work/plans.data"
    expect_last "plans.data goes on behind its last plan"
    rm "$work/plans.data"
    expect_last "plans.data cannot be opened"
    echo "vectors: printed as stored, and $bites changes of the plans show"
}

case ${1:-check} in
write)
    make_files "$plans" "$printed"
    ;;
check)
    make_files "$work/plans.data" "$work/printed"
    cmp "$plans" "$work/plans.data"
    cmp "$printed" "$work/printed"
    echo "vectors: as stored"
    ;;
bites)
    program=$(realpath "${2:?names no program}")
    bite
    ;;
*)
    echo "tests/vectors.sh check|write|bites PROGRAM" >&2
    exit 2
    ;;
esac
