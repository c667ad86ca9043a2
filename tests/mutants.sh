#!/bin/sh
# Puts each fault of tests/differential/mutants into a copy of bench/twin.c
# and runs the differential test on it. Each fault must be caught by a
# difference, and the engine without a fault must pass. A table that has lost
# a fault is refused. Prints `N of N caught`. Faults named unnamed-.. must also
# be caught with nothing held against the simulator, by pairs of calls from
# memories that differ in bytes nobody named: `N of N caught by pairs alone`.
#
# tests/mutants.sh [COUNT [NAMES]]   random calls for each fault (default 4000);
# NAMES is a regular expression for the faults that are tried (default all)
set -u
cd "$(dirname "$0")/.."
count=${1:-4000}
names=${2:-.}
test_dir=tests/differential
program=$test_dir/target/release/differential
mutate=$test_dir/target/release/mutate
cc=${CC:-cc}
work=$(mktemp -d) || exit 2
trap 'rm -rf "$work"' EXIT

(cd "$test_dir" && cargo build --release --offline --quiet) || exit 2
cp bench/twin.h "$work/" || exit 2
"$mutate" "$test_dir/mutants" bench/twin.c "$work" > "$work/all" || exit 2
grep -E -- "$names" "$work/all" > "$work/names"
grep '^unnamed-' "$work/names" > "$work/unnamed"

compile() {
    "$cc" -std=c99 -O1 -w -shared -fPIC -I "$work" "$1" -o "$2"
}

# The faultless engine passes, so that what catches a fault is the fault.
passes() { # BY
    if ! "$program" --engine "$work/none.so" --count "$count" --by "$1" > "$work/said"; then
        echo "the engine without a fault does not pass"
        cat "$work/said"
        exit 1
    fi
}

# Runs the test on each fault of a list, and counts all and those caught.
try() { # LIST BY
    caught=0
    all=0
    while read -r name; do
        all=$((all + 1))
        compile "$work/$name.c" "$work/$name.so" || exit 2
        timeout 300 "$program" --engine "$work/$name.so" --count "$count" --by "$2" \
            > "$work/said" 2>&1
        status=$?
        # A difference is status 1 and says so. Neither a time-out nor a signal is
        # one, and a row of the tally that stayed zero catches nothing.
        how=$(grep -m 1 '^difference' "$work/said" | cut -c 1-130)
        if [ "$status" -eq 1 ] && [ -n "$how" ]; then
            caught=$((caught + 1))
            echo "caught  $name: $how"
        else
            echo "MISSED  $name (status $status)"
        fi
    done < "$1"
}

compile bench/twin.c "$work/none.so" || exit 2
passes simulator
try "$work/names" simulator
echo "$caught of $all caught"
[ "$all" -gt 0 ] && [ "$caught" -eq "$all" ] || exit 1
[ -s "$work/unnamed" ] || exit 0
passes pairs
try "$work/unnamed" pairs
echo "$caught of $all caught by pairs alone"
[ "$caught" -eq "$all" ]
