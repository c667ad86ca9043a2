#!/usr/bin/env bash
# Runs a listing program and the command's `list` on the plans of plans/ and on inputs at the limits, and compares what they print. The
# program must end with status 0, a refused plan included, and the command with 1 for a refused plan. Each plan of plans/ is what the command
# assembles from its text. Usage: tests/listings.sh PROGRAM COMMAND
set -u -o pipefail
program=$(realpath "$1") && command=$(realpath "$2") || exit 1
cd "$(dirname "${BASH_SOURCE[0]}")/.." || exit 1
work=$(mktemp -d) || exit 1
trap 'rm -rf "$work"' EXIT
failed=0
passed=0

assembled() {
    "$command" assemble --unchecked - -o - 2>/dev/null
}

# What the command lists and the status that it ends with, behind the program's listing.
both() {
    local status=0
    cat >"$work/plan"
    "$program" <"$work/plan" || return
    "$command" list - <"$work/plan" 2>/dev/null || status=$?
    echo "status $status"
}

# Compares the listings of standard input with a file.
listed() { # NAME EXPECTED
    cat "$2" >"$work/expected"
    if both | diff <(cat "$work/expected" "$work/expected"; grep -q '^refused' "$work/expected" && echo status 1 || echo status 0) - >&2; then
        passed=$((passed + 1))
    else
        echo "listings: $1 is not listed as expected" >&2
        failed=1
    fi
}

same() { # FILE FILE
    cmp "$1" "$2" >&2 || failed=1
}

# As many workers, with all barriers and as many steps, as a file may have, as text. The steps are all alike.
filled() { # STEP SLEEPER...
    echo workers 8
    for barrier in {0..7}; do echo "barrier $barrier size 1"; done
    for sleeper in "${@:2}"; do echo "sleeper $sleeper"; done
    for worker in {0..7}; do
        echo "worker $worker"
        for _ in {1..128}; do echo "$1"; done
    done
}

longest() { # STEP
    filled "$1" {1..7}
}

# The same, in which worker 0 starts all others before its other steps.
started() { # STEP
    longest "$1" | awk -v step="$1" '$0 == step && ++count <= 7 { print "start", count; next } 1'
}

# Every worker runs its 128 steps to the end in round 1: 128 moves, the arrival, the exit.
sets_listing() {
    for worker in {0..7}; do echo 1 "$worker" 38 0 255; done
    echo finished 1040
}

# The same of worker 0 alone, nobody else being awake.
asleep_listing() {
    echo 1 0 38 0 255
    echo finished 130
}

# Each signal gives up the token, so that there are 129 rounds of an arrival and a step. They fill the log, and use up the limit on turns that move.
signals_listing() {
    for round in {1..128}; do
        for worker in {0..7}; do echo "$round" "$worker" 35 0 255; done
    done
    for worker in {0..7}; do echo 129 "$worker" 38 0 255; done
    echo finished 2064
}

# In round 1 worker 0 starts the others and signals once. So they stand before it in round 2 and signal in rounds 2 to 129, and it has
# 120 signals left, and its exit in round 122. Moves: 1,032 steps and exits, 122 arrivals of worker 0, 129 of each other one.
started_listing() {
    for worker in {1..7}; do echo 1 0 39 "$worker" 1; done
    echo 1 0 35 0 255
    for round in {2..129}; do
        for worker in {1..7}; do echo "$round" "$worker" 35 0 255; done
        [ "$round" -gt 121 ] || echo "$round" 0 35 0 255
        [ "$round" -ne 122 ] || echo 122 0 38 0 255
    done
    for worker in {1..7}; do echo 130 "$worker" 38 0 255; done
    echo finished 2057
}

# A plan has three files: its text, its bytes and its listing. What has one of them must have all.
for name in $(printf '%s\n' plans/*.* | sed 's/\.[a-z]*$//' | sort -u); do
    same <(assembled <"$name.steps") "$name.plan"
    listed "$name.plan" "$name.listing" <"$name.plan"
done
same plans/race.plan crates/listing/stdin
same plans/race.listing crates/listing/stdout

listed "the longest file without sleepers, of sets" <(sets_listing) < <(filled "set r0 0" | assembled)
listed "the longest file without sleepers, of signals" <(signals_listing) < <(filled "signal 0" | assembled)
listed "the longest file, of sets" <(asleep_listing) < <(longest "set r0 0" | assembled)
listed "the longest file, of starts and signals" <(started_listing) < <(started "signal 0" | assembled)
listed "a record more than the longest file" <(echo refused 1 0) < <({ longest "set r0 0"; echo "set r0 0"; } | assembled)
listed "a byte more than the longest file" <(echo refused 1 0) < <(longest "set r0 0" | assembled; printf M)
listed "a byte less than a record" <(echo refused 1 0) < <(head -c 6 plans/race.plan)
listed "empty input" <(echo refused 1 0) </dev/null
for zeros in 7 7280 7287 100000; do
    refusal='2 0'
    [ "$zeros" -gt 7280 ] && refusal='1 0'
    listed "$zeros zeros" <(echo "refused $refusal") < <(head -c "$zeros" /dev/zero)
done

[ "$failed" -eq 0 ] && echo "listings: $passed as expected"
exit "$failed"
