#!/bin/sh
# Counts the instructions of both engines on each set by callgrind; unlike
# times they repeat. Behind them, for plans in one call, those of the library's
# one call beside those of its forty.
#
# bench/instructions.sh BENCH [CSV]    BENCH is the program of bench/bench.c
set -eu
bench=$1
csv=${2:-/dev/null}
work=$(mktemp -d)
trap 'rm -rf "$work"' EXIT

# count ENGINE SET: instructions of the set's calls, with the clearing of the
# memory before each.
count() {
    valgrind --tool=callgrind --callgrind-out-file="$work/out" \
        --toggle-collect=run_once "$bench" --engine "$1" --set "$2" > /dev/null 2> "$work/errors" ||
        { cat "$work/errors"; exit 1; }
    sed -n 's/^summary: //p; s/^totals: //p' "$work/out" | head -n 1
}

"$bench" --names > "$work/names"
echo "set,library_instructions,twin_instructions,ratio" > "$csv"
printf '%-34s %12s %12s %7s\n' set library twin ratio
while read -r number name; do
    library=$(count library "$number" < /dev/null)
    twin=$(count twin "$number" < /dev/null)
    ratio=$(echo "$library $twin" | awk '{ printf "%.3f", $1 / $2 }')
    printf '%-34s %12s %12s %7s\n' "$name" "$library" "$twin" "$ratio"
    echo "\"$name\",$library,$twin,$ratio" >> "$csv"
done < "$work/names"

grep ' in one call$' "$work/names" | while read -r number name; do
    one=$(count library "$number" < /dev/null)
    forty=$(count apart "$number" < /dev/null)
    ratio=$(echo "$one $forty" | awk '{ printf "%.3f", $1 / $2 }')
    printf '%-34s %12s %12s %7s  by forty calls\n' "$name" "$one" "$forty" "$ratio"
    echo "\"$name by forty calls\",$one,$forty,$ratio" >> "$csv"
done
