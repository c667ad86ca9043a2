#!/bin/sh
# Times hang on where the linker puts the code. Links the measuring program four
# times, both engines' code 16 bytes further each time, measures each of them,
# and prints the least, the middle and the greatest ratio of every set; behind
# them those of one call by forty calls, of the library alone.
#
# bench/placed.sh LIBRARY [PASSES [CSV [SVG]]]    the picture is of the second placement
set -eu
cd "$(dirname "$0")/.."
library=$1 passes=${2:-25} csv=${3:-/dev/null} svg=${4:-/dev/null}
work=$(mktemp -d)
trap 'rm -rf "$work"' EXIT
cc="${CC:-gcc} -std=c99 -O3 -Wall -Wextra -Werror -pedantic -Iinclude"

$cc -c bench/bench.c -o "$work/bench.o"
$cc -c bench/sets.c -o "$work/sets.o"
$cc -c bench/twin.c -o "$work/twin.o"
for shift in 16 32 48 64; do
    printf '.text\n.skip %d\n.section .note.GNU-stack,"",@progbits\n' "$shift" > "$work/shift.s"
    ${CC:-gcc} -c "$work/shift.s" -o "$work/shift.o"
    $cc "$work/bench.o" "$work/sets.o" "$work/shift.o" "$work/twin.o" "$library" -lm -o "$work/bench"
    "$work/bench" --passes "$passes" --csv "$work/$shift.csv" --svg "$work/$shift.svg" > "$work/said"
    tail -n 1 "$work/said" | sed "s/^/shifted by $shift: /"
done

cat "$work/32.svg" > "$svg"

# a line for each set and shift: the ratio, then the name; and the same of one call by forty
tail -q -n +2 "$work"/*.csv | sed 's/^"\(.*\)",[^,]*,[^,]*,[^,]*,\([^,]*\),.*/\2 \1/' > "$work/ratios"
tail -q -n +2 "$work"/*.csv | sed -n 's/^"\(.*\)",.*,\([0-9.][0-9.]*\)$/\2 \1/p' > "$work/forty"
echo "set,least,middle,greatest" > "$csv"
printf '%-34s %7s %7s %9s\n' set least middle greatest
tail -n +2 "$work/16.csv" | sed 's/^"\(.*\)",.*/\1/' > "$work/names"

# A row for each name of standard input.
table() { # RATIOS REMARK
    while read -r name; do
        awk -v name="$name" 'substr($0, index($0, " ") + 1) == name { print $1 }' "$1" |
            sort -n | tr '\n' ' ' | awk -v name="$name" -v csv="$csv" -v remark="$2" '
                { middle = ($2 + $3) / 2
                  printf "%-34s %7.2f %7.2f %9.2f%s\n", name, $1, middle, $4, remark
                  printf "\"%s%s\",%.3f,%.3f,%.3f\n", name, remark, $1, middle, $4 >> csv }'
    done
}

table "$work/ratios" "" < "$work/names" | tee "$work/table"
awk '{ sum += log($(NF - 1)) } END { printf "geometric mean of the middle ones: %.2f\n", exp(sum / NR) }' "$work/table"
grep ' in one call$' "$work/names" | table "$work/forty" " by forty calls"
