#!/usr/bin/env bash
# Runs the command on good plans, refused ones, texts with errors, wrong words and files that give trouble, and compares its status, what it
# prints and what it leaves in the folder. What is expected is worked out by hand from the papers and docs/TEXT.md. The whole list is run with
# the command as it is and with the one that has the sanitizers; what reads, writes and runs plans under valgrind as well.
#
#     tests/command.sh COMMAND [SANITIZED]
#
# It needs target/bin/listing. A case that is not as expected is told, and the rest is run all the same.
# shellcheck disable=SC2015 # between && and || stand tests alone
set -u -o pipefail
[ $# -ge 1 ] || { echo "command: tests/command.sh COMMAND [SANITIZED]" >&2; exit 2; }
command=$(realpath -e "$1") && sanitized=${2:+$(realpath -e "$2")} || exit 2
cd "$(dirname "${BASH_SOURCE[0]}")/.." || exit 2
export LC_ALL=C # the words of the system about a file
plans=$PWD/plans
listing=$PWD/target/bin/listing
a_text=$PWD/README.md
[ -x "$listing" ] || { echo "command: target/bin/listing is not there" >&2; exit 2; }
work=$(mktemp -d) || exit 2
trap 'rm -rf "$work"' EXIT
exec </dev/null
shopt -s nullglob
failures=0

fail() { # WORDS
    echo "command: $name: $*" >&2
    failures=$((failures + 1))
}

# ---- what a command does

# The command ends and prints so, and leaves no part of a file behind. Where it ends with 0 it says nothing on standard error, else something.
expect() { # STATUS TEXT WORD...
    local got=0 said parts
    runs=$((runs + 1))
    printf -v last '%q ' "${@:3}"
    last=${last:0:200}
    "${way[@]}" "${@:3}" >"$scratch.said" 2>"$scratch.errors" || got=$?
    IFS= read -r -d '' said <"$scratch.said"
    IFS= read -r -d '' errors <"$scratch.errors"
    [ "$got" -eq "$1" ] || fail "$last ended with $got and not $1: $errors"
    [ "$2" = any ] || [ "$said" = "${2:+$2$'\n'}" ] || fail "$last printed: $said"
    [ -n "$errors" ] || [ "$1" -eq 0 ] || fail "$last said nothing"
    [ -z "$errors" ] || [ "$1" -ne 0 ] || fail "$last said: $errors"
    parts=(*.part* */*.part*)
    [ ${#parts[@]} -eq 0 ] || { fail "$last left ${parts[*]}"; rm -f "${parts[@]}"; }
}

# The last command said this on standard error, and nothing else.
complained() { # TEXT
    [ "$errors" = "$1"$'\n' ] || fail "$last said, in place of what is expected: $(diff <(echo "$1") "$scratch.errors")"
}

# The same of one line, by its beginning and its end.
complained_so() { # BEGINNING END
    [[ $errors == "$1"*"$2"$'\n' && ${errors%$'\n'} != *$'\n'* ]] || fail "$last said: $errors"
}

# The file has these bytes.
same() { # FILE FILE
    cmp "$1" "$2" >"$scratch.cmp" 2>&1 || fail "after $last: $(<"$scratch.cmp")"
}

bytes() { # FILE TEXT
    [ "$(od -An -v -tx1 "$1" | tr -d '\n')" = " $2" ] || fail "after $last $1 has other bytes"
}

absent() { # FILE...
    local file
    for file; do [ ! -e "$file" ] || { fail "$last left $file"; rm -rf "$file"; }; done
}

# ---- plan files, made without the command

# A record to an argument: worker, op, register and number in decimal; or `bytes` and seven of them in hexadecimal.
records() { # RECORD...
    local worker op register number bytes record
    for record; do
        # shellcheck disable=SC2086
        if [ "${record%% *}" = bytes ]; then
            bytes=${record#bytes}
        else
            read -r worker op register number <<<"$record"
            printf -v bytes ' 4D 50 %02X %02X %02X %02X %02X' "$worker" "$op" "$register" $((number % 256)) $((number / 256))
        fi
        # shellcheck disable=SC2059
        printf "${bytes// /\\x}"
    done
}

# As many records as a file may have. Of its workers only the first is awake.
longest() {
    local list=('8 0 0 0') number
    for number in {0..7}; do list+=("0 1 $number 8"); done
    for number in {1..7}; do list+=("$number 2 0 0"); done
    for number in {0..1023}; do list+=("$((number / 128)) 16 0 $number"); done
    records "${list[@]}"
}

# Two workers wait and then add 1 at a page border; the third wakes both.
adders() {
    local list=('3 0 0 0') worker
    for worker in 0 1; do
        list+=("$worker 32 0 0" "$worker 34 0 2" "$worker 17 0 255" "$worker 16 1 1" "$worker 19 0 1" "$worker 18 0 255" "$worker 33 0 0")
    done
    records "${list[@]}" '2 35 0 2' '2 36 0 2'
}

# The text of plans/race.plan, as docs/TEXT.md has it.
race='# Two workers race: each stores only if it does not see the other'\''s store.
workers 2

address left = 0
address right = 2

worker 0
    load r0 from right
    skip to done if r0 is not zero
    set r1 1
    store r1 at left
done:

worker 1
    load r0 from left
    skip to done if r0 is not zero
    set r1 1
    store r1 at right
done:'

# The same back from the file.
race_back='workers 2

worker 0
    load r0 from 2
    skip to L1 if r0 is not zero
    set r1 1
    store r1 at 0
L1:

worker 1
    load r0 from 0
    skip to L1 if r0 is not zero
    set r1 1
    store r1 at 2
L1:'

# Every statement and every step.
all='workers 8
barrier 0 size 2
barrier 7 size 8
sleeper 3
sleeper 7

worker 0
    set r0 65535
    load r1 from 2046
    store r2 at 0
    add r2 to r1
    subtract r3 from r0
    skip to L1 if r0 is zero
    skip to L2 if r0 is not zero
L1:
    start 3
    lock 15
L2:
    broadcast 7

worker 7
    wait 7
    signal 0
    skip to L1 if r3 is zero
    barrier 7
    exit
L1:
    unlock 15'
all_records=('8 0 0 0' '0 1 0 2' '0 1 7 8' '3 2 0 0' '7 2 0 0' '0 16 0 65535' '0 17 1 2046' '0 18 2 0' '0 19 1 2' '0 20 0 3' '0 21 0 1' '0 22 0 2'
    '0 39 0 3' '0 32 0 15' '0 36 0 7' '7 34 0 7' '7 35 0 0' '7 21 3 2' '7 37 0 7' '7 38 0 0' '7 33 0 15')

# Two thirds of a file are names here; its records are those of the plan on the right.
names='workers 0x2   # two
address here = 0xC
address there = here
lock door = 3
condition door = 7
barrier door = 5 size 2
worker 0
    lock door
door: wait door
    barrier door
    load r0 from there
    skip 1 if r0 is zero
    unlock door
worker 1'
names_records=('2 0 0 0' '0 1 5 2' '0 32 0 3' '0 34 0 7' '0 37 0 5' '0 17 0 12' '0 21 0 1' '0 33 0 3')

make_files() {
    adders >adders.plan
    longest >longest.plan
    records '1 0 0 0' '0 32 0 0' '0 34 0 0' >stuck.plan
    records '1 0 0 0' '0 1 3 2' '0 37 0 3' >alone.plan
    records '1 0 0 0' '0 17 0 2047' >refused.plan
    # Worker 0 starts worker 2, and nobody worker 1.
    records '3 0 0 0' '1 2 0 0' '2 2 0 0' '0 39 0 2' >sleeper.plan
    records "${all_records[@]}" >all.plan
    records "${names_records[@]}" >names.plan
    cp "$plans/race.plan" race.plan
    printf '%s\n' "$race" >race.steps
    printf '%s\n' "$all" >all.steps
    printf '%s\n' "$names" >names.steps
    printf 'workers 1\nworker 0\nload r0 from 2047\n' >refused.steps
    printf 'workers two\n' >wrong.steps
    head -c 2048 /dev/zero >zeros
    tr '\000' '\377' <zeros >ones
}

# ---- what a run prints

# The word at 255 ends as 2: its low byte counts 256 times.
adders='finished, moving turns: 26, rounds completed: 3, log records: 11
worker 0: exited
worker 1: exited
worker 2: exited'
from_zeros="$adders
word at 254: 512, before 0
sum of the words at even addresses: 512"

# From a memory of 255 everywhere it goes from 65535 to 1: the byte at 255 falls by 254 and the one at 256 by 255. 67107840 - 256 x 254 - 255.
from_ones="$adders
word at 254: 511, before 65535
word at 256: 65280, before 65535
sum of the words at even addresses: 67042561"

# Arrival, start and end of worker 0, arrival and end of worker 2.
slept='finished, moving turns: 5, rounds completed: 2, log records: 3
worker 0: exited
worker 1: asleep
worker 2: exited
sum of the words at even addresses: 0'

# Arrival, lock and wait.
waits='stuck, moving turns: 3, rounds completed: 1, log records: 2
worker 0: waiting on a condition
sum of the words at even addresses: 0'

# Arrival and barrier.
alone='stuck, moving turns: 2, rounds completed: 1, log records: 1
worker 0: queued at a barrier
sum of the words at even addresses: 0'

raced='finished, moving turns: 12, rounds completed: 1, log records: 2
worker 0: exited
worker 1: exited
word at 0: 1, before 0
word at 2: 1, before 0
sum of the words at even addresses: 2'

# Each commit moves the sum by what it changes in shared memory.
merged='finished, moving turns: 12, rounds completed: 1, log records: 3
worker 0: exited
worker 1: exited
worker 2: exited
word at 0: 257, before 0
sum of the words at even addresses: 257'

# 1 at 255 counts 256 times; what was stored at 2046 is lost.
fallen='finished, moving turns: 11, rounds completed: 2, log records: 3
worker 0: failed
word at 254: 256, before 0
sum of the words at even addresses: 256'

# 128 steps, the arrival and the end of worker 0.
long='finished, moving turns: 130, rounds completed: 1, log records: 1
worker 0: exited
worker 1: asleep
worker 2: asleep
worker 3: asleep
worker 4: asleep
worker 5: asleep
worker 6: asleep
worker 7: asleep
sum of the words at even addresses: 0'

going() { # MOVES
    echo "going, moving turns: $1, rounds completed: 0, log records: 0
worker 0: going
worker 1: going
sum of the words at even addresses: 0"
}

# Both have arrived, and worker 0 has exited.
half='going, moving turns: 11, rounds completed: 0, log records: 1
worker 0: exited
worker 1: going
word at 0: 1, before 0
sum of the words at even addresses: 1'

# ---- good plans

good() {
    expect 0 'tampermauve 2.2.0' --version
    expect 0 'race.plan: accepted, workers: 2, steps: 8' check race.plan
    expect 0 'race.plan: accepted, workers: 2, steps: 8
race.steps: accepted, workers: 2, steps: 8
longest.plan: accepted, workers: 8, steps: 1024' check race.plan race.steps longest.plan
    expect 0 'standard input: accepted, workers: 2, steps: 8' check - <race.plan
    expect 0 'standard input: accepted, workers: 2, steps: 8
all.steps: accepted, workers: 8, steps: 16' check - all.steps < <(cat race.plan)
    expect 0 "$raced" run race.steps
    expect 0 "$raced" run - < <(cat race.plan)
    expect 0 "$(<"$plans/race.listing")" list race.plan
    expect 0 "$(<"$plans/race.listing")" list race.steps
    expect 0 "$(<"$plans/race.listing")" list - < <(cat race.plan)
    expect 0 '' assemble race.steps -o made.plan
    same made.plan race.plan
    expect 0 '' assemble - -o made.plan < <(cat all.steps)
    same made.plan all.plan
    expect 0 '' assemble --unchecked -o made.plan names.steps
    same made.plan names.plan
    "${way[@]}" assemble race.steps -o - | cmp - race.plan || fail "assemble to standard output writes other bytes"
    expect 0 "$race_back" disassemble race.plan
    expect 0 "$race_back" disassemble race.steps
    expect 0 "$all" disassemble - < <(cat all.plan)
    expect 0 '' disassemble all.plan -o made.steps
    same made.steps all.steps
    expect 0 any show race.plan -o -
    cp "$scratch.said" page
    [ -s page ] || fail "$last wrote an empty page"
    expect 0 '' show race.steps -o page.html --seed 3
    [ -s page.html ] || fail "$last wrote an empty page"
    expect 0 '' show race.plan -o page.html --cycles
    same page.html page
    expect 0 '' show - --memory ones --turns zeros -o page.html < <(cat race.plan)
    rm made.plan made.steps page page.html
}

# A page's tables have the log and the words that changed, and its picture has a mark for each record. The log is the listing program's.
pages() {
    local plan text rows words
    for plan in "$plans"/*.plan adders.plan longest.plan; do
        text=$("$listing" <"$plan")
        [[ $text != refused* ]] || continue
        expect 0 '' show "$plan" -o page.html
        rows=$(sed -nE "/^<tr id='record-/ { s/<[^>]*>/ /g; p }" page.html | awk '{ print $2, $3, $4, $6, $7 }')
        [ "$rows" = "$(sed '$d' <<<"$text")" ] || fail "the page of ${plan##*/} has another log: $rows"
        [ "$(grep -c "<g id='mark-" page.html)" -eq "$(wc -l <<<"$rows")" ] || fail "the picture of ${plan##*/} has not a mark for each record"
        words=$(sed -n "/<h2 id='memory'/,/<h2 id='log'/ { /^<tr>/ { s/<[^>]*>/ /g; p } }" page.html | awk '{ print "word at " $1 ": " $3 ", before " $2 }')
        expect 0 any run "$plan"
        [ "$words" = "$(grep '^word at' "$scratch.said")" ] || fail "the page of ${plan##*/} has other words: $words"
    done
    rm page.html
}

# A step more in the file is a step more in the text: every record of a plan goes there and back.
there_and_back() {
    local plan
    for plan in "$plans"/*.plan adders.plan longest.plan names.plan; do
        "${way[@]}" disassemble "$plan" 2>/dev/null >back.steps
        "${way[@]}" assemble back.steps --unchecked -o back.plan 2>/dev/null
        last="disassemble and assemble of ${plan##*/}"
        same back.plan "$plan"
        runs=$((runs + 2))
    done
    rm back.steps back.plan
}

listings() {
    local plan status
    for plan in "$plans"/*.plan; do
        status=0
        [ "$(head -c 7 "${plan%.plan}.listing")" != refused ] || status=1
        expect $status "$(<"${plan%.plan}.listing")" list "$plan"
    done
    : >odd0
    printf '%s' MP0000 >odd1
    printf '\0\0\0\0\0\0\0' >odd2
    head -c 7280 /dev/zero >odd3
    head -c 7287 /dev/zero >odd4
    head -c 100000 /dev/zero >odd5
    awk 'BEGIN { srand(7); for (i = 0; i < 700; i++) printf "%c", int(256 * rand()) }' >odd6
    { records '2 0 0 0' '0 16 0 1'; head -c 700 odd6; } >odd7
    cp "$a_text" odd8
    { cat longest.plan; printf M; } >odd9
    for plan in odd?; do
        expect 1 "$("$listing" <"$plan")" list "$plan"
        expect 1 "$("$listing" <"$plan")" list - < <(cat "$plan")
    done
    expect 0 "$("$listing" <longest.plan)" list longest.plan
    rm odd?
}

# ---- runs

keeps() {
    local seed part
    expect 0 "$from_zeros" run adders.plan --keep kept
    bytes kept.report '01 03 1a 00 03 00 0b 00 01 01 01 ff ff ff ff ff 00 02 00 00'
    same kept.start zeros
    expect 0 "$from_ones" run --keep more --memory ones adders.plan
    bytes more.report '01 03 1a 00 03 00 0b 00 01 01 01 ff ff ff ff ff 01 fd fe 03'
    same more.start ones
    expect 0 "$from_ones" run adders.plan --memory - < <(cat ones)
    expect 0 "$raced" run race.plan --keep race
    { printf 'ML\1\0\0\46\0\377ML\1\0\1\46\0\377'; head -c 8240 /dev/zero; } >log
    same race.log log
    { printf '\1\0\1'; head -c 2045 /dev/zero; } >memory
    same race.memory memory
    for seed in --cycles '--seed 1' '--seed 2' '--seed 3' '--seed 4' '--seed 5'; do
        # shellcheck disable=SC2086
        expect 0 "$from_zeros" run adders.plan $seed --keep again
        for part in start memory log report; do same again.$part kept.$part; done
        # shellcheck disable=SC2086
        expect 0 "$from_ones" run adders.plan $seed --keep again --memory ones
        for part in start memory log report; do same again.$part more.$part; done
    done
    rm -f kept.* more.* race.start race.memory race.log race.report again.* log memory
}

plays() {
    expect 0 "$waits" run stuck.plan
    expect 0 "$alone" run alone.plan
    expect 0 "$slept" run sleeper.plan
    expect 0 "$slept" run sleeper.plan --seed 3
    expect 0 "$merged" run "$plans/merged-word.plan"
    expect 0 "$merged" run "$plans/merged-word.plan" --seed 11
    expect 0 "$fallen" run "$plans/falling-sum.plan"
    expect 0 "$long" run longest.plan
    expect 0 "$raced" run race.plan --seed 18446744073709551615
    # Worker 0 stores 7 where 5 stood, worker 1 stores 5, which its twin has.
    { printf '\5'; head -c 2047 /dev/zero; } >five
    expect 0 'finished, moving turns: 8, rounds completed: 1, log records: 2
worker 0: exited
worker 1: exited
word at 0: 7, before 5
sum of the words at even addresses: 7' run "$plans/twin.plan" --memory five
    rm five
}

# A turn is a byte. Worker 0 makes five moves up to the fence, and then lets its turns pass.
turns() {
    expect 0 "$(going 0)" run race.plan --turns /dev/null
    printf '\1\1\0' >turns
    expect 0 "$(going 3)" run race.plan --turns turns
    expect 0 "$(going 3)" run race.plan --turns - < <(cat turns)
    printf '\0\0\0\0\0\0\0\1\1\1\1\1\0\0' >turns
    expect 0 "$half" run race.plan --turns turns --keep half
    bytes half.report '00 02 0b 00 00 00 01 00 01 00 ff ff ff ff ff ff 01 00 00 00'
    head -c 65535 /dev/zero >turns
    expect 0 "$(going 5)" run race.plan --turns turns
    head -c 65536 /dev/zero >turns
    expect 1 '' run race.plan --turns turns --keep none
    complained 'turns: refused 12: a list of turns has at most 65535'
    # A run tests 12, then the file, then 13.
    expect 1 '' run refused.plan --turns turns
    complained 'turns: refused 12: a list of turns has at most 65535'
    expect 1 '' run /dev/null --turns turns
    complained 'turns: refused 12: a list of turns has at most 65535'
    printf '\0\1\2' >turns
    expect 1 '' run race.plan --turns turns --keep none
    complained 'turns: refused 13: the plan has the workers 0 to 1, and turn 3 names worker 2'
    expect 1 '' run refused.plan --turns turns
    complained "refused.plan: refused 7 at record 1, 'load r0 from 2047': $loads"
    expect 1 '' run /dev/null --turns turns --keep none
    complained '/dev/null: refused 1: there is no record; a plan has 1 to 1040, and the first is its plan record'
    absent none.*
    rm turns half.*
}

memories() {
    head -c 2047 ones >short
    cat ones zeros >double
    expect 2 '' run race.plan --memory short --keep none
    complained 'tampermauve: short: has 2047 bytes, and a memory has 2048'
    expect 2 '' run race.plan --memory double --keep none
    complained 'tampermauve: double: has more than 2048 bytes, and a memory has 2048'
    expect 2 '' show race.plan --memory /dev/null -o none.html
    complained 'tampermauve: /dev/null: has 0 bytes, and a memory has 2048'
    absent none.*
    rm short double
}

# ---- refusals

first="the first record is the plan record, 'workers N', where N is 1 to 8"
second="there is one plan record, 'workers N', and it is the first record"
sizes="'barrier B size S' has B from 0 to 7 and S from 1 to 8; barriers ascend and stand before sleepers and steps"
sleeps() { echo "'sleeper W' has W from 1 to $1; sleepers ascend and stand before the steps"; }
zeros='; its other bytes are 0'
loads="'load' takes a register, r0 to r3, and an address, 0 to 2046"
adds="takes two registers, r0 to r3"
skips="'skip' takes a number of steps, 1 to 127, and a register, r0 to r3"
lands="a skip lands just behind its worker's last step at the furthest; behind this one that worker has"

# The plan is refused as a text and as a file, and nothing is written. Where the check is not asked, the text is that file's. The refusal stands
# in a comment above its record in the text that the file has, and that text is the file's again.
refuses() { # NUMBER INDEX LINE RECORD RULE TEXT RECORD...
    local said="refused $1 at record $2, '$4': $5"
    printf '%b' "$6" >r.steps
    records "${@:7}" >r.plan
    [ -z "$quick" ] || { gather "r.steps:$3: $said" r.steps; gather "r.plan: $said" r.plan; return; }
    expect 1 '' check r.steps r.plan
    complained "r.steps:$3: $said
r.plan: $said"
    expect 1 "refused $1 $2" list r.plan
    complained "r.plan: $said"
    expect 1 '' assemble r.steps -o made.plan --unchecked
    complained "r.steps:$3: $said"
    same made.plan r.plan
    # The rest once for each number.
    [[ $seen != *" $1 "* ]] || return
    seen+="$1 "
    expect 1 "refused $1 $2" list r.steps
    complained "r.steps:$3: $said"
    expect 1 '' run r.plan --keep none
    complained "r.plan: $said"
    expect 1 '' assemble r.steps -o none.plan
    complained "r.steps:$3: $said"
    expect 1 '' show r.plan -o none.html
    complained "r.plan: $said"
    absent none.*
    expect 1 any disassemble r.plan
    complained "r.plan: $said"
    cp "$scratch.said" made.steps
    grep -A 1 -e "^ *# refused $1: " made.steps | sed 's/^ *//' >"$scratch.place"
    [ "$(<"$scratch.place")" = "# refused $1: $5
$4" ] || fail "the text of $4 has: $(<"$scratch.place")"
    expect 1 '' assemble made.steps -o made.plan --unchecked
    same made.plan r.plan
    rm made.plan made.steps
}

# The only step of a plan of one worker.
step_refused() { # NUMBER RECORD RULE WORKER OP REGISTER NUMBER
    refuses "$1" 1 4 "$2" "$3" "workers 1\n\nworker 0\n  $2 # here\n" '1 0 0 0' "$4"
}

marks_and_places() {
    local mark='a record begins with the bytes 4D 50, and this one with' sleeper=14
    refuses 2 0 1 'record 4E 50 01 00 00 00 00' "$mark 4E 50" 'record 4E 50 01 00 00 00 00' 'bytes 4E 50 01 00 00 00 00'
    refuses 2 2 4 'record 4D 51 00 10 00 01 00' "$mark 4D 51" 'workers 1\nworker 0\nset r0 1\nrecord 4D 51 00 10 00 01 00\n' \
        '1 0 0 0' '0 16 0 1' 'bytes 4D 51 00 10 00 01 00'
    refuses 3 0 1 'workers 0' "$first" 'workers 0' '0 0 0 0'
    refuses 3 0 1 'workers 9' "$first" 'workers 9' '9 0 0 0'
    refuses 3 0 1 'record 4D 50 01 00 01 00 00' "$first$zeros" 'record 4D 50 01 00 01 00 00' '1 0 1 0'
    refuses 3 0 1 'record 4D 50 01 00 00 00 01' "$first$zeros" 'record 4D 50 01 00 00 00 01' '1 0 0 256'
    refuses 3 0 3 'exit' "$first" 'worker 0\n\n exit\n' '0 38 0 0'
    refuses 3 0 1 'barrier 0 size 1' "$first" 'barrier 0 size 1\n' '0 1 0 1'
    refuses 3 1 3 'workers 1' "$second" 'workers 1\n\nworkers 1\n' '1 0 0 0' '1 0 0 0'
    refuses 4 2 3 'barrier 0 size 1' "$sizes" 'workers 1\nbarrier 1 size 1\nbarrier 0 size 1\n' '1 0 0 0' '0 1 1 1' '0 1 0 1'
    refuses 4 2 3 'barrier 1 size 2' "$sizes" 'workers 1\nbarrier 1 size 1\nbarrier 1 size 2\n' '1 0 0 0' '0 1 1 1' '0 1 1 2'
    refuses 4 2 4 'barrier 1 size 1' "$sizes" 'workers 1\nworker 0\nexit\nbarrier 1 size 1\n' '1 0 0 0' '0 38 0 0' '0 1 1 1'
    refuses 4 2 3 'barrier 7 size 8' "$sizes" 'workers 2\nsleeper 1\nbarrier 7 size 8\n' '2 0 0 0' '1 2 0 0' '0 1 7 8'
    refuses 4 1 2 'barrier 8 size 1' "$sizes" 'workers 1\nbarrier 8 size 1\n' '1 0 0 0' '0 1 8 1'
    refuses 4 1 2 'barrier 7 size 0' "$sizes" 'workers 1\nbarrier 7 size 0\n' '1 0 0 0' '0 1 7 0'
    refuses 4 1 2 'barrier 7 size 9' "$sizes" 'workers 1\nbarrier 7 size 9\n' '1 0 0 0' '0 1 7 9'
    refuses 4 1 2 'record 4D 50 01 01 00 01 00' "$sizes$zeros" 'workers 2\nrecord 4D 50 01 01 00 01 00\n' '2 0 0 0' '1 1 0 1'
    refuses 5 1 3 'exit' 'the plan has the workers 0 to 1, and this is a step of worker 2' 'workers 2\nworker 2\nexit\n' '2 0 0 0' '2 38 0 0'
    refuses 5 1 3 'exit' 'the plan has the workers 0 to 1, and this is a step of worker 255' 'workers 2\nworker 255\nexit\n' '2 0 0 0' '255 38 0 0'
    refuses 5 2 5 'exit' "the workers' blocks ascend, and here worker 0 stands behind a greater one" \
        'workers 2\nworker 1\nexit\nworker 0\nexit\n' '2 0 0 0' '1 38 0 0' '0 38 0 0'
    refuses $sleeper 1 2 'sleeper 0' "$(sleeps 1)" 'workers 2\nsleeper 0\n' '2 0 0 0' '0 2 0 0'
    refuses $sleeper 1 2 'sleeper 2' "$(sleeps 1)" 'workers 2\nsleeper 2\n' '2 0 0 0' '2 2 0 0'
    refuses $sleeper 1 2 'sleeper 1' 'a plan of one worker has no sleepers' 'workers 1\nsleeper 1\n' '1 0 0 0' '1 2 0 0'
    refuses $sleeper 2 3 'sleeper 1' "$(sleeps 1)" 'workers 2\nsleeper 1\nsleeper 1\n' '2 0 0 0' '1 2 0 0' '1 2 0 0'
    refuses $sleeper 2 3 'sleeper 1' "$(sleeps 2)" 'workers 3\nsleeper 2\nsleeper 1\n' '3 0 0 0' '2 2 0 0' '1 2 0 0'
    refuses $sleeper 2 4 'sleeper 1' "$(sleeps 2)" 'workers 3\nworker 0\nexit\nsleeper 1\n' '3 0 0 0' '0 38 0 0' '1 2 0 0'
    refuses $sleeper 1 2 'record 4D 50 01 02 01 00 00' "$(sleeps 2)$zeros" 'workers 3\nrecord 4D 50 01 02 01 00 00\n' '3 0 0 0' '1 2 1 0'
    refuses $sleeper 1 2 'record 4D 50 01 02 00 00 01' "$(sleeps 2)$zeros" 'workers 3\nrecord 4D 50 01 02 00 00 01\n' '3 0 0 0' '1 2 0 256'
}

steps() {
    local word many
    # 15 stands for no step of worker 9 either: the op is tested first.
    refuses 6 1 2 'record 4D 50 09 0F 00 00 00' 'there is no op 15' 'workers 2\nrecord 4D 50 09 0F 00 00 00\n' '2 0 0 0' '9 15 0 0'
    step_refused 6 'record 4D 50 00 03 00 00 00' 'there is no op 3' '0 3 0 0'
    step_refused 6 'record 4D 50 00 17 00 00 00' 'there is no op 23' '0 23 0 0'
    step_refused 6 'record 4D 50 00 28 00 00 00' 'there is no op 40' '0 40 0 0'
    step_refused 6 'record 4D 50 00 FF 00 00 00' 'there is no op 255' '0 255 0 0'
    step_refused 7 'set r4 0' "'set' takes a register, r0 to r3, and a value, 0 to 65535" '0 16 4 0'
    step_refused 7 'load r4 from 0' "$loads" '0 17 4 0'
    step_refused 7 'load r0 from 2047' "$loads" '0 17 0 2047'
    step_refused 7 'store r0 at 65535' "'store' takes a register, r0 to r3, and an address, 0 to 2046" '0 18 0 65535'
    step_refused 7 'add r0 to r4' "'add' $adds" '0 19 4 0'
    step_refused 7 'add r256 to r0' "'add' $adds" '0 19 0 256'
    step_refused 7 'subtract r4 from r0' "'subtract' $adds" '0 20 0 4'
    step_refused 7 'subtract r0 from r255' "'subtract' $adds" '0 20 255 0'
    step_refused 7 'skip 0 if r0 is zero' "$skips" '0 21 0 0'
    step_refused 7 'skip 128 if r0 is not zero' "$skips" '0 22 0 128'
    step_refused 7 'skip 1 if r4 is zero' "$skips" '0 21 4 1'
    step_refused 7 'lock 16' "'lock' takes a lock, 0 to 15" '0 32 0 16'
    step_refused 7 'unlock 256' "'unlock' takes a lock, 0 to 15" '0 33 0 256'
    step_refused 7 'record 4D 50 00 20 01 00 00' "'lock' takes a lock, 0 to 15, and its other operand is 0" '0 32 1 0'
    step_refused 7 'wait 8' "'wait' takes a condition, 0 to 7" '0 34 0 8'
    step_refused 7 'signal 8' "'signal' takes a condition, 0 to 7" '0 35 0 8'
    step_refused 7 'broadcast 8' "'broadcast' takes a condition, 0 to 7" '0 36 0 8'
    step_refused 7 'barrier 8' "'barrier' takes a barrier, 0 to 7" '0 37 0 8'
    step_refused 7 'record 4D 50 00 26 00 01 00' "'exit' takes no operand: register and number are 0" '0 38 0 1'
    step_refused 7 'record 4D 50 00 26 01 00 00' "'exit' takes no operand: register and number are 0" '0 38 1 0'
    step_refused 7 'start 1' "'start' takes a worker, 0 to 0" '0 39 0 1'
    step_refused 9 'barrier 3' "barrier 3 has no size: 'barrier 3 size S' stands before the steps" '0 37 0 3'
    step_refused 10 'skip 1 if r0 is zero' "$lands 0 more" '0 21 0 1'
    refuses 10 1 4 'skip 2 if r1 is not zero' "$lands 1 more" 'workers 2\nworker 0\n\nskip 2 if r1 is not zero\nexit\nworker 1\nexit\nexit\n' \
        '2 0 0 0' '0 22 1 2' '0 38 0 0' '1 38 0 0' '1 38 0 0'
    # 10 is tested behind all else.
    refuses 9 2 4 'barrier 7' "barrier 7 has no size: 'barrier 7 size S' stands before the steps" 'workers 1\nworker 0\nskip 9 if r0 is zero\nbarrier 7\n' \
        '1 0 0 0' '0 21 0 9' '0 37 0 7'
    # The 129th step of worker 1. A worker's is tested before its operand.
    word=$(printf 'set r0 1\\n%.0s' {1..128})
    mapfile -t many < <(yes '1 16 0 1' | head -n 128)
    refuses 8 129 131 'lock 16' 'a worker has at most 128 steps' "workers 2\nworker 1\n${word}lock 16\n" '2 0 0 0' "${many[@]}" '1 32 0 16'
    rm -f r.steps r.plan made.plan
}

# Refusal 1 is about no record, and has no line.
lengths() {
    local length none='there is no record; a plan has 1 to 1040, and the first is its plan record'
    local above='there are more than 1040 records of 7 bytes, the most that a plan has'
    : >empty.steps
    for length in {0..20}; do
        head -c "$length" race.plan >cut.plan
        case $length in
        7 | 14)
            expect 0 "cut.plan: accepted, workers: 2, steps: $((length / 7 - 1))" check cut.plan
            expect 0 "$("$listing" <cut.plan)" list cut.plan
            ;;
        0)
            expect 1 '' check cut.plan
            complained "cut.plan: refused 1: $none"
            expect 1 "refused 1 0" list cut.plan
            ;;
        *)
            expect 1 '' check cut.plan
            complained "cut.plan: refused 1: the length $length is no whole number of records, each of which has 7 bytes"
            expect 1 "refused 1 0" list - <cut.plan
            ;;
        esac
    done
    expect 1 "workers 2

worker 0
    load r0 from 2
# refused 1: the length 20 is no whole number of records, each of which has 7 bytes
# no whole record: 4D 50 00 16 00 02" disassemble cut.plan
    expect 1 '' check empty.steps
    complained "empty.steps: refused 1: $none"
    expect 1 '' assemble empty.steps -o none.plan
    complained "empty.steps: refused 1: $none"
    absent none.plan
    expect 1 '' assemble empty.steps -o none.plan --unchecked
    [ -e none.plan ] && [ ! -s none.plan ] || fail "$last did not write an empty file"
    { head -c 7280 longest.plan; tail -c 7 longest.plan; } >cut.plan
    expect 1 '' run cut.plan --keep none
    complained "cut.plan: refused 1: $above"
    "${way[@]}" disassemble cut.plan 2>/dev/null >cut.steps
    expect 1 '' check cut.steps
    complained "cut.steps: refused 1: $above"
    expect 1 '' assemble cut.steps -o none.plan --unchecked
    same none.plan cut.plan
    head -c 10000000 /dev/zero >cut.plan
    expect 1 '' check cut.plan
    complained "cut.plan: refused 1: $above"
    expect 1 'refused 1 0' list cut.plan
    rm cut.plan cut.steps empty.steps none.plan
}

# Several plans: each is told, and the worst of them is the status.
several() {
    local refusal="refused 7 at record 1, 'load r0 from 2047': $loads"
    expect 1 'race.plan: accepted, workers: 2, steps: 8' check refused.plan race.plan wrong.steps
    complained "refused.plan: $refusal
wrong.steps:1:9: expected a number of workers, 1 to 8, found 'two'"
    expect 2 'race.plan: accepted, workers: 2, steps: 8' check nothing refused.steps race.plan
    complained "tampermauve: nothing: cannot be opened: No such file or directory
refused.steps:3: $refusal"
    expect 2 '' check refused.plan nothing
}

# ---- texts

wrong() { # TEXT ERROR...
    printf '%b' "$1" >e.steps
    [ -z "$quick" ] || { gather "$(printf 'e.steps:%s\n' "${@:2}")" e.steps; return; }
    expect 1 '' check e.steps
    complained "$(printf 'e.steps:%s\n' "${@:2}")"
}

right() { # TEXT STEPS
    [ -z "$quick" ] || return
    printf '%b' "$1" >e.steps
    expect 0 "e.steps: accepted, workers: 1, steps: $2" check e.steps
}

texts() {
    local address='expected an address, 0 to 2046, or the name of one, found' lock='expected a lock, 0 to 15, or the name of one, found'
    local barrier='expected a barrier, 0 to 7, or the name of one, found' count='expected a number of workers, 1 to 8, found' of='the end of the line'
    local seven='expected seven bytes, each as two hexadecimal digits, found' line='expected a statement or a step, found' block='workers 1\nworker 0\n'
    right 'workers 1' 0
    right 'workers 1\r\nworker 0\r\n\tset r0 1\r\n' 1
    right '# \0377\0000\nworkers\t1 # \0377\0000\nworker 0\nexit' 1
    right "${block}lock: lock 1\n  lock1 : unlock 0x01 # given back\n" 2
    right 'workers 1\nlock a = 1\ncondition a = 2\naddress a = 3\nbarrier a = 4 size 1\nworker 0\na:lock a\nwait a\nload r0 from a\nbarrier a' 4
    wrong 'workers\n' "1:8: $count $of"
    wrong 'workers two\n' "1:9: $count 'two'"
    wrong 'workers 256\n' "1:9: $count '256'"
    wrong 'workers 0x\n' "1:9: $count '0x'"
    wrong 'workers -1\n' "1:9: $count '-'"
    wrong 'workers 18446744073709551617\n' "1:9: $count '18446744073709551617'"
    wrong 'workers 1 2\n' "1:11: expected the end of the line, found '2'"
    wrong 'workers 1\rworker 0\n' "1:10: expected the end of the line, found the byte 0D"
    wrong 'Workers 1\n' "1:1: $line 'Workers'"
    wrong 'workers 1\n\0377\n' "2:1: $line the byte FF"
    wrong 'workers 1\nwor\0000ker 0\n' "2:1: $line 'wor'"
    wrong 'workers 1 \0000' '1:11: expected the end of the line, found the byte 00'
    wrong 'workers 1\nexit\n' "2:1: a step stands in a worker's block: 'worker W' is missing above it"
    wrong "${block}    skip 2 if r0 is nought" "3:21: expected 'zero' or 'not', found 'nought'"
    wrong "${block}load r0 from lft" "3:14: $address 'lft'"
    wrong "${block}set r0 65536" "3:8: expected a value, 0 to 65535, found '65536'"
    wrong "${block}set r256 0" "3:5: expected a register, r0 to r3, found 'r256'"
    wrong "${block}set 0 0" "3:5: expected a register, r0 to r3, found '0'"
    wrong "${block}add r0 from r1" "3:8: expected 'to', found 'from'"
    wrong "${block}exit 0" "3:6: expected the end of the line, found '0'"
    wrong "${block}lock door\nlock door = 3\n" "3:6: $lock 'door'"
    wrong "${block}lock\nskip if r0 is zero" "3:5: $lock $of" "4:6: expected a number of steps, 1 to 127, or 'to' and a label, found 'if'"
    wrong "${block}skip to done if r0 is zero\nexit\n" "3:9: 'done' is no label of this worker's block"
    wrong "${block}done:\n skip to done if r0 is zero\n" "4:10: 'done' stands above: a skip goes on to a label behind it"
    wrong "workers 2\nworker 0\nskip to done if r0 is zero\nexit\nworker 1\ndone:\n" "3:9: 'done' is no label of this worker's block"
    wrong "${block}done:\ndone: exit\n" "4:1: 'done' has been given on line 3"
    wrong 'workers 1\ndone:\n' "2:1: 'done' is a label, and a label stands in a worker's block"
    wrong 'address a = 1\naddress a = 1' "2:9: 'a' has been given on line 1"
    wrong 'address 1 = 1\naddress a 1\naddress a = 65536\n' "1:9: expected a name, found '1'" "2:11: expected '=', found '1'" "3:13: $address '65536'"
    wrong 'record 4D 50 01 00 00 00\nrecord 4D 50 01 00 00 00 0\nrecord 4D 50 01 00 00 00 00 00' "1:25: $seven $of" "2:26: $seven '0'" \
        "3:29: expected the end of the line, found '00'"
    # The barrier of a size is one byte, that of a step two.
    wrong 'workers 1\nbarrier 256 size 1\n' "2:9: $barrier '256'"
    # The first twenty are told.
    wrong "workers 1\n$(printf 'again\\n%.0s' {1..20})" "$(for number in {2..21}; do echo "$number:1: $line 'again'"; done | sed '2,$s/^/e.steps:/')"
    wrong "workers 1\n$(printf 'again\\n%.0s' {1..22})" "$(for number in {2..21}; do echo "$number:1: $line 'again'"; done | sed '2,$s/^/e.steps:/')" ' 2 errors more'
    rm e.steps
}

# At most 1 MiB and 10,000 names. A skip's number has two bytes.
text_limits() {
    { echo 'workers 1'; head -c 1048566 /dev/zero | tr '\000' '\n'; } >long.steps
    expect 0 'long.steps: accepted, workers: 1, steps: 0' check long.steps
    echo >>long.steps
    expect 2 '' check long.steps
    complained 'tampermauve: long.steps: is longer than 1048576 bytes, the most that a text has'
    cat long.steps long.steps >twice.steps
    expect 2 '' assemble twice.steps -o none.plan
    complained 'tampermauve: twice.steps: is longer than 1048576 bytes, the most that a text has'
    { echo 'workers 1'; seq -f 'address a%.0f = 1' 10000; } >long.steps
    expect 0 'long.steps: accepted, workers: 1, steps: 0' check long.steps
    echo 'lock one_more = 1' >>long.steps
    expect 1 '' check long.steps
    complained 'long.steps:10002:6: a text has at most 10000 names, and a block as many labels'
    { printf 'workers 1\nworker 0\nskip to far if r0 is zero\n'; yes exit | head -n 65536; echo 'far:'; } >long.steps
    expect 1 '' assemble long.steps -o none.plan --unchecked
    [[ $errors == long.steps:3:9:* ]] || fail "a skip of 65536 steps: $errors"
    absent none.plan
    rm long.steps twice.steps
}

# A text in place of a plan, and the other way round.
mistaken() {
    printf 'workers 1\nabc\n' >as.plan
    expect 1 '' check as.plan
    complained "as.plan: refused 2 at record 0, 'record 77 6F 72 6B 65 72 73': a record begins with the bytes 4D 50, and this one with 77 6F"
    expect 1 '' assemble race.plan -o none.plan
    [[ $errors == race.plan:1:1:* ]] || fail "$last said: $errors"
    expect 1 '' assemble wrong.steps -o none.plan --unchecked
    complained "wrong.steps:1:9: expected a number of workers, 1 to 8, found 'two'"
    expect 1 '' list wrong.steps
    expect 1 '' run wrong.steps --keep none
    expect 1 '' disassemble wrong.steps -o none.steps
    expect 1 '' show wrong.steps -o none.html
    absent none.*
    expect 1 '' assemble - -o none.plan < <(printf 'workers 1\nworker 0\n lock a')
    complained "standard input:3:7: expected a lock, 0 to 15, or the name of one, found 'a'"
    absent none.plan
    rm as.plan
}

# ---- words

usage='tampermauve COMMAND ..., where COMMAND is one of'
turns_of='[--turns FILE | --cycles | --seed N]'

helps() { # FIRST LINE, WORD...
    expect 0 any "${@:2}"
    [ "$(head -n 1 "$scratch.said")" = "$1" ] || fail "$last printed: $(<"$scratch.said")"
}

misused() { # COMPLAINT WORD...
    expect 2 '' "${@:2}"
    complained "tampermauve $2: $1; 'tampermauve $2 --help' tells more"
}

words() {
    local number command
    local one='of --turns, --cycles and --seed one can be given' once='standard input can be read once, and - is given more often'
    helps "$usage" --help
    helps 'tampermauve check PLAN...' check --help
    helps "tampermauve run PLAN [--memory FILE] $turns_of [--keep PREFIX]" run --help
    helps "tampermauve run PLAN [--memory FILE] $turns_of [--keep PREFIX]" run race.plan --keep none --help
    absent none.*
    helps 'tampermauve list PLAN' list --help
    helps 'tampermauve assemble TEXT -o PLAN [--unchecked]' assemble race.steps --help
    helps 'tampermauve disassemble PLAN [-o TEXT]' disassemble --help
    helps "tampermauve show PLAN -o PAGE [--memory FILE] $turns_of" show --help
    expect 2 ''
    [ "${errors%%$'\n'*}" = "$usage" ] || fail "no word: $errors"
    for number in frob '' -h --frob Check; do
        expect 2 '' "$number"
        [ "${errors%%$'\n'*}" = "tampermauve: '$number' is no command" ] || fail "$last said: $errors"
    done
    for number in '' -1 1x 99999999999999999999 18446744073709551616 +1 ' 1' 0x1 1.5; do
        expect 2 '' run race.plan --seed "$number" --keep none
        complained "tampermauve: '$number' is no seed, which is a number from 0 to 18446744073709551615"
    done
    for command in check run list disassemble; do misused 'a plan is missing' $command; done
    misused 'a plan is missing' show -o none
    misused 'a plan is missing' check --
    misused 'a text is missing' assemble -o none
    misused '-o is missing, with the file to write' assemble race.steps
    misused '-o is missing, with the file to write' show race.plan
    misused "'race.steps' is read, and cannot be written as well" assemble race.steps -o race.steps
    for command in run list disassemble; do misused "'all.plan' is one word too many" $command race.plan all.plan; done
    misused "'all.plan' is one word too many" show race.plan all.plan -o none
    misused "'all.steps' is one word too many" assemble race.steps all.steps -o none
    for command in check run list; do misused "'--frob' is no option here" $command race.plan --frob; done
    misused "'-x' is no option here" check -x race.plan
    misused "'--seed=1' is no option here" run race.plan --seed=1
    misused "'-o' is no option here" run race.plan -o none
    misused "'--memory' is no option here" list race.plan --memory zeros
    misused "'--seed' is no option here" check race.plan --seed 1
    misused "'--unchecked' is no option here" disassemble race.plan --unchecked
    misused "'--keep' is no option here" show race.plan -o none --keep none
    misused "'--cycles' is no option here" assemble race.steps -o none --cycles
    for number in --memory --turns --seed --keep; do misused "$number needs a value behind it" run race.plan $number; done
    misused '-o needs a value behind it' assemble race.steps -o
    misused '-o needs a value behind it' disassemble race.plan -o
    for number in --memory --turns --seed --keep; do misused "$number is given twice" run race.plan $number 1 $number 1; done
    misused '--cycles is given twice' run race.plan --cycles --cycles
    misused '--unchecked is given twice' assemble race.steps -o none --unchecked --unchecked
    misused '-o is given twice' assemble race.steps -o none -o none
    misused "$one" run race.plan --turns zeros --seed 1
    misused "$one" run race.plan --cycles --seed 1
    misused "$one" show race.plan -o none --turns zeros --cycles
    misused "$once" check - -
    misused "$once" run - --memory -
    misused "$once" run race.plan --memory - --turns -
    absent none none.*
    cp race.plan ./-odd.plan
    misused "'-odd.plan' is no option here" check -odd.plan
    expect 0 '-odd.plan: accepted, workers: 2, steps: 8' check -- -odd.plan
    expect 0 "$raced" run --cycles -- -odd.plan
    rm ./-odd.plan
}

# ---- files

# Nothing stands in for the old file but the whole new one.
written() {
    echo old >old.plan
    chmod 600 old.plan
    expect 0 '' assemble race.steps -o old.plan
    same old.plan race.plan
    [ "$(stat -c %a old.plan)" = 600 ] || fail "$last changed the mode to $(stat -c %a old.plan)"
    echo old >old.plan
    chmod 640 old.plan
    ln -s old.plan link.plan
    expect 0 '' assemble race.steps -o link.plan
    same old.plan race.plan
    [ -L link.plan ] && [ "$(stat -c %a old.plan)" = 640 ] || fail "$last replaced the link, or changed the mode"
    rm old.plan
    # The link's target is not there yet.
    expect 0 '' assemble race.steps -o link.plan
    [ -L link.plan ] && [ -f old.plan ] || fail "$last replaced a link that has no target"
    rm -f old.plan link.plan
    mkdir -p deep
    ln -s deep/second link.plan
    ln -s ../third.plan deep/second
    echo old >third.plan
    expect 0 '' assemble race.steps -o link.plan
    [ -L link.plan ] && [ -L deep/second ] || fail "$last replaced a link of two"
    same third.plan race.plan
    rm -rf third.plan deep link.plan
    ln -s loop.plan loop.plan
    expect 2 '' assemble race.steps -o loop.plan
    complained_so 'tampermauve: loop.plan: cannot be ' ': Too many levels of symbolic links'
    [ -L loop.plan ] || fail "$last replaced a link to itself"
    rm loop.plan
    (umask 027; "${way[@]}" assemble race.steps -o new.plan)
    [ "$(stat -c %a new.plan)" = 640 ] || fail "a new file has the mode $(stat -c %a new.plan) where the umask is 027"
    rm new.plan
}

devices() {
    local full='cannot be written: No space left on device'
    expect 0 '' assemble race.steps -o /dev/null
    [ -c /dev/null ] || fail "/dev/null is no device any more"
    expect 0 '' disassemble race.plan -o /dev/null
    expect 2 '' assemble race.steps -o /dev/full
    complained "tampermauve: /dev/full: $full"
    ln -s /dev/full link
    expect 2 '' disassemble race.plan -o link
    complained "tampermauve: link: $full"
    [ -L link ] && [ -c /dev/full ] || fail "$last replaced the device"
    rm link
    mkfifo pipe
    cat pipe >through &
    expect 0 '' assemble race.steps -o pipe
    wait $!
    same through race.plan
    [ -p pipe ] || fail "$last replaced the pipe"
    cat race.steps >pipe &
    expect 0 '' assemble pipe -o through
    wait $!
    same through race.plan
    mv pipe pipe.steps
    cat race.steps >pipe.steps &
    expect 0 "$raced" run pipe.steps
    wait $!
    rm pipe.steps through
    "${way[@]}" assemble race.steps -o /dev/stdout | cmp - race.plan || fail "assemble to /dev/stdout writes other bytes"
    # Standard output is full.
    for words in '--help' '--version' 'run --help' 'check race.plan' 'run race.plan' 'list race.plan' 'disassemble race.plan' 'show race.plan -o -' \
        'assemble race.steps -o -'; do
        # shellcheck disable=SC2086
        full_output $words
    done
}

full_output() { # WORD...
    local got=0
    runs=$((runs + 1))
    last="$* to a full device"
    "${way[@]}" "$@" >/dev/full 2>"$scratch.errors" || got=$?
    IFS= read -r -d '' errors <"$scratch.errors"
    [ $got -eq 2 ] || fail "$last ended with $got"
    complained 'tampermauve: standard output: cannot be written: No space left on device'
}

trouble() {
    local none='No such file or directory' folder='Is a directory' part command
    mkdir folder folder.steps
    for command in check run list disassemble; do
        expect 2 '' $command nothing
        complained "tampermauve: nothing: cannot be opened: $none"
        expect 2 '' $command folder
        complained "tampermauve: folder: cannot be read: $folder"
    done
    expect 2 '' check folder.steps
    complained "tampermauve: folder.steps: cannot be read: $folder"
    expect 2 '' assemble nothing.steps -o none.plan
    complained "tampermauve: nothing.steps: cannot be opened: $none"
    expect 2 '' run race.plan --memory nothing --keep none
    complained "tampermauve: nothing: cannot be opened: $none"
    expect 2 '' run race.plan --turns folder --keep none
    complained "tampermauve: folder: cannot be read: $folder"
    expect 2 '' show race.plan --turns nothing -o none.html
    complained "tampermauve: nothing: cannot be opened: $none"
    absent none.*
    expect 2 '' assemble race.steps -o nowhere/made.plan
    complained "tampermauve: nowhere/made.plan: cannot be written: $none"
    expect 2 '' disassemble race.plan -o nowhere/made.steps
    complained "tampermauve: nowhere/made.steps: cannot be written: $none"
    expect 2 '' show race.plan -o nowhere/made.html
    expect 2 any run race.plan --keep nowhere/made
    [[ $errors == 'tampermauve: nowhere/made.'*": cannot be written: $none"$'\n' ]] || fail "$last said: $errors"
    expect 2 '' assemble race.steps -o folder
    complained_so 'tampermauve: folder: cannot be ' ": $folder"
    expect 2 '' disassemble race.plan -o folder
    expect 2 '' show race.plan -o folder
    [ -z "$(ls -A folder)" ] || fail "$last wrote into the folder"
    # Of the four files that are kept one is impossible: the others stay as they were.
    for part in start memory log report; do
        rm -rf kept.* && mkdir kept.$part
        expect 2 any run race.plan --keep kept
        complained_so "tampermauve: kept.$part: cannot be " ": $folder"
        [ "$(echo kept.*)" = kept.$part ] || fail "kept.$part is a folder, and there is $(echo kept.*)"
        rm -rf kept.*
        for command in start memory log report; do echo old >kept.$command; done
        rm kept.$part && mkdir kept.$part
        expect 2 any run race.plan --keep kept
        for command in start memory log report; do
            [ $command = $part ] || [ "$(tr -d '\000' <kept.$command)" = old ] || fail "kept.$part is a folder, and kept.$command is new"
        done
    done
    rm -rf kept.* folder folder.steps
}

# A file that may have only so many blocks: the old one stays, and nothing stands beside it.
cramped() { # BLOCKS WORD...
    local got parts
    runs=$((runs + 1))
    last="with $1 blocks ${*:2}"
    { (ulimit -f "$1"; exec "${way[@]}" "${@:2}") 2>&1 >/dev/null; } | cat >"$scratch.errors"
    got=${PIPESTATUS[0]}
    IFS= read -r -d '' errors <"$scratch.errors"
    [ "$got" -eq 2 ] || fail "$last ended with $got"
    complained_so 'tampermauve: ' ': cannot be written: File too large'
    parts=(*.part*)
    [ ${#parts[@]} -eq 0 ] || { fail "$last left ${parts[*]}"; rm -f "${parts[@]}"; }
}

no_space() {
    local part
    echo old >old.plan
    cramped 0 assemble race.steps -o old.plan
    [ "$(<old.plan)" = old ] || fail "$last changed the file"
    cramped 1 disassemble longest.plan -o old.plan
    [ "$(<old.plan)" = old ] || fail "$last changed the file"
    cramped 0 assemble race.steps -o new.plan
    cramped 1 disassemble longest.plan -o new.plan
    absent new.plan
    # The first two of the four have room.
    cramped 4 run race.plan --keep new
    absent new.start new.memory new.log new.report
    for part in start memory log report; do echo old >new.$part; done
    cramped 4 run race.plan --keep new
    for part in start memory log report; do [ "$(tr -d '\000' <new.$part)" = old ] || fail "$last changed new.$part"; done
    rm old.plan new.*
}

unreadable() {
    if [ "$(id -u)" -eq 0 ]; then
        [ "$name" != plain ] || echo "command: whoever runs this may read every file; one that cannot be read is not tried"
        return
    fi
    cp race.plan shut.plan
    chmod 0 shut.plan
    expect 2 '' check shut.plan
    complained 'tampermauve: shut.plan: cannot be opened: Permission denied'
    mkdir shut
    chmod 500 shut
    expect 2 '' assemble race.steps -o shut/new.plan
    complained 'tampermauve: shut/new.plan: cannot be written: Permission denied'
    rm -rf shut shut.plan
}

# ---- input without an end, and a terminal

endless() {
    local above='refused 1: there are more than 1040 records of 7 bytes, the most that a plan has' text='is longer than 1048576 bytes, the most that a text has'
    expect 1 '' check /dev/zero
    complained "/dev/zero: $above"
    expect 1 'refused 1 0' list - < <(yes)
    complained "standard input: $above"
    expect 1 '' run - </dev/zero
    expect 2 '' assemble - -o none.plan < <(yes '#')
    complained "tampermauve: standard input: $text"
    expect 2 '' assemble /dev/zero -o none.plan
    complained "tampermauve: /dev/zero: $text"
    expect 2 '' run race.plan --memory /dev/zero
    complained 'tampermauve: /dev/zero: has more than 2048 bytes, and a memory has 2048'
    expect 1 '' run race.plan --turns /dev/zero
    complained '/dev/zero: refused 12: a list of turns has at most 65535'
    absent none.plan
}

# Runs the command with a terminal for its input and output, and leaves what that shows.
at_terminal() { # INPUT WORD...
    local line
    runs=$((runs + 1))
    last="at a terminal ${*:2}"
    printf -v line '%q ' "${way[@]:2}" "${@:2}"
    shown=$(printf '%b' "$1" | timeout 20 script -qec "$line; echo ended with \$?" /dev/null | tr -d '\r\004\010')
}

terminal() {
    local shown
    at_terminal '' assemble race.steps -o -
    [[ $shown == *'tampermauve: a plan file is no text for a terminal; name a file behind -o
ended with 2' ]] || fail "assemble to a terminal: $shown"
    [[ $shown != *MP* ]] || fail "assemble wrote a plan to a terminal"
    at_terminal '' disassemble race.plan
    [[ $shown == *"$race_back
ended with 0" ]] || fail "disassemble to a terminal: $shown"
    at_terminal 'workers 1\nworker 0\nexit\n\0004' assemble - -o typed.plan
    [[ $shown == *'ended with 0' ]] || fail "a text from a terminal: $shown"
    bytes typed.plan '4d 50 01 00 00 00 00 4d 50 00 26 00 00 00'
    at_terminal 'MP\n\0004' check -
    [[ $shown == *'standard input: refused 1: the length 3 is no whole number of records, each of which has 7 bytes
ended with 1' ]] || fail "a plan from a terminal: $shown"
    rm -f typed.plan
}

# ---- the list

# Under valgrind all refused plans and texts with errors are checked in one run. Keeps the file, and what is said of it.
gather() { # COMPLAINT FILE
    local kept=${#gathered[@]}.$2
    mv "$2" "$kept"
    touch "$2"
    gathered+=("$kept")
    complaints+="${1//$2:/$kept:}"$'\n'
}

valgrind_list() {
    gathered=()
    complaints=
    marks_and_places
    steps
    texts
    expect 1 '' check "${gathered[@]}"
    complained "${complaints%$'\n'}"
    good
    plays
    turns
    memories
    several
    mistaken
    expect 0 "$from_ones" run adders.plan --memory ones --keep kept --seed 4
    expect 1 any disassemble refused.plan
    expect 1 any list "${gathered[0]}"
    expect 2 '' run race.plan --memory
    expect 2 any run race.plan --keep nowhere/made
    expect 2 '' assemble race.steps -o /dev/full
}

# What under valgrind would take too long or says nothing more is left out there.
test_all() { # NAME QUICK WAY...
    name=$1
    quick=$2
    way=("${@:3}")
    runs=0
    scratch=$work/$name
    seen=' '
    mkdir "$work/$name" && cd "$work/$name" || exit 2
    make_files
    if [ -n "$quick" ]; then
        valgrind_list
        return
    fi
    good
    pages
    there_and_back
    listings
    keeps
    plays
    turns
    memories
    marks_and_places
    steps
    lengths
    several
    texts
    text_limits
    mistaken
    words
    written
    devices
    trouble
    no_space
    unreadable
    endless
    if type -P script >/dev/null; then terminal; else echo "command: script is not there; no terminal is tried"; fi
}

test_all plain '' timeout 20 "$command"
count=$runs
ways=plain
if type -P valgrind >/dev/null; then
    before=$failures
    {
        test_all valgrind quick timeout 60 valgrind --quiet --error-exitcode=99 --leak-check=full "$command"
        exit $((failures > before))
    } &
    beside=$!
fi
if [ -n "$sanitized" ]; then
    test_all sanitized '' timeout 20 "$sanitized"
    [ "$runs" -eq "$count" ] || fail "$runs runs, where the command as it is had $count"
    ways='plain and sanitized'
fi
if [ -n "${beside:-}" ]; then
    wait "$beside" || failures=$((failures + 1))
    ways="${ways/ and/,} and under valgrind as expected"
else
    ways="$ways as expected; valgrind is not there"
fi
[ "$failures" -eq 0 ] || { echo "command: $failures things are not as expected" >&2; exit 1; }
echo "command: $count runs, $ways"
