#!/usr/bin/env bash
# Makes pages of five plans, opens them in a browser without a screen and measures them there: no text wider than its lane, none
# on another text or a drawing, nothing beyond the window, and for every record of the log its row and its mark. The log comes
# from another subcommand. Screenshots stay in build/page.
# Usage: tests/page.sh COMMAND, where COMMAND has the subcommands `show PLAN -o PAGE` and `run PLAN --keep PREFIX`
set -eu -o pipefail
command=$(realpath "${1:?names no command}")
cd "$(dirname "${BASH_SOURCE[0]}")/.."
pages=build/page
mkdir -p "$pages"
work=$(mktemp -d)
trap 'rm -rf "$work"' EXIT

fail() {
    echo "page: $*" >&2
    exit 1
}

browser=$(command -v chromium || command -v chromium-browser || command -v google-chrome) || fail "there is no Chromium here; it is the Debian package chromium"

# PAGE, then options
browse() {
    timeout 120 "$browser" --headless --no-sandbox --disable-gpu --hide-scrollbars --user-data-dir="$work/browser" "${@:2}" \
        "file://$(realpath "$1")" 2>"$work/browser-says" || fail "the browser fails on $1: $(tail -n 3 "$work/browser-says")"
}

# Eight workers with 128 steps each, as text: a barrier of seven, a sleeper that is started, waits, signals, broadcasts, nested locks, and
# commits of many bytes.
crowd() {
    awk '
    function step(text) { print text; steps++ }
    function stores(turn,   i) {
        for (i = 0; i < 4; i++) {
            step("set r1 " (worker * 4000 + turn * 771 + i * 3) % 65536)
            step("store r1 at " worker * 2 + 16 * ((turn * 5 + i) % 100))
        }
        step("signal " turn % 8)
    }
    function nested() { step("lock 3"); step("lock 12"); step("unlock 3"); step("unlock 12") }
    function told(turn) { step("lock " turn % 16); step("broadcast " turn % 8); step("unlock " turn % 16) }
    BEGIN {
        print "workers 8"; print "barrier 0 size 7"; print "sleeper 7"
        for (worker = 0; worker < 8; worker++) {
            print "worker " worker
            steps = 0
            if (worker < 7) step("barrier 0")
            if (worker == 0) step("start 7")
            if (worker < 3) { step("lock 2"); step("wait " worker); step("unlock 2") }
            for (turn = 0; steps < 118; turn++) {
                kind = (turn * 7 + worker * 3) % 61
                if (kind < 1 && ++stored <= 4) stores(turn)
                else if (kind < 6) told(turn)
                else if (kind < 9) nested()
                else if (kind < 10) step("start " (worker + 1) % 8)
                else step("signal " (turn + worker) % 8)
            }
            while (steps < 128) step("signal 1")
        }
    }'
}

# The records of a log file, as measure.js takes them: up to the zeros behind them.
records_of() { # LOG
    od -An -v -w8 -tu1 "$1" | awk '$1 == 77 && $2 == 76 { printf("%s[%d,%d,%d,%d,%d]", (NR > 1 ? "," : ""), $3 + 256 * $4, $5, $6, $7, $8) }'
}

count_of() { # LOG
    od -An -v -w8 -tu1 "$1" | grep -c '^ *77 *76'
}

measured() { # NAME WAY WIDTH ON-PAPER LIMIT SED-SCRIPT
    local copy="$work/$1.$2.$3.html" found="$work/found"
    sed "$6" "$pages/$1.html" >"$copy"
    {
        echo "<script>const expected = { onPaper: $4, pictureLimit: $5,"
        echo "records: [$(records_of "$pages/$1.log")] };</script><script>"
        cat tests/page/measure.js
        echo "</script>"
    } >>"$copy"
    browse "$copy" --window-size="$3,900" --virtual-time-budget=60000 --dump-dom >"$found"
    grep -q "measured $3 wide:" "$found" || fail "$1 is not measured ($2, $3 wide)"
    grep -q '^end of measuring' "$found" || fail "$1 is not measured to the end ($2, $3 wide)"
    if grep -q '^wrong ' "$found"; then
        echo "page: $1, $2, $3 wide:" >&2
        sed -n 's/^wrong /    /p' "$found" | head -n 12 >&2
        fail "$(grep -c '^wrong ' "$found") faults in $pages/$1.html"
    fi
}

# The rules for paper, on the screen: what is printed cannot be measured itself.
on_paper='s/@media print{@page{margin:12mm}/@media all{/'

# On A4 with these margins a page is 1,032 by 703 pixels, or 703 by 1,032.
measure_page() { # NAME
    measured "$1" "on the screen" 1280 false 0 ''
    measured "$1" "on the screen" 800 false 0 ''
    grep -q '@media print{@page{margin:12mm}' "$pages/$1.html" || fail "$1 has no rules for paper where they are looked for"
    measured "$1" "on paper" 1032 true 703 "$on_paper"
    measured "$1" "on paper" 703 true 1032 "$on_paper"
}

print_page() { # NAME
    browse "$pages/$1.html" --no-pdf-header-footer --print-to-pdf="$pages/$1.pdf"
    [ "$(head -c 4 "$pages/$1.pdf")" = %PDF ] || fail "$1 is not printed"
    sed 's/@page{margin:12mm}/@page{margin:12mm;size:A4 landscape}/' "$pages/$1.html" >"$work/landscape.html"
    browse "$work/landscape.html" --no-pdf-header-footer --print-to-pdf="$pages/$1-landscape.pdf"
    if command -v pdftoppm >/dev/null; then
        pdftoppm -r 70 -png -f 1 -l 3 "$pages/$1-landscape.pdf" "$pages/$1-landscape"
    fi
}

picture_page() { # NAME
    browse "$pages/$1.html" --window-size=1280,2400 --screenshot="$pages/$1-1280.png"
    browse "$pages/$1.html" --window-size=800,2400 --screenshot="$pages/$1-800.png"
    for width in 1280 800; do
        [ -s "$pages/$1-$width.png" ] || fail "there is no screenshot of $1, $width wide"
    done
}

count=0
records=0
show_page() { # PLAN NAME
    "$command" show "$1" -o "$pages/$2.html" || fail "show fails on $1"
    rm -f "$pages/$2.log"
    "$command" run "$1" --keep "$pages/$2" >"$work/run-says" || fail "run fails on $1"
    measure_page "$2"
    picture_page "$2"
    print_page "$2"
    count=$((count + 1))
    records=$((records + $(count_of "$pages/$2.log")))
}

crowd >"$work/crowd.steps"
for plan in plans/race.steps plans/broadcast.steps plans/start-last.steps plans/wrong-unlock.steps "$work/crowd.steps"; do
    show_page "$plan" "$(basename "$plan" .steps)"
done
echo "page: $count pages, $records log records, nothing overflows or overlaps"
